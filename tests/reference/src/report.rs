//! The shift report's line, from docs/BENCH.md, "Shift report": counts and sums over the list of sheets.

use crate::{
    NOWHERE, bench, record,
    sheets::{self, Frame, Sheet},
};

/// A sheet beyond these is not read.
pub const LIMIT: usize = 65_535;

/// The longest input that is read whole.
pub const BYTES: usize = record::first::RECORD + LIMIT * sheets::BYTES;

pub fn line(input: &[u8]) -> String {
    match sheets::of(input) {
        Ok(sheets) => totals(sheets.take(LIMIT).collect()),
        Err(refusal) => bench::record_refused(refusal),
    }
}

/// Accepted sheets, refused sheets, retried subframes, squares of all samples, mean peak.
fn totals(sheets: Vec<Sheet>) -> String {
    let is_refused = |sheet: &&Sheet| matches!(sheet, Sheet::Refused { .. });
    let refused = sheets.iter().filter(is_refused).count();
    let frames: Vec<Frame> = sheets.into_iter().filter_map(Sheet::frame).collect();
    let accepted = frames.len();
    let places = frames.iter().flat_map(|frame| frame.places);
    let retried = places.filter(|&place| place != NOWHERE).count();
    let samples = frames.iter().flat_map(|frame| frame.samples);
    let squares: i64 = samples.map(|sample| i64::from(sample).pow(2)).sum();
    let peaks: Vec<u16> = frames.iter().map(Frame::peak).collect();
    let mean = mean(&peaks).map_or("none".to_string(), |mean| mean.to_string());
    format!("{accepted} {refused} {retried} {squares} {mean}\n")
}

/// Rounded down; none of no peaks.
pub fn mean(peaks: &[u16]) -> Option<u64> {
    let sum: u64 = peaks.iter().map(|&peak| u64::from(peak)).sum();
    sum.checked_div(peaks.len() as u64)
}
