//! The bench program's lines, from docs/BENCH.md, "Bench program".

use crate::sheets::{self, Frame, Sheet};

pub fn lines(input: &[u8]) -> String {
    match sheets::of(input) {
        Ok(sheets) => sheets
            .zip(1..)
            .map(|(sheet, number)| format!("{number} {}\n", told(&sheet)))
            .collect(),
        Err(refusal) => record_refused(refusal),
    }
}

/// The one line for a record that is refused.
pub fn record_refused(refusal: i16) -> String {
    format!("state refused {refusal}\n")
}

fn told(sheet: &Sheet) -> String {
    match sheet {
        Sheet::Accepted(frame) => shown(frame),
        Sheet::Refused { refusal, place } => format!("refused {refusal} {place}"),
        Sheet::Cut => "cut".to_string(),
    }
}

fn shown(frame: &Frame) -> String {
    let flags = frame.flags();
    let digits: String = flags.iter().map(|flag| flag.to_string()).collect();
    let peak = frame.peak();
    let mark = if peak >= 32760 {
        'L'
    } else if flags.contains(&1) {
        'R'
    } else {
        '-'
    };
    format!("{digits} {peak} {mark}")
}
