//! The programs' input, from docs/BENCH.md, "Bench program": a record of version 1, then sheets, each decoded with the
//! state that the one before gave back.

use crate::{FRAME, SHEET, STATE, SUBFRAMES, flag, frame, record};

/// A sheet as bytes.
pub const BYTES: usize = 2 * SHEET;

/// What an accepted sheet gave: the place of each first pass, and the samples.
pub struct Frame {
    pub places: [i16; SUBFRAMES],
    pub samples: [i16; FRAME],
}

impl Frame {
    pub fn flags(&self) -> [i16; SUBFRAMES] {
        self.places.map(flag)
    }

    /// The largest distance from zero among the samples.
    pub fn peak(&self) -> u16 {
        let distances = self.samples.iter().map(|sample| sample.unsigned_abs());
        distances.max().expect("a frame has 160 samples")
    }

    pub fn largest(&self) -> i16 {
        *self.samples.iter().max().expect("a frame has 160 samples")
    }
}

pub enum Sheet {
    Accepted(Box<Frame>),
    Refused { refusal: i16, place: i16 },
    Cut,
}

impl Sheet {
    pub fn frame(self) -> Option<Frame> {
        match self {
            Sheet::Accepted(frame) => Some(*frame),
            Sheet::Refused { .. } | Sheet::Cut => None,
        }
    }
}

/// The next sheet; the state goes on.
fn next(state: &mut [i16; STATE], bytes: &[u8]) -> Sheet {
    if bytes.len() < BYTES {
        return Sheet::Cut;
    }
    let (pairs, _) = bytes.as_chunks::<2>();
    let sheet: Vec<i16> = pairs.iter().map(|&pair| i16::from_le_bytes(pair)).collect();
    let mut samples = [0; FRAME];
    let answer = frame::frame(&sheet, state, &mut samples);
    *state = answer.state;
    if answer.refusal == 0 {
        let places = answer.places;
        Sheet::Accepted(Box::new(Frame { places, samples }))
    } else {
        Sheet::Refused {
            refusal: answer.refusal,
            place: answer.place,
        }
    }
}

/// The sheets of an input, or the number of its record's refusal.
pub fn of(input: &[u8]) -> Result<impl Iterator<Item = Sheet>, i16> {
    let (first, rest) = input.split_at(input.len().min(record::first::RECORD));
    let read = record::read(first);
    if read.refusal != 0 {
        return Err(read.refusal);
    }
    let sheets = rest.chunks(BYTES);
    Ok(sheets.scan(read.state, |state, bytes| Some(next(state, bytes))))
}

/// The frames of an input's accepted sheets; none where its record is refused.
pub fn frames(input: &[u8]) -> Vec<Frame> {
    let sheets = of(input).into_iter().flatten();
    sheets.filter_map(Sheet::frame).collect()
}
