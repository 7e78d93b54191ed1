//! The published Rust of the MR74 sample path as a reference: its stages one by one, the frame
//! calls built from them, and the recorded answers that they give.
// Three files of ours stand in each tree of published modules.
#![allow(clippy::duplicate_mod)]

/// The published modules as `build.rs` leaves them, and four of ours among them.
#[allow(dead_code, unused, unreachable_code, clippy::all)]
pub mod mr74 {
    include!(concat!(env!("OUT_DIR"), "/reference/mr74/mod.rs"));
    pub mod erased;
    pub mod places;
    pub mod sheet;
    pub mod stages;
    pub mod state;
}

/// The same modules with the codebook and the gain decoder as published.
#[allow(dead_code, unused, clippy::all)]
pub mod indexed {
    include!(concat!(env!("OUT_DIR"), "/indexed/mr74/mod.rs"));
    #[path = "../mr74/places.rs"]
    pub mod places;
    #[path = "../mr74/sheet.rs"]
    pub mod sheet;
    pub mod source;
    #[path = "../mr74/state.rs"]
    pub mod state;
}

/// The same modules with the gain decoder as published and its tables lent, for index sheets.
#[allow(dead_code, unused, clippy::all)]
pub mod lent {
    include!(concat!(env!("OUT_DIR"), "/lent/mr74/mod.rs"));
    #[path = "../mr74/places.rs"]
    pub mod places;
    #[path = "../mr74/sheet.rs"]
    pub mod sheet;
    pub mod stages;
    #[path = "../mr74/state.rs"]
    pub mod state;
    pub mod tables;
}

pub mod agree;
pub mod bench;
pub mod coverage;
pub mod damage;
pub mod draw;
pub mod examples;
pub mod files;
pub mod frame;
pub mod gain;
pub mod model;
pub mod program;
pub mod random;
pub mod record;
pub mod report;
pub mod sheets;
pub mod tally;
#[cfg(test)]
mod tests;
pub mod values;

pub const LSFS: usize = 10;
/// The gap of refusal 6: LSF_GAP of the standard.
pub const LSF_GAP: i16 = 205;
pub const ROW: usize = 11;
pub const SUBFRAME: usize = 40;
pub const SUBFRAMES: usize = 4;
pub const FRAME: usize = SUBFRAME * SUBFRAMES;
pub const PAST: usize = 154;
pub const SHEET: usize = 182;
/// The sheet that has indices of gains, four for the eight gains.
pub const INDEX_SHEET: usize = 178;
/// The sheet of an erased frame.
pub const ERASED_SHEET: usize = 171;
pub const STATE: usize = 213;
/// The state's fields that hold gains: the fives, the past gains, the last good pair.
pub const GAIN_FIELDS: usize = 14;
/// The postfilter's part of the state: input, output, residual, smoothed gain.
pub const MEMORY: usize = 22;

/// What a version 1 record of zeros gives: zeros but for the last lag.
pub const ZEROS: [i16; STATE] = {
    let mut state = [0; STATE];
    state[at::LAST_LAG] = 40;
    state
};

/// The place of a pass in which no step clamped.
pub const NOWHERE: i16 = SUBFRAME as i16;

/// A subframe's flag, from the place of its first pass.
pub fn flag(place: i16) -> i16 {
    i16::from(place != NOWHERE)
}

/// Where the parts of the sheet and of the state begin.
pub mod at {
    // The sheets; their LSFs begin at 0. What stands for the gains are gains or their indices.
    pub const PITCH: usize = 10;
    pub const GAINS: usize = 14;
    pub const INNOVATION: usize = 22;
    /// The index sheet's.
    pub const INDEXED_INNOVATION: usize = 18;
    /// The erased sheet's.
    pub const STAGE: usize = 10;
    pub const ERASED_INNOVATION: usize = 11;
    // The state; its previous LSPs begin at 0.
    pub const PAST: usize = 10;
    pub const SHARPENING: usize = 164;
    pub const HISTORY: usize = 165;
    pub const MEMORY: usize = 175;
    pub const GAIN: usize = 196;
    pub const LAST_LAG: usize = 197;
    /// Five pitch gains, five code gains, past gains, last good pair.
    pub const GAIN_FIELDS: usize = 198;
    pub const ERASED: usize = 212;
}

/// Copies `N` numbers from `from` on.
pub fn part<const N: usize>(numbers: &[i16], from: usize) -> [i16; N] {
    numbers[from..from + N]
        .try_into()
        .expect("the stretch has the length that was asked for")
}

/// Four rows of eleven from 44 numbers.
pub fn rows(numbers: &[i16]) -> [[i16; ROW]; SUBFRAMES] {
    std::array::from_fn(|subframe| part(numbers, subframe * ROW))
}
