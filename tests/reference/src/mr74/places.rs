//! Where a synthesis first clamped: the first sample at which one of its steps did, 40 where none
//! did. Two patched lines of the published code tell it here by value; nothing goes back to them.
#![warn(unused, clippy::all)]

use super::{SUBFRAMES, decoder::Frame, synthesis::Output};
use crate::{NOWHERE, flag};
use std::cell::Cell;

thread_local! {
    /// Of the latest pass, whoever ran it.
    static LATEST: Cell<i16> = const { Cell::new(NOWHERE) };
    /// Of the first passes of the latest frame.
    static FIRST: Cell<[i16; SUBFRAMES]> = const { Cell::new([NOWHERE; SUBFRAMES]) };
}

/// After the steps of a sample: whether a step of the pass has clamped so far.
pub fn note(sample: usize, overflowed: bool) {
    if sample == 0 {
        LATEST.set(NOWHERE);
    }
    if overflowed && LATEST.get() == NOWHERE {
        LATEST.set(sample as i16);
    }
}

/// After a subframe's first pass, before any other.
pub fn keep(subframe: usize) {
    let mut places = FIRST.get();
    places[subframe] = LATEST.get();
    FIRST.set(places);
}

/// The place of the pass that gave this output; no pass has run since.
pub fn of_pass(output: &Output) -> i16 {
    let place = LATEST.get();
    assert_eq!(flag(place), i16::from(output.overflowed));
    place
}

/// The places of the first passes of this frame; no frame was decoded since.
pub fn of_frame(frame: &Frame) -> [i16; SUBFRAMES] {
    let places = FIRST.get();
    assert_eq!(places.map(flag), frame.overflow_retries.map(i16::from));
    places
}
