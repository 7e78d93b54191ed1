//! The sheet that is being decoded. The patched places of the published code look their numbers
//! up here, by the number of the subframe.
#![warn(unused, clippy::all)]

use super::{
    SUBFRAME_SAMPLES, SUBFRAMES,
    gain::Gains,
    spectral::{Spectrum, lsf_to_lsp},
};
use crate::{SHEET, at, part};
use std::cell::Cell;

thread_local! {
    static CURRENT: Cell<[i16; SHEET]> = const { Cell::new([0; SHEET]) };
}

pub fn set(sheet: &[i16; SHEET]) {
    CURRENT.set(*sheet);
}

fn place(subframe: u16) -> usize {
    let subframe = usize::from(subframe);
    assert!(subframe < SUBFRAMES, "a sheet has four subframes");
    subframe
}

pub fn spectrum() -> Spectrum {
    let lsf_q15 = part(&CURRENT.get(), 0);
    let lsp_q15 = lsf_to_lsp(&lsf_q15).expect("the sheet's LSFs were tested");
    Spectrum { lsf_q15, lsp_q15 }
}

pub fn gains(subframe: u16) -> Gains {
    let [pitch_q14, code_q1] = part(&CURRENT.get(), at::GAINS + 2 * place(subframe));
    Gains { pitch_q14, code_q1 }
}

pub fn innovation(subframe: u16) -> [i16; SUBFRAME_SAMPLES] {
    part(
        &CURRENT.get(),
        at::INNOVATION + SUBFRAME_SAMPLES * place(subframe),
    )
}
