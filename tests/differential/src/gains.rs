//! The calls that are lent tables: the frame call of an index sheet, and the call of a gain index.

use crate::{Lent, UNFIT, bytes, code, ffi, put, whole_words};
use reference::{
    INDEX_SHEET, STATE, SUBFRAME,
    frame::{self, EnergyAnswer},
    gain::{self, ENERGIES},
};

pub const INDEX_SHEET_BYTES: usize = 2 * INDEX_SHEET;
pub const TABLE_BYTES: usize = 2 * gain::TABLE;
pub const ENERGIES_BYTES: usize = 2 * ENERGIES;
pub const INNOVATION_BYTES: usize = 2 * SUBFRAME;
pub const GAINS_BYTES: usize = 4;

/// The tables that a call is lent, as bytes.
#[derive(Debug, Clone, PartialEq, Eq)]
pub struct Tables {
    pub logs: Vec<u8>,
    pub pows: Vec<u8>,
}

impl Tables {
    pub fn new(logs: &[i16], pows: &[i16]) -> Self {
        Self {
            logs: bytes(logs),
            pows: bytes(pows),
        }
    }

    fn numbers(&self) -> [Vec<i16>; 2] {
        [whole_words(&self.logs), whole_words(&self.pows)]
    }
}

fn lent([logs, pows]: &[Vec<i16>; 2]) -> gain::Tables<'_> {
    gain::Tables { logs, pows }
}

/// What is lent to the frame call of an index sheet or of an erased sheet and changed, and what it
/// returns.
#[derive(Debug, Clone, PartialEq, Eq)]
pub struct WithEnergies {
    pub frame: Lent,
    pub energies: Vec<u8>,
}

impl WithEnergies {
    /// Every buffer but state and energies is filled with a mark.
    pub fn new(state: &[i16], energies: &[i16], mark: u8) -> Self {
        Self {
            frame: Lent::new(state, mark),
            energies: bytes(energies),
        }
    }

    /// The static library's call of an index sheet.
    pub fn ours(&mut self, sheet: &[u8], tables: &Tables) {
        let frame = &mut self.frame;
        frame.code = unsafe {
            ffi::mr74_frame_indexed(
                sheet.as_ptr(),
                sheet.len(),
                frame.state.as_mut_ptr(),
                frame.state.len(),
                frame.out.as_mut_ptr(),
                frame.out.len(),
                frame.rows.as_mut_ptr(),
                frame.rows.len(),
                frame.places.as_mut_ptr(),
                frame.places.len(),
                tables.logs.as_ptr(),
                tables.logs.len(),
                tables.pows.as_ptr(),
                tables.pows.len(),
                self.energies.as_mut_ptr(),
                self.energies.len(),
            )
        };
    }

    /// The reference's answer to the same bytes.
    pub fn reference(&mut self, sheet: &[u8], tables: &Tables) {
        let tables = tables.numbers();
        self.answer(|state, energies, samples| {
            frame::frame_indexed(&whole_words(sheet), state, lent(&tables), energies, samples)
        });
    }

    /// What an answer leaves; it is asked for where the energies have their length, too.
    pub(crate) fn answer(
        &mut self,
        answer: impl FnOnce(&[i16; STATE], &[i16; ENERGIES], &mut [i16]) -> EnergyAnswer,
    ) {
        let Ok(mut energies) = whole_words(&self.energies).try_into() else {
            self.frame.code = UNFIT;
            return;
        };
        self.frame.answer(|state, samples| {
            let answer = answer(state, &energies, samples);
            energies = answer.energies;
            answer.frame
        });
        put(&mut self.energies, &energies);
    }
}

/// What is lent to the call of a gain index and changed, and what it returns.
#[derive(Debug, Clone, PartialEq, Eq)]
pub struct Decoded {
    pub code: u32,
    pub energies: Vec<u8>,
    pub gains: Vec<u8>,
}

impl Decoded {
    /// The gains are filled with a mark.
    pub fn new(energies: &[i16], mark: u8) -> Self {
        Self {
            code: 0,
            energies: bytes(energies),
            gains: vec![mark; GAINS_BYTES],
        }
    }

    /// The call of the static library.
    pub fn ours(&mut self, index: i16, innovation: &[u8], tables: &Tables) {
        self.code = unsafe {
            ffi::mr74_gain_decode(
                index,
                innovation.as_ptr(),
                innovation.len(),
                tables.logs.as_ptr(),
                tables.logs.len(),
                tables.pows.as_ptr(),
                tables.pows.len(),
                self.energies.as_mut_ptr(),
                self.energies.len(),
                self.gains.as_mut_ptr(),
                self.gains.len(),
            )
        };
    }

    /// The reference's answer to the same bytes.
    pub fn reference(&mut self, index: i16, innovation: &[u8], tables: &Tables) {
        let innovation = whole_words(innovation).try_into();
        let energies = whole_words(&self.energies).try_into();
        let fits = self.gains.len() == GAINS_BYTES;
        let (Ok(innovation), Ok(energies), true) = (innovation, energies, fits) else {
            self.code = UNFIT;
            return;
        };
        let answer = gain::decode(index, &innovation, lent(&tables.numbers()), &energies);
        self.code = code((answer.refusal, answer.place));
        put(&mut self.energies, &answer.energies);
        put(&mut self.gains, &[answer.pitch, answer.code]);
    }
}
