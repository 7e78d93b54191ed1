//! The calls of `crates/capi/c/mr74.h`, and the reference's answers to the same bytes.

pub mod erased;
pub mod gains;

use reference::{FRAME, NOWHERE, ROW, SHEET, STATE, SUBFRAMES, frame, record};

pub const SHEET_BYTES: usize = 2 * SHEET;
pub const STATE_BYTES: usize = 2 * STATE;
pub const OUT_BYTES: usize = 2 * FRAME;
pub const ROWS_BYTES: usize = 2 * ROW * SUBFRAMES;
pub const PLACES_BYTES: usize = SUBFRAMES;
/// Returned where state, rows or places has another length.
pub const UNFIT: u32 = 255;

mod ffi {
    unsafe extern "C" {
        pub fn mr74_frame(
            sheet: *const u8,
            sheet_bytes: usize,
            state: *mut u8,
            state_bytes: usize,
            out: *mut u8,
            out_bytes: usize,
            rows: *mut u8,
            rows_bytes: usize,
            places: *mut u8,
            places_bytes: usize,
        ) -> u32;
        pub fn mr74_frame_indexed(
            sheet: *const u8,
            sheet_bytes: usize,
            state: *mut u8,
            state_bytes: usize,
            out: *mut u8,
            out_bytes: usize,
            rows: *mut u8,
            rows_bytes: usize,
            places: *mut u8,
            places_bytes: usize,
            log_table: *const u8,
            log_table_bytes: usize,
            pow_table: *const u8,
            pow_table_bytes: usize,
            energies: *mut u8,
            energies_bytes: usize,
        ) -> u32;
        pub fn mr74_frame_erased(
            sheet: *const u8,
            sheet_bytes: usize,
            state: *mut u8,
            state_bytes: usize,
            out: *mut u8,
            out_bytes: usize,
            rows: *mut u8,
            rows_bytes: usize,
            places: *mut u8,
            places_bytes: usize,
            energies: *mut u8,
            energies_bytes: usize,
        ) -> u32;
        pub fn mr74_gain_decode(
            index: i16,
            innovation: *const u8,
            innovation_bytes: usize,
            log_table: *const u8,
            log_table_bytes: usize,
            pow_table: *const u8,
            pow_table_bytes: usize,
            energies: *mut u8,
            energies_bytes: usize,
            gains: *mut u8,
            gains_bytes: usize,
        ) -> u32;
        pub fn mr74_read(
            record: *const u8,
            record_bytes: usize,
            state: *mut u8,
            state_bytes: usize,
            note: *mut usize,
        ) -> u32;
        pub fn mr74_write(
            state: *const u8,
            state_bytes: usize,
            record: *mut u8,
            record_bytes: usize,
        ) -> u32;
    }
}

/// Number and place in one, 0 where a call was accepted.
fn code((number, place): frame::Refusal) -> u32 {
    number as u32 + 256 * place as u32
}

/// What is lent to a frame call, and what it returns.
#[derive(Debug, Clone, PartialEq, Eq)]
pub struct Lent {
    pub code: u32,
    pub state: Vec<u8>,
    pub out: Vec<u8>,
    pub rows: Vec<u8>,
    pub places: Vec<u8>,
}

impl Lent {
    /// Every buffer but the state is filled with a mark.
    pub fn new(state: &[i16], mark: u8) -> Self {
        Self {
            code: 0,
            state: bytes(state),
            out: vec![mark; OUT_BYTES],
            rows: vec![mark; ROWS_BYTES],
            places: vec![mark; PLACES_BYTES],
        }
    }

    /// The call of the static library.
    #[inline(never)]
    pub fn ours(&mut self, sheet: &[u8]) {
        self.code = unsafe {
            ffi::mr74_frame(
                sheet.as_ptr(),
                sheet.len(),
                self.state.as_mut_ptr(),
                self.state.len(),
                self.out.as_mut_ptr(),
                self.out.len(),
                self.rows.as_mut_ptr(),
                self.rows.len(),
                self.places.as_mut_ptr(),
                self.places.len(),
            )
        };
    }

    /// Where the call was accepted, how many subframes were retried.
    pub fn retried(&self) -> usize {
        let places = self.places.iter().map(|&place| i16::from(place));
        places.filter(|&place| place != NOWHERE).count()
    }

    /// The reference's answer to the same bytes.
    #[inline(never)]
    pub fn reference(&mut self, sheet: &[u8]) {
        self.answer(|state, samples| frame::frame(&whole_words(sheet), state, samples));
    }

    /// What an answer leaves; it is asked for where state, rows and places have their lengths.
    fn answer(&mut self, answer: impl FnOnce(&[i16; STATE], &mut [i16]) -> frame::Answer) {
        let fits = self.rows.len() == ROWS_BYTES && self.places.len() == PLACES_BYTES;
        let (Ok(state), true) = (whole_words(&self.state).try_into(), fits) else {
            self.code = UNFIT;
            return;
        };
        let mut samples = whole_words(&self.out);
        let answer = answer(&state, &mut samples);
        self.code = code((answer.refusal, answer.place));
        put(&mut self.state, &answer.state);
        put(&mut self.rows, answer.rows.as_flattened());
        for (byte, place) in self.places.iter_mut().zip(answer.places) {
            *byte = place as u8;
        }
        if answer.refusal == 0 {
            put(&mut self.out, &samples);
        }
    }
}

/// What a read leaves: the returned number, the state and the note's length.
pub type Reading = (u32, Vec<u8>, usize);

pub fn read(bytes: &[u8], room: usize) -> Reading {
    let (mut state, mut note) = (vec![0xA5; room], 77);
    let code = unsafe {
        ffi::mr74_read(
            bytes.as_ptr(),
            bytes.len(),
            state.as_mut_ptr(),
            state.len(),
            &mut note,
        )
    };
    (code, state, note)
}

pub fn reference_read(input: &[u8], room: usize) -> Reading {
    if room != STATE_BYTES {
        return (UNFIT, vec![0xA5; room], 77);
    }
    let answer = record::read(input);
    (
        code((answer.refusal, answer.place)),
        bytes(&answer.state),
        answer.note.len(),
    )
}

/// What a write leaves: the returned number and the record.
pub type Writing = (u32, Vec<u8>);

pub fn write(state: &[u8], room: usize) -> Writing {
    let mut lent = vec![0xA5; room];
    let code =
        unsafe { ffi::mr74_write(state.as_ptr(), state.len(), lent.as_mut_ptr(), lent.len()) };
    (code, lent)
}

pub fn reference_write(state: &[u8], room: usize) -> Writing {
    let mut lent = vec![0xA5; room];
    if state.len() != STATE_BYTES {
        return (UNFIT, lent);
    }
    let numbers = words(state).try_into().expect("a state has 213 numbers");
    let code = code(record::write(&numbers, &mut lent));
    (code, lent)
}

/// Numbers as bytes, low byte first.
pub fn bytes(numbers: &[i16]) -> Vec<u8> {
    numbers
        .iter()
        .flat_map(|number| number.to_le_bytes())
        .collect()
}

fn put(into: &mut [u8], numbers: &[i16]) {
    for (pair, number) in into.chunks_exact_mut(2).zip(numbers) {
        pair.copy_from_slice(&number.to_le_bytes());
    }
}

/// The numbers of bytes. What is not made of whole numbers has no length that is accepted: none.
fn whole_words(bytes: &[u8]) -> Vec<i16> {
    if bytes.len().is_multiple_of(2) {
        words(bytes)
    } else {
        Vec::new()
    }
}

/// The numbers of bytes; an odd last byte is left out.
pub fn words(bytes: &[u8]) -> Vec<i16> {
    let (pairs, _) = bytes.as_chunks::<2>();
    pairs.iter().map(|&pair| i16::from_le_bytes(pair)).collect()
}
