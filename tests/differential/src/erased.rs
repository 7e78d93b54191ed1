//! The frame call of an erased sheet.

use crate::{ffi, gains::WithEnergies, whole_words};
use reference::{ERASED_SHEET, frame};

pub const ERASED_SHEET_BYTES: usize = 2 * ERASED_SHEET;

impl WithEnergies {
    /// The static library's call of an erased sheet.
    pub fn ours_erased(&mut self, sheet: &[u8]) {
        let frame = &mut self.frame;
        frame.code = unsafe {
            ffi::mr74_frame_erased(
                sheet.as_ptr(),
                sheet.len(),
                frame.state.as_mut_ptr(),
                frame.state.len(),
                frame.out.as_mut_ptr(),
                frame.out.len(),
                frame.rows.as_mut_ptr(),
                frame.rows.len(),
                frame.places.as_mut_ptr(),
                frame.places.len(),
                self.energies.as_mut_ptr(),
                self.energies.len(),
            )
        };
    }

    /// The reference's answer to the same bytes.
    pub fn reference_erased(&mut self, sheet: &[u8]) {
        self.answer(|state, energies, samples| {
            frame::frame_erased(&whole_words(sheet), state, energies, samples)
        });
    }
}
