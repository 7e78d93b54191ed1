//! The published decoder from indices, and the sheets that say the same: innovation by
//! `Codebook::try_new`, gains by `GainDecoder::decode` with its memory, on the innovation that
//! `ExcitationDecoder` sharpened. The LSFs are the sheet's: the quantiser's tables were not given. Of
//! an erased frame innovation alone comes from the indices.
#![warn(unused, clippy::all)]

use super::{
    Parameters, SUBFRAMES, WIDTHS, decoder::Decoder, frame_loss::SpeechQuality,
    postfilter::Postfilter, sheet, state,
};
use crate::{
    ERASED_SHEET, LSFS, SHEET, STATE, SUBFRAME, at, gain::ENERGIES, mr74::stages::Decoded, part,
    random::Random,
};

/// Any indices.
pub fn indices(random: &mut Random) -> Parameters {
    let values = WIDTHS.map(|width| random.range(0, (1 << width) - 1) as u16);
    Parameters::try_new(values).expect("each index has its width")
}

#[derive(Clone)]
pub struct Source {
    decoder: Decoder,
    postfilter: Postfilter,
}

impl Source {
    /// The gain decoder's memory is as after a reset.
    pub fn new(numbers: &[i16; STATE]) -> Self {
        Self {
            decoder: state::decoder(numbers),
            postfilter: state::postfilter(&part(numbers, at::MEMORY)),
        }
    }

    /// The sheet of the next frame; the decoder stays where it is. Its gains are those of the indices,
    /// which a frame after an erased one does not all use.
    pub fn sheet(&self, lsf: &[i16; LSFS], indices: &Parameters) -> [i16; SHEET] {
        let mut sheet = [0; SHEET];
        sheet[..LSFS].copy_from_slice(lsf);
        let decoded = self.decoder.excitation.clone().decode(indices);
        let mut decoder = self.decoder.excitation.gains.clone();
        for (subframe, (index, decoded)) in indices.subframes().iter().zip(decoded).enumerate() {
            let gains = decoder
                .decode(index.gain_index, &decoded.innovation_q13)
                .expect("the indices have their width");
            sheet[at::PITCH + subframe] = index.pitch_index as i16;
            let place = at::GAINS + 2 * subframe;
            (sheet[place], sheet[place + 1]) = (gains.pitch_q14, gains.code_q1);
        }
        sheet[at::INNOVATION..].copy_from_slice(&innovation(indices));
        sheet
    }

    /// The next frame, from the indices; of the sheet the LSFs alone are read.
    pub fn decode(&mut self, sheet: &[i16; SHEET], indices: &Parameters) -> Decoded {
        self.next(&part(sheet, 0), indices, SpeechQuality::Good)
    }

    /// The next frame, which is erased; of the sheet LSFs and stage alone are read.
    pub fn erase(&mut self, sheet: &[i16; ERASED_SHEET], indices: &Parameters) -> Decoded {
        self.decoder.excitation.loss.stage = sheet[at::STAGE] as u8;
        self.next(&part(sheet, 0), indices, SpeechQuality::Erased)
    }

    fn next(&mut self, lsf: &[i16; LSFS], indices: &Parameters, quality: SpeechQuality) -> Decoded {
        let mut looked_up = [0; SHEET];
        looked_up[..LSFS].copy_from_slice(lsf);
        sheet::set(&looked_up);
        state::decoded(&mut self.decoder, &mut self.postfilter, indices, quality)
    }

    /// Of the gain decoder.
    pub fn energies(&self) -> [i16; ENERGIES] {
        self.decoder.excitation.gains.energies_q10
    }
}

/// A sheet of an erased frame, with the innovation of the indices.
pub fn erased_sheet(lsf: &[i16; LSFS], stage: i16, indices: &Parameters) -> [i16; ERASED_SHEET] {
    let mut sheet = [stage; ERASED_SHEET];
    sheet[..LSFS].copy_from_slice(lsf);
    sheet[at::ERASED_INNOVATION..].copy_from_slice(&innovation(indices));
    sheet
}

/// By the codebook.
fn innovation(indices: &Parameters) -> [i16; SUBFRAME * SUBFRAMES] {
    let mut innovation = [0; SUBFRAME * SUBFRAMES];
    let subframes = innovation.chunks_exact_mut(SUBFRAME);
    for (samples, index) in subframes.zip(indices.subframes()) {
        let codebook = index
            .fixed_codebook()
            .expect("the indices have their width");
        samples.copy_from_slice(codebook.samples_q13());
    }
    innovation
}
