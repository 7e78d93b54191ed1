//! The published gain decoder and the decoder of a frame from its index sheet, under plain types.
#![warn(unused, clippy::all)]

use super::{
    PARAMETER_COUNT, Parameters,
    decoder::Decoder,
    frame_loss::SpeechQuality,
    gain::GainDecoder,
    sheet, state,
    tables::{self, Pair},
};
use crate::{
    INDEX_SHEET, LSFS, SHEET, STATE, SUBFRAME, SUBFRAMES, at, gain::ENERGIES,
    mr74::stages::Decoded, part,
};

/// Pitch gain, code gain.
pub type Gains = [i16; 2];

/// The gains of a subframe, and the energies after it.
pub fn gains(
    index: u16,
    innovation: &[i16; SUBFRAME],
    tables: &Pair,
    energies: &[i16; ENERGIES],
) -> (Gains, [i16; ENERGIES]) {
    tables::set(tables);
    let mut decoder = GainDecoder {
        energies_q10: *energies,
    };
    let gains = decoder
        .decode(index, innovation)
        .expect("the index was tested");
    ([gains.pitch_q14, gains.code_q1], decoder.energies_q10)
}

/// A decoder that is about to decode an index sheet, and its indices.
fn ready(
    sheet: &[i16; INDEX_SHEET],
    state: &[i16; STATE],
    tables: &Pair,
    energies: &[i16; ENERGIES],
) -> (Decoder, Parameters) {
    // Three LSF indices, then pitch, pulse positions, pulse signs and gains a subframe. Positions
    // carry the subframe's number, under which the innovation is looked up.
    let mut values = [0u16; PARAMETER_COUNT];
    for subframe in 0..SUBFRAMES {
        let base = 3 + 4 * subframe;
        values[base] = sheet[at::PITCH + subframe] as u16;
        values[base + 1] = subframe as u16;
        values[base + 3] = sheet[at::GAINS + subframe] as u16;
    }
    let parameters = Parameters::try_new(values).expect("the sheet's indices were tested");
    // Of a frame sheet LSFs and innovation are looked up, and no gains.
    let mut looked_up = [0; SHEET];
    looked_up[..LSFS].copy_from_slice(&sheet[..LSFS]);
    looked_up[at::INNOVATION..].copy_from_slice(&sheet[at::INDEXED_INNOVATION..]);
    sheet::set(&looked_up);
    tables::set(tables);
    let mut decoder = state::decoder(state);
    decoder.excitation.gains.energies_q10 = *energies;
    (decoder, parameters)
}

/// The gains that the four subframes are decoded with.
pub fn frame_gains(
    sheet: &[i16; INDEX_SHEET],
    state: &[i16; STATE],
    tables: &Pair,
    energies: &[i16; ENERGIES],
) -> [Gains; SUBFRAMES] {
    let (mut decoder, parameters) = ready(sheet, state, tables, energies);
    let subframes = decoder.excitation.decode(&parameters);
    subframes.map(|subframe| [subframe.gains.pitch_q14, subframe.gains.code_q1])
}

/// Decodes an index sheet, a state and tables that no refusal turns back; the energies afterwards.
pub fn decode(
    sheet: &[i16; INDEX_SHEET],
    state: &[i16; STATE],
    tables: &Pair,
    energies: &[i16; ENERGIES],
) -> (Decoded, [i16; ENERGIES]) {
    let (mut decoder, parameters) = ready(sheet, state, tables, energies);
    let mut postfilter = state::postfilter(&part(state, at::MEMORY));
    let quality = SpeechQuality::Good;
    let decoded = state::decoded(&mut decoder, &mut postfilter, &parameters, quality);
    (decoded, decoder.excitation.gains.energies_q10)
}
