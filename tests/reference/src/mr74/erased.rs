//! The published stages of an erased frame, and the frame, under plain types.
#![warn(unused, clippy::all)]

use super::{
    PARAMETER_COUNT, Parameters,
    decoder::Decoder,
    frame_loss::SpeechQuality,
    gain::{GainDecoder, Gains},
    gain_concealment::AttenuationStage,
    pitch::PitchDecoder,
    sheet,
    stages::{Decoded, Lag, lag, pitch_lag},
    state,
};
use crate::{
    ERASED_SHEET, GAIN_FIELDS, LSFS, SHEET, STATE, SUBFRAMES, at, gain::ENERGIES,
    lent::stages::Gains as Pair, part,
};

fn stage(number: i16) -> AttenuationStage {
    let stage = u8::try_from(number)
        .ok()
        .and_then(AttenuationStage::try_new);
    stage.expect("the stage is inside 0..=6")
}

/// The gains of an erased subframe, and fields 198..=211 of the state after it.
pub fn conceal(number: i16, fields: &[i16; GAIN_FIELDS]) -> (Pair, [i16; GAIN_FIELDS]) {
    let mut concealment = state::concealment(fields);
    let gains = concealment.conceal(stage(number), &mut GainDecoder::default());
    (
        [gains.pitch_q14, gains.code_q1],
        state::gain_fields(&concealment),
    )
}

/// The gains that a good subframe is decoded with, and fields 198..=211 after it.
pub fn update_good(
    [pitch_q14, code_q1]: Pair,
    erased: bool,
    fields: &[i16; GAIN_FIELDS],
) -> (Pair, [i16; GAIN_FIELDS]) {
    let mut concealment = state::concealment(fields);
    let gains = concealment.update_good(Gains { pitch_q14, code_q1 }, erased);
    (
        [gains.pitch_q14, gains.code_q1],
        state::gain_fields(&concealment),
    )
}

/// The lags of an erased frame after a last lag.
pub fn lags(last: i16) -> [Lag; SUBFRAMES] {
    let previous = pitch_lag((last, 0));
    PitchDecoder { previous }.conceal().map(lag)
}

/// The energies after an erased subframe.
pub fn energies(before: &[i16; ENERGIES]) -> [i16; ENERGIES] {
    let mut decoder = GainDecoder {
        energies_q10: *before,
    };
    decoder.conceal_energy();
    decoder.energies_q10
}

/// A decoder that is about to decode an erased sheet, and its indices.
fn ready(
    sheet: &[i16; ERASED_SHEET],
    state: &[i16; STATE],
    energies: &[i16; ENERGIES],
) -> (Decoder, Parameters) {
    // Pulse positions carry the subframe's number, under which the innovation is looked up; no other
    // index of an erased frame is read.
    let mut values = [0u16; PARAMETER_COUNT];
    for subframe in 0..SUBFRAMES {
        values[3 + 4 * subframe + 1] = subframe as u16;
    }
    let parameters = Parameters::try_new(values).expect("these indices are inside");
    let mut looked_up = [0; SHEET];
    looked_up[..LSFS].copy_from_slice(&sheet[..LSFS]);
    looked_up[at::INNOVATION..].copy_from_slice(&sheet[at::ERASED_INNOVATION..]);
    sheet::set(&looked_up);
    let mut decoder = state::decoder(state);
    decoder.excitation.loss.stage = sheet[at::STAGE] as u8;
    decoder.excitation.gains.energies_q10 = *energies;
    (decoder, parameters)
}

/// Lag and gains of the four subframes.
pub fn subframes(
    sheet: &[i16; ERASED_SHEET],
    state: &[i16; STATE],
    energies: &[i16; ENERGIES],
) -> [(Lag, Pair); SUBFRAMES] {
    let (mut decoder, parameters) = ready(sheet, state, energies);
    let subframes = decoder.excitation.decode_bad(&parameters);
    subframes.map(|subframe| {
        let gains = subframe.gains;
        (lag(subframe.pitch), [gains.pitch_q14, gains.code_q1])
    })
}

/// Decodes an erased sheet and a state that no refusal turns back; the energies afterwards.
pub fn decode(
    sheet: &[i16; ERASED_SHEET],
    state: &[i16; STATE],
    energies: &[i16; ENERGIES],
) -> (Decoded, [i16; ENERGIES]) {
    let (mut decoder, parameters) = ready(sheet, state, energies);
    let mut postfilter = state::postfilter(&part(state, at::MEMORY));
    let quality = SpeechQuality::Erased;
    let decoded = state::decoded(&mut decoder, &mut postfilter, &parameters, quality);
    (decoded, decoder.excitation.gains.energies_q10)
}
