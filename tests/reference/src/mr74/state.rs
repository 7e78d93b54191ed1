//! The numbers of a state put into the published structs, and taken from them; a frame between.
#![warn(unused, clippy::all)]

use super::{
    Parameters,
    decoder::Decoder,
    energy::GainControl,
    frame_loss::SpeechQuality,
    gain::Gains,
    gain_concealment::GainConcealment,
    pitch::{Fraction, PitchLag},
    places,
    postfilter::Postfilter,
    synthesis::SynthesisFilter,
};
use crate::{GAIN_FIELDS, LSFS, MEMORY, STATE, at, mr74::stages::Decoded, part};

/// Fields 0..=174 and 197..=212; all else is as after a reset.
pub fn decoder(state: &[i16; STATE]) -> Decoder {
    let mut decoder = Decoder::default();
    decoder.lpc.previous_lsp_q15 = part(state, 0);
    decoder.synthesis.history_q0 = part(state, at::HISTORY);
    let excitation = &mut decoder.excitation;
    excitation.history_q0 = part(state, at::PAST);
    excitation.sharpening_q14 = state[at::SHARPENING];
    excitation.pitch.previous = PitchLag {
        samples: state[at::LAST_LAG] as u16,
        fraction: Fraction::Zero,
    };
    excitation.concealment = concealment(&part(state, at::GAIN_FIELDS));
    excitation.loss.erased = state[at::ERASED] == 1;
    decoder
}

/// From fields 198..=211.
pub fn concealment(fields: &[i16; GAIN_FIELDS]) -> GainConcealment {
    let pair = |from| {
        let [pitch_q14, code_q1] = part(fields, from);
        Gains { pitch_q14, code_q1 }
    };
    GainConcealment {
        pitch_history: part(fields, 0),
        code_history: part(fields, 5),
        past: pair(10),
        last_good: pair(12),
    }
}

/// Fields 198..=211.
pub fn gain_fields(concealment: &GainConcealment) -> [i16; GAIN_FIELDS] {
    let pair = |gains: Gains| [gains.pitch_q14, gains.code_q1];
    let mut fields = [0; GAIN_FIELDS];
    fields[..5].copy_from_slice(&concealment.pitch_history);
    fields[5..10].copy_from_slice(&concealment.code_history);
    fields[10..12].copy_from_slice(&pair(concealment.past));
    fields[12..].copy_from_slice(&pair(concealment.last_good));
    fields
}

/// From fields 175..=196.
pub fn postfilter(memory: &[i16; MEMORY]) -> Postfilter {
    Postfilter {
        input_history: part(memory, 0),
        previous_residual: memory[2 * LSFS],
        synthesis: SynthesisFilter::with_history(part(memory, LSFS)),
        gain: GainControl {
            previous_gain: memory[2 * LSFS + 1],
        },
    }
}

/// Fields 175..=196.
pub fn memory(postfilter: &Postfilter) -> [i16; MEMORY] {
    let mut memory = [0; MEMORY];
    memory[..LSFS].copy_from_slice(&postfilter.input_history);
    memory[LSFS..2 * LSFS].copy_from_slice(&postfilter.synthesis.history_q0);
    memory[2 * LSFS] = postfilter.previous_residual;
    memory[2 * LSFS + 1] = postfilter.gain.previous_gain;
    memory
}

/// All fields, the postfilter's from its memory.
pub fn numbers(decoder: &Decoder, memory: &[i16; MEMORY]) -> [i16; STATE] {
    let excitation = &decoder.excitation;
    let mut state = [0; STATE];
    state[..at::PAST].copy_from_slice(&decoder.lpc.previous_lsp_q15);
    state[at::PAST..at::SHARPENING].copy_from_slice(&excitation.history_q0);
    state[at::SHARPENING] = excitation.sharpening_q14;
    state[at::HISTORY..at::MEMORY].copy_from_slice(&decoder.synthesis.history_q0);
    state[at::MEMORY..at::LAST_LAG].copy_from_slice(memory);
    state[at::LAST_LAG] = excitation.pitch.previous.samples() as i16;
    let fields = gain_fields(&excitation.concealment);
    state[at::GAIN_FIELDS..at::ERASED].copy_from_slice(&fields);
    state[at::ERASED] = i16::from(excitation.loss.erased);
    state
}

/// The next frame; the postfilter goes over the decoder's samples.
pub fn decoded(
    decoder: &mut Decoder,
    postfilter: &mut Postfilter,
    parameters: &Parameters,
    quality: SpeechQuality,
) -> Decoded {
    let frame = decoder.decode_quality(parameters, quality);
    let mut samples = frame.samples_q0;
    postfilter.process(&mut samples, &frame.coefficients_q12);
    Decoded {
        samples,
        places: places::of_frame(&frame),
        rows: frame.coefficients_q12,
        state: numbers(decoder, &memory(postfilter)),
    }
}
