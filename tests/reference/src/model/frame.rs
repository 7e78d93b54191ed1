//! The frame calls once more, of a frame sheet and of an erased sheet: Decoder_amr of TS 26.073 and
//! the postfilter.

use super::{
    Fault, Filtered, Trace, concealment, concealment::Concealment, enhance, interpolate, l_mult,
    lag_absolute, lag_relative, lsp, postfilter, predict, sharpen, step, synthesis, wide,
};
use crate::{
    LSFS, NOWHERE, PAST, ROW, SUBFRAME, SUBFRAMES, at, flag, gain::ENERGIES, lent::stages::Gains,
    mr74::stages::Lag, part,
};

/// What a frame is decoded from, whatever its sheet.
struct Frame<'a> {
    lsf: &'a [i16],
    lags: [Lag; SUBFRAMES],
    gains: [Gains; SUBFRAMES],
    innovation: &'a [i16],
}

/// What goes from subframe to subframe.
struct Core {
    past: [i16; PAST],
    sharpening: i16,
    history: [i16; LSFS],
}

/// The excitation of a subframe, before its synthesis.
struct Excitation {
    feedback: [i16; SUBFRAME],
    first: [i16; SUBFRAME],
}

/// The lags of four pitch indices.
pub fn lags(trace: &mut Trace, indices: &[i16]) -> [Lag; SUBFRAMES] {
    let mut previous = 0;
    std::array::from_fn(|subframe| {
        let lag = if subframe.is_multiple_of(2) {
            lag_absolute(trace, indices[subframe])
        } else {
            lag_relative(trace, indices[subframe], previous)
        };
        previous = lag.0;
        lag
    })
}

fn excite(trace: &mut Trace, core: &mut Core, frame: &Frame, subframe: usize) -> Excitation {
    let (lag, [pitch_gain, code_gain]) = (frame.lags[subframe], frame.gains[subframe]);
    trace.number("lag", lag.0);
    let prediction = predict(trace, &core.past, lag);
    for (edge, kind) in [
        (8192, "pitch gain 8192"),
        (8193, "pitch gain 8193"),
        (0, "pitch gain 0"),
        (32767, "pitch gain 32767"),
    ] {
        trace.mark_if(pitch_gain == edge, kind);
    }
    let mut innovation = part(frame.innovation, SUBFRAME * subframe);
    let next_sharpening = pitch_gain.min(13017);
    let used = if trace.has(Fault::SharpeningOfThisGain) {
        next_sharpening
    } else {
        core.sharpening
    };
    sharpen(trace, &mut innovation, lag.0, used);
    core.sharpening = next_sharpening;
    trace.mark_if(core.sharpening == 13017, "sharpening 13017");
    let feedback: [i16; SUBFRAME] = std::array::from_fn(|sample| {
        let sum = l_mult(wide(prediction[sample]), wide(pitch_gain))
            + l_mult(wide(innovation[sample]), wide(code_gain));
        let doubled = trace.clamp32(2 * super::clamp32(sum), "feedback: doubling clamped");
        let rounded = trace.clamp32(doubled + 32768, "feedback: rounding clamped");
        trace.down(rounded, 16, Fault::FeedbackTowardZero) as i16
    });
    let first = enhance(trace, &feedback, &prediction, wide(pitch_gain));
    Excitation { feedback, first }
}

/// The samples of a subframe and its place; past and history go on.
fn synthesize(
    trace: &mut Trace,
    core: &mut Core,
    row: &[i16; ROW],
    excitation: &Excitation,
) -> ([i16; SUBFRAME], i16) {
    let Excitation { feedback, first } = excitation;
    let mut output = synthesis(trace, row, &core.history, first);
    let mut kept = *feedback;
    let mut place = output.place(trace);
    let met = place;
    trace.number("place", place);
    if trace.has(Fault::PlaceOnFeedback) {
        place = synthesis(trace, row, &core.history, feedback).place(trace);
    }
    if met == NOWHERE {
        trace.mark_if(output.steps() == 0, "not retried");
    } else {
        mark_retry(trace, &output);
        (output, kept) = retried(trace, core, row, excitation, &output);
        if trace.has(Fault::PlaceFromSecondPass) {
            place = output.place(trace);
        }
    }
    core.history = part(&output.samples, SUBFRAME - LSFS);
    core.past.copy_within(SUBFRAME.., 0);
    core.past[PAST - SUBFRAME..].copy_from_slice(&kept);
    (output.samples, place)
}

/// The second pass, and the feedback that the past takes in; the past so far is quartered.
fn retried(
    trace: &mut Trace,
    core: &mut Core,
    row: &[i16; ROW],
    excitation: &Excitation,
    before: &Filtered,
) -> (Filtered, [i16; SUBFRAME]) {
    let Excitation { feedback, first } = excitation;
    let toward = Fault::QuarterTowardZero;
    let quarter = |sample| trace.down(wide(sample), 2, toward) as i16;
    let quartered = feedback.map(quarter);
    let second = if trace.has(Fault::QuarterEnhanced) {
        first.map(quarter)
    } else {
        quartered
    };
    if !trace.has(Fault::PastNotQuartered) {
        core.past = core.past.map(quarter);
    }
    let kept = if trace.has(Fault::FeedbackNotQuartered) {
        *feedback
    } else {
        quartered
    };
    if trace.has(Fault::SecondHistory) {
        core.history = part(&before.samples, SUBFRAME - LSFS);
    }
    let output = synthesis(trace, row, &core.history, &second);
    let clamped = output.steps() != 0;
    trace.mark_if(clamped, "second pass clamped");
    trace.mark_if(!clamped, "second pass not clamped");
    (output, kept)
}

fn mark_retry(trace: &mut Trace, output: &Filtered) {
    let steps = output.steps();
    let tap = steps & step::TAP != 0;
    trace.mark_if(tap, "first pass: a tap's product clamped");
    for (only, kind) in [
        (step::DIFFERENCE, "first pass: only differences clamped"),
        (step::TIMES_8, "first pass: only times 8 clamped"),
        (step::ROUNDING, "first pass: only plus 32768 clamped"),
    ] {
        trace.mark_if(steps == only, kind);
    }
    trace.mark_if(output.returned(), "first pass: back into range");
}

fn mark_samples(trace: &mut Trace, samples: &[i16]) {
    let peak = samples.iter().map(|sample| sample.unsigned_abs()).max();
    trace.mark_if(peak >= Some(32760), "peak 32760 or more");
    let negative = samples.iter().all(|&sample| sample < 0);
    trace.mark_if(negative, "samples all negative");
    trace.mark_if(samples.contains(&-32768), "sample -32768");
    trace.mark_if(samples.iter().all(|&sample| sample == 0), "silence");
}

/// 160 samples, four places, 44 coefficients and the fields 0 to 196 of the next state.
fn decode(trace: &mut Trace, frame: &Frame, state: &[i16]) -> Vec<i16> {
    let new: [i16; LSFS] = std::array::from_fn(|index| lsp(trace, frame.lsf[index]));
    let rows = interpolate(trace, &part(state, 0), &new);
    let mut core = Core {
        past: part(state, at::PAST),
        sharpening: state[at::SHARPENING],
        history: part(state, at::HISTORY),
    };
    let mut synthesized = Vec::new();
    let mut places = [NOWHERE; SUBFRAMES];
    for subframe in 0..SUBFRAMES {
        let excitation = excite(trace, &mut core, frame, subframe);
        let samples;
        (samples, places[subframe]) = synthesize(trace, &mut core, &rows[subframe], &excitation);
        synthesized.extend(samples);
    }
    let pattern = |pattern, &place: &i16| 2 * pattern + flag(place);
    trace.number("flags", places.iter().fold(0, pattern));
    let memory = &state[at::MEMORY..at::LAST_LAG];
    let (mut answer, memory) = postfilter(trace, memory, &synthesized, &rows);
    mark_samples(trace, &answer);
    answer.extend(places);
    answer.extend(rows.as_flattened());
    answer.extend(new);
    answer.extend(core.past);
    answer.push(core.sharpening);
    answer.extend(core.history);
    answer.extend(memory);
    answer
}

/// An accepted frame: 160 samples, four places, 44 coefficients and the next state.
pub fn frame(trace: &mut Trace, sheet: &[i16], state: &[i16]) -> Vec<i16> {
    let mut concealment = Concealment::of(state);
    let lags = lags(trace, &sheet[at::PITCH..at::GAINS]);
    let gains = std::array::from_fn(|subframe| {
        let gains = part(sheet, at::GAINS + 2 * subframe);
        concealment.good(trace, subframe, gains)
    });
    concealment.end_good(trace, &lags);
    let frame = Frame {
        lsf: &sheet[..LSFS],
        lags,
        gains,
        innovation: &sheet[at::INNOVATION..],
    };
    let mut answer = decode(trace, &frame, state);
    answer.extend(concealment.fields());
    answer
}

/// An accepted frame of an erased sheet: what `frame` gives, and the energies.
pub fn frame_erased(
    trace: &mut Trace,
    sheet: &[i16],
    state: &[i16],
    energies: &[i16; ENERGIES],
) -> Vec<i16> {
    let mut concealment = Concealment::of(state);
    let stage = sheet[at::STAGE];
    trace.number("stage", stage);
    let lags = concealment.lags(trace);
    let mut energies = *energies;
    let gains = std::array::from_fn(|subframe| {
        if subframe == 0 || !trace.has(Fault::AverageOnce) {
            energies = concealment::energies(trace, &energies);
        }
        concealment.conceal(trace, stage)
    });
    let frame = Frame {
        lsf: &sheet[..LSFS],
        lags,
        gains,
        innovation: &sheet[at::ERASED_INNOVATION..],
    };
    let mut answer = decode(trace, &frame, state);
    answer.extend(concealment.fields());
    if trace.has(Fault::ErasedSharpeningKept) {
        let sharpening = answer.len() - crate::STATE + at::SHARPENING;
        answer[sharpening] = state[at::SHARPENING];
    }
    answer.extend(energies);
    answer
}
