//! The published stages under plain types.
#![warn(unused, clippy::all)]

use super::{
    PARAMETER_COUNT, Parameters, adaptive, energy, energy::GainControl, frame_loss::SpeechQuality,
    lpc, lpc::LpcDecoder, pitch::Fraction, pitch::PitchLag, places, sheet, spectral,
    spectral::Spectrum, state, synthesis::SynthesisFilter,
};
use crate::{FRAME, LSFS, MEMORY, PAST, ROW, SHEET, STATE, SUBFRAME, SUBFRAMES, at, part};

/// Ten frequencies, or the place of the first that is outside 0..=16384.
pub fn lsf_to_lsp(lsf: &[i16; LSFS]) -> Result<[i16; LSFS], usize> {
    spectral::lsf_to_lsp(lsf).map_err(|error| match error {
        spectral::ConversionError::Frequency { index, .. } => index,
        spectral::ConversionError::UnorderedCosines { .. } => {
            unreachable!("cosines are refused so, and these are frequencies")
        }
    })
}

/// The first frequency that the source's gap rule moves.
pub fn first_moved(lsf: &[i16; LSFS]) -> Option<usize> {
    let mut moved = *lsf;
    spectral::reorder_frequencies(&mut moved);
    lsf.iter().zip(&moved).position(|(lsf, moved)| lsf != moved)
}

/// One frequency of 0..=16384.
pub fn lsp(frequency: i16) -> i16 {
    lsf_to_lsp(&[frequency; LSFS]).expect("the frequency is inside 0..=16384")[0]
}

pub fn interpolate(old: &[i16; LSFS], new: &[i16; LSFS]) -> [[i16; ROW]; SUBFRAMES] {
    let mut decoder = LpcDecoder::default();
    decoder.previous_lsp_q15 = *old;
    let spectrum = Spectrum {
        lsf_q15: [0; LSFS],
        lsp_q15: *new,
    };
    decoder.interpolate(spectrum).coefficients_q12
}

pub fn convert(lsp: &[i16; LSFS]) -> [i16; ROW] {
    lpc::convert(lsp)
}

pub fn rounded_coefficient(value: i32) -> i16 {
    lpc::rounded_coefficient(value)
}

/// A lag in samples and the thirds beside it, -1, 0 or 1.
pub type Lag = (i16, i16);

pub fn lag(lag: PitchLag) -> Lag {
    (lag.samples() as i16, lag.fraction().thirds())
}

pub fn pitch_lag((samples, thirds): Lag) -> PitchLag {
    let fraction = match thirds {
        -1 => Fraction::MinusThird,
        0 => Fraction::Zero,
        1 => Fraction::PlusThird,
        _ => panic!("a lag has -1, 0 or 1 thirds"),
    };
    PitchLag {
        samples: samples as u16,
        fraction,
    }
}

pub fn from_absolute(index: u8) -> Lag {
    lag(PitchLag::from_absolute(index))
}

/// From the lag before, whose thirds play no part; nothing above index 31.
pub fn from_relative(index: u8, previous: i16) -> Option<Lag> {
    PitchLag::from_relative(index, pitch_lag((previous, 0)))
        .ok()
        .map(lag)
}

pub fn predict(past: &[i16; PAST], lag: Lag) -> [i16; SUBFRAME] {
    adaptive::predict(past, pitch_lag(lag))
}

pub fn energy(samples: &[i16; SUBFRAME]) -> i32 {
    energy::energy(samples)
}

pub fn inverse_sqrt(value: i32) -> i32 {
    energy::inverse_sqrt(value)
}

pub fn match_energy(input: &[i16; SUBFRAME], output: &[i16; SUBFRAME]) -> [i16; SUBFRAME] {
    let mut matched = *output;
    energy::match_energy(input, &mut matched);
    matched
}

/// The scaled output and the smoothed gain afterwards.
pub fn gain_control(
    gain: i16,
    input: &[i16; SUBFRAME],
    output: &[i16; SUBFRAME],
) -> ([i16; SUBFRAME], i16) {
    let mut control = GainControl {
        previous_gain: gain,
    };
    let mut scaled = *output;
    control.process(input, &mut scaled);
    (scaled, control.previous_gain)
}

pub struct Synthesis {
    pub samples: [i16; SUBFRAME],
    /// The first sample at which a step clamped, 40 where none did.
    pub place: i16,
    pub history: [i16; LSFS],
}

/// Leaves the history as it was.
pub fn preview(row: &[i16; ROW], history: &[i16; LSFS], excitation: &[i16; SUBFRAME]) -> Synthesis {
    let filter = SynthesisFilter::with_history(*history);
    let output = filter.preview(row, excitation);
    Synthesis {
        samples: output.samples_q0,
        place: places::of_pass(&output),
        history: filter.history_q0,
    }
}

/// Takes the last ten samples into the history.
pub fn filter(row: &[i16; ROW], history: &[i16; LSFS], excitation: &[i16; SUBFRAME]) -> Synthesis {
    let mut filter = SynthesisFilter::with_history(*history);
    let output = filter.filter(row, excitation);
    Synthesis {
        samples: output.samples_q0,
        place: places::of_pass(&output),
        history: filter.history_q0,
    }
}

/// One frame; the memory is fields 175..=196 of the state.
pub fn postfilter(
    before: &[i16; MEMORY],
    samples: &[i16; FRAME],
    rows: &[[i16; ROW]; SUBFRAMES],
) -> ([i16; FRAME], [i16; MEMORY]) {
    let mut postfilter = state::postfilter(before);
    let mut filtered = *samples;
    postfilter.process(&mut filtered, rows);
    (filtered, state::memory(&postfilter))
}

/// What an accepted call gives.
pub struct Decoded {
    pub samples: [i16; FRAME],
    /// Of the first passes.
    pub places: [i16; SUBFRAMES],
    pub rows: [[i16; ROW]; SUBFRAMES],
    pub state: [i16; STATE],
}

/// Decodes a sheet and a state that no refusal turns back, or a sheet whose LSFs break the gap alone.
pub fn decode(sheet: &[i16; SHEET], state: &[i16; STATE]) -> Decoded {
    // Three LSF indices, then pitch, pulse positions, pulse signs and gains a subframe. Positions
    // and gains carry the subframe's number, under which the sheet is looked up.
    let mut values = [0u16; PARAMETER_COUNT];
    for subframe in 0..SUBFRAMES {
        let base = 3 + 4 * subframe;
        values[base] = sheet[at::PITCH + subframe] as u16;
        values[base + 1] = subframe as u16;
        values[base + 3] = subframe as u16;
    }
    let parameters = Parameters::try_new(values).expect("the sheet's pitch indices were tested");
    sheet::set(sheet);

    let mut postfilter = state::postfilter(&part(state, at::MEMORY));
    let quality = SpeechQuality::Good;
    state::decoded(
        &mut state::decoder(state),
        &mut postfilter,
        &parameters,
        quality,
    )
}
