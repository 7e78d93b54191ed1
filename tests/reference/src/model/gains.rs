//! Gains from their indices once more: Log2, Pow2, gc_pred and Dec_gain of TS 26.073, and the frame of
//! an index sheet. The table of gains is read off the reference's answers.

use super::{
    Fault, Trace, clamp32,
    concealment::Concealment,
    frame::{frame, lags},
    l_mult, l_shl, sharpen, wide,
};
use crate::{
    INDEX_SHEET, SUBFRAME, at,
    gain::{ENERGIES, TABLE},
    lent::{
        stages::{self, Gains},
        tables::Pair,
    },
    part,
};
use std::sync::OnceLock;

/// Where a number lies between two entries of a table, and what stands there.
#[derive(Debug)]
pub struct Between {
    pub index: i64,
    pub fraction: i64,
    pub value: i64,
}

/// What lies past the table's end is 0.
fn interpolated(table: &[i16; TABLE], base: i64, x: i64) -> Between {
    let index = (x >> 16) - base;
    let fraction = (x >> 1) & 32767;
    let entry = |index: i64| {
        let place = usize::try_from(index).ok();
        wide(
            place
                .and_then(|place| table.get(place))
                .map_or(0, |entry| *entry),
        )
    };
    let step = entry(index) - entry(index + 1);
    let value = clamp32(65536 * entry(index) - l_mult(step, fraction));
    Between {
        index,
        fraction,
        value,
    }
}

#[derive(Debug)]
pub struct Log {
    pub norm: i64,
    pub between: Between,
    pub exponent: i64,
    pub fraction: i64,
}

/// Nothing of 0, whose logarithm is 0.
fn log2(trace: &Trace, table: &[i16; TABLE], x: i64) -> Option<Log> {
    if x <= 0 {
        return None;
    }
    let norm = super::norm(x);
    let base = if trace.has(Fault::LogBase) { 31 } else { 32 };
    let between = interpolated(table, base, l_shl(x, norm) >> 9);
    Some(Log {
        norm,
        exponent: 30 - norm,
        fraction: between.value >> 16,
        between,
    })
}

/// 2 to the power of 14 and a fraction.
#[derive(Debug)]
pub struct Power {
    pub between: Between,
    pub value: i64,
}

fn pow2(trace: &Trace, table: &[i16; TABLE], fraction: i64) -> Power {
    let times = if trace.has(Fault::PowerTimes16) {
        16
    } else {
        32
    };
    let between = interpolated(table, 0, l_mult(fraction, times));
    let half = if trace.has(Fault::PowerNotRounded) {
        0
    } else {
        1
    };
    Power {
        value: (between.value >> 16) + half * ((between.value >> 15) & 1),
        between,
    }
}

/// The numbers on the way from innovation and energies to the code gain.
#[derive(Debug)]
pub struct Steps {
    pub squares: i64,
    pub log: Option<Log>,
    /// The logarithm scaled, that with the mean energy, and that times 1024.
    pub scaled: [i64; 3],
    /// With each energy, newest first.
    pub sums: [i64; ENERGIES],
    /// The predicted gain, that times 5439, and that >> 8.
    pub predicted: [i64; 3],
    pub exponent: i64,
    pub fraction: i64,
    pub power: Power,
    pub product: i64,
    pub shift: i64,
    pub shifted: i64,
    pub code: i64,
}

/// The sum of doubled squares.
fn squares(trace: &mut Trace, innovation: &[i16; SUBFRAME]) -> i64 {
    if trace.has(Fault::SquaresAsEnergy) {
        return super::energy(trace, innovation);
    }
    let mut sum = 0;
    for &sample in innovation {
        sum = trace.clamp32(sum + l_mult(wide(sample), wide(sample)), "squares: clamped");
    }
    trace.mark_if(sum == 0, "squares: 0");
    trace.mark_if(sum == 2147483646, "squares: 2147483646");
    sum
}

/// The logarithm scaled by -24660 (Mpy_32_16), with the mean energy, times 1024.
fn scale(trace: &Trace, exponent: i64, fraction: i64) -> [i64; 3] {
    let low = trace.down(fraction * -24660, 15, Fault::LogTowardZero);
    let product = clamp32(l_mult(exponent, -24660) + 2 * low);
    let sum = clamp32(product + l_mult(32588, 32));
    [product, sum, l_shl(sum, 10)]
}

/// With the energies by the predictor.
fn predict(trace: &mut Trace, from: i64, energies: &[i16; ENERGIES]) -> [i64; ENERGIES] {
    let mut predictor = [5571, 4751, 2785, 1556];
    if trace.has(Fault::PredictorExchanged) {
        predictor.swap(1, 2);
    }
    let mut sum = from;
    std::array::from_fn(|tap| {
        sum += l_mult(predictor[tap], wide(energies[tap]));
        if !trace.has(Fault::PredictorUnclamped) {
            sum = trace.clamp32(sum, "predictor: sum clamped");
        }
        sum
    })
}

/// gc_pred, and the code gain of Dec_gain by a correction.
pub fn steps(
    trace: &mut Trace,
    correction: i64,
    innovation: &[i16; SUBFRAME],
    tables: &Pair,
    energies: &[i16; ENERGIES],
) -> Steps {
    let squares = squares(trace, innovation);
    let log = log2(trace, &tables[0], squares);
    let (exponent, fraction) = log
        .as_ref()
        .map_or((0, 0), |log| (log.exponent, log.fraction));
    let scaled = scale(trace, exponent, fraction);
    let sums = predict(trace, scaled[2], energies);
    let gain = clamp32(sums[3]) >> 16;
    let factor = if trace.has(Fault::Factor5443) {
        5443
    } else {
        5439
    };
    let by_factor = l_mult(gain, factor);
    let predicted = [gain, by_factor, by_factor >> 8];
    let exponent = predicted[2] >> 16;
    let fraction = (predicted[2] >> 1) - 32768 * exponent;
    let power = pow2(trace, &tables[1], fraction);
    let product = l_mult(correction, i64::from(power.value as i16));
    let shift = 10 - exponent;
    trace.mark(match shift {
        ..0 => "code gain shifted up",
        0 => "code gain not shifted",
        1.. => "code gain shifted down",
    });
    let shifted = if shift >= 0 {
        product >> shift
    } else if trace.has(Fault::CodeGainWraps) {
        i64::from((product << -shift) as i32)
    } else {
        trace.clamp32(product << -shift, "code gain clamped")
    };
    let code = shifted >> 16;
    trace.mark_if(code == 0, "code gain 0");
    trace.mark_if(code == 32767, "code gain 32767");
    Steps {
        squares,
        log,
        scaled,
        sums,
        predicted,
        exponent,
        fraction,
        power,
        product,
        shift,
        shifted,
        code,
    }
}

/// Pitch gain, correction and energy of each index. Under a power table all of 32767 and an exponent
/// of 10 the code gain is the correction, times 65534 and >> 16: 1 less.
pub fn rows() -> &'static [[i16; 3]; 128] {
    static ROWS: OnceLock<[[i16; 3]; 128]> = OnceLock::new();
    ROWS.get_or_init(|| {
        let tables = [[0; TABLE], [32767; TABLE]];
        let mut innovation = [0; SUBFRAME];
        innovation[0] = 4;
        let energies = [-28000; ENERGIES];
        let steps = steps(&mut Trace::default(), 1, &innovation, &tables, &energies);
        assert_eq!(steps.exponent, 10);
        std::array::from_fn(|index| {
            let ([pitch, code], after) =
                stages::gains(index as u16, &innovation, &tables, &energies);
            [pitch, code + 1, after[0]]
        })
    })
}

/// The energies after a row's.
fn entered(trace: &Trace, energy: i16, energies: &[i16; ENERGIES]) -> [i16; ENERGIES] {
    let [a, b, c, d] = *energies;
    match trace.fault {
        Some(Fault::EnergyNotEntered) => *energies,
        Some(Fault::EnergyEnteredLast) => [b, c, d, energy],
        _ => [energy, a, b, c],
    }
}

/// The gains of an index, and the energies afterwards.
pub fn gains(
    trace: &mut Trace,
    index: i16,
    innovation: &[i16; SUBFRAME],
    tables: &Pair,
    energies: &[i16; ENERGIES],
) -> (Gains, [i16; ENERGIES]) {
    let [pitch, correction, energy] = rows()[index as usize];
    trace.number("gain index", index);
    let steps = steps(trace, wide(correction), innovation, tables, energies);
    if let Some(log) = &steps.log {
        trace.number("logarithm's exponent", log.exponent as i16);
        trace.number("logarithm's table index", log.between.index as i16);
    }
    trace.number("predicted exponent", steps.exponent as i16);
    trace.number("power's table index", steps.power.between.index as i16);
    let code = steps.code as i16;
    ([pitch, code], entered(trace, energy, energies))
}

/// The frame sheet of the gains that an index sheet's indices come to, and the energies afterwards:
/// each subframe's gains come from its own innovation, sharpened by the gains that the one before was
/// decoded with.
fn frame_sheet(
    trace: &mut Trace,
    sheet: &[i16; INDEX_SHEET],
    state: &[i16],
    tables: &Pair,
    mut energies: [i16; ENERGIES],
) -> (Vec<i16>, [i16; ENERGIES]) {
    let mut numbers = sheet[..at::GAINS].to_vec();
    let mut sharpening = state[at::SHARPENING];
    let mut concealment = Concealment::of(state);
    let lags = lags(trace, &sheet[at::PITCH..at::GAINS]);
    for (subframe, lag) in lags.into_iter().enumerate() {
        let index = sheet[at::GAINS + subframe];
        let used = match trace.fault {
            Some(Fault::GainsUnsharpened) => 0,
            Some(Fault::GainsByOwnSharpening) => rows()[index as usize][0].min(13017),
            _ => sharpening,
        };
        let mut innovation = part(sheet, at::INDEXED_INNOVATION + SUBFRAME * subframe);
        sharpen(trace, &mut innovation, lag.0, used);
        let gains;
        (gains, energies) = self::gains(trace, index, &innovation, tables, &energies);
        let decoded = concealment.good(trace, subframe, gains);
        let [pitch, _] = if trace.has(Fault::GainsSharpenedUnheld) {
            gains
        } else {
            decoded
        };
        let held = !trace.has(Fault::GainsSharpeningNotHeld);
        sharpening = pitch.min(if held { 13017 } else { i16::MAX });
        numbers.extend(gains);
    }
    numbers.extend(&sheet[at::INDEXED_INNOVATION..]);
    (numbers, energies)
}

/// An accepted frame of an index sheet: what `frame` gives, and the energies.
pub fn frame_indexed(
    trace: &mut Trace,
    sheet: &[i16; INDEX_SHEET],
    state: &[i16],
    tables: &Pair,
    energies: &[i16; ENERGIES],
) -> Vec<i16> {
    let (numbers, after) = frame_sheet(trace, sheet, state, tables, *energies);
    let mut answer = frame(trace, &numbers, state);
    answer.extend(after);
    answer
}
