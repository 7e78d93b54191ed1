//! The sample path once more, in whole numbers, from the operators of TS 26.073. It says which
//! steps were held at a limit, and with a fault put in it stands for a decoder that is wrong:
//! the coverage counts what it saw, and the recorded answers that tell it from the reference.
//! It brings no answer into the recorded files. The cosine, the interpolation and the gain table are
//! read off the reference's answers; everything else is its own.

pub mod concealment;
pub mod frame;
pub mod gains;

use crate::{
    FRAME, LSFS, NOWHERE, PAST, ROW, SUBFRAME, SUBFRAMES,
    mr74::stages::{self, Lag},
    part,
};
use std::{collections::BTreeSet, sync::OnceLock};

macro_rules! faults {
    ($($fault:ident: $name:literal,)*) => {
        /// One way of being wrong.
        #[derive(Debug, Clone, Copy, PartialEq, Eq)]
        pub enum Fault { $($fault,)* }

        impl Fault {
            pub fn name(self) -> &'static str {
                match self { $(Self::$fault => $name,)* }
            }
        }
    };
}

faults! {
    LspTowardZero: "LSP interpolation toward zero",
    BlendTowardZero: "blends toward zero",
    PolynomialUnclamped: "no clamp between the polynomial's sums",
    CoefficientTowardZero: "coefficient >> 13 toward zero",
    CoefficientClamped: "coefficient clamped to 16 bits",
    LagPlainThird: "thirds of a direct lag not dropped",
    LagMinimum: "relative lag not held to 20..=134",
    PredictionUnclamped: "no clamp between the prediction's sums",
    PredictionPastOnly: "prediction reads zeros for its own samples",
    SharpeningNotFed: "sharpening does not feed on itself",
    SharpeningOfThisGain: "sharpening by this subframe's gain",
    SharpeningTowardZero: "sharpening product toward zero",
    SharpeningWraps: "sharpened innovation wraps",
    FeedbackTowardZero: "feedback >> 16 toward zero",
    EnhancedFrom8192: "enhancement at pitch gain 8192 too",
    EnhancementUnmatched: "enhancement without match_energy",
    EnergyTowardZero: "energy's sample >> 2 toward zero",
    EnergyNotRestarted: "energy not started again",
    GainTowardZero: "scaled samples >> 16 toward zero",
    SynthesisTowardZero: "synthesis >> 16 toward zero",
    OverflowByLastSteps: "overflow seen in the last two steps only",
    PlaceByLastSteps: "place seen in the last two steps only",
    PlaceOfLastClamp: "place of the last clamp",
    PlaceOneLate: "place one late",
    PlaceFromSecondPass: "place from the second pass",
    PlaceOnFeedback: "place from a pass on the feedback",
    QuarterEnhanced: "enhanced excitation quartered",
    QuarterTowardZero: "quartering toward zero",
    PastNotQuartered: "past not quartered",
    FeedbackNotQuartered: "feedback not quartered in the past",
    SecondHistory: "second pass from the first pass's history",
    TiltTowardZero: "tilt product toward zero",
    TiltFromChanged: "tilt reads the changed residual",
    SmoothingTowardZero: "smoothed gain rounded up",
    GainKept: "smoothed gain kept through silence",
    GainsUnsharpened: "gains from the unsharpened innovation",
    GainsByOwnSharpening: "gains from innovation sharpened by the subframe's own gain",
    GainsSharpeningNotHeld: "gains from innovation sharpened by a gain not held to 13017",
    EnergyNotEntered: "the row's energy not entered",
    EnergyEnteredLast: "the row's energy entered last",
    Factor5443: "predicted gain by 5443",
    PredictorExchanged: "two predictor taps exchanged",
    PredictorUnclamped: "no clamp between the predictor's sums",
    SquaresAsEnergy: "squares summed as an energy is",
    LogBase: "logarithm's table index from base 31",
    LogTowardZero: "logarithm's product toward zero",
    PowerTimes16: "power's fraction times 16",
    PowerNotRounded: "power not rounded",
    CodeGainWraps: "code gain shifted up without a clamp",
    MedianSecond: "the second of the five in order",
    MedianAsItCame: "the third of the five as they came",
    PastNotHeldTo: "concealed gain not held to the past gain",
    StageBefore: "the entry of the stage before",
    StageTablesExchanged: "the two tables of the stages exchanged",
    ConcealedHeld: "concealed pitch gain held to 16384 before its use",
    PastNotHeld: "past pitch gain not held to 16384",
    FiveNotHeld: "pitch gain enters its five not held to 16384",
    CodeHeld: "code gain held to 16384 too",
    NewestLeaves: "the newest of the five leaves",
    ConcealedNotEntered: "concealed gains do not enter the fives",
    GoodNotHeld: "no hold after an erased frame",
    GoodAlwaysHeld: "hold without a mark",
    GoodHeldOnce: "hold in the first subframe alone",
    GoodHeldToPast: "hold to the past gains",
    GoodHeldTogether: "both gains held where one is",
    LastGoodHeld: "last good pitch gain held to 16384",
    LastGoodUnheld: "last good pair from before the hold",
    LastGoodOfErased: "an erased frame's gains become the last good pair",
    LagRaisedAt143: "a last lag of 143 raised",
    LagLowered: "a last lag of 144 lowered to 143",
    LagRaisedOnce: "the lag raised once a frame",
    LastLagKept: "last lag not taken from a good frame",
    MarkKept: "mark not cleared by a good frame",
    MarkNotSet: "mark not set by an erased frame",
    AverageUnclamped: "no clamp between the sums of the energies",
    AverageTowardZero: "average of the energies toward zero",
    AverageOldestFirst: "energies summed from the oldest",
    AverageOnce: "energies stepped once a frame",
    AverageEnteredLast: "average of the energies entered last",
    GainsSharpenedUnheld: "gains from innovation sharpened by gains that are not held",
    ErasedSharpeningKept: "sharpening kept through an erased frame",
}

/// What a run of the model saw, and the fault it was given.
#[derive(Default)]
pub struct Trace {
    pub fault: Option<Fault>,
    pub seen: BTreeSet<(&'static str, i16)>,
}

impl Trace {
    pub fn faulty(fault: Fault) -> Self {
        Self {
            fault: Some(fault),
            ..Self::default()
        }
    }

    pub fn mark(&mut self, kind: &'static str) {
        self.number(kind, 0);
    }

    pub fn mark_if(&mut self, condition: bool, kind: &'static str) {
        if condition {
            self.mark(kind);
        }
    }

    /// One of a numbered kind.
    pub fn number(&mut self, kind: &'static str, number: i16) {
        self.seen.insert((kind, number));
    }

    fn has(&self, fault: Fault) -> bool {
        self.fault == Some(fault)
    }

    /// `>> bits`, or toward zero where that is the fault.
    fn down(&self, value: i64, bits: u32, fault: Fault) -> i64 {
        if self.has(fault) {
            value / (1 << bits)
        } else {
            value >> bits
        }
    }

    fn clamp32(&mut self, value: i64, kind: &'static str) -> i64 {
        let clamped = clamp32(value);
        self.mark_if(clamped != value, kind);
        clamped
    }
}

fn clamp32(value: i64) -> i64 {
    value.clamp(i64::from(i32::MIN), i64::from(i32::MAX))
}

fn clamp16(value: i64) -> i64 {
    value.clamp(i64::from(i16::MIN), i64::from(i16::MAX))
}

fn wide(number: i16) -> i64 {
    i64::from(number)
}

/// Twice the product, clamped.
fn l_mult(left: i64, right: i64) -> i64 {
    clamp32(2 * left * right)
}

fn round(value: i64) -> i64 {
    clamp32(value + 32768) >> 16
}

/// Shifts up, clamped, or down.
fn l_shl(value: i64, bits: i64) -> i64 {
    if bits < 0 {
        value >> (-bits).min(31)
    } else {
        clamp32(value << bits.min(32))
    }
}

fn norm(value: i64) -> i64 {
    i64::from((value as i32).leading_zeros()) - 1
}

pub fn lsp(trace: &mut Trace, frequency: i16) -> i16 {
    trace.mark_if(frequency == 0, "frequency 0");
    trace.mark_if(frequency == 16383, "frequency 16383");
    if frequency == 16384 {
        trace.mark("frequency 16384");
        return -32768;
    }
    let (knot, offset) = (frequency >> 8, frequency & 255);
    trace.number("table interval", knot);
    let low = wide(stages::lsp(knot << 8));
    let high = wide(stages::lsp((knot + 1) << 8));
    (low + trace.down((high - low) * wide(offset), 8, Fault::LspTowardZero)) as i16
}

fn polynomial(trace: &mut Trace, lsp: &[i16; LSFS], offset: usize) -> [i64; 6] {
    let unclamped = trace.has(Fault::PolynomialUnclamped);
    let mut f = [0; 6];
    f[0] = 1 << 24;
    f[1] = -1024 * wide(lsp[offset]);
    for degree in 2..=5 {
        let root = wide(lsp[offset + 2 * (degree - 1)]);
        f[degree] = f[degree - 2];
        for index in (2..=degree).rev() {
            let high = f[index - 1] >> 16;
            let low = (f[index - 1] >> 1) - 32768 * high;
            let product = clamp32(l_mult(high, root) + 2 * clamp16((low * root) >> 15));
            let doubled = trace.clamp32(2 * product, "polynomial: doubled product clamped");
            let sum = f[index] + f[index - 2];
            f[index] = if unclamped {
                sum - 2 * product
            } else {
                trace.clamp32(clamp32(sum) - doubled, "polynomial: difference clamped")
            };
        }
        f[1] = clamp32(f[1] - 1024 * root);
    }
    f
}

pub fn coefficient(trace: &mut Trace, value: i64) -> i16 {
    let rounded = trace.down(value, 13, Fault::CoefficientTowardZero) + ((value >> 12) & 1);
    trace.mark_if(clamp16(rounded) != rounded, "coefficient wraps at 16 bits");
    if trace.has(Fault::CoefficientClamped) {
        clamp16(rounded) as i16
    } else {
        rounded as i16
    }
}

pub fn convert(trace: &mut Trace, lsp: &[i16; LSFS]) -> [i16; ROW] {
    let mut first = polynomial(trace, lsp, 0);
    let mut second = polynomial(trace, lsp, 1);
    for index in (1..=5).rev() {
        first[index] = trace.clamp32(first[index] + first[index - 1], "row: sum clamped");
        second[index] = trace.clamp32(second[index] - second[index - 1], "row: sum clamped");
    }
    let mut row = [4096; ROW];
    for index in 1..=5 {
        let sum = trace.clamp32(first[index] + second[index], "row: last sum clamped");
        let difference = trace.clamp32(first[index] - second[index], "row: last sum clamped");
        row[index] = coefficient(trace, sum);
        row[ROW - index] = coefficient(trace, difference);
    }
    row
}

pub fn interpolate(
    trace: &mut Trace,
    old: &[i16; LSFS],
    new: &[i16; LSFS],
) -> [[i16; ROW]; SUBFRAMES] {
    let toward = Fault::BlendTowardZero;
    std::array::from_fn(|subframe| {
        let blend: [i16; LSFS] = std::array::from_fn(|index| {
            let (old, new) = (wide(old[index]), wide(new[index]));
            let quarter = |value| trace.down(value, 2, toward);
            let half = |value| trace.down(value, 1, toward);
            clamp16(match subframe {
                0 => quarter(new) + (old - quarter(old)),
                1 => half(old) + half(new),
                2 => quarter(old) + (new - quarter(new)),
                _ => new,
            }) as i16
        });
        convert(trace, &blend)
    })
}

pub fn lag_absolute(trace: &mut Trace, index: i16) -> Lag {
    trace.number("absolute index", index);
    let thirds = [1, -1, 0][index as usize % 3];
    if index < 197 {
        ((index + 2) / 3 + 19, thirds)
    } else {
        let plain = trace.has(Fault::LagPlainThird);
        (index - 112, if plain { thirds } else { 0 })
    }
}

pub fn lag_relative(trace: &mut Trace, index: i16, previous: i16) -> Lag {
    trace.mark_if(previous < 25, "minimum lag raised to 20");
    trace.mark_if(previous > 139, "minimum lag lowered to 134");
    let minimum = if trace.has(Fault::LagMinimum) {
        previous - 5
    } else {
        (previous - 5).clamp(20, 134)
    };
    let thirds = [1, -1, 0][index as usize % 3];
    ((minimum + (index + 2) / 3 - 1).min(144), thirds)
}

/// The interpolation coefficients at even places, the ones that thirds read: an impulse of -32768
/// comes out of the prediction as the coefficient's negative.
fn interpolation() -> &'static [i64; 61] {
    static TABLE: OnceLock<[i64; 61]> = OnceLock::new();
    TABLE.get_or_init(|| {
        let probe = |place: usize, thirds| {
            let mut past = [0; PAST];
            past[place] = -32768;
            -wide(stages::predict(&past, (100, thirds))[0])
        };
        let mut table = [0; 61];
        for tap in 0..10 {
            table[6 * tap] = probe(54 - tap, 0);
            table[6 * tap + 6] = probe(55 + tap, 0);
            table[6 * tap + 2] = probe(54 - tap, -1);
            table[6 * tap + 4] = probe(55 + tap, -1);
        }
        table
    })
}

pub fn predict(trace: &mut Trace, past: &[i16; PAST], (samples, thirds): Lag) -> [i16; SUBFRAME] {
    let table = interpolation();
    let mut buffer = [0; PAST + SUBFRAME];
    buffer[..PAST].copy_from_slice(past);
    let mut start = PAST - samples as usize;
    let mut phase = -2 * thirds;
    if phase < 0 {
        phase += 6;
        start -= 1;
    }
    let phase = phase as usize;
    let mut own = false;
    for sample in 0..SUBFRAME {
        let mut sum = 0;
        for tap in 0..10 {
            for (place, coefficient) in [
                (start + sample - tap, table[phase + 6 * tap]),
                (start + sample + 1 + tap, table[6 - phase + 6 * tap]),
            ] {
                let mut value = wide(buffer[place]);
                own |= place >= PAST && value * coefficient != 0;
                if place >= PAST && trace.has(Fault::PredictionPastOnly) {
                    value = 0;
                }
                sum += 2 * value * coefficient;
                if !trace.has(Fault::PredictionUnclamped) {
                    sum = trace.clamp32(sum, "prediction: sum clamped");
                }
            }
        }
        let sum = clamp32(sum);
        let rounded = trace.clamp32(sum + 32768, "prediction: rounding clamped");
        buffer[PAST + sample] = (rounded >> 16) as i16;
    }
    trace.mark_if(own, "prediction reads its own samples");
    part(&buffer, PAST)
}

fn sharpen(trace: &mut Trace, innovation: &mut [i16; SUBFRAME], lag: i16, sharpening: i16) {
    let plain = *innovation;
    let doubled = clamp16(2 * wide(sharpening));
    let lag = lag as usize;
    trace.mark_if(lag < SUBFRAME && sharpening > 0, "innovation sharpened");
    for sample in lag..SUBFRAME {
        let earlier = if trace.has(Fault::SharpeningNotFed) {
            plain[sample - lag]
        } else {
            innovation[sample - lag]
        };
        let product = wide(earlier) * doubled;
        let sum = wide(innovation[sample]) + trace.down(product, 15, Fault::SharpeningTowardZero);
        trace.mark_if(clamp16(sum) != sum, "sharpened innovation clamped");
        innovation[sample] = if trace.has(Fault::SharpeningWraps) {
            sum as i16
        } else {
            clamp16(sum) as i16
        };
    }
}

pub fn energy(trace: &mut Trace, samples: &[i16; SUBFRAME]) -> i64 {
    let square = |sample: i64| 2 * sample * sample;
    let mut sum = 0;
    for &sample in samples {
        sum = clamp32(sum + square(wide(sample)));
    }
    trace.mark_if(sum == 2147483646, "energy: sum 2147483646");
    trace.mark_if(0 < sum && sum < 16, "energy: sum above 0 and below 16");
    if sum < 2147483647 || trace.has(Fault::EnergyNotRestarted) {
        return sum >> 4;
    }
    trace.mark("energy: started again");
    let mut sum = 0;
    for &sample in samples {
        let quarter = trace.down(wide(sample), 2, Fault::EnergyTowardZero);
        sum = trace.clamp32(sum + square(quarter), "energy: second sum clamped");
    }
    sum
}

/// Entry k is the whole number nearest to 131072 / sqrt(16 + k), held to 32767.
fn inverse_table() -> &'static [i64; 49] {
    static TABLE: OnceLock<[i64; 49]> = OnceLock::new();
    TABLE.get_or_init(|| {
        std::array::from_fn(|k| {
            // The last t with (2t - 1)² (16 + k) <= 4 · 131072².
            let fits = |t: &i64| (2 * t - 1) * (2 * t - 1) * (16 + k as i64) <= 1 << 36;
            (1..=32767).take_while(fits).last().unwrap_or(0)
        })
    })
}

pub fn inverse_sqrt(value: i64) -> i64 {
    if value <= 0 {
        return 1073741823;
    }
    let exponent = 30 - norm(value);
    let mut normalised = value << norm(value);
    if exponent % 2 == 0 {
        normalised >>= 1;
    }
    let normalised = normalised >> 9;
    let index = (normalised >> 16) as usize - 16;
    let fraction = (normalised >> 1) & 32767;
    let table = inverse_table();
    let step = table[index] - table[index + 1];
    (table[index] * 65536 - 2 * step * fraction) >> (exponent / 2 + 1)
}

/// The gain (Q12) that brings an output energy to the input's.
fn energy_gain(trace: &mut Trace, input: &[i16; SUBFRAME], output_energy: i64) -> i64 {
    let exponent = norm(output_energy) - 1;
    let above = round(l_shl(output_energy, exponent));
    let input_energy = energy(trace, input);
    if input_energy == 0 {
        trace.mark("gain: zero input energy");
        return 0;
    }
    let input_exponent = norm(input_energy);
    let below = round(l_shl(input_energy, input_exponent));
    let exponent = exponent - input_exponent;
    let ratio = (above << 15) / below;
    trace.mark_if(ratio == 32768, "gain: ratio held to 32767");
    let ratio = l_shl(l_shl(ratio.min(32767), 7), -exponent);
    trace.mark_if(ratio == 0, "gain: root of 0");
    trace.mark_if(ratio == 2147483647, "gain: ratio clamped to 32 bits");
    let gain = round(l_shl(inverse_sqrt(ratio), 9));
    trace.mark_if(gain == 32767, "gain: 32767");
    trace.mark_if(gain > 4096, "gain: above 1");
    trace.mark_if(gain < 4096, "gain: below 1");
    gain
}

fn scale(trace: &mut Trace, sample: i16, gain: i64) -> i16 {
    let scaled = trace.clamp32(
        8 * l_mult(wide(sample), gain),
        "gain: scaled sample clamped",
    );
    trace.down(scaled, 16, Fault::GainTowardZero) as i16
}

pub fn match_energy(
    trace: &mut Trace,
    input: &[i16; SUBFRAME],
    output: &[i16; SUBFRAME],
) -> [i16; SUBFRAME] {
    let output_energy = energy(trace, output);
    if output_energy == 0 {
        trace.mark("gain: zero output energy");
        return *output;
    }
    let gain = energy_gain(trace, input, output_energy);
    output.map(|sample| scale(trace, sample, gain))
}

pub fn gain_control(
    trace: &mut Trace,
    gain: i16,
    input: &[i16; SUBFRAME],
    output: &[i16; SUBFRAME],
) -> ([i16; SUBFRAME], i16) {
    let output_energy = energy(trace, output);
    if output_energy == 0 {
        trace.mark("gain: zero output energy");
        trace.mark_if(gain > 0, "smoothed gain set to 0");
        let kept = trace.has(Fault::GainKept);
        return (*output, if kept { gain } else { 0 });
    }
    let target = (energy_gain(trace, input, output_energy) * (32767 - 29491)) >> 15;
    let mut gain = wide(gain);
    let scaled = output.map(|sample| {
        let rest = if trace.has(Fault::SmoothingTowardZero) {
            (gain * 29491 + 32767) >> 15
        } else {
            (gain * 29491) >> 15
        };
        gain = clamp16(rest + target);
        scale(trace, sample, gain)
    });
    (scaled, gain as i16)
}

/// The steps of a synthesis that were clamped.
pub mod step {
    pub const FIRST: u8 = 1;
    pub const TAP: u8 = 2;
    pub const DIFFERENCE: u8 = 4;
    pub const TIMES_8: u8 = 8;
    pub const ROUNDING: u8 = 16;
    pub const LAST_TWO: u8 = TIMES_8 | ROUNDING;
}

pub struct Filtered {
    pub samples: [i16; SUBFRAME],
    /// The steps that were clamped, sample by sample.
    pub steps: [u8; SUBFRAME],
}

impl Filtered {
    pub fn steps(&self) -> u8 {
        self.steps.iter().fold(0, |all, steps| all | steps)
    }

    /// A sample was clamped on the way and then came back into range.
    pub fn returned(&self) -> bool {
        self.steps
            .iter()
            .any(|&steps| steps != 0 && steps & step::LAST_TWO == 0)
    }

    /// The first sample at which a step was clamped, 40 where none was.
    pub fn place(&self, trace: &Trace) -> i16 {
        let any = |steps: &u8| *steps != 0;
        let last_two = |steps: &u8| steps & step::LAST_TWO != 0;
        let mut samples = self.steps.iter();
        let place = match trace.fault {
            Some(Fault::OverflowByLastSteps) if !last_two(&self.steps()) => None,
            Some(Fault::PlaceByLastSteps) => samples.position(last_two),
            Some(Fault::PlaceOfLastClamp) => samples.rposition(any),
            _ => samples.position(any),
        };
        let late = i16::from(trace.has(Fault::PlaceOneLate));
        place.map_or(NOWHERE, |place| place as i16 + late)
    }
}

pub fn synthesis(
    trace: &Trace,
    row: &[i16; ROW],
    history: &[i16; LSFS],
    excitation: &[i16; SUBFRAME],
) -> Filtered {
    let mut buffer = [0; LSFS + SUBFRAME];
    buffer[..LSFS].copy_from_slice(history);
    let mut steps = [0; SUBFRAME];
    for sample in 0..SUBFRAME {
        let mut hold = |value: i64, step: u8| {
            let clamped = clamp32(value);
            if clamped != value {
                steps[sample] |= step;
            }
            clamped
        };
        let mut sum = hold(2 * wide(row[0]) * wide(excitation[sample]), step::FIRST);
        for tap in 1..ROW {
            let earlier = wide(buffer[LSFS + sample - tap]);
            let product = hold(2 * wide(row[tap]) * earlier, step::TAP);
            sum = hold(sum - product, step::DIFFERENCE);
        }
        sum = hold(8 * sum, step::TIMES_8);
        sum = hold(sum + 32768, step::ROUNDING);
        buffer[LSFS + sample] = trace.down(sum, 16, Fault::SynthesisTowardZero) as i16;
    }
    Filtered {
        samples: part(&buffer, LSFS),
        steps,
    }
}

/// The powers of a weighting factor: each the one before times the first, rounded.
fn weighted(row: &[i16; ROW], factor: i64) -> [i16; ROW] {
    let mut power = 32768;
    std::array::from_fn(|index| {
        if index == 0 {
            row[0]
        } else {
            power = (power * factor + 16384) >> 15;
            round(l_mult(wide(row[index]), power)) as i16
        }
    })
}

fn tilt(trace: &mut Trace, numerator: &[i16; ROW], denominator: &[i16; ROW]) -> i64 {
    let mut impulse = [0; SUBFRAME];
    impulse[..ROW].copy_from_slice(numerator);
    let impulse = synthesis(trace, denominator, &[0; LSFS], &impulse).samples;
    let impulse = impulse[..22].iter().map(|&sample| wide(sample));
    let (mut energy, mut correlation, mut before) = (0, 0, 0);
    for sample in impulse {
        let square = energy + l_mult(sample, sample);
        let product = correlation + l_mult(before, sample);
        energy = trace.clamp32(square, "tilt: energy clamped");
        correlation = trace.clamp32(product, "tilt: correlation clamped");
        before = sample;
    }
    let (energy, correlation) = (energy >> 16, correlation >> 16);
    if correlation <= 0 {
        trace.mark_if(correlation == 0, "tilt: correlation's high word 0");
        trace.mark("tilt 0");
        return 0;
    }
    let tilt = ((((correlation * 26214) >> 15) << 15) / energy).min(32767);
    trace.mark_if(tilt > 0, "tilt above 0");
    tilt
}

pub fn postfilter(
    trace: &mut Trace,
    memory: &[i16],
    samples: &[i16],
    rows: &[[i16; ROW]; SUBFRAMES],
) -> (Vec<i16>, Vec<i16>) {
    let mut input = memory[..LSFS].to_vec();
    input.extend(samples);
    let mut history: [i16; LSFS] = part(memory, LSFS);
    let [mut previous, mut gain] = part(memory, 2 * LSFS);
    let mut filtered = Vec::new();
    for (subframe, row) in rows.iter().enumerate() {
        let numerator = weighted(row, 18022);
        let denominator = weighted(row, 22938);
        let start = LSFS + SUBFRAME * subframe;
        let mut residual: [i16; SUBFRAME] = std::array::from_fn(|sample| {
            let mut sum = 0;
            for (tap, &coefficient) in numerator.iter().enumerate() {
                let product = l_mult(wide(coefficient), wide(input[start + sample - tap]));
                sum = trace.clamp32(sum + product, "residual: sum clamped");
            }
            let scaled = trace.clamp32(8 * sum, "residual: times 8 clamped");
            round(scaled) as i16
        });
        let tilt = tilt(trace, &numerator, &denominator);
        for sample in &mut residual {
            let raw = *sample;
            let product = tilt * wide(previous);
            let difference = wide(raw) - trace.down(product, 15, Fault::TiltTowardZero);
            trace.mark_if(clamp16(difference) != difference, "residual: tilt clamped");
            *sample = clamp16(difference) as i16;
            let changed = trace.has(Fault::TiltFromChanged);
            previous = if changed { *sample } else { raw };
        }
        let output = synthesis(trace, &denominator, &history, &residual);
        trace.mark_if(output.steps() != 0, "second synthesis clamped");
        history = part(&output.samples, SUBFRAME - LSFS);
        let original = part(&input, start);
        let scaled;
        (scaled, gain) = gain_control(trace, gain, &original, &output.samples);
        filtered.extend(scaled);
    }
    let mut memory = input[FRAME..].to_vec();
    memory.extend(history);
    memory.extend([previous, gain]);
    (filtered, memory)
}

fn enhance(
    trace: &mut Trace,
    feedback: &[i16; SUBFRAME],
    prediction: &[i16; SUBFRAME],
    pitch_gain: i64,
) -> [i16; SUBFRAME] {
    let sharpening = 2 * pitch_gain.min(13017);
    let from = if trace.has(Fault::EnhancedFrom8192) {
        16383
    } else {
        16384
    };
    if sharpening <= from {
        trace.mark("not enhanced");
        return *feedback;
    }
    trace.mark("enhanced");
    let enhanced: [i16; SUBFRAME] = std::array::from_fn(|sample| {
        let part = (wide(prediction[sample]) * sharpening) >> 15;
        let sum = wide(feedback[sample]) + round(l_mult(part, pitch_gain));
        trace.mark_if(clamp16(sum) != sum, "enhanced sample clamped");
        clamp16(sum) as i16
    });
    if trace.has(Fault::EnhancementUnmatched) {
        return enhanced;
    }
    match_energy(trace, feedback, &enhanced)
}
