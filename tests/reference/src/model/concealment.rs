//! The gains and the lags of erased frames once more: ec_gain_pitch and ec_gain_code of TS 26.073,
//! their updates, gmed_n, gc_pred_average_limited and old_T0 of Decoder_amr.

use super::{Fault, Trace, clamp16, wide};
use crate::{
    GAIN_FIELDS, SUBFRAMES, at, gain::ENERGIES, lent::stages::Gains, mr74::stages::Lag, part,
};

/// By the attenuation stage.
const PDOWN: [i16; 7] = [32767, 32112, 32112, 26214, 9830, 6553, 6553];
const CDOWN: [i16; 7] = [32767, 32112, 32112, 32112, 32112, 32112, 22937];

/// gmed_n of five: the largest is taken away twice, and the next largest is the third in order.
pub fn third(trace: &mut Trace, five: [i16; 5]) -> i16 {
    let take = |left: &mut Vec<i16>| {
        let largest = *left.iter().max().expect("numbers are left");
        let place = left.iter().position(|&number| number == largest);
        left.remove(place.expect("the largest is one of them"))
    };
    let mut left = five.to_vec();
    let second = [take(&mut left), take(&mut left)][1];
    let third = take(&mut left);
    trace.mark_if(third != five[2], "third in order not the third that came");
    trace.mark_if(second == third, "third in order twice");
    match trace.fault {
        Some(Fault::MedianSecond) => second,
        Some(Fault::MedianAsItCame) => five[2],
        _ => third,
    }
}

/// What goes on of one of the two gains.
#[derive(Debug, Clone, Copy, PartialEq, Eq)]
pub struct Memory {
    /// pbuf or gbuf, oldest first.
    five: [i16; 5],
    /// past_gain_pit or past_gain_code.
    past: i16,
    /// prev_gp or prev_gc.
    good: i16,
    /// Which of the two.
    pitch: bool,
}

impl Memory {
    /// ec_gain_pitch, ec_gain_code.
    fn conceal(&self, trace: &mut Trace, stage: usize) -> i16 {
        let median = third(trace, self.five);
        let [above, below] = if self.pitch {
            [
                "past pitch gain below the median",
                "past pitch gain above the median",
            ]
        } else {
            [
                "past code gain below the median",
                "past code gain above the median",
            ]
        };
        trace.mark_if(self.past < median, above);
        trace.mark_if(self.past > median, below);
        let held = if trace.has(Fault::PastNotHeldTo) {
            median
        } else {
            median.min(self.past)
        };
        let exchanged = trace.has(Fault::StageTablesExchanged);
        let down = if self.pitch != exchanged {
            PDOWN
        } else {
            CDOWN
        };
        let before = usize::from(trace.has(Fault::StageBefore) && stage > 0);
        let gain = ((wide(held) * wide(down[stage - before])) >> 15) as i16;
        let limit = trace.has(Fault::ConcealedHeld) && self.pitch;
        trace.mark_if(
            self.pitch && gain > 16384,
            "concealed pitch gain above 16384",
        );
        if limit { gain.min(16384) } else { gain }
    }

    /// ec_gain_pitch_update, ec_gain_code_update. The gain enters, its oldest leaving.
    fn update(&mut self, trace: &mut Trace, gain: i16) {
        let held = if self.pitch || trace.has(Fault::CodeHeld) {
            gain.min(16384)
        } else {
            gain
        };
        let unheld = |fault: Fault| if trace.has(fault) { gain } else { held };
        self.past = unheld(Fault::PastNotHeld);
        let enters = unheld(Fault::FiveNotHeld);
        let [a, b, c, d, e] = self.five;
        self.five = if trace.has(Fault::NewestLeaves) {
            [a, b, c, d, enters]
        } else {
            [b, c, d, e, enters]
        };
    }
}

/// What goes on beside the sample path: the fields 197 to 212 of a state.
#[derive(Debug, Clone, Copy, PartialEq, Eq)]
pub struct Concealment {
    old_t0: i16,
    memories: [Memory; 2],
    prev_bf: bool,
}

impl Concealment {
    pub fn of(state: &[i16]) -> Self {
        let memory = |number: usize| Memory {
            five: part(state, at::GAIN_FIELDS + 5 * number),
            past: state[at::GAIN_FIELDS + 10 + number],
            good: state[at::GAIN_FIELDS + 12 + number],
            pitch: number == 0,
        };
        Self {
            old_t0: state[at::LAST_LAG],
            memories: [memory(0), memory(1)],
            prev_bf: state[at::ERASED] == 1,
        }
    }

    /// The fields 198 to 211.
    pub fn gain_fields(&self) -> [i16; GAIN_FIELDS] {
        let [pitch, code] = self.memories;
        let pairs = [pitch.past, code.past, pitch.good, code.good];
        let fields = [&pitch.five[..], &code.five, &pairs].concat();
        part(&fields, 0)
    }

    /// The fields 197 to 212.
    pub fn fields(&self) -> Vec<i16> {
        let mut fields = vec![self.old_t0];
        fields.extend(self.gain_fields());
        fields.push(i16::from(self.prev_bf));
        fields
    }

    /// The gains of an erased subframe.
    pub fn conceal(&mut self, trace: &mut Trace, stage: i16) -> Gains {
        self.memories.each_mut().map(|memory| {
            let gain = memory.conceal(trace, stage as usize);
            if !trace.has(Fault::ConcealedNotEntered) {
                memory.update(trace, gain);
            }
            if trace.has(Fault::LastGoodOfErased) {
                memory.good = gain;
            }
            gain
        })
    }

    /// The gains that a good subframe is decoded with.
    pub fn good(&mut self, trace: &mut Trace, subframe: usize, gains: Gains) -> Gains {
        let held = self.held(trace, subframe, gains);
        let mut number = 0;
        self.memories.each_mut().map(|memory| {
            let (raw, used) = (gains[number], held[number]);
            number += 1;
            memory.good = match trace.fault {
                Some(Fault::LastGoodHeld) if memory.pitch => used.min(16384),
                Some(Fault::LastGoodUnheld) => raw,
                _ => used,
            };
            memory.update(trace, used);
            used
        })
    }

    /// At most the last good pair, each gain by itself, where the frame before was erased.
    fn held(&self, trace: &mut Trace, subframe: usize, gains: Gains) -> Gains {
        let limits = self.memories.map(|memory| match trace.fault {
            Some(Fault::GoodHeldToPast) => memory.past,
            _ => memory.good,
        });
        let above = [0, 1].map(|number| gains[number] > limits[number]);
        let holds = match trace.fault {
            Some(Fault::GoodNotHeld) => false,
            Some(Fault::GoodAlwaysHeld) => true,
            Some(Fault::GoodHeldOnce) => self.prev_bf && subframe == 0,
            _ => self.prev_bf,
        };
        if !holds {
            trace.mark_if(above != [false; 2], "gain above the last good, not held");
            return gains;
        }
        trace.mark(match above {
            [true, true] => "both gains held",
            [true, false] => "pitch gain held alone",
            [false, true] => "code gain held alone",
            [false, false] => "no gain held after an erased frame",
        });
        let together = trace.has(Fault::GoodHeldTogether) && above != [false; 2];
        [0, 1].map(|number| {
            if above[number] || together {
                limits[number]
            } else {
                gains[number]
            }
        })
    }

    /// The four lags of an erased frame, which leaves the mark.
    pub fn lags(&mut self, trace: &mut Trace) -> [Lag; SUBFRAMES] {
        trace.number("last lag", self.old_t0);
        self.prev_bf = !trace.has(Fault::MarkNotSet);
        let most = if trace.has(Fault::LagRaisedAt143) {
            144
        } else {
            143
        };
        std::array::from_fn(|subframe| {
            let raised = subframe == 0 || !trace.has(Fault::LagRaisedOnce);
            if self.old_t0 < most && raised {
                self.old_t0 += 1;
            }
            if trace.has(Fault::LagLowered) {
                self.old_t0 = self.old_t0.min(143);
            }
            (self.old_t0, 0)
        })
    }

    /// After a good frame: the mark is cleared, and its fourth lag is the last one.
    pub fn end_good(&mut self, trace: &Trace, lags: &[Lag; SUBFRAMES]) {
        self.prev_bf &= trace.has(Fault::MarkKept);
        if !trace.has(Fault::LastLagKept) {
            self.old_t0 = lags[SUBFRAMES - 1].0;
        }
    }
}

/// gc_pred_average_limited and gc_pred_update: the energies after an erased subframe.
pub fn energies(trace: &mut Trace, before: &[i16; ENERGIES]) -> [i16; ENERGIES] {
    let mut order = *before;
    if trace.has(Fault::AverageOldestFirst) {
        order.reverse();
    }
    let mut sum = 0;
    for energy in order {
        let next = sum + wide(energy);
        trace.mark_if(next > 32767, "sum of energies clamped above");
        trace.mark_if(next < -32768, "sum of energies clamped below");
        sum = if trace.has(Fault::AverageUnclamped) {
            next
        } else {
            clamp16(next)
        };
    }
    trace.mark_if(sum < 0 && sum % 4 != 0, "average rounded down below zero");
    let average = trace.down(sum, 2, Fault::AverageTowardZero).max(-14336) as i16;
    let [a, b, c, d] = *before;
    if trace.has(Fault::AverageEnteredLast) {
        [b, c, d, average]
    } else {
        [average, a, b, c]
    }
}
