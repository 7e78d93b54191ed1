//! The recorded files of erased frames: their stages, the frame call of an erased sheet, and chains of
//! calls of all three kinds of sheets.

use super::{File, Kind, SHEET_AREA, gains::mark_energies, ones, refused_kinds, words};
use crate::{
    ERASED_SHEET, FRAME, GAIN_FIELDS, INDEX_SHEET, NOWHERE, ROW, SHEET, STATE, SUBFRAMES, at,
    draw::erased as draw,
    frame::{self, EnergyAnswer},
    gain::{ENERGIES, TABLE},
    lent::tables::Pair,
    model::{
        Fault, Trace,
        concealment::{self, Concealment},
        frame as model, gains as indexed,
    },
    mr74::erased as stages,
    part,
};

pub const PITCH_CONCEAL: File = File {
    name: "pitch_conceal.bin",
    seed: 130,
    inputs: &[words("last lag", 1)],
    answers: &[words("lag and thirds of each subframe", 2 * SUBFRAMES)],
    draw: draw::pitch_conceal,
    answer: |input| lag_words(stages::lags(input[0])),
    model: |trace, input| lag_words(of_fields(input[0], &[0; GAIN_FIELDS], 0).lags(trace)),
    kinds: || vec![Kind::Each("last lag", (19..=144).collect())],
    published: true,
    faults: &[
        Fault::LagRaisedAt143,
        Fault::LagLowered,
        Fault::LagRaisedOnce,
    ],
};

pub const CONCEAL_ENERGY: File = File {
    name: "conceal_energy.bin",
    seed: 131,
    inputs: &[words("energies", ENERGIES)],
    answers: &[words("energies after", ENERGIES)],
    draw: draw::conceal_energy,
    answer: |input| stages::energies(&part(input, 0)).to_vec(),
    model: |trace, input| {
        mark_energies(trace, &part(input, 0));
        concealment::energies(trace, &part(input, 0)).to_vec()
    },
    kinds: || {
        ones(&[
            "opening energies",
            "energies -32768 and 32767",
            "sum of energies clamped above",
            "sum of energies clamped below",
            "average rounded down below zero",
        ])
    },
    published: true,
    faults: &AVERAGE_FAULTS,
};

pub const GAIN_CONCEAL: File = File {
    name: "gain_conceal.bin",
    seed: 132,
    inputs: &[
        words("attenuation stage", 1),
        words("gain fields (198..=211 of the state)", GAIN_FIELDS),
    ],
    answers: &[
        words("pitch gain", 1),
        words("code gain", 1),
        words("gain fields after", GAIN_FIELDS),
    ],
    draw: draw::gain_conceal,
    answer: |input| {
        let (gains, fields) = stages::conceal(input[0], &part(input, 1));
        [&gains[..], &fields].concat()
    },
    model: |trace, input| {
        let mut concealment = of_fields(19, &part(input, 1), 0);
        trace.number("stage", input[0]);
        let gains = concealment.conceal(trace, input[0]);
        [&gains[..], &concealment.gain_fields()].concat()
    },
    kinds: || {
        let mut kinds = ones(&CONCEALED_KINDS);
        kinds.push(Kind::One("third in order twice"));
        kinds.push(Kind::Each("stage", (0..7).collect()));
        kinds
    },
    published: true,
    faults: &CONCEALED_FAULTS,
};

pub const GAIN_UPDATE: File = File {
    name: "gain_update.bin",
    seed: 133,
    inputs: &[
        words("pitch gain", 1),
        words("code gain", 1),
        words("erased mark", 1),
        words("gain fields (198..=211 of the state)", GAIN_FIELDS),
    ],
    answers: &[
        words("pitch gain in use", 1),
        words("code gain in use", 1),
        words("gain fields after", GAIN_FIELDS),
    ],
    draw: draw::gain_update,
    answer: |input| {
        let (gains, fields) = stages::update_good(part(input, 0), input[2] == 1, &part(input, 3));
        [&gains[..], &fields].concat()
    },
    model: |trace, input| {
        let mut concealment = of_fields(19, &part(input, 3), input[2]);
        let gains = concealment.good(trace, 0, part(input, 0));
        trace.mark_if(gains[0] > 16384, "pitch gain in use above 16384");
        trace.mark_if(gains[1] > 16384, "code gain in use above 16384");
        [&gains[..], &concealment.gain_fields()].concat()
    },
    kinds: || {
        let mut kinds = ones(&HELD_KINDS);
        kinds.extend(ones(&[
            "pitch gain in use above 16384",
            "code gain in use above 16384",
        ]));
        kinds
    },
    published: true,
    faults: &[
        Fault::PastNotHeld,
        Fault::FiveNotHeld,
        Fault::CodeHeld,
        Fault::NewestLeaves,
        Fault::GoodNotHeld,
        Fault::GoodAlwaysHeld,
        Fault::GoodHeldToPast,
        Fault::GoodHeldTogether,
        Fault::LastGoodHeld,
        Fault::LastGoodUnheld,
    ],
};

pub const FRAME_ERASED: File = File {
    name: "frame_erased.bin",
    seed: 134,
    inputs: &[
        words("erased sheet", ERASED_SHEET),
        words("state", STATE),
        words("energies", ENERGIES),
    ],
    answers: &[
        words("samples", FRAME),
        words("places", SUBFRAMES),
        words("rows", ROW * SUBFRAMES),
        words("next state", STATE),
        words("energies after", ENERGIES),
    ],
    draw: draw::frame_erased,
    answer: |input| {
        let (sheet, state, energies) = erased_input(input);
        let mut out = [0; FRAME];
        let answer = frame::frame_erased(sheet, &state, &energies, &mut out);
        answer_words(&answer, &out)
    },
    model: |trace, input| {
        let (sheet, state, energies) = erased_input(input);
        mark_energies(trace, &energies);
        trace.number("mark before", state[at::ERASED]);
        model::frame_erased(trace, sheet, &state, &energies)
    },
    kinds: || {
        let mut kinds = ones(&CONCEALED_KINDS);
        kinds.extend(ones(&SAMPLE_KINDS));
        kinds.extend(ones(&[
            "opening energies",
            "sum of energies clamped above",
            "sum of energies clamped below",
        ]));
        kinds.push(Kind::Each("stage", (0..7).collect()));
        kinds.push(Kind::Each("mark before", vec![0, 1]));
        kinds.push(Kind::Each("flags", (0..16).collect()));
        let lags = vec![19, 20, 37, 38, 39, 40, 48, 49, 139, 140, 141, 142, 143, 144];
        kinds.push(Kind::Each("last lag", lags));
        kinds
    },
    published: true,
    faults: &ERASED_FAULTS,
};

pub const FRAME_MIXED: File = File {
    name: "frame_mixed.bin",
    seed: 135,
    inputs: &[
        words("kind: 0 frame sheet, 1 index sheet, 2 erased sheet", 1),
        words("sheet, zeros after its end", SHEET),
        words("state", STATE),
        words("logarithm table", TABLE),
        words("power table", TABLE),
        words("energies", ENERGIES),
    ],
    answers: &[
        words("samples", FRAME),
        words("places", SUBFRAMES),
        words("rows", ROW * SUBFRAMES),
        words("next state", STATE),
        words("energies after", ENERGIES),
    ],
    draw: draw::frame_mixed,
    answer: |input| {
        let (answer, out) = Call::of(input).answer();
        answer_words(&answer, &out)
    },
    model: |trace, input| {
        let call = Call::of(input);
        trace.number("kind of call", input[0]);
        if call.state[at::ERASED] == 1 {
            trace.number("kind of call after an erased frame", input[0]);
        }
        call.model(trace)
    },
    kinds: || {
        let mut kinds = ones(&HELD_KINDS);
        kinds.extend(ones(&CONCEALED_KINDS));
        kinds.extend(ones(&SAMPLE_KINDS));
        kinds.push(Kind::Each("stage", (0..7).collect()));
        kinds.push(Kind::Each("kind of call", vec![0, 1, 2]));
        let name = "kind of call after an erased frame";
        kinds.push(Kind::Each(name, vec![0, 1, 2]));
        kinds.push(Kind::Each("flags", (0..16).collect()));
        kinds
    },
    published: true,
    faults: &MIXED_FAULTS,
};

pub const REFUSED_ERASED: File = File {
    name: "refused_erased.bin",
    seed: 136,
    inputs: &[
        words("numbers in the erased sheet", 1),
        words("samples in the lent output", 1),
        words("erased sheet, zeros after its end", SHEET_AREA),
        words("state", STATE),
        words("energies", ENERGIES),
    ],
    answers: &[words("refusal", 1), words("place of the refusal", 1)],
    draw: draw::refused_erased,
    answer: |input| {
        let state: [i16; STATE] = part(input, 2 + SHEET_AREA);
        let mut out: Vec<i16> = (0..input[1]).collect();
        let answer = refused_frame(input, &mut out);
        assert!(answer.frame.refusal != 0 && answer.frame.state == state);
        assert_eq!(answer.energies, input[input.len() - ENERGIES..]);
        assert!(out.into_iter().eq(0..input[1]));
        assert_eq!(answer.frame.places, [NOWHERE; SUBFRAMES]);
        assert_eq!(answer.frame.rows, [[0; ROW]; SUBFRAMES]);
        vec![answer.frame.refusal, answer.frame.place]
    },
    model: |trace, input| {
        let mut out = vec![0; input[1] as usize];
        let answer = refused_frame(input, &mut out).frame;
        draw::CALLS.mark(trace, input, (answer.refusal, answer.place));
        if answer.refusal == 9 {
            trace.number("refusal 9: stage", input[2 + at::STAGE]);
        }
        vec![answer.refusal, answer.place]
    },
    kinds: || {
        let mut kinds = refused_kinds(&draw::CALLS);
        let lengths = vec![0, 1, 170, 172, 173, 178, 182];
        kinds.push(Kind::Each("refusal 1: length", lengths));
        let stages = vec![-32768, -1, 7, 8, 32767];
        kinds.push(Kind::Each("refusal 9: stage", stages));
        kinds
    },
    published: false,
    faults: &[],
};

fn lag_words(lags: [crate::mr74::stages::Lag; SUBFRAMES]) -> Vec<i16> {
    lags.into_iter()
        .flat_map(|(samples, thirds)| [samples, thirds])
        .collect()
}

/// What the second decoder carries, with these fields of a state.
fn of_fields(last_lag: i16, fields: &[i16; GAIN_FIELDS], erased: i16) -> Concealment {
    let mut state = [0; STATE];
    state[at::LAST_LAG] = last_lag;
    state[at::GAIN_FIELDS..at::ERASED].copy_from_slice(fields);
    state[at::ERASED] = erased;
    Concealment::of(&state)
}

/// Erased sheet, state and energies of a record.
fn erased_input(input: &[i16]) -> (&[i16], [i16; STATE], [i16; ENERGIES]) {
    (
        &input[..ERASED_SHEET],
        part(input, ERASED_SHEET),
        part(input, ERASED_SHEET + STATE),
    )
}

fn answer_words(answer: &EnergyAnswer, out: &[i16; FRAME]) -> Vec<i16> {
    assert_eq!(answer.frame.refusal, 0);
    let mut words = out.to_vec();
    words.extend(answer.frame.places);
    words.extend(answer.frame.rows.as_flattened());
    words.extend(answer.frame.state);
    words.extend(answer.energies);
    words
}

fn refused_frame(input: &[i16], out: &mut [i16]) -> EnergyAnswer {
    let sheet = &input[2..2 + input[0] as usize];
    let state = part(input, 2 + SHEET_AREA);
    let energies = part(input, 2 + SHEET_AREA + STATE);
    frame::frame_erased(sheet, &state, &energies, out)
}

/// The kinds of sheets, by their numbers in `frame_mixed.bin`.
#[derive(Debug, Clone, Copy, PartialEq, Eq)]
pub enum CallKind {
    Frame,
    Indexed,
    Erased,
}

/// A call of a record of `frame_mixed.bin`. Energies that a call does not take are handed on.
pub struct Call<'a> {
    kind: CallKind,
    sheet: &'a [i16],
    state: [i16; STATE],
    tables: Pair,
    energies: [i16; ENERGIES],
}

impl<'a> Call<'a> {
    pub fn of(input: &'a [i16]) -> Self {
        let (kind, numbers) = match input[0] {
            0 => (CallKind::Frame, SHEET),
            1 => (CallKind::Indexed, INDEX_SHEET),
            _ => (CallKind::Erased, ERASED_SHEET),
        };
        let tables = 1 + SHEET + STATE;
        Self {
            kind,
            sheet: &input[1..1 + numbers],
            state: part(input, 1 + SHEET),
            tables: [part(input, tables), part(input, tables + TABLE)],
            energies: part(input, tables + 2 * TABLE),
        }
    }

    pub fn answer(&self) -> (EnergyAnswer, [i16; FRAME]) {
        let mut out = [0; FRAME];
        let (sheet, state, energies) = (self.sheet, &self.state, &self.energies);
        let answer = match self.kind {
            CallKind::Frame => EnergyAnswer {
                frame: frame::frame(sheet, state, &mut out),
                energies: *energies,
            },
            CallKind::Indexed => {
                let tables = (&self.tables).into();
                frame::frame_indexed(sheet, state, tables, energies, &mut out)
            }
            CallKind::Erased => frame::frame_erased(sheet, state, energies, &mut out),
        };
        (answer, out)
    }

    /// By the second decoder.
    fn model(&self, trace: &mut Trace) -> Vec<i16> {
        let (sheet, state, energies) = (self.sheet, &self.state, &self.energies);
        match self.kind {
            CallKind::Frame => {
                let mut answer = model::frame(trace, sheet, state);
                answer.extend(energies);
                answer
            }
            CallKind::Indexed => {
                let sheet = part(sheet, 0);
                indexed::frame_indexed(trace, &sheet, state, &self.tables, energies)
            }
            CallKind::Erased => model::frame_erased(trace, sheet, state, energies),
        }
    }
}

const CONCEALED_KINDS: [&str; 6] = [
    "past pitch gain below the median",
    "past pitch gain above the median",
    "past code gain below the median",
    "past code gain above the median",
    "third in order not the third that came",
    "concealed pitch gain above 16384",
];

const HELD_KINDS: [&str; 5] = [
    "both gains held",
    "pitch gain held alone",
    "code gain held alone",
    "no gain held after an erased frame",
    "gain above the last good, not held",
];

const SAMPLE_KINDS: [&str; 8] = [
    "innovation sharpened",
    "sharpened innovation clamped",
    "sharpening 13017",
    "enhanced",
    "not enhanced",
    "peak 32760 or more",
    "second pass clamped",
    "second pass not clamped",
];

const AVERAGE_FAULTS: [Fault; 4] = [
    Fault::AverageUnclamped,
    Fault::AverageTowardZero,
    Fault::AverageOldestFirst,
    Fault::AverageEnteredLast,
];

const CONCEALED_FAULTS: [Fault; 12] = [
    Fault::MedianSecond,
    Fault::MedianAsItCame,
    Fault::PastNotHeldTo,
    Fault::StageBefore,
    Fault::StageTablesExchanged,
    Fault::ConcealedHeld,
    Fault::PastNotHeld,
    Fault::FiveNotHeld,
    Fault::CodeHeld,
    Fault::NewestLeaves,
    Fault::ConcealedNotEntered,
    Fault::LastGoodOfErased,
];

const ERASED_FAULTS: [Fault; 25] = [
    Fault::MedianSecond,
    Fault::MedianAsItCame,
    Fault::PastNotHeldTo,
    Fault::StageBefore,
    Fault::StageTablesExchanged,
    Fault::ConcealedHeld,
    Fault::PastNotHeld,
    Fault::FiveNotHeld,
    Fault::CodeHeld,
    Fault::NewestLeaves,
    Fault::ConcealedNotEntered,
    Fault::LastGoodOfErased,
    Fault::LagRaisedAt143,
    Fault::LagLowered,
    Fault::LagRaisedOnce,
    Fault::MarkNotSet,
    Fault::AverageUnclamped,
    Fault::AverageTowardZero,
    Fault::AverageOldestFirst,
    Fault::AverageOnce,
    Fault::AverageEnteredLast,
    Fault::ErasedSharpeningKept,
    Fault::SharpeningOfThisGain,
    Fault::EnhancementUnmatched,
    Fault::PastNotQuartered,
];

const MIXED_FAULTS: [Fault; 23] = [
    Fault::GoodNotHeld,
    Fault::GoodAlwaysHeld,
    Fault::GoodHeldOnce,
    Fault::GoodHeldToPast,
    Fault::GoodHeldTogether,
    Fault::LastGoodHeld,
    Fault::LastGoodUnheld,
    Fault::LastGoodOfErased,
    Fault::LastLagKept,
    Fault::MarkKept,
    Fault::MarkNotSet,
    Fault::GainsSharpenedUnheld,
    Fault::GainsSharpeningNotHeld,
    Fault::EnergyNotEntered,
    Fault::PastNotHeld,
    Fault::FiveNotHeld,
    Fault::CodeHeld,
    Fault::NewestLeaves,
    Fault::MedianSecond,
    Fault::PastNotHeldTo,
    Fault::StageBefore,
    Fault::LagRaisedOnce,
    Fault::AverageOnce,
];
