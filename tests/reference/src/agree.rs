//! The second decoder (`model.rs`) against the reference: random accepted frames, and every
//! argument of the stages that have few enough.

use crate::{
    FRAME, GAIN_FIELDS, NOWHERE, ZEROS, at,
    draw::{self, erased::Chain},
    files::erased::FRAME_MIXED,
    frame,
    gain::{self, OPENING},
    model::{self, Trace, concealment::Concealment, gains},
    mr74::{erased, stages},
    part, program,
    random::Random,
    tally::Tally,
};

/// The frames of a chain, which begins from a drawn state.
const CHAIN: u64 = 100;

fn frames(tally: &mut Tally, count: u64, seed: u64) {
    let mut random = Random::new(seed);
    let mut state = ZEROS;
    let mut retried = 0;
    for number in 0..count {
        if number % CHAIN == CHAIN - 1 {
            let limit = draw::level(&mut random);
            let drawn = draw::state(&mut random, limit);
            state = drawn.try_into().expect("a state has 213 numbers");
        }
        let sheet = program::sheet(&mut random);
        let mut wanted = vec![0; FRAME];
        let answer = frame::frame(&sheet, &state, &mut wanted);
        assert_eq!(answer.refusal, 0, "the drawn sheets are accepted");
        wanted.extend(answer.places);
        wanted.extend(answer.rows.as_flattened());
        wanted.extend(answer.state);
        if model::frame::frame(&mut Trace::default(), &sheet, &state) != wanted {
            tally.line(false, &format!("frame {number} from seed {seed}"));
            println!("sheet {sheet:?}\nstate {state:?}");
            return;
        }
        retried += answer
            .places
            .iter()
            .filter(|place| **place != NOWHERE)
            .count();
        state = answer.state;
    }
    let text = format!("{count} frames from seed {seed}, {retried} subframes retried");
    tally.line(true, &text);
}

/// Chained index frames, each with tables of its own; and as many calls of an index.
fn index_calls(tally: &mut Tally, count: u64, seed: u64) {
    let mut random = Random::new(seed);
    let (mut state, mut energies) = (ZEROS, OPENING);
    let mut trace = Trace::default();
    for number in 0..count {
        if number % CHAIN == CHAIN - 1 {
            let limit = draw::level(&mut random);
            let drawn = draw::state(&mut random, limit);
            state = drawn.try_into().expect("a state has 213 numbers");
            energies = draw::gains::energies(&mut random);
        }
        let tables = draw::gains::tables(&mut random);
        let sheet = draw::gains::accepted(&mut random);
        let numbers = part(&sheet, 0);
        let mut wanted = vec![0; FRAME];
        let lent = (&tables).into();
        let answer = frame::frame_indexed(&sheet, &state, lent, &energies, &mut wanted);
        assert_eq!(answer.frame.refusal, 0, "the drawn sheets are accepted");
        wanted.extend(answer.frame.places);
        wanted.extend(answer.frame.rows.as_flattened());
        wanted.extend(answer.frame.state);
        wanted.extend(answer.energies);
        let got = gains::frame_indexed(&mut trace, &numbers, &state, &tables, &energies);
        let index = random.word(0, 127);
        let innovation = draw::gains::sharpened(&mut random);
        let decoded = gain::decode(index, &innovation, lent, &energies);
        let gains = ([decoded.pitch, decoded.code], decoded.energies);
        let good = got == wanted
            && gains == gains::gains(&mut trace, index, &innovation, &tables, &energies);
        if !good {
            tally.line(false, &format!("index call {number} from seed {seed}"));
            println!("sheet {sheet:?}\nstate {state:?}\ntables {tables:?}\nenergies {energies:?}");
            println!("index {index}, innovation {innovation:?}");
            return;
        }
        (state, energies) = (answer.frame.state, answer.energies);
    }
    let text = format!("{count} index frames and {count} gains from seed {seed}");
    tally.line(true, &text);
}

/// Chained calls of all three kinds of sheets.
fn mixed(tally: &mut Tally, count: u64, seed: u64) {
    let mut random = Random::new(seed);
    let mut chain = Chain::any(&mut random);
    let mut seen = [0; 3];
    let mut held = 0;
    for number in 0..count {
        if number % CHAIN == CHAIN - 1 {
            chain = Chain::any(&mut random);
        }
        let record = chain.any_step(&mut random);
        let mut trace = Trace::default();
        if (FRAME_MIXED.model)(&mut trace, &record) != (FRAME_MIXED.answer)(&record) {
            tally.line(
                false,
                &format!("call {number} of mixed kinds from seed {seed}"),
            );
            println!("{record:?}");
            return;
        }
        seen[record[0] as usize] += 1;
        held += u64::from(HELD.iter().any(|kind| trace.seen.contains(&(kind, 0))));
    }
    let [frames, indexed, erased] = seen;
    let kinds = format!("{frames} frames, {indexed} index frames, {erased} erased frames");
    let text = format!("{kinds} in mixed chains from seed {seed}, {held} of them held");
    tally.line(true, &text);
}

const HELD: [&str; 3] = [
    "both gains held",
    "pitch gain held alone",
    "code gain held alone",
];

/// A gain of every stage: fives and past gains all of it.
fn conceals(trace: &mut Trace, stage: i16, gain: i16) -> bool {
    let fields = [gain; GAIN_FIELDS];
    let mut state = ZEROS;
    state[at::GAIN_FIELDS..at::ERASED].copy_from_slice(&fields);
    let mut concealment = Concealment::of(&state);
    let gains = concealment.conceal(trace, stage);
    (gains, concealment.gain_fields()) == erased::conceal(stage, &fields)
}

/// Every argument is answered alike.
fn every<T: Copy + std::fmt::Debug>(
    tally: &mut Tally,
    name: &str,
    arguments: impl IntoIterator<Item = T>,
    mut alike: impl FnMut(T) -> bool,
) {
    let mut count = 0u64;
    for argument in arguments {
        if !alike(argument) {
            tally.line(false, &format!("{name}: {argument:?}"));
            return;
        }
        count += 1;
    }
    tally.line(true, &format!("{name}: {count}"));
}

pub fn run(count: u64, seed: u64) -> bool {
    let mut tally = Tally::default();
    let mut trace = Trace::default();
    every(&mut tally, "every LSF", 0..=16384, |lsf| {
        model::lsp(&mut trace, lsf) == stages::lsp(lsf)
    });
    every(&mut tally, "every absolute lag", 0..=255, |index| {
        model::lag_absolute(&mut trace, index) == stages::from_absolute(index as u8)
    });
    let relative = (19..=143).flat_map(|previous| (0..=31).map(move |index| (previous, index)));
    every(
        &mut tally,
        "every relative lag",
        relative,
        |(previous, index)| {
            let lag = model::lag_relative(&mut trace, index, previous);
            stages::from_relative(index as u8, previous) == Some(lag)
        },
    );
    every(
        &mut tally,
        "every argument of the inverse root",
        i32::MIN..=i32::MAX,
        |value| model::inverse_sqrt(i64::from(value)) == i64::from(stages::inverse_sqrt(value)),
    );
    let gains = (0..7).flat_map(|stage| (0..=i16::MAX).map(move |gain| (stage, gain)));
    let name = "every gain of every stage";
    every(&mut tally, name, gains, |(stage, gain)| {
        conceals(&mut trace, stage, gain)
    });
    frames(&mut tally, count, seed);
    mixed(&mut tally, count, seed);
    index_calls(&mut tally, count, seed);
    tally.end()
}
