//! The stored runs of `examples/`: inputs of the programs, drawn from fixed seeds.

use crate::{
    FRAME, SHEET, STATE, SUBFRAMES, ZEROS, at,
    draw::{self, Loudness},
    frame::frame,
    part,
    program::{LOUD_SEED, bytes_of, record_of, sheet, single},
    random::Random,
    sheets,
};

/// A stored run: `NAME.bin` has its input, `NAME.txt` the bench program's lines, `NAME.report.txt`
/// the shift report's.
pub struct Run {
    pub name: &'static str,
    pub input: fn() -> Vec<u8>,
}

pub const RUNS: [Run; 2] = [
    Run {
        name: "call",
        input: call,
    },
    Run {
        name: "marks",
        input: marks,
    },
];

/// The input of the run of that name.
pub fn input(name: &str) -> Option<Vec<u8>> {
    let run = RUNS.iter().find(|run| run.name == name)?;
    Some((run.input)())
}

/// A call: gaps kept, some subframes retried, one sheet refused, the last one cut.
fn call() -> Vec<u8> {
    let mut random = Random::new(74);
    let mut bytes = record_of(&ZEROS);
    for number in 1..=14 {
        let loudness = if number < 7 {
            Loudness::Speech
        } else {
            Loudness::Loud
        };
        let lsf = draw::spread(&mut random);
        let mut sheet = draw::sheet(&mut random, lsf, loudness);
        if number == 9 {
            sheet[at::PITCH + 1] = 32;
        }
        bytes.extend(bytes_of(&sheet));
    }
    bytes.truncate(bytes.len() - SHEET);
    bytes
}

/// How a sheet is drawn.
type Draw = fn(&mut Random) -> Vec<i16>;

/// What is asked of the samples.
type Test = fn(&sheets::Frame) -> bool;

fn plain(frame: &sheets::Frame) -> bool {
    frame.peak() < 32760
}

fn all_negative(frame: &sheets::Frame) -> bool {
    plain(frame) && frame.largest() < 0
}

fn loud_above(frame: &sheets::Frame) -> bool {
    frame.largest() >= 32760
}

fn loud_below(frame: &sheets::Frame) -> bool {
    frame.largest() < 32760 && frame.peak() >= 32760
}

/// What the next sheet is to show.
enum Wanted {
    /// Flags and samples: the first drawn sheet that has them.
    Frame(Draw, [i16; SUBFRAMES], Test),
    /// A refusal: a drawn sheet with these numbers at these places.
    Refusal(&'static [(usize, i16)]),
}

use Wanted::{Frame, Refusal};

/// The sheets of `marks.bin` after the first: each flag alone, each mark, samples all negative,
/// loud above zero and below, refusals 2, 3, 4 and 6, three sheets with several, and a last sheet
/// to cut.
const MARKS: [Wanted; 18] = [
    Frame(sheet, [1, 0, 0, 0], plain),
    Frame(sheet, [0, 1, 0, 0], plain),
    Refusal(&[(7, 16385)]),
    Frame(sheet, [0, 0, 1, 0], plain),
    Frame(sheet, [0, 0, 0, 1], plain),
    Frame(lowered, [0, 0, 0, 0], plain),
    Refusal(&[(at::PITCH + 2, 256)]),
    Frame(lowered, [0, 0, 0, 0], all_negative),
    Frame(sheet, [1, 0, 1, 0], plain),
    Refusal(&[(at::GAINS + 6, -1)]),
    Frame(sheet, [0, 1, 1, 1], loud_below),
    Refusal(&[(5, -1), (at::PITCH, 256), (at::GAINS, -1)]),
    Frame(sheet, [1, 1, 1, 1], loud_above),
    Frame(sheet, [1, 1, 0, 1], plain),
    Refusal(&[(at::PITCH + 1, 32), (at::PITCH + 3, 32), (at::GAINS, -1)]),
    Frame(sheet, [0, 0, 0, 0], plain),
    // An LSF of 0 behind others breaks the gap.
    Refusal(&[(8, 0), (at::PITCH + 1, 32), (at::GAINS, -1)]),
    Frame(sheet, [0, 0, 0, 0], plain),
];

/// A sheet with one negative number at every place of its innovation.
pub fn lowered(random: &mut Random) -> Vec<i16> {
    let mut sheet = sheet(random);
    sheet[at::INNOVATION..].fill(random.word(-8192, -1));
    sheet
}

fn decoded(sheet: &[i16], state: &[i16; STATE]) -> sheets::Frame {
    let mut samples = [0; FRAME];
    let places = frame(sheet, state, &mut samples).places;
    sheets::Frame { places, samples }
}

fn drawn(random: &mut Random, state: &[i16; STATE], wanted: &Wanted) -> Vec<i16> {
    match wanted {
        Frame(draw, flags, test) => (0..100_000)
            .map(|_| draw(random))
            .find(|sheet| {
                let frame = decoded(sheet, state);
                frame.flags() == *flags && test(&frame)
            })
            .expect("a sheet with these flags and samples is drawn"),
        Refusal(numbers) => {
            let mut sheet = sheet(random);
            for &(place, number) in *numbers {
                sheet[place] = number;
            }
            sheet
        }
    }
}

/// A state and a sheet that is loud below zero without a retry, then `MARKS`; the last sheet lacks
/// a byte.
fn marks() -> Vec<u8> {
    let mut random = Random::new(77);
    let (state, sheet) = single(LOUD_SEED);
    let mut bytes = [record_of(&state), bytes_of(&sheet)].concat();
    let mut state = frame(&sheet, &part(&state, 0), &mut [0; FRAME]).state;
    for wanted in &MARKS {
        let sheet = drawn(&mut random, &state, wanted);
        state = frame(&sheet, &state, &mut [0; FRAME]).state;
        bytes.extend(bytes_of(&sheet));
    }
    bytes.pop();
    bytes
}
