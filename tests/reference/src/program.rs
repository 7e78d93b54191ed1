//! Runs the bench program and the shift report on inputs of every kind and compares their lines
//! with the reference's, and draws calls for them.

mod process;
mod totals;

use crate::{
    ZEROS, at, bench,
    draw::{self, Loudness},
    examples::RUNS,
    random::Random,
    record::{self, first},
    report, sheets,
    tally::Tally,
    values,
};
use process::Program;
use std::{collections::BTreeSet, fs, path::Path};

/// The bench program and the shift report.
type Programs<'a> = [Program<'a>; 2];

pub fn bytes_of(numbers: &[i16]) -> Vec<u8> {
    numbers
        .iter()
        .flat_map(|number| number.to_le_bytes())
        .collect()
}

/// Of version 1, which has the first fields of a state.
pub fn record_of(state: &[i16]) -> Vec<u8> {
    let mut bytes = bytes_of(&state[..first::FIELDS]);
    bytes.extend(first::TRAILER);
    bytes
}

/// A sheet that is accepted.
pub fn sheet(random: &mut Random) -> Vec<i16> {
    let loudness = random.of(&[Loudness::Speech, Loudness::Loud, Loudness::Any]);
    let lsf = match random.range(0, 3) {
        0 => draw::closest(random),
        1 => draw::kept(random),
        _ => draw::spread(random),
    };
    draw::sheet(random, lsf, loudness)
}

/// One number of an accepted sheet put outside its range or too close: every place of refusals 2,
/// 6, 3 and 4.
fn refused_sheets(random: &mut Random) -> Vec<Vec<i16>> {
    let mut wrong = Vec::new();
    for place in 0..at::PITCH {
        wrong.extend([-32768, -1, 16385, 32767].map(|number| (place, number)));
    }
    for place in at::PITCH..at::GAINS {
        let last = if place % 2 == 0 { 255 } else { 31 };
        wrong.extend([-32768, -1, last + 1, 32767].map(|number| (place, number)));
    }
    for place in at::GAINS..at::INNOVATION {
        wrong.extend([-32768, -1].map(|number| (place, number)));
    }
    let mut sheets: Vec<Vec<i16>> = wrong
        .iter()
        .map(|&(place, number)| {
            let mut sheet = sheet(random);
            sheet[place] = number;
            sheet
        })
        .collect();
    for place in 0..at::PITCH {
        for above in [204, 203, 1, 0, -1, -1000] {
            let mut sheet = sheet(random);
            draw::put_above(&mut sheet, place, above);
            sheets.push(sheet);
        }
    }
    // Several refusals at once: the first of them counts.
    for number in 0..150 {
        let mut sheet = sheet(random);
        if number % 3 == 0 {
            let place = random.range(0, at::PITCH as i64 - 1) as usize;
            draw::put_above(&mut sheet, place, 204);
        }
        for _ in 0..3 {
            let (place, number) = random.of(&wrong);
            sheet[place] = number;
        }
        sheets.push(sheet);
    }
    sheets
}

/// Records of 402 bytes that are turned back by 12, 13, 14, 16 or 17, and one with the trailer of
/// version 2, by 15.
fn bad_records(good: &[u8]) -> Vec<Vec<u8>> {
    let mut bad = vec![[&good[..first::BODY], &record::TRAILER].concat()];
    for place in first::BODY..first::RECORD {
        for change in [1, 0x80, 0xFF] {
            let mut bytes = good.to_vec();
            bytes[place] ^= change;
            bad.push(bytes);
        }
    }
    let mut field = |place: usize, number: i16| {
        let mut bytes = good.to_vec();
        bytes[2 * place..2 * place + 2].copy_from_slice(&number.to_le_bytes());
        bad.push(bytes);
    };
    for number in [-32768, -1, 13018, 32767] {
        field(at::SHARPENING, number);
    }
    for number in [-32768, -1] {
        field(at::GAIN, number);
    }
    bad
}

/// Peak and largest sample of the first frame of an input, and whether a subframe was retried.
fn shown(input: &[u8]) -> (u16, i16, bool) {
    let frames = sheets::frames(input);
    let frame = frames.first().expect("a drawn sheet is accepted");
    (frame.peak(), frame.largest(), frame.flags().contains(&1))
}

/// A state and an accepted sheet, drawn from a seed.
pub fn single(seed: u64) -> (Vec<i16>, Vec<i16>) {
    let mut random = Random::new(seed);
    let limit = draw::level(&mut random);
    let state = draw::state(&mut random, limit);
    (state, sheet(&mut random))
}

/// A state and a sheet whose samples are all negative: a constant innovation and flat rows.
fn negative_input(random: &mut Random) -> Option<Vec<u8>> {
    for _ in 0..20_000 {
        let mut sheet = sheet(random);
        let level = random.word(-8192, -1);
        sheet[at::INNOVATION..].fill(level);
        let mut state = draw::state(random, 300);
        state[at::PAST..at::SHARPENING].fill(level);
        let input = [record_of(&state), bytes_of(&sheet)].concat();
        let (_, largest, retried) = shown(&input);
        if largest < 0 && !retried {
            return Some(input);
        }
    }
    None
}

/// A call of `sheets` sheets, drawn from a seed; once in `refusals` a sheet is refused.
pub fn call(seed: u64, sheets: usize, refusals: i64) -> impl Iterator<Item = Vec<u8>> {
    let mut random = Random::new(seed);
    let first = record_of(&ZEROS);
    let rest = (0..sheets).map(move |_| {
        let mut sheet = sheet(&mut random);
        if random.once_in(refusals) {
            let place = random.range(0, at::INNOVATION as i64 - 1) as usize;
            // An LSF of 0 breaks the gap.
            sheet[place] = if place < at::PITCH { 0 } else { -1 };
        }
        bytes_of(&sheet)
    });
    std::iter::once(first).chain(rest)
}

/// Each program writes the reference's lines on every input.
fn compare(tally: &mut Tally, programs: &Programs, name: &str, inputs: &[Vec<u8>]) {
    for program in programs {
        let differs = |input: &&Vec<u8>| !program.agrees(input);
        let different = inputs.iter().filter(differs).count();
        let (program, all) = (program.name, inputs.len());
        let text = format!("{program}: {name}: {all} inputs, {different} differ");
        tally.line(different == 0 && all > 0, &text);
    }
}

/// The refusals that the bench program tells on these inputs.
fn refusals(inputs: &[Vec<u8>]) -> BTreeSet<String> {
    let lines: String = inputs.iter().map(|input| bench::lines(input)).collect();
    let rests = lines.lines().filter_map(|line| line.split_once(' '));
    rests
        .map(|(_, rest)| rest.to_string())
        .filter(|rest| rest.starts_with("refused"))
        .collect()
}

/// Every refusal that the inputs are to meet is met.
fn all_met(tally: &mut Tally, met: &BTreeSet<String>, wanted: Vec<String>) {
    let missing: Vec<&String> = wanted.iter().filter(|kind| !met.contains(*kind)).collect();
    let text = format!(
        "{} kinds of refusal are met, missing: {missing:?}",
        wanted.len()
    );
    tally.line(missing.is_empty(), &text);
}

fn records(tally: &mut Tally, programs: &Programs, random: &mut Random) {
    let good = record_of(&draw::state(random, 300));
    let tail: Vec<u8> = (0..2).flat_map(|_| bytes_of(&sheet(random))).collect();
    let cuts: Vec<Vec<u8>> = (0..=good.len()).map(|n| good[..n].to_vec()).collect();
    compare(tally, programs, "a record cut at every length", &cuts);
    let ends: Vec<Vec<u8>> = (0..good.len()).map(|n| good[n..].to_vec()).collect();
    compare(tally, programs, "the end of a record, every length", &ends);
    let behind: Vec<Vec<u8>> = (1..60).map(|n| [&good[n..], &tail].concat()).collect();
    compare(tally, programs, "a short record before sheets", &behind);
    let bad: Vec<Vec<u8>> = bad_records(&good)
        .iter()
        .map(|bytes| [&bytes[..], &tail].concat())
        .collect();
    compare(tally, programs, "bad records before sheets", &bad);
    let wanted = (11..=17)
        .map(|number| format!("refused {number}"))
        .collect();
    all_met(tally, &refusals(&[cuts, ends, bad].concat()), wanted);
}

fn sheets(tally: &mut Tally, programs: &Programs, random: &mut Random) {
    let first = record_of(&draw::state(random, 300));
    let mut refused = first.clone();
    for bad in refused_sheets(random) {
        refused.extend(bytes_of(&bad));
        refused.extend(bytes_of(&sheet(random)));
    }
    let refused = [refused];
    compare(tally, programs, "refused sheets among others", &refused);
    let gaps = [values::gap_input()];
    compare(tally, programs, "gaps kept and broken", &gaps);
    let places = [(2, 10), (6, 10), (3, 4), (4, 8)];
    let wanted = places.iter().flat_map(|&(number, count)| {
        (0..count).map(move |place| format!("refused {number} {place}"))
    });
    all_met(tally, &refusals(&refused), wanted.collect());
    let two = [first, bytes_of(&sheet(random)), bytes_of(&sheet(random))].concat();
    let cut: Vec<Vec<u8>> = (1..sheets::BYTES)
        .map(|n| two[..two.len() - n].to_vec())
        .collect();
    compare(tally, programs, "a last sheet cut at every length", &cut);
}

/// The seed of a peak of 32760, below zero alone, without a retry.
pub const LOUD_SEED: u64 = 1_432_170;

fn marks(tally: &mut Tally, programs: &Programs, random: &mut Random) {
    // Peak, largest sample and retry. Seeds from a search of 4,000,000. It met no peak of 32759 or
    // 32760 above zero without a retry.
    for (seed, peak, largest, retried) in [
        (71, 32759, 32759, true),
        (1_480_341, 32759, 25845, false),
        (199_445, 32760, 32760, true),
        (454, 32760, 32751, true),
        (LOUD_SEED, 32760, 28195, false),
        (3_634_600, 32760, 32759, true),
        (1_644_067, 32761, 32761, false),
        (32, 32768, 27649, false),
    ] {
        let (state, sheet) = single(seed);
        let input = [record_of(&state), bytes_of(&sheet)].concat();
        let name = format!("peak {peak}, largest sample {largest}, retried: {retried}");
        tally.line(shown(&input) == (peak, largest, retried), &name);
        compare(tally, programs, &name, &[input]);
    }
    let negative = negative_input(random);
    compare(tally, programs, "samples all negative", negative.as_slice());
}

/// The stored runs: the input is made again, the texts have its lines, and the programs write them.
fn stored(tally: &mut Tally, programs: &Programs, folder: &Path) {
    for run in &RUNS {
        let file = |ending: &str| folder.join(run.name).with_extension(ending);
        let input = fs::read(file("bin")).unwrap_or_default();
        let made = input == (run.input)();
        tally.line(made, &format!("{}.bin is made again", run.name));
        for program in programs {
            let lines = fs::read_to_string(file(program.ending)).ok();
            let name = format!("{}.{}", run.name, program.ending);
            let same = lines.as_ref() == Some(&(program.lines)(&input));
            tally.line(same, &format!("{name} has its lines"));
            let written = lines.is_some() && program.output(&input).ok() == lines;
            tally.line(written, &format!("{}: writes {name}", program.name));
        }
    }
}

/// Runs both programs, on the stored runs too. `scratch` is a file for inputs, made and removed.
pub fn check(bench: &Path, report: &Path, examples: &Path, scratch: &Path) -> bool {
    let mut tally = Tally::default();
    let mut random = Random::new(3);
    let programs = [
        Program {
            name: "bench",
            path: bench,
            lines: bench::lines,
            ending: "txt",
        },
        Program {
            name: "report",
            path: report,
            lines: report::line,
            ending: "report.txt",
        },
    ];
    stored(&mut tally, &programs, examples);
    records(&mut tally, &programs, &mut random);
    sheets(&mut tally, &programs, &mut random);
    marks(&mut tally, &programs, &mut random);
    let long: Vec<u8> = call(5, 10_000, 50).flatten().collect();
    compare(&mut tally, &programs, "10000 chained sheets", &[long]);
    totals::check(&mut tally, &programs, scratch);
    tally.end()
}
