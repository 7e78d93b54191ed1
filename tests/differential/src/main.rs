//! `differential [FRAMES [SEED]]`: the static library against the reference, on FRAMES chained frames (200000) from a seed
//! and a sixth as many whose sheets the source draws, on half as many of index sheets and as many gains of an index, on half
//! as many of all three kinds of sheets in turns, erased ones among them, and on sheets, buffers and records of every length
//! about each boundary. Every byte that a call leaves is compared.

mod indexed;
mod losses;
mod records;

use differential::{
    Lent, OUT_BYTES, PLACES_BYTES, ROWS_BYTES, SHEET_BYTES, STATE_BYTES, bytes, words,
};
use reference::{
    LSFS, SHEET, ZEROS, at,
    draw::{self, Loudness},
    examples,
    indexed::source::{self, Source},
    mr74::stages::Decoded,
    part,
    random::Random,
    record,
    tally::Tally,
};
use std::{env, process::ExitCode};

/// The kinds of chains: sheets, and how often a chain begins anew from a drawn state. LSFs keep the gap; with the two
/// kinds that say so they break it in one sheet of twenty.
const KINDS: [(&str, u64); 6] = [
    ("speech", 1000),
    ("loud", 500),
    ("any gains and innovation", 100),
    ("LSFs at their closest or spread, some broken", 100),
    ("extreme sheets, some broken, extreme states", 12),
    ("all kinds in turn", 300),
];

fn drawn(random: &mut Random, kind: usize) -> Vec<i16> {
    match kind {
        0 => {
            let lsf = draw::spread(random);
            draw::sheet(random, lsf, Loudness::Speech)
        }
        1 => {
            let lsf = draw::kept(random);
            draw::sheet(random, lsf, Loudness::Loud)
        }
        2 => {
            let lsf = draw::kept(random);
            draw::sheet(random, lsf, Loudness::Any)
        }
        3 => {
            let draw = random.of(&[draw::spread, draw::closest]);
            let lsf = some_broken(random, draw);
            let loudness = random.of(&[Loudness::Speech, Loudness::Any]);
            draw::sheet(random, lsf, loudness)
        }
        4 => extreme(random),
        _ => {
            let kind = random.range(0, 4) as usize;
            drawn(random, kind)
        }
    }
}

/// LSFs as drawn; in one sheet of twenty they break the gap.
fn some_broken(random: &mut Random, draw: fn(&mut Random) -> [i16; LSFS]) -> [i16; LSFS] {
    if !random.once_in(20) {
        return draw(random);
    }
    match random.range(0, 2) {
        0 => [random.of(&[0, 16384]); LSFS],
        1 => std::array::from_fn(|_| random.of(&[0, 16384])),
        _ => draw::broken(random),
    }
}

/// LSFs, indices, gains and innovation at their ends.
fn extreme(random: &mut Random) -> Vec<i16> {
    let draw = random.of(&[draw::kept, draw::closest, draw::closest]);
    let lsf = some_broken(random, draw);
    let mut sheet = draw::sheet(random, lsf, Loudness::Any);
    for subframe in 0..4 {
        sheet[at::PITCH + subframe] = random.of(&[0, if subframe % 2 == 0 { 255 } else { 31 }]);
    }
    for gain in &mut sheet[at::GAINS..at::INNOVATION] {
        *gain = random.of(&[0, 32767, 32767]);
    }
    let same = random.of(&[-32768, 32767]);
    let all = random.once_in(3);
    for number in &mut sheet[at::INNOVATION..] {
        *number = if all { same } else { random.edge() };
    }
    sheet
}

fn opening(random: &mut Random, kind: usize) -> Vec<i16> {
    match kind {
        0 if random.once_in(2) => ZEROS.to_vec(),
        0 | 1 => draw::state(random, 3000),
        4 => draw::extreme_state(random),
        _ => {
            let limit = draw::level(random);
            draw::state(random, limit)
        }
    }
}

/// Puts a number outside its range into a sheet, or an LSF too close to the one before.
fn damage(random: &mut Random, sheet: &mut [i16]) {
    let negative = random.of(&[-1, -2, -32768]);
    let beyond = random.of(&[1, 2, 1000]);
    match random.range(0, 3) {
        0 => sheet[random.range(0, 9) as usize] = random.of(&[negative, 16384 + beyond, 32767]),
        1 => {
            let subframe = random.range(0, 3) as usize;
            let last = if subframe.is_multiple_of(2) { 255 } else { 31 };
            sheet[at::PITCH + subframe] = random.of(&[negative, last + beyond, 32767]);
        }
        2 => sheet[at::GAINS + random.range(0, 7) as usize] = negative,
        _ => {
            let place = random.range(0, 9) as usize;
            draw::put_above(sheet, place, random.of(&[204, 203, 1, 0, -1]));
        }
    }
}

/// Both calls on the same bytes; the state that ours left goes on.
fn same(lent: &mut Lent, sheet: &[u8]) -> bool {
    let mut reference = lent.clone();
    lent.ours(sheet);
    reference.reference(sheet);
    *lent == reference
}

/// What the frames of a kind came to.
#[derive(Default)]
struct Counts {
    frames: u64,
    retried: usize,
    refused: usize,
}

impl Counts {
    fn add(&mut self, lent: &Lent) {
        self.frames += 1;
        if lent.code == 0 {
            self.retried += lent.retried();
        } else {
            self.refused += 1;
        }
    }

    fn passed(&self, tally: &mut Tally, name: &str) {
        let Self {
            frames,
            retried,
            refused,
        } = self;
        let text = format!(
            "{name}: {frames} frames, {retried} subframes retried, {refused} frames refused"
        );
        tally.line(true, &text);
    }

    fn differs(&self, tally: &mut Tally, name: &str, sheet: &[i16], state: &[u8]) {
        tally.line(false, &format!("{name}: frame {}", self.frames));
        println!("sheet {sheet:?}\nstate {:?}", words(state));
    }
}

fn chained(tally: &mut Tally, random: &mut Random, kind: usize, frames: u64) {
    let (name, turns) = KINDS[kind];
    let mut lent = Lent::new(&opening(random, kind), 0);
    let mut counts = Counts::default();
    for frame in 0..frames {
        if frame % turns == turns - 1 {
            lent.state = bytes(&opening(random, kind));
        }
        let mut sheet = drawn(random, kind);
        while random.once_in(24) {
            damage(random, &mut sheet);
        }
        let before = lent.clone();
        if !same(&mut lent, &bytes(&sheet)) {
            return counts.differs(tally, name, &sheet, &before.state);
        }
        counts.add(&lent);
    }
    counts.passed(tally, name);
}

/// An accepted call left what the source's decoder, going its own way from the indices, gives.
fn agrees(lent: &Lent, wanted: &Decoded) -> bool {
    let places = wanted.places.map(|place| place as u8);
    lent.out == bytes(&wanted.samples)
        && lent.rows == bytes(wanted.rows.as_flattened())
        && lent.places == places
        && lent.state == bytes(&wanted.state)
}

/// Sheets as the source has them from random indices: its codebook's innovation, and its gain decoder's gains, whose memory
/// runs along with the chain. A damaged sheet is refused, and the source's decoder stays where it is.
fn by_source(tally: &mut Tally, random: &mut Random, frames: u64) {
    const TURNS: u64 = 300;
    let name = "innovation and gains by the source from random indices";
    let start = |random: &mut Random| {
        let state = opening(random, 0);
        (Lent::new(&state, 0), Source::new(&part(&state, 0)))
    };
    let (mut lent, mut source) = start(random);
    let mut counts = Counts::default();
    for frame in 0..frames {
        if frame % TURNS == TURNS - 1 {
            (lent, source) = start(random);
        }
        let lsf = if random.once_in(2) {
            draw::spread(random)
        } else {
            draw::kept(random)
        };
        let indices = source::indices(random);
        let mut sheet = source.sheet(&lsf, &indices);
        while random.once_in(24) {
            damage(random, &mut sheet);
        }
        let before = lent.clone();
        let good = same(&mut lent, &bytes(&sheet))
            && (lent.code != 0 || agrees(&lent, &source.decode(&sheet, &indices)));
        if !good {
            return counts.differs(tally, name, &sheet, &before.state);
        }
        counts.add(&lent);
    }
    counts.passed(tally, name);
}

/// Runs cases and tells the first that differs.
fn all<T: std::fmt::Debug>(
    tally: &mut Tally,
    name: &str,
    cases: impl IntoIterator<Item = T>,
    mut good: impl FnMut(&T) -> bool,
) {
    let mut count = 0;
    for case in cases {
        if !good(&case) {
            tally.line(false, &format!("{name}: {case:?}"));
            return;
        }
        count += 1;
    }
    tally.line(true, &format!("{name}: {count}"));
}

fn lengths(tally: &mut Tally, random: &mut Random) {
    let lsf = draw::spread(random);
    let mut sheet = bytes(&draw::sheet(random, lsf, Loudness::Speech));
    sheet.extend((0..400).map(|_| random.bits() as u8));
    let state = draw::state(random, 3000);
    let opening = Lent::new(&state, 0x5A);
    let cut = |vector: &mut Vec<u8>, length: usize| vector.resize(length, 0x5A);
    let whole = &sheet[..SHEET_BYTES];
    all(tally, "sheets of each length", 0..=700, |&length| {
        same(&mut opening.clone(), &sheet[..length])
    });
    all(tally, "outputs of each length", 0..=700, |&length| {
        let mut lent = opening.clone();
        cut(&mut lent.out, length);
        same(&mut lent, whole)
    });
    all(tally, "states of each length", 0..=800, |&length| {
        let mut lent = opening.clone();
        cut(&mut lent.state, length);
        same(&mut lent, whole)
    });
    all(tally, "rows of each length", 0..=200, |&length| {
        let mut lent = opening.clone();
        cut(&mut lent.rows, length);
        same(&mut lent, whole)
    });
    all(tally, "places of each length", 0..=16, |&length| {
        let mut lent = opening.clone();
        cut(&mut lent.places, length);
        same(&mut lent, whole)
    });
    let near = |length: usize| [length - 2, length - 1, length, length + 1, length + 2];
    let mut several = Vec::new();
    for sheet in near(SHEET_BYTES) {
        for out in near(OUT_BYTES) {
            for state in near(STATE_BYTES) {
                for rows in near(ROWS_BYTES) {
                    for places in near(PLACES_BYTES) {
                        several.push((sheet, out, state, rows, places));
                    }
                }
            }
        }
    }
    all(
        tally,
        "sheet, output, state, rows and places about their lengths",
        several,
        |&(length, out, state, rows, places)| {
            let mut lent = opening.clone();
            cut(&mut lent.out, out);
            cut(&mut lent.state, state);
            cut(&mut lent.rows, rows);
            cut(&mut lent.places, places);
            same(&mut lent, &sheet[..length])
        },
    );
}

/// Every number of a sheet and the two tested numbers of a state, at each value about their limits.
fn limits(tally: &mut Tally, random: &mut Random) {
    let lsf = draw::spread(random);
    let sheet = draw::sheet(random, lsf, Loudness::Speech);
    let state = draw::state(random, 3000);
    const ABOUT: [i16; 18] = [
        -32768, -32767, -2, -1, 0, 1, 30, 31, 32, 33, 254, 255, 256, 257, 16383, 16384, 16385,
        32767,
    ];
    let cases = (0..SHEET).flat_map(|place| ABOUT.map(|number| (place, number)));
    all(
        tally,
        "a sheet's numbers about their limits",
        cases,
        |&(place, number)| {
            let mut sheet = sheet.clone();
            sheet[place] = number;
            same(&mut Lent::new(&state, 0x5A), &bytes(&sheet))
        },
    );
    let cases = (0..LSFS).flat_map(|place| (-206..=206).map(move |above| (place, above)));
    let lsf = draw::closest(random);
    let closest = draw::sheet(random, lsf, Loudness::Speech);
    all(tally, "LSFs about the gap", cases, |&(place, above)| {
        [&sheet, &closest].into_iter().all(|sheet| {
            let mut sheet = sheet.clone();
            draw::put_above(&mut sheet, place, above);
            same(&mut Lent::new(&state, 0x5A), &bytes(&sheet))
        })
    });
    let numbers = [-32768, -1, 0, 1, 13016, 13017, 13018, 32766, 32767];
    let cases = numbers
        .iter()
        .flat_map(|&sharpening| numbers.map(|gain| (sharpening, gain)));
    let spoilt = |sharpening: i16, gain: i16| {
        let mut state = state.clone();
        state[at::SHARPENING] = sharpening;
        state[at::GAIN] = gain;
        state
    };
    all(
        tally,
        "sharpening and smoothed gain about their limits: frame, read, write",
        cases,
        |&(sharpening, gain)| {
            let state = spoilt(sharpening, gain);
            let mut record = bytes(&state);
            record.extend(record::TRAILER);
            same(&mut Lent::new(&state, 0x5A), &bytes(&sheet))
                && records::reads(&record, STATE_BYTES)
                && records::writes(&bytes(&state), record::RECORD)
        },
    );
}

/// The places of the sheets of `examples/call.bin`, by both: two subframes are retried, and sheet 9 is refused.
fn places(tally: &mut Tally) {
    let call = examples::input("call").expect("the run is listed");
    let (record, sheets) = call.split_at(record::first::RECORD);
    let mut ours = Lent::new(&record::read(record).state, 0x5A);
    let mut reference = ours.clone();
    let name = "places of the sheets of examples/call.bin";
    all(tally, name, 1..=13, |&number| {
        let sheet = &sheets[SHEET_BYTES * (number - 1)..SHEET_BYTES * number];
        let wanted = match number {
            1 => [12, 40, 40, 40],
            13 => [40, 40, 17, 40],
            _ => [40; 4],
        };
        ours.ours(sheet);
        reference.reference(sheet);
        [&ours, &reference]
            .iter()
            .all(|lent| lent.places == wanted && (lent.code != 0) == (number == 9))
    });
}

fn main() -> ExitCode {
    let mut arguments = env::args().skip(1).map(|word| word.parse::<u64>());
    let frames = arguments.next().unwrap_or(Ok(200_000));
    let seed = arguments.next().unwrap_or(Ok(74));
    let (Ok(frames), Ok(seed)) = (frames, seed) else {
        eprintln!("differential [FRAMES [SEED]]");
        return ExitCode::FAILURE;
    };
    let mut tally = Tally::default();
    let mut random = Random::new(seed);
    places(&mut tally);
    lengths(&mut tally, &mut random);
    limits(&mut tally, &mut random);
    records::run(&mut tally, &mut random);
    let share = frames.div_ceil(KINDS.len() as u64);
    for kind in 0..KINDS.len() {
        chained(&mut tally, &mut random, kind, share);
    }
    by_source(&mut tally, &mut random, share);
    // After them, so that the frames are the same as without these.
    indexed::boundaries(&mut tally, &mut random);
    for kind in 0..KINDS.len() {
        indexed::chained(&mut tally, &mut random, kind, share.div_ceil(2));
    }
    indexed::by_source(&mut tally, &mut random, share.div_ceil(2));
    indexed::gains(&mut tally, &mut random, frames);
    losses::boundaries(&mut tally, &mut random);
    records::both_versions(&mut tally, &mut random);
    for kind in 0..KINDS.len() {
        losses::chained(&mut tally, &mut random, kind, share.div_ceil(2));
    }
    losses::by_source(&mut tally, &mut random, share.div_ceil(2));
    if tally.end() {
        ExitCode::SUCCESS
    } else {
        ExitCode::FAILURE
    }
}
