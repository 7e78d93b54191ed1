//! The frame call of an erased sheet: chains of all three kinds of sheets, and about each boundary.

use crate::{
    Counts, KINDS, agrees, all, damage as damage_frame, drawn,
    indexed::{
        self, choices, damage as damage_indexed, differs, index_sheet, indices, lent_tables, near,
    },
    opening,
};
use differential::{
    Lent, OUT_BYTES, PLACES_BYTES, ROWS_BYTES, STATE_BYTES, bytes,
    erased::ERASED_SHEET_BYTES,
    gains::{ENERGIES_BYTES, Tables, WithEnergies},
    words,
};
use reference::{
    ERASED_SHEET, LSFS, STATE, at,
    draw::{self, Loudness},
    gain::OPENING,
    indexed::source::{self, Source},
    lent::tables,
    part,
    random::Random,
    tally::Tally,
};
use std::collections::BTreeSet;

/// Both calls of an erased sheet on the same bytes; what ours left goes on.
fn same(lent: &mut WithEnergies, sheet: &[u8]) -> bool {
    let mut reference = lent.clone();
    lent.ours_erased(sheet);
    reference.reference_erased(sheet);
    *lent == reference
}

/// Puts a number outside its range into an erased sheet, or an LSF too close to the one before.
fn damage(random: &mut Random, sheet: &mut [i16]) {
    match random.range(0, 2) {
        0 => {
            let place = random.range(0, 9) as usize;
            draw::put_above(sheet, place, random.of(&[204, 203, 1, 0, -1]));
        }
        1 => sheet[random.range(0, 9) as usize] = random.of(&[-1, -32768, 16385, 32767]),
        _ => sheet[at::STAGE] = random.of(&[-32768, -2, -1, 7, 8, 255, 256, 32767]),
    }
}

/// Puts a number outside its range into a state.
fn damage_state(random: &mut Random, state: &mut [i16]) {
    let negative = random.of(&[-1, -2, -32768]);
    match random.range(0, 4) {
        0 => state[at::SHARPENING] = random.of(&[negative, 13018, 32767]),
        1 => state[at::GAIN] = negative,
        2 => state[random.range(198, 211) as usize] = negative,
        3 => state[at::ERASED] = random.of(&[negative, 2, 3, 32767]),
        _ => state[at::LAST_LAG] = random.of(&[negative, 0, 18, 145, 32767]),
    }
}

/// A call of one of the three kinds.
enum Call {
    Frame(Vec<i16>),
    Indexed(Vec<i16>, Tables),
    Erased(Vec<i16>),
}

impl Call {
    /// Of a kind of sheets; some are damaged.
    fn drawn(random: &mut Random, kind: usize) -> Self {
        let mut sheet = drawn(random, kind);
        let damaged = random.once_in(24);
        match random.range(0, 2) {
            0 => {
                if damaged {
                    damage_frame(random, &mut sheet);
                }
                Self::Frame(sheet)
            }
            1 => {
                let mut sheet = index_sheet(&sheet, indices(random));
                if damaged {
                    damage_indexed(random, &mut sheet);
                }
                Self::Indexed(sheet, lent_tables(random))
            }
            _ => {
                let stage = [random.word(0, 6)];
                let mut sheet = [&sheet[..LSFS], &stage, &sheet[at::INNOVATION..]].concat();
                if damaged {
                    damage(random, &mut sheet);
                }
                Self::Erased(sheet)
            }
        }
    }

    fn sheet(&self) -> &[i16] {
        match self {
            Self::Frame(sheet) | Self::Indexed(sheet, _) | Self::Erased(sheet) => sheet,
        }
    }

    /// None where the call takes none.
    fn tables(&self) -> Tables {
        match self {
            Self::Indexed(_, tables) => tables.clone(),
            _ => Tables::new(&[], &[]),
        }
    }

    /// Both answers; the energies stay where the call takes none.
    fn same(&self, lent: &mut WithEnergies) -> bool {
        match self {
            Self::Frame(sheet) => crate::same(&mut lent.frame, &bytes(sheet)),
            Self::Indexed(sheet, tables) => indexed::same(lent, &bytes(sheet), tables),
            Self::Erased(sheet) => same(lent, &bytes(sheet)),
        }
    }
}

/// A state in which gains are remembered, of a kind of chains, and any energies.
fn start(random: &mut Random, kind: usize) -> WithEnergies {
    let mut state = opening(random, kind);
    draw::erased::put_fields(&mut state, random);
    WithEnergies::new(&state, &draw::gains::energies(random), 0)
}

/// The refusals that the erased calls are to meet, with their places.
fn refusals() -> BTreeSet<u32> {
    let mut all: BTreeSet<u32> = [9, 16, 17, 19 + 256 * 197].into();
    all.extend((0..10).flat_map(|place| [2 + 256 * place, 6 + 256 * place]));
    all.extend((198..=212).map(|place| 18 + 256 * place));
    all
}

/// Chains of a kind of sheets, of all three kinds of calls in any order; the energies go on with the
/// state. Beside them calls of damaged states, which are refused and leave the chain where it is.
pub fn chained(tally: &mut Tally, random: &mut Random, kind: usize, frames: u64) {
    let (name, turns) = KINDS[kind];
    let name = format!("all kinds of sheets, {name}");
    let mut lent = start(random, kind);
    let mut counts = Counts::default();
    let mut held = 0;
    let mut met = BTreeSet::new();
    for frame in 0..frames {
        if frame % turns == turns - 1 {
            lent = start(random, kind);
        }
        let call = Call::drawn(random, kind);
        let mut spoilt = lent.clone();
        if random.once_in(8) {
            let mut state = words(&lent.frame.state);
            damage_state(random, &mut state);
            spoilt.frame.state = bytes(&state);
        }
        let before = lent.clone();
        let good = call.same(&mut spoilt) && call.same(&mut lent);
        if !good {
            let tables = call.tables();
            return differs(&counts, tally, &name, call.sheet(), &before, &tables);
        }
        let erased = matches!(call, Call::Erased(_));
        held += u64::from(!erased && lent.frame.code == 0 && marked(&before));
        if erased {
            met.extend([spoilt.frame.code, lent.frame.code]);
        }
        counts.add(&lent.frame);
    }
    counts.passed(tally, &name);
    told(tally, &name, held, &met, frames);
}

/// Whether the frame before was erased.
fn marked(lent: &WithEnergies) -> bool {
    words(&lent.frame.state)[at::ERASED] == 1
}

/// How many good frames came after erased ones; and of long chains that every refusal was met.
fn told(tally: &mut Tally, name: &str, held: u64, met: &BTreeSet<u32>, frames: u64) {
    let wanted = refusals();
    let missing: Vec<u32> = wanted.difference(met).copied().collect();
    let all = missing.is_empty() || frames < 10_000;
    let count = wanted.len() - missing.len();
    let text =
        format!("{name}: {held} good frames after erased ones, {count} refusals of erased ones");
    tally.line(all && held > 0, &text);
}

/// Good and erased frames in turns as the source has them from random indices: its decoder goes its own
/// way beside the chain. The good ones are index sheets, by the standard's tables.
pub fn by_source(tally: &mut Tally, random: &mut Random, frames: u64) {
    const TURNS: u64 = 300;
    let name = "losses by the source from random indices";
    let tables = indexed::whole(&tables::standard());
    let start = |random: &mut Random| {
        let state = opening(random, 0);
        (
            WithEnergies::new(&state, &OPENING, 0),
            Source::new(&part(&state, 0)),
        )
    };
    let (mut lent, mut source) = start(random);
    let mut counts = Counts::default();
    for frame in 0..frames {
        if frame % TURNS == TURNS - 1 {
            (lent, source) = start(random);
        }
        let lsf = random.of(&[draw::spread, draw::kept])(random);
        let parameters = source::indices(random);
        let before = lent.clone();
        let (sheet, good, wanted) = if random.once_in(4) {
            let sheet = source::erased_sheet(&lsf, random.word(0, 6), &parameters);
            let good = same(&mut lent, &bytes(&sheet));
            (sheet.to_vec(), good, source.erase(&sheet, &parameters))
        } else {
            let sheet = source.sheet(&lsf, &parameters);
            let gains = parameters.subframes().map(|index| index.gain_index as i16);
            let numbers = index_sheet(&sheet, gains);
            let good = indexed::same(&mut lent, &bytes(&numbers), &tables);
            (numbers, good, source.decode(&sheet, &parameters))
        };
        let energies = bytes(&source.energies());
        let good = good && lent.frame.code == 0 && agrees(&lent.frame, &wanted);
        if !good || lent.energies != energies {
            return differs(&counts, tally, name, &sheet, &before, &tables);
        }
        counts.add(&lent.frame);
    }
    counts.passed(tally, name);
}

const LENGTHS: [(&str, usize, usize); 6] = [
    ("erased sheets", ERASED_SHEET_BYTES, 700),
    ("outputs", OUT_BYTES, 700),
    ("states", STATE_BYTES, 800),
    ("rows", ROWS_BYTES, 200),
    ("places", PLACES_BYTES, 16),
    ("energies", ENERGIES_BYTES, 32),
];

/// The erased call with buffers of these lengths: sheet, output, state, rows, places and energies.
fn of_lengths(opening: &WithEnergies, sheet: &[u8], lengths: [usize; 6]) -> bool {
    let [numbers, out, state, rows, places, energies] = lengths;
    let mut lent = opening.clone();
    for (buffer, length) in [
        (&mut lent.frame.out, out),
        (&mut lent.frame.state, state),
        (&mut lent.frame.rows, rows),
        (&mut lent.frame.places, places),
        (&mut lent.energies, energies),
    ] {
        buffer.resize(length, 0x5A);
    }
    same(&mut lent, &sheet[..numbers])
}

fn lengths(tally: &mut Tally, random: &mut Random) {
    let mut sheet = bytes(&draw::erased::accepted(random));
    sheet.extend((0..400).map(|_| random.bits() as u8));
    let state = draw::erased::state(random, 3000);
    let opening = WithEnergies::new(&state, &OPENING, 0x5A);
    let own = LENGTHS.map(|(_, length, _)| length);
    for (place, (name, _, most)) in LENGTHS.into_iter().enumerate() {
        let name = format!("erased call: {name} of each length");
        all(tally, &name, 0..=most, |&length| {
            let mut lengths = own;
            lengths[place] = length;
            of_lengths(&opening, &sheet, lengths)
        });
    }
    let about = own.map(near);
    let cases = choices(about.each_ref().map(|lengths| &lengths[..]));
    let name = "erased call: all buffers about their lengths";
    all(tally, name, cases, |&lengths| {
        of_lengths(&opening, &sheet, lengths)
    });
}

/// Each number of an erased sheet at the values about its limits, every stage, and LSFs about the gap.
fn limits(tally: &mut Tally, random: &mut Random) {
    let lsf = draw::spread(random);
    let sheet = draw::erased::erased_sheet(random, lsf, 3, Loudness::Speech);
    let state = draw::erased::state(random, 3000);
    let energies = draw::gains::energies(random);
    let call = |sheet: &[i16]| {
        same(
            &mut WithEnergies::new(&state, &energies, 0x5A),
            &bytes(sheet),
        )
    };
    const ABOUT: [i16; 12] = [-32768, -2, -1, 0, 1, 6, 7, 8, 16383, 16384, 16385, 32767];
    let cases = (0..ERASED_SHEET).flat_map(|place| ABOUT.map(|number| (place, number)));
    let name = "an erased sheet's numbers about their limits";
    all(tally, name, cases, |&(place, number)| {
        let mut sheet = sheet.clone();
        sheet[place] = number;
        call(&sheet)
    });
    let name = "an erased sheet's LSFs about the gap";
    let cases = (0..LSFS).flat_map(|place| (-206..=206).map(move |above| (place, above)));
    all(tally, name, cases, |&(place, above)| {
        let mut sheet = sheet.clone();
        draw::put_above(&mut sheet, place, above);
        call(&sheet)
    });
    all(tally, "every stage", i16::MIN..=i16::MAX, |&stage| {
        let mut sheet = sheet.clone();
        sheet[at::STAGE] = stage;
        call(&sheet)
    });
}

/// Each field from the smoothed gain on at the values about its limits, by all three calls.
fn fields(tally: &mut Tally, random: &mut Random) {
    let lsf = draw::spread(random);
    let frame = draw::sheet(random, lsf, Loudness::Speech);
    let indexed_sheet = bytes(&index_sheet(&frame, indices(random)));
    let erased = bytes(&draw::erased::accepted(random));
    let tables = indexed::whole(&tables::standard());
    let state = draw::erased::state(random, 3000);
    let numbers = (-3..=150).chain([-32768, 16383, 16384, 16385, 32766, 32767]);
    let cases = (at::GAIN..STATE).flat_map(|field| numbers.clone().map(move |n| (field, n)));
    let name = "a state's gain fields, last lag and mark about their limits: all three calls";
    all(tally, name, cases, |&(field, number)| {
        let mut state = state.clone();
        state[field] = number;
        let opening = WithEnergies::new(&state, &OPENING, 0x5A);
        crate::same(&mut Lent::new(&state, 0x5A), &bytes(&frame))
            && indexed::same(&mut opening.clone(), &indexed_sheet, &tables)
            && same(&mut opening.clone(), &erased)
    });
}

pub fn boundaries(tally: &mut Tally, random: &mut Random) {
    lengths(tally, random);
    limits(tally, random);
    fields(tally, random);
}
