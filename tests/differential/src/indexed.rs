//! The frame call of an index sheet and the call of a gain index, chained, and about each boundary.

use crate::{Counts, KINDS, agrees, all, drawn, opening};
use differential::{
    OUT_BYTES, PLACES_BYTES, ROWS_BYTES, STATE_BYTES, bytes,
    gains::{
        Decoded, ENERGIES_BYTES, GAINS_BYTES, INDEX_SHEET_BYTES, INNOVATION_BYTES, TABLE_BYTES,
        Tables, WithEnergies,
    },
    words,
};
use reference::{
    INDEX_SHEET, LSFS, SUBFRAME, at,
    draw::{self, Loudness},
    gain::{OPENING, TABLE},
    indexed::source::{self, Source},
    lent::tables::{self, Pair},
    part,
    random::Random,
    tally::Tally,
};

/// Both calls on the same bytes; what ours left goes on.
pub fn same(lent: &mut WithEnergies, sheet: &[u8], tables: &Tables) -> bool {
    let mut reference = lent.clone();
    lent.ours(sheet, tables);
    reference.reference(sheet, tables);
    *lent == reference
}

fn decodes(lent: &mut Decoded, index: i16, innovation: &[u8], tables: &Tables) -> bool {
    let mut reference = lent.clone();
    lent.ours(index, innovation, tables);
    reference.reference(index, innovation, tables);
    *lent == reference
}

pub fn whole([logs, pows]: &Pair) -> Tables {
    Tables::new(logs, pows)
}

/// The tables of a call: the standard's or drawn ones; in one call of thirty one of them, or both, is
/// no table.
pub fn lent_tables(random: &mut Random) -> Tables {
    let pair = draw::gains::tables(random);
    if !random.once_in(30) {
        return whole(&pair);
    }
    let spoilt = random.range(1, 3);
    let mut lent = |table: [i16; TABLE], bit: i64| {
        if spoilt & bit == 0 {
            bytes(&table)
        } else {
            bytes(&draw::gains::no_table(random, table))
        }
    };
    let [logs, pows] = pair;
    Tables {
        logs: lent(logs, 1),
        pows: lent(pows, 2),
    }
}

/// The index sheet of a sheet, with these indices for its gains.
pub fn index_sheet(sheet: &[i16], indices: [i16; 4]) -> Vec<i16> {
    [&sheet[..at::GAINS], &indices, &sheet[at::INNOVATION..]].concat()
}

pub fn indices(random: &mut Random) -> [i16; 4] {
    let ends = random.once_in(4);
    std::array::from_fn(|_| {
        if ends {
            random.of(&[0, 127])
        } else {
            random.word(0, 127)
        }
    })
}

/// Puts a number outside its range into an index sheet, or an LSF too close to the one before.
pub fn damage(random: &mut Random, sheet: &mut [i16]) {
    if random.once_in(4) {
        let place = random.range(0, 9) as usize;
        return draw::put_above(sheet, place, random.of(&[204, 203, 1, 0, -1]));
    }
    let place = random.range(0, at::INDEXED_INNOVATION as i64 - 1) as usize;
    let last = match place {
        0..10 => 16384,
        10 | 12 => 255,
        11 | 13 => 31,
        _ => 127,
    };
    sheet[place] = random.of(&[-1, -2, -32768, last + 1, last + 2, last + 1000, 32767]);
}

/// A frame that differs: what it was lent, as numbers.
pub fn differs(
    counts: &Counts,
    tally: &mut Tally,
    name: &str,
    sheet: &[i16],
    before: &WithEnergies,
    tables: &Tables,
) {
    counts.differs(tally, name, sheet, &before.frame.state);
    let [logs, pows] = [&tables.logs, &tables.pows].map(|table| words(table));
    println!(
        "energies {:?}\nlogarithm {logs:?}\npower {pows:?}",
        words(&before.energies)
    );
}

/// Chains of a kind of sheets, as the frame call's; each call has tables of its own, and the energies
/// go on with the state.
pub fn chained(tally: &mut Tally, random: &mut Random, kind: usize, frames: u64) {
    let (name, turns) = KINDS[kind];
    let name = format!("index sheets, {name}");
    let start = |random: &mut Random| {
        let state = opening(random, kind);
        WithEnergies::new(&state, &draw::gains::energies(random), 0)
    };
    let mut lent = start(random);
    let mut counts = Counts::default();
    for frame in 0..frames {
        if frame % turns == turns - 1 {
            lent = start(random);
        }
        let mut sheet = index_sheet(&drawn(random, kind), indices(random));
        while random.once_in(24) {
            damage(random, &mut sheet);
        }
        let tables = lent_tables(random);
        let before = lent.clone();
        if !same(&mut lent, &bytes(&sheet), &tables) {
            return differs(&counts, tally, &name, &sheet, &before, &tables);
        }
        counts.add(&lent.frame);
    }
    counts.passed(tally, &name);
}

/// Index sheets as the source has them from random indices, by the standard's tables: the source's
/// decoder, with its gain decoder's memory, goes its own way beside the chain.
pub fn by_source(tally: &mut Tally, random: &mut Random, frames: u64) {
    const TURNS: u64 = 300;
    let name = "index sheets by the source from random indices";
    let tables = whole(&tables::standard());
    let start = |random: &mut Random| {
        let state = opening(random, 0);
        (
            WithEnergies::new(&state, &OPENING, 0),
            Source::new(&part(&state, 0)),
        )
    };
    let (mut lent, mut source) = start(random);
    let mut counts = Counts::default();
    for frame in 0..frames {
        if frame % TURNS == TURNS - 1 {
            (lent, source) = start(random);
        }
        let draw = random.of(&[draw::spread, draw::kept]);
        let lsf = draw(random);
        let parameters = source::indices(random);
        let sheet = source.sheet(&lsf, &parameters);
        let gains = parameters.subframes().map(|index| index.gain_index as i16);
        let numbers = index_sheet(&sheet, gains);
        let before = lent.clone();
        let good = same(&mut lent, &bytes(&numbers), &tables)
            && lent.frame.code == 0
            && agrees(&lent.frame, &source.decode(&sheet, &parameters));
        if !good {
            return differs(&counts, tally, name, &numbers, &before, &tables);
        }
        counts.add(&lent.frame);
    }
    counts.passed(tally, name);
}

/// Calls of an index, the energies that ours left going on; in one call of thirty the index lies
/// outside its range.
pub fn gains(tally: &mut Tally, random: &mut Random, calls: u64) {
    let mut lent = Decoded::new(&OPENING, 0);
    let mut refused = 0;
    for call in 0..calls {
        if random.once_in(8) {
            lent.energies = bytes(&draw::gains::energies(random));
        }
        let index = if random.once_in(30) {
            random.of(&[-32768, -128, -1, 128, 255, 256, 32767])
        } else {
            random.word(0, 127)
        };
        let innovation = draw::gains::sharpened(random);
        let tables = lent_tables(random);
        let before = lent.clone();
        if !decodes(&mut lent, index, &bytes(&innovation), &tables) {
            tally.line(false, &format!("gains: call {call}"));
            println!("index {index}, innovation {innovation:?}");
            println!("energies {:?}\n{tables:?}", words(&before.energies));
            return;
        }
        refused += u64::from(lent.code != 0);
    }
    tally.line(true, &format!("gains: {calls} calls, {refused} refused"));
}

/// Lengths about one.
pub fn near(length: usize) -> [usize; 3] {
    [length - 1, length, length + 1]
}

/// Every choice of one from each of these.
pub fn choices<const N: usize>(of: [&[usize]; N]) -> Vec<[usize; N]> {
    let mut all = vec![[0; N]];
    for (place, values) in of.into_iter().enumerate() {
        let with = |choice: [usize; N]| {
            values.iter().map(move |&value| {
                let mut choice = choice;
                choice[place] = value;
                choice
            })
        };
        all = all.into_iter().flat_map(with).collect();
    }
    all
}

/// The index call with buffers of these lengths: sheet, output, state, rows, places, energies and both
/// tables.
fn of_lengths(opening: &WithEnergies, sheet: &[u8], tables: &Tables, lengths: [usize; 8]) -> bool {
    let [numbers, out, state, rows, places, energies, logs, pows] = lengths;
    let mut lent = opening.clone();
    let mut tables = tables.clone();
    for (buffer, length) in [
        (&mut lent.frame.out, out),
        (&mut lent.frame.state, state),
        (&mut lent.frame.rows, rows),
        (&mut lent.frame.places, places),
        (&mut lent.energies, energies),
        (&mut tables.logs, logs),
        (&mut tables.pows, pows),
    ] {
        // What a longer table has more does not fall.
        let last = buffer.last_chunk().copied().unwrap_or([0x5A; 2]);
        let more = last.into_iter().cycle();
        buffer.extend(more.take(length.saturating_sub(buffer.len())));
        buffer.truncate(length);
    }
    same(&mut lent, &sheet[..numbers], &tables)
}

const LENGTHS: [(&str, usize, usize); 8] = [
    ("index sheets", INDEX_SHEET_BYTES, 700),
    ("outputs", OUT_BYTES, 700),
    ("states", STATE_BYTES, 800),
    ("rows", ROWS_BYTES, 200),
    ("places", PLACES_BYTES, 16),
    ("energies", ENERGIES_BYTES, 32),
    ("logarithm tables", TABLE_BYTES, 200),
    ("power tables", TABLE_BYTES, 200),
];

fn frame_lengths(tally: &mut Tally, random: &mut Random) {
    let lsf = draw::spread(random);
    let mut sheet = bytes(&draw::gains::index_sheet(random, lsf, Loudness::Speech));
    sheet.extend((0..400).map(|_| random.bits() as u8));
    let tables = whole(&tables::standard());
    let opening = WithEnergies::new(&draw::state(random, 3000), &OPENING, 0x5A);
    let own = LENGTHS.map(|(_, length, _)| length);
    for (place, (name, _, most)) in LENGTHS.into_iter().enumerate() {
        let name = format!("index call: {name} of each length");
        all(tally, &name, 0..=most, |&length| {
            let mut lengths = own;
            lengths[place] = length;
            of_lengths(&opening, &sheet, &tables, lengths)
        });
    }
    let about = own.map(near);
    all(
        tally,
        "index call: all buffers about their lengths",
        choices(about.each_ref().map(|lengths| &lengths[..])),
        |&lengths| of_lengths(&opening, &sheet, &tables, lengths),
    );
}

fn gain_lengths(tally: &mut Tally, random: &mut Random) {
    let innovation = bytes(&draw::gains::sharpened(random));
    let tables = whole(&tables::standard());
    let opening = Decoded::new(&OPENING, 0x5A);
    let of_lengths = |[long, logs, pows, energies, gains]: [usize; 5]| {
        let cut = |buffer: &Vec<u8>, length: usize| {
            let mut buffer = buffer.clone();
            buffer.resize(length, 0x7F);
            buffer
        };
        let mut lent = opening.clone();
        lent.energies = cut(&opening.energies, energies);
        lent.gains = cut(&opening.gains, gains);
        let tables = Tables {
            logs: cut(&tables.logs, logs),
            pows: cut(&tables.pows, pows),
        };
        decodes(&mut lent, 40, &cut(&innovation, long), &tables)
    };
    let own = [
        INNOVATION_BYTES,
        TABLE_BYTES,
        TABLE_BYTES,
        ENERGIES_BYTES,
        GAINS_BYTES,
    ];
    let names = [
        "innovations",
        "logarithm tables",
        "power tables",
        "energies",
        "gains",
    ];
    for (place, name) in names.into_iter().enumerate() {
        let name = format!("gains: {name} of each length");
        all(tally, &name, 0..=200, |&length| {
            let mut lengths = own;
            lengths[place] = length;
            of_lengths(lengths)
        });
    }
    let about = own.map(near);
    let cases = choices(about.each_ref().map(|lengths| &lengths[..]));
    let name = "gains: all buffers about their lengths";
    all(tally, name, cases, |&lengths| of_lengths(lengths));
}

/// Each number of an index sheet, of the tables and of the tested ones of the state at the values about
/// its limits; every index of gains.
fn limits(tally: &mut Tally, random: &mut Random) {
    let lsf = draw::spread(random);
    let sheet = draw::gains::index_sheet(random, lsf, Loudness::Speech);
    let state = draw::state(random, 3000);
    let energies = draw::gains::energies(random);
    let pair = tables::standard();
    let call = |sheet: &[i16], state: &[i16], tables: &Tables| {
        same(
            &mut WithEnergies::new(state, &energies, 0x5A),
            &bytes(sheet),
            tables,
        )
    };
    const ABOUT: [i16; 21] = [
        -32768, -32767, -2, -1, 0, 1, 30, 31, 32, 33, 126, 127, 128, 129, 254, 255, 256, 16383,
        16384, 16385, 32767,
    ];
    let cases = (0..INDEX_SHEET).flat_map(|place| ABOUT.map(|number| (place, number)));
    let name = "an index sheet's numbers about their limits";
    all(tally, name, cases, |&(place, number)| {
        let mut sheet = sheet.clone();
        sheet[place] = number;
        call(&sheet, &state, &whole(&pair))
    });
    let cases = (0..LSFS).flat_map(|place| (-206..=206).map(move |above| (place, above)));
    let name = "an index sheet's LSFs about the gap";
    all(tally, name, cases, |&(place, above)| {
        let mut sheet = sheet.clone();
        draw::put_above(&mut sheet, place, above);
        call(&sheet, &state, &whole(&pair))
    });
    let numbers = [-32768, -1, 0, 1, 13016, 13017, 13018, 32766, 32767];
    let cases = numbers
        .iter()
        .flat_map(|&sharpening| numbers.map(|gain| (sharpening, gain)));
    let name = "index call: sharpening and smoothed gain about their limits";
    all(tally, name, cases, |&(sharpening, gain)| {
        let mut state = state.clone();
        state[at::SHARPENING] = sharpening;
        state[at::GAIN] = gain;
        call(&sheet, &state, &whole(&pair))
    });
    let innovation: [i16; SUBFRAME] = draw::gains::sharpened(random);
    let innovation = bytes(&innovation);
    let gain = |index: i16, tables: &Tables| {
        decodes(
            &mut Decoded::new(&energies, 0x5A),
            index,
            &innovation,
            tables,
        )
    };
    // Each entry of a table, by so much above the one before, and at the ends of what it may be.
    let shifts = [-32768, -2, -1, 0, 1, 32767].map(|above| (true, above));
    let ends = [-32768, -1, 0, 32767].map(|number| (false, number));
    let values: Vec<(bool, i16)> = shifts.into_iter().chain(ends).collect();
    let cases = (0..2 * TABLE).flat_map(|place| values.iter().map(move |&value| (place, value)));
    let name = "a table's numbers about their limits: both calls";
    all(tally, name, cases, |&(place, (above, number))| {
        let mut pair = pair;
        let table = &mut pair[place / TABLE];
        let place = place % TABLE;
        let before = if place == 0 { 0 } else { table[place - 1] };
        let from = if above { before } else { 0 };
        table[place] = from.saturating_add(number);
        gain(40, &whole(&pair)) && call(&sheet, &state, &whole(&pair))
    });
    let name = "gains: every index";
    all(tally, name, i16::MIN..=i16::MAX, |&index| {
        gain(index, &whole(&pair))
    });
}

pub fn boundaries(tally: &mut Tally, random: &mut Random) {
    frame_lengths(tally, random);
    gain_lengths(tally, random);
    limits(tally, random);
}
