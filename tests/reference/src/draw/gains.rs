//! Tables, energies and innovation for gains from their index, and the inputs of the files of them.

use super::{
    Calls, Chosen, JUST_BELOW, Loudness, Records, closest, erased, extreme_state, innovation, kept,
    level, numbers, pitch, signal, spread, within,
};
use crate::{
    FRAME, INDEX_SHEET, LSFS, STATE, SUBFRAME, SUBFRAMES, ZEROS, at,
    files::{File, SHEET_AREA, gains::TABLE_AREA},
    frame,
    gain::{ENERGIES, OPENING, TABLE},
    lent::tables::{self, Pair},
    random::Random,
    values,
};

/// Tables that are accepted: the standard's, or drawn ones, constant or of zeros among them.
pub fn tables(random: &mut Random) -> Pair {
    if random.once_in(3) {
        return tables::standard();
    }
    std::array::from_fn(|_| table(random))
}

/// Thirty-three numbers that never fall.
fn table(random: &mut Random) -> [i16; TABLE] {
    let standard = tables::standard();
    let mut table = match random.range(0, 7) {
        0 => [random.of(&[0, 0, 1, 1000, 32767]); TABLE],
        1 => numbers(|| random.of(&[0, 32767])),
        2 => {
            let limit = random.word(0, 32767);
            numbers(|| random.word(0, limit))
        }
        3 => {
            let (low, high) = (random.word(0, 32767), random.word(0, 32767));
            numbers(|| random.word(low.min(high), low.max(high)))
        }
        4 => random.of(&standard),
        _ => numbers(|| random.word(0, 32767)),
    };
    table.sort_unstable();
    table
}

/// Past energies: the opening ones, such as a table of gains leaves, and any.
pub fn energies(random: &mut Random) -> [i16; ENERGIES] {
    match random.range(0, 4) {
        0 => OPENING,
        1 => numbers(|| random.any()),
        2 => numbers(|| random.of(&[-32768, 32767])),
        3 => [random.any(); ENERGIES],
        _ => numbers(|| random.word(-16214, 18494)),
    }
}

/// The sharpened innovation of a subframe, from silence to full scale: its energy decides the gain.
pub fn sharpened(random: &mut Random) -> [i16; SUBFRAME] {
    if random.once_in(2) {
        return signal(random);
    }
    let limit = random.word(0, 32767) >> random.range(0, 14);
    let mut innovation = within(random, limit);
    innovation[random.range(0, 39) as usize..].fill(0);
    innovation
}

/// Whether the two tables of a record are accepted: their rooms begin there, and the third and the
/// fourth of the record's numbers are their counts.
pub fn are_tables(record: &[i16], rooms: usize) -> bool {
    let table = |count: i16, from: usize| {
        let numbers = &record[from..from + count as usize];
        numbers.len() == TABLE && numbers[0] >= 0 && numbers.is_sorted()
    };
    table(record[2], rooms) && table(record[3], rooms + TABLE_AREA)
}

/// Makes one of them no table, by turns; the way picks among the ways of each.
pub fn spoil_tables(record: &mut [i16], rooms: usize, way: usize) {
    let from = rooms + TABLE_AREA * (way % 2);
    record[2 + way % 2] = spoil_table(&mut record[from..from + TABLE_AREA], way / 2);
}

/// The ways of a table that is none.
pub const TABLE_WAYS: usize = 9 + TABLE - 1;

/// Makes a table none, in a room of 35; its count.
fn spoil_table(room: &mut [i16], way: usize) -> i16 {
    let last = room[TABLE - 1];
    let mut count = TABLE;
    match way {
        0 => count = TABLE - 1,
        1 => count = TABLE + 1,
        2 => count = 0,
        3 => room[0] = -1,
        4 => room[TABLE - 1] = -1,
        5 => count = TABLE + 2,
        6 => room[0] = -32768,
        7 => count = 1,
        8 => room[..TABLE].copy_from_slice(&std::array::from_fn::<_, TABLE, _>(|place| {
            place as i16 - TABLE as i16
        })),
        // One number falls by 1.
        _ => {
            let place = way - 8;
            for number in &mut room[..TABLE] {
                *number = (*number).max(1);
            }
            room[place] = room[place - 1] - 1;
        }
    }
    if count > TABLE {
        room[TABLE..count].fill(last);
    } else {
        room[count..].fill(0);
    }
    count as i16
}

/// Numbers that are no table, made from one.
pub fn no_table(random: &mut Random, table: [i16; TABLE]) -> Vec<i16> {
    let mut room = table.to_vec();
    room.resize(TABLE_AREA, 0);
    let way = random.range(0, TABLE_WAYS as i64 - 1) as usize;
    let count = spoil_table(&mut room, way);
    room.truncate(count as usize);
    room
}

/// An index, an innovation, tables and energies in a record.
fn join(
    index: i16,
    innovation: &[i16; SUBFRAME],
    [logs, pows]: &Pair,
    energies: &[i16; ENERGIES],
) -> Vec<i16> {
    [&[index][..], innovation, logs, pows, energies].concat()
}

pub fn gain_decode(file: &File, random: &mut Random) -> Records {
    let mut chosen = Chosen::new(file);
    let any = |random: &mut Random, index: i16| {
        let innovation = sharpened(random);
        join(index, &innovation, &tables(random), &energies(random))
    };
    for index in 0..128 {
        chosen.put(any(random, index));
    }
    // The largest sum of squares that is not held.
    let mut just_below = [0; SUBFRAME];
    just_below[..4].copy_from_slice(&JUST_BELOW);
    let mut only = [0; SUBFRAME];
    only[39] = -32768;
    for innovation in [[0; SUBFRAME], just_below, only, [-32768; SUBFRAME]] {
        let index = random.word(0, 127);
        chosen.put(join(index, &innovation, &tables::standard(), &OPENING));
    }
    for _ in 0..6000 {
        let index = random.word(0, 127);
        chosen.offer(any(random, index), 2);
    }
    chosen.records
}

pub fn gain_refused(_: &File, random: &mut Random) -> Records {
    let mut records = Records::new();
    let mut put = |random: &mut Random, index: i16, ways: &[usize]| {
        let mut record = vec![index, TABLE as i16, TABLE as i16];
        for table in tables(random) {
            record.extend(table);
            record.resize(record.len() + TABLE_AREA - TABLE, 0);
        }
        record.extend(energies(random));
        for &way in ways {
            let room = 3 + TABLE_AREA * (way % 2);
            let table = &mut record[room..room + TABLE_AREA];
            record[1 + way % 2] = spoil_table(table, way / 2);
        }
        records.push(record);
    };
    for way in 0..2 * TABLE_WAYS {
        let index = random.word(0, 127);
        put(random, index, &[way]);
    }
    for index in [-32768, -128, -2, -1, 128, 129, 255, 256, 32767] {
        put(random, index, &[]);
    }
    // A table is tested before the index, and the logarithm's before the power's.
    for (index, ways) in [
        (128, &[0][..]),
        (-1, &[1]),
        (-32768, &[40]),
        (32767, &[41]),
        (0, &[2, 3]),
        (127, &[5, 12]),
        (128, &[60, 7]),
    ] {
        put(random, index, ways);
    }
    records
}

/// A sheet of 178 numbers.
pub fn index_sheet(random: &mut Random, lsf: [i16; LSFS], loudness: Loudness) -> Vec<i16> {
    let mut sheet = lsf.to_vec();
    sheet.extend(pitch(random));
    for _ in 0..SUBFRAMES {
        sheet.push(random.word(0, 127));
    }
    for _ in 0..SUBFRAMES {
        sheet.extend(innovation(random, loudness));
    }
    assert_eq!(sheet.len(), INDEX_SHEET);
    sheet
}

/// An index sheet that is accepted.
pub fn accepted(random: &mut Random) -> Vec<i16> {
    let draw = random.of(&[kept, closest, spread]);
    let lsf = draw(random);
    let loudness = random.of(&[Loudness::Speech, Loudness::Any]);
    index_sheet(random, lsf, loudness)
}

/// A call from a state and energies, which are then those that it gives.
fn step(
    sheet: Vec<i16>,
    state: &mut [i16; STATE],
    tables: &Pair,
    energies: &mut [i16; ENERGIES],
) -> Vec<i16> {
    let [logs, pows] = tables;
    let record = [&sheet[..], &state[..], logs, pows, &energies[..]].concat();
    let answer = frame::frame_indexed(&sheet, state, tables.into(), energies, &mut [0; FRAME]);
    (*state, *energies) = (answer.frame.state, answer.energies);
    record
}

pub fn frame_indexed(file: &File, random: &mut Random) -> Records {
    let mut chosen = Chosen::new(file);
    // The frame of the values.
    let mut state = ZEROS;
    let mut energies = OPENING;
    let standard = tables::standard();
    let sheet = values::index_sheet().to_vec();
    chosen.put(step(sheet, &mut state, &standard, &mut energies));
    // As speech has it, from the state of zeros, by the standard's tables; then by drawn ones.
    (state, energies) = (ZEROS, OPENING);
    for number in 0..14 {
        let pair = if number < 8 { standard } else { tables(random) };
        let lsf = spread(random);
        let sheet = index_sheet(random, lsf, Loudness::Speech);
        chosen.put(step(sheet, &mut state, &pair, &mut energies));
    }
    // What is handed on and not used, from numbers of their own: no mark is set.
    let mut fields = Random::new(1000 + file.seed);
    let mut any = |random: &mut Random| {
        let sheet = accepted(random);
        let limit = level(random);
        let state = if random.once_in(4) {
            extreme_state(random)
        } else {
            super::state(random, limit)
        };
        let mut state: [i16; STATE] = state.try_into().expect("a state has 213 numbers");
        erased::put_fields(&mut state, &mut fields);
        state[at::ERASED] = 0;
        let pair = tables(random);
        let mut energies = self::energies(random);
        step(sheet, &mut state, &pair, &mut energies)
    };
    for _ in 0..12 {
        chosen.put(any(random));
    }
    for _ in 0..6000 {
        chosen.offer(any(random), 1);
    }
    chosen.records
}

/// The index sheet's refused calls.
pub const CALLS: Calls = Calls {
    order: &[1, 5, 2, 6, 3, 7, 8, 16, 17, 18, 19],
    numbers: INDEX_SHEET,
    sheet: 4,
};

pub fn refused_indexed(_: &File, random: &mut Random) -> Records {
    let mut records = Records::new();
    for spoils in CALLS.spoiled(
        &[
            (1, 7),
            (5, 5),
            (2, 10),
            (6, 10),
            (3, 10),
            (7, 24),
            (8, 8),
            (16, 4),
            (17, 2),
            (18, erased::FIELD_WAYS),
            (19, 6),
        ],
        &[
            (2, [3, 7]),
            (6, [2, 8]),
            (3, [1, 3]),
            (7, [0, 1]),
            (8, [1, 3]),
            (18, [4, 12]),
        ],
    ) {
        let lsf = kept(random);
        let mut record = [INDEX_SHEET, FRAME, TABLE, TABLE]
            .map(|count| count as i16)
            .to_vec();
        record.extend(index_sheet(random, lsf, Loudness::Speech));
        record.resize(4 + SHEET_AREA, 0);
        record.extend(erased::state(random, 3000));
        for table in tables(random) {
            record.extend(table);
            record.resize(record.len() + TABLE_AREA - TABLE, 0);
        }
        record.extend(energies(random));
        for (row, way) in spoils {
            CALLS.spoil(&mut record, row, way);
        }
        records.push(record);
    }
    records
}
