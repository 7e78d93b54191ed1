//! Erased sheets, the fields of a state that erased frames go by, and the inputs of the files of them.

use super::{
    Calls, Chosen, Loudness, Records, closest, extreme_state, innovation, kept, level, numbers,
    sheet, spread,
};
use crate::{
    ERASED_SHEET, FRAME, GAIN_FIELDS, LSFS, SHEET, SUBFRAMES, ZEROS, at,
    draw::gains::{energies, index_sheet, tables},
    files::{
        File, SHEET_AREA,
        erased::{Call, CallKind},
    },
    gain::{ENERGIES, OPENING},
    lent::tables::{self as lent_tables, Pair},
    random::Random,
    values,
};

fn last_lag(random: &mut Random) -> i16 {
    if random.once_in(2) {
        random.of(&[
            19, 20, 37, 38, 39, 40, 47, 48, 49, 50, 139, 140, 141, 142, 143, 144,
        ])
    } else {
        random.word(19, 144)
    }
}

/// A gain, of one of several kinds.
fn gain(random: &mut Random, kind: i64) -> i16 {
    match kind {
        0 => random.of(&[0, 0, 1, 16383, 16384, 16385, 32766, 32767]),
        1 => random.word(16380, 16390),
        2 => random.word(0, 1500),
        3 => random.word(0, 16384),
        4 => random.word(300, 304),
        _ => random.word(0, 32767),
    }
}

/// The fields 198 to 211, in any order.
pub fn gain_fields(random: &mut Random) -> [i16; GAIN_FIELDS] {
    let kinds: [i64; 4] = std::array::from_fn(|_| random.range(0, 5));
    let mut fields = [0; GAIN_FIELDS];
    for (place, field) in fields.iter_mut().enumerate() {
        let kind = match place {
            0..5 => kinds[0],
            5..10 => kinds[1],
            10 | 11 => kinds[2],
            _ => kinds[3],
        };
        *field = gain(random, kind);
    }
    // A past gain beside those of its five, as a chain leaves it.
    if random.once_in(2) {
        fields[10] = fields[random.range(0, 4) as usize];
        fields[11] = fields[random.range(5, 9) as usize];
    }
    // The fives rising or falling.
    if random.once_in(4) {
        fields[..5].sort_unstable();
        fields[5..10].sort_unstable_by(|a, b| b.cmp(a));
    }
    fields
}

/// Puts the fields that erased frames go by into a state.
pub fn put_fields(state: &mut [i16], random: &mut Random) {
    state[at::LAST_LAG] = last_lag(random);
    state[at::GAIN_FIELDS..at::ERASED].copy_from_slice(&gain_fields(random));
    state[at::ERASED] = random.word(0, 1);
}

/// An accepted state, its samples within a limit, gains remembered, erased before or not.
pub fn state(random: &mut Random, limit: i16) -> Vec<i16> {
    let mut state = super::state(random, limit);
    put_fields(&mut state, random);
    state
}

/// Such a state, of any level, at its extremes now and then.
pub fn any_state(random: &mut Random) -> Vec<i16> {
    let limit = level(random);
    if random.once_in(4) {
        let mut state = extreme_state(random);
        put_fields(&mut state, random);
        state
    } else {
        state(random, limit)
    }
}

/// The first field that refusal 18 names, as docs/BENCH.md, "Refusals", has it: a negative gain field or an erased
/// mark other than 0 or 1.
pub fn bad_field(state: &[i16]) -> Option<usize> {
    let negative = (198..=211).find(|&field| state[field] < 0);
    let mark = ![0, 1].contains(&state[212]);
    negative.or(mark.then_some(212))
}

/// Each field from 198 to 211, the first and the last of them once more, the mark in four ways.
pub const FIELD_WAYS: usize = GAIN_FIELDS + 6;

/// Makes a field one that refusal 18 names.
pub fn spoil_field(state: &mut [i16], way: usize) {
    let way = way % FIELD_WAYS;
    match way {
        0..GAIN_FIELDS => state[at::GAIN_FIELDS + way] = [-1, -32768, -16384][way % 3],
        14 => state[at::GAIN_FIELDS] = -32768,
        15 => state[at::ERASED - 1] = -1,
        _ => state[at::ERASED] = [2, -1, 32767, -32768][way - 16],
    }
}

/// A sheet of 171 numbers.
pub fn erased_sheet(
    random: &mut Random,
    lsf: [i16; LSFS],
    stage: i16,
    loudness: Loudness,
) -> Vec<i16> {
    let mut sheet = lsf.to_vec();
    sheet.push(stage);
    for _ in 0..SUBFRAMES {
        sheet.extend(innovation(random, loudness));
    }
    assert_eq!(sheet.len(), ERASED_SHEET);
    sheet
}

/// An erased sheet that is accepted.
pub fn accepted(random: &mut Random) -> Vec<i16> {
    let draw = random.of(&[kept, closest, spread]);
    let lsf = draw(random);
    let loudness = random.of(&[Loudness::Speech, Loudness::Any]);
    let stage = random.word(0, 6);
    erased_sheet(random, lsf, stage, loudness)
}

pub fn pitch_conceal(_: &File, _: &mut Random) -> Records {
    (19..=144).map(|last| vec![last]).collect()
}

pub fn conceal_energy(file: &File, random: &mut Random) -> Records {
    let mut chosen = Chosen::new(file);
    for all in [-14336, 0, -1, 1, 32767, -32768] {
        chosen.put(vec![all; ENERGIES]);
    }
    for some in [
        [32767, 1, -1, -1],
        [-1, -1, 1, 32767],
        [-32768, -1, 1, 1],
        [1, 1, -1, -32768],
        [-1, 0, 0, 0],
        [3, 0, 0, 0],
    ] {
        chosen.put(some.to_vec());
    }
    for _ in 0..60 {
        chosen.put(energies(random).to_vec());
    }
    for _ in 0..500 {
        chosen.offer(numbers::<ENERGIES>(|| random.edge()).to_vec(), 4);
    }
    chosen.records
}

/// The fives of the values to hold in every order that turns or mirrors them.
fn arranged(five: [i16; 5]) -> Vec<[i16; 5]> {
    let mut all = Vec::new();
    for first in 0..5 {
        for step in 1..5 {
            all.push(std::array::from_fn(|place| {
                five[(first + step * place) % 5]
            }));
        }
    }
    all
}

pub fn gain_conceal(file: &File, random: &mut Random) -> Records {
    let mut chosen = Chosen::new(file);
    let join = |stage: i16, fields: [i16; GAIN_FIELDS]| [&[stage][..], &fields].concat();
    let mut values = [0; GAIN_FIELDS];
    for (five, other) in std::iter::zip(
        arranged([100, 200, 300, 400, 500]),
        arranged([50, 40, 30, 20, 10]),
    ) {
        values[..5].copy_from_slice(&five);
        values[5..10].copy_from_slice(&other);
        for (stage, past) in [(0, [250, 35]), (6, [1000, 1000])] {
            values[10..12].copy_from_slice(&past);
            chosen.put(join(stage, values));
        }
    }
    for every in [0, 1, 2, 16384, 16385, 32767] {
        for stage in 0..7 {
            chosen.put(join(stage, [every; GAIN_FIELDS]));
        }
    }
    for _ in 0..80 {
        chosen.put(join(random.word(0, 6), gain_fields(random)));
    }
    for _ in 0..2000 {
        chosen.offer(join(random.word(0, 6), gain_fields(random)), 4);
    }
    chosen.records
}

pub fn gain_update(file: &File, random: &mut Random) -> Records {
    let mut chosen = Chosen::new(file);
    let any = |random: &mut Random| {
        let fields = gain_fields(random);
        let mut gains = [0, 1].map(|_| {
            let kind = random.range(0, 5);
            gain(random, kind)
        });
        if random.once_in(3) {
            let near = |gain: i16| gain.saturating_add(random.word(-1, 1)).max(0);
            gains = [fields[12], fields[13]].map(near);
        }
        [&gains[..], &[random.word(0, 1)], &fields].concat()
    };
    for every in [0, 1, 16384, 16385, 32767] {
        for mark in [0, 1] {
            let mut record = vec![every; 3 + GAIN_FIELDS];
            record[2] = mark;
            chosen.put(record);
        }
    }
    for _ in 0..120 {
        chosen.put(any(random));
    }
    for _ in 0..2000 {
        chosen.offer(any(random), 4);
    }
    chosen.records
}

/// A record of the erased sheet's file.
fn join(sheet: &[i16], state: &[i16], energies: &[i16; ENERGIES]) -> Vec<i16> {
    [sheet, state, energies].concat()
}

pub fn frame_erased(file: &File, random: &mut Random) -> Records {
    let mut chosen = Chosen::new(file);
    // The frame of the values.
    let sheet = values::erased::erased_sheet(0);
    chosen.put(join(&sheet, &ZEROS, &OPENING));
    let any = |random: &mut Random| {
        let sheet = accepted(random);
        join(&sheet, &any_state(random), &energies(random))
    };
    // Frames lost in a row, the stage rising.
    let mut chain = Chain::any(random);
    chain.state = state(random, 3000);
    for field in &mut chain.state[at::GAIN_FIELDS..at::ERASED - 2] {
        *field = random.word(9000, 17000);
    }
    for stage in 0..7 {
        let lsf = spread(random);
        let sheet = erased_sheet(random, lsf, stage, Loudness::Speech);
        chosen.put(join(&sheet, &chain.state, &chain.energies));
        chain.step(CallKind::Erased, sheet, &lent_tables::standard());
    }
    for _ in 0..12 {
        chosen.put(any(random));
    }
    for _ in 0..6000 {
        chosen.offer(any(random), 2);
    }
    chosen.records
}

/// What a chain of mixed calls has come to.
pub struct Chain {
    state: Vec<i16>,
    energies: [i16; ENERGIES],
}

impl Chain {
    /// From an accepted state.
    pub fn any(random: &mut Random) -> Self {
        Self {
            state: any_state(random),
            energies: energies(random),
        }
    }

    /// The record of the next call; the chain goes on to what it leaves.
    pub fn step(&mut self, kind: CallKind, sheet: Vec<i16>, [logs, pows]: &Pair) -> Vec<i16> {
        let mut record = vec![kind as i16];
        record.extend(sheet);
        record.resize(1 + SHEET, 0);
        record.extend(&self.state);
        record.extend(logs);
        record.extend(pows);
        record.extend(self.energies);
        let (answer, _) = Call::of(&record).answer();
        self.state = answer.frame.state.to_vec();
        self.energies = answer.energies;
        record
    }

    /// The record of a next call of any kind.
    pub fn any_step(&mut self, random: &mut Random) -> Vec<i16> {
        let kind = random.of(&KINDS);
        let loudness = random.of(&[Loudness::Speech, Loudness::Loud, Loudness::Any]);
        let sheet = of_kind(random, kind, loudness);
        self.step(kind, sheet, &tables(random))
    }
}

/// A sheet of a kind, which is accepted.
fn of_kind(random: &mut Random, kind: CallKind, loudness: Loudness) -> Vec<i16> {
    let lsf = match loudness {
        Loudness::Speech => spread(random),
        _ => random.of(&[kept, closest, spread])(random),
    };
    match kind {
        CallKind::Frame => sheet(random, lsf, loudness),
        CallKind::Indexed => index_sheet(random, lsf, loudness),
        CallKind::Erased => {
            let stage = random.word(0, 6);
            erased_sheet(random, lsf, stage, loudness)
        }
    }
}

const KINDS: [CallKind; 3] = [CallKind::Frame, CallKind::Indexed, CallKind::Erased];

/// Losses in speech, each kind of call behind each other one.
const LOSSES: [CallKind; 20] = {
    use CallKind::{Erased as E, Frame as F, Indexed as I};
    [F, F, E, F, E, I, I, E, E, E, E, E, E, E, F, I, E, I, F, E]
};

pub fn frame_mixed(file: &File, random: &mut Random) -> Records {
    let mut chosen = Chosen::new(file);
    let standard = lent_tables::standard();
    // Speech from a record of zeros; the stage rises with the frames lost in a row.
    let mut chain = Chain {
        state: ZEROS.to_vec(),
        energies: OPENING,
    };
    let mut lost = 0;
    for kind in LOSSES {
        let mut sheet = of_kind(random, kind, Loudness::Speech);
        lost = if kind == CallKind::Erased {
            lost + 1
        } else {
            0
        };
        if kind == CallKind::Erased {
            sheet[at::STAGE] = lost.min(6);
        }
        chosen.put(chain.step(kind, sheet, &standard));
    }
    // Any kinds, from a drawn state, by drawn tables.
    for _ in 0..2 {
        let mut chain = Chain::any(random);
        for _ in 0..8 {
            chosen.put(chain.any_step(random));
        }
    }
    for _ in 0..6000 {
        chosen.offer(Chain::any(random).any_step(random), 2);
    }
    chosen.records
}

/// The erased sheet's refused calls.
pub const CALLS: Calls = Calls {
    order: &[1, 5, 2, 6, 9, 16, 17, 18, 19],
    numbers: ERASED_SHEET,
    sheet: 2,
};

pub fn refused_erased(_: &File, random: &mut Random) -> Records {
    let mut records = Records::new();
    for spoils in CALLS.spoiled(
        &[
            (1, 7),
            (5, 5),
            (2, 10),
            (6, 10),
            (9, 5),
            (16, 4),
            (17, 2),
            (18, FIELD_WAYS),
            (19, 6),
        ],
        &[(2, [3, 7]), (6, [2, 8]), (18, [4, 12])],
    ) {
        let mut record = [ERASED_SHEET, FRAME].map(|count| count as i16).to_vec();
        record.extend(accepted(random));
        record.resize(2 + SHEET_AREA, 0);
        record.extend(state(random, 3000));
        record.extend(energies(random));
        for (row, way) in spoils {
            CALLS.spoil(&mut record, row, way);
        }
        records.push(record);
    }
    records
}
