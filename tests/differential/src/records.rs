//! The record's reader and writer.

use crate::all;
use differential::{STATE_BYTES, bytes, read, reference_read, reference_write, write};
use reference::{
    STATE, at, draw,
    random::Random,
    record::{self, first},
    tally::Tally,
};

/// Both readers leave the same.
pub fn reads(record: &[u8], room: usize) -> bool {
    read(record, room) == reference_read(record, room)
}

/// Both writers leave the same.
pub fn writes(state: &[u8], room: usize) -> bool {
    write(state, room) == reference_write(state, room)
}

/// Records of version 2.
pub fn run(tally: &mut Tally, random: &mut Random) {
    let mut long: Vec<u8> = (0..600).map(|_| random.bits() as u8).collect();
    long.extend(bytes(&draw::state(random, 32767)));
    long.extend(record::TRAILER);
    let end = long.len();
    all(
        tally,
        "records behind notes of each length",
        0..=end,
        |&from| reads(&long[from..], STATE_BYTES),
    );
    all(tally, "records cut at each length", 0..=end, |&to| {
        reads(&long[..to], STATE_BYTES)
    });
    all(
        tally,
        "reads into states of each length",
        0..=800,
        |&room| reads(&long, room),
    );
    let cases = (0..8).flat_map(|place| (0..=255u8).map(move |byte| (place, byte)));
    all(
        tally,
        "each value of each byte of a trailer",
        cases,
        |&(place, byte)| {
            let mut record = long.clone();
            record[end - 8 + place] = byte;
            reads(&record, STATE_BYTES)
        },
    );
    all(tally, "records with some bytes changed", 0..20_000, |_| {
        let mut record = long[600 - random.range(0, 600) as usize..].to_vec();
        for _ in 0..random.range(1, 4) {
            let last = record.len() as i64 - 1;
            let from = if random.once_in(2) { last - 12 } else { 0 };
            record[random.range(from, last) as usize] = random.bits() as u8;
        }
        reads(&record, STATE_BYTES)
    });
    let body = &long[600..600 + STATE_BYTES];
    all(
        tally,
        "writes into records of each length",
        0..=800,
        |&room| writes(body, room),
    );
    all(
        tally,
        "writes of states of each length",
        0..=end,
        |&length| writes(&long[..length], record::RECORD),
    );
    all(tally, "states written and read back", 0..5_000, |_| {
        let limit = draw::level(random);
        let state = bytes(&draw::state(random, limit));
        let (code, written) = write(&state, record::RECORD);
        let back = read(&written, STATE_BYTES);
        code == 0 && writes(&state, record::RECORD) && back == (0, state, 0)
    });
}

/// The bytes of a record of a state, with the trailer of a version.
fn written(state: &[i16], version: u8) -> Vec<u8> {
    let (fields, trailer) = if version == 1 {
        (&state[..first::FIELDS], first::TRAILER)
    } else {
        (state, record::TRAILER)
    };
    let mut record = bytes(fields);
    record.extend(trailer);
    record
}

/// Both versions, with gains that are remembered, and the fields of these at their limits.
pub fn both_versions(tally: &mut Tally, random: &mut Random) {
    for version in [1, 2] {
        of_version(tally, random, version);
    }
    let state = draw::erased::state(random, 3000);
    let numbers = (-3..=150).chain([-32768, 16384, 16385, 32766, 32767]);
    let cases = (at::GAIN..STATE).flat_map(|field| numbers.clone().map(move |n| (field, n)));
    let name = "a state's gain fields, last lag and mark about their limits: read, write";
    all(tally, name, cases, |&(field, number)| {
        let mut state = state.clone();
        state[field] = number;
        reads(&written(&state, 2), STATE_BYTES) && writes(&bytes(&state), record::RECORD)
    });
    let name = "states with gains written and read back";
    all(tally, name, 0..5_000, |_| {
        let state = bytes(&draw::erased::any_state(random));
        let (code, written) = write(&state, record::RECORD);
        let back = read(&written, STATE_BYTES);
        code == 0 && writes(&state, record::RECORD) && back == (0, state, 0)
    });
}

fn of_version(tally: &mut Tally, random: &mut Random, version: u8) {
    let mut long: Vec<u8> = (0..600).map(|_| random.bits() as u8).collect();
    long.extend(written(&draw::erased::state(random, 3000), version));
    let end = long.len();
    let name = format!("version {version}: records behind notes of each length");
    all(tally, &name, 0..=end, |&from| {
        reads(&long[from..], STATE_BYTES)
    });
    let name = format!("version {version}: records cut at each length");
    all(tally, &name, 0..=end, |&to| reads(&long[..to], STATE_BYTES));
    let cases = (0..8).flat_map(|place| (0..=255u8).map(move |byte| (place, byte)));
    let name = format!("version {version}: each value of each byte of a trailer");
    all(tally, &name, cases, |&(place, byte)| {
        let mut record = long.clone();
        record[end - 8 + place] = byte;
        reads(&record, STATE_BYTES)
    });
    // Version, distance and count of either version, each with bodies about both lengths.
    let choices = (0..8).flat_map(|choice| (380..=450).map(move |body| (choice, body)));
    let name = format!("version {version}: version, distance and count, bodies of each length");
    all(tally, &name, choices, |&(choice, body)| {
        let mut record = long[end - 8 - body..].to_vec();
        for (bit, places) in [(1, 2..4), (2, 4..6), (4, 6..8)] {
            let trailer = if choice & bit == 0 {
                first::TRAILER
            } else {
                record::TRAILER
            };
            record[body..][places.clone()].copy_from_slice(&trailer[places]);
        }
        reads(&record, STATE_BYTES)
    });
}
