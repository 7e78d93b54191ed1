//! The inputs of the files of the record's reader and writer.

use super::{Records, erased::state};
use crate::{
    ZEROS, at,
    files::{BYTE_AREA, File},
    random::Random,
    record::{self, first},
};

/// The bytes of a record of a state: of version 2, or of version 1, which has its first fields.
fn written(state: &[i16], version: u8) -> Vec<u8> {
    let (fields, trailer) = if version == 1 {
        (&state[..first::FIELDS], first::TRAILER)
    } else {
        (state, record::TRAILER)
    };
    let mut bytes: Vec<u8> = fields
        .iter()
        .flat_map(|field| field.to_le_bytes())
        .collect();
    bytes.extend(trailer);
    bytes
}

/// A record whose trailer is changed in these places, counted from its first byte.
fn changed(mut bytes: Vec<u8>, changes: &[(usize, u8)]) -> Vec<u8> {
    let trailer = bytes.len() - 8;
    for &(place, change) in changes {
        bytes[trailer + place] ^= change;
    }
    bytes
}

/// Changes of a trailer by which it is refused: every byte, then two rows of the order met at once.
const CHANGES: [&[(usize, u8)]; 15] = [
    &[(0, 1)],
    &[(1, 0x80)],
    &[(2, 4)],
    &[(2, 0x80)],
    // To version 0 or 3, and to the other version.
    &[(2, 1)],
    &[(2, 3)],
    &[(3, 1)],
    &[(4, 1)],
    &[(5, 1)],
    &[(6, 1)],
    &[(7, 1)],
    &[(4, 0x20)],
    &[(0, 1), (2, 4)],
    &[(2, 4), (4, 1)],
    &[(4, 1), (6, 1)],
];

/// Records of a version, whole ones behind notes, then such as are refused by 11 to 15.
fn of_version(random: &mut Random, version: u8) -> Vec<Vec<u8>> {
    let zeros = written(&ZEROS, version);
    let mut all = vec![zeros.clone()];
    // Notes, one of which looks like a trailer.
    for length in [1, 2, 7, 8, 18] {
        let mut bytes: Vec<u8> = (0..length).map(|_| random.bits() as u8).collect();
        bytes.extend(written(&state(random, 3000), version));
        all.push(bytes);
    }
    let last = written(&state(random, 32767), version);
    for trailer in [record::TRAILER, first::TRAILER] {
        all.push([&trailer[..], &last].concat());
    }
    for changes in CHANGES {
        all.push(changed(written(&state(random, 3000), version), changes));
    }
    // Too few bytes before the trailer, and the trailer alone.
    let trailer = zeros[zeros.len() - 8..].to_vec();
    all.push(zeros[1..].to_vec());
    all.push([&[7; 5][..], &trailer].concat());
    all.push(trailer);
    // A record cut short: judged by its own last eight bytes.
    for length in [zeros.len() - 1, 300, 8] {
        all.push(zeros[..length].to_vec());
    }
    // Too short, and another count.
    all.push(changed(zeros[9..].to_vec(), &[(6, 0x40)]));
    all
}

/// Fields of a state by which a record is refused, or accepted at a limit; the first ten are fields that
/// version 1 has too.
fn limits() -> Vec<Vec<(usize, i16)>> {
    let mut limits: Vec<Vec<(usize, i16)>> = [
        (13018, 0),
        (-1, 0),
        (32767, 4096),
        (-32768, 32767),
        (13018, -1),
        (0, -1),
        (13017, -32768),
        (13017, 32767),
        (0, 0),
        (13016, 1),
    ]
    .map(|(sharpening, gain)| vec![(at::SHARPENING, sharpening), (at::GAIN, gain)])
    .to_vec();
    let fields = at::GAIN_FIELDS..at::ERASED;
    limits.extend(
        fields
            .clone()
            .map(|field| vec![(field, [-1, -32768][field % 2])]),
    );
    limits.push(fields.map(|field| (field, 32767)).collect());
    limits.extend([-32768, -1, 0, 1, 2, 32767].map(|mark| vec![(at::ERASED, mark)]));
    limits.extend([-32768, -1, 0, 18, 19, 144, 145, 32767].map(|lag| vec![(at::LAST_LAG, lag)]));
    // Several rows of the order met at once.
    limits.extend([
        vec![(at::SHARPENING, -1), (at::ERASED, 2)],
        vec![(at::GAIN, -1), (199, -1)],
        vec![(at::GAIN, -1), (at::LAST_LAG, 18)],
        vec![(203, -1), (208, -1)],
        vec![(211, -1), (at::ERASED, 2)],
        vec![(at::ERASED, -1), (at::LAST_LAG, 145)],
    ]);
    limits
}

/// States with these.
fn about_limits(random: &mut Random) -> Records {
    let state = |fields: Vec<(usize, i16)>| {
        let mut state = state(random, 3000);
        for (field, number) in fields {
            state[field] = number;
        }
        state
    };
    limits().into_iter().map(state).collect()
}

pub fn record_read(_: &File, random: &mut Random) -> Records {
    let mut all: Vec<Vec<u8>> = [0, 1, 7].map(|length| vec![0x4D; length]).to_vec();
    for version in [1, 2] {
        all.extend(of_version(random, version));
    }
    // A trailer of the other version behind a body.
    let zeros = [1, 2].map(|version| written(&ZEROS, version));
    all.push([&zeros[0][..first::BODY], &record::TRAILER].concat());
    all.push([&zeros[1][..record::BODY], &first::TRAILER].concat());
    let states = about_limits(random);
    all.extend(states.iter().map(|state| written(state, 2)));
    all.extend(states[..10].iter().map(|state| written(state, 1)));
    all.iter()
        .map(|bytes| {
            let mut area = bytes.clone();
            area.resize(BYTE_AREA, 0);
            let (pairs, _) = area.as_chunks();
            let words = pairs.iter().map(|&pair| i16::from_le_bytes(pair));
            std::iter::once(bytes.len() as i16).chain(words).collect()
        })
        .collect()
}

pub fn record_write(_: &File, random: &mut Random) -> Records {
    const WHOLE: i16 = record::RECORD as i16;
    let mut records = Records::new();
    let mut put = |lent: i16, state: &[i16]| records.push([&[lent][..], state].concat());
    put(WHOLE, &ZEROS);
    for limit in [300, 3000, 32767] {
        put(WHOLE, &state(random, limit));
    }
    for lent in [0, 1, first::RECORD as i16, WHOLE - 1, WHOLE + 1] {
        put(lent, &state(random, 3000));
    }
    // A record of another length is refused before its state is.
    for (lent, field, number) in [(WHOLE - 1, at::SHARPENING, -1), (WHOLE + 1, at::ERASED, 2)] {
        let mut state = state(random, 3000);
        state[field] = number;
        put(lent, &state);
    }
    for state in about_limits(random) {
        put(WHOLE, &state);
    }
    records
}
