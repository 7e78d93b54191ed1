//! The handover record's reader and writer, from docs/BENCH.md, "Record", alone: the published Rust has none.

use crate::{
    STATE, ZEROS,
    frame::{Refusal, check_state},
};

pub const BODY: usize = 2 * STATE;
/// Of version 2, which is written.
pub const TRAILER: [u8; 8] = [0x4D, 0x37, 2, 0, 0xAA, 1, 0xD5, 0];
pub const RECORD: usize = BODY + TRAILER.len();

/// Version 1, which is read: its fields are the state's first.
pub mod first {
    pub const FIELDS: usize = 197;
    pub const BODY: usize = 2 * FIELDS;
    pub const TRAILER: [u8; 8] = [0x4D, 0x37, 1, 0, 0x8A, 1, 0xC5, 0];
    pub const RECORD: usize = BODY + TRAILER.len();
}

#[derive(Debug, Clone, PartialEq, Eq)]
pub struct Read<'a> {
    /// 0 where the record was accepted.
    pub refusal: i16,
    /// Of the refusal.
    pub place: i16,
    pub state: [i16; STATE],
    pub note: &'a [u8],
}

fn accepted(bytes: &[u8]) -> Result<([i16; STATE], &[u8]), Refusal> {
    let Some((before, trailer)) = bytes.split_last_chunk::<8>() else {
        return Err((11, 0));
    };
    let word = |at: usize| u16::from_le_bytes([trailer[at], trailer[at + 1]]);
    if trailer[..2] != [0x4D, 0x37] {
        return Err((12, 0));
    }
    let (distance, count) = match word(2) {
        1 => (394, 197),
        2 => (426, 213),
        _ => return Err((13, 0)),
    };
    if word(4) != distance || word(6) != count {
        return Err((14, 0));
    }
    let Some(note) = before.len().checked_sub(distance.into()) else {
        return Err((15, 0));
    };
    let (note, body) = before.split_at(note);
    // Of version 1 the later fields are a last lag of 40 and zeros.
    let mut state = ZEROS;
    let (pairs, _) = body.as_chunks();
    for (field, &pair) in state.iter_mut().zip(pairs) {
        *field = i16::from_le_bytes(pair);
    }
    check_state(&state)?;
    Ok((state, note))
}

/// In the order 11 to 15, then the state. A refused read gives the all-zero state and an empty note.
pub fn read(bytes: &[u8]) -> Read<'_> {
    match accepted(bytes) {
        Ok((state, note)) => Read {
            refusal: 0,
            place: 0,
            state,
            note,
        },
        Err((refusal, place)) => Read {
            refusal,
            place,
            state: [0; STATE],
            note: &[],
        },
    }
}

fn check_write(state: &[i16; STATE], room: usize) -> Result<(), Refusal> {
    if room != RECORD {
        return Err((5, 0));
    }
    check_state(state)
}

/// In the order 5, then the state; 0 and 0 where the record was written. A refused write leaves `out`
/// as it was.
pub fn write(state: &[i16; STATE], out: &mut [u8]) -> Refusal {
    if let Err(refusal) = check_write(state, out.len()) {
        return refusal;
    }
    let (body, trailer) = out.split_at_mut(BODY);
    for (field, bytes) in state.iter().zip(body.chunks_exact_mut(2)) {
        bytes.copy_from_slice(&field.to_le_bytes());
    }
    trailer.copy_from_slice(&TRAILER);
    (0, 0)
}
