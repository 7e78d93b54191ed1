//! The call of a gain index: the refusals of docs/BENCH.md around the published gain decoder.

use crate::{
    SUBFRAME,
    frame::first,
    lent::{stages, tables::Pair},
};

/// The numbers of a table that is accepted.
pub const TABLE: usize = 33;
/// The past energies of a gain decoder, newest first.
pub const ENERGIES: usize = 4;
/// Of a decoder that has decoded nothing.
pub const OPENING: [i16; ENERGIES] = [-14336; ENERGIES];

/// What a call is lent as its tables, of any length and content.
#[derive(Debug, Clone, Copy)]
pub struct Tables<'a> {
    pub logs: &'a [i16],
    pub pows: &'a [i16],
}

impl<'a> From<&'a Pair> for Tables<'a> {
    fn from([logs, pows]: &'a Pair) -> Self {
        Self { logs, pows }
    }
}

#[derive(Debug, Clone, PartialEq, Eq)]
pub struct Answer {
    /// 0 where the call was accepted.
    pub refusal: i16,
    /// Of the refusal.
    pub place: i16,
    pub pitch: i16,
    pub code: i16,
    /// Afterwards.
    pub energies: [i16; ENERGIES],
}

/// The numbers, where they are 33 in 0..=32767 that never fall.
fn table(numbers: &[i16]) -> Option<[i16; TABLE]> {
    let table: [i16; TABLE] = numbers.try_into().ok()?;
    let kept = table.iter().all(|&number| number >= 0) && table.is_sorted();
    kept.then_some(table)
}

/// 7: number and place.
pub fn check_tables(tables: Tables) -> Result<Pair, (i16, i16)> {
    let logs = table(tables.logs).ok_or((7, 0))?;
    let pows = table(tables.pows).ok_or((7, 1))?;
    Ok([logs, pows])
}

/// 8: number and place.
pub fn check_indices(indices: &[i16]) -> Result<(), (i16, i16)> {
    let outside = first(indices, |_, index| (0..=127).contains(&index));
    outside.map_or(Ok(()), |place| Err((8, place)))
}

/// In the order 7, 8.
fn check_decode(index: i16, tables: Tables) -> Result<Pair, (i16, i16)> {
    let tables = check_tables(tables)?;
    check_indices(&[index])?;
    Ok(tables)
}

/// A refused call gives gains 0 and 0, and the energies as they came.
pub fn decode(
    index: i16,
    innovation: &[i16; SUBFRAME],
    tables: Tables,
    energies: &[i16; ENERGIES],
) -> Answer {
    let (refusal, place, [pitch, code], energies) = match check_decode(index, tables) {
        Ok(tables) => {
            let (gains, energies) = stages::gains(index as u16, innovation, &tables, energies);
            (0, 0, gains, energies)
        }
        Err((refusal, place)) => (refusal, place, [0, 0], *energies),
    };
    Answer {
        refusal,
        place,
        pitch,
        code,
        energies,
    }
}
