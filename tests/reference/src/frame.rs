//! The frame calls, of a frame sheet, an index sheet and an erased sheet: the refusals of docs/BENCH.md around
//! the published chain.

use crate::{
    ERASED_SHEET, FRAME, INDEX_SHEET, LSFS, NOWHERE, ROW, SHEET, STATE, SUBFRAMES, at,
    gain::{self, ENERGIES, Tables},
    lent::{self, tables::Pair},
    mr74::{
        erased,
        stages::{self, Decoded},
    },
    part,
};

#[derive(Debug, Clone, PartialEq, Eq)]
pub struct Answer {
    /// 0 where the call was accepted.
    pub refusal: i16,
    /// Of the refusal.
    pub place: i16,
    /// Of each first pass: the first sample at which a step clamped, 40 where none did.
    pub places: [i16; SUBFRAMES],
    pub rows: [[i16; ROW]; SUBFRAMES],
    pub state: [i16; STATE],
}

/// What the call of an index sheet or of an erased sheet gives.
#[derive(Debug, Clone, PartialEq, Eq)]
pub struct EnergyAnswer {
    pub frame: Answer,
    /// Of the gain decoder, afterwards.
    pub energies: [i16; ENERGIES],
}

/// Number and place of a refusal.
pub type Refusal = (i16, i16);

/// The first of `numbers` outside its range.
pub fn first(numbers: &[i16], inside: impl Fn(usize, i16) -> bool) -> Option<i16> {
    let outside = |(place, &number): (usize, &i16)| !inside(place, number);
    numbers
        .iter()
        .enumerate()
        .position(outside)
        .map(|place| place as i16)
}

/// In the order 16, 17, 18, 19; the place of 18 and 19 is the field's number.
pub fn check_state(state: &[i16; STATE]) -> Result<(), Refusal> {
    if !(0..=13017).contains(&state[at::SHARPENING]) {
        return Err((16, 0));
    }
    if state[at::GAIN] < 0 {
        return Err((17, 0));
    }
    let field = |place: usize, number: i16| {
        let mark = at::GAIN_FIELDS + place == at::ERASED;
        number >= 0 && (!mark || number <= 1)
    };
    if let Some(place) = first(&state[at::GAIN_FIELDS..], field) {
        return Err((18, at::GAIN_FIELDS as i16 + place));
    }
    if !(19..=144).contains(&state[at::LAST_LAG]) {
        return Err((19, at::LAST_LAG as i16));
    }
    Ok(())
}

/// What a refused call gives.
fn refused((refusal, place): Refusal, state: &[i16; STATE]) -> Answer {
    Answer {
        refusal,
        place,
        places: [NOWHERE; SUBFRAMES],
        rows: [[0; ROW]; SUBFRAMES],
        state: *state,
    }
}

/// What an accepted call gives; the samples are put into its output.
fn accepted(decoded: Decoded, out: &mut [i16]) -> Answer {
    out.copy_from_slice(&decoded.samples);
    Answer {
        refusal: 0,
        place: 0,
        places: decoded.places,
        rows: decoded.rows,
        state: decoded.state,
    }
}

/// Refusals 1, 5, 2 and 6, which every kind of sheet has. The place of 6 is the first LSF that the
/// source's own gap rule would move.
fn check_sheet<const N: usize>(sheet: &[i16], room: usize) -> Result<&[i16; N], Refusal> {
    let Ok(numbers) = sheet.try_into() else {
        return Err((1, 0));
    };
    if room != FRAME {
        return Err((5, 0));
    }
    if let Some(place) = first(&sheet[..LSFS], |_, lsf| (0..=16384).contains(&lsf)) {
        return Err((2, place));
    }
    match stages::first_moved(&part(sheet, 0)) {
        Some(place) => Err((6, place as i16)),
        None => Ok(numbers),
    }
}

/// 3.
fn check_pitch(indices: &[i16]) -> Result<(), Refusal> {
    let inside = |subframe: usize, index: i16| {
        let last = if subframe.is_multiple_of(2) { 255 } else { 31 };
        (0..=last).contains(&index)
    };
    first(indices, inside).map_or(Ok(()), |place| Err((3, place)))
}

/// In the order 1, 5, 2, 6, 3, 4, then the state.
fn check_frame<'a>(
    sheet: &'a [i16],
    state: &[i16; STATE],
    room: usize,
) -> Result<&'a [i16; SHEET], Refusal> {
    let numbers = check_sheet(sheet, room)?;
    check_pitch(&sheet[at::PITCH..at::GAINS])?;
    if let Some(place) = first(&sheet[at::GAINS..at::INNOVATION], |_, gain| gain >= 0) {
        return Err((4, place));
    }
    check_state(state)?;
    Ok(numbers)
}

pub fn frame(sheet: &[i16], state: &[i16; STATE], out: &mut [i16]) -> Answer {
    match check_frame(sheet, state, out.len()) {
        Ok(sheet) => accepted(stages::decode(sheet, state), out),
        Err(refusal) => refused(refusal, state),
    }
}

/// In the order 1, 5, 2, 6, 3, 7, 8, then the state.
fn check_indexed<'a>(
    sheet: &'a [i16],
    state: &[i16; STATE],
    tables: Tables,
    room: usize,
) -> Result<(&'a [i16; INDEX_SHEET], Pair), Refusal> {
    let numbers = check_sheet(sheet, room)?;
    check_pitch(&sheet[at::PITCH..at::GAINS])?;
    let tables = gain::check_tables(tables)?;
    gain::check_indices(&sheet[at::GAINS..at::INDEXED_INNOVATION])?;
    check_state(state)?;
    Ok((numbers, tables))
}

/// The answer of a call that has energies, accepted or refused.
fn with_energies(
    decoded: Result<(Decoded, [i16; ENERGIES]), Refusal>,
    state: &[i16; STATE],
    energies: &[i16; ENERGIES],
    out: &mut [i16],
) -> EnergyAnswer {
    match decoded {
        Ok((decoded, energies)) => EnergyAnswer {
            frame: accepted(decoded, out),
            energies,
        },
        Err(refusal) => EnergyAnswer {
            frame: refused(refusal, state),
            energies: *energies,
        },
    }
}

pub fn frame_indexed(
    sheet: &[i16],
    state: &[i16; STATE],
    tables: Tables,
    energies: &[i16; ENERGIES],
    out: &mut [i16],
) -> EnergyAnswer {
    let decoded = check_indexed(sheet, state, tables, out.len())
        .map(|(sheet, tables)| lent::stages::decode(sheet, state, &tables, energies));
    with_energies(decoded, state, energies, out)
}

/// In the order 1, 5, 2, 6, 9, then the state.
fn check_erased<'a>(
    sheet: &'a [i16],
    state: &[i16; STATE],
    room: usize,
) -> Result<&'a [i16; ERASED_SHEET], Refusal> {
    let numbers = check_sheet(sheet, room)?;
    if !(0..=6).contains(&sheet[at::STAGE]) {
        return Err((9, 0));
    }
    check_state(state)?;
    Ok(numbers)
}

pub fn frame_erased(
    sheet: &[i16],
    state: &[i16; STATE],
    energies: &[i16; ENERGIES],
    out: &mut [i16],
) -> EnergyAnswer {
    let decoded =
        check_erased(sheet, state, out.len()).map(|sheet| erased::decode(sheet, state, energies));
    with_energies(decoded, state, energies, out)
}
