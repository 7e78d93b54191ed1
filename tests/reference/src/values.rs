//! docs/BENCH.md, "Values to hold", and a listing of the bench program, lines of sheets that keep the
//! gap and break it, gains of indices, and erased frames, against the reference.

pub mod erased;

use crate::{
    FRAME, INDEX_SHEET, LSF_GAP, LSFS, NOWHERE, ROW, SHEET, SUBFRAME, SUBFRAMES, ZEROS, at, bench,
    frame,
    gain::{self, ENERGIES, OPENING, TABLE},
    lent::{
        self,
        tables::{self, Pair},
    },
    mr74::stages::{self, Lag},
    part,
    program::bytes_of,
    record,
    tally::Tally,
};
use std::fmt::Debug;

fn same<T: PartialEq + Debug>(tally: &mut Tally, what: &str, got: T, wanted: T) {
    let text = if got == wanted {
        format!("{what} -> {got:?}")
    } else {
        format!("{what} -> {got:?}, docs/BENCH.md has {wanted:?}")
    };
    tally.line(got == wanted, &text);
}

fn lag(tally: &mut Tally, what: &str, got: Lag, wanted: Lag) {
    same(tally, &format!("lag (samples, thirds) {what}"), got, wanted);
}

pub fn run() -> bool {
    let mut tally = Tally::default();
    hold(&mut tally);
    gains(&mut tally);
    index_frame(&mut tally);
    erased::run(&mut tally);
    listing(&mut tally);
    tally.end()
}

fn hold(tally: &mut Tally) {
    for (lsf, lsp) in [
        (0, 32767),
        (128, 32748),
        (8191, 6),
        (16383, -32768),
        (16384, -32768),
    ] {
        same(tally, &format!("LSF {lsf}"), stages::lsp(lsf), lsp);
    }

    for (index, wanted) in [
        (0, (19, 1)),
        (196, (85, -1)),
        (197, (85, 0)),
        (255, (143, 0)),
    ] {
        let what = format!("of index {index}");
        lag(tally, &what, stages::from_absolute(index), wanted);
    }
    for (previous, index, wanted) in [(143, 31, (144, -1)), (19, 0, (19, 1))] {
        let got = stages::from_relative(index, previous).expect("the index is inside 0..=31");
        lag(
            tally,
            &format!("after {previous}, of index {index}"),
            got,
            wanted,
        );
    }

    for (value, wanted) in [(4096, 1), (-4096, 0), (-4097, -1), (2147483647, 0)] {
        let got = stages::rounded_coefficient(value);
        same(tally, &format!("coefficient {value}"), got, wanted);
    }

    for (value, wanted) in [(1, 1073709056), (2, 759234560), (0, 1073741823)] {
        let got = stages::inverse_sqrt(value);
        same(tally, &format!("inverse root {value}"), got, wanted);
    }

    for (sample, wanted) in [(-32768, 134217728), (-32767, 134209536)] {
        for place in [0, 17, SUBFRAME - 1] {
            let mut samples = [0; SUBFRAME];
            samples[place] = sample;
            let what = format!("energy of {sample} at {place} among zeros");
            same(tally, &what, stages::energy(&samples), wanted);
        }
    }

    let mut row = [0; ROW];
    (row[0], row[1]) = (4096, -4096);
    for (second, wanted) in [(0, NOWHERE), (1, 1)] {
        let mut excitation = [0; SUBFRAME];
        (excitation[0], excitation[1]) = (32767, second);
        let got = stages::preview(&row, &[0; LSFS], &excitation).place;
        let what = format!("synthesis, row 4096 -4096, excitation 32767 {second}: place");
        same(tally, &what, got, wanted);
    }
}

/// The gains and the energies afterwards of an index and an innovation, zero but for these numbers.
fn decoded(
    index: i16,
    numbers: &[(usize, i16)],
    tables: &Pair,
    energies: &[i16; ENERGIES],
) -> (i16, i16, [i16; ENERGIES]) {
    let mut innovation = [0; SUBFRAME];
    for &(place, number) in numbers {
        innovation[place] = number;
    }
    let answer = gain::decode(index, &innovation, tables.into(), energies);
    assert_eq!(answer.refusal, 0);
    (answer.pitch, answer.code, answer.energies)
}

/// With the standard's tables, and with a power table all of one number.
fn gains(tally: &mut Tally) {
    let standard = tables::standard();
    let powers = |power| [standard[0], [power; TABLE]];
    let all: Vec<(usize, i16)> = (0..SUBFRAME).map(|place| (place, 32767)).collect();
    let pulses = [(0, 8191), (10, 8191), (21, -8192), (37, -8192)];
    let low = [32767, -32768, -32768, -32768];
    let enters = |energy| [energy, OPENING[0], OPENING[1], OPENING[2]];
    for (name, index, numbers, tables, energies, wanted) in [
        (
            "40, sample 6",
            40,
            &[(0, 6)][..],
            standard,
            OPENING,
            (10177, 28790, enters(-454)),
        ),
        (
            "0, zeros",
            0,
            &[],
            standard,
            OPENING,
            (577, 32767, enters(-16214)),
        ),
        (
            "64, four pulses",
            64,
            &pulses,
            standard,
            OPENING,
            (13899, 4, enters(-7921)),
        ),
        (
            "0, forty 32767",
            0,
            &all,
            standard,
            OPENING,
            (577, 0, enters(-16214)),
        ),
        (
            "10, 100 -100, energies 1000 2000 3000 4000",
            10,
            &[(0, 100), (1, -100)],
            standard,
            [1000, 2000, 3000, 4000],
            (3451, 26125, [-2490, 1000, 2000, 3000]),
        ),
        (
            "10, 100 -100, energies 4000 3000 2000 1000",
            10,
            &[(0, 100), (1, -100)],
            standard,
            [4000, 3000, 2000, 1000],
            (3451, 31667, [-2490, 4000, 3000, 2000]),
        ),
        (
            "0, zeros, energies 32767 -32768 -32768 -32768, powers 1000",
            0,
            &[],
            powers(1000),
            low,
            (577, 646, [-16214, 32767, -32768, -32768]),
        ),
        (
            "127, sample 100, powers 0",
            127,
            &[(0, 100)],
            powers(0),
            OPENING,
            (18842, 0, enters(18494)),
        ),
    ] {
        let got = decoded(index, numbers, &tables, &energies);
        same(tally, &format!("gains of index {name}"), got, wanted);
    }
}

/// An index sheet that shows, from the all-zero state, gains from innovation that is not sharpened, or
/// by another gain or one not held to 13017, from energies that do not enter, or by 5443.
pub fn index_sheet() -> [i16; INDEX_SHEET] {
    let mut sheet = [0; INDEX_SHEET];
    for (lsf, number) in sheet[..LSFS].iter_mut().zip(1..) {
        *lsf = 1400 * number;
    }
    sheet[at::PITCH..at::GAINS].copy_from_slice(&[4, 6, 18, 22]);
    sheet[at::GAINS..at::INDEXED_INNOVATION].copy_from_slice(&[121, 63, 92, 78]);
    for subframe in 1..SUBFRAMES {
        sheet[at::INDEXED_INNOVATION + SUBFRAME * subframe] = 2000;
    }
    sheet
}

fn index_frame(tally: &mut Tally) {
    let sheet = index_sheet();
    let tables = tables::standard();
    let mut out = [0; FRAME];
    let lent = (&tables).into();
    let answer = frame::frame_indexed(&sheet, &ZEROS, lent, &OPENING, &mut out);
    let gains = lent::stages::frame_gains(&sheet, &ZEROS, &tables, &OPENING);
    let wanted = [[21318, 32767], [10300, 1413], [14406, 5278], [13714, 13485]];
    same(tally, "index frame: gains", gains, wanted);
    let energies = [9221, 7413, 12853, 5816];
    same(tally, "index frame: energies", answer.energies, energies);
    let places = answer.frame.places;
    same(tally, "index frame: places", places, [NOWHERE; SUBFRAMES]);
    let samples = part(&out, SUBFRAME);
    same(
        tally,
        "index frame: samples 40, ..",
        samples,
        [8, 6, -100, -56],
    );
}

pub fn zero_record() -> Vec<u8> {
    let mut bytes = vec![0; record::first::BODY];
    bytes.extend([0x4D, 0x37, 0x01, 0x00, 0x8A, 0x01, 0xC5, 0x00]);
    bytes
}

/// Input of the listing: two refused sheets and a cut one behind a record of zeros.
pub fn listing_input() -> Vec<u8> {
    let mut input = zero_record();
    input.extend([0; 2 * SHEET]);
    let mut refused = [0; 2 * SHEET];
    refused[18..20].copy_from_slice(&16385i16.to_le_bytes());
    input.extend(refused);
    input.push(0);
    input
}

/// A sheet, zero but for its LSFs and these numbers.
fn sheet_with(lsf: [i16; LSFS], numbers: &[(usize, i16)]) -> Vec<u8> {
    let mut sheet = [0; SHEET];
    sheet[..LSFS].copy_from_slice(&lsf);
    for &(place, number) in numbers {
        sheet[place] = number;
    }
    bytes_of(&sheet)
}

/// A zero record, the two rows of LSFs that lie closest, and sheets that break the gap.
pub fn gap_input() -> Vec<u8> {
    let row = |first: i16, gap: i16| std::array::from_fn(|index| first + gap * index as i16);
    let lowest = row(LSF_GAP, LSF_GAP);
    let mut input = zero_record();
    for (lsf, numbers) in [
        (lowest, &[][..]),
        (row(14539, LSF_GAP), &[]),
        (lowest, &[(0, 204)]),
        (lowest, &[(1, 409)]),
        ([16384; LSFS], &[]),
        (lowest, &[(0, 0), (5, -1)]),
        (row(1400, 1400), &[(3, 4300), (at::PITCH + 1, 32)]),
    ] {
        input.extend(sheet_with(lsf, numbers));
    }
    input
}

fn lines(tally: &mut Tally, name: &str, input: &[u8], wanted: &[&str]) {
    let got = bench::lines(input);
    for (line, wanted) in got.lines().zip(wanted) {
        same(tally, name, line, wanted);
    }
    let name = format!("lines of {name}");
    same(tally, &name, got.lines().count(), wanted.len());
}

fn listing(tally: &mut Tally) {
    lines(
        tally,
        "the bench program's listing",
        &listing_input(),
        &["1 refused 6 0", "2 refused 2 9", "3 cut"],
    );
    lines(
        tally,
        "gaps kept and broken",
        &gap_input(),
        &[
            "1 0000 0 -",
            "2 0000 0 -",
            "3 refused 6 0",
            "4 refused 6 1",
            "5 refused 6 1",
            "6 refused 2 5",
            "7 refused 6 3",
        ],
    );
}
