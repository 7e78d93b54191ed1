//! Erased frames from a record of zeros, and after a good frame; gains of every stage.

use super::{same, zero_record};
use crate::{
    ERASED_SHEET, FRAME, GAIN_FIELDS, LSFS, SHEET, STATE, SUBFRAME, at,
    frame::{frame, frame_erased},
    gain::OPENING,
    mr74::erased,
    record,
    tally::Tally,
};

const LSF: [i16; LSFS] = [
    1384, 2077, 3420, 5108, 6742, 8122, 9863, 11092, 12714, 13701,
];

/// Two pulses a subframe.
fn pulses() -> [i16; FRAME] {
    let mut innovation = [0; FRAME];
    for subframe in innovation.chunks_exact_mut(SUBFRAME) {
        (subframe[0], subframe[7]) = (8191, -8191);
    }
    innovation
}

pub fn erased_sheet(stage: i16) -> [i16; ERASED_SHEET] {
    let mut sheet = [stage; ERASED_SHEET];
    sheet[..LSFS].copy_from_slice(&LSF);
    sheet[at::ERASED_INNOVATION..].copy_from_slice(&pulses());
    sheet
}

/// Its fourth lag is 58, its gains are 20000 and 1000.
pub fn frame_sheet() -> [i16; SHEET] {
    let mut sheet = [0; SHEET];
    sheet[..LSFS].copy_from_slice(&LSF);
    sheet[at::PITCH..at::GAINS].copy_from_slice(&[120, 15, 120, 15]);
    sheet[at::GAINS..at::INNOVATION].copy_from_slice(&[20000, 1000].repeat(4));
    sheet[at::INNOVATION..].copy_from_slice(&pulses());
    sheet
}

pub fn run(tally: &mut Tally) {
    let bytes = zero_record();
    let state = record::read(&bytes).state;
    lost_at_once(tally, &state);
    lost_after_good(tally, &state);
    stages(tally);
}

fn lost_at_once(tally: &mut Tally, state: &[i16; STATE]) {
    let sheet = erased_sheet(0);
    let mut out = [1; FRAME];
    let answer = frame_erased(&sheet, state, &OPENING, &mut out);
    let subframes = erased::subframes(&sheet, state, &OPENING);
    let wanted = [41, 42, 43, 44].map(|lag| ((lag, 0), [0, 0]));
    same(tally, "erased after zeros: lags, gains", subframes, wanted);
    let silent = out == [0; FRAME];
    same(tally, "erased after zeros: silence", silent, true);
    let mark = answer.frame.state[at::ERASED];
    same(tally, "erased after zeros: mark", mark, 1);
    let energies = answer.energies;
    same(tally, "erased after zeros: energies", energies, [-8192; 4]);
}

fn lost_after_good(tally: &mut Tally, state: &[i16; STATE]) {
    let state = frame(&frame_sheet(), state, &mut [0; FRAME]).state;
    let mut fields = [0, 16384, 16384, 16384, 16384, 0, 1000, 1000, 1000, 1000].to_vec();
    fields.extend([16384, 1000, 20000, 1000]);
    let what = "good frame: last lag, gains, mark";
    let got = state[at::LAST_LAG..].to_vec();
    same(tally, what, got, [&[58][..], &fields, &[0]].concat());
    let sheet = erased_sheet(1);
    let subframes = erased::subframes(&sheet, &state, &OPENING);
    let wanted = [
        ((59, 0), [16056, 979]),
        ((60, 0), [15734, 959]),
        ((61, 0), [15419, 939]),
        ((62, 0), [15110, 920]),
    ];
    same(tally, "erased after it: lags, gains", subframes, wanted);
    let answer = frame_erased(&sheet, &state, &OPENING, &mut [0; FRAME]);
    let fields = answer.frame.state[at::LAST_LAG..].to_vec();
    let mut wanted = [62, 16384, 16056, 15734, 15419, 15110].to_vec();
    wanted.extend([1000, 979, 959, 939, 920, 15110, 920, 20000, 1000, 1]);
    same(tally, "erased after it: fields", fields, wanted);
}

/// The gains of four subframes of a stage.
fn concealed(stage: i16, fields: &[i16; GAIN_FIELDS]) -> [[i16; 2]; 4] {
    let mut fields = *fields;
    std::array::from_fn(|_| {
        let gains;
        (gains, fields) = erased::conceal(stage, &fields);
        gains
    })
}

/// Every arrangement of five numbers.
pub fn arrangements(five: [i16; 5]) -> Vec<[i16; 5]> {
    fn put(at: usize, five: &mut [i16; 5], all: &mut Vec<[i16; 5]>) {
        if at == 5 {
            all.push(*five);
        }
        for other in at..5 {
            five.swap(at, other);
            put(at + 1, five, all);
            five.swap(at, other);
        }
    }
    let mut all = Vec::new();
    put(0, &mut { five }, &mut all);
    all
}

fn stages(tally: &mut Tally) {
    let mut fields = [0; GAIN_FIELDS];
    fields[..5].copy_from_slice(&[100, 200, 300, 400, 500]);
    fields[5..10].copy_from_slice(&[50, 40, 30, 20, 10]);
    fields[10..12].copy_from_slice(&[250, 35]);
    let wanted = [[249, 29], [248, 28], [247, 27], [246, 26]];
    same(
        tally,
        "fives 100 .. 500 and 50 .. 10, past 250 35, stage 0",
        concealed(0, &fields),
        wanted,
    );
    fields[10..12].copy_from_slice(&[1000, 1000]);
    for (stage, wanted) in [
        (0, [299, 29]),
        (1, [293, 29]),
        (2, [293, 29]),
        (3, [239, 29]),
        (4, [89, 29]),
        (5, [59, 29]),
        (6, [59, 20]),
    ] {
        let what = format!("past 1000 1000, stage {stage}");
        same(tally, &what, concealed(stage, &fields)[0], wanted);
    }
    let pitch = arrangements([100, 200, 300, 400, 500]);
    let code = arrangements([50, 40, 30, 20, 10]);
    let mut agree = 0;
    for pitch in &pitch {
        for code in &code {
            fields[..5].copy_from_slice(pitch);
            fields[5..10].copy_from_slice(code);
            agree += usize::from(concealed(6, &fields)[0] == [59, 20]);
        }
    }
    let what = "past 1000 1000, stage 6: arrangements with 59 and 20";
    same(tally, what, agree, 120 * 120);
}
