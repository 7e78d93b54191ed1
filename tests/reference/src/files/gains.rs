//! The recorded files of gains from their index: the call of an index, and the frame call of an index
//! sheet.

use super::{File, Kind, SHEET_AREA, mark_extremes, ones, refused_kinds, words};
use crate::{
    FRAME, INDEX_SHEET, NOWHERE, ROW, STATE, SUBFRAME, SUBFRAMES, ZEROS,
    draw::gains as draw,
    frame,
    gain::{self, ENERGIES, OPENING, TABLE, Tables},
    lent::tables::{self, Pair},
    model::{Fault, Trace, gains as model},
    part,
};

/// Numbers of a table in a refused record: longer tables than 33 fit.
pub const TABLE_AREA: usize = 35;

pub const DECODE: File = File {
    name: "gain_decode.bin",
    seed: 120,
    inputs: &[
        words("index", 1),
        words("innovation", SUBFRAME),
        words("logarithm table", TABLE),
        words("power table", TABLE),
        words("energies", ENERGIES),
    ],
    answers: &[
        words("pitch gain", 1),
        words("code gain", 1),
        words("energies after", ENERGIES),
    ],
    draw: draw::gain_decode,
    answer: |input| {
        let (index, innovation, tables, energies) = decode_input(input);
        let answer = gain::decode(index, &innovation, (&tables).into(), &energies);
        assert_eq!(answer.refusal, 0);
        let mut words = vec![answer.pitch, answer.code];
        words.extend(answer.energies);
        words
    },
    model: |trace, input| {
        let (index, innovation, tables, energies) = decode_input(input);
        mark_tables(trace, &tables);
        mark_energies(trace, &energies);
        mark_extremes(trace, &innovation);
        let (gains, energies) = model::gains(trace, index, &innovation, &tables, &energies);
        let mut words = gains.to_vec();
        words.extend(energies);
        words
    },
    kinds: || {
        let mut kinds = ones(&[
            "ordinary",
            "-32768 and 32767",
            "energies -32768 and 32767",
            "squares: 0",
            "squares: 2147483646",
            "squares: clamped",
            "predictor: sum clamped",
            "code gain shifted up",
            "code gain not shifted",
            "code gain shifted down",
        ]);
        kinds.extend(gain_kinds());
        kinds.push(Kind::Each("logarithm's exponent", (1..=30).collect()));
        kinds.push(Kind::Each("logarithm's table index", (0..32).collect()));
        kinds.push(Kind::Each("predicted exponent", (-4..=21).collect()));
        kinds.push(Kind::Each("power's table index", (0..32).collect()));
        kinds
    },
    published: true,
    faults: &GAIN_FAULTS,
};

pub const REFUSED: File = File {
    name: "gain_refused.bin",
    seed: 121,
    inputs: &[
        words("index", 1),
        words("numbers in the logarithm table", 1),
        words("numbers in the power table", 1),
        words("logarithm table, zeros after its end", TABLE_AREA),
        words("power table, zeros after its end", TABLE_AREA),
        words("energies", ENERGIES),
    ],
    answers: &[words("refusal", 1), words("place of the refusal", 1)],
    draw: draw::gain_refused,
    answer: |input| {
        let answer = refused_gain(input);
        assert!(answer.refusal != 0 && answer.energies == input[3 + 2 * TABLE_AREA..]);
        assert_eq!((answer.pitch, answer.code), (0, 0));
        vec![answer.refusal, answer.place]
    },
    model: |trace, input| {
        let answer = refused_gain(input);
        trace.number("refusal", answer.refusal);
        let outside = !(0..=127).contains(&input[0]);
        trace.mark_if(outside && answer.refusal == 7, "7 before 8");
        match (answer.refusal, answer.place) {
            (7, place) => {
                trace.number("refusal 7: place", place);
                let Tables { logs, pows } = lent(&input[1..], &input[3..]);
                mark_no_table(trace, logs, pows, place);
                let exchanged = Tables {
                    logs: pows,
                    pows: logs,
                };
                let both = place == 0 && gain::check_tables(exchanged) == Err((7, 0));
                trace.mark_if(both, "refusal 7: both tables");
            }
            _ => trace.number("refusal 8: index", input[0]),
        }
        vec![answer.refusal, answer.place]
    },
    kinds: || {
        let mut kinds = vec![
            Kind::Each("refusal", vec![7, 8]),
            Kind::Each("refusal 7: place", vec![0, 1]),
            Kind::Each("refusal 8: index", vec![-32768, -1, 128, 32767]),
            Kind::One("7 before 8"),
            Kind::One("refusal 7: both tables"),
        ];
        kinds.extend(no_table_kinds());
        for name in FALLS {
            kinds.push(Kind::Each(name, (1..TABLE as i16).collect()));
        }
        kinds
    },
    published: false,
    faults: &[],
};

pub const FRAME_INDEXED: File = File {
    name: "frame_indexed.bin",
    seed: 122,
    inputs: &[
        words("index sheet", INDEX_SHEET),
        words("state", STATE),
        words("logarithm table", TABLE),
        words("power table", TABLE),
        words("energies", ENERGIES),
    ],
    answers: &[
        words("samples", FRAME),
        words("places", SUBFRAMES),
        words("rows", ROW * SUBFRAMES),
        words("next state", STATE),
        words("energies after", ENERGIES),
    ],
    draw: draw::frame_indexed,
    answer: |input| {
        let (sheet, state, tables, energies) = frame_input(input);
        let mut out = [0; FRAME];
        let answer = frame::frame_indexed(&sheet, &state, (&tables).into(), &energies, &mut out);
        assert_eq!(answer.frame.refusal, 0);
        let mut words = out.to_vec();
        words.extend(answer.frame.places);
        words.extend(answer.frame.rows.as_flattened());
        words.extend(answer.frame.state);
        words.extend(answer.energies);
        words
    },
    model: |trace, input| {
        let (sheet, state, tables, energies) = frame_input(input);
        trace.mark_if(state == ZEROS, "state of zeros");
        mark_tables(trace, &tables);
        mark_energies(trace, &energies);
        model::frame_indexed(trace, &sheet, &state, &tables, &energies)
    },
    kinds: || {
        let mut kinds = ones(&[
            "state of zeros",
            "innovation sharpened",
            "sharpened innovation clamped",
            "sharpening 13017",
            "enhanced",
            "not enhanced",
            "peak 32760 or more",
            "second pass clamped",
            "second pass not clamped",
        ]);
        kinds.extend(gain_kinds());
        kinds.push(Kind::Each("flags", (0..16).collect()));
        kinds.push(Kind::Each("lag", vec![19, 20, 39, 40, 49, 50, 143, 144]));
        kinds
    },
    published: true,
    faults: &FRAME_FAULTS,
};

pub const REFUSED_INDEXED: File = File {
    name: "refused_indexed.bin",
    seed: 123,
    inputs: &[
        words("numbers in the index sheet", 1),
        words("samples in the lent output", 1),
        words("numbers in the logarithm table", 1),
        words("numbers in the power table", 1),
        words("index sheet, zeros after its end", SHEET_AREA),
        words("state", STATE),
        words("logarithm table, zeros after its end", TABLE_AREA),
        words("power table, zeros after its end", TABLE_AREA),
        words("energies", ENERGIES),
    ],
    answers: &[words("refusal", 1), words("place of the refusal", 1)],
    draw: draw::refused_indexed,
    answer: |input| {
        let state: [i16; STATE] = part(input, 4 + SHEET_AREA);
        let mut out: Vec<i16> = (0..input[1]).collect();
        let answer = refused_frame(input, &mut out);
        assert!(answer.frame.refusal != 0 && answer.frame.state == state);
        assert_eq!(answer.energies, input[input.len() - ENERGIES..]);
        assert!(out.into_iter().eq(0..input[1]));
        assert_eq!(answer.frame.places, [NOWHERE; SUBFRAMES]);
        assert_eq!(answer.frame.rows, [[0; ROW]; SUBFRAMES]);
        vec![answer.frame.refusal, answer.frame.place]
    },
    model: |trace, input| {
        let mut out = vec![0; input[1] as usize];
        let answer = refused_frame(input, &mut out).frame;
        draw::CALLS.mark(trace, input, (answer.refusal, answer.place));
        match answer.refusal {
            7 => {
                trace.number("refusal 7: place", answer.place);
                let Tables { logs, pows } = lent(&input[2..], &input[4 + SHEET_AREA + STATE..]);
                mark_no_table(trace, logs, pows, answer.place);
            }
            8 => trace.number("refusal 8: place", answer.place),
            _ => {}
        }
        vec![answer.refusal, answer.place]
    },
    kinds: || {
        let mut kinds = refused_kinds(&draw::CALLS);
        kinds.extend([
            Kind::Each("refusal 1: length", vec![0, 1, 171, 177, 179, 180, 182]),
            Kind::Each("refusal 7: place", vec![0, 1]),
            Kind::Each("refusal 8: place", (0..4).collect()),
        ]);
        kinds.extend(no_table_kinds());
        kinds
    },
    published: false,
    faults: &[],
};

/// Index, innovation, tables and energies of a record.
fn decode_input(input: &[i16]) -> (i16, [i16; SUBFRAME], Pair, [i16; ENERGIES]) {
    let tables = 1 + SUBFRAME;
    (
        input[0],
        part(input, 1),
        [part(input, tables), part(input, tables + TABLE)],
        part(input, tables + 2 * TABLE),
    )
}

/// Index sheet, state, tables and energies of a record.
fn frame_input(input: &[i16]) -> ([i16; INDEX_SHEET], [i16; STATE], Pair, [i16; ENERGIES]) {
    let tables = INDEX_SHEET + STATE;
    (
        part(input, 0),
        part(input, INDEX_SHEET),
        [part(input, tables), part(input, tables + TABLE)],
        part(input, tables + 2 * TABLE),
    )
}

/// The tables of a refused record: of each room as many numbers as its count says.
fn lent<'a>(counts: &[i16], rooms: &'a [i16]) -> Tables<'a> {
    let (logs, pows) = rooms.split_at(TABLE_AREA);
    Tables {
        logs: &logs[..counts[0] as usize],
        pows: &pows[..counts[1] as usize],
    }
}

fn refused_gain(input: &[i16]) -> gain::Answer {
    let tables = lent(&input[1..], &input[3..]);
    let energies = part(input, 3 + 2 * TABLE_AREA);
    gain::decode(input[0], &[0; SUBFRAME], tables, &energies)
}

fn refused_frame(input: &[i16], out: &mut [i16]) -> frame::EnergyAnswer {
    let sheet = &input[4..4 + input[0] as usize];
    let state = part(input, 4 + SHEET_AREA);
    let rooms = 4 + SHEET_AREA + STATE;
    let tables = lent(&input[2..], &input[rooms..]);
    let energies = part(input, rooms + 2 * TABLE_AREA);
    frame::frame_indexed(sheet, &state, tables, &energies, out)
}

fn mark_tables(trace: &mut Trace, tables: &Pair) {
    let standard = *tables == tables::standard();
    trace.mark_if(standard, "the standard's tables");
    trace.mark_if(!standard, "drawn tables");
    for table in tables {
        let constant = table[0] == table[TABLE - 1];
        trace.mark_if(constant && table[0] == 0, "a table of zeros");
        trace.mark_if(constant && table[0] != 0, "a constant table");
        trace.mark_if(
            table[0] == 0 && table[TABLE - 1] == 32767,
            "a table from 0 to 32767",
        );
        let equal = table.windows(2).any(|pair| pair[0] == pair[1]);
        trace.mark_if(!constant && equal, "equal neighbours in a table");
    }
}

pub fn mark_energies(trace: &mut Trace, energies: &[i16; ENERGIES]) {
    trace.mark_if(*energies == OPENING, "opening energies");
    let both = energies.contains(&-32768) && energies.contains(&32767);
    trace.mark_if(both, "energies -32768 and 32767");
}

fn gain_kinds() -> Vec<Kind> {
    let mut kinds = ones(&[
        "the standard's tables",
        "drawn tables",
        "a table of zeros",
        "a constant table",
        "a table from 0 to 32767",
        "equal neighbours in a table",
        "opening energies",
        "code gain 0",
        "code gain 32767",
        "code gain clamped",
    ]);
    kinds.push(Kind::Each("gain index", (0..128).collect()));
    kinds
}

/// What is wrong with the table that is named by its place.
fn mark_no_table(trace: &mut Trace, logs: &[i16], pows: &[i16], place: i16) {
    let table = [logs, pows][place as usize];
    let negative = table.iter().position(|&number| number < 0);
    let falls = table.windows(2).position(|pair| pair[0] > pair[1]);
    if table.len() != TABLE {
        trace.number("a table's length", table.len() as i16);
    } else if let Some(negative) = negative {
        trace.number("a table's first negative number", negative as i16);
        trace.mark_if(table.contains(&-32768), "a table's number -32768");
    } else if let Some(before) = falls {
        assert_eq!(table[before] - table[before + 1], 1);
        trace.number(FALLS[place as usize], before as i16 + 1);
    }
}

const FALLS: [&str; 2] = ["logarithm table falls by 1 at", "power table falls by 1 at"];

fn no_table_kinds() -> Vec<Kind> {
    vec![
        Kind::Each("a table's length", vec![0, 1, 32, 34, 35]),
        Kind::Each("a table's first negative number", vec![0, 32]),
        Kind::One("a table's number -32768"),
    ]
}

const GAIN_FAULTS: [Fault; 11] = [
    Fault::EnergyNotEntered,
    Fault::EnergyEnteredLast,
    Fault::Factor5443,
    Fault::PredictorExchanged,
    Fault::PredictorUnclamped,
    Fault::SquaresAsEnergy,
    Fault::LogBase,
    Fault::LogTowardZero,
    Fault::PowerTimes16,
    Fault::PowerNotRounded,
    Fault::CodeGainWraps,
];

const FRAME_FAULTS: [Fault; 12] = [
    Fault::SharpeningNotFed,
    Fault::SharpeningOfThisGain,
    Fault::GainsUnsharpened,
    Fault::GainsByOwnSharpening,
    Fault::GainsSharpeningNotHeld,
    Fault::EnergyNotEntered,
    Fault::EnergyEnteredLast,
    Fault::Factor5443,
    Fault::PredictorExchanged,
    Fault::SquaresAsEnergy,
    Fault::LogBase,
    Fault::PowerTimes16,
];
