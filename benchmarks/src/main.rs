//! `benchmarks count KIND FRAMES`: decodes FRAMES chained frames by the static library and by the reference, for callgrind (see `run`).
//! `benchmarks time KIND FRAMES`: the time of both, in turns, in one process.
//! KIND is `speech`, `retried`, `indexed`, sheets of which the gains come from their indices, `erased`, or `held`, sheets as
//! speech has them, each after an erased frame.

use differential::{
    bytes,
    gains::{Tables, WithEnergies},
    words,
};
use reference::{
    FRAME, LSFS, STATE, ZEROS, at,
    draw::{self, Loudness},
    frame::{self, EnergyAnswer},
    gain::{self, ENERGIES, OPENING},
    lent::tables,
    random::Random,
};
use std::{env, hint::black_box, process::ExitCode, time::Instant};

#[derive(Clone, Copy)]
enum Kind {
    Speech,
    Retried,
    Indexed,
    Erased,
    Held,
}

impl Kind {
    fn named(name: &str) -> Option<Self> {
        match name {
            "speech" => Some(Self::Speech),
            "retried" => Some(Self::Retried),
            "indexed" => Some(Self::Indexed),
            "erased" => Some(Self::Erased),
            "held" => Some(Self::Held),
            _ => None,
        }
    }

    /// Fields 198 to 212 of the state before each call: without them the gains of erased frames, or of
    /// held ones, would fall to 0 in a chain.
    fn fields(self) -> Option<[i16; STATE - at::GAIN_FIELDS]> {
        let mut fields = [0; STATE - at::GAIN_FIELDS];
        fields[..5].copy_from_slice(&[12000, 9000, 14000, 11000, 8000]);
        fields[5..10].copy_from_slice(&[700, 400, 900, 600, 500]);
        fields[10..].copy_from_slice(&[13000, 800, 9000, 700, 1]);
        matches!(self, Self::Erased | Self::Held).then_some(fields)
    }
}

/// Sheets as speech has them, with ordinary gains, any indices for them, or any attenuation stage; or
/// sheets of the largest gains and an innovation at full scale, which retry nearly every subframe.
fn drawn(random: &mut Random, kind: Kind) -> Vec<i16> {
    let lsf = draw::spread(random);
    let loudness = match kind {
        Kind::Retried => Loudness::Loud,
        _ => Loudness::Speech,
    };
    let mut sheet = draw::sheet(random, lsf, loudness);
    match kind {
        Kind::Speech | Kind::Held => sheet,
        Kind::Retried => {
            sheet[at::GAINS..at::INNOVATION].fill(32767);
            for number in &mut sheet[at::INNOVATION..] {
                *number = random.of(&[-32768, 32767]);
            }
            sheet
        }
        Kind::Indexed => {
            let indices: [i16; 4] = std::array::from_fn(|_| random.word(0, 127));
            [&sheet[..at::GAINS], &indices, &sheet[at::INNOVATION..]].concat()
        }
        Kind::Erased => {
            let stage = [random.word(0, 6)];
            [&sheet[..LSFS], &stage, &sheet[at::INNOVATION..]].concat()
        }
    }
}

/// The sheets as numbers and as bytes: each side is handed its own form.
struct Sheets {
    kind: Kind,
    numbers: Vec<Vec<i16>>,
    bytes: Vec<Vec<u8>>,
}

/// The frames of the static library, each looked at when it is decoded.
fn decoded(sheets: &Sheets, mut look: impl FnMut(&WithEnergies)) -> WithEnergies {
    let [logs, pows] = tables::standard();
    let tables = Tables::new(&logs, &pows);
    let fields = sheets.kind.fields().map(|fields| bytes(&fields));
    let mut lent = WithEnergies::new(&ZEROS, &OPENING, 0);
    for sheet in &sheets.bytes {
        if let Some(fields) = &fields {
            lent.frame.state[2 * at::GAIN_FIELDS..].copy_from_slice(fields);
        }
        match sheets.kind {
            Kind::Indexed => lent.ours(black_box(sheet), &tables),
            Kind::Erased => lent.ours_erased(black_box(sheet)),
            _ => lent.frame.ours(black_box(sheet)),
        }
        look(&lent);
    }
    lent
}

#[inline(never)]
fn frames_of_ours(sheets: &Sheets) -> WithEnergies {
    decoded(sheets, |_| ())
}

struct End {
    state: [i16; STATE],
    out: [i16; FRAME],
    energies: [i16; ENERGIES],
}

#[inline(never)]
fn frames_of_reference(sheets: &Sheets) -> End {
    let pair = tables::standard();
    let tables = gain::Tables::from(&pair);
    let (mut state, mut out, mut energies) = (ZEROS, [0; FRAME], OPENING);
    for sheet in &sheets.numbers {
        if let Some(fields) = sheets.kind.fields() {
            state[at::GAIN_FIELDS..].copy_from_slice(&fields);
        }
        let sheet = black_box(sheet);
        let answer = match sheets.kind {
            Kind::Indexed => frame::frame_indexed(sheet, &state, tables, &energies, &mut out),
            Kind::Erased => frame::frame_erased(sheet, &state, &energies, &mut out),
            _ => EnergyAnswer {
                frame: frame::frame(sheet, &state, &mut out),
                energies,
            },
        };
        (state, energies) = (answer.frame.state, answer.energies);
    }
    End {
        state,
        out,
        energies,
    }
}

fn main() -> ExitCode {
    let arguments: Vec<String> = env::args().skip(1).collect();
    let arguments: Vec<&str> = arguments.iter().map(String::as_str).collect();
    let usage = || {
        eprintln!("benchmarks count|time speech|retried|indexed|erased|held FRAMES");
        ExitCode::FAILURE
    };
    let [what @ ("count" | "time"), kind, frames] = arguments[..] else {
        return usage();
    };
    let Some(kind) = Kind::named(kind) else {
        return usage();
    };
    let frames: u64 = frames.parse().unwrap_or(0);
    let mut random = Random::new(74);
    let numbers: Vec<Vec<i16>> = (0..frames).map(|_| drawn(&mut random, kind)).collect();
    let bytes = numbers.iter().map(|sheet| bytes(sheet)).collect();
    let sheets = Sheets {
        kind,
        numbers,
        bytes,
    };

    // Both sides come to the same end, and how many subframes were retried on the way.
    let lent = frames_of_ours(&sheets);
    let end = frames_of_reference(&sheets);
    assert_eq!(words(&lent.frame.state), end.state);
    assert_eq!(words(&lent.frame.out), end.out);
    assert_eq!(words(&lent.energies), end.energies);
    if what == "count" {
        return ExitCode::SUCCESS;
    }
    let mut subframes = 0;
    decoded(&sheets, |lent| subframes += lent.frame.retried());
    println!("{subframes} of {} subframes retried", 4 * frames);
    let (mut ours, mut theirs) = (f64::MAX, f64::MAX);
    for _ in 0..7 {
        let start = Instant::now();
        black_box(frames_of_ours(&sheets));
        ours = ours.min(start.elapsed().as_secs_f64());
        let start = Instant::now();
        black_box(frames_of_reference(&sheets));
        theirs = theirs.min(start.elapsed().as_secs_f64());
    }
    let each = |time: f64| 1e6 * time / frames as f64;
    println!(
        "{:.2} us a frame, reference {:.2} us, ratio {:.3}",
        each(ours),
        each(theirs),
        ours / theirs
    );
    ExitCode::SUCCESS
}
