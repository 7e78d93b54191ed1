mod erased;

use crate::{
    FRAME, INDEX_SHEET, LSF_GAP, LSFS, NOWHERE, ROW, SHEET, STATE, SUBFRAME, SUBFRAMES, ZEROS, at,
    draw,
    files::{self, FILES},
    frame::{frame, frame_indexed},
    gain::{self, OPENING, TABLE},
    indexed::source::{self, Source},
    lent::{self, tables},
    model::{
        Trace,
        gains::{self, Steps},
    },
    mr74::stages,
    part,
    random::Random,
    record::{self, first},
    report,
    sheets::Frame,
    values,
};
use std::{collections::BTreeSet, fs, path::PathBuf};

/// A file of the recorded answers.
fn recorded(name: &str) -> PathBuf {
    [env!("CARGO_MANIFEST_DIR"), "../../crates/replay/data", name]
        .iter()
        .collect()
}

#[test]
fn values_hold() {
    assert!(values::run());
}

#[test]
fn readme_has_every_layout() {
    let readme = fs::read_to_string(recorded("README.md")).expect("they have a README.md");
    assert!(readme.contains(files::layout().trim_end()));
}

#[test]
fn answers_come_from_the_reference() {
    for file in &FILES {
        let bytes = fs::read(recorded(file.name)).expect("the file was written");
        for record in file.records(&bytes).expect("whole records") {
            let (input, answer) = record.split_at(file.input_words());
            assert_eq!((file.answer)(input), answer, "{}", file.name);
        }
    }
}

/// The recurrence of docs/BENCH.md: 23 whole numbers a sample, none clamped. The samples before the first at
/// which one of them leaves 32 bits, all forty where none does: their number is the place.
fn whole(row: &[i16; ROW], history: &[i16; LSFS], x: &[i16; SUBFRAME]) -> Vec<i16> {
    let mut y = history.to_vec();
    for n in 0..SUBFRAME {
        let mut steps = vec![2 * i64::from(row[0]) * i64::from(x[n])];
        let mut sum = steps[0];
        for k in 1..ROW {
            let product = 2 * i64::from(row[k]) * i64::from(y[LSFS + n - k]);
            sum -= product;
            steps.extend([product, sum]);
        }
        steps.extend([8 * sum, 8 * sum + 32768]);
        assert_eq!(steps.len(), 23);
        if steps.iter().any(|&step| i32::try_from(step).is_err()) {
            break;
        }
        y.push(((8 * sum + 32768) >> 16) as i16);
    }
    y.split_off(LSFS)
}

/// A row, a history and an excitation. Half of them are silent up to a drawn sample, so that every
/// place is met.
fn pass(random: &mut Random) -> ([i16; ROW], [i16; LSFS], [i16; SUBFRAME]) {
    let mut row = match random.range(0, 2) {
        0 => stages::convert(&draw::kept(random).map(stages::lsp)),
        1 => std::array::from_fn(|_| random.word(-9000, 9000)),
        _ => std::array::from_fn(|_| random.of(&[0, 0, 0, 0, -32768, -32767, 32767])),
    };
    if random.once_in(2) {
        row[0] = 4096;
    }
    let limit = draw::level(random);
    let mut history = std::array::from_fn(|_| random.word(-limit, limit));
    let mut excitation = std::array::from_fn(|_| random.word(-limit, limit));
    if random.once_in(2) {
        history = [0; LSFS];
        excitation[..random.range(1, 39) as usize].fill(0);
    }
    (row, history, excitation)
}

#[test]
fn places_follow_the_recurrence() {
    let file = files::find("synthesis.bin").expect("the file is listed");
    let bytes = fs::read(recorded(file.name)).expect("the file was written");
    for record in file.records(&bytes).expect("whole records") {
        let excitation = part(&record, ROW + LSFS);
        let samples = whole(&part(&record, 0), &part(&record, ROW), &excitation);
        let answer = &record[file.input_words()..];
        assert_eq!(usize::from(answer[SUBFRAME] as u16), samples.len());
        assert_eq!(answer[..samples.len()], samples);
    }
    let mut random = Random::new(75);
    let mut met = BTreeSet::new();
    for _ in 0..20_000 {
        let (row, history, excitation) = pass(&mut random);
        let samples = whole(&row, &history, &excitation);
        let preview = stages::preview(&row, &history, &excitation);
        assert_eq!(usize::from(preview.place as u16), samples.len());
        assert_eq!(preview.samples[..samples.len()], samples);
        met.insert(preview.place);
    }
    assert!(met.into_iter().eq(0..=40));
}

/// An accepted state, most of its numbers this one.
fn state_of(number: i16) -> [i16; STATE] {
    let mut state = [number; STATE];
    (state[at::LAST_LAG], state[at::ERASED]) = (40, 1);
    state
}

#[test]
fn refused_calls_change_nothing() {
    let mut state = state_of(7);
    let mut out = [5; FRAME];
    let mut sheet = [0; SHEET];
    for (lsf, number) in sheet[..LSFS].iter_mut().zip(1..) {
        *lsf = LSF_GAP * number;
    }
    sheet[at::GAINS + 3] = -1;
    let answer = frame(&sheet, &state, &mut out);
    assert_eq!((answer.refusal, answer.place), (4, 3));
    assert_eq!(answer.state, state);
    assert_eq!(answer.places, [40; SUBFRAMES]);
    assert_eq!(answer.rows, [[0; ROW]; SUBFRAMES]);
    assert_eq!(out, [5; FRAME]);
    assert_eq!(frame(&sheet[1..], &state, &mut out[1..]).refusal, 1);
    assert_eq!(frame(&sheet, &state, &mut out[1..]).refusal, 5);
    sheet[at::GAINS + 3] = 0;
    state[at::LAST_LAG] = 18;
    let answer = frame(&sheet, &state, &mut out);
    assert_eq!((answer.refusal, answer.place), (19, 197));
    state[at::ERASED] = 2;
    let answer = frame(&sheet, &state, &mut out);
    assert_eq!((answer.refusal, answer.place), (18, 212));
    state[at::SHARPENING] = 13018;
    assert_eq!(frame(&sheet, &state, &mut out).refusal, 16);
    assert_eq!(out, [5; FRAME]);
}

/// The first LSF that the source's gap rule moves is the first that breaks the gap of refusal 6, and
/// the rule leaves LSFs that keep it.
#[test]
fn gap_rule_is_the_sources() {
    let mut random = Random::new(76);
    let mut met = BTreeSet::new();
    for _ in 0..20_000 {
        let broken = draw::broken(&mut random);
        let place = draw::first_close(&broken);
        assert_eq!(stages::first_moved(&broken), place, "{broken:?}");
        met.insert(place);
        for draw in [draw::kept, draw::closest, draw::spread] {
            let lsf = draw(&mut random);
            assert_eq!(stages::first_moved(&lsf), None, "{lsf:?}");
            assert_eq!(draw::first_close(&lsf), None, "{lsf:?}");
        }
    }
    assert!(met.into_iter().eq((0..LSFS).map(Some)));
}

#[test]
fn records_come_back() {
    let mut state: [i16; STATE] = std::array::from_fn(|field| 66 * field as i16);
    (state[at::LAST_LAG], state[at::ERASED]) = (144, 1);
    let mut bytes = vec![9; 3 + record::RECORD];
    assert_eq!(record::write(&state, &mut bytes[3..]), (0, 0));
    let read = record::read(&bytes);
    assert_eq!((read.refusal, read.state), (0, state));
    assert_eq!(read.note, [9; 3]);
    assert_eq!(record::read(&bytes[..record::RECORD]).refusal, 12);
    // With the trailer of version 1 its last 197 numbers are the body.
    let end = bytes.len() - 8;
    bytes[end..].copy_from_slice(&first::TRAILER);
    let read = record::read(&bytes);
    assert_eq!((read.refusal, read.note.len()), (0, 3 + 32));
    assert_eq!(read.state[..first::FIELDS], state[16..]);
}

/// A record of version 1 is read, and written again as one of version 2.
#[test]
fn first_version_is_read() {
    let mut bytes = vec![7; 5];
    let numbers = (0..197).map(|field: i16| 66 * field);
    bytes.extend(numbers.clone().flat_map(i16::to_le_bytes));
    bytes.extend(first::TRAILER);
    let read = record::read(&bytes);
    assert_eq!((read.refusal, read.note), (0, &[7; 5][..]));
    let later = std::iter::once(40).chain([0; 15]);
    assert!(read.state.into_iter().eq(numbers.chain(later)));
    let mut written = [0; record::RECORD];
    assert_eq!(record::write(&read.state, &mut written), (0, 0));
    assert_eq!(record::read(&written).state, read.state);
    // A body of version 1 is too short for version 2.
    let end = bytes.len() - 8;
    bytes[end..].copy_from_slice(&record::TRAILER);
    assert_eq!(record::read(&bytes).refusal, 15);
}

/// A sheet of the codebook's innovation and the gain decoder's gains is decoded as the published
/// decoder decodes the indices.
#[test]
fn sheets_stand_for_indices() {
    let mut random = Random::new(74);
    let mut state = ZEROS;
    let mut source = Source::new(&state);
    for _ in 0..500 {
        let lsf = draw::kept(&mut random);
        let indices = source::indices(&mut random);
        let sheet = source.sheet(&lsf, &indices);
        let mut out = [0; FRAME];
        let answer = frame(&sheet, &state, &mut out);
        let wanted = source.decode(&sheet, &indices);
        assert_eq!(answer.refusal, 0);
        assert_eq!(out, wanted.samples);
        assert_eq!(answer.places, wanted.places);
        assert_eq!(answer.rows, wanted.rows);
        assert_eq!(answer.state, wanted.state);
        state = answer.state;
    }
}

/// The steps of a code gain, each with its least and its greatest number; no step may clamp but the
/// sum of squares, the four sums and the left shift.
fn ranges(steps: &Steps) -> Vec<(&'static str, i64, i64, i64)> {
    let [a, b, c] = steps.scaled;
    let [gain, by_factor, scaled] = steps.predicted;
    let power = &steps.power;
    let mut ranges = vec![
        ("squares", steps.squares, 0, 2147483647),
        ("Mpy_32_16", a, -1528920, 0),
        ("with the mean energy", b, 556712, 2085632),
        ("times 1024", c, 570073088, 2135687168),
        ("last sum", steps.sums[3], -390881280, 2147483647),
        ("predicted gain", gain, -5965, 32767),
        ("times 5439", by_factor, -64887270, 356439426),
        (">> 8", scaled, -253466, 1392341),
        ("exponent", steps.exponent, -4, 21),
        ("fraction", steps.fraction, 0, 32766),
        ("power's index", power.between.index, 0, 31),
        ("power's fraction", power.between.fraction, 0, 32736),
        ("power between", power.between.value, 0, 2147418112),
        ("power", power.value, 0, 32767),
        ("correction by power", steps.product, 0, 2147155976),
        ("shift", steps.shift, -11, 14),
        ("shifted", steps.shifted, 0, 2147483647),
        ("code gain", steps.code, 0, 32767),
    ];
    ranges.extend(steps.sums.map(|sum| ("sum", sum, -390881280, 2147483647)));
    if let Some(log) = &steps.log {
        ranges.extend([
            ("norm", log.norm, 0, 29),
            ("logarithm's index", log.between.index, 0, 31),
            ("logarithm's fraction", log.between.fraction, 0, 32767),
            ("logarithm between", log.between.value, 0, 2147418112),
            ("exponent of the logarithm", log.exponent, 1, 30),
            ("fraction of the logarithm", log.fraction, 0, 32767),
        ]);
    }
    ranges
}

/// By the standard's tables and the opening energies an index sheet is decoded as the published
/// decoder decodes the indices, and as the sheet of the gains that they come to.
#[test]
fn index_sheets_stand_for_indices() {
    let mut random = Random::new(77);
    let tables = tables::standard();
    let (mut state, mut energies) = (ZEROS, OPENING);
    let mut source = Source::new(&state);
    for _ in 0..500 {
        let lsf = draw::kept(&mut random);
        let indices = source::indices(&mut random);
        let sheet = source.sheet(&lsf, &indices);
        let mut index_sheet = [0; INDEX_SHEET];
        index_sheet[..at::GAINS].copy_from_slice(&sheet[..at::GAINS]);
        for (number, subframe) in index_sheet[at::GAINS..].iter_mut().zip(indices.subframes()) {
            *number = subframe.gain_index as i16;
        }
        index_sheet[at::INDEXED_INNOVATION..].copy_from_slice(&sheet[at::INNOVATION..]);
        let gains = lent::stages::frame_gains(&index_sheet, &state, &tables, &energies);
        assert_eq!(gains.as_flattened(), &sheet[at::GAINS..at::INNOVATION]);
        let mut out = [0; FRAME];
        let lent = (&tables).into();
        let answer = frame_indexed(&index_sheet, &state, lent, &energies, &mut out);
        let wanted = source.decode(&sheet, &indices);
        assert_eq!(answer.frame.refusal, 0);
        assert_eq!(out, wanted.samples);
        assert_eq!(answer.frame, frame(&sheet, &state, &mut out));
        assert_eq!(out, wanted.samples);
        (state, energies) = (answer.frame.state, answer.energies);
    }
}

/// Table, innovation and energies of any kind: the second decoder's steps lie where docs/BENCH.md has
/// them, and its gains are the source's.
#[test]
fn gain_steps_keep_their_ranges() {
    let mut random = Random::new(78);
    let mut trace = Trace::default();
    for _ in 0..20_000 {
        let index = random.word(0, 127);
        let innovation = draw::gains::sharpened(&mut random);
        let tables = draw::gains::tables(&mut random);
        let energies = draw::gains::energies(&mut random);
        let correction = i64::from(gains::rows()[index as usize][1]);
        let steps = gains::steps(&mut trace, correction, &innovation, &tables, &energies);
        for (name, number, low, high) in ranges(&steps) {
            assert!((low..=high).contains(&number), "{name} {number}: {steps:?}");
        }
        assert!(steps.squares % 2 == 0 || steps.squares == 2147483647);
        let (gains, _) = gains::gains(&mut trace, index, &innovation, &tables, &energies);
        let wanted = gain::decode(index, &innovation, (&tables).into(), &energies);
        assert_eq!(gains, [wanted.pitch, wanted.code], "{steps:?}");
    }
}

#[test]
fn refused_index_calls_change_nothing() {
    let mut state = state_of(7);
    let mut out = [5; FRAME];
    let mut sheet = [0; INDEX_SHEET];
    for (lsf, number) in sheet[..LSFS].iter_mut().zip(1..) {
        *lsf = LSF_GAP * number;
    }
    let mut pair = tables::standard();
    let energies = [1, 2, 3, 4];
    let mut refused = |sheet: &[i16], state: &[i16; STATE], pair: &tables::Pair, room: usize| {
        let out = &mut out[..room];
        let answer = frame_indexed(sheet, state, pair.into(), &energies, out);
        assert!(out.iter().all(|&sample| sample == 5));
        assert_eq!(answer.energies, energies);
        assert_eq!(answer.frame.state, *state);
        assert_eq!(answer.frame.places, [40; SUBFRAMES]);
        assert_eq!(answer.frame.rows, [[0; ROW]; SUBFRAMES]);
        (answer.frame.refusal, answer.frame.place)
    };
    state[at::GAIN] = -1;
    assert_eq!(refused(&sheet, &state, &pair, FRAME), (17, 0));
    state[at::SHARPENING] = 13018;
    assert_eq!(refused(&sheet, &state, &pair, FRAME), (16, 0));
    sheet[at::GAINS + 3] = 128;
    assert_eq!(refused(&sheet, &state, &pair, FRAME), (8, 3));
    pair[1][32] = pair[1][31] - 1;
    assert_eq!(refused(&sheet, &state, &pair, FRAME), (7, 1));
    pair[0] = [0; TABLE];
    assert_eq!(refused(&sheet, &state, &pair, FRAME), (7, 1));
    pair[0][0] = -1;
    assert_eq!(refused(&sheet, &state, &pair, FRAME), (7, 0));
    sheet[at::PITCH + 1] = 32;
    assert_eq!(refused(&sheet, &state, &pair, FRAME), (3, 1));
    sheet[1] = 409;
    assert_eq!(refused(&sheet, &state, &pair, FRAME), (6, 1));
    sheet[9] = -1;
    assert_eq!(refused(&sheet, &state, &pair, FRAME), (2, 9));
    assert_eq!(refused(&sheet, &state, &pair, FRAME - 1), (5, 0));
    assert_eq!(refused(&sheet[1..], &state, &pair, FRAME - 1), (1, 0));
    assert_eq!(refused(&[0; SHEET], &state, &pair, FRAME), (1, 0));
    let decoded = gain::decode(128, &[0; SUBFRAME], (&pair).into(), &energies);
    assert_eq!((decoded.refusal, decoded.place), (7, 0));
    let standard = tables::standard();
    let decoded = gain::decode(-1, &[0; SUBFRAME], (&standard).into(), &energies);
    assert_eq!((decoded.refusal, decoded.place), (8, 0));
    assert_eq!((decoded.pitch, decoded.code), (0, 0));
    assert_eq!(decoded.energies, energies);
}

#[test]
fn peaks_are_distances() {
    for (sample, peak) in [
        (-32768, 32768),
        (-32760, 32760),
        (-1, 1),
        (0, 0),
        (32759, 32759),
        (32767, 32767),
    ] {
        let mut samples = [0; FRAME];
        samples[FRAME - 1] = sample;
        let places = [NOWHERE; SUBFRAMES];
        assert_eq!(Frame { places, samples }.peak(), peak, "{sample}");
    }
}

#[test]
fn means_are_rounded_down() {
    for (peaks, mean) in [
        (&[90, 7][..], Some(48)),
        (&[1], Some(1)),
        (&[1, 1, 0], Some(0)),
        (&[2, 4], Some(3)),
        (&[32768, 32767], Some(32767)),
        (&[32768; 3], Some(32768)),
        (&[], None),
    ] {
        assert_eq!(report::mean(peaks), mean, "{peaks:?}");
    }
}
