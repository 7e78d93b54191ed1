//! The inputs of the recorded files, drawn from their seeds. Where a kind is rare, candidates are
//! drawn and kept only if they show what the kept ones show too seldom.

pub mod erased;
pub mod gains;
pub mod records;

use crate::{
    ERASED_SHEET, FRAME, INDEX_SHEET, LSF_GAP, LSFS, MEMORY, PAST, ROW, SHEET, STATE, SUBFRAME,
    SUBFRAMES, ZEROS, at,
    files::{BROKEN, File, Kind, LAGS, PREVIOUS, SHEET_AREA, from_long},
    model::{Fault, Trace},
    mr74::stages::{self, Decoded},
    part,
    random::Random,
    record::first,
};
use std::collections::BTreeMap;

type Records = Vec<Vec<i16>>;

/// The search takes no account of these, so that the records that it keeps stay the same;
/// `Chosen::complete` puts behind them what they lack.
const UNSOUGHT_KIND: &str = "place";
const UNSOUGHT_FAULTS: [Fault; 9] = [
    Fault::PlaceByLastSteps,
    Fault::PlaceOnFeedback,
    Fault::PastNotHeld,
    Fault::FiveNotHeld,
    Fault::CodeHeld,
    Fault::NewestLeaves,
    Fault::GoodAlwaysHeld,
    Fault::LastGoodHeld,
    Fault::LastLagKept,
];

/// Records of a file, and how often they show each kind and give each fault away.
struct Chosen<'a> {
    file: &'a File,
    wanted: Vec<Kind>,
    records: Records,
    shown: BTreeMap<(&'static str, i16), usize>,
    caught: Vec<usize>,
}

impl<'a> Chosen<'a> {
    fn new(file: &'a File) -> Self {
        Self {
            file,
            wanted: (file.kinds)(),
            records: Vec::new(),
            shown: BTreeMap::new(),
            caught: vec![0; file.faults.len()],
        }
    }

    fn put(&mut self, record: Vec<i16>) {
        let mut trace = Trace::default();
        (self.file.model)(&mut trace, &record);
        for kind in trace.seen {
            *self.shown.entry(kind).or_default() += 1;
        }
        for (index, &fault) in self.file.faults.iter().enumerate() {
            if self.gives_away(fault, &record) {
                self.caught[index] += 1;
            }
        }
        self.records.push(record);
    }

    fn gives_away(&self, fault: Fault, record: &[i16]) -> bool {
        let mut trace = Trace::faulty(fault);
        (self.file.model)(&mut trace, record) != (self.file.answer)(record)
    }

    fn is_wanted(&self, (name, number): (&'static str, i16)) -> bool {
        name != UNSOUGHT_KIND
            && self.wanted.iter().any(|kind| match kind {
                Kind::One(wanted) => *wanted == name,
                Kind::Each(wanted, numbers) => *wanted == name && numbers.contains(&number),
            })
    }

    /// Keeps the record if it shows something wanted that fewer than `enough` records show.
    fn offer(&mut self, record: Vec<i16>, enough: usize) {
        let mut trace = Trace::default();
        (self.file.model)(&mut trace, &record);
        let seldom = |kind| self.shown.get(kind).copied().unwrap_or(0) < enough;
        let shows = trace
            .seen
            .iter()
            .any(|kind| seldom(kind) && self.is_wanted(*kind));
        let catches = || {
            let mut faults = self.file.faults.iter().zip(&self.caught);
            faults.any(|(&fault, &caught)| {
                let sought = caught < enough && !UNSOUGHT_FAULTS.contains(&fault);
                sought && self.gives_away(fault, &record)
            })
        };
        if shows || catches() {
            self.put(record);
        }
    }

    /// Where no record shows it, the first drawn one that does.
    fn complete(
        &mut self,
        mut draw: impl FnMut() -> Vec<i16>,
        shows: impl Fn(&Self, &[i16]) -> bool,
    ) {
        if !self.records.iter().any(|record| shows(self, record)) {
            let record = (0..100_000)
                .map(|_| draw())
                .find(|record| shows(self, record));
            self.put(record.expect("such a record is drawn"));
        }
    }
}

fn numbers<const N: usize>(mut draw: impl FnMut() -> i16) -> [i16; N] {
    std::array::from_fn(|_| draw())
}

/// Numbers within a limit on both sides, the limit drawn too, from silence to full scale.
pub fn level(random: &mut Random) -> i16 {
    random.of(&[0, 1, 3, 30, 300, 3000, 12000, 32767])
}

fn within<const N: usize>(random: &mut Random, limit: i16) -> [i16; N] {
    numbers(|| random.word(-limit, limit))
}

/// Forty samples, or another number, of one of several kinds.
fn signal<const N: usize>(random: &mut Random) -> [i16; N] {
    match random.range(0, 5) {
        0 => numbers(|| random.any()),
        1 => numbers(|| random.edge()),
        2 => numbers(|| random.of(&[-32768, 32767])),
        3 => {
            let mut pulses = [0; N];
            for _ in 0..4 {
                pulses[random.range(0, N as i64 - 1) as usize] = random.any();
            }
            pulses
        }
        _ => {
            let limit = level(random);
            within(random, limit)
        }
    }
}

/// The first LSF that breaks the gap, as docs/BENCH.md, "Refusals", has it: the first is at least 205, and each
/// later one at least 205 above the one before.
pub fn first_close(lsf: &[i16]) -> Option<usize> {
    let close = |place: usize| {
        let before = if place == 0 {
            0
        } else {
            i32::from(lsf[place - 1])
        };
        i32::from(lsf[place]) - before < i32::from(LSF_GAP)
    };
    (0..LSFS).find(|&place| close(place))
}

/// Puts an LSF so far above the one before, 0 before the first, and not below 0.
pub fn put_above(lsf: &mut [i16], place: usize, above: i16) {
    let before = if place == 0 { 0 } else { lsf[place - 1] };
    lsf[place] = before.saturating_add(above).max(0);
}

const SLACK: i16 = 16384 - 10 * LSF_GAP;

/// LSFs 205 apart, with slack on top, which never falls.
fn with_slack(mut slack: [i16; LSFS]) -> [i16; LSFS] {
    slack.sort_unstable();
    std::array::from_fn(|index| LSF_GAP * (index as i16 + 1) + slack[index].clamp(0, SLACK))
}

/// LSFs with their gaps kept.
pub fn kept(random: &mut Random) -> [i16; LSFS] {
    let (low, high) = match random.range(0, 9) {
        0 => (0, 0),
        1 => (SLACK, SLACK),
        2 | 3 => {
            let low = random.word(0, SLACK - 800);
            (low, low + random.word(0, 800))
        }
        _ => (0, SLACK),
    };
    with_slack(numbers(|| random.word(low, high)))
}

/// LSFs as close to one another as the gap lets them: all at the lower end (205, 410, ..), all at
/// the upper end (14539, .. 16384) or one below it, all somewhere between, or some at each.
pub fn closest(random: &mut Random) -> [i16; LSFS] {
    let slacks = [0, SLACK - 1, SLACK, random.word(0, SLACK)];
    if random.once_in(2) {
        with_slack([random.of(&slacks); LSFS])
    } else {
        with_slack(numbers(|| random.of(&slacks)))
    }
}

/// LSFs as speech has them: spread over the band, and each a little off its place.
pub fn spread(random: &mut Random) -> [i16; LSFS] {
    with_slack(std::array::from_fn(|index| {
        1300 * index as i16 + 400 + random.word(-600, 600)
    }))
}

/// LSFs with a gap broken.
pub fn broken(random: &mut Random) -> [i16; LSFS] {
    loop {
        let mut lsf = kept(random);
        match random.range(0, 7) {
            0 => lsf = numbers(|| random.of(&[0, 1, 255, 256, 8192, 16128, 16383, 16384])),
            1 => lsf = [random.word(0, 16384); LSFS],
            2 => lsf.reverse(),
            3 => lsf[0] = random.of(&[0, 1, 204]),
            4 => {
                let place = random.range(1, 9) as usize;
                lsf[place] = lsf[place - 1] + random.of(&[-1, 0, 1, 204]);
            }
            5 => {
                let [first, second] = [0; 2].map(|_| random.range(0, 9) as usize);
                lsf.swap(first, second);
            }
            _ => lsf = numbers(|| random.word(0, 16384)),
        }
        let inside = lsf.iter().all(|frequency| (0..=16384).contains(frequency));
        if inside && first_close(&lsf).is_some() {
            return lsf;
        }
    }
}

fn cosines(lsf: &[i16; LSFS]) -> [i16; LSFS] {
    stages::lsf_to_lsp(lsf).expect("the frequencies are inside 0..=16384")
}

/// LSPs from LSFs that keep or break their gaps, or any numbers.
fn spectrum(random: &mut Random) -> [i16; LSFS] {
    match random.range(0, 5) {
        0 | 1 => cosines(&kept(random)),
        2 => cosines(&broken(random)),
        3 => numbers(|| random.any()),
        4 => numbers(|| random.of(&[-32768, 32767])),
        _ => numbers(|| random.edge()),
    }
}

pub fn lsp(_: &File, random: &mut Random) -> Records {
    let mut frequencies = Vec::new();
    for knot in 0..64 {
        let knot = 256 * knot;
        frequencies.extend([knot, knot + 1, knot + 128, knot + 255]);
    }
    frequencies.extend([16384, 16383, 0, 8191]);
    let mut records: Records = frequencies.chunks_exact(10).map(<[i16]>::to_vec).collect();
    records.extend([0, 16383, 16384].map(|frequency| vec![frequency; LSFS]));
    records.extend((0..120).map(|_| kept(random).to_vec()));
    records.extend((0..40).map(|_| spread(random).to_vec()));
    records.extend((0..160).map(|_| broken(random).to_vec()));
    records
}

pub fn coefficient(_: &File, random: &mut Random) -> Records {
    let mut values = vec![0, 4096, -4096, -4097, i32::MAX, i32::MIN];
    for bit in 10..31 {
        let power = 1 << bit;
        values.extend([power - 1, power, power + 1, 1 - power, -power, -1 - power]);
    }
    // About the first values whose coefficient leaves 16 bits.
    for rounded in [-32769, -32768, -32767, 32766, 32767, 32768, 32769] {
        let value = 8192 * rounded;
        values.extend([
            value - 4097,
            value - 4096,
            value,
            value + 4095,
            value + 4096,
        ]);
    }
    values.extend((0..60).map(|_| random.long()));
    values.extend((0..60).map(|_| random.long() >> random.range(1, 12)));
    values
        .into_iter()
        .map(|value| from_long(value).to_vec())
        .collect()
}

pub fn convert(file: &File, random: &mut Random) -> Records {
    let mut chosen = Chosen::new(file);
    for every in [-32768, 32767, 0, 1, -1] {
        chosen.put(vec![every; LSFS]);
    }
    for _ in 0..30 {
        chosen.put(cosines(&spread(random)).to_vec());
    }
    for _ in 0..200 {
        chosen.put(spectrum(random).to_vec());
    }
    for _ in 0..4000 {
        chosen.offer(spectrum(random).to_vec(), 8);
    }
    chosen.records
}

pub fn interpolate(file: &File, random: &mut Random) -> Records {
    let mut chosen = Chosen::new(file);
    let join = |old: [i16; LSFS], new: [i16; LSFS]| [old, new].concat();
    for (old, new) in [(-32768, 32767), (32767, -32768), (-1, 1), (0, 0)] {
        chosen.put(join([old; LSFS], [new; LSFS]));
    }
    for _ in 0..4 {
        let same = spectrum(random);
        chosen.put(join(same, same));
    }
    for _ in 0..20 {
        chosen.put(join(cosines(&spread(random)), cosines(&spread(random))));
    }
    for _ in 0..60 {
        chosen.put(join(spectrum(random), spectrum(random)));
    }
    chosen.records
}

pub fn lag(_: &File, _: &mut Random) -> Records {
    let mut records: Records = (0..256).map(|index| vec![0, index, 0]).collect();
    for previous in PREVIOUS {
        records.extend((0..32).map(|index| vec![1, index, previous]));
    }
    records
}

pub fn predict(file: &File, random: &mut Random) -> Records {
    let mut chosen = Chosen::new(file);
    let mut lags: Vec<(i16, i16)> = Vec::new();
    for lag in LAGS {
        lags.extend([(lag, -1), (lag, 0), (lag, 1)]);
    }
    lags.push((144, -1));
    let join = |past: [i16; PAST], lag: (i16, i16)| {
        let mut record = past.to_vec();
        record.extend([lag.0, lag.1]);
        record
    };
    for &lag in &lags {
        chosen.put(join(within(random, 12000), lag));
        chosen.put(join(signal(random), lag));
    }
    for _ in 0..600 {
        let lag = random.of(&lags);
        chosen.offer(join(signal(random), lag), 2);
    }
    for _ in 0..8 {
        let index = random.range(0, 255) as u8;
        chosen.put(join(signal(random), stages::from_absolute(index)));
    }
    chosen.records
}

/// Samples whose doubled squares sum to 2147483646, the largest sum that is not started again.
const JUST_BELOW: [i16; 4] = [32767, 255, 22, 5];

fn placed(random: &mut Random, few: &[i16]) -> [i16; SUBFRAME] {
    let mut samples = [0; SUBFRAME];
    let mut place = random.range(0, 5) as usize;
    for &value in few {
        samples[place] = if random.once_in(2) {
            value
        } else {
            value.saturating_neg()
        };
        place += random.range(1, 5) as usize;
    }
    samples
}

pub fn energy(file: &File, random: &mut Random) -> Records {
    let mut chosen = Chosen::new(file);
    chosen.put(vec![0; SUBFRAME]);
    for few in [
        &JUST_BELOW[..],
        &JUST_BELOW[..],
        &[-32768],
        &[32767],
        &[32767, 255, 22, 5, 1],
        &[32767, 256],
        &[1],
        &[2],
        &[1, 1],
        &[1, 2, 1],
        &[2, 2],
        &[1, -1, 1, -1, 1, -1, 1],
        &[1, -1, 1, -1, 1, -1, 1, -1],
        &[3],
        &[-32768, 32767],
    ] {
        chosen.put(placed(random, few).to_vec());
    }
    for every in [-32768, 32767, -8192, 8191, 5180, 5181, 1, -1] {
        chosen.put(vec![every; SUBFRAME]);
    }
    for _ in 0..80 {
        chosen.put(signal::<SUBFRAME>(random).to_vec());
    }
    for _ in 0..500 {
        chosen.offer(signal::<SUBFRAME>(random).to_vec(), 4);
    }
    chosen.records
}

pub fn inverse_sqrt(_: &File, random: &mut Random) -> Records {
    let mut values = vec![
        0,
        -1,
        i32::MIN,
        i32::MIN + 1,
        -32768,
        i32::MAX,
        i32::MAX - 1,
    ];
    for bit in 0..31 {
        let power = 1i32 << bit;
        values.extend([power - 1, power, power.wrapping_add(1)]);
    }
    // Every table interval, at its ends and inside, under several exponents.
    for index in 16..64i32 {
        for bits in [0, 3, 8, 17, 24, 25] {
            let low = index << bits;
            values.push(low);
            values.push(low + ((1 << bits) - 1));
            values.push(low + random.range(0, (1 << bits) - 1) as i32);
        }
    }
    values.extend((0..60).map(|_| random.long() >> random.range(0, 30)));
    values
        .into_iter()
        .map(|value| from_long(value).to_vec())
        .collect()
}

/// Input and output of the two gain stages.
fn pair(random: &mut Random) -> ([i16; SUBFRAME], [i16; SUBFRAME]) {
    let input = signal(random);
    match random.range(0, 3) {
        // The output near the input.
        0 => (
            input,
            input.map(|sample| sample.saturating_add(random.word(-9, 9))),
        ),
        // The output a fraction or a multiple of the input.
        1 => {
            let (times, parts) = (random.range(1, 40), random.range(1, 40));
            let part = |sample: i16| i64::from(sample) * times / parts;
            (
                input,
                input.map(|sample| part(sample).clamp(-32768, 32767) as i16),
            )
        }
        _ => (input, signal(random)),
    }
}

fn edge_pairs(random: &mut Random) -> Vec<([i16; SUBFRAME], [i16; SUBFRAME])> {
    let zero = [0; SUBFRAME];
    let mut pairs = vec![
        (zero, zero),
        (zero, [1; SUBFRAME]),
        (zero, [32767; SUBFRAME]),
        ([32767; SUBFRAME], zero),
        ([-32768; SUBFRAME], [-32768; SUBFRAME]),
        ([-32768; SUBFRAME], [1; SUBFRAME]),
        ([1; SUBFRAME], [-32768; SUBFRAME]),
        ([32767; SUBFRAME], [32767; SUBFRAME]),
    ];
    // Energies below 1 after their shift, and a ratio of 1.
    pairs.push((signal(random), placed(random, &[1, 2, 1])));
    pairs.push((placed(random, &[2, 1]), signal(random)));
    pairs.push((placed(random, &[16384, 16384]), placed(random, &JUST_BELOW)));
    pairs.push((placed(random, &[4096, 4096]), placed(random, &JUST_BELOW)));
    pairs
}

pub fn match_energy(file: &File, random: &mut Random) -> Records {
    let mut chosen = Chosen::new(file);
    for (input, output) in edge_pairs(random) {
        chosen.put([input, output].concat());
    }
    for _ in 0..40 {
        let (input, output) = pair(random);
        chosen.put([input, output].concat());
    }
    for _ in 0..3000 {
        let (input, output) = pair(random);
        chosen.offer([input, output].concat(), 4);
    }
    chosen.records
}

pub fn gain_control(file: &File, random: &mut Random) -> Records {
    let mut chosen = Chosen::new(file);
    let join = |gain: i16, (input, output): ([i16; SUBFRAME], [i16; SUBFRAME])| {
        [&[gain][..], &input, &output].concat()
    };
    for pair in edge_pairs(random) {
        let gain = random.of(&[1, 4096, 32765, 32767]);
        chosen.put(join(gain, pair));
    }
    for _ in 0..40 {
        let gain = match random.range(0, 2) {
            0 => random.of(&[0, 1, 4096, 32765, 32766, 32767]),
            _ => random.word(0, 32767),
        };
        chosen.put(join(gain, pair(random)));
    }
    for _ in 0..3000 {
        let gain = random.of(&[0, 1, 4096, 20000, 32767]);
        chosen.offer(join(gain, pair(random)), 4);
    }
    chosen.records
}

/// Row, history and excitation; after sample 0 the excitation is chosen so that the output stays
/// small, and no later sample is clamped.
fn calmed(row: [i16; ROW], history: [i16; LSFS], first: i16) -> Vec<i16> {
    let mut excitation = [0; SUBFRAME];
    excitation[0] = first;
    for sample in 1..SUBFRAME {
        let output = stages::preview(&row, &history, &excitation).samples;
        let mut sum = 0;
        for tap in 1..ROW {
            let earlier = if tap > sample {
                history[LSFS + sample - tap]
            } else {
                output[sample - tap]
            };
            sum += i64::from(row[tap]) * i64::from(earlier);
        }
        let quiet = sum / i64::from(row[0]);
        excitation[sample] = quiet.clamp(-32768, 32767) as i16;
    }
    [&row[..], &history, &excitation].concat()
}

pub fn synthesis(file: &File, random: &mut Random) -> Records {
    let mut chosen = Chosen::new(file);
    let row = |taps: &[(usize, i16)]| {
        let mut row = [0; ROW];
        for &(tap, value) in taps {
            row[tap] = value;
        }
        row
    };
    let history = |values: &[(usize, i16)]| {
        let mut history = [0; LSFS];
        for &(place, value) in values {
            history[place] = value;
        }
        history
    };
    let all = |first: &[i16]| {
        let mut excitation = [0; SUBFRAME];
        excitation[..first.len()].copy_from_slice(first);
        excitation
    };
    // The two values to hold.
    let short = row(&[(0, 4096), (1, -4096)]);
    chosen.put([&short[..], &[0; LSFS], &all(&[32767])].concat());
    chosen.put([&short[..], &[0; LSFS], &all(&[32767, 1])].concat());
    // Each kind of step alone: the first product, a tap's product, a difference; these come back
    // into range. Then times 8, and below plus 32768.
    for (row, history, first) in [
        (
            row(&[(0, -32768), (10, 32767)]),
            history(&[(0, 32767)]),
            -32768,
        ),
        (
            row(&[(0, 32767), (10, -32768)]),
            history(&[(0, -32768)]),
            32767,
        ),
        (
            row(&[(0, 32767), (9, 32767), (10, 32767)]),
            history(&[(0, 32767), (1, -32767)]),
            32767,
        ),
        (row(&[(0, 8192)]), history(&[]), -32768),
    ] {
        chosen.put(calmed(row, history, first));
    }
    // No overflow at 2047, plus 32768 from 2048 on, times 8 from 4096 on.
    for earlier in [2047, 2048, 3000, 4095, 4096] {
        let row = row(&[(0, 4096), (1, -1)]);
        chosen.put(calmed(row, history(&[(9, earlier)]), 32767));
    }
    // In the first and in the last sample only.
    let alone = row(&[(0, -32768)]);
    chosen.put([&alone[..], &[0; LSFS], &all(&[-32768])].concat());
    let mut last = [0; SUBFRAME];
    last[39] = -32768;
    chosen.put([&alone[..], &[0; LSFS], &last].concat());
    let real = |random: &mut Random, limit: i16| {
        let lsf = if random.once_in(2) {
            kept(random)
        } else {
            spread(random)
        };
        let row = stages::convert(&cosines(&lsf));
        let history: [i16; LSFS] = within(random, limit);
        let excitation: [i16; SUBFRAME] = within(random, limit);
        [&row[..], &history, &excitation].concat()
    };
    for limit in [1, 30, 300, 300, 3000, 3000, 32767] {
        for _ in 0..5 {
            chosen.put(real(random, limit));
        }
    }
    for _ in 0..6000 {
        let mut row: [i16; ROW] = numbers(|| random.of(&[0, 0, 0, 0, 0, -32768, -32767, 32767]));
        row[0] = random.of(&[4096, 32767, -32768, -32767]);
        let history = numbers(|| random.edge());
        chosen.offer(calmed(row, history, random.edge()), 4);
        let limit = random.of(&[300, 3000, 32767]);
        chosen.offer(real(random, limit), 4);
    }
    for _ in 0..20 {
        let row: [i16; ROW] = within(random, 9000);
        let history: [i16; LSFS] = signal(random);
        let excitation: [i16; SUBFRAME] = signal(random);
        chosen.put([&row[..], &history, &excitation].concat());
    }
    chosen.records
}

pub fn postfilter(file: &File, random: &mut Random) -> Records {
    let mut chosen = Chosen::new(file);
    let candidate = |random: &mut Random| {
        let mut memory: [i16; MEMORY] = signal(random);
        memory[MEMORY - 1] = random.word(0, 32767);
        let samples: [i16; FRAME] = signal(random);
        let mut record = [&memory[..], &samples].concat();
        for _ in 0..SUBFRAMES {
            let mut row = stages::convert(&spectrum(random));
            if random.once_in(4) {
                row = within(random, 16000);
                row[0] = 4096;
            }
            record.extend(row);
        }
        record
    };
    let ordinary = |random: &mut Random| {
        let mut memory: [i16; MEMORY] = within(random, 2000);
        memory[MEMORY - 1] = random.word(0, 32767);
        let samples: [i16; FRAME] = within(random, 2000);
        let mut record = [&memory[..], &samples].concat();
        let rows = stages::interpolate(&cosines(&spread(random)), &cosines(&spread(random)));
        record.extend(rows.as_flattened());
        record
    };
    for _ in 0..8 {
        chosen.put(ordinary(random));
    }
    let mut silent = vec![0; MEMORY + FRAME];
    silent[MEMORY - 1] = 4096;
    for _ in 0..SUBFRAMES {
        silent.extend(stages::convert(&cosines(&kept(random))));
    }
    chosen.put(silent);
    for _ in 0..14 {
        let record = candidate(random);
        chosen.put(record);
    }
    for _ in 0..1500 {
        let record = candidate(random);
        chosen.offer(record, 3);
    }
    chosen.records
}

/// How loud a drawn sheet is.
#[derive(Clone, Copy)]
pub enum Loudness {
    Speech,
    Loud,
    Any,
}

fn pitch_gain(random: &mut Random, loudness: Loudness) -> i16 {
    match loudness {
        Loudness::Speech => random.word(577, 17000),
        Loudness::Loud => random.word(4000, 21318),
        Loudness::Any if random.once_in(2) => random.of(&[
            0, 1, 8191, 8192, 8193, 13016, 13017, 13018, 16384, 32766, 32767,
        ]),
        Loudness::Any => random.word(0, 32767),
    }
}

fn code_gain(random: &mut Random, loudness: Loudness) -> i16 {
    match loudness {
        Loudness::Speech => random.word(0, 1500),
        Loudness::Loud => random.word(0, 12000),
        Loudness::Any if random.once_in(2) => random.of(&[0, 1, 2, 16384, 32767]),
        Loudness::Any => random.word(0, 32767),
    }
}

fn innovation(random: &mut Random, loudness: Loudness) -> [i16; SUBFRAME] {
    match loudness {
        Loudness::Any if random.once_in(2) => signal(random),
        _ => {
            // Four pulses, as the codebook places them.
            let mut pulses = [0; SUBFRAME];
            for track in 0..4 {
                let place = 5 * random.range(0, 7) as usize + track;
                pulses[place] = random.of(&[8191, -8192]);
            }
            pulses
        }
    }
}

fn pitch(random: &mut Random) -> [i16; SUBFRAMES] {
    let edges = random.once_in(3);
    std::array::from_fn(|subframe| match (subframe % 2, edges) {
        (0, false) => random.word(0, 255),
        (0, true) => random.of(&[0, 1, 2, 59, 60, 61, 90, 91, 195, 196, 197, 198, 254, 255]),
        (_, false) => random.word(0, 31),
        _ => random.of(&[0, 1, 2, 14, 15, 29, 30, 31]),
    })
}

pub fn sheet(random: &mut Random, lsf: [i16; LSFS], loudness: Loudness) -> Vec<i16> {
    let mut sheet = lsf.to_vec();
    sheet.extend(pitch(random));
    for _ in 0..SUBFRAMES {
        sheet.extend([pitch_gain(random, loudness), code_gain(random, loudness)]);
    }
    for _ in 0..SUBFRAMES {
        sheet.extend(innovation(random, loudness));
    }
    assert_eq!(sheet.len(), SHEET);
    sheet
}

/// A state of these fields of a version 1 record.
fn opened(fields: &[i16; first::FIELDS]) -> Vec<i16> {
    [fields, &ZEROS[first::FIELDS..]].concat()
}

/// An accepted state, its samples within a limit; nothing erased before it, and no gain remembered.
pub fn state(random: &mut Random, limit: i16) -> Vec<i16> {
    let mut state: [i16; first::FIELDS] = if limit == 32767 {
        signal(random)
    } else {
        within(random, limit)
    };
    let spectrum = spectrum(random);
    state[..LSFS].copy_from_slice(&spectrum);
    state[at::SHARPENING] = random.of(&[0, 1, 6000, 13016, 13017]);
    state[at::GAIN] = random.of(&[0, 1, 4096, 32765, 32766, 32767]);
    if random.once_in(2) {
        state[at::SHARPENING] = random.word(0, 13017);
        state[at::GAIN] = random.word(0, 32767);
    }
    opened(&state)
}

/// The extreme numbers of a state: one of them throughout, or edges. Previous LSPs of any kind.
pub fn extreme_state(random: &mut Random) -> Vec<i16> {
    let same = random.of(&[-32768, 32767]);
    let all = random.once_in(2);
    let mut state: [i16; first::FIELDS] = numbers(|| if all { same } else { random.edge() });
    if random.once_in(2) {
        state[..LSFS].copy_from_slice(&spectrum(random));
    }
    state[at::SHARPENING] = random.of(&[0, 13017]);
    state[at::GAIN] = random.of(&[0, 32767]);
    opened(&state)
}

/// What the source's chain gives, with no check before it.
fn decoded(record: &[i16]) -> Decoded {
    stages::decode(&part(record, 0), &part(record, SHEET))
}

/// The state after that.
fn after(record: &[i16]) -> Vec<i16> {
    decoded(record).state.to_vec()
}

/// Two kinds of retry that random frames do not meet.
#[derive(Clone, Copy)]
enum Steer {
    /// The sum leaves 32 bits at a difference and comes back.
    Difference,
    /// The sum leaves them with the last 32768.
    Rounding,
}

/// The excitation of a first subframe, chosen sample by sample so that the filter's output stays
/// inside 16 bits; nothing where it did not, or where the sum never left 32 bits as wanted.
fn steered(row: &[i16; ROW], history: &[i16; LSFS], steer: Steer) -> Option<[i16; SUBFRAME]> {
    const LIMIT: std::ops::RangeInclusive<i64> = -0x8000_0000..=0x7FFF_FFFF;
    let row = row.map(i64::from);
    let mut output = history.map(i64::from).to_vec();
    let mut excitation = [0; SUBFRAME];
    let mut met = false;
    for (sample, excitation) in excitation.iter_mut().enumerate() {
        let now = LSFS + sample;
        let taps: i64 = (1..ROW).map(|tap| row[tap] * output[now - tap]).sum();
        let rest: i64 = (2..ROW).map(|tap| row[tap] * output[now + 1 - tap]).sum();
        // The output that leaves the next sample least to do.
        let wanted = (-rest / if row[1] == 0 { 1 } else { row[1] }).clamp(-32000, 32000);
        let mut chosen = (wanted + (taps >> 12)).clamp(-32768, 32767);
        if sample == 0 && matches!(steer, Steer::Rounding) {
            chosen = 32767;
        }
        let mut sum = 2 * row[0] * chosen;
        for tap in 1..ROW {
            sum -= 2 * row[tap] * output[now - tap];
            if !LIMIT.contains(&sum) {
                met |= matches!(steer, Steer::Difference);
                sum = sum.clamp(*LIMIT.start(), *LIMIT.end());
            }
        }
        if !LIMIT.contains(&(8 * sum)) {
            return None;
        }
        let rounded = 8 * sum + 32768;
        if LIMIT.contains(&rounded) {
            output.push(rounded >> 16);
        } else {
            met |= matches!(steer, Steer::Rounding);
            output.push(32767);
        }
        *excitation = chosen as i16;
    }
    met.then_some(excitation)
}

/// A frame whose first subframe has the given history and excitation: without pitch gain, and with
/// code gain 16384, the excitation is the innovation.
fn planned(
    random: &mut Random,
    lsf: [i16; LSFS],
    old: [i16; LSFS],
    history: [i16; LSFS],
    excitation: [i16; SUBFRAME],
) -> Vec<i16> {
    let mut sheet = sheet(random, lsf, Loudness::Speech);
    sheet[at::PITCH] = random.word(197, 255);
    (sheet[at::GAINS], sheet[at::GAINS + 1]) = (0, 16384);
    sheet[at::INNOVATION..at::INNOVATION + SUBFRAME].copy_from_slice(&excitation);
    let mut state = state(random, 300);
    state[..LSFS].copy_from_slice(&old);
    state[at::HISTORY..at::MEMORY].copy_from_slice(&history);
    [sheet, state].concat()
}

/// Frames that are retried by one kind of step in the first subframe.
fn retried_by_step(
    chosen: &mut Chosen,
    random: &mut Random,
    mut lsf: impl FnMut(&mut Random) -> [i16; LSFS],
) {
    for (steer, most) in [(Steer::Difference, 3), (Steer::Rounding, 3)] {
        let mut found = 0;
        for _ in 0..2_000_000 {
            if found == most {
                break;
            }
            let lsf = lsf(random);
            let (old, history): ([i16; LSFS], [i16; LSFS]) = match steer {
                Steer::Difference => (numbers(|| random.any()), numbers(|| random.any())),
                Steer::Rounding => (cosines(&spread(random)), within(random, 3)),
            };
            let row = stages::interpolate(&old, &cosines(&lsf))[0];
            if let Some(excitation) = steered(&row, &history, steer) {
                chosen.put(planned(random, lsf, old, history, excitation));
                found += 1;
            }
        }
    }
    // A coefficient of -32768 and a sample of -32768 behind it.
    let mut found = 0;
    for _ in 0..200_000 {
        if found == 2 {
            break;
        }
        let lsf = lsf(random);
        let old = numbers(|| random.any());
        let row = stages::interpolate(&old, &cosines(&lsf))[0];
        if let Some(tap) = row.iter().position(|&coefficient| coefficient == -32768) {
            let mut history: [i16; LSFS] = within(random, 300);
            history[LSFS - tap] = -32768;
            let excitation = within(random, 300);
            chosen.put(planned(random, lsf, old, history, excitation));
            found += 1;
        }
    }
}

/// Frames from a state on, each with the state that the one before left.
fn chain(chosen: &mut Chosen, sheets: impl IntoIterator<Item = Vec<i16>>, state: Vec<i16>) {
    let mut state = state;
    for sheet in sheets {
        let record = [sheet, state].concat();
        state = after(&record);
        chosen.put(record);
    }
}

/// How the frames of a file are drawn.
#[derive(Clone, Copy, PartialEq)]
enum Frames {
    Kept,
    /// Gaps kept, LSFs at their closest, extreme states.
    Extreme,
    /// Gaps broken: what a decoder that does not test them would make of such sheets.
    Broken,
}

fn frames(file: &File, random: &mut Random, size: usize, enough: usize, way: Frames) -> Records {
    let mut chosen = Chosen::new(file);
    let lsf = |random: &mut Random, ordinary: bool| match (way, ordinary) {
        (Frames::Kept, true) => spread(random),
        (Frames::Kept, false) | (Frames::Extreme, true) => kept(random),
        (Frames::Extreme, false) => closest(random),
        (Frames::Broken, _) => broken(random),
    };
    // What a good frame hands on and does not use, from numbers of their own: no mark is set.
    let mut fields = Random::new(1000 + file.seed);
    let zero = ZEROS.to_vec();
    let mut silent = vec![0; SHEET];
    silent[..LSFS].copy_from_slice(&lsf(random, true));
    // Silence from the all-zero state, then speech.
    let mut speech = vec![silent.clone()];
    speech.extend((0..size).map(|_| {
        let lsf = lsf(random, true);
        sheet(random, lsf, Loudness::Speech)
    }));
    chain(&mut chosen, speech, zero.clone());
    // From the all-zero state, loud, then silence again.
    let mut loud: Records = (0..size)
        .map(|_| {
            let lsf = lsf(random, false);
            sheet(random, lsf, Loudness::Loud)
        })
        .collect();
    loud.extend([silent.clone(), silent.clone()]);
    chain(&mut chosen, loud, zero.clone());
    // Silence with a smoothed gain to lose.
    let mut quiet = zero;
    quiet[at::GAIN] = 4096;
    chosen.put([silent, quiet].concat());
    // Any accepted sheet and state.
    let mut candidate = |random: &mut Random, loudness: Loudness| {
        let ordinary = random.once_in(2);
        let lsf = lsf(random, ordinary);
        let limit = level(random);
        let sheet = sheet(random, lsf, loudness);
        let mut state = if way == Frames::Extreme && random.once_in(2) {
            extreme_state(random)
        } else {
            state(random, limit)
        };
        erased::put_fields(&mut state, &mut fields);
        state[at::ERASED] = 0;
        [sheet, state].concat()
    };
    for _ in 0..size {
        chosen.put(candidate(random, Loudness::Any));
        let chained = chosen.records.last().expect("a record was put").clone();
        let lsf = lsf(random, false);
        chosen.put([sheet(random, lsf, Loudness::Loud), after(&chained)].concat());
    }
    retried_by_step(&mut chosen, random, |random| lsf(random, false));
    let mut any = || {
        let loudness = random.of(&[Loudness::Speech, Loudness::Loud, Loudness::Any]);
        candidate(random, loudness)
    };
    for _ in 0..4000 {
        chosen.offer(any(), enough);
    }
    let from = if way == Frames::Extreme { 0 } else { 39 };
    for place in from..=39 {
        chosen.complete(&mut any, |_, record| {
            decoded(record).places.contains(&place)
        });
    }
    for fault in UNSOUGHT_FAULTS {
        chosen.complete(&mut any, |chosen, record| chosen.gives_away(fault, record));
    }
    chosen.records
}

pub fn frame_kept(file: &File, random: &mut Random) -> Records {
    frames(file, random, 12, 2, Frames::Kept)
}

pub fn frame_extreme(file: &File, random: &mut Random) -> Records {
    frames(file, random, 5, 1, Frames::Extreme)
}

pub fn frame_broken(file: &File, random: &mut Random) -> Records {
    frames(file, random, 5, 1, Frames::Broken)
}

/// The calls of a kind of sheet that are refused: the order of their refusals, the numbers of their
/// sheet, and where it begins in a record of theirs. The counts of the sheet's numbers and of the
/// output's samples stand first; behind the sheet stand the state, and the tables where there are any.
pub struct Calls {
    pub order: &'static [i16],
    pub numbers: usize,
    pub sheet: usize,
}

pub const FRAME_CALLS: Calls = Calls {
    order: &[1, 5, 2, 6, 3, 4, 16, 17, 18, 19],
    numbers: SHEET,
    sheet: 2,
};

impl Calls {
    fn state(&self) -> usize {
        self.sheet + SHEET_AREA
    }

    /// Every row of the order that the call of a record meets, whatever comes before it.
    pub fn refusals(&self, record: &[i16]) -> Vec<i16> {
        let order = self.order.iter().copied();
        order.filter(|&row| self.meets(record, row)).collect()
    }

    fn meets(&self, record: &[i16], row: i16) -> bool {
        let (sheet, state) = record[self.sheet..].split_at(SHEET_AREA);
        let mut pitch = sheet[at::PITCH..at::GAINS].iter().zip([255, 31, 255, 31]);
        match row {
            1 => record[0] != self.numbers as i16,
            5 => record[1] != FRAME as i16,
            2 => sheet[..LSFS].iter().any(|lsf| !(0..=16384).contains(lsf)),
            6 => first_close(sheet).is_some(),
            3 => pitch.any(|(index, last)| !(0..=last).contains(index)),
            4 => sheet[at::GAINS..at::INNOVATION]
                .iter()
                .any(|gain| *gain < 0),
            7 => !gains::are_tables(record, self.state() + STATE),
            8 => sheet[at::GAINS..at::INDEXED_INNOVATION]
                .iter()
                .any(|index| !(0..=127).contains(index)),
            9 => !(0..=6).contains(&sheet[at::STAGE]),
            16 => !(0..=13017).contains(&state[at::SHARPENING]),
            17 => state[at::GAIN] < 0,
            18 => erased::bad_field(state).is_some(),
            19 => !(19..=144).contains(&state[at::LAST_LAG]),
            _ => unreachable!("no order has such a refusal"),
        }
    }

    /// Makes the call of a record meet one row of the order; `way` picks among the ways.
    fn spoil(&self, record: &mut [i16], row: i16, way: usize) {
        let pick = |values: &[i16]| values[way % values.len()];
        let (sheet, state) = (self.sheet, self.state());
        let whole = self.numbers as i16;
        match row {
            1 => {
                let mut lengths = vec![whole - 1, whole + 1, 0, 1, whole + 2];
                let kinds = [SHEET, INDEX_SHEET, ERASED_SHEET].map(|count| count as i16);
                lengths.extend(kinds.iter().filter(|&&count| count != whole));
                record[0] = pick(&lengths);
                // Nothing lies after the sheet's end.
                let end = sheet + record[0] as usize;
                record[end..state].fill(0);
            }
            5 => record[1] = pick(&[159, 161, 0, 1, 162]),
            2 => {
                record[sheet + way % LSFS] = pick(&[16385, -1, 32767, -32768, 16386, -2, 20000]);
            }
            6 => {
                let above = pick(&[204, 0, -1, 1, 203, -300, 100]);
                put_above(&mut record[sheet..], way % LSFS, above);
            }
            3 => {
                let subframe = way % SUBFRAMES;
                let last = if subframe.is_multiple_of(2) { 255 } else { 31 };
                record[sheet + at::PITCH + subframe] = [last + 1, -1, 32767, -32768, 256][way % 5];
            }
            4 => record[sheet + at::GAINS + way % 8] = pick(&[-1, -32768, -2]),
            7 => gains::spoil_tables(record, state + STATE, way),
            8 => {
                let place = sheet + at::GAINS + way % SUBFRAMES;
                record[place] = pick(&[128, -1, 32767, -32768, 129]);
            }
            9 => record[sheet + at::STAGE] = pick(&[7, -1, 32767, -32768, 8]),
            16 => record[state + at::SHARPENING] = pick(&[13018, -1, 32767, -32768]),
            17 => record[state + at::GAIN] = pick(&[-1, -32768]),
            18 => erased::spoil_field(&mut record[state..], way),
            19 => record[state + at::LAST_LAG] = pick(&[145, 18, 0, -1, 32767, -32768]),
            _ => unreachable!("no order has such a refusal"),
        }
    }

    /// Each row alone, in so many ways; each pair of rows; and two places of a row, of which the first
    /// is named.
    fn spoiled(
        &self,
        ways: &[(i16, usize)],
        twice: &[(i16, [usize; 2])],
    ) -> Vec<Vec<(i16, usize)>> {
        let mut calls = Vec::new();
        for &(row, ways) in ways {
            calls.extend((0..ways).map(|way| vec![(row, way)]));
        }
        for (place, &first) in self.order.iter().enumerate() {
            for (way, &later) in self.order[place + 1..].iter().enumerate() {
                // A sheet cut short would lose what the later row looks at.
                let first_way = if first == 1 { way % 2 } else { way };
                calls.push(vec![(first, first_way), (later, place + way)]);
            }
        }
        for &(row, [first, second]) in twice {
            calls.push(vec![(row, first), (row, second)]);
        }
        calls
    }
}

pub fn refused(_: &File, random: &mut Random) -> Records {
    let mut records = Records::new();
    let whole = |sheet: &[i16], state: &[i16]| {
        let mut record = vec![SHEET as i16, FRAME as i16];
        record.extend(sheet);
        record.resize(2 + SHEET_AREA, 0);
        record.extend(state);
        record
    };
    for spoils in FRAME_CALLS.spoiled(
        &[
            (1, 7),
            (5, 5),
            (2, 10),
            (6, 20),
            (3, 10),
            (4, 8),
            (16, 4),
            (17, 2),
            (18, erased::FIELD_WAYS),
            (19, 6),
        ],
        &[
            (2, [3, 7]),
            (6, [2, 8]),
            (3, [1, 3]),
            (4, [2, 5]),
            (18, [4, 12]),
        ],
    ) {
        let lsf = kept(random);
        let sheet = sheet(random, lsf, Loudness::Speech);
        let mut record = whole(&sheet, &erased::state(random, 3000));
        for (row, way) in spoils {
            FRAME_CALLS.spoil(&mut record, row, way);
        }
        records.push(record);
    }
    // Sheets that break the gap and nothing else, from states of every kind.
    let frames = frame_broken(&BROKEN, &mut Random::new(BROKEN.seed));
    records.extend(frames.iter().map(|frame| {
        let (sheet, state) = frame.split_at(SHEET);
        whole(sheet, state)
    }));
    records
}
