//! What the shift report alone shows: totals of several frames, its limit, and how much it reads.

use super::{Programs, bytes_of, compare, negative_input, process::Program, record_of, sheet};
use crate::{
    LSFS, SHEET, ZEROS, at,
    examples::lowered,
    random::Random,
    record::first,
    report,
    sheets::{self, Frame},
    tally::Tally,
    values,
};
use std::{fs, path::Path};

fn zero_record() -> Vec<u8> {
    record_of(&ZEROS)
}

/// LSFs apart, and nothing else.
fn silent() -> Vec<u8> {
    let mut sheet = [0; SHEET];
    for (lsf, number) in sheet[..LSFS].iter_mut().zip(1..) {
        *lsf = 1400 * number;
    }
    bytes_of(&sheet)
}

/// The largest gains and an innovation at full scale: nearly every subframe is retried.
fn loud(random: &mut Random) -> Vec<u8> {
    let mut sheet = sheet(random);
    sheet[at::GAINS..at::INNOVATION].fill(32767);
    for number in &mut sheet[at::INNOVATION..] {
        *number = random.of(&[-32768, 32767]);
    }
    bytes_of(&sheet)
}

fn refused() -> Vec<u8> {
    bytes_of(&[-1; SHEET])
}

/// Sum and number of the peaks of an input.
fn peaks(input: &[u8]) -> (u64, u64) {
    let frames = sheets::frames(input);
    let peaks = frames.iter().map(|frame| u64::from(frame.peak()));
    (peaks.sum(), frames.len() as u64)
}

/// Three frames, the first with all samples negative, with a mean peak two thirds above a whole
/// number: rounded to the nearest it would be another.
fn uneven(random: &mut Random) -> Option<Vec<u8>> {
    let mut drawn = || {
        let mut input = negative_input(random)?;
        input.extend((0..2).flat_map(|_| bytes_of(&lowered(random))));
        Some(input)
    };
    let is_wanted = |input: &Vec<u8>| {
        let (sum, count) = peaks(input);
        sum % count == 2
    };
    (0..1000).filter_map(|_| drawn()).find(is_wanted)
}

fn means(tally: &mut Tally, programs: &Programs, random: &mut Random) {
    let input = uneven(random).unwrap_or_default();
    let (sum, count) = peaks(&input);
    let name = format!("{count} peaks with the sum {sum}");
    let good = count == 3 && sum % count == 2;
    tally.line(good, &format!("{name}: their mean is not whole"));
    compare(tally, programs, &name, &[input]);
}

/// More subframes are retried than frames have one, and the squares leave 32 bits.
fn sums(tally: &mut Tally, programs: &Programs, random: &mut Random) {
    let mut input = zero_record();
    for _ in 0..20 {
        input.extend((0..3).flat_map(|_| loud(random)));
        input.extend((0..3).flat_map(|_| bytes_of(&sheet(random))));
        input.extend(refused());
    }
    let frames = sheets::frames(&input);
    let flags = frames.iter().map(Frame::flags);
    let retried = flags.clone().flatten().filter(|&flag| flag == 1).count();
    let with_one = flags.filter(|flags| flags.contains(&1)).count();
    let samples = frames.iter().flat_map(|frame| frame.samples);
    let squares: i64 = samples.map(|sample| i64::from(sample).pow(2)).sum();
    let name = format!("{retried} subframes retried in {with_one} frames");
    let good = retried > with_one && squares > 1 << 32;
    tally.line(good, &format!("{name}, squares {squares}"));
    compare(tally, programs, &name, &[input]);
}

/// The shift report on inputs that lie in a file.
struct Files<'a> {
    tally: &'a mut Tally,
    report: &'a Program<'a>,
    file: &'a Path,
}

impl Files<'_> {
    /// The reference and the program write this line, and the program reads so many bytes.
    fn told(&mut self, name: &str, input: &[u8], line: &str, read: usize) {
        let same = report::line(input) == line;
        self.tally
            .line(same, &format!("reference: {name}: {line:?}"));
        let (good, text) = match self.report.output_of_file(self.file, input) {
            Ok((text, bytes)) => (
                text == line && bytes == read as u64,
                format!("{text:?}, {bytes} bytes read"),
            ),
            Err(error) => (false, error.to_string()),
        };
        self.tally.line(good, &format!("report: {name}: {text}"));
    }

    fn short(&mut self, loud: &[u8]) {
        let record = zero_record();
        self.told("no input", &[], "state refused 11\n", 0);
        self.told("a record alone", &record, "0 0 0 0 none\n", record.len());
        let listing = values::listing_input();
        let name = "the listing";
        self.told(name, &listing, "0 2 0 0 none\n", listing.len());
        let gaps = values::gap_input();
        let name = "two sheets that keep the gap, and five refused ones";
        self.told(name, &gaps, "2 5 0 0 0\n", gaps.len());
        let mut bad = [&record, loud].concat();
        bad[first::BODY] ^= 1;
        let name = "a refused record before a sheet";
        self.told(name, &bad, "state refused 12\n", record.len());
    }

    /// A sheet beyond the limit is neither counted nor read.
    fn limits(&mut self, loud: &[u8]) {
        const READ: usize = 402 + 65_535 * 364;
        let (record, silent, refused) = (zero_record(), silent(), refused());
        let all = silent.repeat(65_535);
        for (then, last) in [
            ("nothing", &[][..]),
            ("a loud one", loud),
            ("a refused one", &refused),
            ("a byte", &[0]),
        ] {
            let name = format!("65535 silent sheets, then {then}");
            let input = [&record, &all, last].concat();
            self.told(&name, &input, "65535 0 0 0 0\n", READ);
        }
        let name = "65534 silent sheets, then two refused ones";
        let input = [&record[..], &silent.repeat(65_534), &refused, &refused].concat();
        self.told(name, &input, "65534 1 0 0 0\n", READ);
        let name = "65535 refused sheets, then a loud one";
        let input = [&record, &refused.repeat(65_535), loud].concat();
        self.told(name, &input, "0 65535 0 0 none\n", READ);
    }
}

/// `file` is made new, and removed afterwards.
pub fn check(tally: &mut Tally, programs: &Programs, file: &Path) {
    let mut random = Random::new(2);
    means(tally, programs, &mut random);
    sums(tally, programs, &mut random);
    let [_, report] = programs;
    let mut files = Files {
        tally,
        report,
        file,
    };
    let loud = loud(&mut random);
    files.short(&loud);
    files.limits(&loud);
    let _ = fs::remove_file(file);
}
