//! What the recorded answers cover, counted from the files themselves.

use crate::{
    files::{FILES, File, Kind, erased::FRAME_MIXED},
    model::Trace,
    tally::Tally,
};
use std::{
    collections::{BTreeMap, BTreeSet},
    fs,
    path::Path,
};

pub fn run(folder: &Path) -> bool {
    let mut tally = Tally::default();
    for file in &FILES {
        let bytes = fs::read(folder.join(file.name)).unwrap_or_default();
        match file.records(&bytes) {
            Some(records) if !records.is_empty() => count(file, &records, &mut tally),
            _ => tally.line(false, &format!("{}: no whole records", file.name)),
        }
    }
    tally.end()
}

fn count(file: &File, records: &[Vec<i16>], tally: &mut Tally) {
    let name = file.name;
    let split = file.input_words();
    let mut shown: BTreeMap<(&str, i16), usize> = BTreeMap::new();
    let mut agreed = 0;
    for record in records {
        let mut trace = Trace::default();
        let (input, answer) = record.split_at(split);
        if (file.model)(&mut trace, input) == answer {
            agreed += 1;
        }
        for kind in trace.seen {
            *shown.entry(kind).or_default() += 1;
        }
    }
    let all = records.len();
    let text = if file.published {
        format!("{name}: {all} records, the model agrees on {agreed}")
    } else {
        format!("{name}: {all} records, from docs/BENCH.md")
    };
    tally.line(agreed == all, &text);
    for kind in (file.kinds)() {
        match kind {
            Kind::One(kind) => {
                let count = shown.get(&(kind, 0)).copied().unwrap_or(0);
                tally.line(count > 0, &format!("{name}: {kind}: {count}"));
            }
            Kind::Each(kind, numbers) => {
                let counts = numbers.iter().map(|&number| shown.get(&(kind, number)));
                let seen = counts.clone().flatten().count();
                let records: usize = counts.flatten().sum();
                let wanted = numbers.len();
                let text = format!("{name}: {kind}: {seen} of {wanted} numbers, {records} times");
                tally.line(seen == wanted, &text);
            }
        }
    }
    if name.starts_with("frame_") {
        chains(file, records, tally);
    }
    for &fault in file.faults {
        let gives_away = |record: &&Vec<i16>| {
            let (input, answer) = record.split_at(split);
            (file.model)(&mut Trace::faulty(fault), input) != answer
        };
        let count = records.iter().filter(gives_away).count();
        let text = format!("{name}: fault \"{}\" given away by {count}", fault.name());
        tally.line(count > 0, &text);
    }
}

/// The records that go on from the one before, and of mixed calls which kind comes behind which.
fn chains(file: &File, records: &[Vec<i16>], tally: &mut Tally) {
    let name = file.name;
    let chained = records.windows(2).filter(|pair| file.is_chained(pair));
    let count = chained.clone().count();
    tally.line(
        count > 0,
        &format!("{name}: chained to the record before: {count}"),
    );
    if name == FRAME_MIXED.name {
        let kinds: BTreeSet<_> = chained.map(|pair| (pair[0][0], pair[1][0])).collect();
        let count = kinds.len();
        let text = format!("{name}: a kind of call behind each kind: {count} of 9");
        tally.line(count == 9, &text);
    }
}
