//! `reference COMMAND`: see USAGE.

use reference::{
    agree, bench, coverage, damage, examples,
    files::{self, FILES, Field, File},
    program, report,
    tally::Tally,
    values,
};
use std::{
    env, fs,
    io::{self, Read, Write},
    path::Path,
    process::ExitCode,
};

const USAGE: &str = "\
reference values         the values to hold of docs/BENCH.md, against the reference
reference write DIR      writes the recorded answers into DIR
reference check DIR      makes them again and compares them with the files in DIR
reference show FILE      prints a recorded file, one record a line
reference coverage DIR   counts what the files in DIR cover
reference replay PROGRAM DIR
                         runs replay on the files of DIR with every word of their answers changed
reference layout         the tables of the files, in Markdown
reference agree FRAMES SEED
                         the second decoder against the reference: FRAMES random accepted frames,
                         index frames and gains, every LSF, lag and argument of the inverse root
reference bench          the bench program's lines for standard input
reference report         the shift report's line for standard input
reference bench BENCH REPORT
                         runs the bench program and the shift report, and compares their lines
                         with these
reference example NAME   the bytes of examples/NAME.bin
reference call SHEETS    the bytes of a record and SHEETS drawn sheets";

fn main() -> ExitCode {
    let arguments: Vec<String> = env::args().skip(1).collect();
    let arguments: Vec<&str> = arguments.iter().map(String::as_str).collect();
    let good = match arguments[..] {
        ["values"] => values::run(),
        ["write", folder] => write(Path::new(folder)),
        ["check", folder] => check(Path::new(folder)),
        ["show", file] => show(Path::new(file)),
        ["coverage", folder] => coverage::run(Path::new(folder)),
        ["replay", program, folder] => damage::check(
            Path::new(program),
            Path::new(folder),
            Path::new("target/damaged"),
        ),
        ["layout"] => {
            print!("{}", files::layout());
            true
        }
        ["agree", frames, seed] => match (frames.parse(), seed.parse()) {
            (Ok(frames), Ok(seed)) => agree::run(frames, seed),
            _ => usage(),
        },
        ["bench"] => told(u64::MAX, bench::lines),
        ["report"] => told(report::BYTES as u64, report::line),
        ["bench", bench, report] => program::check(
            Path::new(bench),
            Path::new(report),
            Path::new("examples"),
            Path::new("target/report-input"),
        ),
        ["example", name] => match examples::input(name) {
            Some(bytes) => put([bytes]),
            None => usage(),
        },
        ["call", sheets] => sheets
            .parse()
            .is_ok_and(|sheets| put(program::call(1, sheets, 1000))),
        _ => usage(),
    };
    if good {
        ExitCode::SUCCESS
    } else {
        ExitCode::FAILURE
    }
}

fn usage() -> bool {
    eprintln!("{USAGE}");
    false
}

fn failed(what: &str, error: io::Error) -> bool {
    eprintln!("reference: {what}: {error}");
    false
}

fn write(folder: &Path) -> bool {
    if let Err(error) = fs::create_dir_all(folder) {
        return failed(&folder.display().to_string(), error);
    }
    for file in &FILES {
        let bytes = file.bytes();
        let records = bytes.len() / (2 * file.record_words());
        if let Err(error) = fs::write(folder.join(file.name), &bytes) {
            return failed(file.name, error);
        }
        println!("{}: {records} records, {} bytes", file.name, bytes.len());
    }
    true
}

fn check(folder: &Path) -> bool {
    let mut tally = Tally::default();
    for file in &FILES {
        let wanted = file.bytes();
        match fs::read(folder.join(file.name)) {
            Ok(found) if found == wanted => {
                let records = wanted.len() / (2 * file.record_words());
                tally.line(true, &format!("{}: {records} records", file.name));
            }
            Ok(found) => {
                let same = wanted
                    .iter()
                    .zip(&found)
                    .take_while(|(a, b)| a == b)
                    .count();
                let record = same / (2 * file.record_words());
                tally.line(
                    false,
                    &format!("{}: differs from record {record} on", file.name),
                );
            }
            Err(error) => tally.line(false, &format!("{}: {error}", file.name)),
        }
    }
    let mut unknown = Vec::new();
    match fs::read_dir(folder) {
        Ok(entries) => {
            for entry in entries.flatten() {
                let name = entry.file_name().to_string_lossy().into_owned();
                if name != "README.md" && files::find(&name).is_none() {
                    unknown.push(name);
                }
            }
        }
        Err(error) => unknown.push(error.to_string()),
    }
    unknown.sort();
    for name in unknown {
        tally.line(
            false,
            &format!("{name}: not a file of the recorded answers"),
        );
    }
    tally.end()
}

fn show(path: &Path) -> bool {
    let name = path.file_name().unwrap_or_default().to_string_lossy();
    let Some(file) = files::find(&name) else {
        eprintln!("reference: {name}: not a file of the recorded answers");
        return false;
    };
    let bytes = match fs::read(path) {
        Ok(bytes) => bytes,
        Err(error) => return failed(&name, error),
    };
    let Some(records) = file.records(&bytes) else {
        eprintln!("reference: {name}: not a whole number of records");
        return false;
    };
    for (number, record) in records.iter().enumerate() {
        println!("{number}: {}", line(file, record));
    }
    true
}

fn line(file: &File, record: &[i16]) -> String {
    let (inputs, answers) = record.split_at(file.input_words());
    let side = |fields: &[Field], mut words: &[i16]| {
        let mut parts = Vec::new();
        for field in fields {
            let (own, rest) = words.split_at(field.words());
            words = rest;
            let numbers: Vec<String> = if field.long {
                own.chunks(2)
                    .map(|pair| files::to_long(pair).to_string())
                    .collect()
            } else {
                own.iter().map(i16::to_string).collect()
            };
            parts.push(format!("{}: {}", field.name, numbers.join(" ")));
        }
        parts.join("; ")
    };
    format!(
        "{} => {}",
        side(file.inputs, inputs),
        side(file.answers, answers)
    )
}

/// Prints a program's lines for standard input, of which it reads so many bytes at most.
fn told(most: u64, lines: fn(&[u8]) -> String) -> bool {
    let mut input = Vec::new();
    if let Err(error) = io::stdin().take(most).read_to_end(&mut input) {
        return failed("standard input", error);
    }
    print!("{}", lines(&input));
    true
}

/// Writes bytes to standard output.
fn put(parts: impl IntoIterator<Item = Vec<u8>>) -> bool {
    let mut out = io::BufWriter::new(io::stdout().lock());
    let written = parts
        .into_iter()
        .try_for_each(|part| out.write_all(&part))
        .and_then(|()| out.flush());
    match written {
        Ok(()) => true,
        Err(error) => failed("standard output", error),
    }
}
