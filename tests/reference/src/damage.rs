//! Runs `replay` on recorded answers with one word of each record changed: it must say that every
//! record differs, so that no word of an answer goes uncompared.

use crate::{
    files::{FILES, File},
    tally::Tally,
};
use std::{fs, io, path::Path, process::Command};

/// Answers that are not compared: what a refused write would have written.
fn is_compared(file: &File, record: &[i16], word: usize) -> bool {
    let refusal = file.input_words();
    file.name != "record_write.bin" || word <= refusal + 1 || record[refusal] == 0
}

/// The file with answer `round` of each record changed in both its bytes, counted from the first
/// again where there are fewer; and how many of its records then differ.
fn damaged(file: &File, records: &[Vec<i16>], round: usize) -> (Vec<u8>, usize) {
    let first = file.input_words();
    let word = first + round % (file.record_words() - first);
    let mut bytes = Vec::new();
    let mut different = 0;
    for record in records {
        let mut changed = record.clone();
        changed[word] ^= 0x0101;
        different += usize::from(is_compared(file, record, word));
        bytes.extend(changed.iter().flat_map(|number| number.to_le_bytes()));
    }
    (bytes, different)
}

/// What `replay` writes in the folder.
fn output(program: &Path, folder: &Path) -> io::Result<String> {
    let output = Command::new(program).current_dir(folder).output()?;
    Ok(String::from_utf8_lossy(&output.stdout).into_owned())
}

/// As many rounds as the longest answer has words; the folder is for the changed files.
fn rounds(program: &Path, recorded: &Path, folder: &Path) -> io::Result<Vec<usize>> {
    let read = |file: &File| fs::read(recorded.join(file.name));
    let bytes: Vec<Vec<u8>> = FILES.iter().map(read).collect::<io::Result<_>>()?;
    let records: Vec<_> = FILES
        .iter()
        .zip(&bytes)
        .map(|(file, bytes)| file.records(bytes))
        .collect();
    let answer = |file: &File| file.record_words() - file.input_words();
    let mut unseen = vec![0; FILES.len()];
    for round in 0..FILES.iter().map(answer).max().unwrap_or(0) {
        let mut wanted = Vec::new();
        for (file, records) in FILES.iter().zip(&records) {
            let records = records.as_deref().unwrap_or_default();
            let (bytes, different) = damaged(file, records, round);
            fs::write(folder.join(file.name), bytes)?;
            wanted.push(format!(
                "{}: {} records, {different} different",
                file.name,
                records.len()
            ));
        }
        let lines = output(program, folder)?;
        for (count, wanted) in unseen.iter_mut().zip(&wanted) {
            *count += usize::from(!lines.lines().any(|line| line == wanted));
        }
    }
    Ok(unseen)
}

/// `folder` is made new, and removed afterwards.
pub fn check(program: &Path, recorded: &Path, folder: &Path) -> bool {
    let mut tally = Tally::default();
    let unseen = fs::create_dir_all(folder)
        .and_then(|()| program.canonicalize())
        .and_then(|program| rounds(&program, recorded, folder));
    match unseen {
        Ok(unseen) => {
            for (file, unseen) in FILES.iter().zip(unseen) {
                let text = format!(
                    "{}: each word of an answer changed, {unseen} unseen",
                    file.name
                );
                tally.line(unseen == 0, &text);
            }
        }
        Err(error) => tally.line(false, &error.to_string()),
    }
    let _ = fs::remove_dir_all(folder);
    tally.end()
}
