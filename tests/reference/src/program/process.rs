//! A program that is run, and the reference's lines for it.

use std::{
    fs::{self, File},
    io::{self, Read, Seek, Write},
    path::Path,
    process::{Command, ExitStatus, Stdio},
    thread,
};

pub struct Program<'a> {
    pub name: &'static str,
    pub path: &'a Path,
    /// By the reference.
    pub lines: fn(&[u8]) -> String,
    /// Of the files that hold its lines of the stored runs.
    pub ending: &'static str,
}

/// What was written, if the program ended well.
fn written(status: ExitStatus, text: Vec<u8>) -> io::Result<String> {
    if status.success() {
        String::from_utf8(text).map_err(io::Error::other)
    } else {
        Err(io::Error::other("the program failed"))
    }
}

impl Program<'_> {
    /// What it writes on an input. A program that ends early leaves the rest unread.
    pub fn output(&self, input: &[u8]) -> io::Result<String> {
        let mut child = Command::new(self.path)
            .stdin(Stdio::piped())
            .stdout(Stdio::piped())
            .spawn()?;
        let mut stdin = child.stdin.take().expect("standard input is piped");
        let mut stdout = child.stdout.take().expect("standard output is piped");
        let mut text = Vec::new();
        thread::scope(|scope| {
            scope.spawn(move || stdin.write_all(input));
            stdout.read_to_end(&mut text)
        })?;
        written(child.wait()?, text)
    }

    /// What it writes on an input that lies in a file, and how many bytes of it were read: the
    /// program's file and this one have one offset.
    pub fn output_of_file(&self, path: &Path, input: &[u8]) -> io::Result<(String, u64)> {
        fs::write(path, input)?;
        let mut file = File::open(path)?;
        let output = Command::new(self.path)
            .stdin(file.try_clone()?)
            .stderr(Stdio::inherit())
            .output()?;
        let text = written(output.status, output.stdout)?;
        Ok((text, file.stream_position()?))
    }

    /// Whether it writes the reference's lines.
    pub fn agrees(&self, input: &[u8]) -> bool {
        self.output(input)
            .is_ok_and(|text| text == (self.lines)(input))
    }
}
