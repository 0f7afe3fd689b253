//! The programs: `tariff` started for each file, and `replay`, which prints what `tariff` prints for many files.

use crate::library::piped;
use reference::program_output_with_share;
use reference::replay::{LONGEST, LONGEST_SHARE};
use std::fs;
use std::io::{ErrorKind, Read, Result, Write};
use std::ops::Range;
use std::path::PathBuf;
use std::process::Command;

/// What a program writes for an input.
fn run(mut command: Command, input: &[u8]) -> Result<Vec<u8>> {
    let mut child = command.spawn()?;
    let mut to = child.stdin.take().expect("piped");
    let mut output = Vec::new();
    std::thread::scope(|scope| {
        // A program that ends early leaves input behind; what it wrote tells.
        scope.spawn(move || to.write_all(input));
        child.stdout.take().expect("piped").read_to_end(&mut output)
    })?;
    child.wait()?;
    Ok(output)
}

/// `tariff` in a folder of its own, where nothing but its share file stands.
pub struct Tariff {
    command: Vec<String>,
    folder: PathBuf,
    /// How many files it was started for.
    pub files: u64,
}

impl Tariff {
    /// A program that is not asked for has no words.
    pub fn start(command: &[String]) -> Result<Tariff> {
        let folder = std::env::temp_dir().join(format!("outside-{}", std::process::id()));
        fs::create_dir_all(&folder)?;
        Ok(Tariff { command: command.to_vec(), folder, files: 0 })
    }

    pub fn is_asked(&self) -> bool {
        !self.command.is_empty()
    }

    /// What it prints for a file with this share file in its folder. One without bytes is not there, or empty, by turns.
    pub fn prints(&mut self, file: &[u8], share: &[u8]) -> Result<Vec<u8>> {
        let name = self.folder.join("share.bin");
        match fs::remove_file(&name) {
            Err(error) if error.kind() != ErrorKind::NotFound => return Err(error),
            _ => (),
        }
        if !share.is_empty() || self.files % 2 == 1 {
            fs::write(&name, share)?;
        }
        self.files += 1;
        let mut command = piped(&self.command);
        command.current_dir(&self.folder);
        run(command, file)
    }
}

impl Drop for Tariff {
    fn drop(&mut self) {
        // A folder that stays behind does no harm.
        let _ = fs::remove_dir_all(&self.folder);
    }
}

/// Files for `replay`: of each case its file and its share file, each a length and its bytes.
#[derive(Default)]
pub struct Archive {
    bytes: Vec<u8>,
    /// Where a case's two files stand.
    cases: Vec<[Range<usize>; 2]>,
}

/// A case of an archive whose output is another than the reference's.
pub struct Differing {
    pub file: Vec<u8>,
    pub share: Vec<u8>,
    pub printed: Vec<u8>,
    pub expected: Vec<u8>,
}

impl Archive {
    /// The longest files that an archive takes, and the most cases that `replay` reads.
    pub fn takes(&self, file: &[u8], share: &[u8]) -> bool {
        file.len() <= LONGEST && share.len() <= LONGEST_SHARE && self.cases.len() < 100_000
    }

    pub fn add(&mut self, file: &[u8], share: &[u8]) {
        let places = [file, share].map(|part| {
            self.bytes.extend((part.len() as u32).to_le_bytes());
            self.bytes.extend(part);
            self.bytes.len() - part.len()..self.bytes.len()
        });
        self.cases.push(places);
    }

    pub fn len(&self) -> usize {
        self.cases.len()
    }

    /// Runs `replay` on all of them: the first case whose output is another than the reference's.
    pub fn differing(&self, command: &[String]) -> Result<Option<Differing>> {
        let output = run(piped(command), &self.bytes)?;
        let mut rest = &output[..];
        for places in &self.cases {
            let [file, share] = places.clone().map(|place| &self.bytes[place]);
            let expected = program_output_with_share(file, share);
            let printed = &rest[..expected.len().min(rest.len())];
            if printed != expected {
                let [file, share, printed] = [file, share, printed].map(<[u8]>::to_vec);
                return Ok(Some(Differing { file, share, printed, expected }));
            }
            rest = &rest[expected.len()..];
        }
        let more = Differing { file: Vec::new(), share: Vec::new(), printed: rest.to_vec(), expected: Vec::new() };
        Ok((!rest.is_empty()).then_some(more))
    }
}
