//! Prints the sheet of a case file of either edition, with a share file or without, or why there is none. Exit status: 0 a sheet,
//! 1 a refusal, 2 no answer.

use std::ffi::OsString;
use std::io::Write;
use std::process::ExitCode;
use wirepulley::{Solutions, LONGEST_SHEET};

/// Why there is no answer, on standard error.
fn no_answer(why: &str) -> ExitCode {
    eprintln!("{why}");
    ExitCode::from(2)
}

const USAGE: &str = "usage: sheet FILE [SHARE]
Prints the tariff sheet of a case file, or why there is none. SHARE is a share file, for edition 2.";

/// The bytes of a file, or why there are none.
fn read(name: &OsString) -> Result<Vec<u8>, String> {
    std::fs::read(name).map_err(|error| format!("sheet: cannot read {}: {error}", name.to_string_lossy()))
}

/// The case file and the share file, which is empty where none is named.
fn files() -> Result<(Vec<u8>, Vec<u8>), String> {
    let names: Vec<OsString> = std::env::args_os().skip(1).collect();
    match &names[..] {
        [file] => Ok((read(file)?, Vec::new())),
        [file, share] => Ok((read(file)?, read(share)?)),
        _ => Err(USAGE.to_string()),
    }
}

fn main() -> ExitCode {
    let (file, share) = match files() {
        Ok(files) => files,
        Err(why) => return no_answer(&why),
    };
    let mut sheet = [0; LONGEST_SHEET];
    let (said, status) = match Solutions::of_file(&file).with(&file).with_share(&share).write(&mut sheet) {
        Ok(length) => (sheet.get(..length).unwrap_or_default().to_vec(), ExitCode::SUCCESS),
        Err(refusal) => (format!("{refusal}\n").into_bytes(), ExitCode::from(1)),
    };
    let mut out = std::io::stdout();
    match out.write_all(&said).and_then(|()| out.flush()) {
        Ok(()) => status,
        Err(error) => no_answer(&format!("sheet: cannot write: {error}")),
    }
}
