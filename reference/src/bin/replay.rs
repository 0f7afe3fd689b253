//! Makes the archive of labelled cases and the text the program prints for them.

use reference::{replay, standard};
use std::process::ExitCode;

const USE: &str = "\
replay make   > archive          the labelled cases: for each a u32 length and its bytes, then the same of its share file
replay expect < archive > text   what the program prints for each case, one after the other
replay list                      one line a case: number, label, first line printed";

fn main() -> ExitCode {
    let words: Vec<String> = std::env::args().skip(1).collect();
    let words: Vec<&str> = words.iter().map(String::as_str).collect();
    let output = match words[..] {
        ["make"] => Ok(replay::archive(&replay::cases())),
        ["expect"] => {
            standard::input().and_then(|archive| replay::expected(&archive).map_err(|fault| fault.to_string()))
        }
        ["list"] => Ok(list().into_bytes()),
        _ => Err(USE.to_string()),
    };
    standard::finish(output)
}

/// One line a case.
fn list() -> String {
    let cases = replay::cases();
    let line =
        |(place, case): (usize, &replay::Labelled)| format!("{} {}: {}\n", place + 1, case.label, case.first_line());
    cases.iter().enumerate().map(line).collect()
}
