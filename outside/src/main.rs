//! Holds the proved library and program to the independent reference, on inputs by chance. `--help` tells how.

mod backgrounds;
mod bands;
mod compare;
mod edition_2;
mod faults;
mod halves;
mod input;
mod library;
mod networks;
mod program;
mod seeds;
mod shares;
mod spurs;
mod tally;

use compare::{Compare, Plan};
use std::process::exit;

const USAGE: &str = "usage: outside short|long [--seed N] --run WORDS --caller PROGRAM [--tariff PROGRAM --replay PROGRAM]
Holds the library (through PROGRAM caller) and the programs to the reference. WORDS, which may be empty, run an x86-64 program.
  short    some 30,000 inputs     long    more than 200,000 inputs
outside seeds FOLDER writes inputs of the fuzz target: the replay's list, and networks of edition 2 without faults and with one, by
turns without and with a share file.
Exit status: 0 no difference and no answer or cause too rare; 1 otherwise; 2 it could not be tried.";

fn main() {
    let mut words = std::env::args().skip(1);
    let plan = match words.next().as_deref() {
        Some("short") => Plan::SHORT,
        Some("long") => Plan::LONG,
        Some("seeds") => return write_seeds(&words.next().unwrap_or_else(|| fail(USAGE))),
        Some("--help") => return println!("{USAGE}"),
        _ => fail(USAGE),
    };
    let (mut seed, mut prefix, mut programs) = (None, Vec::new(), [const { Vec::new() }; 3]);
    while let Some(word) = words.next() {
        let value = words.next().unwrap_or_else(|| fail(&format!("{word} needs a value")));
        match word.as_str() {
            "--seed" => seed = Some(value.parse().unwrap_or_else(|_| fail("--seed needs a number"))),
            "--run" => prefix = value.split_whitespace().map(String::from).collect(),
            "--caller" => programs[0] = vec![absolute(&value)],
            "--tariff" => programs[1] = vec![absolute(&value)],
            "--replay" => programs[2] = vec![absolute(&value)],
            _ => fail(USAGE),
        }
    }
    let seed = seed.unwrap_or_else(|| std::time::UNIX_EPOCH.elapsed().map_or(1, |time| time.as_secs()));
    let commands =
        programs.map(|program| if program.is_empty() { program } else { [prefix.clone(), program].concat() });
    if commands[0].is_empty() {
        fail(USAGE);
    }
    let passed =
        Compare::start(plan, seed, commands).and_then(Compare::run).unwrap_or_else(|error| fail(&error.to_string()));
    exit(if passed { 0 } else { 1 });
}

/// A program's whole path: it may run in another folder.
fn absolute(program: &str) -> String {
    let path = std::path::absolute(program).unwrap_or_else(|error| fail(&format!("{program}: {error}")));
    path.into_os_string().into_string().unwrap_or_else(|_| fail("a program's path is not plain text"))
}

fn write_seeds(folder: &str) {
    seeds::write(folder).unwrap_or_else(|error| fail(&format!("cannot write to {folder}: {error}")));
}

fn fail(reason: &str) -> ! {
    eprintln!("outside: {reason}");
    exit(2)
}
