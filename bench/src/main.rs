//! The proved library, two Rust twins of it and a textbook Rust, timed in turn in one run. Started by `./do bench`.
//!
//! The first twin and the textbook are frozen: they know 01 with requests 1 to 4 of 02, and learn no later one. The second twin, of the form that the
//! proved code has since request 5, knows both editions.

mod answer;
mod cases;
mod heap;
mod stack;
mod textbook;
mod timing;
mod twin;
mod twin_2;

use answer::Answer;
use cases::Input;
use std::hint::black_box;
use std::time::Duration;
use timing::{interleaved, Times};
use wirepulley::Solutions;

#[global_allocator]
static HEAP: heap::Counting = heap::Counting;

/// Room for any sheet.
const ROOM: usize = wirepulley::LONGEST_SHEET;

/// Cases of edition 2 by chance, each whole and spoiled.
const CHANCES: u64 = 300;

/// What is timed: its name, the inputs that it knows, and its call.
struct Entry {
    name: &'static str,
    knows: fn(&Input) -> bool,
    write: fn(&Input, &mut [u8]) -> Answer,
}

/// The proved library takes what its client lends it, the frozen ones the three runs that they know.
const ENTRIES: [Entry; 4] = [
    Entry {
        name: "ours",
        knows: |_| true,
        write: |Input { file, runs, share }, out| runs.with(file).with_share(share).answer(out),
    },
    Entry {
        name: "twin",
        knows: |input| !input.second_edition(),
        write: |Input { file, runs, .. }, out| twin::write(file, &runs.base, &runs.wider, &runs.local, out),
    },
    Entry {
        name: "textbook",
        knows: |input| !input.second_edition(),
        write: |Input { file, runs, .. }, out| textbook::write(file, &runs.base, &runs.wider, &runs.local, out),
    },
    Entry {
        name: "twin_2",
        knows: |input| !input.second_edition() || input.share.is_empty(),
        write: |Input { file, runs: Solutions { base, wider, local, peak_base, peak_wider }, .. }, out| {
            twin_2::write(file, twin_2::Runs { base, wider, local, peak_base, peak_wider }, out)
        },
    },
];

impl Entry {
    /// One call, into a buffer that holds any sheet.
    fn call(&self, input: &Input, out: &mut [u8]) -> Answer {
        (self.write)(black_box(input), out)
    }
}

/// Those that know an input.
fn knowing(input: &Input) -> Vec<&'static Entry> {
    ENTRIES.iter().filter(|entry| (entry.knows)(input)).collect()
}

/// All that know a case answer alike and leave the same bytes; what they answer.
fn agreed(input: &Input) -> (Answer, Vec<u8>) {
    let mut answered = knowing(input).into_iter().map(|entry| {
        let mut out = vec![b'.'; ROOM];
        (entry.name, entry.call(input, &mut out), out)
    });
    let (_, answer, out) = answered.next().expect("ours knows every input");
    for (name, other, bytes) in answered {
        assert_eq!(answer, other, "ours and {name}");
        assert!(out == bytes, "the buffers of ours and {name} differ");
    }
    (answer, out)
}

/// All that know an input answer it, with the file's own runs, as the reference does.
fn agree_with_the_reference(input: &Input) {
    let (answer, out) = agreed(input);
    let printed = match answer.number {
        0 => out[..answer.length as usize].to_vec(),
        _ => format!("refused {} {} {}\n", answer.number, answer.system, answer.row).into_bytes(),
    };
    assert_eq!(printed, reference::program_output_with_share(&input.file, &input.share));
}

/// The stored cases of the replay, whole and damaged: who was compared on how many, and why others are left out.
fn agree_on_stored_cases() {
    let stored = reference::replay::cases().into_iter();
    let inputs: Vec<Input> = stored.map(|case| Input { share: case.share, ..Input::read(case.file) }).collect();
    inputs.iter().for_each(agree_with_the_reference);
    println!("agreed with the reference on stored cases, of {}:", inputs.len());
    for entry in &ENTRIES {
        let (known, others): (Vec<&Input>, Vec<&Input>) = inputs.iter().partition(|input| (entry.knows)(input));
        print!("{:<10} {:>5}", entry.name, known.len());
        match (others.len(), others.iter().filter(|input| !input.share.is_empty()).count()) {
            (0, _) => println!(),
            (all, shared) => {
                println!("; left out: {all}, those of edition 2 which it does not know, {shared} with a share file")
            }
        }
    }
}

/// Cases of edition 2 by chance, whole and spoiled.
fn agree_by_chance() {
    for seed in 1..=CHANCES {
        let case = reference::random::random_of_edition_2(seed, 40);
        agree_with_the_reference(&Input::of(&case));
        agree_with_the_reference(&Input::of(&reference::random::spoiled(&case, seed)));
    }
    println!("and ours and twin_2 on {CHANCES} cases of edition 2 by chance, each whole and spoiled");
}

/// Times of those that know a case, in their order. The buffer is not cleared between calls; file and runs stay as they are.
fn timed(input: &Input, long: Duration) -> Vec<(&'static str, Times)> {
    let entries = knowing(input);
    let mut outs = vec![vec![0; ROOM]; entries.len()];
    let mut calls: Vec<_> = entries
        .iter()
        .zip(&mut outs)
        .map(|(entry, out)| {
            move || {
                black_box(entry.call(input, out));
            }
        })
        .collect();
    let mut calls: Vec<&mut dyn FnMut()> = calls.iter_mut().map(|call| call as &mut dyn FnMut()).collect();
    let times = interleaved(&mut calls, long);
    entries.iter().map(|entry| entry.name).zip(times).collect()
}

/// A line of the growth and refusal tables: the least times, and the ratios of ours to the others; `-` for those that do not know the case.
fn line(label: &str, input: &Input) {
    let (answer, _) = agreed(input);
    let times = timed(input, Duration::from_millis(300));
    let least = |name: &str| times.iter().find(|(other, _)| *other == name).map(|(_, times)| times.least);
    let shown = |number: Option<f64>, digits: usize| number.map_or("-".into(), |number| format!("{number:.digits$}"));
    print!("{label:<28} {:>3}", answer.number);
    ENTRIES.iter().for_each(|entry| print!(" {:>9}", shown(least(entry.name), 1)));
    let ours = times[0].1.least;
    ENTRIES[1..].iter().for_each(|entry| print!(" {:>10}", shown(least(entry.name).map(|other| ours / other), 2)));
    println!();
}

fn heading(what: &str) {
    print!("\n{what:<28} no.");
    ENTRIES.iter().for_each(|entry| print!(" {:>9}", entry.name));
    ENTRIES[1..].iter().for_each(|entry| print!(" {:>10}", format!("/ {}", entry.name)));
    println!();
}

/// A largest case, at length.
fn largest(label: &str, input: &Input, seconds: u64) {
    let (answer, _) = agreed(input);
    println!("\n{label}; sheet of {} bytes; microseconds a call\n", answer.length);
    let times = timed(input, Duration::from_secs(seconds));
    println!("{:<10} {:>9} {:>9} {:>12} {:>12}", "", "least", "middle", "least/ours", "middle/ours");
    let ours = times[0].1;
    for (name, t) in &times {
        let (a, b) = (t.least / ours.least, t.middle / ours.middle);
        println!("{name:<10} {:>9.1} {:>9.1} {a:>12.2} {b:>12.2}", t.least, t.middle);
    }
    println!();
    for (name, t) in &times[1..] {
        let goal = if *name == "textbook" { 0.5 } else { 1.0 };
        println!("ours / {name} {:.2} (goal: at most {goal}), by the middle", ours.middle / t.middle);
    }
}

fn memory(input: &Input) {
    println!("\nmemory of one call on this case");
    for entry in knowing(input) {
        let mut out = vec![0; ROOM];
        let asked = heap::asked(|| {
            black_box(entry.call(input, &mut out));
        });
        let stack = stack::used(|| {
            black_box(entry.call(input, &mut out));
        });
        println!("{:<10} {:>7.1} KiB of stack, {asked} allocations", entry.name, stack as f64 / 1024.0);
    }
}

fn growth() {
    heading("nodes, 512 circuits, 512 st.");
    for nodes in [32, 64, 128, 256] {
        line(&nodes.to_string(), &Input::of(&cases::sized(nodes, 512, 512)));
    }
    heading("circuits, 64 nodes, 512 st.");
    for circuits in [64, 128, 256, 512] {
        line(&circuits.to_string(), &Input::of(&cases::sized(64, circuits, 512)));
    }
    heading("stations, 256 nodes, 512 c.");
    for stations in [64, 128, 256, 512] {
        line(&stations.to_string(), &Input::of(&cases::sized(256, 512, stations)));
    }
    heading("walks: 256 nodes, 512 st.");
    for (label, input) in cases::walks() {
        line(label, &input);
    }
    heading("version 2, with factors");
    line("256 nodes, 480 c., 512 st.", &Input::of(&cases::greatest_of_version_2()));
    heading("256 nodes, 320 c., 512 st.");
    line("edition 2", &Input::of(&cases::greatest_of_edition_2()));
    for (label, input) in cases::shared() {
        line(label, &input);
    }
    line("the same tables, edition 1", &Input::of(&cases::greatest_of_edition_2_in_edition_1()));
}

/// Ours alone, a thousand calls for each second, for a profiler.
fn profiled(input: &Input, seconds: u64) {
    let mut out = vec![0; ROOM];
    (0..seconds * 1000).for_each(|_| {
        black_box(ENTRIES[0].call(input, &mut out));
    });
}

fn main() {
    let seconds = std::env::args().nth(1).and_then(|word| word.parse().ok()).unwrap_or(10);
    let first = Input::of(&cases::greatest());
    let second = Input::of(&cases::greatest_of_edition_2());
    // A second word is the edition whose largest case is for a profiler.
    if let Some(edition) = std::env::args().nth(2) {
        return profiled(if edition == "2" { &second } else { &first }, seconds);
    }
    agree_on_stored_cases();
    agree_by_chance();
    largest("largest case: 256 nodes, 512 circuits, 512 stations, 32 + 32 zones", &first, seconds);
    memory(&first);
    largest("largest case of edition 2: 256 nodes, 320 circuits, 512 stations, 32 + 32 zones", &second, seconds);
    memory(&second);
    growth();
    heading("refused: stage");
    for (label, input) in cases::refused() {
        line(label, &input);
    }
    heading("refused, edition 2: stage");
    for (label, input) in cases::refused_of_edition_2() {
        line(label, &input);
    }
}
