//! Makes, shows, solves and compares case files. Standard input to standard output; faults to standard error.

use reference::file::{whole_case, Case, Edition, Version};
use reference::tables::{sound_tables, Tables};
use reference::{beside, largest, longest, random, random_share, solver, standard, text};
use std::process::ExitCode;

const USE: &str = "\
case make     < text > file   the file a text describes
case show     < file > text   a text that describes a file, damaged ones too
case solve    < text > text   the same text with solutions in place of its own
case solve    < file > file   the same for a file
case version N < file > file  the same case in a file of version 1 or 2
case beside FILE FILE > text  two cases, each a text or a file: what of request 12 holds, directions, distances
case largest         > file   256 nodes, 512 circuits, 512 stations
case largest_2       > file   the largest of version 2: 256 nodes, 480 circuits, 512 stations
case largest_edition_2 > file   the largest of edition 2: 256 nodes, 320 circuits, 512 stations
case longest         > file   the counts of the largest, and a sheet nearly as long as one can be
case longest_edition_2 > file   the same of edition 2
case longest_share   > file   the same with a share file, which `case share longest` makes
case random SEED [MOST_NODES] > file   a case by chance, solved
case random_2 SEED [MOST_NODES] > file   the same in version 2, with factors
case edition_2 SEED [MOST_NODES] > file   the same of edition 2
case spoil SEED < file > file   a whole file with one thing changed by chance
case share make < text > share.bin   the share file a text describes (request 6)
case share show < share.bin > text   a text that describes a share file, damaged ones too
case share random SEED < file > share.bin   a sound share file by chance for a case of edition 2
case share spoil SEED < file > share.bin   the same with a fault that 16 tells
case share longest > share.bin   the share file of `case longest_share`";

fn main() -> ExitCode {
    let words: Vec<String> = std::env::args().skip(1).collect();
    let words: Vec<&str> = words.iter().map(String::as_str).collect();
    let output = match words[..] {
        ["make"] => standard::input().and_then(|text| text::make(&text).map_err(|faults| joined(&faults))),
        ["show"] => standard::input().map(|file| text::show(&file).into_bytes()),
        ["solve"] => standard::input().and_then(|input| solve(&input)),
        ["version", number] => standard::input().and_then(|file| in_version(&file, number)),
        ["beside", first, second] => side_by_side([first, second]),
        ["beside", ..] => Err("beside takes the names of two files".to_string()),
        ["largest"] => Ok(largest::largest().bytes()),
        ["largest_2"] => Ok(largest::largest_of_version_2().bytes()),
        ["largest_edition_2"] => Ok(largest::largest_of_edition_2().bytes()),
        ["longest_edition_2"] => Ok(longest::longest_of_edition_2().bytes()),
        ["longest_share"] => Ok(longest::longest_share().0.bytes()),
        ["longest"] => Ok(longest::longest().bytes()),
        ["random", seed] => by_chance(random::random, seed, "12"),
        ["random", seed, nodes] => by_chance(random::random, seed, nodes),
        ["random_2", seed] => by_chance(random::random_of_version_2, seed, "12"),
        ["random_2", seed, nodes] => by_chance(random::random_of_version_2, seed, nodes),
        ["edition_2", seed] => by_chance(random::random_of_edition_2, seed, "12"),
        ["edition_2", seed, nodes] => by_chance(random::random_of_edition_2, seed, nodes),
        ["spoil", seed] => standard::input().and_then(|file| spoil(&file, seed)),
        ["share", ref words @ ..] => share(words),
        _ => Err(USE.to_string()),
    };
    standard::finish(output)
}

/// Faults of a text, one a line.
fn joined(faults: &[text::TextError]) -> String {
    faults.iter().map(|fault| fault.to_string()).collect::<Vec<_>>().join("\n")
}

/// A whole file solved as a file, anything else as a text, whose other lines stay as they are.
fn solve(input: &[u8]) -> Result<Vec<u8>, String> {
    if let Some(case) = whole_case(input) {
        return Ok(told(&case).bytes());
    }
    let described = text::parse(input).map_err(|faults| joined(&faults))?;
    if described.damage != text::Damage::default() {
        return Err("a text with words of damage isn't solved".to_string());
    }
    let solution = text::solution_lines(&told(&described.case));
    let kept = String::from_utf8_lossy(input);
    let kept: Vec<&str> = kept.lines().filter(|line| !is_solution_row(line)).collect();
    Ok(format!("{}\n{solution}", kept.join("\n").trim_end()).into_bytes())
}

/// A line of a text that gives a solution row.
fn is_solution_row(line: &str) -> bool {
    text::SOLUTIONS.contains(&line.split_whitespace().next().unwrap_or(""))
}

/// A case solved; where its tables are refused, that is said and zeros are given.
fn told(case: &Case) -> Case {
    let (solved, trouble) = solver::solved(case);
    if let Some(reason) = trouble {
        eprintln!("zeros for solutions: {reason}");
    }
    solved
}

/// 02, CR 3: "one case in either version": a whole file of one version as a file of the other.
fn in_version(file: &[u8], word: &str) -> Result<Vec<u8>, String> {
    let version = word.parse().ok().and_then(Version::of).ok_or("a version is 1 or 2")?;
    let case = whole_case(file).ok_or("not a whole file")?;
    Ok(case.in_version(version)?.bytes())
}

/// 02, CR 12: the cases of two files, by their names, side by side.
fn side_by_side(names: [&str; 2]) -> Result<Vec<u8>, String> {
    let case = |name: &str| -> Result<Case, String> {
        let input = std::fs::read(name).map_err(|fault| format!("{name}: {fault}"))?;
        beside::read(&input).map_err(|fault| format!("{name}: {fault}"))
    };
    Ok(beside::laid_out(&beside::beside(&case(names[0])?, &case(names[1])?), names).into_bytes())
}

/// A case by chance.
fn by_chance(case: fn(u64, u64) -> Case, seed: &str, nodes: &str) -> Result<Vec<u8>, String> {
    Ok(case(number(seed)?, number(nodes)?).bytes())
}

/// A whole file with one thing changed by chance.
fn spoil(file: &[u8], seed: &str) -> Result<Vec<u8>, String> {
    let case = whole_case(file).ok_or("not a whole file")?;
    Ok(random::spoiled(&case, number(seed)?).bytes())
}

/// 02, CR 6: share files, by the words behind `share`.
fn share(words: &[&str]) -> Result<Vec<u8>, String> {
    match words {
        ["make"] => standard::input().and_then(|text| text::share::make(&text).map_err(|faults| joined(&faults))),
        ["show"] => standard::input().map(|file| text::share::show(&file).into_bytes()),
        ["random", seed] => Ok(random_share::sound(&tables_to_share(&standard::input()?)?, number(seed)?).bytes()),
        ["spoil", seed] => Ok(random_share::spoiled(&tables_to_share(&standard::input()?)?, number(seed)?).bytes),
        ["longest"] => Ok(longest::longest_share().1.bytes()),
        _ => Err(USE.to_string()),
    }
}

/// 02, CR 6: the tables of a case that a share file says something to.
fn tables_to_share(file: &[u8]) -> Result<Tables, String> {
    let case = whole_case(file).ok_or("not a whole file")?;
    match case.edition {
        Edition::One => Err("a case of edition 1: a share file changes nothing there".to_string()),
        Edition::Two => sound_tables(&case).map_err(|refusal| refusal.to_string()),
    }
}

/// A number among the arguments.
fn number(word: &str) -> Result<u64, String> {
    word.parse().map_err(|_| format!("{word} isn't a number"))
}
