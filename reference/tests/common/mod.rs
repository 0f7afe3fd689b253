//! What the tests share: cases read from the folder of texts, small networks, and short ways to ask.
#![allow(dead_code, unused_imports)]

use reference::file::{Case, Settings};
use reference::replay::Labelled;
use reference::{judge_case, program_output, program_output_with_share};

pub use reference::replay::bases::{
    balanced, both_ways, circuit, kiln, kiln_with_a_spur, mirrored, name, named_case, node, pair, station,
};

/// The bytes of a file in the folder of texts.
pub fn folder_file(name: &str) -> Vec<u8> {
    let path = concat!(env!("CARGO_MANIFEST_DIR"), "/../cases/");
    std::fs::read(format!("{path}{name}")).unwrap_or_else(|fault| panic!("{name}: {fault}"))
}

/// What the program prints for a case, without its last line feed.
pub fn printed(case: &Case) -> String {
    printed_bytes(&case.bytes())
}

/// What the program prints for the bytes of a file, without its last line feed. The library says the same.
pub fn printed_bytes(file: &[u8]) -> String {
    let output = String::from_utf8(program_output(file)).unwrap();
    output.strip_suffix('\n').expect("lines end with a line feed").to_string()
}

/// 02, CR 6: what the program prints for a case and a share file, without its last line feed.
pub fn printed_with_share(case: &Case, share: &[u8]) -> String {
    let output = String::from_utf8(program_output_with_share(&case.bytes(), share)).unwrap();
    output.strip_suffix('\n').expect("lines end with a line feed").to_string()
}

/// The sheet of a case of the replay's list.
pub fn sheet_of(list: &[Labelled], label: &str) -> String {
    let case = list.iter().find(|case| case.label == label).unwrap_or_else(|| panic!("no case {label}"));
    case.output()
}

/// A changed case is refused so.
pub fn refused(case: &Case, change: impl Fn(&mut Case), answer: (u32, u32, u32)) {
    let mut changed = case.clone();
    change(&mut changed);
    let (number, system, row) = answer;
    assert_eq!(printed(&changed), format!("refused {number} {system} {row}"));
}

/// A changed case is accepted.
pub fn accepted(case: &Case, change: impl Fn(&mut Case)) -> String {
    let mut changed = case.clone();
    change(&mut changed);
    let output = printed(&changed);
    assert!(output.starts_with("C "), "{output}");
    output
}

/// The library's answer on a case's own runs.
pub fn judged(case: &Case) -> Result<Vec<u8>, reference::Refusal> {
    judge_case(&case.bytes(), case.lent())
}

/// Settings of KILN's kind.
pub fn settings() -> Settings {
    kiln().settings
}
