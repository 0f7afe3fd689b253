//! 01 "What stops a case", order: the whole judgement, as a library entry and as the program prints it. 02, CR 1 puts 13
//! between 7 and 8, CR 5 puts 14 behind it and 15 before 11, CR 6 puts 16 behind 14.

use crate::charges::{judge_generation, sheet_with_share, Sheet};
use crate::file::{whole_case, Case, RUNS};
use crate::refusal::Refusal;
use crate::sharing::{judge_share, Share};
use crate::sheet::print;
use crate::solutions::{base_systems, judge_directions, judge_system, length_systems, System};
use crate::tables::{judge_chargeable, sound_tables, Tables};

/// 01 "What stops a case": what an entry with a lent buffer answers.
#[derive(Clone, Copy, Debug, PartialEq, Eq)]
pub enum Answer {
    /// "Acceptance carries the sheet's length".
    Accepted(usize),
    /// "Every refusal carries sheet length 0 and writes nothing".
    Refused(Refusal),
}

/// 01 "What stops a case", 1: a file that isn't whole, or a run of another length.
pub const NOT_WHOLE: Refusal = Refusal { number: 1, system: 0, row: 0 };
/// 01 "What stops a case", 12.
pub const BUFFER_TOO_SHORT: Refusal = Refusal { number: 12, system: 0, row: 0 };

/// 01, the library: judges the file's tables and the lent runs (base, wider, local; 02, CR 5: then peak base and peak
/// wider), "and judges the runs": the solutions inside the file are counted and not looked at. Runs that aren't lent are
/// empty. The sheet's bytes, or the refusal among 1 to 11 and 13 to 15. No share file.
pub fn judge_case<const N: usize>(file: &[u8], runs: [&[i64]; N]) -> Result<Vec<u8>, Refusal> {
    judge_case_with_share(file, runs, &[])
}

/// 02, CR 6: the same with the bytes of `share.bin`, which are empty where there is none; 16 is among the refusals.
pub fn judge_case_with_share<const N: usize>(file: &[u8], runs: [&[i64]; N], share: &[u8]) -> Result<Vec<u8>, Refusal> {
    let case = whole_case(file).ok_or(NOT_WHOLE)?;
    let runs = five_runs(runs);
    if !runs_fit(&case, runs) {
        return Err(NOT_WHOLE);
    }
    let tables = sound_tables(&case)?;
    judge_chargeable(&tables)?;
    judge_generation(&tables)?;
    let share = judge_share(&tables, share)?;
    Ok(print(&judge_runs(&tables, runs, share.as_ref())?))
}

/// 02, CR 5: the lent runs, those that aren't lent empty.
fn five_runs<const N: usize>(lent: [&[i64]; N]) -> [&[i64]; RUNS] {
    assert!(N <= RUNS, "at most five runs are lent");
    std::array::from_fn(|place| lent.get(place).copied().unwrap_or_default())
}

/// 01 "The case file": "A run of another length is refused as 1". 02, CR 5: the peak runs of a case of edition 1 are empty.
fn runs_fit(case: &Case, runs: [&[i64]; RUNS]) -> bool {
    let length = |place: usize| if place < case.edition.runs() { case.rows() } else { 0 };
    runs.iter().enumerate().all(|(place, run)| run.len() == length(place))
}

/// 01 "What stops a case", order: "8, 9, 10 for system 1 (base); 11; 8, 9, 10 for system 2 (wider), then 3 (local)". 02,
/// CR 5: "8 to 10 for systems 1 and 4; 15 ..; 11 ..; 8 to 10 for 2, 5 and 3". 13, 14 and 16 went before.
pub fn judge_runs(tables: &Tables, runs: [&[i64]; RUNS], share: Option<&Share>) -> Result<Sheet, Refusal> {
    let judge = |system: &System| judge_system(tables, system, runs[system.number as usize - 1]);
    base_systems(tables).iter().try_for_each(judge)?;
    let lengths = judge_directions(tables, runs)?;
    length_systems(tables, &lengths).iter().try_for_each(judge)?;
    Ok(sheet_with_share(tables, runs, share))
}

/// 01 "What stops a case", 12 and the last paragraph: the same with a lent buffer. "Every refusal ... writes nothing";
/// after acceptance "bytes behind it are untouched". No share file.
pub fn judge_into<const N: usize>(file: &[u8], runs: [&[i64]; N], buffer: &mut [u8]) -> Answer {
    judge_into_with_share(file, runs, &[], buffer)
}

/// 02, CR 6: the same with the bytes of `share.bin`.
pub fn judge_into_with_share<const N: usize>(
    file: &[u8],
    runs: [&[i64]; N],
    share: &[u8],
    buffer: &mut [u8],
) -> Answer {
    match judge_case_with_share(file, runs, share) {
        Err(refusal) => Answer::Refused(refusal),
        Ok(sheet) if sheet.len() > buffer.len() => Answer::Refused(BUFFER_TOO_SHORT),
        Ok(sheet) => {
            buffer[..sheet.len()].copy_from_slice(&sheet);
            Answer::Accepted(sheet.len())
        }
    }
}

/// 01 "The sheet", the program: one case on standard input, and no share file.
pub fn program_output(input: &[u8]) -> Vec<u8> {
    program_output_with_share(input, &[])
}

/// 01 "The sheet", the program: one case on standard input; "the program copies them out of the file" are the runs. 02, CR 6:
/// with the bytes of `share.bin`, which are empty where there is none.
pub fn program_output_with_share(input: &[u8], share: &[u8]) -> Vec<u8> {
    let answer = match whole_case(input) {
        None => Err(NOT_WHOLE),
        Some(case) => judge_case_with_share(input, case.lent(), share),
    };
    answer.unwrap_or_else(|refusal| format!("{refusal}\n").into_bytes())
}
