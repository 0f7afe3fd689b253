//! The reference as C calls it: the entry with a lent buffer, and the solver and share files for the mutator.

use reference::file::{whole_case, Case, Edition, Version, RUNS};
use reference::random_share::{sound, spoiled};
use reference::solver::solved;
use reference::tables::sound_tables;
use reference::{judge_case_with_share, judge_into_with_share, Answer};
use std::slice::{from_raw_parts, from_raw_parts_mut};

/// What `wirepulley_write_shared` has to answer and to leave in the buffer, and the other forms where what they are not lent is empty.
///
/// # Safety
/// Each pointer leads to as many elements as its count says, four for `answer`.
#[no_mangle]
pub unsafe extern "C" fn reference_write(
    file: *const u8,
    file_len: usize,
    runs: *const *const i64,
    run_lens: *const usize,
    share: *const u8,
    share_len: usize,
    sheet: *mut u8,
    sheet_len: usize,
    answer: *mut u64,
) {
    let (file, share) = (from_raw_parts(file, file_len), from_raw_parts(share, share_len));
    let buffer = from_raw_parts_mut(sheet, sheet_len);
    tell(judge_into_with_share(file, lent(runs, run_lens), share, buffer), answer);
}

/// What `wirepulley_judge_shared` has to answer, and the other forms where what they are not lent is empty: the answer with room enough
/// for the sheet.
///
/// # Safety
/// Each pointer leads to as many elements as its count says, four for `answer`.
#[no_mangle]
pub unsafe extern "C" fn reference_judge(
    file: *const u8,
    file_len: usize,
    runs: *const *const i64,
    run_lens: *const usize,
    share: *const u8,
    share_len: usize,
    answer: *mut u64,
) {
    let (file, share) = (from_raw_parts(file, file_len), from_raw_parts(share, share_len));
    let judged = match judge_case_with_share(file, lent(runs, run_lens), share) {
        Ok(sheet) => Answer::Accepted(sheet.len()),
        Err(refusal) => Answer::Refused(refusal),
    };
    tell(judged, answer);
}

/// The five lent runs.
unsafe fn lent<'a>(runs: *const *const i64, run_lens: *const usize) -> [&'a [i64]; RUNS] {
    std::array::from_fn(|place| from_raw_parts(*runs.add(place), *run_lens.add(place)))
}

/// An answer's four numbers.
unsafe fn tell(told: Answer, answer: *mut u64) {
    let numbers = match told {
        Answer::Accepted(length) => [0, 0, 0, length as u64],
        Answer::Refused(refusal) => [refusal.number as u64, refusal.system as u64, refusal.row as u64, 0],
    };
    from_raw_parts_mut(answer, 4).copy_from_slice(&numbers);
}

/// Rewrites a whole file as one of the other version, or of the other edition where `edition` is not 0, where that has a place for it
/// and `most` bytes are enough. Gives its length.
///
/// # Safety
/// The pointer leads to `most` bytes, of which the file is the first ones.
#[no_mangle]
pub unsafe extern "C" fn reference_rewrite(file: *mut u8, file_len: usize, most: usize, edition: i32) -> usize {
    let other = if edition != 0 { in_other_edition } else { in_other_version };
    let rewritten = whole_case(from_raw_parts(file, file_len)).and_then(|case| other(&case)).map(|case| case.bytes());
    match rewritten.filter(|bytes| bytes.len() <= most) {
        Some(bytes) => {
            from_raw_parts_mut(file, bytes.len()).copy_from_slice(&bytes);
            bytes.len()
        }
        None => file_len,
    }
}

fn in_other_version(case: &Case) -> Option<Case> {
    let other = if case.version == Version::One { Version::Two } else { Version::One };
    case.in_version(other).ok()
}

/// Solutions of edition 1 stand in for those of edition 2 until they are solved, and the other way round.
fn in_other_edition(case: &Case) -> Option<Case> {
    match case.edition {
        Edition::One => {
            let [base, wider, local, ..] = case.runs.clone();
            let runs = [base.clone(), wider.clone(), local, base, wider];
            case.in_edition_2().ok().map(|case| Case { runs, ..case })
        }
        Edition::Two => {
            let mut case = Case { edition: Edition::One, ..case.clone() };
            case.settings.zero = Edition::One.zero();
            case.runs[Edition::One.runs()..].iter_mut().for_each(Vec::clear);
            Some(case)
        }
    }
}

/// Puts solutions of a whole file's tables in place of its own. Another file stays as it is.
///
/// # Safety
/// The pointer leads to as many bytes as the count says.
#[no_mangle]
pub unsafe extern "C" fn reference_solve(file: *mut u8, file_len: usize) {
    let file = from_raw_parts_mut(file, file_len);
    if let Some(case) = whole_case(file).filter(|case| case.nodes.len() <= 40) {
        file.copy_from_slice(&solved(&case).0.bytes());
    }
}

/// Writes a share file by chance for a whole file whose tables are sound, with a fault where `fault` is not 0. Gives its length, 0 for
/// another file or where `most` bytes are not enough.
///
/// # Safety
/// The pointers lead to `file_len` and to `most` bytes.
#[no_mangle]
pub unsafe extern "C" fn reference_share(
    file: *const u8,
    file_len: usize,
    seed: u32,
    fault: i32,
    share: *mut u8,
    most: usize,
) -> usize {
    let tables = whole_case(from_raw_parts(file, file_len)).and_then(|case| sound_tables(&case).ok());
    let drawn = tables.map(|tables| match fault {
        0 => sound(&tables, seed as u64).bytes(),
        _ => spoiled(&tables, seed as u64).bytes,
    });
    let bytes = drawn.filter(|bytes| bytes.len() <= most).unwrap_or_default();
    from_raw_parts_mut(share, most)[..bytes.len()].copy_from_slice(&bytes);
    bytes.len()
}
