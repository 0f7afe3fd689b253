//! The library's algorithms, as they stood after request 4, in plain Rust: fixed arrays, names looked for row by row, nested loops, no heap, the
//! same order of checks.
//!
//! It is written as a Rust programmer would write it: arrays are lent and not copied, rows of names are gone through by `chunks_exact`, and every
//! index is checked by the language.

mod charges;
mod columns;
mod fields;
mod proposal;
mod sheet;
mod tables;
mod walk;

use crate::answer::{accepted, refused, Answer};

/// Judges a case and writes its sheet into the lent buffer.
pub fn write(file: &[u8], base: &[i64], wider: &[i64], local: &[i64], out: &mut [u8]) -> Answer {
    let (case, stations) = columns::read(file);
    let judged = tables::judge(file, &case, &stations, [base.len(), wider.len(), local.len()])
        .and_then(|()| proposal::judge(&case, base, wider, local));
    if let Err(refusal) = judged {
        return refusal;
    }
    let figures = charges::figures(&case, wider, local);
    let length = sheet::write(&figures, file, out);
    if out.len() < length {
        return refused(12, 0, 0);
    }
    accepted(length)
}
