//! The library's algorithms of both editions (01 with requests 1 to 5 of 02) in plain Rust: the proved code's passes in its order, fixed arrays, names
//! looked for row by row, nested loops, no heap, and an end where the proved code stops a case.
//!
//! It is written as a Rust programmer would write it: arrays are filled in place and lent, tables are slices of rows, and every index is checked by the
//! language. Numbers are checked inside the loops where the proved code checks them. What it asks again, whether the file is whole, is asked once here,
//! and guards that no judged case fails are left out.
//!
//! Nothing is shared with the frozen twin, so that nothing here decides what is inlined there.

mod circuits;
mod editions;
mod fields;
mod flows;
mod layout;
mod lines;
mod nodes;
mod numbers;
mod plants;
mod proposal;
mod quotients;
mod rests;
mod settings;
mod stations;
mod supply;
mod tables;
mod tariffs;
mod text;
mod totals;
mod walk;
mod zones;

use crate::answer::{accepted, refused, Answer};
pub use editions::Runs;
use tables::Tables;

/// What a stage makes of a case.
type Judged = Result<(), Answer>;

/// Judges a case of either edition and writes its sheet into the lent buffer.
pub fn write(file: &[u8], runs: Runs, out: &mut [u8]) -> Answer {
    written(file, runs, out).unwrap_or_else(|refusal| refusal)
}

/// A file that is not whole, or a bad setting, is answered before any table is read.
fn written(file: &[u8], runs: Runs, out: &mut [u8]) -> Result<Answer, Answer> {
    let mut tables = Tables::of(layout::frame(file, runs)?);
    tables.read()?;
    proposal::judge(&tables, runs)?;
    let figures = tariffs::figures(&tables, runs);
    let length = text::write(&figures, tables.frame.nodes, out);
    if out.len() < length {
        return Err(refused(12, 0, 0));
    }
    Ok(accepted(length))
}
