//! A study case as plain text: written by hand, compared line by line, turned into the file of 01 and back.
//!
//! One line a setting (name and number), a node, a circuit, a station, a solution row. `#` begins a comment.
//!
//! ```text
//! generation_zones 1            # and the other settings, in any order
//! node NODA 1 1 0               # name, generation zone, demand zone, demand kW
//! circuit NODA NODB 400 100 10000 0 0   # ends, voltage, x, overhead m, cable m, local mark
//! circuit NODA NODB 320 100 0 60000 0 3500   # and in version 2 the circuit's own factor, 0 or none for by voltage
//! station GEN_1 NODA 7 200000   # identifier, node, plant type, TEC kW
//! base 11000000000000           # potentials of the nodes, then flows of the circuits; `wider`, `local` alike, and in
//!                               # edition 2 `peak_base`, `peak_wider`; there `base` and `wider` are year round's
//! ```
//!
//! Numbers may be parted by `_` and end in an exponent (`45e9`). A name that isn't well-formed stands in quotes with
//! `\xNN` for odd bytes, and spaces to twelve are added.
//!
//! `version 1` and `version 2` say the file's version. Without that word it is 2 where some circuit has a factor or the text
//! is of edition 2, else 1.
//!
//! `edition 2` says that the file is of edition 2: nine sections, a trailer of 80 bytes, and 2 for the settings' zero. Without
//! that word, or with `edition 1`, there are seven sections, a trailer of 64 bytes, and 0.
//!
//! Further words make files that aren't whole: `zero N` (another number for the settings' zero, the sections and the trailer
//! as the edition has them; so `zero 2` alone is edition 2 over a trailer of 64 bytes, and `edition 2` with `zero 0` edition 1
//! over one of 80), `edition 2` with `version 1`, `version N` (any other number, in the trailer alone),
//! `circuit_bytes 44` and `circuit_bytes 48` (circuit rows as version 1 or 2 has them, whatever the trailer's version),
//! `length N`, `offset SECTION N`, `count SECTION N`, `as_is` (solutions of any number of rows), `cut N` (that many last
//! bytes away), `tail HEX` (bytes behind the trailer), or `bytes HEX` lines alone.
//!
//! A share file (02, CR 6) has a text of its own: `share`.

mod read;
pub mod share;
mod show;
mod words;

pub use read::{make, parse, Damage, Described};
pub use show::{show, solution_lines};
pub use words::shown_name;

use crate::file::{Settings, RUNS};
use std::fmt;

/// A fault in a text, with its line counted from 1.
#[derive(Clone, Debug, PartialEq, Eq)]
pub struct TextError {
    pub line: usize,
    pub message: String,
}

impl fmt::Display for TextError {
    fn fmt(&self, to: &mut fmt::Formatter) -> fmt::Result {
        write!(to, "line {}: {}", self.line, self.message)
    }
}

/// The place of a setting of 32 bits.
type SettingPlace = fn(&mut Settings) -> &mut u32;

/// 01 "The case file", settings: the names of those of 32 bits, in the file's order. `zero` stands only where it isn't the
/// edition's.
const SETTINGS: [(&str, SettingPlace); 14] = [
    ("generation_zones", |settings| &mut settings.generation_zones),
    ("demand_zones", |settings| &mut settings.demand_zones),
    ("p", |settings| &mut settings.p),
    ("constant", |settings| &mut settings.constant),
    ("wider_factor", |settings| &mut settings.wider_factor),
    ("local_factor", |settings| &mut settings.local_factor),
    (FACTOR_NAMES[0], |settings| &mut settings.factors[0]),
    (FACTOR_NAMES[1], |settings| &mut settings.factors[1]),
    (FACTOR_NAMES[2], |settings| &mut settings.factors[2]),
    (FACTOR_NAMES[3], |settings| &mut settings.factors[3]),
    (FACTOR_NAMES[4], |settings| &mut settings.factors[4]),
    (FACTOR_NAMES[5], |settings| &mut settings.factors[5]),
    ("reference", |settings| &mut settings.reference),
    ("zero", |settings| &mut settings.zero),
];

/// 01 "The case file", settings: the names of the six expansion factors, in the file's order.
pub const FACTOR_NAMES: [&str; 6] =
    ["overhead_400", "cable_400", "overhead_275", "cable_275", "overhead_132", "cable_132"];

/// 01 "The case file", 02 CR 5: the words of the solutions' lines, in the file's order.
pub const SOLUTIONS: [&str; RUNS] = ["base", "wider", "local", "peak_base", "peak_wider"];
