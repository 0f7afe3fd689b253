//! 01 "What stops a case": the refusal alone, so that `tables` and `solutions`, which refuse, need nothing of `judge`,
//! which asks them in order.

use std::fmt;

/// 01 "What stops a case": number, system and row.
#[derive(Clone, Copy, Debug, PartialEq, Eq, PartialOrd, Ord)]
pub struct Refusal {
    pub number: u32,
    pub system: u32,
    pub row: u32,
}

/// 01 "The sheet": "`refused`, number, system and row".
impl fmt::Display for Refusal {
    fn fmt(&self, to: &mut fmt::Formatter) -> fmt::Result {
        write!(to, "refused {} {} {}", self.number, self.system, self.row)
    }
}
