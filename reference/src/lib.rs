//! Independent reference for document 01 and change requests 1 to 3, 5 and 6 of 02: one study case in, a tariff sheet or
//! a refusal out.
//!
//! Written from their words for clarity, not for speed: `i128` for every sum, one function for each
//! sentence, and each function names its place. `judge_case` is the library entry, `program_output` what the
//! program prints; those `_with_share` take the bytes of `share.bin` too (request 6). `text` writes and reads cases and share
//! files as plain text, `solver` proposes solutions, `largest` and `longest` build cases of the greatest counts, `beside` sets
//! two cases side by side (request 12).

pub mod background;
pub mod beside;
pub mod charges;
pub mod file;
pub mod judge;
pub mod largest;
pub mod longest;
pub mod quantities;
pub mod random;
pub mod random_share;
pub mod refusal;
pub mod replay;
pub mod sharing;
pub mod sheet;
pub mod solutions;
pub mod solver;
pub mod standard;
pub mod tables;
pub mod text;

pub use judge::{
    judge_case, judge_case_with_share, judge_into, judge_into_with_share, program_output, program_output_with_share,
    Answer,
};
pub use refusal::Refusal;
