//! One study case for GB transmission charges in, a tariff sheet or a refusal out: safe Rust over the proved library.
//! A call of the library keeps no state and takes no heap.
//!
//! ```no_run
//! let file = std::fs::read("my.case").unwrap();
//! let solutions = wirepulley::Solutions::of_file(&file);
//! let mut sheet = [0; wirepulley::LONGEST_SHEET];
//! match solutions.with(&file).write(&mut sheet) {
//!     Ok(length) => print!("{}", String::from_utf8_lossy(&sheet[..length])),
//!     Err(refusal) => println!("{refusal}"),
//! }
//! ```
//!
//! # Who pays
//!
//! Interconnectors (plant type 3) do not: their TEC counts in scaling and in zonal averages, and not in C, generation's income and
//! its residual. What the sheet charges on chargeable TEC and on demand, plus its two remainders, is the allowed revenue.
//!
//! # Editions
//!
//! Edition 1 has one background and three solutions: base, wider and local. Edition 2 has two backgrounds, year round and peak: its base
//! and wider solutions are year round's, and peak has two of its own. The settings in the file name the edition, and [`Solutions::of_file`]
//! goes by it; solutions of your own are put together by [`Solutions::of_edition_1`] and [`Solutions::of_edition_2`].
//!
//! The sheet of edition 2 has peak's C before year round's in its `C` line, and in `G` and `D` lines peak's metres, metres after C and
//! tariff before year round's; a total is both tariffs and the residual. Intermittent stations (plant type 1) do not pay peak's tariff,
//! so they pay the total less that.
//!
//! # Share files
//!
//! A case of edition 2 may come with a share file, `solutions.with(&file).with_share(&share)`. It says which generation zone lies behind
//! which, and each plant type's load factor. Year round's three on a `G` line are then the not-shared metres, these plus C and their
//! tariff; the shared metres and their tariff follow. The total leaves the shared tariff out, which is paid on chargeable TEC times load
//! factor. An empty share file is as none, and edition 1 does not look at it.
//!
//! # Versions
//!
//! A file is of version 1 or 2. In version 2 a circuit may have a factor of its own, in thousandths, for a subsea or HVDC circuit; at
//! 320 and 525 kV it needs one. A case of edition 1 of up to 480 circuits without factors has the same answer in either version. Edition 2
//! is in version 2 alone, with at most 320 circuits.
//!
//! # Stack
//!
//! A call takes at most [`STACK`] bytes of stack: leave a thread that calls the library so much beside its own.

mod refusal;
mod solutions;

pub use refusal::{Refusal, System};
pub use solutions::Solutions;

/// No sheet is longer: a buffer of this many bytes is never refused as too short. Without a share file 16,362 are enough, for edition 1
/// alone 14,240.
pub const LONGEST_SHEET: usize = include!(concat!(env!("OUT_DIR"), "/WIREPULLEY_LONGEST_SHEET"));

/// No call takes more bytes of stack, whatever it is given.
pub const STACK: usize = include!(concat!(env!("OUT_DIR"), "/WIREPULLEY_STACK"));

// The forms with a share file, which take either edition.
extern "C" {
    fn wirepulley_write_shared(
        file: *const u8,
        file_len: usize,
        base: *const i64,
        base_len: usize,
        wider: *const i64,
        wider_len: usize,
        local: *const i64,
        local_len: usize,
        peak_base: *const i64,
        peak_base_len: usize,
        peak_wider: *const i64,
        peak_wider_len: usize,
        share: *const u8,
        share_len: usize,
        sheet: *mut u8,
        sheet_len: usize,
        answer: *mut [u64; 4],
    ) -> u64;
    fn wirepulley_judge_shared(
        file: *const u8,
        file_len: usize,
        base: *const i64,
        base_len: usize,
        wider: *const i64,
        wider_len: usize,
        local: *const i64,
        local_len: usize,
        peak_base: *const i64,
        peak_base_len: usize,
        peak_wider: *const i64,
        peak_wider_len: usize,
        share: *const u8,
        share_len: usize,
        answer: *mut [u64; 4],
    ) -> u64;
}

/// What the library answers, as document 01 numbers it.
#[derive(Clone, Copy, Debug, PartialEq, Eq)]
pub struct Answer {
    /// 0 where the case is accepted, else a refusal's: 1 to 16, or more from a newer library.
    pub number: u64,
    /// 1 base, 2 wider, 3 local, 4 peak base, 5 peak wider; 0 where the answer is about none of them.
    pub system: u64,
    /// Counted from 1; 0 where the answer is about no row.
    pub row: u64,
    /// The sheet's length; 0 in a refusal.
    pub length: u64,
}

impl Answer {
    fn of([number, system, row, length]: [u64; 4]) -> Answer {
        Answer { number, system, row, length }
    }

    /// The sheet's length, or what stopped the case.
    pub fn result(self) -> Result<usize, Refusal> {
        match Refusal::of(self) {
            // no memory has a sheet that a usize does not count
            None => Ok(usize::try_from(self.length).unwrap_or(usize::MAX)),
            Some(refusal) => Err(refusal),
        }
    }
}

/// A case in memory: the bytes of its file, the solutions that are judged in place of those in the file, and its share file.
/// A solution is a potential for each node, then a flow for each circuit, in table order. In edition 2 base and wider are year round's.
#[derive(Clone, Copy, Debug)]
pub struct Case<'a> {
    pub file: &'a [u8],
    pub base: &'a [i64],
    pub wider: &'a [i64],
    pub local: &'a [i64],
    /// Empty in edition 1, which has no peak.
    pub peak_base: &'a [i64],
    /// Empty in edition 1, which has no peak.
    pub peak_wider: &'a [i64],
    /// The bytes of a share file, empty where there is none.
    pub share: &'a [u8],
}

impl<'a> Case<'a> {
    /// The same case with a share file.
    pub fn with_share(self, share: &'a [u8]) -> Case<'a> {
        Case { share, ..self }
    }

    /// Judges the case and writes its sheet at the front of the buffer: its length. The bytes behind it are as they were; after a
    /// refusal all of them are.
    pub fn write(&self, sheet: &mut [u8]) -> Result<usize, Refusal> {
        self.answer(sheet).result()
    }

    /// The same with the answer as numbers.
    pub fn answer(&self, sheet: &mut [u8]) -> Answer {
        let Case { file, base, wider, local, peak_base, peak_wider, share } = self;
        let mut answer = [0; 4];
        // SAFETY: each pointer and count are those of a slice that outlives the call, and the answer has four numbers. The two that are written to are lent alone.
        unsafe {
            wirepulley_write_shared(
                file.as_ptr(),
                file.len(),
                base.as_ptr(),
                base.len(),
                wider.as_ptr(),
                wider.len(),
                local.as_ptr(),
                local.len(),
                peak_base.as_ptr(),
                peak_base.len(),
                peak_wider.as_ptr(),
                peak_wider.len(),
                share.as_ptr(),
                share.len(),
                sheet.as_mut_ptr(),
                sheet.len(),
                &mut answer,
            )
        };
        Answer::of(answer)
    }

    /// Judges the case and writes no sheet: the length that a buffer for its sheet needs, or what stops it, never [`Refusal::Buffer`].
    pub fn judge(&self) -> Result<usize, Refusal> {
        self.judgement().result()
    }

    /// The same with the answer as numbers: those of `answer` with room enough for the sheet.
    pub fn judgement(&self) -> Answer {
        let Case { file, base, wider, local, peak_base, peak_wider, share } = self;
        let mut answer = [0; 4];
        // SAFETY: each pointer and count are those of a slice that outlives the call, and the answer has four numbers. It is lent alone.
        unsafe {
            wirepulley_judge_shared(
                file.as_ptr(),
                file.len(),
                base.as_ptr(),
                base.len(),
                wider.as_ptr(),
                wider.len(),
                local.as_ptr(),
                local.len(),
                peak_base.as_ptr(),
                peak_base.len(),
                peak_wider.as_ptr(),
                peak_wider.len(),
                share.as_ptr(),
                share.len(),
                &mut answer,
            )
        };
        Answer::of(answer)
    }
}
