//! One input: what is lent, and what has to come of it.

use reference::file::{named_edition, whole_case, Case, Edition, RUNS};
use reference::{judge_case_with_share, judge_into_with_share, text, Answer};
use std::fmt::Write;

/// Number, system, row and sheet length of an answer.
pub type Numbers = [u64; 4];

/// 01: "Its own buffer holds any sheet these ranges allow": the longest is of edition 2 with a share file.
pub const LONGEST_SHEET: usize = 17_258;

/// How many runs the forms without peak's are lent.
const THREE: usize = 3;

/// What is lent to the library.
#[derive(Clone)]
pub struct Input {
    pub file: Vec<u8>,
    /// Base, wider, local, peak base, peak wider: judged in place of those in the file.
    pub runs: [Vec<i64>; RUNS],
    /// 02, CR 6: the bytes of `share.bin`, empty where there is none.
    pub share: Vec<u8>,
    pub sheet_len: usize,
    /// 0: each lent block ends at memory that may not be touched; 1: it starts there.
    pub place: u32,
    /// What the lent buffers hold before: byte i of the sheet and number i of the answer count on from here.
    pub fill: u32,
}

/// What the two entries of one form leave behind.
#[derive(Clone, PartialEq, Eq)]
pub struct Left {
    /// Of the entry that judges and writes no sheet, and of the one that writes: the result, and the lent answer afterwards.
    pub judged: (u64, Numbers),
    pub written: (u64, Numbers),
    pub sheet: Vec<u8>,
}

/// What all entries leave behind: those that are lent all of it, those that are lent five runs and no share file, and those that are
/// lent the first three runs.
#[derive(Clone, PartialEq, Eq)]
pub struct Outcome {
    pub shared: Left,
    pub five: Left,
    pub three: Left,
}

impl Input {
    /// A case with its own solutions, no share file, room for any sheet.
    pub fn of(case: &Case) -> Input {
        Input::new(case.bytes(), case.runs.clone())
    }

    /// A file and its runs, no share file, room for any sheet.
    pub fn new(file: Vec<u8>, runs: [Vec<i64>; RUNS]) -> Input {
        Input { file, runs, share: Vec::new(), sheet_len: LONGEST_SHEET, place: 0, fill: 0 }
    }

    /// The same with a share file.
    pub fn with_share(self, share: Vec<u8>) -> Input {
        Input { share, ..self }
    }

    /// The lent runs.
    fn lent(&self) -> [&[i64]; RUNS] {
        self.runs.each_ref().map(Vec::as_slice)
    }

    /// 02, CR 5: no run of peak is lent.
    fn is_without_peak(&self) -> bool {
        self.runs[THREE..].iter().all(Vec::is_empty)
    }

    /// The edition that the file names.
    pub fn edition(&self) -> Option<Edition> {
        named_edition(&self.file)
    }

    /// The sheet's buffer before the call.
    pub fn sheet_before(&self) -> Vec<u8> {
        (0..self.sheet_len).map(|i| (self.fill as usize + i) as u8).collect()
    }

    /// What the reference says has to come of the calls. Three runs are five of which peak's are empty, and no share file is an empty
    /// one.
    pub fn expected(&self) -> Outcome {
        let shared = self.left(self.lent(), &self.share);
        let five = if self.share.is_empty() { shared.clone() } else { self.left(self.lent(), &[]) };
        let three =
            if self.is_without_peak() { five.clone() } else { self.left([0, 1, 2].map(|run| self.lent()[run]), &[]) };
        Outcome { shared, five, three }
    }

    /// What has to come of both entries of a form with these runs and this share file.
    fn left<const N: usize>(&self, runs: [&[i64]; N], share: &[u8]) -> Left {
        let mut sheet = self.sheet_before();
        let written = numbers(judge_into_with_share(&self.file, runs, share, &mut sheet));
        // Judged with no buffer: the same answer, and what it is with room enough where the buffer is too short.
        let judged = if written[0] == 12 { numbers(self.with_room(runs, share)) } else { written };
        Left { judged: (judged[0], judged), written: (written[0], written), sheet }
    }

    /// What the reference answers with room enough for the sheet.
    fn with_room<const N: usize>(&self, runs: [&[i64]; N], share: &[u8]) -> Answer {
        match judge_case_with_share(&self.file, runs, share) {
            Ok(sheet) => Answer::Accepted(sheet.len()),
            Err(refusal) => Answer::Refused(refusal),
        }
    }

    /// The input as a text: the case maker's words, and what they don't tell as comments.
    pub fn text(&self) -> String {
        let mut said = format!("# buffer of {} bytes, place {}, fill {}\n", self.sheet_len, self.place, self.fill);
        let own = whole_case(&self.file).map(|case| case.runs);
        for (name, run) in text::SOLUTIONS.iter().zip(&self.runs).filter(|_| own.as_ref() != Some(&self.runs)) {
            let _ = writeln!(said, "# lent {name} ({} numbers): {run:?}", run.len());
        }
        said + &shown(&self.file, &self.share)
    }
}

/// A case file as the case maker's text, with the share file's text in its comments.
pub fn shown(file: &[u8], share: &[u8]) -> String {
    let lines = text::share::show(share).lines().fold(String::new(), |said, line| said + "#   " + line + "\n");
    format!("# share file of {} bytes:\n{lines}{}", share.len(), text::show(file))
}

impl Outcome {
    /// The answer of the entry that is lent all of it and writes.
    pub fn answer(&self) -> Numbers {
        self.shared.written.1
    }

    /// The outcome in a few lines.
    pub fn said(&self) -> String {
        let [shared, five, three] = [&self.shared, &self.five, &self.three].map(Left::said);
        format!("lent a share file: {shared}lent five runs: {five}lent three runs: {three}")
    }
}

impl Left {
    fn said(&self) -> String {
        let length = (self.written.1[3] as usize).min(self.sheet.len());
        let sheet = String::from_utf8_lossy(&self.sheet[..length]).into_owned();
        format!("write {:?}, judge {:?}, buffer of {} bytes\n{sheet}", self.written, self.judged, self.sheet.len())
    }
}

/// The numbers of the reference's answer.
fn numbers(answer: Answer) -> Numbers {
    match answer {
        Answer::Accepted(length) => [0, 0, 0, length as u64],
        Answer::Refused(refusal) => [refusal.number as u64, refusal.system as u64, refusal.row as u64, 0],
    }
}
