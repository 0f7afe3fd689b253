//! What an entry answers: 01's number (0 where accepted), system and row, and the sheet's length.

pub use wirepulley::Answer;

pub fn accepted(length: usize) -> Answer {
    Answer { number: 0, system: 0, row: 0, length: length as u64 }
}

pub fn refused(number: u64, system: u64, row: usize) -> Answer {
    Answer { number, system, row: row as u64, length: 0 }
}
