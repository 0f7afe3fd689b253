//! A share file (02, CR 6) as plain text, and back.
//!
//! ```text
//! zone 1 2     # a generation zone and the next one inward, 0 for the centre and for zones without TEC
//! load 1 385   # a plant type and its load factor in thousandths
//! ```
//!
//! All zones stand in rising order, and so do the seven plant types; `#` begins a comment. `bytes HEX` lines alone, or the word
//! `bytes` for none, make any other file.

use super::read::exactly;
use super::words::{fitting, from_hex, split, to_hex, Word};
use super::TextError;
use crate::quantities::ZONES;
use crate::sharing::Share;
use crate::tables::PLANTS;

/// 02, CR 6: as many numbers as there are plant types stand behind those of the zones.
const TYPES: usize = PLANTS.len();
/// 01 "Quantities": the most generation zones that a case has.
const MOST_ZONES: usize = ZONES.1 as usize;

/// The bytes of the share file that a text describes, or every fault with its line.
pub fn make(text: &[u8]) -> Result<Vec<u8>, Vec<TextError>> {
    let mut reader = Reader::default();
    let mut faults = Vec::new();
    let mut last = 0;
    for (line, number) in text.split(|byte| *byte == b'\n').zip(1..) {
        last = number;
        let line = std::str::from_utf8(line).map_err(|_| "not plain text".to_string());
        let read = line.and_then(|line| reader.line(line));
        faults.extend(read.err().map(|message| TextError { line: number, message }));
    }
    if faults.is_empty() {
        faults.extend(reader.left_out().map(|message| TextError { line: last, message }));
    }
    if faults.is_empty() {
        Ok(reader.bytes())
    } else {
        Err(faults)
    }
}

/// A text being read.
#[derive(Default)]
struct Reader {
    /// Of each zone the number of the next.
    next: Vec<u32>,
    /// Of each plant type its load factor.
    load: Vec<u32>,
    /// The whole file as bytes; then nothing else is said.
    bytes: Option<Vec<u8>>,
}

impl Reader {
    /// Takes one line in.
    fn line(&mut self, line: &str) -> Result<(), String> {
        let words = split(line)?;
        let Some((first, fields)) = words.split_first() else { return Ok(()) };
        let Word::Bare(kind) = first else { return Err("a line begins with a quote".to_string()) };
        match kind.as_str() {
            "zone" => numbered(&mut self.next, "zone", MOST_ZONES, exactly(fields, "zone, the next one inward")?),
            "load" => numbered(&mut self.load, "plant type", TYPES, exactly(fields, "plant type, load factor")?),
            "bytes" => self.further_bytes(fields),
            _ => Err(format!("unknown word {kind}")),
        }
    }

    /// Bytes of the file in hexadecimal, or none.
    fn further_bytes(&mut self, fields: &[Word]) -> Result<(), String> {
        let further = match fields {
            [] => Vec::new(),
            [Word::Bare(digits)] => from_hex(digits)?,
            _ => return Err("wrong fields for bytes".to_string()),
        };
        self.bytes.get_or_insert_with(Vec::new).extend(further);
        Ok(())
    }

    /// What a text must still say at its end.
    fn left_out(&self) -> Option<String> {
        match (&self.bytes, self.next.len(), self.load.len()) {
            (Some(_), 0, 0) => None,
            (Some(_), ..) => Some("bytes stand alone: no other lines beside them".to_string()),
            (None, 0, _) => Some("no zone stands here".to_string()),
            (None, _, TYPES) => None,
            (None, _, loads) => Some(format!("{loads} load factors where {TYPES} are wanted, one a plant type")),
        }
    }

    /// The file described.
    fn bytes(self) -> Vec<u8> {
        let numbers = self.next.into_iter().chain(self.load);
        self.bytes.unwrap_or_else(|| numbers.flat_map(u32::to_le_bytes).collect())
    }
}

/// Takes in the number of the next zone or plant type in order.
fn numbered(numbers: &mut Vec<u32>, kind: &str, most: usize, [place, number]: &[Word; 2]) -> Result<(), String> {
    let (place, awaited): (usize, usize) = (fitting(place)?, numbers.len() + 1);
    if place > most {
        return Err(format!("{kind} {place}: there are at most {most}"));
    }
    if place != awaited {
        return Err(format!("{kind} {place} where {awaited} comes next: they stand in rising order from 1"));
    }
    numbers.push(fitting(number)?);
    Ok(())
}

/// A text whose share file is exactly these bytes: by zones and plant types where so many numbers fit some case, else as they are.
pub fn show(file: &[u8]) -> String {
    let zones = (1..=MOST_ZONES).find_map(|zones| Share::read(file, zones));
    match zones {
        Some(share) => shown(&share),
        None => shown_as_bytes(file),
    }
}

/// One line a zone and one a plant type.
fn shown(share: &Share) -> String {
    let lines = |word: &str, numbers: &[u32]| -> String {
        numbers.iter().zip(1..).map(|(number, place)| format!("{word} {place} {number}\n")).collect()
    };
    let zones = lines("zone", &share.next);
    let loads = lines("load", &share.load);
    format!(
        "# zone, the next one inward: 0 for the centre and for zones without TEC\n{zones}\n\
         # plant type, load factor in thousandths\n{loads}"
    )
}

/// The bytes alone.
fn shown_as_bytes(file: &[u8]) -> String {
    let said = match file {
        [] => "# empty, as if there were none\n".to_string(),
        _ => format!("# {} bytes, a wrong length: refused 16 0 0 in edition 2\n", file.len()),
    };
    let lines: String = file.chunks(32).map(|part| format!("bytes {}\n", to_hex(part))).collect();
    format!("{said}bytes\n{lines}")
}
