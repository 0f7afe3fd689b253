//! The lines of a sheet, made by value.

use super::editions::Edition;
use super::tariffs::{LocalFigures, WiderFigures, ZoneFigures};
use super::zones::Side;

/// Room for any line: a zone's is the longest.
pub const WIDTH: usize = 192;

/// The text of a line, zeros behind it, and its length.
pub struct Line {
    bytes: [u8; WIDTH],
    length: usize,
}

impl Line {
    /// A line of one word.
    fn of(word: &[u8]) -> Line {
        let mut line = Line { bytes: [0; WIDTH], length: 0 };
        line.put_word(word);
        line
    }

    pub fn text(&self) -> &[u8] {
        &self.bytes[..self.length]
    }

    fn put_word(&mut self, word: &[u8]) {
        self.bytes[self.length..][..word.len()].copy_from_slice(word);
        self.length += word.len();
    }

    fn put_natural(&mut self, n: u64) {
        if n >= 10 {
            self.put_natural(n / 10);
        }
        self.bytes[self.length] = b'0' + (n % 10) as u8;
        self.length += 1;
    }

    /// A space and a number.
    fn put_number(&mut self, z: i64) {
        self.put_word(if z < 0 { b" -" } else { b" " });
        self.put_natural(z.unsigned_abs());
    }

    /// These numbers, and the line's end.
    fn put_numbers(&mut self, numbers: &[i64]) {
        for z in numbers {
            self.put_number(*z);
        }
        self.put_word(b"\n");
    }
}

/// In edition 2 peak's C stands before year round's.
pub fn constant_line(edition: Edition, c: i64, peak_c: i64) -> Line {
    let mut line = Line::of(b"C");
    match edition {
        Edition::First => line.put_numbers(&[c]),
        Edition::Second => line.put_numbers(&[peak_c, c]),
    }
    line
}

/// `-` with no kilowatts; in edition 2 peak's three figures first.
pub fn zone_line(edition: Edition, side: Side, number: usize, residual: i64, z: &ZoneFigures) -> Line {
    let mut line = Line::of(match side {
        Side::Generation => b"G",
        Side::Demand => b"D",
    });
    line.put_number(number as i64);
    let (WiderFigures { metres, after_c, tariff }, p) = (z.year_round, z.peak);
    match edition {
        _ if z.weight == 0 => line.put_word(b" -\n"),
        Edition::First => line.put_numbers(&[metres, after_c, tariff, residual, z.total]),
        Edition::Second => {
            line.put_numbers(&[p.metres, p.after_c, p.tariff, metres, after_c, tariff, residual, z.total])
        }
    }
    line
}

/// The line of a node with TEC.
pub fn node_line(row: &[u8; 24], l: &LocalFigures) -> Line {
    let name = &row[..12];
    let mut line = Line::of(b"L ");
    line.put_word(&name[..name.iter().position(|byte| *byte == b' ').unwrap_or(12)]);
    line.put_numbers(&[l.metres, l.tariff]);
    line
}

pub fn remainder_line(generation: u64, demand: u64) -> Line {
    let mut line = Line::of(b"R");
    line.put_numbers(&[generation as i64, demand as i64]);
    line
}
