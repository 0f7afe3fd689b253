//! The text of a sheet, written aside and copied where it fits.

use super::charges::{Figures, SideFigures, ZoneFigures};

fn name_len(file: &[u8], from: usize) -> usize {
    let name = &file[from..from + 12];
    name.iter().position(|byte| *byte == b' ').unwrap_or(12)
}

/// Where the next byte goes.
struct Writer<'a> {
    out: &'a mut [u8],
    at: usize,
}

impl Writer<'_> {
    fn bytes(&mut self, text: &[u8]) {
        self.out[self.at..self.at + text.len()].copy_from_slice(text);
        self.at += text.len();
    }

    fn natural(&mut self, n: u64) {
        if n >= 10 {
            self.natural(n / 10);
        }
        self.out[self.at] = b'0' + (n % 10) as u8;
        self.at += 1;
    }

    /// A space, then a number.
    fn field(&mut self, z: i64) {
        self.bytes(b" ");
        if z < 0 {
            self.bytes(b"-");
        }
        self.natural(z.unsigned_abs());
    }

    fn zone(&mut self, letter: &[u8], number: usize, residual: i64, z: &ZoneFigures) {
        self.bytes(letter);
        self.field(number as i64);
        if z.weight == 0 {
            self.bytes(b" -\n");
            return;
        }
        for figure in [z.metres, z.after_c, z.tariff, residual, z.total] {
            self.field(figure);
        }
        self.bytes(b"\n");
    }

    fn zones(&mut self, letter: &[u8], side: &SideFigures) {
        for k in 0..side.zones {
            self.zone(letter, k + 1, side.residual, &side.zone[k]);
        }
    }
}

/// Room for any sheet.
const ROOM: usize = 22851;

/// The sheet's length; its bytes where the buffer holds them.
pub fn write(figures: &Figures, file: &[u8], out: &mut [u8]) -> usize {
    let mut aside = [0; ROOM];
    let length = put(figures, file, &mut aside);
    if length <= out.len() {
        out[..length].copy_from_slice(&aside[..length]);
    }
    length
}

fn put(figures: &Figures, file: &[u8], out: &mut [u8]) -> usize {
    let mut writer = Writer { out, at: 0 };
    writer.bytes(b"C");
    writer.field(figures.c);
    writer.bytes(b"\n");
    writer.zones(b"G", &figures.generation);
    writer.zones(b"D", &figures.demand);
    for v in 0..figures.nodes {
        let l = &figures.local[v];
        if l.tec > 0 {
            let from = 64 + 24 * v;
            writer.bytes(b"L ");
            writer.bytes(&file[from..from + name_len(file, from)]);
            writer.field(l.metres);
            writer.field(l.tariff);
            writer.bytes(b"\n");
        }
    }
    writer.bytes(b"R");
    writer.field(figures.generation.remainder);
    writer.field(figures.demand.remainder);
    writer.bytes(b"\n");
    writer.at
}
