//! The text of figures, made aside and copied where it fits.

use super::editions::Edition;
use super::lines::{constant_line, node_line, remainder_line, zone_line, Line, WIDTH};
use super::tariffs::{Figures, SideFigures};
use super::zones::Side;

/// Room for any text: two sides of 32 zones, 256 nodes, and the lines of C and of the remainders.
const ROOM: usize = 44 + 2 * (32 * WIDTH) + 256 * 57 + 44;

/// Where the next line goes.
struct Writer<'a> {
    out: &'a mut [u8],
    at: usize,
}

impl Writer<'_> {
    fn line(&mut self, line: Line) {
        let text = line.text();
        self.out[self.at..][..text.len()].copy_from_slice(text);
        self.at += text.len();
    }

    fn zones(&mut self, edition: Edition, side: Side, figures: &SideFigures) {
        for (k, zone) in figures.zone[..figures.zones].iter().enumerate() {
            self.line(zone_line(edition, side, k + 1, figures.residual, zone));
        }
    }
}

fn put(figures: &Figures, nodes: &[[u8; 24]], out: &mut [u8]) -> usize {
    let mut writer = Writer { out, at: 0 };
    writer.line(constant_line(figures.edition, figures.c, figures.peak_c));
    writer.zones(figures.edition, Side::Generation, &figures.generation);
    writer.zones(figures.edition, Side::Demand, &figures.demand);
    for (row, local) in nodes.iter().zip(&figures.local) {
        if local.tec > 0 {
            writer.line(node_line(row, local));
        }
    }
    writer.line(remainder_line(figures.generation.remainder, figures.demand.remainder));
    writer.at
}

/// The length of the text; its bytes where the buffer holds them.
pub fn write(figures: &Figures, nodes: &[[u8; 24]], out: &mut [u8]) -> usize {
    let mut aside = [0; ROOM];
    let length = put(figures, nodes, &mut aside);
    if length <= out.len() {
        out[..length].copy_from_slice(&aside[..length]);
    }
    length
}
