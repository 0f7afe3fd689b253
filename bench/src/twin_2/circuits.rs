//! The circuits' table: its columns, and refusal 4.

use super::fields::{fill, key_at, name_formed, place, u32_at};
use super::Judged;
use crate::answer::refused;
use std::slice::ChunksExact;

/// The nodes at each circuit's ends, their count where a row names none; reactance, expanded length in mm, local mark.
pub struct Circuits {
    pub first: [usize; 512],
    pub second: [usize; 512],
    pub x: [u64; 512],
    pub length: [u64; 512],
    pub mark: [u64; 512],
}

/// A row's own factor; 0, which means by voltage, in version 1.
fn own_factor(row: &[u8]) -> usize {
    if row.len() < 48 {
        return 0;
    }
    u32_at(row, 44)
}

/// Overhead and cable by their factors; 0 where one is above its range.
fn expanded_length(row: &[u8], factors: &[usize; 6]) -> u64 {
    let (over, under) = match (own_factor(row), u32_at(row, 24)) {
        (0, 400) => (factors[0], factors[1]),
        (0, 275) => (factors[2], factors[3]),
        (0, _) => (factors[4], factors[5]),
        (own, _) => (own, own),
    };
    let (overhead, cable) = (u32_at(row, 32), u32_at(row, 36));
    if overhead <= 500_000 && cable <= 500_000 && over <= 30_000 && under <= 30_000 {
        return (overhead * over + cable * under) as u64;
    }
    0
}

impl Circuits {
    pub const NONE: Circuits =
        Circuits { first: [0; 512], second: [0; 512], x: [0; 512], length: [0; 512], mark: [0; 512] };

    pub fn read(&mut self, nodes: &[[u8; 24]], rows: &ChunksExact<u8>, factors: &[usize; 6]) {
        let rows = || rows.clone();
        fill(&mut self.first, rows().map(|row| place(nodes, key_at(row, 0))));
        fill(&mut self.second, rows().map(|row| place(nodes, key_at(row, 12))));
        fill(&mut self.x, rows().map(|row| u32_at(row, 28) as u64));
        fill(&mut self.length, rows().map(|row| expanded_length(row, factors)));
        fill(&mut self.mark, rows().map(|row| u32_at(row, 40) as u64));
    }
}

/// 0 means by voltage, and 320 and 525 have no factor there.
fn sound_factor(voltage: usize, own: usize) -> bool {
    match voltage {
        132 | 275 | 400 => own == 0 || (1000..=30_000).contains(&own),
        320 | 525 => (1000..=30_000).contains(&own),
        _ => false,
    }
}

fn sound(row: &[u8], nodes: usize, first: usize, second: usize) -> bool {
    name_formed(row, 0)
        && name_formed(row, 12)
        && first < nodes
        && second < nodes
        && key_at(row, 0) != key_at(row, 12)
        && sound_factor(u32_at(row, 24), own_factor(row))
        && (1..=10_000).contains(&u32_at(row, 28))
        && u32_at(row, 32) <= 500_000
        && u32_at(row, 36) <= 500_000
        && u32_at(row, 40) <= 1
}

/// The lowest row that is not sound, its ends resolved.
pub fn judge(nodes: usize, rows: &ChunksExact<u8>, circuits: &Circuits) -> Judged {
    for (i, row) in rows.clone().enumerate() {
        if !sound(row, nodes, circuits.first[i], circuits.second[i]) {
            return Err(refused(4, 0, i + 1));
        }
    }
    Ok(())
}
