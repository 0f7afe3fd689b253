//! The nodes' table: refusal 3, and its columns.

use super::fields::{fill, name_formed, repeated, u32_at};
use super::settings::Settings;
use super::Judged;
use crate::answer::refused;

pub struct Nodes {
    pub generation_zone: [usize; 256],
    pub demand_zone: [usize; 256],
    pub demand: [u64; 256],
}

impl Nodes {
    pub const NONE: Nodes = Nodes { generation_zone: [0; 256], demand_zone: [0; 256], demand: [0; 256] };

    pub fn read(&mut self, rows: &[[u8; 24]]) {
        fill(&mut self.generation_zone, rows.iter().map(|row| u32_at(row, 12)));
        fill(&mut self.demand_zone, rows.iter().map(|row| u32_at(row, 16)));
        fill(&mut self.demand, rows.iter().map(|row| u32_at(row, 20) as u64));
    }
}

fn sound(row: &[u8; 24], settings: &Settings) -> bool {
    name_formed(row, 0)
        && (1..=settings.generation_zones).contains(&u32_at(row, 12))
        && (1..=settings.demand_zones).contains(&u32_at(row, 16))
        && u32_at(row, 20) <= 20_000_000
}

/// The lowest row that is not sound, or whose name is seen earlier.
pub fn judge(rows: &[[u8; 24]], settings: &Settings) -> Judged {
    let unsound = rows.iter().position(|row| !sound(row, settings)).unwrap_or(rows.len());
    let row = unsound.min(repeated(rows));
    if row < rows.len() {
        return Err(refused(3, 0, row + 1));
    }
    Ok(())
}
