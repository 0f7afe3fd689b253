//! The stations' table: refusal 5, TEC by node and plant type, and what counts of it by node.

use super::fields::{fill, key_at, name_formed, place, repeated, u32_at};
use super::plants::Counted;
use super::Judged;
use crate::answer::refused;

/// The TEC of each node by plant types 1 to 7.
pub type ByType = [[u64; 7]; 256];

/// What 512 stations can have at most in a cell.
const MOST: u64 = 512 * u32::MAX as u64;

/// Each station's node, plant type and TEC.
pub struct Stations {
    node: [usize; 512],
    plant: [usize; 512],
    tec: [u64; 512],
}

impl Stations {
    pub const NONE: Stations = Stations { node: [0; 512], plant: [0; 512], tec: [0; 512] };

    pub fn read(&mut self, nodes: &[[u8; 24]], rows: &[[u8; 32]]) {
        fill(&mut self.node, rows.iter().map(|row| place(nodes, key_at(row, 12))));
        fill(&mut self.plant, rows.iter().map(|row| u32_at(row, 24)));
        fill(&mut self.tec, rows.iter().map(|row| u32_at(row, 28) as u64));
    }
}

fn sound(row: &[u8; 32], nodes: usize, node: usize) -> bool {
    name_formed(row, 0)
        && name_formed(row, 12)
        && node < nodes
        && (1..=7).contains(&u32_at(row, 24))
        && u32_at(row, 28) <= 20_000_000
}

/// The lowest row that is not sound, its node resolved, or whose identifier is seen earlier.
pub fn judge(nodes: usize, rows: &[[u8; 32]], stations: &Stations) -> Judged {
    let mut resolved = rows.iter().zip(&stations.node);
    let unsound = resolved.position(|(row, node)| !sound(row, nodes, *node)).unwrap_or(rows.len());
    let row = unsound.min(repeated(rows));
    if row < rows.len() {
        return Err(refused(5, 0, row + 1));
    }
    Ok(())
}

/// Adds TEC up by node and plant type, in one pass over the stations.
pub fn add_up(sums: &mut ByType, nodes: usize, count: usize, stations: &Stations) {
    for k in 0..count {
        let (node, plant) = (stations.node[k], stations.plant[k]);
        if node < nodes && (1..=7).contains(&plant) {
            sums[node][plant - 1] += stations.tec[k];
        }
    }
}

/// What counts of each node's TEC, added up through its types.
pub fn by_node(by_type: &ByType, counted: Counted) -> [u64; 256] {
    let mut sums = [0; 256];
    for (sum, types) in sums.iter_mut().zip(by_type) {
        for (kw, plant) in types.iter().zip(1..) {
            if *kw <= MOST {
                *sum += counted.part(plant, *kw);
            }
        }
    }
    sums
}
