//! Cases by chance, whole and with one thing changed.

use super::{List, Told};
use crate::random::{random, spoiled};

/// Seeds of cases of 60 to 120 nodes.
const MIDDLE: [u64; 3] = [2, 11, 24];

/// 60 small cases, 60 spoiled ones, 3 of a middle size.
pub fn add(list: &mut List) {
    for seed in 0..60 {
        list.file(format!("by chance {seed}"), random(seed, 12).bytes(), Told::Open);
    }
    for seed in 100..160 {
        list.file(format!("by chance {seed}, spoiled"), spoiled(&random(seed, 8), seed).bytes(), Told::Open);
    }
    for seed in MIDDLE {
        let case = random(seed, 120);
        list.file(format!("by chance {seed}, {} nodes", case.nodes.len()), case.bytes(), Told::Open);
    }
}
