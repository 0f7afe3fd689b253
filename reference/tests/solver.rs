//! The solver: exact balance and small misses for networks of every size.

mod common;

use common::*;
use reference::file::Case;
use reference::random::{random, random_of_edition_2, Chance};
use reference::solver::{propose, solved};
use reference::tables::{sound_tables, INTERCONNECTOR};
use std::collections::BTreeMap;

/// The answer's number, 0 for a sheet. Balance and misses are right whatever else.
fn answer(case: &Case) -> u32 {
    let number = judged(case).err().map_or(0, |refusal| refusal.number);
    assert!(![9, 10].contains(&number), "{}", printed(case));
    number
}

/// How often each answer comes.
fn answers(cases: impl Iterator<Item = Case>) -> BTreeMap<u32, u32> {
    let mut counts = BTreeMap::new();
    for case in cases {
        *counts.entry(answer(&case)).or_insert(0) += 1;
    }
    counts
}

#[test]
fn small_networks() {
    let counts = answers((0..400).map(|seed| random(seed, 12)));
    assert!(counts[&0] > 200, "{counts:?}");
    assert!(counts.keys().all(|number| [0, 7, 8, 11, 13].contains(number)), "{counts:?}");
}

#[test]
fn large_networks() {
    let counts = answers((1_000..1_020).map(|seed| random(seed, 256)));
    assert!(counts.keys().all(|number| [0, 7, 8, 11, 13].contains(number)), "{counts:?}");
}

#[test]
fn networks_of_edition_2() {
    let small = answers((0..200).map(|seed| random_of_edition_2(seed, 12)));
    let large = answers((1_000..1_020).map(|seed| random_of_edition_2(seed, 256)));
    assert!(small[&0] > 120, "{small:?}");
    let known = |number: &u32| [0, 7, 8, 11, 13, 14, 15].contains(number);
    assert!(small.keys().chain(large.keys()).all(known), "{small:?} {large:?}");
}

#[test]
fn misses_stay_far_below_their_limit() {
    for seed in 2_000..2_030 {
        let Ok(tables) = sound_tables(&random(seed, 200)) else { continue };
        let Ok(proposal) = propose(&tables) else { continue };
        assert!(proposal.misses.iter().all(|misses| *misses < 50_000_000), "{seed} {:?}", proposal.misses);
    }
    for case in [reference::largest::largest(), reference::largest::largest_of_edition_2()] {
        let proposal = propose(&sound_tables(&case).unwrap()).unwrap();
        assert_eq!(proposal.runs, case.runs);
        assert!(proposal.misses.iter().all(|misses| *misses < 1_000_000));
    }
}

#[test]
fn many_circuits_side_by_side_share_their_rounding() {
    // A path of 100 nodes with x 10,000 and 400 equal circuits over its whole length: rounded alike, their parts
    // would add up on the path.
    let mut case = pair(1_000_001, Vec::new());
    case.nodes = (0..100).map(|place| node(&format!("N{place}"), if place == 99 { 1_000_001 } else { 0 })).collect();
    case.stations[0].node = name("N0");
    case.circuits =
        (1..100).map(|place| circuit(&format!("N{}", place - 1), &format!("N{place}"), 10_000, 0)).collect();
    case.circuits.extend((0..400).map(|_| circuit("N0", "N99", 10_000, 1)));
    let (solved, trouble) = solved(&case);
    assert_eq!(trouble, None);
    accepted(&solved, |_| ());
}

#[test]
fn refused_tables_get_zeros_and_the_reason() {
    let mut case = kiln();
    case.nodes[1].name = name("NODA");
    let (solved, trouble) = solved(&case);
    assert_eq!(trouble.as_deref(), Some("refused 3 0 2"));
    assert_eq!(solved.own_runs(), [vec![0; 6], vec![0; 6], vec![0; 6]]);
}

#[test]
fn tables_without_chargeable_tec_are_solved() {
    // 13 comes behind soundness: the solutions are those of any other type.
    let mut case = kiln();
    case.stations.iter_mut().for_each(|row| row.plant = INTERCONNECTOR);
    assert_eq!(solved(&case), (case, None));
}

#[test]
fn chance_gives_the_same_case_again() {
    assert_eq!(random(5, 12), random(5, 12));
    assert_ne!(random(5, 12), random(6, 12));
    assert_eq!(Chance(0).bits(), 0xe220_a839_7b1d_cdaf);
}
