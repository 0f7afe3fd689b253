//! 02, CR 4, "Less room for the walk": the lowest row out of reach of every case of the replay, found a second way, and what
//! the cases for the walk are about.

use reference::file::{whole_case, Case};
use reference::replay::{cases, Labelled, Told};
use std::collections::{BTreeSet, HashMap};

/// Cases of the replay before those for the walk, and those for the walk.
const EARLIER: usize = 3_026;
const WALKS: usize = 241;

/// The cases for the walk, each with its tables.
fn walks() -> Vec<(Labelled, Case)> {
    let with_tables = |case: Labelled| whole_case(&case.file).map(|tables| (case, tables));
    cases().into_iter().skip(EARLIER).take(WALKS).map(|case| with_tables(case).expect("a whole file")).collect()
}

/// The row that stands for all rows joined with this one.
fn chief(chiefs: &[usize], mut row: usize) -> usize {
    while chiefs[row] != row {
        row = chiefs[row];
    }
    row
}

/// The lowest row, from 1, that isn't joined with the reference. There is no walk here: each circuit, taken once, puts the
/// rows of both its ends together.
fn lowest_apart(case: &Case) -> Option<u32> {
    let rows: HashMap<_, _> = case.nodes.iter().zip(0..).map(|(node, row)| (node.name, row)).collect();
    let mut chiefs: Vec<usize> = (0..case.nodes.len()).collect();
    for circuit in &case.circuits {
        let [first, second] = [circuit.first, circuit.second].map(|name| chief(&chiefs, rows[&name]));
        chiefs[first] = second;
    }
    let reference = chief(&chiefs, case.settings.reference as usize - 1);
    let apart = (0..chiefs.len()).find(|row| chief(&chiefs, *row) != reference);
    apart.map(|row| row as u32 + 1)
}

/// The row of refusal 6, or none where 6 doesn't stop a case; `None` where something before it does.
fn judged_reach(case: &Labelled) -> Option<Option<u32>> {
    let line = case.first_line();
    let Some(refusal) = line.strip_prefix("refused ") else { return Some(None) };
    let numbers: Vec<u32> = refusal.split(' ').map(|number| number.parse().unwrap()).collect();
    match numbers[0] {
        1..=5 => None,
        6 => Some(Some(numbers[2])),
        _ => Some(None),
    }
}

#[test]
fn reach_is_the_same_another_way() {
    let (mut within, mut apart) = (0, 0);
    for case in cases() {
        let Some(row) = judged_reach(&case) else { continue };
        let tables = whole_case(&case.file).expect("1 goes before 6");
        assert_eq!(lowest_apart(&tables), row, "{}", case.label);
        *(if row.is_none() { &mut within } else { &mut apart }) += 1;
    }
    assert!(within > 1_400 && apart > 120, "{within} {apart}");
}

#[test]
fn cases_for_the_walk_are_sheets_or_six() {
    let (mut sheets, mut sixes) = (0, 0);
    for (case, tables) in walks() {
        match case.told {
            Told::Sheet => sheets += 1,
            Told::Refused(6, 0, row) if (1..=tables.nodes.len() as u32).contains(&row) => sixes += 1,
            told => panic!("{}: {told:?}", case.label),
        }
    }
    assert!(sheets > 70 && sixes > 100, "{sheets} {sixes}");
}

#[test]
fn walks_end_on_either_side_of_every_word_s_end() {
    let (whole, cut): (Vec<_>, Vec<_>) = walks().into_iter().partition(|(case, _)| case.told == Told::Sheet);
    let numbers = |walks: &[(Labelled, Case)], asked: fn(&Case) -> u32| -> BTreeSet<u32> {
        walks.iter().map(|(_, tables)| asked(tables)).collect()
    };
    let nodes = |tables: &Case| tables.nodes.len() as u32;
    let reference = |tables: &Case| tables.settings.reference;
    let lowest = |tables: &Case| lowest_apart(tables).expect("a row out of reach");
    let around = BTreeSet::from([1, 63, 64, 65, 127, 128, 129, 191, 192, 193, 255, 256]);
    let sides = BTreeSet::from([1, 64, 65, 128, 129, 192, 193, 256]);
    assert!(numbers(&whole, nodes).is_superset(&around));
    // One node by itself is never out of reach.
    assert_eq!(&around - &numbers(&cut, nodes), BTreeSet::from([1]));
    assert!(numbers(&cut, lowest).is_superset(&around));
    assert!(numbers(&whole, reference).is_superset(&sides));
    assert!(numbers(&cut, reference).is_superset(&sides));
}
