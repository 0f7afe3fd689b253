//! 01 "What stops a case", 4: circuit rows.

use super::bases::{kiln, kiln_of_four, name};
use super::names::malformed;
use super::List;
use crate::file::{Case, CircuitRow};

/// Ends, numbers, rows.
pub fn add(list: &mut List) {
    add_ends(list);
    add_numbers(list);
    add_rows(list);
}

/// Ends unknown, equal, malformed.
fn add_ends(list: &mut List) {
    let base = kiln();
    let mut refuse = |label: &str, first: &str, second: &str| {
        let set = |case: &mut Case| (case.circuits[1].first, case.circuits[1].second) = (name(first), name(second));
        list.refused(format!("circuit 2: {label}"), &base, set, (4, 0, 2));
    };
    refuse("first end unknown", "NODX", "NODC");
    refuse("second end unknown", "NODB", "NODX");
    refuse("both ends unknown", "NODX", "NODY");
    refuse("equal ends", "NODB", "NODB");
    refuse("equal ends, unknown", "NODX", "NODX");
    refuse("first end a station's identifier", "GEN_1", "NODC");
    refuse("second end a station's identifier", "NODB", "GEN_1");
    refuse("first end the beginning of a name", "NOD", "NODC");
    refuse("second end a name and a letter", "NODB", "NODCC");
    for (what, name) in malformed() {
        list.refused(format!("circuit 2: first end {what}"), &base, |case| case.circuits[1].first = name, (4, 0, 2));
    }
    for (what, name) in malformed().into_iter().take(7) {
        list.refused(format!("circuit 3: second end {what}"), &base, |case| case.circuits[2].second = name, (4, 0, 3));
    }
    let all_turned = |case: &mut Case| case.circuits.iter_mut().for_each(turn);
    list.solved("KILN with every circuit turned round", &base, all_turned);
    list.refused(
        "KILN with circuit 1 turned round, its flows as before",
        &base,
        |case| turn(&mut case.circuits[0]),
        (9, 1, 1),
    );
}

/// Voltages, x, lengths, marks.
fn add_numbers(list: &mut List) {
    let base = kiln();
    let refuse = (4, 0, 2);
    for voltage in [132, 275] {
        // Each voltage has its own factors.
        let set = |case: &mut Case| {
            case.settings.factors = [1_000, 2_000, 3_000, 4_000, 5_000, 6_000];
            (case.circuits[1].voltage, case.circuits[1].cable) = (voltage, 1_000);
        };
        list.solved(format!("circuit 2: voltage {voltage}"), &base, set);
    }
    for voltage in [0, 131, 133, 274, 276, 399, 401, 400 << 8, u32::MAX] {
        list.refused(format!("circuit 2: voltage {voltage}"), &base, |case| case.circuits[1].voltage = voltage, refuse);
    }
    for x in [1, 9_999, 10_000] {
        list.solved(format!("circuit 2: x {x}"), &base, |case| case.circuits[1].x = x);
    }
    for x in [0, 10_001, u32::MAX] {
        list.refused(format!("circuit 2: x {x}"), &base, |case| case.circuits[1].x = x, refuse);
    }
    for length in [0, 1, 499_999, 500_000] {
        list.solved(format!("circuit 2: overhead length {length}"), &base, |case| case.circuits[1].overhead = length);
    }
    for length in [1, 499_999, 500_000] {
        list.solved(format!("circuit 2: cable length {length}"), &base, |case| case.circuits[1].cable = length);
    }
    for length in [500_001, 1 << 31, u32::MAX] {
        let overhead = |case: &mut Case| case.circuits[1].overhead = length;
        list.refused(format!("circuit 2: overhead length {length}"), &base, overhead, refuse);
        let cable = |case: &mut Case| case.circuits[1].cable = length;
        list.refused(format!("circuit 2: cable length {length}"), &base, cable, refuse);
    }
    list.solved("circuit 2: mark 1", &base, |case| case.circuits[1].mark = 1);
    for mark in [2, 256, 1 << 31, u32::MAX] {
        list.refused(format!("circuit 2: mark {mark}"), &base, |case| case.circuits[1].mark = mark, refuse);
    }
    // The longest a circuit can be: 3 x 10^10 mm, past 32 bits. In a loop it turns flow round.
    let longest = |case: &mut Case| {
        case.settings.factors[5] = 30_000;
        case.settings.factors[4] = 30_000;
        let row = &mut case.circuits[2];
        (row.voltage, row.overhead, row.cable) = (132, 500_000, 500_000);
        (row.x, case.circuits[0].x, case.circuits[1].x) = (10_000, 100, 100);
    };
    list.solved("circuit 3: 30,000,000,000 mm", &base, longest);
    list.solved("circuit 3: 30,000,000,000 mm, turned round", &base, |case| {
        longest(case);
        turn(&mut case.circuits[2]);
    });
    // Solutions of other numbers than the row's.
    list.refused("circuit 2: x 101, solved for 100", &base, |case| case.circuits[1].x = 101, (10, 1, 0));
    list.refused("circuit 2: 1 m more than solved for", &base, |case| case.circuits[1].overhead += 1, (10, 2, 0));
    list.refused("circuit 2: marked, solved without", &base, |case| case.circuits[1].mark = 1, (10, 2, 0));
}

/// A circuit from its second node to its first.
fn turn(row: &mut CircuitRow) {
    std::mem::swap(&mut row.first, &mut row.second);
}

/// The first row, the last, the lowest of two.
fn add_rows(list: &mut List) {
    let base = kiln_of_four();
    list.refused("circuits: the first out of range", &base, |case| case.circuits[0].x = 0, (4, 0, 1));
    list.refused("circuits: the last out of range", &base, |case| case.circuits[3].x = 0, (4, 0, 4));
    let two = |case: &mut Case| (case.circuits[2].mark, case.circuits[1].voltage) = (2, 0);
    list.refused("circuits: rows 2 and 3 out of range", &base, two, (4, 0, 2));
    let two = |case: &mut Case| (case.circuits[1].first, case.circuits[2].x) = (name("NODX"), 0);
    list.refused("circuits: row 2 unknown, row 3 out of range", &base, two, (4, 0, 2));
    let two = |case: &mut Case| (case.circuits[1].x, case.circuits[2].first) = (0, name("NODC"));
    list.refused("circuits: row 2 out of range, row 3 of equal ends", &base, two, (4, 0, 2));
    let two = |case: &mut Case| (case.circuits[2].first, case.circuits[3].first) = (name("NODC"), name("NODX"));
    list.refused("circuits: row 3 of equal ends, row 4 unknown", &base, two, (4, 0, 3));
    let all = |case: &mut Case| case.circuits.iter_mut().for_each(|row| row.voltage = 0);
    list.refused("circuits: all out of range", &base, all, (4, 0, 1));
}
