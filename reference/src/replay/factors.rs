//! 02, CR 3, "Subsea and HVDC circuits": circuits' own factors, 320 and 525, and 4.

use super::bases::{circuit, in_version_2, kiln, kiln_2, kiln_of_four, kiln_with_a_spur, name, pair};
use super::figures::greatest_figures;
use super::orders::{said, FAULTS};
use super::{changed, solved, List, ONE};
use crate::file::{Case, CircuitRow, Version};
use crate::tables::INTERCONNECTOR;

/// 02, CR 3: the ends of a factor's range, their neighbours, and numbers far out of it.
const FACTORS: [u32; 10] = [0, 1, 999, 1_000, 1_001, 29_999, 30_000, 30_001, 1 << 31, u32::MAX];
/// 01 "The case file" and 02, CR 3: "320 or 525, new voltages".
const VOLTAGES: [u32; 5] = [132, 275, 400, 320, 525];
pub(super) const NEW_VOLTAGES: [u32; 2] = [320, 525];

/// Voltages and factors, lengths, bands, rows, orders, the greatest figures.
pub fn add(list: &mut List) {
    add_voltages_and_factors(list);
    add_other_voltages(list);
    add_version_1_voltages(list);
    add_lengths(list);
    add_other_lengths(list);
    add_voltage_s_own(list);
    add_side_by_side(list);
    add_without_length(list);
    add_bands(list);
    add_rows(list);
    add_settings(list);
    add_orders(list);
    add_greatest_lengths(list);
    add_limits(list);
    add_greatest(list);
}

/// KILN in version 2 with another factor for each kind of length, and some cable on circuit 2.
fn kiln_of_factors() -> Case {
    changed(&kiln_2(), |case| {
        case.settings.factors = [1_000, 2_000, 3_000, 4_000, 5_000, 6_000];
        case.circuits[1].cable = 1_000;
    })
}

/// "0 means by voltage, otherwise 1,000 to 30,000"; "At 320 or 525 .. it may not be 0".
fn add_voltages_and_factors(list: &mut List) {
    let base = kiln_of_factors();
    for voltage in VOLTAGES {
        for factor in FACTORS {
            let set = |case: &mut Case| (case.circuits[1].voltage, case.circuits[1].factor) = (voltage, factor);
            let label = format!("circuit 2: voltage {voltage}, factor {factor}");
            let by_voltage = factor == 0 && !NEW_VOLTAGES.contains(&voltage);
            if by_voltage || (1_000..=30_000).contains(&factor) {
                list.solved(label, &base, set);
            } else {
                list.refused(label, &base, set, (4, 0, 2));
            }
        }
    }
}

/// No factor makes another voltage lawful.
fn add_other_voltages(list: &mut List) {
    let base = kiln_of_factors();
    for voltage in [0, 319, 321, 524, 526] {
        for factor in FACTORS {
            let set = |case: &mut Case| (case.circuits[1].voltage, case.circuits[1].factor) = (voltage, factor);
            list.refused(format!("circuit 2: voltage {voltage}, factor {factor}"), &base, set, (4, 0, 2));
        }
    }
    // Lawful in their low bytes.
    for voltage in [131, 399, 401, 320 << 8, 525 + (1 << 16), 400 + (1 << 24), u32::MAX] {
        let set = |case: &mut Case| (case.circuits[1].voltage, case.circuits[1].factor) = (voltage, 1_000);
        list.refused(format!("circuit 2: voltage {voltage}, factor 1000"), &base, set, (4, 0, 2));
    }
    for factor in [1_000 + (1 << 16), 30_000 << 8, (1 << 31) + 1_000, 998, 30_002] {
        let set = |case: &mut Case| (case.circuits[1].voltage, case.circuits[1].factor) = (525, factor);
        list.refused(format!("circuit 2: voltage 525, factor {factor}"), &base, set, (4, 0, 2));
    }
}

/// "Version 1 files read as if the factor were 0", which "may not be 0" at the new voltages.
fn add_version_1_voltages(list: &mut List) {
    let base = kiln();
    for voltage in [319, 320, 321, 524, 525, 526] {
        let set = |case: &mut Case| case.circuits[1].voltage = voltage;
        list.refused(format!("version 1, circuit 2: voltage {voltage}"), &base, set, (4, 0, 2));
    }
    for voltage in NEW_VOLTAGES {
        for (place, row) in [(0, 1), (2, 3)] {
            let set = |case: &mut Case| case.circuits[place].voltage = voltage;
            list.refused(format!("version 1, circuit {row}: voltage {voltage}"), &base, set, (4, 0, row));
        }
        let all = |case: &mut Case| case.circuits.iter_mut().for_each(|row| row.voltage = voltage);
        list.refused(format!("version 1, all circuits: voltage {voltage}"), &base, all, (4, 0, 1));
        let and_five = |case: &mut Case| {
            case.circuits[2].voltage = voltage;
            case.stations[0].plant = 0;
        };
        list.refused(format!("version 1, circuit 3: voltage {voltage}, and 5"), &base, and_five, (4, 0, 3));
    }
}

/// One circuit of a voltage, a factor and both lengths, from GENR to LOAD, the reference: GENR's metres are its expanded
/// length. Every setting has another factor.
pub(super) fn length(voltage: u32, factor: u32, lengths: [u32; 2], mark: u32) -> Case {
    let [overhead, cable] = lengths;
    let row = CircuitRow { voltage, factor, cable, mark, ..circuit("GENR", "LOAD", 1, overhead) };
    let mut case = Case { version: Version::Two, ..pair(1_000, vec![row]) };
    case.settings.factors = [1_000, 7_000, 3_000, 9_000, 5_000, 11_000];
    case.settings.reference = 2;
    solved(&case)
}

/// "for both lengths of the row": overhead alone, cable alone, both; at every voltage, 400 overhead too; wider and local.
fn add_lengths(list: &mut List) {
    for voltage in VOLTAGES {
        for factor in [1_000, 2_500, 30_000] {
            for lengths in [[1_000, 0], [0, 1_000], [700, 300]] {
                let label = format!("{} + {} m at {voltage}, factor {factor}", lengths[0], lengths[1]);
                list.accepted(label, &length(voltage, factor, lengths, 0), |_| ());
            }
            let label = format!("700 + 300 m at {voltage}, factor {factor}, marked");
            list.accepted(label, &length(voltage, factor, [700, 300], 1), |_| ());
        }
    }
    for voltage in [132, 275, 400] {
        for lengths in [[1_000, 0], [0, 1_000], [700, 300]] {
            let label = format!("{} + {} m at {voltage}, by voltage", lengths[0], lengths[1]);
            list.accepted(label, &length(voltage, 0, lengths, 0), |_| ());
        }
    }
}

/// Solutions of other lengths than the row's, which is 700 x 5 + 300 x 5 m at 275, where the settings have 3 and 9.
fn add_other_lengths(list: &mut List) {
    for (mark, system) in [(0, 2), (1, 3)] {
        let case = length(275, 5_000, [700, 300], mark);
        list.accepted(format!("5,000 m by its own factor, system {system}"), &case, |_| ());
        for (what, metres) in [
            ("by voltage", 700 * 3 + 300 * 9),
            ("by the greater of both factors", 700 * 5 + 300 * 9),
            ("by the lesser of both factors", 700 * 3 + 300 * 5),
            ("by both factors", 700 * 3 * 5 + 300 * 9 * 5),
            ("without a factor", 700 + 300),
            ("without its cable", 700 * 5),
            ("without its overhead", 300 * 5),
            ("and 1 m more", 5_001),
        ] {
            let other = |case: &mut Case| case.runs[system - 1][0] = 1_000_000_000 * metres;
            let label = format!("5,000 m by its own factor, solved {what}, system {system}");
            list.refused(label, &case, other, (10, system as u32, 0));
        }
    }
    let by_voltage = length(275, 0, [700, 300], 0);
    let own = |case: &mut Case| case.runs[1][0] = 5_000_000_000_000;
    list.refused("4,800 m by voltage, solved by a factor of 5,000", &by_voltage, own, (10, 2, 0));
}

/// A factor that is the voltage's own changes nothing; at 400 overhead that is 1,000.
fn add_voltage_s_own(list: &mut List) {
    for (voltage, factor, lengths) in [
        (400, 1_000, [800, 0]),
        (400, 7_000, [0, 800]),
        (275, 3_000, [800, 0]),
        (275, 9_000, [0, 800]),
        (132, 5_000, [800, 0]),
        (132, 11_000, [0, 800]),
    ] {
        let label = format!("{} + {} m at {voltage}", lengths[0], lengths[1]);
        list.accepted(format!("{label}, by voltage"), &length(voltage, 0, lengths, 0), |_| ());
        list.accepted(format!("{label}, the voltage's factor {factor}"), &length(voltage, factor, lengths, 0), |_| ());
    }
}

/// KILN in version 2 with these factors on A-B, B-C and A-C.
fn kiln_with(factors: [u32; 3]) -> Case {
    let mut case = kiln_2();
    case.circuits.iter_mut().zip(factors).for_each(|(row, factor)| row.factor = factor);
    solved(&case)
}

/// Rows with different factors side by side, each its own: in every order, with marks, with voltages of both kinds.
fn add_side_by_side(list: &mut List) {
    for factors in [
        [0, 2_000, 3_500],
        [0, 3_500, 2_000],
        [2_000, 0, 3_500],
        [3_500, 0, 2_000],
        [2_000, 3_500, 0],
        [3_500, 2_000, 0],
        [1_000, 1_000, 1_000],
        [30_000, 1_000, 30_000],
        [2_000, 2_000, 2_000],
    ] {
        let case = kiln_with(factors);
        let label = format!("KILN with factors {factors:?}");
        list.accepted(label.clone(), &case, |_| ());
        list.solved(format!("{label}, A-C marked"), &case, |case| case.circuits[2].mark = 1);
    }
    let new = |case: &mut Case| (case.circuits[0].voltage, case.circuits[2].voltage) = (320, 525);
    list.accepted("KILN with factors [2000, 3500, 1500] at 320, 400 and 525", &kiln_with([2_000, 3_500, 1_500]), new);
    // Five side by side from one node to another.
    let rows = [(400, 0), (320, 4_000), (275, 2_000), (525, 30_000), (132, 0)];
    let row = |(voltage, factor)| CircuitRow { voltage, factor, cable: 20, ..circuit("GENR", "LOAD", 10, 300) };
    for turned in [false, true] {
        let mut circuits = rows.map(row).to_vec();
        if turned {
            circuits.reverse();
        }
        let mut case = Case { version: Version::Two, ..pair(10_000, circuits) };
        case.settings.factors = [1_000, 7_000, 3_000, 9_000, 5_000, 11_000];
        let way = if turned { ", in the other order" } else { "" };
        list.solved(format!("five side by side, each with its own factor{way}"), &case, |_| ());
    }
}

/// A circuit without length has nothing that a factor could lengthen, and is judged all the same.
fn add_without_length(list: &mut List) {
    let base = in_version_2(&kiln_with_a_spur());
    list.accepted("a spur without length, by voltage, in version 2", &base, |_| ());
    for voltage in VOLTAGES {
        for factor in [1_000, 30_000] {
            let set = |case: &mut Case| (case.circuits[3].voltage, case.circuits[3].factor) = (voltage, factor);
            list.accepted(format!("a spur without length at {voltage}, factor {factor}"), &base, set);
        }
        for factor in [1, 999, 30_001] {
            let set = |case: &mut Case| (case.circuits[3].voltage, case.circuits[3].factor) = (voltage, factor);
            list.refused(format!("a spur without length at {voltage}, factor {factor}"), &base, set, (4, 0, 4));
        }
    }
    for voltage in NEW_VOLTAGES {
        let set = |case: &mut Case| case.circuits[3].voltage = voltage;
        list.refused(format!("a spur without length at {voltage}, factor 0"), &base, set, (4, 0, 4));
    }
    // The spur carries 300 kW: with a length it is in doubt.
    let doubt =
        |case: &mut Case| (case.circuits[3].voltage, case.circuits[3].factor, case.circuits[3].cable) = (320, 1_000, 1);
    list.refused("300 kW on a spur of 1 m of cable at 320", &base, doubt, (11, 1, 4));
}

/// Step 4 with a factor: idle, in doubt, directed, whatever the factor; forward, backward, marked.
fn add_bands(list: &mut List) {
    for (voltage, factor) in [(320, 1_000), (525, 30_000), (400, 2_345)] {
        for (kw, told) in [(200, None), (201, Some((11, 1, 1))), (400, Some((11, 1, 1))), (401, None)] {
            for (way, mark) in [("forward", 0), ("backward", 0), ("marked", 1)] {
                let (first, second) = if way == "backward" { ("LOAD", "GENR") } else { ("GENR", "LOAD") };
                let row = CircuitRow { voltage, factor, mark, ..circuit(first, second, 100, 10) };
                let case = solved(&Case { version: Version::Two, ..pair(kw, vec![row]) });
                let label = format!("{kw} kW on a circuit at {voltage}, factor {factor}, {way}");
                match told {
                    None => list.accepted(label, &case, |_| ()),
                    Some(answer) => list.refused(label, &case, |_| (), answer),
                }
            }
        }
    }
}

/// The first row, a middle one, the last, the lowest of several; with other faults of rows.
fn add_rows(list: &mut List) {
    let base = in_version_2(&kiln_of_four());
    list.accepted("KILN with a node and a station more, of nothing, in version 2", &base, |_| ());
    for (place, row) in [(0, 1), (1, 2), (2, 3), (3, 4)] {
        let low = |case: &mut Case| case.circuits[place].factor = 999;
        list.refused(format!("factors: row {row} below the range"), &base, low, (4, 0, row));
        let high = |case: &mut Case| case.circuits[place].factor = 30_001;
        list.refused(format!("factors: row {row} above the range"), &base, high, (4, 0, row));
        let none = |case: &mut Case| case.circuits[place].voltage = 525;
        list.refused(format!("factors: row {row} at 525 without one"), &base, none, (4, 0, row));
    }
    for (place, row) in [(1, 2), (2, 3)] {
        let from_here = |case: &mut Case| case.circuits[place..].iter_mut().for_each(|row| row.factor = u32::MAX);
        list.refused(format!("factors: rows from {row} on out of range"), &base, from_here, (4, 0, row));
    }
    let all = |case: &mut Case| case.circuits.iter_mut().for_each(|row| row.factor = 1);
    list.refused("factors: all out of range", &base, all, (4, 0, 1));
    let then_x = |case: &mut Case| (case.circuits[1].factor, case.circuits[2].x) = (1, 0);
    list.refused("factors: row 2 out of range, row 3 of x 0", &base, then_x, (4, 0, 2));
    let x_first = |case: &mut Case| (case.circuits[1].x, case.circuits[2].factor) = (0, 1);
    list.refused("factors: row 2 of x 0, row 3 out of range", &base, x_first, (4, 0, 2));
    let unknown = |case: &mut Case| (case.circuits[2].first, case.circuits[3].factor) = (name("NODX"), 1);
    list.refused("factors: row 3 of an unknown end, row 4 out of range", &base, unknown, (4, 0, 3));
    let others = |case: &mut Case| (case.circuits[1].factor, case.circuits[3].voltage) = (2_000, 320);
    list.refused("factors: row 2 its own, row 4 at 320 without one", &base, others, (4, 0, 4));
}

/// The settings' factors are judged by 2, also where every row has its own.
fn add_settings(list: &mut List) {
    let base = kiln_with([2_000, 3_500, 1_500]);
    for (place, name) in
        ["400 overhead", "400 cable", "275 overhead", "275 cable", "132 overhead", "132 cable"].into_iter().enumerate()
    {
        let low = |case: &mut Case| case.settings.factors[place] = 999;
        list.refused(format!("{name} 999, every circuit with its own"), &base, low, (2, 0, 0));
        let past = if place == 0 { 1_001 } else { 30_001 };
        let high = |case: &mut Case| case.settings.factors[place] = past;
        list.refused(format!("{name} {past}, every circuit with its own"), &base, high, (2, 0, 0));
        if place > 0 {
            let most = |case: &mut Case| case.settings.factors[place] = 30_000;
            list.accepted(format!("{name} 30000, every circuit with its own"), &base, most);
        }
    }
}

/// A bad factor with each other fault: behind 1, 2, 3 and a lower row's 4, before 5 to 11 and 13.
fn add_orders(list: &mut List) {
    let base = in_version_2(&kiln_with_a_spur());
    let bad = |case: &mut Case| case.circuits[3].factor = 999;
    for (answer, fault) in FAULTS {
        let both = |case: &mut Case| (fault(case), bad(case)).1;
        match answer.0 {
            2..=4 => list.refused(format!("{} before a bad factor", said(answer)), &base, both, answer),
            _ => list.refused(format!("a bad factor before {}", said(answer)), &base, both, (4, 0, 4)),
        }
    }
    let links = |case: &mut Case| (bad(case), case.stations.iter_mut().for_each(|row| row.plant = INTERCONNECTOR)).1;
    list.refused("a bad factor before 13", &base, links, (4, 0, 4));
    let behind = FAULTS.iter().position(|((number, ..), _)| *number == 5).expect("a fault of 5");
    let all = |case: &mut Case| (FAULTS[behind..].iter().rev().for_each(|(_, fault)| fault(case)), bad(case)).1;
    list.refused("a bad factor before all behind it", &base, all, (4, 0, 4));
    let at_320 = |case: &mut Case| (FAULTS[behind].1(case), case.circuits[0].voltage = 320).1;
    list.refused("320 without a factor before 5", &base, at_320, (4, 0, 1));
    list.refused("1 before a bad factor", &base, |case| (bad(case), case.settings.zero = 1).1, (1, 0, 0));
    let longer = |case: &mut Case| (bad(case), case.runs[2].push(0)).1;
    list.refused("1 before a bad factor: local one row longer", &base, longer, (1, 0, 0));
    let file = changed(&base, bad).bytes();
    list.file("a bad factor, cut by a byte", file[..file.len() - 1].to_vec(), ONE);
}

/// 500,000 and 500,000 m at 30,000, past 32 bits, in a loop: at the new voltages and at 400, turned round, marked.
fn add_greatest_lengths(list: &mut List) {
    for voltage in [320, 525, 400] {
        let longest = |case: &mut Case| {
            let row = &mut case.circuits[2];
            (row.voltage, row.factor, row.overhead, row.cable, row.x) = (voltage, 30_000, 500_000, 500_000, 10_000);
        };
        list.solved(format!("30,000,000,000 mm at {voltage}"), &kiln_2(), longest);
        let turned = |case: &mut Case| {
            longest(case);
            let row = &mut case.circuits[2];
            std::mem::swap(&mut row.first, &mut row.second);
        };
        list.solved(format!("30,000,000,000 mm at {voltage}, turned round"), &kiln_2(), turned);
        let marked = |case: &mut Case| (longest(case), case.circuits[2].mark = 1).1;
        list.solved(format!("30,000,000,000 mm at {voltage}, marked"), &kiln_2(), marked);
    }
}

/// Potentials at their limit by a factor, and past it by the least more of a factor or of a length.
fn add_limits(list: &mut List) {
    for (mark, system) in [(0, 2), (1, 3)] {
        for (reference, row) in [(1, 2), (2, 1)] {
            let of = |factor: u32, lengths: [u32; 2]| {
                solved(&changed(&length(525, factor, lengths, mark), |case| case.settings.reference = reference))
            };
            let label = |what: &str| format!("{what}, system {system}, from row {reference}");
            list.accepted(label("10^16 nm by factor 20,000"), &of(20_000, [500_000, 0]), |_| ());
            list.refused(label("factor 20,001"), &of(20_001, [500_000, 0]), |_| (), (8, system, row));
            list.accepted(label("10^16 nm by factor 10,000"), &of(10_000, [500_000, 500_000]), |_| ());
            list.refused(label("factor 10,001"), &of(10_001, [500_000, 500_000]), |_| (), (8, system, row));
            list.accepted(label("333,333 m at 30,000"), &of(30_000, [111_111, 222_222]), |_| ());
            list.refused(label("333,334 m at 30,000"), &of(30_000, [111_111, 222_223]), |_| (), (8, system, row));
        }
    }
}

/// The greatest figures by factors of circuits.
fn add_greatest(list: &mut List) {
    for (p, revenue) in [(0, 10_000_000_000), (1_000, 0)] {
        let own = |case: &mut Case| {
            case.version = Version::Two;
            case.settings.factors[2] = 1_000;
            case.circuits.iter_mut().for_each(|row| (row.voltage, row.factor) = (525, 20_000));
        };
        let label = format!("greatest figures by factors of circuits, p {p}, revenue {revenue}");
        list.accepted(label, &greatest_figures(p, revenue), own);
    }
}
