//! 01, 3 to 5: rows malformed, out of range, unknown, repeated. 02, CR 3: circuits' factors and new voltages.

use super::{any, Faults};
use reference::file::{padded, Case, CircuitRow, Name, NodeRow, StationRow, Version};
use reference::random::Chance;

/// A byte that no name has before its spaces.
fn odd_byte(chance: &mut Chance) -> u8 {
    chance.of(b"\0\x01\t\n!-./:;<=>?@[\\]^`abz{\x7f\x80\xc1\xff")
}

/// What is done to a name, and how.
type Spoiling = (&'static str, fn(&mut Name, &mut Chance));

/// Ways to spoil a name that is well-formed.
const MALFORMED: [Spoiling; 4] = [
    ("of spaces", |name, _| *name = [b' '; 12]),
    ("with a byte that is none of its letters", |name, chance| {
        let length = name.iter().take_while(|byte| **byte != b' ').count() as u64;
        name[chance.within(0, length.max(1) - 1) as usize] = odd_byte(chance);
    }),
    ("with another byte than a space behind it", |name, chance| {
        *name = padded(b"A");
        name[chance.within(1, 11) as usize] = odd_byte(chance);
    }),
    ("with a space before or inside it", |name, chance| {
        let text: &[u8] = chance.of(&[&b" A"[..], b"A B", b"          AB", b"A          B"]);
        *name = padded(text);
    }),
];

/// A name that no node of the case has.
fn unknown(case: &Case, chance: &mut Chance) -> Name {
    let mut name = padded(b"NOWHERE");
    if let Some(place) = any(chance, case.nodes.len()).filter(|_| chance.within(0, 1) == 0) {
        // one letter away from a node's
        name = case.nodes[place].name;
        name[0] = if name[0] == b'X' { b'Y' } else { b'X' };
    }
    let known = case.nodes.iter().any(|row| row.name == name);
    if known {
        padded(b"NOWHERE")
    } else {
        name
    }
}

pub fn add(list: &mut Faults) {
    add_nodes(list);
    add_circuits(list);
    add_factors(list);
    add_stations(list);
}

fn add_nodes(list: &mut Faults) {
    let mut row = |cause: String, change: Box<dyn Fn(&mut NodeRow, &Case, &mut Chance)>| {
        list.case(3, 0, cause, move |case, chance| {
            let place = any(chance, case.nodes.len())?;
            let mut changed = case.nodes[place].clone();
            change(&mut changed, case, chance);
            case.nodes[place] = changed;
            Some(place as u64 + 1)
        });
    };
    for (how, spoil) in MALFORMED {
        row(format!("node: a name {how}"), Box::new(move |row, _, chance| spoil(&mut row.name, chance)));
    }
    row("node: generation zone 0".into(), Box::new(|row, _, _| row.generation_zone = 0));
    row("node: demand zone 0".into(), Box::new(|row, _, _| row.demand_zone = 0));
    row(
        "node: generation zone behind the last".into(),
        Box::new(|row, case, chance| {
            row.generation_zone = chance.of(&[case.settings.generation_zones.saturating_add(1), u32::MAX])
        }),
    );
    row(
        "node: demand zone behind the last".into(),
        Box::new(|row, case, chance| {
            row.demand_zone = chance.of(&[case.settings.demand_zones.saturating_add(1), u32::MAX])
        }),
    );
    row(
        "node: demand above 20,000,000".into(),
        Box::new(|row, _, chance| row.demand = chance.of(&[20_000_001, u32::MAX])),
    );
    list.case(3, 0, "node: a name seen earlier", |case, chance| {
        let place = 1 + any(chance, case.nodes.len().checked_sub(1)?)?;
        case.nodes[place].name = case.nodes[any(chance, place)?].name;
        Some(place as u64 + 1)
    });
}

/// Voltages that no version has.
const OTHER_VOLTAGES: [u32; 15] =
    [0, 33, 131, 133, 274, 276, 319, 321, 399, 401, 524, 526, 320 << 8, 400_000, u32::MAX];

fn add_circuits(list: &mut Faults) {
    let mut row = |cause: String, change: Box<dyn Fn(&mut CircuitRow, &Case, &mut Chance)>| {
        list.case(4, 0, cause, move |case, chance| {
            let place = any(chance, case.circuits.len())?;
            let mut changed = case.circuits[place].clone();
            change(&mut changed, case, chance);
            case.circuits[place] = changed;
            Some(place as u64 + 1)
        });
    };
    for (how, spoil) in MALFORMED {
        row(
            format!("circuit: an end {how}"),
            Box::new(move |row, _, chance| {
                spoil(if chance.within(0, 1) == 0 { &mut row.first } else { &mut row.second }, chance)
            }),
        );
    }
    row("circuit: first end unknown".into(), Box::new(|row, case, chance| row.first = unknown(case, chance)));
    row("circuit: second end unknown".into(), Box::new(|row, case, chance| row.second = unknown(case, chance)));
    row(
        "circuit: equal ends".into(),
        Box::new(
            |row, _, chance| if chance.within(0, 1) == 0 { row.first = row.second } else { row.second = row.first },
        ),
    );
    row("circuit: another voltage".into(), Box::new(|row, _, chance| row.voltage = chance.of(&OTHER_VOLTAGES)));
    row("circuit: x 0".into(), Box::new(|row, _, _| row.x = 0));
    row("circuit: x above 10,000".into(), Box::new(|row, _, chance| row.x = chance.of(&[10_001, u32::MAX])));
    row(
        "circuit: overhead above 500,000".into(),
        Box::new(|row, _, chance| row.overhead = chance.of(&[500_001, u32::MAX])),
    );
    row("circuit: cable above 500,000".into(), Box::new(|row, _, chance| row.cable = chance.of(&[500_001, u32::MAX])));
    row("circuit: mark above 1".into(), Box::new(|row, _, chance| row.mark = chance.of(&[2, 256, u32::MAX])));
}

/// What is done to a circuit row.
type RowChange = fn(&mut CircuitRow, &mut Chance);

/// 02, CR 3: what stops a circuit row of version 2.
const OF_VERSION_2: [(&str, RowChange); 6] = [
    ("a factor of 1 to 999", |row, chance| row.factor = chance.of(&[1, 2, 500, 999, 999])),
    ("a factor above 30,000", |row, chance| row.factor = chance.of(&[30_001, 30_001, 1 << 16, 1 << 31, u32::MAX])),
    ("320 without a factor", |row, _| (row.voltage, row.factor) = (320, 0)),
    ("525 without a factor", |row, _| (row.voltage, row.factor) = (525, 0)),
    ("another voltage with a factor", |row, chance| {
        (row.voltage, row.factor) = (chance.of(&OTHER_VOLTAGES), chance.of(&[1_000, 30_000]));
    }),
    ("a factor out of range and no length", |row, chance| {
        (row.overhead, row.cable, row.factor) = (0, 0, chance.of(&[1, 999, 30_001]));
    }),
];

/// 02, CR 3: 4 "also covers the new rules"; version 1 is read as if the factor were 0.
fn add_factors(list: &mut Faults) {
    for (cause, change) in OF_VERSION_2 {
        list.case(4, 0, format!("circuit: {cause}"), move |case, chance| {
            change_circuit(case, Version::Two, chance, change)
        });
    }
    list.case(4, 0, "circuit: 320 or 525 in version 1", |case, chance| {
        change_circuit(case, Version::One, chance, |row, chance| row.voltage = chance.of(&[320, 525]))
    });
}

/// Changes a circuit of a case of a version: its row.
fn change_circuit(case: &mut Case, version: Version, chance: &mut Chance, change: RowChange) -> Option<u64> {
    let place = any(chance, case.circuits.len()).filter(|_| case.version == version)?;
    change(&mut case.circuits[place], chance);
    Some(place as u64 + 1)
}

fn add_stations(list: &mut Faults) {
    let mut row = |cause: String, change: Box<dyn Fn(&mut StationRow, &Case, &mut Chance)>| {
        list.case(5, 0, cause, move |case, chance| {
            let place = any(chance, case.stations.len())?;
            let mut changed = case.stations[place].clone();
            change(&mut changed, case, chance);
            case.stations[place] = changed;
            Some(place as u64 + 1)
        });
    };
    for (how, spoil) in MALFORMED {
        row(
            format!("station: an identifier {how}"),
            Box::new(move |row, _, chance| spoil(&mut row.identifier, chance)),
        );
        row(format!("station: a node's name {how}"), Box::new(move |row, _, chance| spoil(&mut row.node, chance)));
    }
    row("station: node unknown".into(), Box::new(|row, case, chance| row.node = unknown(case, chance)));
    row("station: plant type 0".into(), Box::new(|row, _, _| row.plant = 0));
    row(
        "station: plant type above 7".into(),
        Box::new(|row, _, chance| row.plant = chance.of(&[8, 256 + 1, u32::MAX])),
    );
    row(
        "station: TEC above 20,000,000".into(),
        Box::new(|row, _, chance| row.tec = chance.of(&[20_000_001, u32::MAX])),
    );
    list.case(5, 0, "station: an identifier seen earlier", |case, chance| {
        let place = 1 + any(chance, case.stations.len().checked_sub(1)?)?;
        case.stations[place].identifier = case.stations[any(chance, place)?].identifier;
        Some(place as u64 + 1)
    });
}
