//! Cases of chosen counts, accepted and refused, through the reference's maker and solver.

use reference::file::{padded, Case, CircuitRow, Edition, NodeRow, Settings, StationRow};
use reference::largest::{largest, largest_of_edition_2, largest_of_version_2};
use reference::sharing::Share;
use reference::solver::solved;
use wirepulley::Solutions;

/// A case as an entry takes it: the file's bytes, the runs beside them, and the share file's bytes, none where there is none.
#[derive(Clone)]
pub struct Input {
    pub file: Vec<u8>,
    pub runs: Solutions,
    pub share: Vec<u8>,
}

impl Input {
    pub fn of(case: &Case) -> Input {
        Input::read(case.bytes())
    }

    /// A file with the runs that stand in it.
    pub fn read(file: Vec<u8>) -> Input {
        Input { runs: Solutions::of_file(&file), file, share: Vec::new() }
    }

    /// Whether the file is of the edition that the two frozen ones don't know: the settings' zero names it (02, CR 5). Any other number
    /// but 0 is refused as 1, by them too; and edition 1 does not look at a share file.
    pub fn second_edition(&self) -> bool {
        self.file.get(52..56) == Some(&2u32.to_le_bytes()[..])
    }
}

/// The largest case: 256 nodes, 512 circuits, 512 stations, 32 and 32 zones.
pub fn greatest() -> Case {
    largest()
}

/// The largest case of version 2: 480 circuits, most of them with factors.
pub fn greatest_of_version_2() -> Case {
    largest_of_version_2()
}

/// The largest case of edition 2: 320 circuits.
pub fn greatest_of_edition_2() -> Case {
    largest_of_edition_2()
}

/// The largest case of edition 2 with share files over its 32 zones: all in one chain, all at the centre, and all on a circle but for one.
pub fn shared() -> Vec<(&'static str, Input)> {
    let case = greatest_of_edition_2();
    let with = |next: fn(u32) -> u32| Input {
        share: Share { next: (1..=32).map(next).collect(), load: [380, 800, 600, 900, 80, 80, 90] }.bytes(),
        ..Input::of(&case)
    };
    vec![
        ("sharing, one chain", with(|zone| zone - 1)),
        ("sharing, all at the centre", with(|zone| u32::from(zone > 1))),
        ("16, a circle at the end", with(|zone| if zone < 31 { zone - 1 } else { 63 - zone })),
    ]
}

/// The tables of that one in edition 1, solved for it.
pub fn greatest_of_edition_2_in_edition_1() -> Case {
    let case = largest_of_edition_2();
    without_doubt(Case { edition: Edition::One, settings: Settings { zero: 0, ..case.settings }, ..case })
}

/// The name of a node: twelve letters that differ late.
fn name(node: usize) -> [u8; 12] {
    padded(format!("ROW_{:02}_COL{:02}", node / 16, node % 16).as_bytes())
}

/// An accepted case: a ring, then chords; stations at all nodes in turn. There are at least as many circuits as nodes.
pub fn sized(nodes: usize, circuits: usize, stations: usize) -> Case {
    let pattern = largest();
    let case = Case {
        nodes: (0..nodes)
            .map(|v| NodeRow { name: name(v), demand: 100_000 + 300 * v as u32, ..pattern.nodes[v].clone() })
            .collect(),
        circuits: (0..circuits).map(|c| chord(&pattern.circuits[c], c, nodes)).collect(),
        stations: (0..stations)
            .map(|k| StationRow {
                node: name(k % nodes),
                tec: (90_000_000 / stations) as u32,
                ..pattern.stations[k].clone()
            })
            .collect(),
        settings: Settings { reference: 1, ..pattern.settings },
        ..pattern
    };
    without_doubt(case)
}

/// The circuit of a number: round the ring once, then ever wider chords.
fn chord(pattern: &CircuitRow, number: usize, nodes: usize) -> CircuitRow {
    let (turn, from) = (number / nodes, number % nodes);
    let to = (from + 1 + 5 * turn) % nodes;
    CircuitRow { first: name(from), second: name(to), ..pattern.clone() }
}

/// The case solved, with no length on circuits whose direction is in doubt.
fn without_doubt(mut case: Case) -> Case {
    case = solved(&case).0;
    for (circuit, flow) in case.circuits.iter_mut().zip(&case.runs[0][case.nodes.len()..]) {
        if (200_000_001..=400_000_000).contains(&flow.abs()) {
            (circuit.overhead, circuit.cable) = (0, 0);
        }
    }
    solved(&case).0
}

/// Chains of 256 nodes with 512 stations, their circuits in different orders, and the largest case with its circuits in none: a label, and what is lent.
pub fn walks() -> Vec<(&'static str, Input)> {
    let mut rising = sized(256, 512, 512);
    rising.circuits.truncate(255);
    let order = |label, change: fn(&mut Case)| {
        let mut case = rising.clone();
        change(&mut case);
        (label, Input::of(&without_doubt(case)))
    };
    let (_, mut cut) = order("", |case| case.circuits.reverse());
    // The falling table's first circuit leads to the last node: moved, it leaves that node alone.
    let end = cut.file[64 + 24 * 256 + 44..][..24].to_vec();
    cut.file[64 + 24 * 256..][..24].copy_from_slice(&end);
    let mut mesh = largest();
    shuffle(&mut mesh.circuits);
    vec![
        ("chain, rising", order("", |_| ()).1),
        ("chain, falling", order("", |case| case.circuits.reverse()).1),
        ("chain, shuffled", order("", |case| shuffle(&mut case.circuits)).1),
        ("chain, falling, last node cut", cut),
        ("the largest case, shuffled", Input::of(&solved(&mesh).0)),
    ]
}

/// The same disorder each time.
fn shuffle(rows: &mut [CircuitRow]) {
    let mut state = 88_172_645_463_325_252u64;
    for last in (1..rows.len()).rev() {
        state ^= state << 13;
        state ^= state >> 7;
        state ^= state << 17;
        rows.swap(last, (state % (last as u64 + 1)) as usize);
    }
}

/// The largest case with one thing wrong, for each stage, late in its table: a label, and what is lent.
pub fn refused() -> Vec<(&'static str, Input)> {
    let case = largest();
    let whole = Input::of(&case);
    let table = |change| with_table(&case, change);
    let number = |place, by| with_number(&whole, place, by);
    let mut short = whole.clone();
    short.file.truncate(1000);
    vec![
        ("1, file cut", short),
        ("2, a setting", table(|case| case.settings.p = 1001)),
        ("3, first node", table(|case| case.nodes[0].generation_zone = 0)),
        ("3, last node's name", table(|case| case.nodes[255].name = case.nodes[0].name)),
        ("4, last circuit", table(|case| case.circuits[511].first = padded(b"NOWHERE"))),
        ("5, last identifier", table(|case| case.stations[511].identifier = case.stations[0].identifier)),
        ("7, totals", table(|case| case.stations[511].tec = 20_000_000)),
        ("8, base, last", number(|runs| &mut runs.base[767], i64::MAX / 2)),
        ("9, base, last node", number(|runs| &mut runs.base[767], 1)),
        ("10, base", number(|runs| &mut runs.base[0], 1_000_000_000)),
        ("9, local, last node", number(|runs| &mut runs.local[767], 1)),
        ("10, local", number(|runs| &mut runs.local[0], 1_000_000_000)),
    ]
}

/// The same of edition 2, by what it adds.
pub fn refused_of_edition_2() -> Vec<(&'static str, Input)> {
    let case = largest_of_edition_2();
    let whole = Input::of(&case);
    let number = |place, by| with_number(&whole, place, by);
    let mut without_peak = whole.clone();
    without_peak.runs.peak_wider.clear();
    let intermittent = |case: &mut Case| case.stations.iter_mut().for_each(|row| row.plant = 1);
    vec![
        ("1, no run for peak", without_peak),
        ("14, all intermittent", with_table(&case, intermittent)),
        ("8, peak base, last", number(|runs| &mut runs.peak_base[575], i64::MAX / 2)),
        ("9, peak base, last node", number(|runs| &mut runs.peak_base[575], 1)),
        ("10, peak base", number(|runs| &mut runs.peak_base[0], 1_000_000_000)),
        ("9, peak wider, last node", number(|runs| &mut runs.peak_wider[575], 1)),
        ("10, peak wider", number(|runs| &mut runs.peak_wider[0], 1_000_000_000)),
        ("10, local", number(|runs| &mut runs.local[0], 1_000_000_000)),
    ]
}

/// A case with its tables changed, and the runs as they were.
fn with_table(case: &Case, change: fn(&mut Case)) -> Input {
    let mut case = case.clone();
    change(&mut case);
    Input::of(&case)
}

/// What is lent with one number of its runs changed.
fn with_number(whole: &Input, place: fn(&mut Solutions) -> &mut i64, by: i64) -> Input {
    let mut input = whole.clone();
    *place(&mut input.runs) += by;
    input
}
