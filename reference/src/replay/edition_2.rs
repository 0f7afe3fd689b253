//! Cases of edition 2 (02, CR 5) that others are made from by a change. Their solutions are by hand: flows of each background
//! as wanted, and each length in the system it is said to stand in.

use super::bases::{circuit, kiln, node, pair, station};
use crate::file::{Case, CircuitRow, Edition, Settings, StationRow, Version};

/// 02, CR 5: the plant type that runs at all of its TEC year round and not at peak.
const YEAR_ROUND_ALONE: u32 = 3;
/// 02, CR 5: a plant type that doesn't run year round.
const PEAK_ALONE: u32 = 6;
/// mW in a kilowatt.
const MILLIWATTS: i64 = 1_000_000;
/// nm in a metre.
const NANOMETRES: i64 = 1_000_000_000;

/// The places of the five systems among the runs, with their numbers and names.
pub const SYSTEMS: [(usize, u32, &str); 5] =
    [(0, 1, "base"), (1, 2, "wider"), (2, 3, "local"), (3, 4, "peak base"), (4, 5, "peak wider")];
/// The places of the base systems, year round's and peak's.
pub const BASES: [usize; 2] = [0, 3];

/// Where a circuit's length stands.
#[derive(Clone, Copy, Debug, PartialEq, Eq)]
pub enum Stands {
    YearRound,
    Peak,
    Local,
    /// Idle, or nothing to stand.
    Nowhere,
}

impl Stands {
    /// The place of the run with the length, and which of the two flows it has its sign from.
    pub fn places(self) -> Option<(usize, usize)> {
        match self {
            Stands::YearRound => Some((1, 0)),
            Stands::Local => Some((2, 0)),
            Stands::Peak => Some((4, 1)),
            Stands::Nowhere => None,
        }
    }

    /// The system's name.
    pub fn word(self) -> &'static str {
        match self {
            Stands::YearRound => "wider",
            Stands::Local => "local",
            Stands::Peak => "peak wider",
            Stands::Nowhere => "no system",
        }
    }
}

/// The case's tables in edition 2 whatever their counts, with solutions of zeros.
pub fn as_edition_2(case: &Case) -> Case {
    let (version, edition) = (Version::Two, Edition::Two);
    let settings = Settings { zero: edition.zero(), ..case.settings.clone() };
    let case = Case { version, edition, settings, ..case.clone() };
    Case { runs: case.zeros(), ..case }
}

/// A case of types 4 and 7 in edition 2. They share all demand in both backgrounds, so that no flow is greater year round:
/// every unmarked circuit counts for peak, whose solutions are edition 1's, and year round has no distances.
pub fn twin(case: &Case) -> Case {
    let [base, wider, local, ..] = case.runs.clone();
    let twin = as_edition_2(case);
    let nothing = twin.runs[1].clone();
    Case { runs: [base.clone(), nothing, local, base, wider], ..twin }
}

/// 01's own case in edition 2.
pub fn kiln_twin() -> Case {
    twin(&kiln())
}

/// 392 bytes: GENR, the reference, sends 1,000 kW to LOAD over 1,000 m.
pub fn small() -> Case {
    let mut case = pair(1_000, vec![circuit("GENR", "LOAD", 100, 1_000)]);
    case.runs[0] = vec![0, -100_000 * MILLIWATTS, 1_000 * MILLIWATTS];
    case.runs[1] = vec![0, -1_000 * NANOMETRES, 0];
    twin(&case)
}

/// Nodes S1, S2, .. that send so many kW year round and at peak, and HUB, the reference, which takes them; no circuits yet.
/// Type 3 runs at all of its TEC year round and makes all of demand, type 6 does so at peak: 14 lets either just pass.
fn senders(kw: &[[i64; 2]]) -> Case {
    let sum = |of: usize| kw.iter().map(|kw| kw[of]).sum::<i64>();
    let hub = ("HUB".to_string(), sum(0).max(sum(1)).max(1), [-sum(0), -sum(1)]);
    let own = kw.iter().zip(1..).map(|(kw, turn)| (format!("S{turn}"), (-kw[0]).max(-kw[1]).max(0), *kw));
    let mut case = as_edition_2(&Case { settings: kiln().settings, ..Case::default() });
    case.settings.reference = kw.len() as u32 + 1;
    for (text, demand, net) in own.chain([hub]) {
        case.nodes.push(node(&text, demand as u32));
        for (plant, kw) in [(YEAR_ROUND_ALONE, demand + net[0]), (PEAK_ALONE, demand + net[1])] {
            let row = StationRow { plant, ..station(&format!("{text}_{plant}"), &text, kw as u32) };
            case.stations.extend((kw > 0).then_some(row));
        }
    }
    case
}

/// A node that sends so many kW to HUB year round and at peak over a circuit of so many metres.
#[derive(Clone, Copy)]
pub struct Spoke {
    pub kw: [i64; 2],
    pub metres: u32,
    pub mark: u32,
    pub stands: Stands,
}

/// A spoke, marked where its length stands in local.
pub fn spoke(kw: [i64; 2], metres: u32, stands: Stands) -> Spoke {
    Spoke { kw, metres, mark: (stands == Stands::Local) as u32, stands }
}

/// Spokes around HUB with x 1: the base potentials are the flows, and a length is a potential.
pub fn spokes(spokes: &[Spoke]) -> Case {
    let mut case = senders(&spokes.iter().map(|spoke| spoke.kw).collect::<Vec<_>>());
    let row = |(spoke, turn): (&Spoke, usize)| CircuitRow {
        mark: spoke.mark,
        ..circuit(&format!("S{turn}"), "HUB", 1, spoke.metres)
    };
    case.circuits = spokes.iter().zip(1..).map(row).collect();
    case.runs = case.zeros();
    let nodes = case.nodes.len();
    for (place, spoke) in spokes.iter().enumerate() {
        for (run, kw) in BASES.into_iter().zip(spoke.kw) {
            (case.runs[run][place], case.runs[run][nodes + place]) = (kw * MILLIWATTS, kw * MILLIWATTS);
        }
        if let Some((run, of)) = spoke.stands.places() {
            case.runs[run][place] = spoke.kw[of].signum() * spoke.metres as i64 * NANOMETRES;
        }
    }
    case
}

/// S1 and HUB with two circuits of x 1 side by side. The first has so many metres and carries so many mW year round and at
/// peak, the other has no length and carries nearly as much. They share the metres evenly: S1 stands half of them away.
pub fn side_by_side(flows: [i64; 2], metres: u32, mark: u32, stands: Stands) -> Case {
    let kw = flows.map(|flow| (flow + flow.signum() * MILLIWATTS / 2) / MILLIWATTS * 2);
    let mut case = senders(&[kw]);
    case.circuits = vec![CircuitRow { mark, ..circuit("S1", "HUB", 1, metres) }, circuit("S1", "HUB", 1, 0)];
    case.runs = case.zeros();
    for (run, (flow, kw)) in BASES.into_iter().zip(flows.into_iter().zip(kw)) {
        case.runs[run] = vec![flow, 0, flow, kw * MILLIWATTS - flow];
    }
    if let Some((run, of)) = stands.places() {
        let half = flows[of].signum() * metres as i64 * NANOMETRES / 2;
        case.runs[run] = vec![half, 0, -half, half];
    }
    case
}

/// NODA, NODB and NODC, the reference, in a ring: A-B has its 10,000 m year round, B-C its 20,000 m at peak, A-C is marked and
/// has 34,000 m. Year round A sends 100,000 kW to C, at peak A sends 20,000 and B 80,000. No solution is of zeros alone.
pub fn ring() -> Case {
    let mut case = senders(&[[100_000, 20_000], [0, 80_000]]);
    for (row, text) in case.nodes.iter_mut().zip(["NODA", "NODB", "NODC"]) {
        let old = std::mem::replace(&mut row.name, node(text, 0).name);
        case.stations.iter_mut().filter(|at| at.node == old).for_each(|at| at.node = row.name);
    }
    let marked = CircuitRow { mark: 1, ..circuit("NODA", "NODC", 200, 34_000) };
    case.circuits = vec![circuit("NODA", "NODB", 100, 10_000), circuit("NODB", "NODC", 100, 20_000), marked];
    let billions = |numbers: [i64; 6]| numbers.map(|number| number * 1_000_000_000).to_vec();
    case.runs = [
        billions([10_000, 5_000, 0, 50, 50, 50]),
        billions([5_000, -2_500, 0, -25, -25, 25]),
        billions([17_000, 8_500, 0, 85, 85, -85]),
        billions([6_000, 7_000, 0, -10, 70, 30]),
        billions([10_000, 15_000, 0, -50, -50, 50]),
    ];
    case
}
