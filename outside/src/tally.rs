//! How often each answer and each cause was met.

use crate::bands::{flow_is_idle, has_length, Flows};
use crate::edition_2::of_edition_2;
use crate::faults::Told;
use crate::halves::negative_halves;
use crate::shares::of_share;
use reference::file::{Case, CircuitRow, Edition, Name, StationRow, Version};
use reference::tables::INTERCONNECTOR;
use std::collections::{BTreeMap, BTreeSet};

/// Counts of a run.
#[derive(Default)]
pub struct Tally {
    pub inputs: u64,
    /// By number, 1 to 16; 0 is accepted.
    answers: [u64; 17],
    /// 02, CR 5: of files that name edition 2, by number and system.
    of_edition_2: BTreeMap<(u64, u64), u64>,
    pub causes: BTreeMap<String, u64>,
    pub orders: BTreeMap<String, u64>,
}

/// 02, CR 5: every number and system that edition 2 is answered with.
fn answers_of_edition_2() -> impl Iterator<Item = (u64, u64)> {
    let alone = [0, 1, 2, 3, 4, 5, 6, 7, 12, 13, 14, 15, 16].map(|number| (number, 0));
    let of_systems = [8, 9, 10].into_iter().flat_map(|number| (1..=5).map(move |system| (number, system)));
    alone.into_iter().chain(of_systems).chain([(11, 1), (11, 4)])
}

/// An answer in words.
fn answer_said(number: u64, system: u64) -> String {
    match number {
        0 => "accepted".to_string(),
        _ => format!("refused {}", said(number, system)),
    }
}

/// A number, and its system where it has one.
pub fn said(number: u64, system: u64) -> String {
    match system {
        0 => number.to_string(),
        _ => format!("{number} of system {system}"),
    }
}

impl Tally {
    /// Counts an input's answer, and that of a file that names edition 2 beside.
    pub fn answered(&mut self, edition: Option<Edition>, (number, system, _): Told) {
        self.inputs += 1;
        self.answers[number as usize] += 1;
        if edition == Some(Edition::Two) {
            *self.of_edition_2.entry((number, system)).or_default() += 1;
        }
    }

    /// A cause that has to be met, though it may not be yet.
    pub fn expect(&mut self, cause: &str) {
        self.causes.entry(cause.to_string()).or_default();
    }

    pub fn met(&mut self, cause: &str) {
        *self.causes.entry(cause.to_string()).or_default() += 1;
    }

    /// What an accepted case has at the ends of 01's ranges, and what else makes it different from others.
    pub fn met_accepted(&mut self, case: &Case, sheet: &[u8]) {
        for (name, met) in features(case, sheet) {
            if met {
                self.met(&name);
            }
        }
    }

    /// 02, CR 6: what an accepted case has of a share file.
    pub fn met_share(&mut self, case: &Case, share: &[u8]) {
        of_share(case, share).iter().filter(|(_, met)| *met).for_each(|(name, _)| self.met(&accepted_said(name)));
    }

    /// How often a case was accepted with something.
    pub fn accepted_with(&self, name: &str) -> u64 {
        self.causes.get(&accepted_said(name)).copied().unwrap_or_default()
    }

    /// Every end of a range has to be met, and every feature.
    pub fn expect_accepted(&mut self) {
        let kiln = reference::replay::bases::kiln();
        features(&kiln, b"").iter().for_each(|(name, _)| self.expect(name));
        of_share(&kiln, b"").iter().for_each(|(name, _)| self.expect(&accepted_said(name)));
        self.of_edition_2 = answers_of_edition_2().map(|answer| (answer, 0)).collect();
    }

    /// Every count on a line, and the names of those that are too low.
    pub fn report(&self, least_answer: u64, least_cause: u64) -> Vec<String> {
        println!("inputs: {}", self.inputs);
        let answers = self.answers.iter().zip(0..).map(|(count, number)| (answer_said(number, 0), *count));
        let mut rare = too_rare("answers", answers, least_answer);
        let of_edition_2 =
            self.of_edition_2.iter().map(|((number, system), count)| (answer_said(*number, *system), *count));
        let inputs: u64 = self.of_edition_2.values().sum();
        let title = format!("answers to the {inputs} inputs that name edition 2");
        rare.extend(
            too_rare(&title, of_edition_2, least_cause).into_iter().map(|answer| format!("edition 2, {answer}")),
        );
        rare.extend(too_rare("causes", self.causes.iter().map(|(cause, count)| (cause.clone(), *count)), least_cause));
        let pairs: u64 = self.orders.values().sum();
        println!("orders: {pairs} inputs with two faults, {} different pairs of number and system; the first was answered each time", self.orders.len());
        rare
    }
}

/// What an accepted case has, among the causes.
fn accepted_said(name: &str) -> String {
    format!("accepted with {name}")
}

/// Prints counts under a title, each on a line, and gives the names of those that are too low.
fn too_rare(title: &str, counts: impl Iterator<Item = (String, u64)>, least: u64) -> Vec<String> {
    println!("{title} (each at least {least}):");
    let mut rare = Vec::new();
    for (name, count) in counts {
        println!("  {count:>8}  {name}");
        if count < least {
            rare.push(name);
        }
    }
    rare
}

/// What a case may have, by name, and whether it has it.
fn features(case: &Case, sheet: &[u8]) -> Vec<(String, bool)> {
    let mut list = Vec::new();
    for (quantity, low, high, numbers) in ends(case) {
        for (end, word) in [(low, "least"), (high, "greatest")] {
            list.push((format!("accepted with the {word} {quantity}, {end}"), numbers.contains(&end)));
        }
    }
    let circuits = deciding_flows(case);
    let idle = flow_is_idle;
    let mut add = |name: &str, met| list.push((format!("accepted with {name}"), met));
    add("a 275 kV circuit", circuits.iter().any(|(row, _)| row.voltage == 275));
    add("a 400 kV circuit", circuits.iter().any(|(row, _)| row.voltage == 400));
    add("an idle circuit", circuits.iter().any(|(_, flow)| idle(*flow)));
    add("an idle circuit of 200,000,000 mW", circuits.iter().any(|(_, flow)| flow.abs() == 200_000_000));
    add("a circuit backward", circuits.iter().any(|(_, flow)| !idle(*flow) && *flow < 0));
    add("a marked circuit that is not idle", circuits.iter().any(|(row, flow)| !idle(*flow) && row.mark == 1));
    add("a zone without kilowatts", sheet.windows(3).any(|bytes| bytes == b" -\n"));
    add(
        "TEC equal to demand",
        case.stations.iter().map(|row| row.tec as u64).sum::<u64>()
            == case.nodes.iter().map(|row| row.demand as u64).sum(),
    );
    let requests = interconnectors(case).into_iter().chain(factors(case)).chain(of_edition_2(case));
    list.extend(requests.map(|(name, met)| (format!("accepted with {name}"), met)));
    list.extend(negative_halves(case).into_iter().map(|half| (format!("accepted with {}", half.name), half.met)));
    list
}

/// 01 step 4, 02 CR 5: the circuits with a length, and of each the flow that decides on its direction.
fn deciding_flows(case: &Case) -> Vec<(&CircuitRow, i64)> {
    let places = (0..case.circuits.len()).filter(|place| has_length(&case.circuits[*place]));
    let decided = places.filter_map(|place| {
        let flows = Flows::of(case, place);
        flows.deciding().map(|system| (&case.circuits[place], flows.flow(system)))
    });
    decided.collect()
}

/// 02, CR 1: what a case may have of type 3, by name, and whether it has it.
fn interconnectors(case: &Case) -> [(&'static str, bool); 6] {
    let of = |links: bool| move |row: &&StationRow| row.tec > 0 && (row.plant == INTERCONNECTOR) == links;
    let places = |links: bool| case.stations.iter().filter(of(links)).map(|row| row.node).collect::<BTreeSet<_>>();
    let (links, paying) = (places(true), places(false));
    let zones = |places: &BTreeSet<Name>| {
        let nodes = case.nodes.iter().filter(|row| places.contains(&row.name));
        nodes.map(|row| row.generation_zone).collect::<BTreeSet<u32>>()
    };
    let chargeable: u64 = case.stations.iter().filter(of(false)).map(|row| row.tec as u64).sum();
    let zero = |row: &StationRow| row.tec == 0 && row.plant == INTERCONNECTOR;
    [
        ("type 3 TEC", !links.is_empty()),
        ("a zone of type 3 alone", !zones(&links).is_subset(&zones(&paying))),
        ("a node of type 3 alone", !links.is_subset(&paying)),
        ("a node of type 3 and another type", !links.is_disjoint(&paying)),
        ("a station of type 3 with 0 kW", case.stations.iter().any(zero)),
        ("one chargeable kilowatt beside type 3", chargeable == 1 && !links.is_empty()),
    ]
}

/// 02, CR 3: what a case may have of version 2, by name, and whether it has it.
fn factors(case: &Case) -> [(&'static str, bool); 13] {
    let two = case.version == Version::Two;
    let own = |of: fn(&CircuitRow) -> bool| case.circuits.iter().any(|row| row.factor > 0 && of(row));
    let by_voltage = case.circuits.iter().any(|row| row.factor == 0);
    [
        ("version 2", two),
        ("version 2 and no circuits", two && case.circuits.is_empty()),
        ("version 2 and 480 circuits", two && case.circuits.len() == 480),
        ("version 2, circuits with and without a factor", two && by_voltage && own(|_| true)),
        ("a circuit's own factor", own(|_| true)),
        ("a circuit's own factor at 320", own(|row| row.voltage == 320)),
        ("a circuit's own factor at 525", own(|row| row.voltage == 525)),
        ("a circuit's own factor at 400 overhead", own(|row| row.voltage == 400 && row.overhead > 0)),
        ("a circuit's own factor for both lengths", own(|row| row.overhead > 0 && row.cable > 0)),
        ("a circuit's own factor on a marked one", own(|row| row.mark == 1 && row.overhead + row.cable > 0)),
        ("a circuit's own factor and no length", own(|row| row.overhead + row.cable == 0)),
        ("the least factor of a circuit, 1000", own(|row| row.factor == 1_000)),
        ("the greatest factor of a circuit, 30000", own(|row| row.factor == 30_000)),
    ]
}

/// Each quantity of 01 with the ends of its range, and what a case has of it. No sheet has 0 stations or 0 kilowatts.
fn ends(case: &Case) -> Vec<(&'static str, u64, u64, Vec<u64>)> {
    let settings = &case.settings;
    let nodes =
        |of: fn(&reference::file::NodeRow) -> u32| case.nodes.iter().map(|row| of(row) as u64).collect::<Vec<u64>>();
    let circuits = |of: fn(&reference::file::CircuitRow) -> u32| {
        case.circuits.iter().map(|row| of(row) as u64).collect::<Vec<u64>>()
    };
    let tec: Vec<u64> = case.stations.iter().map(|row| row.tec as u64).collect();
    let demand = nodes(|row| row.demand);
    let one = |number: u32| vec![number as u64];
    vec![
        ("count of nodes", 1, 256, vec![case.nodes.len() as u64]),
        ("count of circuits", 0, 512, vec![case.circuits.len() as u64]),
        ("count of stations", 1, 512, vec![case.stations.len() as u64]),
        ("generation zones", 1, 32, one(settings.generation_zones)),
        ("demand zones", 1, 32, one(settings.demand_zones)),
        ("p", 0, 1_000, one(settings.p)),
        ("constant", 1, 10_000, one(settings.constant)),
        ("wider factor", 1_000, 5_000, one(settings.wider_factor)),
        ("local factor", 1_000, 5_000, one(settings.local_factor)),
        ("expansion factor", 1_000, 30_000, settings.factors[1..].iter().map(|factor| *factor as u64).collect()),
        ("revenue", 0, 10_000_000_000, vec![settings.revenue]),
        ("total demand", 1, 100_000_000, vec![demand.iter().sum()]),
        ("total TEC", 1, 100_000_000, vec![tec.iter().sum()]),
        ("demand", 0, 20_000_000, demand),
        ("TEC", 0, 20_000_000, tec),
        ("x", 1, 10_000, circuits(|row| row.x)),
        ("overhead", 0, 500_000, circuits(|row| row.overhead)),
        ("cable", 0, 500_000, circuits(|row| row.cable)),
        ("mark", 0, 1, circuits(|row| row.mark)),
        ("voltage", 132, 525, circuits(|row| row.voltage)),
    ]
}
