//! Document 01 with requests 1 to 3, as a good Rust programmer writes it without a thought of speed: records in `Vec`, names and zones in `HashMap`, the
//! sheet by `write!` to a `String`.

use crate::answer::{accepted, refused, Answer};
use std::collections::{HashMap, HashSet};
use std::fmt::Write;

type Name = [u8; 12];

/// Plant type 3 weighs and does not pay.
const INTERCONNECTOR: u32 = 3;

struct Settings {
    generation_zones: u32,
    demand_zones: u32,
    p: i64,
    constant: i64,
    wider_factor: i64,
    local_factor: i64,
    factors: [u32; 6],
    reference: usize,
    revenue: u64,
}

struct Node {
    name: Name,
    generation_zone: u32,
    demand_zone: u32,
    demand: i64,
}

struct Circuit {
    first: usize,
    second: usize,
    x: i64,
    length: i64,
    local: bool,
}

struct Station {
    node: usize,
    plant: u32,
    tec: i64,
}

/// The TEC of a node: all of it weighs, and interconnectors' does not pay.
#[derive(Clone, Copy, Default)]
struct Tec {
    all: i64,
    paying: i64,
}

struct Study {
    settings: Settings,
    nodes: Vec<Node>,
    circuits: Vec<Circuit>,
    stations: Vec<Station>,
}

fn u32_at(bytes: &[u8], at: usize) -> u32 {
    u32::from_le_bytes(bytes[at..at + 4].try_into().unwrap())
}

fn name_at(bytes: &[u8], at: usize) -> Name {
    bytes[at..at + 12].try_into().unwrap()
}

fn well_formed(name: &Name) -> bool {
    let letters = name.iter().take_while(|b| b.is_ascii_uppercase() || b.is_ascii_digit() || **b == b'_').count();
    letters > 0 && name[letters..].iter().all(|b| *b == b' ')
}

/// A whole file's settings, nodes, circuits and stations, and the bytes of a circuit row, by its version.
struct Sections<'a> {
    settings: &'a [u8],
    nodes: &'a [u8],
    circuits: &'a [u8],
    stations: &'a [u8],
    circuit_size: usize,
}

fn sections(file: &[u8]) -> Option<Sections<'_>> {
    let start = file.len().checked_sub(64)?;
    let trailer: Vec<u32> = file[start..].chunks(4).map(|word| u32_at(word, 0)).collect();
    let counts: Vec<usize> = trailer[..14].chunks(2).map(|pair| pair[1] as usize).collect();
    let numbers = counts[1] + counts[2];
    let (circuit_size, most_circuits) = match trailer[14] {
        1 => (44, 512),
        2 => (48, 480),
        _ => return None,
    };
    if trailer[15] as usize != file.len()
        || counts[0] != 1
        || !(1..=256).contains(&counts[1])
        || counts[2] > most_circuits
        || counts[3] > 512
        || counts[4..].iter().any(|count| *count != numbers)
    {
        return None;
    }
    let mut end = 0;
    let mut found = Vec::new();
    for (k, size) in [64, 24, circuit_size, 32, 8, 8, 8].iter().enumerate() {
        if trailer[2 * k] as usize != end {
            return None;
        }
        let next = end + counts[k] * size;
        found.push(file.get(end..next)?);
        end = next;
    }
    if end != start || u32_at(file, 52) != 0 {
        return None;
    }
    Some(Sections { settings: found[0], nodes: found[1], circuits: found[2], stations: found[3], circuit_size })
}

fn settings(bytes: &[u8], nodes: usize) -> Option<Settings> {
    let at = |offset| u32_at(bytes, offset);
    let settings = Settings {
        generation_zones: at(0),
        demand_zones: at(4),
        p: at(8) as i64,
        constant: at(12) as i64,
        wider_factor: at(16) as i64,
        local_factor: at(20) as i64,
        factors: std::array::from_fn(|k| at(24 + 4 * k)),
        reference: at(48) as usize,
        revenue: u64::from_le_bytes(bytes[56..64].try_into().unwrap()),
    };
    let sound = (1..=32).contains(&settings.generation_zones)
        && (1..=32).contains(&settings.demand_zones)
        && settings.p <= 1000
        && (1..=10_000).contains(&settings.constant)
        && (1000..=5000).contains(&settings.wider_factor)
        && (1000..=5000).contains(&settings.local_factor)
        && settings.factors[0] == 1000
        && settings.factors[1..].iter().all(|factor| (1000..=30_000).contains(factor))
        && (1..=nodes).contains(&settings.reference)
        && settings.revenue <= 10_000_000_000;
    sound.then_some(settings)
}

fn node(row: &[u8], settings: &Settings) -> Option<Node> {
    let node = Node {
        name: name_at(row, 0),
        generation_zone: u32_at(row, 12),
        demand_zone: u32_at(row, 16),
        demand: u32_at(row, 20) as i64,
    };
    let sound = well_formed(&node.name)
        && (1..=settings.generation_zones).contains(&node.generation_zone)
        && (1..=settings.demand_zones).contains(&node.demand_zone)
        && node.demand <= 20_000_000;
    sound.then_some(node)
}

fn circuit(row: &[u8], settings: &Settings, places: &HashMap<Name, usize>) -> Option<Circuit> {
    let first = *places.get(&name_at(row, 0))?;
    let second = *places.get(&name_at(row, 12))?;
    let factors = &settings.factors;
    // version 1 has no factor in its row
    let own = row.get(44..48).map_or(0, |bytes| u32_at(bytes, 0));
    let (over, under) = match (u32_at(row, 24), own) {
        (400, 0) => (factors[0], factors[1]),
        (275, 0) => (factors[2], factors[3]),
        (132, 0) => (factors[4], factors[5]),
        (132 | 275 | 400 | 320 | 525, 1000..=30_000) => (own, own),
        _ => return None,
    };
    let (x, overhead, cable, mark) = (u32_at(row, 28), u32_at(row, 32), u32_at(row, 36), u32_at(row, 40));
    let sound = first != second && (1..=10_000).contains(&x) && overhead <= 500_000 && cable <= 500_000 && mark <= 1;
    sound.then(|| Circuit {
        first,
        second,
        x: x as i64,
        length: overhead as i64 * over as i64 + cable as i64 * under as i64,
        local: mark == 1,
    })
}

fn station(row: &[u8], places: &HashMap<Name, usize>) -> Option<Station> {
    let node = *places.get(&name_at(row, 12))?;
    let (plant, tec) = (u32_at(row, 24), u32_at(row, 28));
    let sound = well_formed(&name_at(row, 0)) && (1..=7).contains(&plant) && tec <= 20_000_000;
    sound.then_some(Station { node, plant, tec: tec as i64 })
}

/// Refusals 1 to 5.
fn study(file: &[u8], runs: [&[i64]; 3]) -> Result<Study, Answer> {
    let found = sections(file).ok_or(refused(1, 0, 0))?;
    let node_count = found.nodes.len() / 24;
    let numbers = node_count + found.circuits.len() / found.circuit_size;
    if runs.iter().any(|run| run.len() != numbers) {
        return Err(refused(1, 0, 0));
    }
    let settings = settings(found.settings, node_count).ok_or(refused(2, 0, 0))?;
    let mut places = HashMap::new();
    let mut nodes = Vec::new();
    for (k, row) in found.nodes.chunks(24).enumerate() {
        let node = node(row, &settings).ok_or(refused(3, 0, k + 1))?;
        if places.insert(node.name, k).is_some() {
            return Err(refused(3, 0, k + 1));
        }
        nodes.push(node);
    }
    let mut circuits = Vec::new();
    for (k, row) in found.circuits.chunks(found.circuit_size).enumerate() {
        circuits.push(circuit(row, &settings, &places).ok_or(refused(4, 0, k + 1))?);
    }
    let mut identifiers = HashSet::new();
    let mut stations = Vec::new();
    for (k, row) in found.stations.chunks(32).enumerate() {
        let station = station(row, &places).ok_or(refused(5, 0, k + 1))?;
        if !identifiers.insert(name_at(row, 0)) {
            return Err(refused(5, 0, k + 1));
        }
        stations.push(station);
    }
    Ok(Study { settings, nodes, circuits, stations })
}

/// Refusal 6: the lowest node that can't be reached.
fn unreached(study: &Study) -> Option<usize> {
    let mut neighbours = vec![Vec::new(); study.nodes.len()];
    for circuit in &study.circuits {
        neighbours[circuit.first].push(circuit.second);
        neighbours[circuit.second].push(circuit.first);
    }
    let start = study.settings.reference - 1;
    let mut reached = vec![false; study.nodes.len()];
    let mut waiting = vec![start];
    reached[start] = true;
    while let Some(here) = waiting.pop() {
        for next in &neighbours[here] {
            if !reached[*next] {
                reached[*next] = true;
                waiting.push(*next);
            }
        }
    }
    reached.iter().position(|reached| !reached)
}

fn scaled(tec: &[Tec], demand: i64, total: i64) -> Vec<i64> {
    let mut scaled: Vec<i64> = tec.iter().map(|tec| tec.all * demand / total).collect();
    let mut missing = demand - scaled.iter().sum::<i64>();
    for (kw, tec) in scaled.iter_mut().zip(tec) {
        if missing > 0 && tec.all * demand % total != 0 {
            *kw += 1;
            missing -= 1;
        }
    }
    scaled
}

/// Refusals 8, 9 and 10 of a system.
fn system(study: &Study, number: u64, limit: i64, supply: &[i64], offset: &[i64], run: &[i64]) -> Result<(), Answer> {
    let (potentials, flows) = run.split_at(study.nodes.len());
    let reference = study.settings.reference - 1;
    for (k, z) in potentials.iter().enumerate() {
        if z.unsigned_abs() > limit as u64 || (k == reference && *z != 0) {
            return Err(refused(8, number, k + 1));
        }
    }
    for (k, z) in flows.iter().enumerate() {
        if z.unsigned_abs() > 100_000_000_000_000 {
            return Err(refused(8, number, potentials.len() + k + 1));
        }
    }
    let mut net = vec![0; study.nodes.len()];
    for (circuit, flow) in study.circuits.iter().zip(flows) {
        net[circuit.first] += flow;
        net[circuit.second] -= flow;
    }
    if let Some(node) = net.iter().zip(supply).position(|(net, supply)| net != supply) {
        return Err(refused(9, number, node + 1));
    }
    let mut misses = 0i128;
    for ((circuit, flow), offset) in study.circuits.iter().zip(flows).zip(offset) {
        let miss = potentials[circuit.first] - potentials[circuit.second] - circuit.x * flow - offset;
        misses += miss.unsigned_abs() as i128;
    }
    if misses > 100_000_000 {
        return Err(refused(10, number, 0));
    }
    Ok(())
}

/// Refusals 8 to 11.
fn proposals(study: &Study, tec: &[Tec], demand: i64, total: i64, runs: [&[i64]; 3]) -> Result<(), Answer> {
    let generation = scaled(tec, demand, total);
    let net = generation.iter().zip(&study.nodes).map(|(scaled, node)| 1_000_000 * (scaled - node.demand));
    let supply: Vec<i64> = net.collect();
    system(study, 1, 2_000_000_000_000_000_000, &supply, &vec![0; study.circuits.len()], runs[0])?;
    let mut signed = Vec::new();
    for (k, (circuit, flow)) in study.circuits.iter().zip(&runs[0][study.nodes.len()..]).enumerate() {
        if circuit.length > 0 && (200_000_001..=400_000_000).contains(&flow.abs()) {
            return Err(refused(11, 1, k + 1));
        }
        signed.push(if flow.abs() <= 400_000_000 { 0 } else { 1_000_000 * circuit.length * flow.signum() });
    }
    let nothing = vec![0; study.nodes.len()];
    for (number, local) in [(2, false), (3, true)] {
        let of_system = |(circuit, length): (&Circuit, &i64)| if circuit.local == local { *length } else { 0 };
        let offset: Vec<i64> = study.circuits.iter().zip(&signed).map(of_system).collect();
        system(study, number, 10_000_000_000_000_000, &nothing, &offset, runs[number as usize - 1])?;
    }
    Ok(())
}

fn nearest(z: i64, d: i64) -> i64 {
    let (whole, left) = (z.abs() / d, z.abs() % d);
    z.signum() * (whole + (left >= d - left) as i64)
}

/// A zone's kilowatts, and its nodes' metres times kilowatts; then its metres.
#[derive(Default)]
struct Zone {
    kw: i64,
    paying: i64,
    sum: i64,
    metres: i64,
}

fn zones(rows: impl Iterator<Item = (u32, i64, Tec)>) -> HashMap<u32, Zone> {
    let mut zones: HashMap<u32, Zone> = HashMap::new();
    for (number, metres, kw) in rows {
        let zone = zones.entry(number).or_default();
        zone.kw += kw.all;
        zone.paying += kw.paying;
        zone.sum += metres * kw.all;
    }
    zones.retain(|_, zone| zone.kw > 0);
    for zone in zones.values_mut() {
        zone.metres = nearest(zone.sum, zone.kw);
    }
    zones
}

fn tariff(metres: i64, constant: i64, factor: i64) -> i64 {
    nearest(metres * constant * factor, 100_000)
}

/// The lines of a side; gives the remainder.
fn side(
    text: &mut String,
    letter: char,
    count: u32,
    zones: &HashMap<u32, Zone>,
    settings: &Settings,
    shift: i64,
    target: i64,
    total: i64,
) -> i64 {
    let price = |zone: &Zone| tariff(zone.metres + shift, settings.constant, settings.wider_factor);
    let income: i64 = zones.values().map(|zone| price(zone) * zone.paying).sum();
    let rest = target - income;
    let residual = rest.div_euclid(total);
    for number in 1..=count {
        match zones.get(&number) {
            None => writeln!(text, "{letter} {number} -").unwrap(),
            Some(zone) => {
                let tariff = price(zone);
                let (metres, after) = (zone.metres, zone.metres + shift);
                writeln!(text, "{letter} {number} {metres} {after} {tariff} {residual} {}", tariff + residual).unwrap();
            }
        }
    }
    rest - residual * total
}

/// Steps 6 to 10 and the sheet.
fn sheet(study: &Study, tec: &[Tec], demand: i64, paying: i64, wider: &[i64], local: &[i64]) -> String {
    let settings = &study.settings;
    let metres = |potential: i64| nearest(potential, 1_000_000_000);
    let rows = || study.nodes.iter().zip(tec).zip(wider);
    let generation = zones(rows().map(|((node, tec), wider)| (node.generation_zone, metres(*wider), *tec)));
    let all_pays = |kw: i64| Tec { all: kw, paying: kw };
    let load = zones(rows().map(|((node, _), wider)| (node.demand_zone, -metres(*wider), all_pays(node.demand))));
    let over = |zones: &HashMap<u32, Zone>| zones.values().map(|zone| zone.metres * zone.paying).sum::<i64>();
    let (p, q) = (settings.p, 1000 - settings.p);
    let c = nearest(q * over(&load) - p * over(&generation), p * paying + q * demand);
    let mut local_lines = String::new();
    let mut income = 0;
    for ((node, tec), local) in study.nodes.iter().zip(tec).zip(local) {
        if tec.all > 0 {
            let price = tariff(metres(*local), settings.constant, settings.local_factor);
            income += price * tec.paying;
            let name = std::str::from_utf8(&node.name).unwrap().trim_end();
            writeln!(local_lines, "L {name} {} {price}", metres(*local)).unwrap();
        }
    }
    let target = |share: i64| (settings.revenue * share as u64 * 1000) as i64;
    let mut text = format!("C {c}\n");
    let to_generation = target(q) - income;
    let left = side(&mut text, 'G', settings.generation_zones, &generation, settings, c, to_generation, paying);
    let over = side(&mut text, 'D', settings.demand_zones, &load, settings, -c, target(p), demand);
    text += &local_lines;
    text += &format!("R {left} {over}\n");
    text
}

fn judged(file: &[u8], runs: [&[i64]; 3]) -> Result<String, Answer> {
    let study = study(file, runs)?;
    if let Some(node) = unreached(&study) {
        return Err(refused(6, 0, node + 1));
    }
    let mut tec = vec![Tec::default(); study.nodes.len()];
    for station in &study.stations {
        tec[station.node].all += station.tec;
        if station.plant != INTERCONNECTOR {
            tec[station.node].paying += station.tec;
        }
    }
    let demand: i64 = study.nodes.iter().map(|node| node.demand).sum();
    let total: i64 = tec.iter().map(|tec| tec.all).sum();
    let paying: i64 = tec.iter().map(|tec| tec.paying).sum();
    if !(1..=100_000_000).contains(&demand) || !(1..=100_000_000).contains(&total) || total < demand {
        return Err(refused(7, 0, 0));
    }
    if paying == 0 {
        return Err(refused(13, 0, 0));
    }
    proposals(&study, &tec, demand, total, runs)?;
    Ok(sheet(&study, &tec, demand, paying, runs[1], runs[2]))
}

/// Judges a case and writes its sheet into the lent buffer.
pub fn write(file: &[u8], base: &[i64], wider: &[i64], local: &[i64], out: &mut [u8]) -> Answer {
    match judged(file, [base, wider, local]) {
        Err(refusal) => refusal,
        Ok(sheet) if sheet.len() > out.len() => refused(12, 0, 0),
        Ok(sheet) => {
            out[..sheet.len()].copy_from_slice(sheet.as_bytes());
            accepted(sheet.len())
        }
    }
}
