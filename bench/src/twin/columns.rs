//! What later steps need of a case file's tables, read once. A file that is not whole reads as one without rows.

use super::fields::{key_at, place, u32_at, u64_at};

pub struct Settings {
    pub generation_zones: usize,
    pub demand_zones: usize,
    pub p: usize,
    pub constant: usize,
    pub wider_factor: usize,
    pub local_factor: usize,
    /// 400 overhead, 400 cable, 275 overhead, 275 cable, 132 overhead, 132 cable.
    pub factors: [usize; 6],
    pub reference: usize,
    pub revenue: u64,
}

pub struct Columns {
    pub whole: bool,
    /// Bytes of a circuit row: 44, or 48 in version 2, with a factor last.
    pub circuit_size: usize,
    pub nodes: usize,
    pub circuits: usize,
    pub stations: usize,
    pub settings: Settings,
    pub generation_zone: [usize; 256],
    pub demand_zone: [usize; 256],
    pub demand: [u64; 256],
    pub first: [usize; 512],
    pub second: [usize; 512],
    pub x: [u64; 512],
    pub length: [u64; 512],
    pub mark: [u64; 512],
    pub scaling: [u64; 256],
    pub paying: [u64; 256],
}

/// Each station's node, plant type and TEC: for judging and adding up alone.
pub struct Stations {
    pub node: [usize; 512],
    plant: [usize; 512],
    tec: [u64; 512],
}

fn word(file: &[u8], field: usize) -> usize {
    u32_at(file, file.len() - 64 + 4 * field)
}

fn circuit_size(version: usize) -> usize {
    if version == 2 {
        48
    } else {
        44
    }
}

fn most_circuits(version: usize) -> usize {
    if version == 2 {
        480
    } else {
        512
    }
}

fn counted(file: &[u8], version: usize) -> bool {
    let nodes = word(file, 3);
    let circuits = word(file, 5);
    let numbers = nodes + circuits;
    word(file, 1) == 1
        && (1..=256).contains(&nodes)
        && circuits <= most_circuits(version)
        && word(file, 7) <= 512
        && word(file, 9) == numbers
        && word(file, 11) == numbers
        && word(file, 13) == numbers
}

fn chained(file: &[u8], version: usize) -> bool {
    let sizes = [64, 24, circuit_size(version), 32, 8, 8, 8];
    let mut start = 0;
    for (section, size) in sizes.iter().enumerate() {
        if word(file, 2 * section) != start {
            return false;
        }
        start += size * word(file, 2 * section + 1);
    }
    start + 64 == file.len()
}

fn whole(file: &[u8], version: usize) -> bool {
    file.len() >= 128
        && (version == 1 || version == 2)
        && word(file, 15) == file.len()
        && counted(file, version)
        && chained(file, version)
        && u32_at(file, 52) == 0
}

fn settings(file: &[u8]) -> Settings {
    let at = |offset| if file.len() < 64 { 0 } else { u32_at(file, offset) };
    Settings {
        generation_zones: at(0),
        demand_zones: at(4),
        p: at(8),
        constant: at(12),
        wider_factor: at(16),
        local_factor: at(20),
        factors: [at(24), at(28), at(32), at(36), at(40), at(44)],
        reference: at(48),
        revenue: if file.len() < 64 { 0 } else { u64_at(file, 56) },
    }
}

/// A circuit's own factor; 0, which means by voltage, in version 1.
pub fn own_factor(file: &[u8], at: usize, circuit_size: usize) -> usize {
    if circuit_size == 48 {
        u32_at(file, at + 44)
    } else {
        0
    }
}

fn expanded_length(file: &[u8], at: usize, own: usize, factors: &[usize; 6]) -> u64 {
    let (over, under) = match (own, u32_at(file, at + 24)) {
        (0, 400) => (factors[0], factors[1]),
        (0, 275) => (factors[2], factors[3]),
        (0, _) => (factors[4], factors[5]),
        (own, _) => (own, own),
    };
    let (overhead, cable) = (u32_at(file, at + 32), u32_at(file, at + 36));
    if overhead > 500_000 || cable > 500_000 || over > 30_000 || under > 30_000 {
        return 0;
    }
    (overhead * over + cable * under) as u64
}

pub fn read(file: &[u8]) -> (Columns, Stations) {
    let mut s = Stations { node: [0; 512], plant: [0; 512], tec: [0; 512] };
    let version = if file.len() < 64 { 0 } else { word(file, 14) };
    let mut c = Columns {
        whole: whole(file, version),
        circuit_size: circuit_size(version),
        nodes: 0,
        circuits: 0,
        stations: 0,
        settings: settings(file),
        generation_zone: [0; 256],
        demand_zone: [0; 256],
        demand: [0; 256],
        first: [0; 512],
        second: [0; 512],
        x: [0; 512],
        length: [0; 512],
        mark: [0; 512],
        scaling: [0; 256],
        paying: [0; 256],
    };
    if c.whole {
        (c.nodes, c.circuits, c.stations) = (word(file, 3), word(file, 5), word(file, 7));
        read_nodes(&mut c, file);
        read_circuits(&mut c, file);
        read_stations(&c, &mut s, file);
        add_tec(&mut c, &s);
    }
    (c, s)
}

fn read_nodes(c: &mut Columns, file: &[u8]) {
    for v in 0..c.nodes {
        let at = 64 + 24 * v;
        c.generation_zone[v] = u32_at(file, at + 12);
        c.demand_zone[v] = u32_at(file, at + 16);
        c.demand[v] = u32_at(file, at + 20) as u64;
    }
}

fn read_circuits(c: &mut Columns, file: &[u8]) {
    for i in 0..c.circuits {
        let at = 64 + 24 * c.nodes + c.circuit_size * i;
        c.first[i] = place(file, 64, 24, c.nodes, key_at(file, at));
        c.second[i] = place(file, 64, 24, c.nodes, key_at(file, at + 12));
        c.x[i] = u32_at(file, at + 28) as u64;
        c.length[i] = expanded_length(file, at, own_factor(file, at, c.circuit_size), &c.settings.factors);
        c.mark[i] = u32_at(file, at + 40) as u64;
    }
}

fn read_stations(c: &Columns, s: &mut Stations, file: &[u8]) {
    for k in 0..c.stations {
        let at = 64 + 24 * c.nodes + c.circuit_size * c.circuits + 32 * k;
        s.node[k] = place(file, 64, 24, c.nodes, key_at(file, at + 12));
        s.plant[k] = u32_at(file, at + 24);
        s.tec[k] = u32_at(file, at + 28) as u64;
    }
}

/// Plant type 3 weighs and does not pay.
const INTERCONNECTOR: usize = 3;

/// TEC by node v and plant type t at 7 v + t - 1, then through the types by node.
fn add_tec(c: &mut Columns, s: &Stations) {
    let mut by_type = [0; 1792];
    for k in 0..c.stations {
        let (node, plant) = (s.node[k], s.plant[k]);
        if node < c.nodes && (1..=7).contains(&plant) {
            by_type[7 * node + plant - 1] += s.tec[k];
        }
    }
    for cell in 0..1792 {
        c.scaling[cell / 7] += by_type[cell];
        if cell % 7 + 1 != INTERCONNECTOR {
            c.paying[cell / 7] += by_type[cell];
        }
    }
}
