//! The longest file, with a sheet nearly as long as one can be: what a program's buffers have to hold.

use crate::file::{padded, Case, CircuitRow, Edition, Name, NodeRow, Settings, StationRow, Version};
use crate::sharing::Share;
use crate::solver::solved;

/// Nodes at the end of a circuit each.
const LEAVES: u32 = 253;

/// LONGEST: 256 nodes with names of twelve letters, all with TEC, nearly all 10^7 m below the reference, wider and local; 512
/// circuits, no two nodes joined by one alone; 512 stations; 32 and 32 zones. 63,616 bytes.
pub fn longest() -> Case {
    let leaves = || (0..LEAVES).map(|place| padded(format!("LEAF_____{place:03}").as_bytes()));
    let [far, hub, middle] = ["FAR_________", "HUB_________", "MIDDLE______"].map(|text| padded(text.as_bytes()));
    let nodes: Vec<NodeRow> = [far, hub, middle]
        .into_iter()
        .map(|name| node(name, 1, 0))
        .chain(leaves().zip(0..).map(|(name, place)| node(name, place % 32 + 1, 1_000)))
        .collect();
    let mut circuits = [vec![circuit(far, hub, 0); 3], vec![circuit(hub, middle, 0); 3]].concat();
    circuits.extend(leaves().flat_map(|leaf| vec![circuit(middle, leaf, 1); 2]));
    let tec = |turn: u32| [300_000, 0][turn.min(1) as usize] + turn % 2;
    let stations = (0..512).map(|turn| station(turn, nodes[turn as usize / 2].name, tec(turn))).collect();
    let (version, edition) = (Version::One, Edition::One);
    solved(&Case { version, edition, settings: settings(), nodes, circuits, stations, runs: Default::default() }).0
}

/// Nodes at the end of a circuit each, in edition 2.
const LEAVES_EDITION_2: u32 = 251;

/// The same of edition 2 (02, CR 5): 256 nodes and 320 circuits. A length stands in one background only, so two circuits in a
/// row lead down, the first year round's and the second peak's: BELOW runs about 8,000 kW at peak alone, and so does ABOVE on
/// FAR's side, while HUB runs as much year round alone. 61,072 bytes, and a sheet of 15,145.
pub fn longest_of_edition_2() -> Case {
    let names = ["FAR_________", "ABOVE_______", "HUB_________", "BELOW_______", "MIDDLE______"];
    let spine = names.map(|text| padded(text.as_bytes()));
    let leaves: Vec<Name> =
        (0..LEAVES_EDITION_2).map(|place| padded(format!("LEAF_____{place:03}").as_bytes())).collect();
    let leaf_nodes = leaves.iter().zip(0..).map(|(name, place)| node(*name, place % 32 + 1, 1_000));
    let nodes: Vec<NodeRow> = spine.iter().map(|name| node(*name, 1, 0)).chain(leaf_nodes).collect();
    let links = spine.windows(2).map(|ends| circuit(ends[0], ends[1], 0));
    let hung = leaves.iter().map(|leaf| circuit(spine[4], *leaf, 1));
    let circuits: Vec<CircuitRow> = links.chain(hung).collect();
    // 65 of the 255 stand twice.
    let circuits = circuits.iter().chain(&circuits[..65]).cloned().collect();
    // Of the spine: type 7 at FAR, 6 at ABOVE and BELOW, 1 at HUB; elsewhere type 2, a kilowatt each.
    let own = [(7, 300_000), (6, 10_000), (1, 11_500), (6, 10_000)];
    let station = |turn: u32| {
        let place = turn as usize / 2;
        let (plant, tec) = own.get(place).copied().filter(|_| turn % 2 == 0).unwrap_or((2, turn % 2));
        StationRow { plant, ..station(turn, nodes[place].name, tec) }
    };
    let stations = (0..512).map(station).collect();
    let (version, edition) = (Version::Two, Edition::Two);
    let settings = Settings { reference: 3, zero: edition.zero(), ..settings() };
    solved(&Case { version, edition, settings, nodes, circuits, stations, runs: Default::default() }).0
}

/// Nodes at the end of a circuit each, in the case with a share file.
const LEAVES_SHARE: u32 = 248;
/// Generation zones of one such node, at UPPER, that all lie behind zone 29.
const OUTER_ZONES: u32 = 28;

/// LONGEST_SHARE (02, CR 6), with its share file: the counts of the one above. FAR stands 10^7 m above HUB in both backgrounds and as
/// much above NEAR locally, MIDDLE 10^7 m below HUB in both backgrounds, UPPER 10^7 m above it year round and as much below at peak.
/// Zones 1 to 28, at UPPER, lie behind zone 29, at MIDDLE, that behind 30, at UPPER, that behind 31, at MIDDLE, and that behind 32,
/// which has FAR: the distances turn round, and shared is nearly all of those from above and hardly anything of the others, so that
/// both parts pass the zones' own metres. 61,072 bytes, and a sheet of 15,814.
pub fn longest_share() -> (Case, Share) {
    let leaves: Vec<Leaf> = (0..LEAVES_SHARE).map(Leaf::of).collect();
    let (spine, links) = spine_of_share();
    // INNER asks for what UPPER sends year round.
    let spine_nodes = spine.iter().zip([0, 0, 0, 0, 0, 0, 41_000, 0]).map(|(name, demand)| node(*name, 32, demand));
    let leaf_node = |leaf: &Leaf| NodeRow { demand_zone: leaf.demand_zone, ..node(leaf.name, leaf.zone, 1_000) };
    let nodes: Vec<NodeRow> = spine_nodes.chain(leaves.iter().map(leaf_node)).collect();
    let [.., middle, _, upper] = spine;
    let hung = leaves.iter().map(|leaf| circuit(if leaf.at_upper { upper } else { middle }, leaf.name, 1));
    let circuits: Vec<CircuitRow> = links.into_iter().chain(hung).collect();
    // 65 of the 255 stand twice.
    let circuits = circuits.iter().chain(&circuits[..65]).cloned().collect();
    // Year round FAR and UPPER make all that is asked for, of type 3; at peak FAR, ABOVE and BELOW nearly all, of type 6.
    let own = [(0, (6, 6_000_000)), (1, (3, 219_000)), (4, (6, 2_400_000)), (8, (6, 200_000)), (14, (3, 70_000))];
    let station = |turn: u32| {
        let leaf = (turn as usize / 2).checked_sub(spine.len()).map(|place| &leaves[place]).filter(|_| turn % 2 == 1);
        let of_spine = own.iter().find(|(place, _)| *place == turn).map(|(_, plant)| *plant);
        let (plant, tec) = of_spine.or(leaf.map(|leaf| leaf.plant)).unwrap_or((2, turn % 2));
        StationRow { plant, ..station(turn, nodes[turn as usize / 2].name, tec) }
    };
    let stations = (0..512).map(station).collect();
    let (version, edition) = (Version::Two, Edition::Two);
    let settings = Settings { reference: 4, zero: edition.zero(), ..settings() };
    let case = Case { version, edition, settings, nodes, circuits, stations, runs: Default::default() };
    let next = (1..=32).map(|zone| if zone <= OUTER_ZONES { 29 } else { (zone + 1) % 33 }).collect();
    (solved(&case).0, Share { next, load: [385, 763, 0, 424, 107, 3, 486] })
}

/// The nodes of that case that have others behind them, from FAR down to MIDDLE and from HUB up to UPPER, and the circuits between.
fn spine_of_share() -> ([Name; 8], [CircuitRow; 7]) {
    let names = ["FAR", "NEAR", "ABOVE", "HUB", "BELOW", "MIDDLE", "INNER", "UPPER"];
    let spine = names.map(|text| padded(format!("{text:_<12}").as_bytes()));
    let [far, near, above, hub, below, middle, inner, upper] = spine;
    let links = [
        (far, near, 1),
        (near, above, 0),
        (above, hub, 0),
        (hub, below, 0),
        (below, middle, 0),
        (hub, inner, 0),
        (inner, upper, 0),
    ];
    (spine, links.map(|(first, second, mark)| circuit(first, second, mark)))
}

/// A node at the end of a circuit, in the case with a share file.
struct Leaf {
    name: Name,
    at_upper: bool,
    zone: u32,
    demand_zone: u32,
    /// The type and TEC of its station.
    plant: (u32, u32),
}

impl Leaf {
    /// By its place: those of the outer zones, of zones 30, 29 and 31, then all others. Each zone of low carbon has many times what
    /// is behind it, and zone 30 brings carbon back to a half.
    fn of(place: u32) -> Leaf {
        let (zone, plant) = match place {
            0..OUTER_ZONES => (place + 1, (6, 1)),
            OUTER_ZONES => (30, (6, 272)),
            29 => (29, (4, 300)),
            30 => (31, (4, 6_000)),
            _ => (32, (2, 1)),
        };
        let at_upper = place <= OUTER_ZONES;
        let demand_zone = if at_upper { 32 } else { place % 31 + 1 };
        Leaf { name: padded(format!("LEAF_____{place:03}").as_bytes()), at_upper, zone, demand_zone, plant }
    }
}

/// The greatest constant, security factors and revenue, and a factor that takes 500 km to 10^7 m.
fn settings() -> Settings {
    Settings {
        generation_zones: 32,
        demand_zones: 32,
        p: 900,
        constant: 10_000,
        wider_factor: 5_000,
        local_factor: 5_000,
        factors: [1_000, 1_000, 20_000, 1_000, 1_000, 1_000],
        reference: 2,
        zero: 0,
        revenue: 10_000_000_000,
    }
}

/// A node of one zone on both sides.
fn node(name: [u8; 12], zone: u32, demand: u32) -> NodeRow {
    NodeRow { name, generation_zone: zone, demand_zone: zone, demand }
}

/// A circuit of 10^7 expanded metres.
fn circuit(first: [u8; 12], second: [u8; 12], mark: u32) -> CircuitRow {
    CircuitRow { first, second, voltage: 275, x: 1, overhead: 500_000, cable: 0, mark, factor: 0 }
}

/// Two stations a node, the second of them with a kilowatt.
fn station(turn: u32, node: [u8; 12], tec: u32) -> StationRow {
    StationRow { identifier: padded(format!("STATION_{turn:04}").as_bytes()), node, plant: turn % 7 + 1, tec }
}
