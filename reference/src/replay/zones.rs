//! Cases of edition 2 whose generation zones are nodes, for share files (02, CR 6), and a short way to write such files.

use super::bases::{circuit, kiln, station, zoned_node};
use super::edition_2::as_edition_2;
use super::solved;
use crate::background::{Background, Running};
use crate::file::{Case, StationRow};
use crate::sharing::Share;
use crate::tables::PLANTS;

/// Load factors of the plant types that no rounding hides; type 3's is used nowhere.
pub const LOAD: [u32; 7] = [385, 763, 900, 424, 107, 3, 486];

/// nm in a metre.
const NANOMETRES: i64 = 1_000_000_000;

/// The share file with these numbers for the zones.
pub fn share(next: &[u32]) -> Vec<u8> {
    share_of(next, LOAD)
}

/// The same with other load factors.
pub fn share_of(next: &[u32], load: [u32; 7]) -> Vec<u8> {
    Share { next: next.to_vec(), load }.bytes()
}

/// So many generation zones, and a node in each of these with so much TEC and as much demand, in a row of circuits without
/// length: nothing flows, and no node stands off.
pub fn level(zones: u32, tec: &[(u32, u32)]) -> Case {
    let mut case = Case { settings: kiln().settings, ..Case::default() };
    (case.settings.generation_zones, case.settings.reference) = (zones, 1);
    let name = |zone: &u32| format!("Z{zone}");
    case.nodes = tec.iter().map(|(zone, kw)| zoned_node(&name(zone), *zone, 1, *kw)).collect();
    case.stations = tec.iter().map(|(zone, kw)| station(&name(zone), &name(zone), *kw)).collect();
    case.circuits = tec.windows(2).map(|two| circuit(&name(&two[0].0), &name(&two[1].0), 1, 0)).collect();
    as_edition_2(&case)
}

/// One zone.
pub fn one_zone() -> Case {
    level(1, &[(1, 100)])
}

/// Six zones: 1, 2, 4 and 6 have TEC; zone 3 has a node without any, zone 5 has no node.
pub fn six_zones() -> Case {
    level(6, &[(1, 100), (2, 100), (3, 0), (4, 100), (6, 100)])
}

/// 32 zones with TEC.
pub fn all_zones() -> Case {
    level(32, &std::array::from_fn::<_, 32, _>(|place| (place as u32 + 1, 10)))
}

/// A node that stands so many metres away from HUB year round, with a station of each of these types and TECs.
#[derive(Clone, Copy)]
pub struct Outer<'a> {
    pub metres: u32,
    pub tec: &'a [(u32, u32)],
}

/// Nodes S1, S2, .. in generation zones 1, 2, .., each joined to HUB, which is the reference and in the zone behind theirs. Demand
/// is at HUB and is what the nodes' fixed types make year round, so that types 4 and 7 stand still then; HUB's type 6 makes nearly
/// all of it at peak. So the nodes send year round, and the lengths stand there and not at peak.
pub fn around_a_hub(outers: &[Outer]) -> Case {
    let hub = outers.len() as u32 + 1;
    let demand = outers.iter().flat_map(|outer| outer.tec).map(|row| fixed_year_round(*row)).sum();
    let mut case = Case { settings: kiln().settings, ..Case::default() };
    (case.settings.generation_zones, case.settings.reference) = (hub, hub);
    for (outer, zone) in outers.iter().zip(1..) {
        let text = format!("S{zone}");
        case.nodes.push(zoned_node(&text, zone, 1, 0));
        case.circuits.push(circuit(&text, "HUB", 1, outer.metres));
        case.stations.extend(outer.tec.iter().map(|(plant, tec)| plant_at(&text, *plant, *tec)));
    }
    case.nodes.push(zoned_node("HUB", hub, 1, demand));
    case.stations.push(plant_at("HUB", 6, 10 * demand));
    let case = solved(&as_edition_2(&case));
    let wanted = outers.iter().map(|outer| outer.metres as i64 * NANOMETRES);
    assert!(wanted.eq(case.runs[1][..outers.len()].iter().copied()), "a length that doesn't stand year round");
    case
}

/// A station of some type at a node, named by both.
pub fn plant_at(text: &str, plant: u32, tec: u32) -> StationRow {
    StationRow { plant, ..station(&format!("{text}_{plant}"), text, tec) }
}

/// 02, CR 5: what a station's type makes of its TEC year round where nothing remains to be shared.
fn fixed_year_round((plant, tec): (u32, u32)) -> u32 {
    match Background::YearRound.running(PLANTS[plant as usize - 1]) {
        Running::Fixed(percent) => tec * percent as u32 / 100,
        Running::Variable => 0,
    }
}
