//! 02, CR 6, "Sharing across boundaries": the file `share.bin`, refusal 16, and the parts, shared and not shared, of edition
//! 2's year round distances. Generation zones go by their numbers, from 1.

use crate::charges::Zone;
use crate::file::{u32_at, Edition};
use crate::quantities::{rounded_down, within, Kw, Metres, LOAD_FACTOR};
use crate::refusal::Refusal;
use crate::tables::{Plant, Tables, PLANTS};

/// 02, CR 6: TEC of each plant type, in the order of their numbers.
pub type TecByType = [Kw; PLANTS.len()];

/// 02, CR 6: what the file holds.
#[derive(Clone, Debug, PartialEq, Eq)]
pub struct Share {
    /// "for each generation zone the next one inward, 0 for the one centre and for zones without TEC".
    pub next: Vec<u32>,
    /// "then each plant type's load factor", in thousandths.
    pub load: [u32; PLANTS.len()],
}

impl Share {
    /// 02, CR 6: the file of a case with so many generation zones; `None` for "a wrong length".
    pub fn read(bytes: &[u8], zones: usize) -> Option<Share> {
        (bytes.len() == 4 * (zones + PLANTS.len())).then(|| Share {
            next: (0..zones).map(|place| u32_at(bytes, 4 * place)).collect(),
            load: std::array::from_fn(|place| u32_at(bytes, 4 * (zones + place))),
        })
    }

    /// 02, CR 6: the bytes of the file, "u32 numbers".
    pub fn bytes(&self) -> Vec<u8> {
        self.next.iter().chain(&self.load).flat_map(|number| number.to_le_bytes()).collect()
    }

    /// The number that stands for a zone.
    pub fn named(&self, zone: usize) -> u32 {
        self.next[zone - 1]
    }

    /// The zone that a zone names; `None` where it names none or an absent one.
    fn present_next(&self, zone: usize) -> Option<usize> {
        let next = self.named(zone) as usize;
        (1..=self.next.len()).contains(&next).then_some(next)
    }

    /// 02, CR 6: a zone's chain: the zones met on following the numbers, itself first, up to one that names none or an absent
    /// one. `None` where the chain "circles": a zone comes again, and the following never ends.
    pub fn chain(&self, zone: usize) -> Option<Vec<usize>> {
        let mut chain = vec![zone];
        while let Some(next) = self.present_next(chain[chain.len() - 1]) {
            if chain.contains(&next) {
                return None;
            }
            chain.push(next);
        }
        Some(chain)
    }

    /// 02, CR 6: whether a zone's chain, itself included, passes another's boundary, which goes by its outer zone.
    fn passes(&self, zone: usize, outer: usize) -> bool {
        self.chain(zone).is_some_and(|chain| chain.contains(&outer))
    }
}

/// 02, CR 6: of each generation zone the TEC of each plant type, chargeable or not.
pub fn zone_tec(tables: &Tables) -> Vec<TecByType> {
    let mut zones = vec![TecByType::default(); tables.settings.generation_zones as usize];
    for station in &tables.stations {
        let zone = tables.nodes[station.node].generation_zone;
        zones[zone - 1][station.plant as usize].0 += station.tec.0;
    }
    zones
}

/// TEC of some plant types.
fn tec_of(tec: &TecByType, counts: impl Fn(Plant) -> bool) -> Kw {
    Kw(PLANTS.iter().zip(tec).filter(|(plant, _)| counts(**plant)).map(|(_, kw)| kw.0).sum())
}

/// 02, CR 6: of each generation zone whether it has TEC, of any type. 01 "The sheet": one that has none prints `-`.
pub fn zones_with_tec(tables: &Tables) -> Vec<bool> {
    zone_tec(tables).iter().map(|tec| tec_of(tec, |_| true) > Kw(0)).collect()
}

/// 02, CR 6: "16, system 0, after 14: row 0 for a wrong length or load factor, else the lowest zone that .." has a fault. The
/// file, or `None` where "absent, empty or in edition 1, nothing changes".
pub fn judge_share(tables: &Tables, bytes: &[u8]) -> Result<Option<Share>, Refusal> {
    if tables.edition == Edition::One || bytes.is_empty() {
        return Ok(None);
    }
    let refused = |row: usize| Refusal { number: 16, system: 0, row: row as u32 };
    let with_tec = zones_with_tec(tables);
    let share = Share::read(bytes, with_tec.len()).ok_or(refused(0))?;
    if !share.load.iter().all(|factor| within(*factor, LOAD_FACTOR)) {
        return Err(refused(0));
    }
    match (1..=with_tec.len()).find(|zone| has_fault(&share, &with_tec, *zone)) {
        Some(zone) => Err(refused(zone)),
        None => Ok(Some(share)),
    }
}

/// 02, CR 6: a zone "that names one absent or without TEC, names one though it has no TEC, is a second centre, or whose chain
/// circles".
fn has_fault(share: &Share, with_tec: &[bool], zone: usize) -> bool {
    names_absent_or_without_tec(share, with_tec, zone)
        || (share.named(zone) != 0 && !with_tec[zone - 1])
        || is_second_centre(share, with_tec, zone)
        || share.chain(zone).is_none()
}

/// 02, CR 6: "names one absent or without TEC".
fn names_absent_or_without_tec(share: &Share, with_tec: &[bool], zone: usize) -> bool {
    match share.present_next(zone) {
        Some(next) => !with_tec[next - 1],
        None => share.named(zone) != 0,
    }
}

/// 02, CR 6: "is a second centre": a lower zone is one too.
fn is_second_centre(share: &Share, with_tec: &[bool], zone: usize) -> bool {
    let is_centre = |zone: usize| with_tec[zone - 1] && share.named(zone) == 0;
    is_centre(zone) && (1..zone).any(is_centre)
}

/// 02, CR 6: TEC behind a boundary.
#[derive(Clone, Copy, Debug, PartialEq, Eq)]
pub struct Behind {
    /// "low carbon TEC (types 1, 2, 4)".
    pub low_carbon: Kw,
    /// "carbon TEC (the rest)".
    pub carbon: Kw,
}

/// 02, CR 6: "Behind it, low carbon TEC .. and carbon TEC .. add up over every zone whose chain passes it", the outer zone's own
/// among them.
pub fn behind(zone_tec: &[TecByType], share: &Share, outer: usize) -> Behind {
    let passing = || zone_tec.iter().zip(1..).filter(|(_, zone)| share.passes(*zone, outer));
    let sum = |low_carbon: bool| {
        Kw(passing().map(|(tec, _)| tec_of(tec, |plant| plant.is_low_carbon() == low_carbon).0).sum())
    };
    Behind { low_carbon: sum(true), carbon: sum(false) }
}

impl Behind {
    /// 02, CR 6: "The factor is 1 up to half low carbon, else 2 less twice the proportion, as an exact fraction": a number and
    /// its divisor. 2 less twice L / (L + C) is 2 C / (L + C).
    pub fn factor(self) -> (i128, i128) {
        let (low_carbon, all) = (self.low_carbon.0, self.low_carbon.0 + self.carbon.0);
        if 2 * low_carbon <= all {
            (1, 1)
        } else {
            (2 * self.carbon.0, all)
        }
    }
}

/// 02, CR 6: metres in two parts.
#[derive(Clone, Copy, Debug, Default, PartialEq, Eq)]
pub struct Parts {
    pub shared: Metres,
    pub not_shared: Metres,
}

/// 02, CR 6: a boundary's distance in its parts: "the shared part is rounded down towards minus infinity and the rest isn't
/// shared".
pub fn boundary_parts(distance: Metres, behind: Behind) -> Parts {
    let (number, divisor) = behind.factor();
    let shared = rounded_down(distance.0 * number, divisor);
    Parts { shared: Metres(shared), not_shared: Metres(distance.0 - shared) }
}

/// 02, CR 6: a zone's metres in their parts: "Parts along a chain, plus the centre's metres as not shared". `metres` are the
/// zones' own; `None` for a zone without TEC. 16 went before.
pub fn zone_parts(zone_tec: &[TecByType], share: &Share, metres: &[Option<Metres>], zone: usize) -> Option<Parts> {
    metres[zone - 1]?;
    let chain = share.chain(zone).expect("no chain circles");
    let own = |zone: usize| metres[zone - 1].expect("a chain's zones have TEC").0;
    let mut parts = Parts { shared: Metres(0), not_shared: Metres(own(chain[chain.len() - 1])) };
    for step in chain.windows(2) {
        let (outer, inner) = (step[0], step[1]);
        // "A boundary's distance is the outer zone's metres less the inner's, whichever sign".
        let distance = Metres(own(outer) - own(inner));
        let boundary = boundary_parts(distance, behind(zone_tec, share, outer));
        parts.shared.0 += boundary.shared.0;
        parts.not_shared.0 += boundary.not_shared.0;
    }
    Some(parts)
}

/// 02, CR 6: the kilowatts that a zone's shared tariff is charged on: "chargeable TEC of each type times that load factor, added
/// up and rounded down to a kilowatt".
pub fn shared_kw(tec: &TecByType, share: &Share) -> Kw {
    let types = PLANTS.iter().zip(tec).zip(&share.load).filter(|((plant, _), _)| plant.pays());
    Kw(rounded_down(types.map(|((_, kw), load)| kw.0 * *load as i128).sum(), 1_000))
}

/// 02, CR 6: year round's generation zones, split.
#[derive(Clone, Debug, PartialEq, Eq)]
pub struct Split {
    /// The zones with their not-shared metres, charged as before.
    pub not_shared: Vec<Zone>,
    /// The zones with their shared metres and the kilowatts that these are charged on.
    pub shared: Vec<Zone>,
}

/// 02, CR 6: "Edition 2's year round distance splits into shared and not shared".
pub fn split(tables: &Tables, share: &Share, zones: &[Zone]) -> Split {
    let zone_tec = zone_tec(tables);
    let metres: Vec<Option<Metres>> = zones.iter().map(|zone| zone.metres).collect();
    let mut split = Split { not_shared: Vec::new(), shared: Vec::new() };
    for (place, zone) in zones.iter().enumerate() {
        let parts = zone_parts(&zone_tec, share, &metres, place + 1);
        split.not_shared.push(Zone { metres: parts.map(|parts| parts.not_shared), ..*zone });
        let chargeable = shared_kw(&zone_tec[place], share);
        split.shared.push(Zone { metres: parts.map(|parts| parts.shared), chargeable });
    }
    split
}
