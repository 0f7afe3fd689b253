//! Share files by chance (02, CR 6): sound ones, and ones with a fault that 16 tells. The same number gives the same file.

use crate::random::Chance;
use crate::sharing::{zones_with_tec, Share};
use crate::tables::{Tables, PLANTS};

/// A sound share file for these tables: a tree over the zones with TEC, any load factors. Some trees are a single chain, some
/// have few zones on a way, and any zone may be the centre.
pub fn sound(tables: &Tables, seed: u64) -> Share {
    drawn(&zones_with_tec(tables), &mut Chance(seed))
}

/// Such a file for zones with and without TEC.
fn drawn(with_tec: &[bool], chance: &mut Chance) -> Share {
    let mut zones = numbers(with_tec, true);
    for place in (1..zones.len()).rev() {
        zones.swap(place, chance.within(0, place as u64) as usize);
    }
    // How far back in the order the next zone inward may stand: one makes a chain.
    let reach = chance.of(&[1, 2, 3, zones.len()]);
    let mut share = Share { next: vec![0; with_tec.len()], load: [0; PLANTS.len()] };
    for place in 1..zones.len() {
        let back = chance.within(1, place.min(reach) as u64) as usize;
        share.next[zones[place] - 1] = zones[place - back] as u32;
    }
    share.load = share.load.map(|_| chance.spread(0, 1_000));
    share
}

/// The numbers of the zones with TEC, or of those without.
fn numbers(with_tec: &[bool], wanted: bool) -> Vec<usize> {
    with_tec.iter().zip(1..).filter(|(has, _)| **has == wanted).map(|(_, zone)| zone).collect()
}

/// A share file that 16 refuses.
#[derive(Clone, Debug, PartialEq, Eq)]
pub struct Spoiled {
    pub bytes: Vec<u8>,
    /// One of `kinds`.
    pub kind: &'static str,
    /// 02, CR 6: the row that 16 tells.
    pub row: u32,
}

/// A way to spoil a sound file: its bytes and 16's row, or `None` where the zones have no place for it.
type Spoil = fn(&mut Draft) -> Option<(Vec<u8>, usize)>;

/// Every kind of fault, by its name.
const KINDS: [(&str, Spoil); 12] = [
    ("wrong length", Draft::wrong_length),
    ("load factor", Draft::load_factor),
    ("absent zone named", Draft::absent_zone),
    ("zone without TEC named", Draft::without_tec_named),
    ("zone without TEC names one", Draft::without_tec_names),
    ("second centre", Draft::second_centre),
    ("names itself", Draft::names_itself),
    ("names itself without TEC", Draft::names_itself_without_tec),
    ("circle of two", Draft::circle_of_two),
    ("circle of three", Draft::circle_of_three),
    ("no centre", Draft::no_centre),
    ("circle through a zone without TEC", Draft::circle_without_tec),
];

/// The names of the kinds of faults.
pub fn kinds() -> [&'static str; 12] {
    KINDS.map(|(kind, _)| kind)
}

/// A file with one fault by chance.
pub fn spoiled(tables: &Tables, seed: u64) -> Spoiled {
    let mut chance = Chance(seed);
    let with_tec = zones_with_tec(tables);
    let mut draft = Draft {
        share: drawn(&with_tec, &mut chance),
        with: numbers(&with_tec, true),
        without: numbers(&with_tec, false),
        chance,
    };
    let first = draft.chance.within(0, KINDS.len() as u64 - 1) as usize;
    let mut kinds = KINDS.iter().cycle().skip(first).take(KINDS.len());
    let spoil = |(kind, spoil): &(&'static str, Spoil)| {
        spoil(&mut draft).map(|(bytes, row)| Spoiled { bytes, kind, row: row as u32 })
    };
    kinds.find_map(spoil).expect("a wrong length always has a place")
}

/// One of some zones, if there are any.
fn one_of(zones: &[usize], chance: &mut Chance) -> Option<usize> {
    (!zones.is_empty()).then(|| chance.of(zones))
}

/// A sound file about to be spoiled.
struct Draft {
    share: Share,
    /// The numbers of the zones with TEC and of those without.
    with: Vec<usize>,
    without: Vec<usize>,
    chance: Chance,
}

impl Draft {
    /// One of the zones with TEC.
    fn one_with(&mut self) -> Option<usize> {
        one_of(&self.with, &mut self.chance)
    }

    /// One of the zones without TEC.
    fn one_without(&mut self) -> Option<usize> {
        one_of(&self.without, &mut self.chance)
    }

    /// Any zone with TEC that isn't the centre.
    fn outer(&mut self) -> Option<usize> {
        let outer: Vec<usize> = self.with.iter().copied().filter(|zone| self.share.named(*zone) != 0).collect();
        one_of(&outer, &mut self.chance)
    }

    /// The one zone with TEC that names none.
    fn centre(&self) -> usize {
        *self.with.iter().find(|zone| self.share.named(**zone) == 0).expect("a sound file has a centre")
    }

    /// The lowest zone whose chain passes one: all of these circle where that one is put on a circle.
    fn lowest_passing(&self, zone: usize) -> usize {
        let passes = |from: &usize| self.share.chain(*from).expect("a sound file").contains(&zone);
        (1..=self.share.next.len()).find(passes).expect("the zone itself")
    }

    /// The file with other numbers for some zones.
    fn with_next(&self, numbers: &[(usize, u32)]) -> Vec<u8> {
        let mut share = self.share.clone();
        numbers.iter().for_each(|(zone, next)| share.next[zone - 1] = *next);
        share.bytes()
    }

    /// One byte off, one number off, a beginning, more than once.
    fn wrong_length(&mut self) -> Option<(Vec<u8>, usize)> {
        let bytes = self.share.bytes();
        let right = bytes.len();
        let length = self.chance.of(&[right - 1, right + 1, right - 4, right + 4, 1, 4, 2 * right]);
        Some((bytes.into_iter().cycle().take(length).collect(), 0))
    }

    /// A load factor above 1,000, of type 3 as well.
    fn load_factor(&mut self) -> Option<(Vec<u8>, usize)> {
        let mut share = self.share.clone();
        let place = self.chance.within(0, PLANTS.len() as u64 - 1) as usize;
        share.load[place] = self.chance.of(&[1_001, 1_256, 65_536, 1 << 31, u32::MAX]);
        Some((share.bytes(), 0))
    }

    /// A number above the zones' count.
    fn absent_zone(&mut self) -> Option<(Vec<u8>, usize)> {
        let zones = self.share.next.len() as u32;
        let zone = self.chance.within(1, zones as u64) as usize;
        let next = self.chance.of(&[zones + 1, zones + 2, 256 + zones, 1 << 31, u32::MAX]);
        Some((self.with_next(&[(zone, next)]), zone))
    }

    fn without_tec_named(&mut self) -> Option<(Vec<u8>, usize)> {
        let (zone, next) = (self.one_with()?, self.one_without()?);
        Some((self.with_next(&[(zone, next as u32)]), zone))
    }

    fn without_tec_names(&mut self) -> Option<(Vec<u8>, usize)> {
        let (zone, next) = (self.one_without()?, self.one_with()?);
        Some((self.with_next(&[(zone, next as u32)]), zone))
    }

    /// Of two centres the higher number is the second.
    fn second_centre(&mut self) -> Option<(Vec<u8>, usize)> {
        let zone = self.outer()?;
        Some((self.with_next(&[(zone, 0)]), zone.max(self.centre())))
    }

    fn names_itself(&mut self) -> Option<(Vec<u8>, usize)> {
        let zone = self.one_with()?;
        Some((self.with_next(&[(zone, zone as u32)]), self.lowest_passing(zone)))
    }

    fn names_itself_without_tec(&mut self) -> Option<(Vec<u8>, usize)> {
        let zone = self.one_without()?;
        Some((self.with_next(&[(zone, zone as u32)]), zone))
    }

    /// A zone's next names it.
    fn circle_of_two(&mut self) -> Option<(Vec<u8>, usize)> {
        let zone = self.outer()?;
        let second = self.share.named(zone) as usize;
        Some((self.with_next(&[(second, zone as u32)]), self.lowest_passing(second)))
    }

    /// The next of a zone's next names it.
    fn circle_of_three(&mut self) -> Option<(Vec<u8>, usize)> {
        let zone = self.outer()?;
        let second = self.share.named(zone) as usize;
        let third = Some(self.share.named(second) as usize).filter(|third| *third != 0)?;
        Some((self.with_next(&[(third, zone as u32)]), self.lowest_passing(third)))
    }

    /// The centre names any zone with TEC: every chain comes round.
    fn no_centre(&mut self) -> Option<(Vec<u8>, usize)> {
        let next = self.one_with()?;
        Some((self.with_next(&[(self.centre(), next as u32)]), self.with[0]))
    }

    /// A zone with TEC and one without name each other.
    fn circle_without_tec(&mut self) -> Option<(Vec<u8>, usize)> {
        let (zone, other) = (self.one_with()?, self.one_without()?);
        let numbers = [(zone, other as u32), (other, zone as u32)];
        Some((self.with_next(&numbers), self.lowest_passing(zone).min(other)))
    }
}
