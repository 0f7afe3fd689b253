//! 02, CR 6: what an accepted case may have of a share file, by name, and whether it has it.

use reference::background::Background;
use reference::charges::{generation_rows, sheet_with_share, zones, ZoneFigures};
use reference::file::Case;
use reference::quantities::{Kw, Metres};
use reference::sharing::{behind, boundary_parts, judge_share, shared_kw, zone_tec, Behind, Share, TecByType};
use reference::tables::{sound_tables, Tables};

/// The place of type 3 among the plant types, and those of the types that are low carbon: "types 1, 2, 4".
const TYPE_3: usize = 2;
const LOW_CARBON: [usize; 3] = [0, 1, 3];

/// A case with a share file that counts.
struct Shared {
    share: Share,
    tec: Vec<TecByType>,
    boundaries: Vec<Boundary>,
    /// The centre's year round metres.
    centre: i128,
    /// Year round's figures of the zones with TEC.
    figures: Vec<ZoneFigures>,
    /// A tariff is the nearest of metres times this, over 100,000.
    price: i128,
}

/// A zone that names another.
struct Boundary {
    outer: usize,
    inner: usize,
    distance: Metres,
    behind: Behind,
    /// TEC of type 3 behind it.
    links: i128,
}

impl Shared {
    /// Nothing where the case has no share file that counts.
    fn of(case: &Case, bytes: &[u8]) -> Option<Shared> {
        let tables = sound_tables(case).ok()?;
        let share = judge_share(&tables, bytes).ok()??;
        let printed = sheet_with_share(&tables, case.lent(), Some(&share));
        let figures = printed.generation.zones.iter().flatten().filter_map(|line| line.figures.last().copied());
        let metres = year_round_metres(case, &tables);
        let tec = zone_tec(&tables);
        let boundary = |outer: usize| Boundary::of(outer, &share, &tec, &metres);
        let centre = (1..=tec.len()).find(|zone| share.named(*zone) == 0 && metres[zone - 1].is_some())?;
        Some(Shared {
            boundaries: (1..=tec.len()).filter_map(boundary).collect(),
            centre: metres[centre - 1]?.0,
            figures: figures.collect(),
            price: tables.settings.constant as i128 * tables.settings.wider_factor as i128,
            share,
            tec,
        })
    }

    fn any_zone(&self, has: impl Fn(&TecByType) -> bool) -> bool {
        self.tec.iter().any(has)
    }

    fn any_boundary(&self, has: impl Fn(&Boundary) -> bool) -> bool {
        self.boundaries.iter().any(has)
    }

    /// A zone's figures that are shared.
    fn any_shared(&self, has: impl Fn(Metres, i128) -> bool) -> bool {
        self.figures.iter().filter_map(|figures| figures.shared).any(|shared| has(shared.metres, shared.tariff.0))
    }

    fn boundary(&self, outer: usize) -> Option<&Boundary> {
        self.boundaries.iter().find(|boundary| boundary.outer == outer)
    }

    /// The boundaries on each zone's way to the centre.
    fn ways(&self) -> impl Iterator<Item = Vec<&Boundary>> {
        let of = |zone: usize| self.share.chain(zone).unwrap_or_default();
        (1..=self.tec.len()).map(move |zone| of(zone).into_iter().filter_map(|outer| self.boundary(outer)).collect())
    }

    /// A load factor of a plant type that some zone has TEC of.
    fn has_load(&self, factor: u32) -> bool {
        let types = self.share.load.iter().enumerate();
        types.filter(|(_, load)| **load == factor).any(|(plant, _)| self.any_zone(|tec| tec[plant] > Kw(0)))
    }

    /// Kilowatts of each type alone would be rounded down to fewer.
    fn loses_by_type(&self, tec: &TecByType) -> bool {
        let types = tec.iter().zip(&self.share.load).enumerate().filter(|(plant, _)| *plant != TYPE_3);
        let alone: i128 = types.map(|(_, (kw, load))| kw.0 * *load as i128 / 1_000).sum();
        alone < shared_kw(tec, &self.share).0
    }

    fn is_negative_half(&self, metres: Metres) -> bool {
        let number = metres.0 * self.price;
        number < 0 && 2 * number.rem_euclid(100_000) == 100_000
    }
}

/// 01 step 7: the zones' year round metres, before C.
fn year_round_metres(case: &Case, tables: &Tables) -> Vec<Option<Metres>> {
    let wider = &case.runs[Background::YearRound.wider_system() as usize - 1][..tables.nodes.len()];
    let rows = generation_rows(tables, Background::YearRound, wider);
    zones(tables.settings.generation_zones, &rows).iter().map(|zone| zone.metres).collect()
}

impl Boundary {
    /// The boundary of an outer zone, where it names one.
    fn of(outer: usize, share: &Share, tec: &[TecByType], metres: &[Option<Metres>]) -> Option<Boundary> {
        let inner = share.named(outer) as usize;
        let distance = Metres(metres[outer - 1]?.0 - metres.get(inner.checked_sub(1)?).copied()??.0);
        let passing = (1..=tec.len()).filter(|zone| share.chain(*zone).is_some_and(|chain| chain.contains(&outer)));
        let links = passing.map(|zone| tec[zone - 1][TYPE_3].0).sum();
        Some(Boundary { outer, inner, distance, behind: behind(tec, share, outer), links })
    }

    fn all(&self) -> i128 {
        self.behind.low_carbon.0 + self.behind.carbon.0
    }

    /// By how much twice the low carbon TEC is above all of it.
    fn lead(&self) -> i128 {
        2 * self.behind.low_carbon.0 - self.all()
    }

    /// What the shared part is above its rounded one, of 1.
    fn over(&self) -> f64 {
        let (number, divisor) = self.behind.factor();
        (self.distance.0 * number).rem_euclid(divisor) as f64 / divisor as f64
    }

    /// The outer zone's own TEC makes its parts what they are.
    fn needs_own(&self, tec: &TecByType) -> bool {
        let low: i128 = LOW_CARBON.iter().map(|plant| tec[*plant].0).sum();
        let carbon = tec.iter().map(|kw| kw.0).sum::<i128>() - low;
        let without =
            Behind { low_carbon: Kw(self.behind.low_carbon.0 - low), carbon: Kw(self.behind.carbon.0 - carbon) };
        let rest = without.low_carbon.0 + without.carbon.0;
        rest > 0 && boundary_parts(self.distance, without) != boundary_parts(self.distance, self.behind)
    }
}

/// A name, and what it is met by.
type Trait = (&'static str, fn(&Shared) -> bool);

/// Zones and chains.
const OF_ZONES: [Trait; 7] = [
    ("a share file", |_| true),
    ("a share file, one zone with TEC", |shared| shared.boundaries.is_empty()),
    ("a share file, 32 zones with TEC", |shared| shared.boundaries.len() == 31),
    ("a share file, a zone without TEC", |shared| shared.any_zone(|tec| tec.iter().all(|kw| *kw == Kw(0)))),
    ("a share file, a chain of five boundaries", |shared| shared.ways().any(|way| way.len() >= 5)),
    ("a share file, two zones that name one", |shared| {
        shared.any_boundary(|one| shared.any_boundary(|other| one.outer < other.outer && one.inner == other.inner))
    }),
    ("a share file, a centre with metres", |shared| shared.centre != 0),
];

/// What stands behind a boundary.
const OF_FACTORS: [Trait; 6] = [
    ("a share file, less than half low carbon", |shared| shared.any_boundary(|boundary| boundary.lead() < 0)),
    ("a share file, half low carbon", |shared| {
        shared.any_boundary(|boundary| boundary.lead() == 0 && boundary.all() > 0)
    }),
    ("a share file, more than half low carbon", |shared| {
        shared.any_boundary(|boundary| boundary.lead() > 0 && boundary.behind.carbon > Kw(0))
    }),
    ("a share file, low carbon alone", |shared| shared.any_boundary(|boundary| boundary.behind.carbon == Kw(0))),
    ("a share file, type 3 that keeps low carbon at half or less", |shared| {
        shared.any_boundary(|boundary| boundary.lead() <= 0 && boundary.lead() + boundary.links > 0)
    }),
    ("a share file, an outer zone's own TEC that decides", |shared| {
        shared.any_boundary(|boundary| boundary.needs_own(&shared.tec[boundary.outer - 1]))
    }),
];

/// Distances and how they are rounded.
const OF_DISTANCES: [Trait; 6] = [
    ("a share file, a distance above zero", |shared| shared.any_boundary(|boundary| boundary.distance > Metres(0))),
    ("a share file, a distance below zero", |shared| shared.any_boundary(|boundary| boundary.distance < Metres(0))),
    ("a share file, no distance", |shared| shared.any_boundary(|boundary| boundary.distance == Metres(0))),
    ("a share file, a part above zero rounded down", |shared| {
        shared.any_boundary(|boundary| boundary.distance > Metres(0) && boundary.over() > 0.0)
    }),
    ("a share file, a part below zero rounded down", |shared| {
        shared.any_boundary(|boundary| boundary.distance < Metres(0) && boundary.over() > 0.0)
    }),
    ("a share file, parts that rounded once a chain were others", |shared| {
        shared.ways().any(|way| way.iter().map(|boundary| boundary.over()).sum::<f64>() >= 1.0)
    }),
];

/// Load factors and tariffs.
const OF_CHARGES: [Trait; 8] = [
    ("a share file, the least load factor, 0, of a type with TEC", |shared| shared.has_load(0)),
    ("a share file, the greatest load factor, 1000, of a type with TEC", |shared| shared.has_load(1_000)),
    ("a share file, kilowatts that rounded down by type were fewer", |shared| {
        shared.any_zone(|tec| shared.loses_by_type(tec))
    }),
    ("a share file, a load factor for TEC of type 3", |shared| {
        shared.any_zone(|tec| tec[TYPE_3].0 * shared.share.load[TYPE_3] as i128 >= 1_000)
    }),
    ("a share file, a shared tariff above zero", |shared| shared.any_shared(|_, tariff| tariff > 0)),
    ("a share file, a shared tariff below zero", |shared| shared.any_shared(|_, tariff| tariff < 0)),
    ("a share file, a negative half of a shared tariff", |shared| {
        shared.any_shared(|metres, _| shared.is_negative_half(metres))
    }),
    ("a share file, a negative half of a not-shared tariff", |shared| {
        shared.figures.iter().any(|figures| shared.is_negative_half(figures.after_c))
    }),
];

/// Everything of a share file.
pub fn of_share(case: &Case, bytes: &[u8]) -> Vec<(&'static str, bool)> {
    let shared = Shared::of(case, bytes);
    let traits = OF_ZONES.iter().chain(&OF_FACTORS).chain(&OF_DISTANCES).chain(&OF_CHARGES);
    traits.map(|(name, has)| (*name, shared.as_ref().is_some_and(has))).collect()
}
