//! 01 steps 1 and 6 to 10: kilowatts, metres and money. 02, CR 1: "Type 3 TEC stays in scaling and zonal weights, and
//! leaves both generation terms of C, wider and local income, and the residual's divisor". 02, CR 5: the same for each
//! background of the edition. 02, CR 6: year round's generation split, where a share file is given.

use crate::background::{Background, Running, LOCAL_SYSTEM};
use crate::file::{Name, RUNS};
use crate::quantities::{nearest, rounded_down, Kw, Metres, MicroPerKw};
use crate::refusal::Refusal;
use crate::sharing::{split, Share};
use crate::tables::{Node, Plant, Station, Tables, PLANTS};

/// 01 "The sheet": everything it prints.
#[derive(Clone, Debug, PartialEq, Eq)]
pub struct Sheet {
    /// 02, CR 5: of each background as they are printed.
    pub c: Vec<Metres>,
    pub generation: Side,
    pub demand: Side,
    pub local: Vec<LocalLine>,
}

/// 01 "The sheet": the lines of zones 1, 2, ... of generation or of demand, and what step 10 leaves.
#[derive(Clone, Debug, PartialEq, Eq)]
pub struct Side {
    /// `None` for "A zone with no kilowatts".
    pub zones: Vec<Option<ZoneLine>>,
    /// Micro-pounds.
    pub remainder: i128,
}

/// 01 "The sheet": "zone, zonal metres, metres after C, tariff, residual, total". 02, CR 5: "peak's metres, metres after C
/// and tariff before year round's, and a total adds both and the residual".
#[derive(Clone, Debug, PartialEq, Eq)]
pub struct ZoneLine {
    /// Of each background as they are printed.
    pub figures: Vec<ZoneFigures>,
    pub residual: MicroPerKw,
    pub total: MicroPerKw,
}

/// 01 "The sheet": a zone's figures in one background. 02, CR 6: "Year round's three on a `G` line become not-shared metres,
/// these plus C and their tariff, with shared metres and tariff after them".
#[derive(Clone, Copy, Debug, PartialEq, Eq)]
pub struct ZoneFigures {
    pub metres: Metres,
    pub after_c: Metres,
    pub tariff: MicroPerKw,
    /// `None` where nothing is split.
    pub shared: Option<SharedFigures>,
}

/// 02, CR 6: "shared metres and tariff".
#[derive(Clone, Copy, Debug, PartialEq, Eq)]
pub struct SharedFigures {
    pub metres: Metres,
    pub tariff: MicroPerKw,
}

/// 01 "The sheet": "`L`, node name without padding, local metres, local tariff".
#[derive(Clone, Debug, PartialEq, Eq)]
pub struct LocalLine {
    pub name: Name,
    pub metres: Metres,
    pub tariff: MicroPerKw,
}

/// 01 step 7, 02 CR 1: a node as its zone counts it.
#[derive(Clone, Copy, Debug, PartialEq, Eq)]
pub struct ZoneRow {
    pub zone: usize,
    pub metres: Metres,
    /// The kilowatts that its metres are weighed with.
    pub weight: Kw,
    /// The kilowatts that are charged: generation without type 3 (at peak without type 1 too), all of demand.
    pub chargeable: Kw,
}

/// 01 step 7, 02 CR 1: a zone's rounded average and the kilowatts that are charged there.
#[derive(Clone, Copy, Debug, PartialEq, Eq)]
pub struct Zone {
    /// `None` where there are no kilowatts to weigh with.
    pub metres: Option<Metres>,
    pub chargeable: Kw,
}

/// 01 step 1: "Node TEC is the sum over its stations", of every type.
pub fn node_tec(tables: &Tables) -> Vec<Kw> {
    node_sums(tables, |station| station.tec)
}

/// 02, CR 1: of each node the TEC that is charged, the sum over its stations of other types than 3.
pub fn node_chargeable(tables: &Tables) -> Vec<Kw> {
    node_sums(tables, Station::chargeable)
}

/// 02, CR 1 and CR 5: of each node the TEC that a background's tariff is charged on.
pub fn node_charged(tables: &Tables, background: Background) -> Vec<Kw> {
    node_tec_of(tables, |plant| background.charges(plant))
}

/// Of each node the TEC of some plant types.
fn node_tec_of(tables: &Tables, counts: impl Fn(Plant) -> bool) -> Vec<Kw> {
    node_sums(tables, |station| if counts(station.plant) { station.tec } else { Kw(0) })
}

/// The sum of some nodes' kilowatts.
pub fn total(kilowatts: &[Kw]) -> Kw {
    Kw(kilowatts.iter().map(|kw| kw.0).sum())
}

/// 01 step 1: of each node "the sum over its stations" of some of their kilowatts.
fn node_sums(tables: &Tables, kw: impl Fn(&Station) -> Kw) -> Vec<Kw> {
    let mut sums = vec![Kw(0); tables.nodes.len()];
    for station in &tables.stations {
        sums[station.node].0 += kw(station).0;
    }
    sums
}

/// 01 step 1: "node TEC x total demand / total TEC, rounded down. The kilowatts still missing go one each to the
/// first nodes in table order whose division left something over".
pub fn scaled_generation(node_tec: &[Kw], total_demand: Kw, total_tec: Kw) -> Vec<Kw> {
    let product = |tec: &Kw| tec.0 * total_demand.0;
    let mut scaled: Vec<Kw> = node_tec.iter().map(|tec| Kw(rounded_down(product(tec), total_tec.0))).collect();
    let mut missing = total_demand.0 - scaled.iter().map(|kw| kw.0).sum::<i128>();
    for (kw, tec) in scaled.iter_mut().zip(node_tec) {
        if missing > 0 && product(tec) % total_tec.0 != 0 {
            kw.0 += 1;
            missing -= 1;
        }
    }
    scaled
}

/// 02, CR 5: of each node what its fixed types run at: "their percentage of TEC per node and type, rounded down".
pub fn fixed_generation(tables: &Tables, background: Background) -> Vec<Kw> {
    let mut fixed = vec![Kw(0); tables.nodes.len()];
    for of_type in PLANTS {
        if let Running::Fixed(percent) = background.running(of_type) {
            for (kw, tec) in fixed.iter_mut().zip(node_tec_of(tables, |plant| plant == of_type)) {
                kw.0 += rounded_down(percent * tec.0, 100);
            }
        }
    }
    fixed
}

/// 02, CR 5: of each node the TEC of its variable types together.
pub fn variable_tec(tables: &Tables, background: Background) -> Vec<Kw> {
    node_tec_of(tables, |plant| background.running(plant) == Running::Variable)
}

/// 02, CR 5: "the remaining demand", which variable types share; below zero where the fixed ones run above demand.
pub fn remaining_demand(tables: &Tables, background: Background) -> Kw {
    Kw(tables.total_demand.0 - total(&fixed_generation(tables, background)).0)
}

/// 02, CR 5: "14, system 0 row 0, fixed generation above demand or variable generation too small in a background, after
/// 13". In edition 1 nothing is fixed and 7 has it that all TEC is enough.
pub fn judge_generation(tables: &Tables) -> Result<(), Refusal> {
    let enough = |background: &Background| {
        let remaining = remaining_demand(tables, *background).0;
        0 <= remaining && remaining <= total(&variable_tec(tables, *background)).0
    };
    match tables.edition.backgrounds().iter().all(enough) {
        true => Ok(()),
        false => Err(Refusal { number: 14, system: 0, row: 0 }),
    }
}

/// 01 step 1, 02 CR 5: of each node the generation of a background: what is fixed, and its share of the remaining demand
/// "by 01's rule for scaled generation and missing kilowatts, or .. 0 where none remains". 14 went before.
pub fn generation(tables: &Tables, background: Background) -> Vec<Kw> {
    let mut generation = fixed_generation(tables, background);
    let remaining = remaining_demand(tables, background);
    if remaining.0 > 0 {
        let tec = variable_tec(tables, background);
        for (kw, variable) in generation.iter_mut().zip(scaled_generation(&tec, remaining, total(&tec))) {
            kw.0 += variable.0;
        }
    }
    generation
}

/// 01 step 1: "Net is scaled generation less demand".
pub fn net(tables: &Tables, background: Background) -> Vec<Kw> {
    let generation = generation(tables, background);
    generation.iter().zip(&tables.nodes).map(|(scaled, node)| Kw(scaled.0 - node.demand.0)).collect()
}

/// 01 step 6: "Nodal marginal metres are the nearest of potential / 1,000,000,000".
pub fn nodal_metres(potential: i64) -> Metres {
    Metres(nearest(potential as i128, 1_000_000_000))
}

/// 01 step 6: "A demand node's distance is the negative of its rounded wider one".
pub fn demand_metres(wider: Metres) -> Metres {
    Metres(-wider.0)
}

/// 01 step 7: "Zonal metres are the nearest of the average over the zone's nodes", for zones 1 to `count`.
pub fn zones(count: u32, rows: &[ZoneRow]) -> Vec<Zone> {
    let zone = |number: usize| {
        let of_zone = || rows.iter().filter(move |row| row.zone == number);
        let weight: i128 = of_zone().map(|row| row.weight.0).sum();
        let weighted: i128 = of_zone().map(|row| row.metres.0 * row.weight.0).sum();
        Zone {
            metres: (weight > 0).then(|| Metres(nearest(weighted, weight))),
            chargeable: Kw(of_zone().map(|row| row.chargeable.0).sum()),
        }
    };
    (1..=count as usize).map(zone).collect()
}

/// 01 steps 8 and 10, 02 CR 1: a side's sum of a figure of its zones' metres times their chargeable kW. A zone without
/// kilowatts adds nothing.
fn over_chargeable(zones: &[Zone], figure: impl Fn(Metres) -> i128) -> i128 {
    zones.iter().filter_map(|zone| zone.metres.map(|metres| figure(metres) * zone.chargeable.0)).sum()
}

/// 01 step 8: "C is the nearest of ((1000-p) x sum of demand zone metres times kW, less p x sum of generation zone
/// metres times kW) / (p x total TEC + (1000-p) x total demand)". 02, CR 1: type 3 TEC "leaves both generation terms of
/// C", the sum and the total. 02, CR 5: at peak type 1 too. The divisor is above zero: 13 and 14 went before.
pub fn c(tables: &Tables, background: Background, generation: &[Zone], demand: &[Zone]) -> Metres {
    let (number, divisor) = c_division(tables, background, generation, demand);
    Metres(nearest(number, divisor))
}

/// 01 step 8: the number and the divisor that C is the nearest of.
pub fn c_division(tables: &Tables, background: Background, generation: &[Zone], demand: &[Zone]) -> (i128, i128) {
    let p = tables.settings.p as i128;
    let metre_kilowatts = |zones| over_chargeable(zones, |metres| metres.0);
    let number = (1000 - p) * metre_kilowatts(demand) - p * metre_kilowatts(generation);
    let charged = total(&node_charged(tables, background));
    let divisor = p * charged.0 + (1000 - p) * tables.total_demand.0;
    (number, divisor)
}

/// 01 step 9: "the nearest of metres x constant x security factor / 100,000".
pub fn tariff(metres: Metres, constant: u32, security_factor: u32) -> MicroPerKw {
    MicroPerKw(nearest(metres.0 * constant as i128 * security_factor as i128, 100_000))
}

/// 01 step 10: "rest / total kW rounded down (also below zero); what is left is printed as a remainder". 02, CR 1:
/// generation's total is of chargeable kilowatts.
pub fn residual(rest: i128, total: Kw) -> (MicroPerKw, i128) {
    let residual = rounded_down(rest, total.0);
    (MicroPerKw(residual), rest - residual * total.0)
}

/// 01 steps 7 and 8: the zones of one side in one background.
struct Column {
    /// 02, CR 6: not-shared metres, where they are split.
    zones: Vec<Zone>,
    /// C for generation ("add C") and its negative for demand ("subtract it").
    shift: i128,
    /// 02, CR 6: the same zones with their shared metres, where they are split.
    shared: Option<Vec<Zone>>,
}

impl Column {
    /// 01 step 8: generation's zones, which "add C". 02, CR 6: "C is unchanged": it comes from the whole metres, which split
    /// year round, and is added to those not shared.
    fn of_generation(
        tables: &Tables,
        background: Background,
        zones: Vec<Zone>,
        c: Metres,
        share: Option<&Share>,
    ) -> Column {
        match share {
            Some(share) if background == Background::YearRound => {
                let split = split(tables, share, &zones);
                Column { zones: split.not_shared, shift: c.0, shared: Some(split.shared) }
            }
            _ => Column { zones, shift: c.0, shared: None },
        }
    }

    /// 01 step 8: demand's zones, which "subtract it".
    fn of_demand(zones: Vec<Zone>, c: Metres) -> Column {
        Column { zones, shift: -c.0, shared: None }
    }

    /// 01 step 8: metres after C.
    fn after_c(&self, metres: Metres) -> Metres {
        Metres(metres.0 + self.shift)
    }

    /// 01 step 9: a zone's tariff.
    fn tariff(&self, tables: &Tables, metres: Metres) -> MicroPerKw {
        wider_tariff(tables, self.after_c(metres))
    }

    /// 01 step 10: the income of a side in a background, "zone tariffs times TEC". 02, CR 6: "demand 2's income counts" the
    /// shared tariff on its own kilowatts.
    fn income(&self, tables: &Tables) -> i128 {
        let shared = self.shared.as_deref().unwrap_or_default();
        over_chargeable(&self.zones, |metres| self.tariff(tables, metres).0)
            + over_chargeable(shared, |metres| wider_tariff(tables, metres).0)
    }

    /// 01 "The sheet": the figures of a zone, by its place from 0.
    fn figures(&self, tables: &Tables, place: usize) -> Option<ZoneFigures> {
        let shared = self.shared.as_ref().and_then(|zones| zones[place].metres);
        self.zones[place].metres.map(|metres| ZoneFigures {
            metres,
            after_c: self.after_c(metres),
            tariff: self.tariff(tables, metres),
            shared: shared.map(|metres| SharedFigures { metres, tariff: wider_tariff(tables, metres) }),
        })
    }
}

/// 01 step 9: the tariff of wider metres.
fn wider_tariff(tables: &Tables, metres: Metres) -> MicroPerKw {
    tariff(metres, tables.settings.constant, tables.settings.wider_factor)
}

/// 01 steps 6 to 10: the sheet without a share file.
pub fn sheet(tables: &Tables, runs: [&[i64]; RUNS]) -> Sheet {
    sheet_with_share(tables, runs, None)
}

/// 01 steps 6 to 10: the sheet from sound tables and the potentials at the head of each run. 02, CR 5: a column for each
/// background, as they are printed. 02, CR 6: by a share file that 16 let pass, if there is one.
pub fn sheet_with_share(tables: &Tables, runs: [&[i64]; RUNS], share: Option<&Share>) -> Sheet {
    let settings = &tables.settings;
    let p = settings.p as i128;
    let potentials = |system: u32| &runs[system as usize - 1][..tables.nodes.len()];
    let (mut c, mut generation, mut demand) = (Vec::new(), Vec::new(), Vec::new());
    for background in tables.edition.printed() {
        let wider = potentials(background.wider_system());
        let supplied = zones(settings.generation_zones, &generation_rows(tables, *background, wider));
        let asked = zones(settings.demand_zones, &demand_rows(tables, wider));
        let metres = self::c(tables, *background, &supplied, &asked);
        c.push(metres);
        generation.push(Column::of_generation(tables, *background, supplied, metres, share));
        demand.push(Column::of_demand(asked, metres));
    }
    let local = local_charges(tables, potentials(LOCAL_SYSTEM));
    let target = |share: i128| settings.revenue as i128 * share * 1_000;
    Sheet {
        c,
        generation: side(tables, &generation, target(1000 - p) - local.income, tables.total_chargeable),
        demand: side(tables, &demand, target(p), tables.total_demand),
        local: local.lines,
    }
}

/// 01 step 7: "generation weighted by TEC". 02, CR 1: by all of it, and charged without type 3. 02, CR 5: in both
/// backgrounds, and at peak charged without type 1 too.
pub fn generation_rows(tables: &Tables, background: Background, wider: &[i64]) -> Vec<ZoneRow> {
    let kilowatts = node_tec(tables).into_iter().zip(node_charged(tables, background));
    let nodes = tables.nodes.iter().zip(kilowatts).zip(wider);
    let row = |((node, (weight, chargeable)), potential): ((&Node, (Kw, Kw)), &i64)| ZoneRow {
        zone: node.generation_zone,
        metres: nodal_metres(*potential),
        weight,
        chargeable,
    };
    nodes.map(row).collect()
}

/// 01 steps 6 and 7: demand's distances, "demand by demand".
pub fn demand_rows(tables: &Tables, wider: &[i64]) -> Vec<ZoneRow> {
    let row = |(node, potential): (&Node, &i64)| ZoneRow {
        zone: node.demand_zone,
        metres: demand_metres(nodal_metres(*potential)),
        weight: node.demand,
        chargeable: node.demand,
    };
    tables.nodes.iter().zip(wider).map(row).collect()
}

/// 01 steps 9 and 10: the `L` lines, and the local income.
struct LocalCharges {
    lines: Vec<LocalLine>,
    /// Micro-pounds.
    income: i128,
}

/// 01 steps 9 and 10: the `L` lines "for nodes with TEC above zero in table order", and the local income ("node local
/// tariffs times TEC"). 02, CR 1: nodes "with only type 3 TEC print as before", and the income is "over chargeable
/// kilowatts".
fn local_charges(tables: &Tables, local: &[i64]) -> LocalCharges {
    let settings = &tables.settings;
    let mut charges = LocalCharges { lines: Vec::new(), income: 0 };
    let kilowatts = node_tec(tables).into_iter().zip(node_chargeable(tables));
    for ((node, (tec, chargeable)), potential) in tables.nodes.iter().zip(kilowatts).zip(local) {
        if tec.0 > 0 {
            let metres = nodal_metres(*potential);
            let tariff = tariff(metres, settings.constant, settings.local_factor);
            charges.income += tariff.0 * chargeable.0;
            charges.lines.push(LocalLine { name: node.name, metres, tariff });
        }
    }
    charges
}

/// 01 steps 8 to 10 for one side: metres after C, tariffs, income, residual, totals. `target` has local income already
/// taken off; `total` is what the residual is spread over. 02, CR 1: zones "with only type 3 TEC print as before", and add
/// nothing to the income. 02, CR 5: "a total adds both and the residual". 02, CR 6: "the total leaves the shared tariff out".
fn side(tables: &Tables, columns: &[Column], target: i128, total: Kw) -> Side {
    let income: i128 = columns.iter().map(|column| column.income(tables)).sum();
    let (residual, remainder) = residual(target - income, total);
    let line = |place: usize| {
        let figures =
            columns.iter().map(|column| column.figures(tables, place)).collect::<Option<Vec<ZoneFigures>>>()?;
        let total = MicroPerKw(figures.iter().map(|figures| figures.tariff.0).sum::<i128>() + residual.0);
        Some(ZoneLine { figures, residual, total })
    };
    Side { zones: (0..columns[0].zones.len()).map(line).collect(), remainder }
}
