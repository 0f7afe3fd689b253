//! 02, CR 2: the halves below zero that an accepted case has to round. 02, CR 5: in each background of its edition.

use reference::background::Background;
use reference::charges::{
    c_division, demand_rows, generation_rows, judge_generation, node_tec, sheet, zones, Sheet, Side, ZoneRow,
};
use reference::file::{Case, Edition};
use reference::quantities::{Kw, Metres};
use reference::tables::{sound_tables, Tables};

/// A place of steps 6 to 9 where a case may have a half below zero.
pub struct Half {
    pub name: String,
    /// The background; none of local metres and tariffs.
    background: Option<Background>,
    /// How often it is wanted among the others; 0 where it comes by itself.
    weight: usize,
    /// The case has one that counts.
    pub met: bool,
}

impl Half {
    /// How often it is wanted in cases of an edition.
    pub fn weight_in(&self, edition: Edition) -> usize {
        match self.background {
            Some(background) if !edition.backgrounds().contains(&background) => 0,
            _ => self.weight,
        }
    }
}

/// The places of a background with their weights, by how rare they are.
const PLACES: [(&str, usize); 6] = [
    ("a wider metre", 1),
    ("a generation zone's average", 3),
    ("a demand zone's average", 2),
    ("C", 2),
    ("a generation zone's tariff", 1),
    ("a demand zone's tariff", 0),
];

/// The places without a background.
const LOCAL_PLACES: [(&str, usize); 2] = [("a local metre", 1), ("a local tariff", 0)];

/// Every place, and whether a case whose tables are sound has a half there.
pub fn negative_halves(case: &Case) -> Vec<Half> {
    let tables = sound_tables(case).expect("a network's tables are sound");
    // Where 14 holds there is none.
    let printed = judge_generation(&tables).is_ok().then(|| sheet(&tables, case.lent()));
    let mut list = Vec::new();
    for (background, word) in
        [(Background::Single, ""), (Background::YearRound, ", year round"), (Background::Peak, ", peak")]
    {
        let own = printed.as_ref().filter(|_| case.edition.backgrounds().contains(&background));
        let met = own.map_or([false; 6], |printed| in_background(case, &tables, printed, background));
        list.extend(PLACES.iter().zip(met).map(|((place, weight), met)| Half {
            name: format!("a negative half of {place}{word}"),
            background: Some(background),
            weight: *weight,
            met,
        }));
    }
    let met = printed.map_or([false; 2], |printed| in_local(case, &tables, &printed));
    list.extend(LOCAL_PLACES.iter().zip(met).map(|((place, weight), met)| {
        let name = format!("a negative half of {place}");
        Half { name, background: None, weight: *weight, met }
    }));
    list
}

/// Of each of `PLACES`, whether it has one.
fn in_background(case: &Case, tables: &Tables, printed: &Sheet, background: Background) -> [bool; 6] {
    let (settings, nodes) = (&tables.settings, tables.nodes.len());
    let wider = &case.runs[background.wider_system() as usize - 1][..nodes];
    let (generation, demand) = (generation_rows(tables, background, wider), demand_rows(tables, wider));
    let (of_generation, of_demand) = (settings.generation_zones, settings.demand_zones);
    let (number, divisor) =
        c_division(tables, background, &zones(of_generation, &generation), &zones(of_demand, &demand));
    let tec = node_tec(tables);
    let weighs = |node: &usize| tec[*node] > Kw(0) || demand[*node].weight > Kw(0);
    let column = case.edition.printed().iter().position(|of| *of == background).expect("a background of the edition");
    let prices = |side: &Side| {
        let mut lines = side.zones.iter().flatten();
        lines.any(|line| of_price(tables, line.figures[column].after_c, settings.wider_factor))
    };
    [
        (0..nodes).filter(weighs).any(|node| of_metre(wider[node])),
        of_average(of_generation, &generation),
        of_average(of_demand, &demand),
        is_negative_half(number, divisor),
        prices(&printed.generation),
        prices(&printed.demand),
    ]
}

/// Of each of `LOCAL_PLACES`, whether it has one.
fn in_local(case: &Case, tables: &Tables, printed: &Sheet) -> [bool; 2] {
    let (tec, local) = (node_tec(tables), &case.runs[2]);
    [
        (0..tec.len()).any(|node| tec[node] > Kw(0) && of_metre(local[node])),
        printed.local.iter().any(|line| of_price(tables, line.metres, tables.settings.local_factor)),
    ]
}

/// Below zero, and in the middle between two whole numbers.
fn is_negative_half(number: i128, divisor: i128) -> bool {
    number < 0 && 2 * number.rem_euclid(divisor) == divisor
}

fn of_metre(potential: i64) -> bool {
    is_negative_half(potential as i128, 1_000_000_000)
}

fn of_price(tables: &Tables, metres: Metres, factor: u32) -> bool {
    is_negative_half(metres.0 * tables.settings.constant as i128 * factor as i128, 100_000)
}

/// In some zone.
fn of_average(count: u32, rows: &[ZoneRow]) -> bool {
    (1..=count as usize).any(|zone| {
        let of_zone = || rows.iter().filter(move |row| row.zone == zone);
        let weight: i128 = of_zone().map(|row| row.weight.0).sum();
        let weighted: i128 = of_zone().map(|row| row.metres.0 * row.weight.0).sum();
        weight > 0 && is_negative_half(weighted, weight)
    })
}
