//! Steps 8 to 10: C, tariffs, residuals and remainders.

use super::editions::{Edition, Runs};
use super::numbers::within;
use super::plants::Counted;
use super::quotients::{metres, price};
use super::rests::Rest;
use super::settings::Settings;
use super::tables::Tables;
use super::totals::total;
use super::zones::{c_of, Columns, Side, ZoneSums, Zones, MOST_METRES};

/// What a line of a zone says of a background.
#[derive(Clone, Copy, Default)]
pub struct WiderFigures {
    pub metres: i64,
    pub after_c: i64,
    pub tariff: i64,
}

#[derive(Clone, Copy, Default)]
pub struct ZoneFigures {
    pub weight: u64,
    pub year_round: WiderFigures,
    pub peak: WiderFigures,
    pub total: i64,
}

pub struct SideFigures {
    pub zones: usize,
    pub residual: i64,
    pub remainder: u64,
    pub zone: [ZoneFigures; 32],
}

#[derive(Clone, Copy, Default)]
pub struct LocalFigures {
    pub tec: u64,
    pub metres: i64,
    pub tariff: i64,
}

/// All that the sheet prints but the names. In edition 1 peak's figures are 0, and not printed.
pub struct Figures {
    pub edition: Edition,
    pub c: i64,
    pub peak_c: i64,
    pub generation: SideFigures,
    pub demand: SideFigures,
    pub local: [LocalFigures; 256],
}

/// The zones of a side in a background, and what C adds to their metres.
struct Priced<'a> {
    zones: &'a Zones,
    shift: i64,
}

impl Priced<'_> {
    fn line(&self, zone: &ZoneSums, settings: &Settings) -> WiderFigures {
        let metres = zone.metres();
        let after_c = metres + self.shift;
        WiderFigures { metres, after_c, tariff: price(after_c, settings.constant, settings.wider_factor) }
    }

    /// The figures of each zone, and the rest without what their tariffs bring in.
    fn lines(&self, settings: &Settings, mut rest: Rest, payers: u64) -> ([WiderFigures; 32], Rest) {
        let mut lines = [WiderFigures::default(); 32];
        for (line, zone) in lines.iter_mut().zip(&self.zones.sums[..self.zones.count]) {
            *line = self.line(zone, settings);
            rest = rest.less(payers, line.tariff, zone.paying);
        }
        (lines, rest)
    }
}

/// A side whose rest has its local tariffs taken off.
fn side_figures(year_round: Priced, peak: Priced, settings: &Settings, rest: Rest, payers: u64) -> SideFigures {
    let (lines, rest) = year_round.lines(settings, rest, payers);
    let (peak_lines, rest) = peak.lines(settings, rest, payers);
    let Zones { count, sums, .. } = year_round.zones;
    let mut zone = [ZoneFigures::default(); 32];
    for k in 0..*count {
        let (year_round, peak) = (lines[k], peak_lines[k]);
        let total = year_round.tariff + peak.tariff + rest.each;
        zone[k] = ZoneFigures { weight: sums[k].weight, year_round, peak, total };
    }
    SideFigures { zones: *count, residual: rest.each, remainder: rest.over, zone }
}

/// Local metres; 0 past their range.
fn local_metres(potential: i64) -> i64 {
    let metres = metres(potential);
    if within(metres, MOST_METRES) {
        return metres;
    }
    0
}

/// The local lines of the nodes, their tariffs taken off the rest.
fn local_figures(
    settings: &Settings,
    tec: &[u64],
    paying: &[u64],
    local: &[i64],
    mut rest: Rest,
    payers: u64,
) -> ([LocalFigures; 256], Rest) {
    let mut lines = [LocalFigures::default(); 256];
    for (v, line) in lines.iter_mut().enumerate().take(tec.len()) {
        let metres = local_metres(local[v]);
        let tariff = price(metres, settings.constant, settings.local_factor);
        rest = rest.less(payers, tariff, paying[v]);
        *line = LocalFigures { tec: tec[v], metres, tariff };
    }
    (lines, rest)
}

/// The zones of both sides in a background of so many nodes: generation weighs by TEC, demand by demand, all of which pays.
fn sides_of(tables: &Tables, zones: [usize; 2], tec: &[u64; 256], paying: &[u64; 256], wider: &[i64]) -> [Zones; 2] {
    let nodes = &tables.nodes;
    let [generation, demand] = zones;
    [
        Columns { side: Side::Generation, count: generation, zone: &nodes.generation_zone, weight: tec, paying }
            .zones(wider),
        Columns {
            side: Side::Demand,
            count: demand,
            zone: &nodes.demand_zone,
            weight: &nodes.demand,
            paying: &nodes.demand,
        }
        .zones(wider),
    ]
}

/// The figures of a case that nothing stops.
pub fn figures(tables: &Tables, runs: Runs) -> Figures {
    let (n, edition, settings) = (tables.node_count(), tables.frame.edition, &tables.frame.settings);
    let tec = tables.tec(Counted::All);
    let paying = tables.tec(Counted::Paying);
    let paying_at_peak = match edition {
        Edition::First => [0; 256],
        Edition::Second => tables.tec(Counted::PayingAtPeak),
    };
    let zones = [settings.generation_zones, settings.demand_zones];
    let at_peak = zones.map(|count| edition.at_peak(count));
    let [up, down] = sides_of(tables, zones, &tec, &paying, &runs.wider[..n]);
    let peak_wider = &runs.peak_wider[..edition.at_peak(n)];
    let [peak_up, peak_down] = sides_of(tables, at_peak, &tec, &paying_at_peak, peak_wider);
    let (payers, load) = (total(&paying[..n]), total(tables.demand()));
    let p = settings.p;
    let target = |share: u64| (settings.revenue * share * 1000) as i64;
    let rest = Rest::start(target(1000 - p), payers);
    let (local, rest) = local_figures(settings, &tec[..n], &paying[..n], runs.local, rest, payers);
    let (c, peak_c) = (c_of(p, &up, &down), c_of(p, &peak_up, &peak_down));
    let priced = |zones, shift| Priced { zones, shift };
    let generation = side_figures(priced(&up, c), priced(&peak_up, peak_c), settings, rest, payers);
    let rest = Rest::start(target(p), load);
    let demand = side_figures(priced(&down, -c), priced(&peak_down, -peak_c), settings, rest, load);
    Figures { edition, c, peak_c, generation, demand, local }
}
