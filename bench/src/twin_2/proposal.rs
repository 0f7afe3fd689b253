//! Proposed solutions judged once over supply and offset: refusals 8 to 11 and 15.

use super::editions::{Background, Edition, Runs, System};
use super::flows::{headings, misses_low, net_flows, offsets, Case};
use super::numbers::{first_doubtful, first_in_doubt, first_out_of_range, Heading};
use super::plants::Counted;
use super::supply::base_supply;
use super::tables::Tables;
use super::Judged;
use crate::answer::refused;

/// The supply of each node in a background.
fn background_supply(tables: &Tables, background: Background) -> [i64; 256] {
    let n = tables.node_count();
    let fixed = tables.tec(Counted::Fixed(tables.frame.edition, background));
    let variable = tables.tec(Counted::Variable(tables.frame.edition, background));
    base_supply(&fixed[..n], &variable[..n], tables.demand())
}

fn case_of<'a>(tables: &'a Tables) -> Case<'a> {
    let edition = tables.frame.edition;
    Case {
        edition,
        nodes: tables.node_count(),
        reference: tables.frame.settings.reference - 1,
        circuits: &tables.circuits,
        supply: background_supply(tables, Background::YearRound),
        peak_supply: match edition {
            Edition::First => [0; 256],
            Edition::Second => background_supply(tables, Background::Peak),
        },
    }
}

/// 8, 9, 10 of systems 1 and 4; 15; 11; 8, 9, 10 of systems 2, 5 and 3. Edition 1 has no 4, no 15 and no 5.
pub fn judge(tables: &Tables, runs: Runs) -> Judged {
    let case = &case_of(tables);
    let headings = headings(case, runs.base, runs.peak_base);
    let solution = |system, run| solution(system, case, &headings, run);
    let in_second = |system, run| match case.edition {
        Edition::First => Ok(()),
        Edition::Second => solution(system, run),
    };
    solution(System::Base(Background::YearRound), runs.base)?;
    in_second(System::Base(Background::Peak), runs.peak_base)?;
    backgrounds(case, &headings)?;
    directions(case, &headings)?;
    solution(System::Wider(Background::YearRound), runs.wider)?;
    in_second(System::Wider(Background::Peak), runs.peak_wider)?;
    solution(System::Local, runs.local)
}

/// 8, 9 and 10 of a system, by its supply and offset.
fn solution(system: System, case: &Case, headings: &[Heading; 512], run: &[i64]) -> Judged {
    let supply = match system {
        System::Base(Background::YearRound) => &case.supply,
        System::Base(Background::Peak) => &case.peak_supply,
        System::Wider(_) | System::Local => &[0; 256],
    };
    judge_system(system, case, supply, &offsets(system, case, headings), run)
}

/// Rows of the whole run before anything is added, lowest first.
fn judge_system(system: System, case: &Case, supply: &[i64; 256], offset: &[i64; 512], run: &[i64]) -> Judged {
    if let Some(row) = first_out_of_range(system, case.nodes, case.reference, run) {
        return Err(refused(8, system.number(), row + 1));
    }
    let apart = net_flows(case, run).iter().zip(supply).position(|(net, supply)| net != supply);
    if let Some(node) = apart {
        return Err(refused(9, system.number(), node + 1));
    }
    if misses_low(case, offset, run) {
        return Ok(());
    }
    Err(refused(10, system.number(), 0))
}

/// 15: which background a circuit counts for.
fn backgrounds(case: &Case, headings: &[Heading; 512]) -> Judged {
    match first_doubtful(&case.circuits.length, headings) {
        Some(circuit) => Err(refused(15, 0, circuit + 1)),
        None => Ok(()),
    }
}

/// 11: the direction of a circuit's own base flow, with the system that it is of.
fn directions(case: &Case, headings: &[Heading; 512]) -> Judged {
    match first_in_doubt(&case.circuits.length, headings) {
        Some(circuit) => {
            let system = System::Base(headings[circuit].counting.background());
            Err(refused(11, system.number(), circuit + 1))
        }
        None => Ok(()),
    }
}
