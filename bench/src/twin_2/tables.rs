//! The tables read and judged in their order: refusals 3 to 7, 13 and 14.

use super::circuits::{self, Circuits};
use super::editions::{Background, Edition};
use super::layout::Frame;
use super::nodes::{self, Nodes};
use super::plants::Counted;
use super::stations::{self, by_node, ByType, Stations};
use super::totals::{total, MOST};
use super::walk::unreached;
use super::Judged;
use crate::answer::refused;

/// What later steps need of the tables, read once: columns, and TEC by node and plant type.
pub struct Tables<'a> {
    pub frame: Frame<'a>,
    pub nodes: Nodes,
    pub circuits: Circuits,
    by_type: ByType,
}

impl<'a> Tables<'a> {
    /// Nothing is read yet.
    pub fn of(frame: Frame<'a>) -> Tables<'a> {
        Tables { frame, nodes: Nodes::NONE, circuits: Circuits::NONE, by_type: [[0; 7]; 256] }
    }

    pub fn node_count(&self) -> usize {
        self.frame.nodes.len()
    }

    pub fn demand(&self) -> &[u64] {
        &self.nodes.demand[..self.node_count()]
    }

    /// What counts of the TEC of each node.
    pub fn tec(&self, counted: Counted) -> [u64; 256] {
        by_node(&self.by_type, counted)
    }

    fn total_tec(&self, counted: Counted) -> u64 {
        total(&self.tec(counted)[..self.node_count()])
    }

    /// Each table is read and judged once nothing before it stops the file.
    pub fn read(&mut self) -> Judged {
        let Tables { frame, nodes, circuits, by_type } = self;
        let n = frame.nodes.len();
        nodes::judge(frame.nodes, &frame.settings)?;
        nodes.read(frame.nodes);
        circuits.read(frame.nodes, &frame.circuits, &frame.settings.factors);
        circuits::judge(n, &frame.circuits, circuits)?;
        let mut stations = Stations::NONE;
        stations.read(frame.nodes, frame.stations);
        let judged = stations::judge(n, frame.stations, &stations);
        stations::add_up(by_type, n, frame.stations.len(), &stations);
        judged?;
        grid(self)
    }
}

/// 6, 7, 13 and 14, all of them looked at.
fn grid(tables: &Tables) -> Judged {
    let reached = reach(tables);
    let totalled = totals(tables);
    let charged = chargeable(tables);
    let scaled = scaling(tables);
    reached.and(totalled).and(charged).and(scaled)
}

fn reach(tables: &Tables) -> Judged {
    let circuits = tables.frame.circuits.len();
    let (first, second) = (&tables.circuits.first[..circuits], &tables.circuits.second[..circuits]);
    match unreached(tables.node_count(), tables.frame.settings.reference - 1, first, second) {
        Some(node) => Err(refused(6, 0, node + 1)),
        None => Ok(()),
    }
}

fn totals(tables: &Tables) -> Judged {
    let (demand, tec) = (total(tables.demand()), tables.total_tec(Counted::All));
    if (1..=MOST).contains(&demand) && (1..=MOST).contains(&tec) && demand <= tec {
        return Ok(());
    }
    Err(refused(7, 0, 0))
}

fn chargeable(tables: &Tables) -> Judged {
    if tables.total_tec(Counted::Paying) >= 1 {
        return Ok(());
    }
    Err(refused(13, 0, 0))
}

/// Edition 2 alone asks 14, of both backgrounds.
fn scaling(tables: &Tables) -> Judged {
    match tables.frame.edition {
        Edition::First => Ok(()),
        Edition::Second => scalable(tables, Background::YearRound).and(scalable(tables, Background::Peak)),
    }
}

/// Fixed generation above demand, or variable generation too small.
fn scalable(tables: &Tables, background: Background) -> Judged {
    let fixed = tables.total_tec(Counted::Fixed(tables.frame.edition, background));
    let variable = tables.total_tec(Counted::Variable(tables.frame.edition, background));
    let demand = total(tables.demand());
    if fixed <= demand && demand <= fixed + variable {
        return Ok(());
    }
    Err(refused(14, 0, 0))
}
