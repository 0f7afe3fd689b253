//! A solver for tests: whole-number solutions of an edition's systems with exact balance and small misses.
//!
//! 01 leaves solving to the client. Here: potentials by elimination in floating point, corrected until the whole
//! numbers are right (the error of each round is summed in whole numbers); flows of the circuits outside a spanning
//! tree rounded one after another so that the tree carries as little of the rounding as may be; flows of the tree by
//! balance alone. Where a system has a solution in whole numbers, that solution comes out.

use crate::charges::judge_generation;
use crate::file::{Case, RUNS};
use crate::solutions::{base_systems, length_systems, lengths, misses, System};
use crate::tables::{sound_tables, Tables};

/// 01 step 2: a proposal for each system, with the sums of its misses. A system that the edition doesn't have has an empty
/// run.
#[derive(Clone, Debug, Default, PartialEq, Eq)]
pub struct Proposal {
    pub runs: [Vec<i64>; RUNS],
    pub misses: [i128; RUNS],
}

/// Solutions for the tables of a case. Where its tables are refused any solutions do: zeros, and the reason.
pub fn solved(case: &Case) -> (Case, Option<String>) {
    let proposal = sound_tables(case).map_err(|refusal| refusal.to_string()).and_then(|tables| propose(&tables));
    let (runs, trouble) = match proposal {
        Ok(proposal) => (proposal.runs, None),
        Err(reason) => (case.zeros(), Some(reason)),
    };
    (Case { runs, ..case.clone() }, trouble)
}

/// 01 steps 3 and 5, 02 CR 5: solutions of the base systems, of the wider ones and of local. A circuit in doubt about its
/// background is taken for year round, one in doubt of its direction as idle. Tables refused by 14 have no solutions.
pub fn propose(tables: &Tables) -> Result<Proposal, String> {
    judge_generation(tables).map_err(|refusal| refusal.to_string())?;
    let network = Network::of(tables);
    let mut proposal = Proposal::default();
    proposal.add(tables, &network, base_systems(tables))?;
    let lengths = lengths(tables, proposal.runs.each_ref().map(Vec::as_slice));
    proposal.add(tables, &network, length_systems(tables, &lengths))?;
    Ok(proposal)
}

impl Proposal {
    /// Solutions of further systems.
    fn add(&mut self, tables: &Tables, network: &Network, systems: Vec<System>) -> Result<(), String> {
        for system in systems {
            let place = system.number as usize - 1;
            self.runs[place] = network.solve(tables, &system)?;
            self.misses[place] = misses(tables, &system, &self.runs[place]);
        }
        Ok(())
    }
}

/// What the systems share: the eliminated matrix and a spanning tree.
struct Network {
    /// Lower triangle of the Cholesky factor of the node matrix, the reference's row and column those of the unit.
    factor: Vec<Vec<f64>>,
    tree: Tree,
}

/// A spanning tree hung at the reference.
struct Tree {
    /// Nodes in an order where each stands behind its parent.
    order: Vec<usize>,
    /// Each node's circuit towards the reference; none for the reference.
    up: Vec<Option<usize>>,
    /// Which circuits are the tree's.
    in_tree: Vec<bool>,
}

/// A potential as a whole number and the part of one still to be added.
#[derive(Clone, Copy)]
struct Fine {
    whole: i128,
    part: f64,
}

impl Network {
    /// The factor and the tree of a network.
    fn of(tables: &Tables) -> Network {
        Network { factor: cholesky(node_matrix(tables)), tree: Tree::of(tables) }
    }

    /// One run: potentials, then flows.
    fn solve(&self, tables: &Tables, system: &System) -> Result<Vec<i64>, String> {
        let potentials = self.potentials(tables, system);
        let flows = self.flows(tables, system, &potentials);
        let whole = |potential: &Fine| potential.whole + (potential.part >= 0.5) as i128;
        let numbers = potentials.iter().map(whole).chain(flows);
        let short = |number: i128| i64::try_from(number).map_err(|_| format!("{number} doesn't fit 64 bits"));
        numbers.map(short).collect()
    }

    /// Potentials whose flows balance but for rounding, the reference at 0.
    fn potentials(&self, tables: &Tables, system: &System) -> Vec<Fine> {
        let mut potentials = vec![Fine { whole: 0, part: 0.0 }; tables.nodes.len()];
        for _ in 0..40 {
            let mut change = shortfalls(tables, system, &potentials);
            change[tables.reference] = 0.0;
            substitute(&self.factor, &mut change);
            for (potential, change) in potentials.iter_mut().zip(&change) {
                *potential = added(*potential, *change);
            }
            if change.iter().all(|change| change.abs() < 1e-6) {
                break;
            }
        }
        potentials
    }

    /// Whole flows in exact balance, near those the potentials ask for.
    fn flows(&self, tables: &Tables, system: &System, potentials: &[Fine]) -> Vec<i128> {
        let mut flows = vec![0; tables.circuits.len()];
        // How far each circuit's flow stands above the one asked for.
        let mut over = vec![0.0; tables.circuits.len()];
        for place in (0..tables.circuits.len()).filter(|place| !self.tree.in_tree[*place]) {
            let (whole, part) = asked_flow(tables, system, potentials, place);
            let path = self.tree.path(tables, place);
            let cost = |above: f64| -> f64 {
                let moved = path
                    .iter()
                    .map(|(step, sign)| tables.circuits[*step].x as f64 * (over[*step] - sign * above).abs());
                moved.sum::<f64>() + tables.circuits[place].x as f64 * above.abs()
            };
            let up = cost(1.0 - part) < cost(-part);
            flows[place] = whole + up as i128;
            let above = if up { 1.0 - part } else { -part };
            path.iter().for_each(|(step, sign)| over[*step] -= sign * above);
        }
        self.tree.balance(tables, system, &mut flows);
        flows
    }
}

/// A potential changed, its part brought back between 0 and 1.
fn added(potential: Fine, change: f64) -> Fine {
    let part = potential.part + change;
    Fine { whole: potential.whole + part.floor() as i128, part: part - part.floor() }
}

/// 01 step 2: the flow that leaves no miss, as a whole number and a part from 0 to 1.
fn asked_flow(tables: &Tables, system: &System, potentials: &[Fine], place: usize) -> (i128, f64) {
    let circuit = &tables.circuits[place];
    let (first, second) = (potentials[circuit.first], potentials[circuit.second]);
    let drop = first.whole - second.whole - system.offset[place];
    let part = (drop.rem_euclid(circuit.x) as f64 + first.part - second.part) / circuit.x as f64;
    (drop.div_euclid(circuit.x) + part.floor() as i128, part - part.floor())
}

/// 01 step 2: supply less (flow out less flow in) at each node, at the flows that leave no miss.
fn shortfalls(tables: &Tables, system: &System, potentials: &[Fine]) -> Vec<f64> {
    let mut whole = system.supply.clone();
    let mut part = vec![0.0; whole.len()];
    for (place, circuit) in tables.circuits.iter().enumerate() {
        let flow = asked_flow(tables, system, potentials, place);
        whole[circuit.first] -= flow.0;
        whole[circuit.second] += flow.0;
        part[circuit.first] -= flow.1;
        part[circuit.second] += flow.1;
    }
    whole.iter().zip(&part).map(|(whole, part)| *whole as f64 + part).collect()
}

/// The matrix that takes potentials to flow out less flow in, with the reference's potential held at 0.
fn node_matrix(tables: &Tables) -> Vec<Vec<f64>> {
    let nodes = tables.nodes.len();
    let mut matrix = vec![vec![0.0; nodes]; nodes];
    for circuit in &tables.circuits {
        let weight = 1.0 / circuit.x as f64;
        matrix[circuit.first][circuit.first] += weight;
        matrix[circuit.second][circuit.second] += weight;
        matrix[circuit.first][circuit.second] -= weight;
        matrix[circuit.second][circuit.first] -= weight;
    }
    matrix[tables.reference].fill(0.0);
    matrix.iter_mut().for_each(|row| row[tables.reference] = 0.0);
    matrix[tables.reference][tables.reference] = 1.0;
    matrix
}

/// The lower triangle whose product with its mirror is the matrix.
fn cholesky(mut matrix: Vec<Vec<f64>>) -> Vec<Vec<f64>> {
    for row in 0..matrix.len() {
        for column in 0..=row {
            let known: f64 = (0..column).map(|k| matrix[row][k] * matrix[column][k]).sum();
            let rest = matrix[row][column] - known;
            matrix[row][column] = if row == column { rest.sqrt() } else { rest / matrix[column][column] };
        }
    }
    matrix
}

/// Solves with the triangle, then with its mirror.
fn substitute(factor: &[Vec<f64>], numbers: &mut [f64]) {
    let count = numbers.len();
    for row in 0..count {
        let known: f64 = (0..row).map(|k| factor[row][k] * numbers[k]).sum();
        numbers[row] = (numbers[row] - known) / factor[row][row];
    }
    for row in (0..count).rev() {
        let known: f64 = (row + 1..count).map(|k| factor[k][row] * numbers[k]).sum();
        numbers[row] = (numbers[row] - known) / factor[row][row];
    }
}

impl Tree {
    /// The tree of least x: a miss of the tree weighs x.
    fn of(tables: &Tables) -> Tree {
        let nodes = tables.nodes.len();
        let mut tree =
            Tree { order: vec![tables.reference], up: vec![None; nodes], in_tree: vec![false; tables.circuits.len()] };
        let mut held = vec![false; nodes];
        held[tables.reference] = true;
        while tree.order.len() < nodes {
            let leaving = |place: &usize| held[tables.circuits[*place].first] != held[tables.circuits[*place].second];
            let least = (0..tables.circuits.len()).filter(leaving).min_by_key(|place| tables.circuits[*place].x);
            let place = least.expect("sound tables reach every node");
            let circuit = &tables.circuits[place];
            let node = if held[circuit.first] { circuit.second } else { circuit.first };
            held[node] = true;
            tree.in_tree[place] = true;
            tree.up[node] = Some(place);
            tree.order.push(node);
        }
        tree
    }

    /// The circuits from a node to the reference, with 1 where they point that way and -1 where they point back.
    fn way_up(&self, tables: &Tables, node: usize) -> Vec<(usize, f64)> {
        let mut steps = Vec::new();
        let mut here = node;
        while let Some(place) = self.up[here] {
            let circuit = &tables.circuits[place];
            let along = circuit.first == here;
            steps.push((place, if along { 1.0 } else { -1.0 }));
            here = if along { circuit.second } else { circuit.first };
        }
        steps
    }

    /// The tree's circuits from a circuit's first node to its second, with 1 where they point that way, else -1.
    fn path(&self, tables: &Tables, place: usize) -> Vec<(usize, f64)> {
        let circuit = &tables.circuits[place];
        let mut from_first = self.way_up(tables, circuit.first);
        let mut from_second = self.way_up(tables, circuit.second);
        while from_first.last().is_some()
            && from_first.last().map(|step| step.0) == from_second.last().map(|step| step.0)
        {
            from_first.pop();
            from_second.pop();
        }
        from_first.extend(from_second.into_iter().map(|(place, sign)| (place, -sign)));
        from_first
    }

    /// 01 step 2: the tree's flows from all others, from the leaves inward: "flow out less flow in equals the node's
    /// supply exactly".
    fn balance(&self, tables: &Tables, system: &System, flows: &mut [i128]) {
        let mut left = system.supply.clone();
        for (circuit, flow) in tables.circuits.iter().zip(flows.iter()) {
            left[circuit.first] -= flow;
            left[circuit.second] += flow;
        }
        for node in self.order.iter().rev() {
            let Some(place) = self.up[*node] else { continue };
            let circuit = &tables.circuits[place];
            let out = left[*node];
            flows[place] = if circuit.first == *node { out } else { -out };
            left[circuit.first] -= flows[place];
            left[circuit.second] += flows[place];
        }
    }
}
