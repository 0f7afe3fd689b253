//! Inputs with two faults: the one that 01 and 02 put first is answered.

use super::Compare;
use crate::faults::{self, Draft, Fault, Told};
use crate::input::Input;
use crate::tally::said;
use reference::file::{whole_case, Edition};
use std::io::Result;

/// Number and system of two faults.
type Pair = ((u64, u64), (u64, u64));

/// Pairs whose order 01 and 02 are asked about most.
const ORDERS: [Pair; 26] = [
    ((3, 0), (4, 0)),
    ((4, 0), (5, 0)),
    ((6, 0), (7, 0)),
    ((3, 0), (3, 0)),
    ((7, 0), (13, 0)),
    ((13, 0), (8, 1)),
    ((10, 1), (11, 1)),
    ((11, 1), (8, 2)),
    ((9, 3), (12, 0)),
    ((7, 0), (14, 0)),
    ((13, 0), (14, 0)),
    ((14, 0), (8, 1)),
    ((10, 1), (8, 4)),
    ((10, 4), (15, 0)),
    ((15, 0), (11, 1)),
    ((15, 0), (11, 4)),
    ((11, 1), (11, 4)),
    ((11, 4), (8, 2)),
    ((10, 2), (8, 5)),
    ((10, 5), (8, 3)),
    ((7, 0), (16, 0)),
    ((13, 0), (16, 0)),
    ((14, 0), (16, 0)),
    ((16, 0), (8, 1)),
    ((16, 0), (15, 0)),
    ((16, 0), (12, 0)),
];

/// 02, CR 5: 15 goes before 11 whatever their rows are.
const LOWER_DIRECTION: &str = "15 before 11 of a lower circuit";

/// Of two faulty node rows, one that repeats a name.
const REPEATED_FIRST: &str = "a name seen earlier before another faulty node row";
const REPEATED_SECOND: &str = "a faulty node row before a name seen earlier";

impl Compare {
    /// Two faults at a time: the one that comes first in the order is answered.
    pub fn pairs(&mut self, draft: &Draft, each: usize) -> Result<()> {
        for turn in 0..each {
            let asked = turn % 2 == 0;
            let Some((input, told, undo)) = self.planted_pair(draft, asked) else { continue };
            let input = self.with_any_buffer(input, told[1].0);
            if undo {
                self.check(input, None, "two faults that may undo each other")?;
                continue;
            }
            if asked {
                pairs_met(&input, &told).iter().for_each(|order| self.tally.met(&format!("two faults, {order}")));
            }
            self.check(input, Some(told[0]), "two faults")?;
            *self.tally.orders.entry(order_said(&told)).or_default() += 1;
        }
        Ok(())
    }

    /// Two faults in a case, asked for or any, what is told of each, and whether they may undo each other. Some tries, since not every
    /// case has a place for every fault.
    fn planted_pair(&mut self, draft: &Draft, asked: bool) -> Option<(Input, Vec<Told>, bool)> {
        let edition = draft.case.edition;
        (0..8).find_map(|_| {
            let places = match asked {
                true => self.asked_pair(edition),
                false => [0, 1].map(|_| self.any_fault(edition, |_| true)),
            };
            let faults = places.map(|place| &self.faults[place]);
            let (input, told) = faults::planted(draft, &mut faults.to_vec(), &mut self.chance)?;
            Some((input, told, may_undo(faults)))
        })
    }

    /// Two faults of a pair that 01 and 02 are asked about, of those met least; of two node rows, one repeats a name.
    fn asked_pair(&mut self, edition: Edition) -> [usize; 2] {
        let known = |key| self.faults.iter().any(|fault| fault.is_of(edition) && fault.key() == key);
        let mut orders: Vec<_> = ORDERS.into_iter().filter(|(a, b)| known(*a) && known(*b)).collect();
        orders.sort_by_key(|pair| self.tally.orders.get(&pair_said(pair)));
        let (a, b) = self.chance.of(&orders[..orders.len() / 4]);
        let repeats = |fault: &Fault| fault.cause == "node: a name seen earlier";
        let of = |key, other, repeated| {
            move |fault: &Fault| {
                fault.key() == key && !fault.moves_flow() && (key != other || repeats(fault) == repeated)
            }
        };
        [self.any_fault(edition, of(a, b, true)), self.any_fault(edition, of(b, a, false))]
    }

    fn any_fault(&mut self, edition: Edition, of: impl Fn(&Fault) -> bool) -> usize {
        let fits = |place: &usize| self.faults[*place].is_of(edition) && of(&self.faults[*place]);
        let places: Vec<usize> = (0..self.faults.len()).filter(fits).collect();
        self.chance.of(&places)
    }
}

/// Two of one kind may undo each other, and a flow that is moved another doubt.
fn may_undo(faults: [&Fault; 2]) -> bool {
    let [first, second] = faults;
    let doubts = faults.iter().all(|fault| [11, 15].contains(&fault.number));
    (first.key() == second.key() && [1, 6, 9, 10, 16].contains(&first.number))
        || (doubts && faults.iter().any(|fault| fault.moves_flow()))
}

/// Two faults in their order.
fn order_said(told: &[Told]) -> String {
    told.iter().map(|(number, system, _)| said(*number, *system)).collect::<Vec<_>>().join(" before ")
}

fn pair_said((a, b): &Pair) -> String {
    order_said(&[(a.0, a.1, 0), (b.0, b.1, 0)])
}

/// The causes that each pair asked about has to be met as; two faults of one number are told by their rows.
pub fn asked_orders() -> Vec<String> {
    let pairs = ORDERS.iter().filter(|(a, b)| a != b).map(pair_said);
    // The lower row is answered, whichever system it is of.
    let turned = pair_said(&((11, 4), (11, 1)));
    let rows = [REPEATED_FIRST, REPEATED_SECOND, LOWER_DIRECTION, &turned].map(String::from);
    pairs.chain(rows).map(|order| format!("two faults, {order}")).collect()
}

/// What an asked pair is met as.
fn pairs_met(input: &Input, told: &[Told]) -> Vec<String> {
    let [first, second] = [told[0], told[1]];
    let order = match (first.0, second.0) {
        (3, 3) => which_row(input, first).to_string(),
        _ => order_said(told),
    };
    let lower = (first.0, second.0) == (15, 11) && second.2 < first.2;
    [order].into_iter().chain(lower.then(|| LOWER_DIRECTION.to_string())).collect()
}

/// Of a name seen earlier and another fault of a node row, the one in the lower row.
fn which_row(input: &Input, (_, _, row): Told) -> &'static str {
    let case = whole_case(&input.file).expect("the file is whole");
    let place = row as usize - 1;
    let repeated = case.nodes[..place].iter().any(|node| node.name == case.nodes[place].name);
    if repeated {
        REPEATED_FIRST
    } else {
        REPEATED_SECOND
    }
}
