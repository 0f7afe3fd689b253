//! 02, CR 4, "Less room for the walk". "No answer changes": these are 01's, "What stops a case", 6. Networks whose nodes end
//! before, at and behind the end of a word of 64, met in every order. The lowest row out of reach is said from the shape.

use super::bases::{circuit, every_second_turned, in_version_2, node, pair, station, turned, zeros};
use super::List;
use crate::file::Case;
use crate::random::Chance;
use std::ops::RangeInclusive;

/// Two rows of the node table, counted from 1, that a circuit joins.
type Ends = (usize, usize);

type Change = fn(&mut Case);

/// Numbers of nodes, each with a row in its middle: where there are two words, the last of one or the first of the next.
const SIZES: [(usize, usize); 6] = [(63, 32), (64, 33), (65, 64), (128, 65), (255, 193), (256, 129)];

/// The same around the ends of the second word and the third.
const MORE_SIZES: [(usize, usize); 5] = [(127, 64), (129, 128), (191, 65), (192, 128), (193, 192)];

/// Orders of the circuits in their table. Only in the first does one sweep over them, from row 1, find a whole chain.
const ORDERS: [(&str, Change); 3] = [
    ("rising", |_| ()),
    ("falling", |case| case.circuits.reverse()),
    ("shuffled", |case| shuffle(&mut case.circuits, case.nodes.len())),
];

/// Ways to write the ends of circuits.
const WAYS: [(&str, Change); 3] =
    [("as they are", |_| ()), ("turned", turned), ("every second turned", every_second_turned)];

/// Chains, stars, halves, rings, trees, circuits side by side, none at all, words, flows, version 2.
pub fn add(list: &mut List) {
    add_small(list);
    add_chains(list);
    add_shuffled_rows(list);
    add_stars(list);
    add_halves(list);
    add_rings(list);
    add_trees(list);
    add_side_by_side(list);
    add_without_circuits(list);
    add_single_rows(list);
    add_words(list);
    add_turns(list);
    add_flows(list);
    add_version_2(list);
}

/// A network of so many nodes, the demand and the only station at its reference, circuits without length: solutions of
/// zeros are right, so that reach alone decides.
fn network(nodes: usize, reference: usize, circuits: &[Ends]) -> Case {
    let text = |row: usize| format!("N{row}");
    let mut case = pair(1, Vec::new());
    case.settings.reference = reference as u32;
    case.nodes = (1..=nodes).map(|row| node(&text(row), (row == reference) as u32)).collect();
    case.circuits = circuits.iter().map(|(first, second)| circuit(&text(*first), &text(*second), 1, 0)).collect();
    case.stations = vec![station("ST", &text(reference), 1)];
    case.runs = zeros(&case);
    case
}

/// 01 "What stops a case", 6: "lowest such node".
fn six(row: usize) -> (u32, u32, u32) {
    (6, 0, row as u32)
}

/// Each of these rows joined with the next.
fn chain(rows: impl IntoIterator<Item = usize>) -> Vec<Ends> {
    let rows: Vec<usize> = rows.into_iter().collect();
    rows.windows(2).map(|next| (next[0], next[1])).collect()
}

/// Each of these rows joined with the hub.
fn star(hub: usize, rows: impl IntoIterator<Item = usize>) -> Vec<Ends> {
    rows.into_iter().filter(|row| *row != hub).map(|row| (hub, row)).collect()
}

/// Each row but the first joined with the one of half its number.
fn tree(nodes: usize) -> Vec<Ends> {
    (2..=nodes).map(|row| (row / 2, row)).collect()
}

/// Circuits without the one that joins these rows.
fn without(circuits: Vec<Ends>, missing: Ends) -> Vec<Ends> {
    let left: Vec<Ends> = circuits.iter().copied().filter(|ends| *ends != missing).collect();
    assert!(left.len() + 1 == circuits.len(), "one circuit joins these rows");
    left
}

/// The same network from the other end of the node table.
fn upside_down(nodes: usize, circuits: Vec<Ends>) -> Vec<Ends> {
    circuits.into_iter().map(|(first, second)| (nodes + 1 - first, nodes + 1 - second)).collect()
}

/// Puts rows in an order by chance, the same for the same number.
fn shuffle<T>(rows: &mut [T], seed: usize) {
    let chance = &mut Chance(seed as u64);
    for place in (1..rows.len()).rev() {
        rows.swap(place, chance.within(0, place as u64) as usize);
    }
}

/// The rows of a word, counted from 1.
fn word(number: usize) -> RangeInclusive<usize> {
    64 * number - 63..=64 * number
}

/// One node, and two.
fn add_small(list: &mut List) {
    list.accepted("a chain of 1", &network(1, 1, &[]), |_| ());
    for reference in [1, 2] {
        let label = |rest: &str| format!("a chain of 2, reference {reference}{rest}");
        list.accepted(label(""), &network(2, reference, &[(1, 2)]), |_| ());
        list.accepted(label(", turned"), &network(2, reference, &[(2, 1)]), |_| ());
        list.refused(label(", no circuits"), &network(2, reference, &[]), |_| (), six(3 - reference));
    }
}

/// A chain in an order: whole, without its first node, and without its last. Ways and references take turns, so that every
/// two of them meet.
fn add_chain(list: &mut List, (nodes, middle): (usize, usize), (order, arrange): (&str, Change), turn: usize) {
    let (way, write) = WAYS[turn % 3];
    let change = |case: &mut Case| (arrange(case), write(case)).1;
    let label = |reference: usize| format!("a chain of {nodes}, {order}, {way}, reference {reference}");
    let reference = [1, nodes, middle][(turn + turn / 3) % 3];
    list.accepted(label(reference), &network(nodes, reference, &chain(1..=nodes)), change);
    let reference = [nodes, middle][turn % 2];
    let case = network(nodes, reference, &chain(2..=nodes));
    list.refused(format!("{}, without its first", label(reference)), &case, change, six(1));
    let reference = [middle, 1][turn % 2];
    let case = network(nodes, reference, &chain(1..nodes));
    list.refused(format!("{}, without its last", label(reference)), &case, change, six(nodes));
}

/// Chains of the main sizes in every order, and of the other sizes in one; then cut before the middle, from either side.
fn add_chains(list: &mut List) {
    for (turn, size) in SIZES.into_iter().enumerate() {
        ORDERS.into_iter().enumerate().for_each(|(place, order)| add_chain(list, size, order, turn + 4 * place));
    }
    for (turn, size) in MORE_SIZES.into_iter().enumerate() {
        add_chain(list, size, ORDERS[(turn + 2) % 3], turn);
    }
    for (turn, (nodes, middle)) in SIZES.into_iter().enumerate() {
        let (order, arrange) = ORDERS[turn % 3];
        let circuits = without(chain(1..=nodes), (middle - 1, middle));
        let (reference, lowest) = [(1, middle), (nodes, 1)][turn % 2];
        let label = format!("a chain of {nodes}, {order}, reference {reference}, cut before {middle}");
        list.refused(label, &network(nodes, reference, &circuits), arrange, six(lowest));
    }
}

/// Chains that go through the rows by chance: whole, and without their last eighth.
fn add_shuffled_rows(list: &mut List) {
    for (turn, nodes) in [64, 65, 128, 256].into_iter().enumerate() {
        let mut rows: Vec<usize> = (1..=nodes).collect();
        shuffle(&mut rows, 1_000 + nodes);
        let (way, write) = WAYS[turn % 3];
        let label = format!("a chain through {nodes} rows by chance, {way}");
        let reference = rows[[0, nodes - 1, nodes / 2, 0][turn]];
        list.accepted(format!("{label}, whole"), &network(nodes, reference, &chain(rows.clone())), write);
        let (near, far) = rows.split_at(nodes * 7 / 8);
        let circuits = [chain(near.to_vec()), chain(far.to_vec())].concat();
        let lowest = *far.iter().min().expect("an eighth of the rows");
        let case = network(nodes, near[0], &circuits);
        list.refused(format!("{label}, without its last eighth"), &case, write, six(lowest));
    }
}

/// Stars with the hub first, last and in the middle: whole, and without the first leaf and the last.
fn add_stars(list: &mut List) {
    for (turn, (nodes, middle)) in SIZES.into_iter().enumerate() {
        for (place, hub) in [1, nodes, middle].into_iter().enumerate() {
            let (way, write) = WAYS[(turn + place) % 3];
            let circuits = star(hub, 1..=nodes);
            let label = format!("a star of {nodes} around {hub}, {way}");
            let reference = [hub, 1, nodes][(turn + turn / 3 + 2 * place) % 3];
            list.accepted(format!("{label}, reference {reference}"), &network(nodes, reference, &circuits), write);
            for alone in [1, nodes].into_iter().filter(|row| *row != hub) {
                let case = network(nodes, hub, &without(circuits.clone(), (hub, alone)));
                list.refused(format!("{label}, without {alone}"), &case, write, six(alone));
            }
        }
    }
}

/// Shapes of two halves of so many nodes, each with the lowest row of the second half; row 1 is in the first.
fn halves(nodes: usize) -> [(&'static str, usize, [Vec<Ends>; 2]); 3] {
    let half = nodes / 2;
    let chains = [chain(1..=half), chain((half + 1..=nodes).rev())];
    let stars = [star(1, 1..=half), star(nodes, half + 1..=nodes)];
    let combs = [chain((1..=nodes).step_by(2)), chain((2..=nodes).step_by(2))];
    [("chains", half + 1, chains), ("stars", half + 1, stars), ("chains of every second row", 2, combs)]
}

/// Two halves that the last circuit joins, and without it: the other half's lowest row is out of reach then.
fn add_halves(list: &mut List) {
    for (turn, (nodes, _)) in SIZES.into_iter().enumerate() {
        for place in 0..2 {
            let (shape, second, halves) = halves(nodes)[(turn + place) % 3].clone();
            // From the row of the one half that its last circuit meets to the other's.
            let join = (halves[0].last().expect("a circuit").1, halves[1].last().expect("a circuit").1);
            let (reference, other) = [(1, second), (second, 1)][place];
            let label = format!("two {shape} of {nodes}, reference {reference}");
            let apart = halves.concat();
            list.refused(format!("{label}, apart"), &network(nodes, reference, &apart), |_| (), six(other));
            let joined = [apart, vec![join]].concat();
            let label = format!("{label}, joined by the last circuit");
            list.accepted(label, &network(nodes, reference, &joined), |_| ());
        }
        add_joined_halves_cut(list, nodes);
    }
}

/// Two chains joined by the last circuit, without their first row and without their last.
fn add_joined_halves_cut(list: &mut List, nodes: usize) {
    let half = nodes / 2;
    for (alone, reference) in [(1, nodes), (nodes, 1)] {
        let rows = |rows: RangeInclusive<usize>| chain(rows.filter(|row| *row != alone));
        let circuits = [rows(1..=half), rows(half + 1..=nodes), vec![(half, half + 1)]].concat();
        let label =
            format!("two chains of {nodes}, reference {reference}, joined by the last circuit, without {alone}");
        list.refused(label, &network(nodes, reference, &circuits), |_| (), six(alone));
    }
}

/// Rings: whole, without one circuit, and past their last row.
fn add_rings(list: &mut List) {
    for (nodes, middle) in [(65, 64), (128, 65)] {
        let ring = [chain(1..=nodes), vec![(nodes, 1)]].concat();
        let label = format!("a ring of {nodes}, reference {middle}");
        list.accepted(format!("{label}, whole"), &network(nodes, middle, &ring), every_second_turned);
        let open = without(ring, (middle - 1, middle));
        list.accepted(format!("{label}, open"), &network(nodes, middle, &open), turned);
        let past_last = [chain(1..nodes), vec![(nodes - 1, 1)]].concat();
        let case = network(nodes, middle, &past_last);
        list.refused(format!("{label}, past its last row"), &case, |case| case.circuits.reverse(), six(nodes));
    }
}

/// Trees with the root first and with the root last: whole, without their last leaf, without a branch.
fn add_trees(list: &mut List) {
    for (nodes, root_last) in [(63, false), (63, true), (127, true), (255, false)] {
        let placed = |circuits: Vec<Ends>| if root_last { upside_down(nodes, circuits) } else { circuits };
        let row = |row: usize| if root_last { nodes + 1 - row } else { row };
        let label = format!("a tree of {nodes} with its root in row {}", row(1));
        list.accepted(format!("{label}, whole"), &network(nodes, row(1), &placed(tree(nodes))), |_| ());
        let leaf = network(nodes, row(1), &placed(tree(nodes - 1)));
        list.refused(format!("{label}, without its last leaf"), &leaf, |_| (), six(row(nodes)));
        if nodes == 63 {
            let from_a_leaf = network(nodes, row(nodes), &placed(tree(nodes)));
            list.accepted(format!("{label}, from a leaf"), &from_a_leaf, |case| case.circuits.reverse());
            // The last leaf, the reference here, is in the branch of 3; all outside it are out of reach.
            let branch = network(nodes, row(nodes), &placed(without(tree(nodes), (1, 3))));
            let lowest = (1..=nodes).filter(|place| !in_branch_of_3(*place)).map(row).min();
            let lowest = lowest.expect("the root is one of them");
            list.refused(format!("{label}, from a branch alone"), &branch, |_| (), six(lowest));
        }
    }
}

/// Whether halving a row's number again and again comes by 3.
fn in_branch_of_3(row: usize) -> bool {
    row == 3 || row > 3 && in_branch_of_3(row / 2)
}

/// Circuits side by side, up to 512: they reach no more than one does.
fn add_side_by_side(list: &mut List) {
    let doubled = |rows: RangeInclusive<usize>| chain(rows).into_iter().flat_map(|ends| [ends; 2]).collect::<Vec<_>>();
    let falling = |case: &mut Case| case.circuits.reverse();
    let both = |case: &mut Case| (falling(case), every_second_turned(case)).1;
    list.accepted("a doubled chain of 256, falling, 510 circuits", &network(256, 1, &doubled(1..=256)), falling);
    // The last circuit that a file can hold is the one that joins.
    let joined = [doubled(129..=256), doubled(1..=128), vec![(2, 1); 3], vec![(128, 129)]].concat();
    let case = network(256, 128, &joined);
    list.accepted("two doubled chains of 256, joined by the last of 512 circuits", &case, every_second_turned);
    let last_alone = [doubled(1..=255), vec![(1, 255); 4]].concat();
    let case = network(256, 1, &last_alone);
    list.refused("a doubled chain of 256, falling, without its last, 512 circuits", &case, both, six(256));
    // As many circuits as would be enough for all, between two nodes.
    list.refused("63 circuits between 63 and 64", &network(64, 64, &[(63, 64); 63]), |_| (), six(1));
    list.refused("64 circuits between 1 and 65", &network(65, 1, &[(65, 1); 64]), |_| (), six(2));
}

/// Everything cut off from the reference.
fn add_without_circuits(list: &mut List) {
    for (nodes, middle) in SIZES {
        for reference in [1, nodes, middle] {
            let lowest = if reference == 1 { 2 } else { 1 };
            let label = format!("{nodes} nodes without circuits, reference {reference}");
            list.refused(label, &network(nodes, reference, &[]), |_| (), six(lowest));
        }
    }
}

/// One row at a word's end out of reach, all others within; then several, of which the lowest counts.
fn add_single_rows(list: &mut List) {
    let places = [(65, 64), (128, 64), (128, 65), (129, 128), (191, 129), (193, 192), (194, 193)];
    for (turn, (nodes, alone)) in places.into_iter().enumerate() {
        let (order, arrange) = ORDERS[turn % 3];
        let reference = [1, nodes][turn % 2];
        let circuits = chain((1..=nodes).filter(|row| *row != alone));
        let label = format!("a chain past row {alone} of {nodes}, {order}, reference {reference}");
        list.refused(label, &network(nodes, reference, &circuits), arrange, six(alone));
    }
    let past_last_rows = chain((1..=256).filter(|row| row % 64 != 0));
    list.refused("a chain past every word's last row of 256", &network(256, 1, &past_last_rows), |_| (), six(64));
    let past_first_rows = chain((1..=193).filter(|row| ![65, 129, 193].contains(row)));
    list.refused("a chain past rows 65, 129 and 193", &network(193, 192, &past_first_rows), |_| (), six(65));
}

/// Words that are reached, the others without circuits; then one without, joined in itself, between the others.
fn add_words(list: &mut List) {
    for reached in 1..=3 {
        let last = 64 * reached;
        let case = network(256, last, &chain(1..=last));
        list.refused(format!("256 nodes, only the first {last} joined"), &case, |_| (), six(last + 1));
    }
    for number in 2..=4 {
        let case = network(256, *word(number).start(), &chain(word(number)));
        list.refused(format!("256 nodes, only word {number} joined"), &case, turned, six(1));
    }
    for nodes in [65, 193] {
        let alone = network(nodes, nodes, &chain(1..nodes));
        list.refused(format!("{nodes} nodes, the reference alone in its word"), &alone, |_| (), six(1));
    }
    let first_rows = network(256, 193, &chain([1, 65, 129, 193]));
    list.refused("256 nodes, only the first rows of words joined", &first_rows, |_| (), six(2));
    let last_rows = network(256, 256, &chain([64, 128, 192, 256]));
    list.refused("256 nodes, only the last rows of words joined", &last_rows, |_| (), six(1));
    // Halves of a word: bits of the same place in 32.
    list.refused("64 nodes, only the first 32 joined", &network(64, 1, &chain(1..=32)), |_| (), six(33));
    list.refused("64 nodes, only the last 32 joined", &network(64, 64, &chain(33..=64)), |_| (), six(1));
    let others = chain((1..=256).filter(|row| !word(2).contains(row)));
    let case = network(256, 256, &[chain(word(2)), others].concat());
    list.refused("256 nodes, word 2 apart, falling", &case, |case| case.circuits.reverse(), six(65));
}

/// Chains that go to another word at each step: whole, and with the upper half of each word cut off.
fn add_turns(list: &mut List) {
    let rows = || (1..=64).flat_map(|place| [place, 64 + place, 128 + place, 192 + place]);
    let whole = network(256, 256, &chain(rows()));
    list.accepted("a chain of 256 by words in turns", &whole, |_| ());
    let cut = network(256, 1, &without(chain(rows()), (192 + 32, 33)));
    list.refused("a chain of 256 by words in turns, cut behind row 224", &cut, turned, six(33));
}

/// 1,000 kW from the first row to the last over circuits with length.
fn flowing(case: &mut Case) {
    let (first, last) = (case.nodes[0].name, case.nodes.len() - 1);
    case.nodes.iter_mut().for_each(|row| row.demand = 0);
    case.nodes[last].demand = 1_000;
    (case.stations[0].node, case.stations[0].tec) = (first, 1_000);
    case.circuits.iter_mut().for_each(|row| (row.x, row.overhead) = (10, 10));
}

/// Networks with flows, solved.
fn add_flows(list: &mut List) {
    let backwards = |case: &mut Case| (flowing(case), case.circuits.reverse(), every_second_turned(case)).2;
    let mut rows: Vec<usize> = (1..=65).collect();
    shuffle(&mut rows, 65);
    list.solved("flows through 65 rows by chance", &network(65, 65, &chain(rows)), flowing);
    list.solved("flows along a chain of 256, falling", &network(256, 256, &chain(1..=256)), backwards);
    list.solved("flows through a star of 128 around 65", &network(128, 64, &star(65, 1..=128)), flowing);
    let tree_127 = upside_down(127, tree(127));
    list.solved("flows through a tree of 127", &network(127, 65, &tree_127), backwards);
    let ring = [chain(1..=129), vec![(129, 1)]].concat();
    list.solved("flows around a ring of 129", &network(129, 129, &ring), backwards);
    let (_, second, halves) = halves(193)[1].clone();
    let joined = [halves.concat(), vec![(2, second)]].concat();
    list.solved("flows between two stars of 193, reference 193", &network(193, 193, &joined), flowing);
}

/// The same in files of version 2.
fn add_version_2(list: &mut List) {
    let falling = |case: &mut Case| case.circuits.reverse();
    let whole = in_version_2(&network(129, 129, &chain(1..=129)));
    list.accepted("a chain of 129 in version 2, falling, reference 129", &whole, falling);
    let cut = in_version_2(&network(65, 1, &chain(1..=64)));
    list.refused("a chain of 65 in version 2, falling, without its last", &cut, falling, six(65));
}
