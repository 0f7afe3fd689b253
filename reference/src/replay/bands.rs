//! 01 step 4 and "What stops a case", 11: idle, in doubt, directed.

use super::bases::{circuit, kiln_with_a_spur, name, node, pair};
use super::{changed, solved, List};
use crate::file::{Case, CircuitRow};

/// Flows at the ends of the bands, on circuits of each kind.
pub fn add(list: &mut List) {
    add_edges(list);
    add_radial(list);
    add_side_by_side(list);
    add_rows(list);
}

/// What a circuit of a flow is.
#[derive(Clone, Copy, PartialEq)]
enum Band {
    Idle,
    InDoubt,
    Directed,
}

/// 01 "Figures on the edges", both signs by turning the circuit round.
const EDGES: [(i64, Band); 6] = [
    (199_999_999, Band::Idle),
    (200_000_000, Band::Idle),
    (200_000_001, Band::InDoubt),
    (400_000_000, Band::InDoubt),
    (400_000_001, Band::Directed),
    (400_000_002, Band::Directed),
];

/// Two circuits side by side with x 1; the first carries `flow`, the other, without length, the rest of twice as much.
fn two_ways(flow: i64, first: &CircuitRow, directed: bool) -> Case {
    let kw = 2 * ((flow + 500_000) / 1_000_000);
    let mut case = pair(kw as u32, vec![first.clone(), circuit("GENR", "LOAD", 1, 0)]);
    case.runs[0] = vec![0, -flow, flow, 1_000_000 * kw - flow];
    if directed {
        // The first circuit's 1,000 m are shared evenly: LOAD stands at 500 m.
        let half = 500_000_000_000;
        case.runs[1 + first.mark as usize] = vec![0, -half, -half, half];
    }
    if first.first == name("LOAD") {
        case.own_runs_mut().iter_mut().for_each(|run| run[2] = -run[2]);
    }
    case
}

/// Each edge on a circuit with length, with cable alone, with a mark, without length; forwards and backwards.
fn add_edges(list: &mut List) {
    let plain = circuit("GENR", "LOAD", 1, 1_000);
    let kinds = [
        ("with length", plain.clone()),
        ("with cable alone", CircuitRow { overhead: 0, cable: 1_000, ..plain.clone() }),
        ("marked", CircuitRow { mark: 1, ..plain.clone() }),
        ("without length", CircuitRow { overhead: 0, ..plain.clone() }),
        ("marked, without length", CircuitRow { overhead: 0, mark: 1, ..plain }),
    ];
    for (kind, row) in kinds {
        let long = row.overhead + row.cable > 0;
        for (flow, band) in EDGES {
            for sign in ["", "-"] {
                let mut row = row.clone();
                if sign == "-" {
                    std::mem::swap(&mut row.first, &mut row.second);
                }
                let case = two_ways(flow, &row, long && band == Band::Directed);
                let label = format!("base flow {sign}{flow} on a circuit {kind}");
                if long && band == Band::InDoubt {
                    list.refused(label, &case, |_| (), (11, 1, 1));
                } else {
                    list.accepted(label, &case, |_| ());
                }
            }
        }
    }
    // Taken the wrong way: idle as directed and directed as idle.
    let row = circuit("GENR", "LOAD", 1, 1_000);
    list.refused("an idle circuit taken as directed", &two_ways(200_000_000, &row, true), |_| (), (10, 2, 0));
    list.refused("a directed circuit taken as idle", &two_ways(400_000_001, &row, false), |_| (), (10, 2, 0));
    let turned = |case: &mut Case| case.runs[1].iter_mut().for_each(|number| *number = -*number);
    list.refused("a directed circuit taken backwards", &two_ways(400_000_001, &row, true), turned, (10, 2, 0));
}

/// One circuit with whole kilowatts: 0, 200, 201, 400, 401; the shortest length.
fn add_radial(list: &mut List) {
    let of = |kw: u32| solved(&pair(kw, vec![circuit("GENR", "LOAD", 100, 1)]));
    for kw in [1, 200, 401] {
        list.accepted(format!("{kw} kW on a circuit of 1 m"), &of(kw), |_| ());
    }
    for kw in [201, 400] {
        list.refused(format!("{kw} kW on a circuit of 1 m"), &of(kw), |_| (), (11, 1, 1));
    }
    let nothing = |case: &mut Case| {
        case.nodes.push(node("MORE", 0));
        case.circuits.push(circuit("LOAD", "MORE", 100, 1_000));
    };
    list.solved("0 kW on a circuit of 1,000 m", &of(1_000), nothing);
}

/// Circuits from GENR to LOAD by x and length, with so many kilowatts, solved.
fn parallel(kw: u32, rows: &[(u32, u32)]) -> Case {
    solved(&pair(kw, rows.iter().map(|(x, length)| circuit("GENR", "LOAD", *x, *length)).collect()))
}

/// Circuits side by side: each is judged by its own flow.
fn add_side_by_side(list: &mut List) {
    list.accepted("200 and 200 kW side by side", &parallel(400, &[(1, 1_000), (1, 2_000)]), |_| ());
    list.refused("201 and 201 kW side by side", &parallel(402, &[(1, 1_000), (1, 2_000)]), |_| (), (11, 1, 1));
    list.accepted("150 and 600 kW side by side", &parallel(750, &[(4, 1_000), (1, 2_000)]), |_| ());
    list.accepted("600 and 150 kW side by side", &parallel(750, &[(1, 1_000), (4, 2_000)]), |_| ());
    list.refused("150 and 300 kW side by side", &parallel(450, &[(2, 1_000), (1, 2_000)]), |_| (), (11, 1, 2));
    list.refused("600 and 300 kW side by side", &parallel(900, &[(1, 1_000), (2, 2_000)]), |_| (), (11, 1, 2));
    list.accepted(
        "600 and 300 kW side by side, the second without length",
        &parallel(900, &[(1, 1_000), (2, 0)]),
        |_| (),
    );
    let three = parallel(1_050, &[(4, 1_000), (2, 1_000), (1, 1_000)]);
    list.refused("150, 300 and 600 kW side by side", &three, |_| (), (11, 1, 2));
    list.refused(
        "300, 300 and 600 kW side by side",
        &parallel(1_200, &[(2, 10), (2, 20), (1, 30)]),
        |_| (),
        (11, 1, 1),
    );
    let one_back = changed(&parallel(1_200, &[(1, 10), (1, 20)]), |case| {
        let row = &mut case.circuits[1];
        std::mem::swap(&mut row.first, &mut row.second);
    });
    list.solved("600 and -600 kW side by side", &one_back, |_| ());
}

/// The row: the circuit's own, the lowest.
fn add_rows(list: &mut List) {
    // The spur carries 300 kW and is circuit 4.
    let base = kiln_with_a_spur();
    list.accepted("300 kW on a spur without length", &base, |_| ());
    list.refused("300 kW on a spur with 500 m", &base, |case| case.circuits[3].overhead = 500, (11, 1, 4));
    list.refused("300 kW on a spur with 1 m of cable", &base, |case| case.circuits[3].cable = 1, (11, 1, 4));
    let marked = |case: &mut Case| (case.circuits[3].overhead, case.circuits[3].mark) = (1, 1);
    list.refused("300 kW on a marked spur with 1 m", &base, marked, (11, 1, 4));
    let second = changed(&base, |case| {
        case.nodes.push(node("NODE", 250));
        case.circuits.insert(0, circuit("NODE", "NODC", 1, 7));
        case.circuits[4].overhead = 1;
    });
    list.refused("in doubt on circuits 1 and 5", &solved(&second), |_| (), (11, 1, 1));
}
