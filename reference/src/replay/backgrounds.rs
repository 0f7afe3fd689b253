//! 02, CR 5: which background a circuit counts for, 15, 11 and where its length stands.

use super::bases::{every_second_turned, named_case};
use super::edition_2::{ring, side_by_side, spoke, spokes, Spoke, Stands, BASES};
use super::{changed, List, Told};
use crate::file::Case;
use Stands::{Local, Nowhere, Peak, YearRound};

/// 02, CR 5: "15, system 0, circuit row".
const FIFTEEN: Told = Told::Refused(15, 0, 1);
/// 01, 02 CR 5: 11 of the first circuit, by peak's flow and by year round's.
const ELEVEN_AT_PEAK: Told = Told::Refused(11, 4, 1);
const ELEVEN_YEAR_ROUND: Told = Told::Refused(11, 1, 1);
/// A flow that is directed whatever the other.
const FAR: i64 = 5_000_000_000;

/// Edges of the bands, ties, idle ones, marked ones, those without length, rows, systems.
pub fn add(list: &mut List) {
    add_year_round_greater(list);
    add_peak_greater(list);
    add_equal(list);
    add_direction_at_peak(list);
    add_marked(list);
    add_without_length(list);
    add_kinds(list);
    add_great_flows(list);
    add_fifteen_rows(list);
    add_eleven_rows(list);
    add_other_systems(list);
    add_other_directions(list);
    add_ring(list);
    add_turned(list);
}

/// A circuit of 1,000 m with so many mW year round and at peak, and what 02 says of it.
fn add_flows(list: &mut List, flows: [i64; 2], mark: u32, stands: Stands, told: Told) {
    let word = ["a circuit", "a marked circuit"][mark as usize];
    let label = format!("{word} of {} mW year round, {} at peak", flows[0], flows[1]);
    list.file(label, side_by_side(flows, 1_000, mark, stands).bytes(), told);
}

/// Both signs of both flows; a flow of nothing has one.
fn signs(flows: [i64; 2]) -> Vec<[i64; 2]> {
    let signed = |signs: [i64; 2]| [signs[0] * flows[0], signs[1] * flows[1]];
    let mut all = [[1, 1], [-1, -1], [1, -1], [-1, 1]].map(signed).to_vec();
    all.sort();
    all.dedup();
    all
}

/// 02, CR 5: by how much a flow is greater year round, and what the circuit counts for; `None` in doubt.
const LEADS: [(i64, Option<Stands>); 4] =
    [(400_000_000, Some(Peak)), (400_000_001, None), (800_000_000, None), (800_000_001, Some(YearRound))];

/// The year round flow greater, by every edge, over none at peak and over one that is directed.
fn add_year_round_greater(list: &mut List) {
    for (lead, counts) in LEADS {
        for peak in [0, 1_000_000_000] {
            for flows in signs([peak + lead, peak]) {
                match counts {
                    None => add_flows(list, flows, 0, Nowhere, FIFTEEN),
                    // Over none the circuit is idle at peak, though its flow year round would be in doubt.
                    Some(Peak) if peak == 0 => add_flows(list, flows, 0, Nowhere, Told::Sheet),
                    Some(stands) => add_flows(list, flows, 0, stands, Told::Sheet),
                }
            }
        }
    }
    add_flows(list, [600_000_000, 0], 0, Nowhere, FIFTEEN);
    add_flows(list, [500_000_000, -100_000_000], 0, Nowhere, Told::Sheet);
}

/// The peak flow greater by the same: the circuit counts for peak, whatever the lead.
fn add_peak_greater(list: &mut List) {
    for (lead, _) in LEADS {
        for sign in [1, -1] {
            add_flows(list, [1_000_000_000, sign * (1_000_000_000 + lead)], 0, Peak, Told::Sheet);
        }
        match lead {
            400_000_000 => add_flows(list, [0, lead], 0, Nowhere, ELEVEN_AT_PEAK),
            _ => add_flows(list, [0, -lead], 0, Peak, Told::Sheet),
        }
    }
}

/// 01 step 4: the bands of a flow, and whether it is directed; `None` in doubt.
const BANDS: [(i64, Option<bool>); 4] =
    [(200_000_000, Some(false)), (200_000_001, None), (400_000_000, None), (400_000_001, Some(true))];

/// What a circuit for peak is by its band.
fn add_at_peak(list: &mut List, flows: [i64; 2], directed: Option<bool>) {
    match directed {
        None => add_flows(list, flows, 0, Nowhere, ELEVEN_AT_PEAK),
        Some(true) => add_flows(list, flows, 0, Peak, Told::Sheet),
        Some(false) => add_flows(list, flows, 0, Nowhere, Told::Sheet),
    }
}

/// Equal flows count for peak, the same way and against each other.
fn add_equal(list: &mut List) {
    add_at_peak(list, [0, 0], Some(false));
    for (flow, directed) in BANDS.into_iter().chain([(FAR, Some(true))]) {
        add_at_peak(list, [flow, flow], directed);
        add_at_peak(list, [flow, -flow], directed);
    }
}

/// The bands of a circuit for peak go by its flow there: year round's may be greater by as much as lets it, or one more.
fn add_direction_at_peak(list: &mut List) {
    for (peak, directed) in BANDS {
        for sign in [1, -1] {
            add_at_peak(list, [peak + 400_000_000, sign * peak], directed);
            add_flows(list, [sign * (peak + 400_000_001), peak], 0, Nowhere, FIFTEEN);
        }
        add_flows(list, [peak + 800_000_001, -peak], 0, YearRound, Told::Sheet);
    }
}

/// "marked circuits use year round alone": bands by it whatever the peak flow, and no 15.
fn add_marked(list: &mut List) {
    for (flow, directed) in BANDS {
        for peak in [0, flow, -FAR] {
            let flows = [flow, peak];
            match directed {
                None => add_flows(list, flows, 1, Nowhere, ELEVEN_YEAR_ROUND),
                Some(true) => add_flows(list, flows, 1, Local, Told::Sheet),
                Some(false) => add_flows(list, flows, 1, Nowhere, Told::Sheet),
            }
        }
        if directed == Some(true) {
            add_flows(list, [-flow, FAR], 1, Local, Told::Sheet);
        }
    }
    for lead in [600_000_000, 800_000_000, 800_000_001] {
        add_flows(list, [lead, 0], 1, Local, Told::Sheet);
        add_flows(list, [-1_000_000_000 - lead, 1_000_000_000], 1, Local, Told::Sheet);
    }
    for peak in [300_000_000, -300_000_000, FAR] {
        add_flows(list, [0, peak], 1, Nowhere, Told::Sheet);
    }
}

/// Circuits without a length are never in doubt.
fn add_without_length(list: &mut List) {
    for mark in [0, 1] {
        for flows in [[600_000_000, 0], [-1_600_000_000, 1_000_000_000], [300_000_000, 300_000_000], [0, -300_000_000]]
        {
            let word = ["a circuit", "a marked circuit"][mark as usize];
            let label = format!("{word} without length of {} mW year round, {} at peak", flows[0], flows[1]);
            list.accepted(label, &side_by_side(flows, 0, mark, Nowhere), |_| ());
        }
    }
}

/// A length of cable alone, of the least, by its own factor: in doubt as any other, and counted.
fn add_kinds(list: &mut List) {
    let kinds: [(&str, fn(&mut Case)); 3] = [
        ("of 1 m cable", |case| (case.circuits[0].overhead, case.circuits[0].cable) = (0, 1)),
        ("at 320 kV", |case| (case.circuits[0].voltage, case.circuits[0].factor) = (320, 1_000)),
        ("at 132 kV with a factor", |case| (case.circuits[0].voltage, case.circuits[0].factor) = (132, 30_000)),
    ];
    for (what, kind) in kinds {
        let of = |flows: [i64; 2]| side_by_side(flows, 1_000, 0, Nowhere);
        list.refused(format!("a circuit {what} in doubt of its background"), &of([600_000_000, 0]), kind, (15, 0, 1));
        let direction = &of([300_000_000, 300_000_000]);
        list.refused(format!("a circuit {what} in doubt of its direction"), direction, kind, (11, 4, 1));
        let in_peak = side_by_side([FAR, FAR], 1_000, 0, Peak);
        let in_year_round = side_by_side([FAR, 0], 1_000, 0, YearRound);
        for (case, run) in [(in_peak, 4), (in_year_round, 1)] {
            let sized = |case: &mut Case| {
                kind(case);
                let row = &case.circuits[0];
                let millimetres = ((row.overhead + row.cable) * row.factor.max(1_000)) as i64;
                case.runs[run] = [1, 0, -1, 1].map(|half| half * millimetres * 500_000).to_vec();
            };
            list.accepted(format!("a circuit {what} in {}", ["", "wider", "", "", "peak wider"][run]), &case, sized);
        }
    }
}

/// Flows of 2 x 10^13 mW with leads at the edges in whole kilowatts, past 32 bits.
fn add_great_flows(list: &mut List) {
    const MOST: i64 = 20_000_000;
    let leads: [(i64, Told, Stands); 5] = [
        (400, Told::Sheet, Peak),
        (401, FIFTEEN, Nowhere),
        (800, FIFTEEN, Nowhere),
        (801, Told::Sheet, YearRound),
        (-801, Told::Sheet, Peak),
    ];
    for (lead, told, stands) in leads {
        let kw = [MOST.min(MOST + lead), MOST.min(MOST - lead)];
        let case = spokes(&[spoke(kw, 500_000, stands)]);
        list.file(format!("{} kW year round and {} at peak", kw[0], kw[1]), case.bytes(), told);
    }
    for (kw, stands) in
        [([MOST, 0], YearRound), ([0, MOST], Peak), ([MOST / 2, -MOST / 2], Peak), ([1 - MOST, 0], YearRound)]
    {
        let case = spokes(&[spoke(kw, 500_000, stands)]);
        list.accepted(format!("{} kW year round and {} at peak", kw[0], kw[1]), &case, |_| ());
    }
}

/// Spokes for the rows: of each background, idle, marked, and in doubt of each.
const FOR_YEAR_ROUND: Spoke = Spoke { kw: [5_000, 1_000], metres: 1_000, mark: 0, stands: YearRound };
const FOR_PEAK: Spoke = Spoke { kw: [1_000, 5_000], metres: 2_000, mark: 0, stands: Peak };
const IDLE: Spoke = Spoke { kw: [500, 100], metres: 3_000, mark: 0, stands: Nowhere };
const MARKED: Spoke = Spoke { kw: [1_600, 1_000], metres: 4_000, mark: 1, stands: Local };
const WITHOUT: Spoke = Spoke { kw: [1_600, 1_000], metres: 0, mark: 0, stands: Nowhere };
const NO_BACKGROUND: Spoke = Spoke { kw: [1_600, 1_000], metres: 1, mark: 0, stands: Nowhere };
const NO_DIRECTION: Spoke = Spoke { kw: [500, 250], metres: 1, mark: 0, stands: Nowhere };
const MARKED_NO_DIRECTION: Spoke = Spoke { kw: [250, 5_000], metres: 1, mark: 1, stands: Nowhere };

/// A row of spokes with its answer.
fn add_spokes(list: &mut List, what: &str, rows: &[Spoke], told: Told) {
    list.file(format!("spokes: {what}"), spokes(rows).bytes(), told);
}

/// "15, system 0, circuit row": the lowest, and before any 11, also of a lower row.
fn add_fifteen_rows(list: &mut List) {
    let refused = |row: u32| Told::Refused(15, 0, row);
    let (year_round, doubt) = (FOR_YEAR_ROUND, NO_BACKGROUND);
    add_spokes(list, "of every kind", &[year_round, FOR_PEAK, IDLE, MARKED, WITHOUT], Told::Sheet);
    add_spokes(list, "15 in row 1 of 3", &[doubt, year_round, FOR_PEAK], refused(1));
    add_spokes(list, "15 in row 2 of 3", &[year_round, doubt, FOR_PEAK], refused(2));
    add_spokes(list, "15 in row 3 of 3", &[year_round, FOR_PEAK, doubt], refused(3));
    add_spokes(list, "15 in rows 2 and 3", &[FOR_PEAK, doubt, doubt], refused(2));
    add_spokes(list, "15 in rows 1 and 3", &[doubt, FOR_PEAK, doubt], refused(1));
    add_spokes(list, "15 behind marked and idle ones", &[MARKED, IDLE, WITHOUT, doubt], refused(4));
    for (eleven, system) in [(NO_DIRECTION, 4), (MARKED_NO_DIRECTION, 1)] {
        let what = |rows: &str| format!("{rows} of system {system}");
        add_spokes(list, &what("15 in row 1, 11 in row 2"), &[doubt, eleven], refused(1));
        add_spokes(list, &what("11 in row 1, 15 in row 2"), &[eleven, doubt], refused(2));
        add_spokes(list, &what("11 in rows 1 and 2, 15 in row 4"), &[eleven, eleven, year_round, doubt], refused(4));
    }
}

/// "11, with the system whose flow is in doubt, lowest circuit" over both backgrounds.
fn add_eleven_rows(list: &mut List) {
    let refused = |system: u32, row: u32| Told::Refused(11, system, row);
    let (peak, marked) = (NO_DIRECTION, MARKED_NO_DIRECTION);
    add_spokes(list, "11 of system 4 in row 1", &[peak, FOR_PEAK, FOR_YEAR_ROUND], refused(4, 1));
    add_spokes(list, "11 of system 4 in row 3", &[FOR_PEAK, FOR_YEAR_ROUND, peak], refused(4, 3));
    add_spokes(list, "11 of system 1 in row 1", &[marked, MARKED, FOR_PEAK], refused(1, 1));
    add_spokes(list, "11 of system 1 in row 3", &[FOR_PEAK, MARKED, marked], refused(1, 3));
    add_spokes(list, "11 of systems 4 and 1", &[peak, marked], refused(4, 1));
    add_spokes(list, "11 of systems 1 and 4", &[marked, peak], refused(1, 1));
    add_spokes(list, "11 of systems 4 and 1 behind another", &[FOR_YEAR_ROUND, peak, marked], refused(4, 2));
    add_spokes(list, "11 of systems 1 and 4 behind another", &[FOR_YEAR_ROUND, marked, peak], refused(1, 2));
    let back = spoke([-600, -300], 1, Nowhere);
    add_spokes(list, "11 of system 4, backwards", &[FOR_PEAK, back], refused(4, 2));
    let across = spoke([-600, 300], 1, Nowhere);
    add_spokes(list, "11 of system 4, year round backwards", &[FOR_PEAK, across], refused(4, 2));
    let only_peak = spoke([0, 300], 1, Nowhere);
    add_spokes(list, "11 of system 4, nothing year round", &[only_peak, FOR_YEAR_ROUND], refused(4, 1));
    // In doubt year round, and idle or directed at peak, by which it goes.
    let idle = spoke([300, 0], 1, Nowhere);
    add_spokes(list, "in doubt year round and idle at peak", &[idle, FOR_PEAK], Told::Sheet);
    let directed = spoke([300, 401], 1, Peak);
    add_spokes(list, "in doubt year round and directed at peak", &[directed, FOR_YEAR_ROUND], Told::Sheet);
    let marked_idle = Spoke { mark: 1, ..spoke([200, 300], 1, Nowhere) };
    add_spokes(list, "marked, idle year round and in doubt at peak", &[marked_idle, FOR_PEAK], Told::Sheet);
}

/// "stands in its wider solution only": lengths in other systems, in both, in none.
fn add_other_systems(list: &mut List) {
    let with = |rows: [Spoke; 2], stands: &[Stands]| {
        let mut case = spokes(&rows);
        for other in [1, 2, 4] {
            case.runs[other][0] = 0;
        }
        for stands in stands {
            let (run, of) = stands.places().expect("a system");
            case.runs[run][0] = rows[0].kw[of].signum() * rows[0].metres as i64 * 1_000_000_000;
        }
        case
    };
    let kinds: [(&str, Spoke, [Spoke; 1]); 3] = [
        ("year round's", FOR_YEAR_ROUND, [FOR_PEAK]),
        ("peak's", FOR_PEAK, [FOR_YEAR_ROUND]),
        ("local", MARKED, [FOR_PEAK]),
    ];
    for (what, own, [other]) in kinds {
        let systems = [(YearRound, 2), (Peak, 5), (Local, 3)];
        // Wider is judged first, peak wider next, local last.
        for (stands, system) in systems {
            if stands != own.stands {
                let first =
                    systems.into_iter().find(|(of, _)| *of == stands || *of == own.stands).expect("one of them").1;
                let label = format!("a length of {what} in {} alone", stands.word());
                list.refused(label, &with([own, other], &[stands]), |_| (), (10, first, 0));
                let label = format!("a length of {what} in {} too", stands.word());
                list.refused(label, &with([own, other], &[own.stands, stands]), |_| (), (10, system, 0));
            } else {
                let label = format!("a length of {what} in no system");
                list.refused(label, &with([own, other], &[]), |_| (), (10, system, 0));
            }
        }
    }
    let idle = |stands: Stands| with([IDLE, FOR_PEAK], &[stands]);
    list.refused("a length idle at peak in wider", &idle(YearRound), |_| (), (10, 2, 0));
    list.refused("a length idle at peak in peak wider", &idle(Peak), |_| (), (10, 5, 0));
    list.refused("a length idle at peak in local", &idle(Local), |_| (), (10, 3, 0));
}

/// "Its length takes that background's sign": solutions by the other's, where it is opposite.
fn add_other_directions(list: &mut List) {
    let turned = |run: usize| move |case: &mut Case| case.runs[run].iter_mut().for_each(|number| *number = -*number);
    for (kw, stands, run, system) in [
        ([-5_000, 1_000], YearRound, 1, 2),
        ([5_000, -1_000], YearRound, 1, 2),
        ([-1_000, 5_000], Peak, 4, 5),
        ([1_000, -5_000], Peak, 4, 5),
        ([-1_000, 1_000], Peak, 4, 5),
        ([1_300, -1_000], Peak, 4, 5),
    ] {
        let case = spokes(&[spoke(kw, 1_000, stands)]);
        let label = format!("{} kW year round and {} at peak against it", kw[0], kw[1]);
        list.accepted(label.clone(), &case, |_| ());
        list.refused(format!("{label}, by the other's sign"), &case, turned(run), (10, system, 0));
    }
    for kw in [[5_000, -5_000], [-5_000, 5_000]] {
        let case = spokes(&[spoke(kw, 1_000, Local)]);
        let label = format!("marked, {} kW year round and {} at peak against it", kw[0], kw[1]);
        list.accepted(label.clone(), &case, |_| ());
        list.refused(format!("{label}, by the other's sign"), &case, turned(2), (10, 3, 0));
    }
}

/// A ring with a length in each system, and the tutorial's: solutions exchanged, turned round and of zeros.
fn add_ring(list: &mut List) {
    list.accepted("a ring with a length in each system", &ring(), |_| ());
    let exchanged: [(usize, usize, (u32, u32, u32)); 6] = [
        (0, 3, (9, 1, 1)),
        (1, 2, (10, 2, 0)),
        (1, 4, (10, 2, 0)),
        (2, 4, (10, 5, 0)),
        (3, 4, (9, 4, 1)),
        (1, 3, (9, 4, 1)),
    ];
    for (first, second, answer) in exchanged {
        let label = format!("a ring with solutions {} and {} exchanged", first + 1, second + 1);
        list.refused(label, &ring(), |case| case.runs.swap(first, second), answer);
    }
    let answers = [(9, 1, 1), (10, 2, 0), (10, 3, 0), (9, 4, 1), (10, 5, 0)];
    for (run, answer) in answers.into_iter().enumerate() {
        let zeros = |case: &mut Case| case.runs[run].fill(0);
        list.refused(format!("a ring with solution {} of zeros", run + 1), &ring(), zeros, answer);
        let turned = |case: &mut Case| case.runs[run].iter_mut().for_each(|number| *number = -*number);
        list.refused(format!("a ring with solution {} turned round", run + 1), &ring(), turned, answer);
    }
    for name in ["TUT3_E2", "SEVEN"] {
        let case = named_case(name);
        list.refused(format!("{name}, base solutions exchanged"), &case, |case| case.runs.swap(0, 3), (9, 1, 1));
        list.refused(format!("{name}, wider solutions exchanged"), &case, |case| case.runs.swap(1, 4), (10, 2, 0));
    }
}

/// Circuits with their ends turned round, and their flows with them: the same sheets.
fn add_turned(list: &mut List) {
    let turned = |case: &Case| {
        changed(case, |case| {
            every_second_turned(case);
            let nodes = case.nodes.len();
            for run in &mut case.runs {
                run[nodes..].iter_mut().step_by(2).for_each(|flow| *flow = -*flow);
            }
        })
    };
    list.accepted("a ring, every second circuit turned", &turned(&ring()), |_| ());
    for name in ["TUT3_E2", "TUT3_NOPEAK", "SEVEN"] {
        list.accepted(format!("{name}, every second circuit turned"), &turned(&named_case(name)), |_| ());
    }
    // By year round's flow alone the other circuit would be in doubt, or this one.
    let both = [spoke([300, 5_000], 10, Peak), spoke([5_000, 300], 10, YearRound)];
    list.accepted("each in doubt in the background it doesn't count for", &spokes(&both), |_| ());
    list.refused(
        "the backgrounds of base solutions exchanged",
        &spokes(&both),
        |case| case.runs.swap(BASES[0], BASES[1]),
        (9, 1, 1),
    );
}
