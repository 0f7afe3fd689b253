//! 02, CR 12, "Only directions count": cases of one network that differ in what doesn't count, and cases that differ in one
//! thing that does.

use super::bases::{in_version_2, named_case, DIRECTION_TEXTS};
use super::{changed, solved, List, Told};
use crate::beside::Side;
use crate::file::Case;
use crate::random::{another, near, random, random_of_version_2};
use crate::solutions::Direction;
use crate::tables::{judge_chargeable, sound_tables};
use crate::text;

/// Texts, TUT1 with one thing changed, TUT1's first circuit in every band, networks by chance.
pub fn add(list: &mut List) {
    for (name, text) in DIRECTION_TEXTS {
        list.file(name, text::make(text.as_bytes()).expect("a text without faults"), Told::Sheet);
    }
    add_one_thing_changed(list);
    add_wider_runs(list);
    add_bands(list);
    (3..=12).for_each(|nodes| add_chance(list, nodes));
}

/// TUT1 with one thing changed that counts, and solutions to match.
fn add_one_thing_changed(list: &mut List) {
    let tut1 = named_case("TUT1");
    list.accepted("TUT1 from SUBB", &tut1, |case| refer_to(case, 1));
    list.accepted("TUT1 with a factor that no circuit uses", &tut1, |case| case.settings.factors[2] = 2_000);
    list.accepted("TUT2_275 with TUT1's factor", &named_case("TUT2_275"), |case| {
        case.settings.factors[2] = 1_000;
        case.runs[1] = tut1.runs[1].clone();
    });
    list.solved("TUT1 with 30,000 m from SUBA to SUBB", &tut1, |case| case.circuits[0].overhead = 30_000);
    list.accepted("TUT1 with SUBB and SUBC exchanged", &tut1, |case| {
        case.nodes.swap(1, 2);
        case.own_runs_mut().iter_mut().for_each(|run| run.swap(1, 2));
    });
    list.accepted("TUT1_OTHER in version 2", &in_version_2(&named_case("TUT1_OTHER")), |_| ());
}

/// Another reference, by its place from 0, and every potential counted from it.
fn refer_to(case: &mut Case, place: usize) {
    case.settings.reference = place as u32 + 1;
    let nodes = case.nodes.len();
    for run in case.own_runs_mut() {
        let zero = run[place];
        run[..nodes].iter_mut().for_each(|potential| *potential -= zero);
    }
}

/// TUT1 with other wider runs: none at all, and SUBD's potential, of which one circuit knows, off by all that passes.
fn add_wider_runs(list: &mut List) {
    let tut1 = named_case("TUT1");
    list.refused("TUT1 with a wider run of zeros", &tut1, |case| case.runs[1].fill(0), (10, 2, 0));
    for (way, sign) in [("above", 1), ("below", -1)] {
        let moved = |by: i64| move |case: &mut Case| case.runs[1][3] += sign * by;
        list.accepted(format!("TUT1 with SUBD 0.1 m {way} its wider place"), &tut1, moved(100_000_000));
        let label = format!("TUT1 with SUBD 0.1 m and 1 nm {way} its wider place");
        list.refused(label, &tut1, moved(100_000_001), (10, 2, 0));
    }
}

/// TUT1 with so many kW at SUBB, and 540,000 kW there and at SUBD as before. SUBA to SUBB carries a quarter of what SUBA's
/// net, 30,000 kW, is above SUBB's, half of these kW less 100,000.
fn with_suba_to_subb(tec: u32) -> Case {
    solved(&changed(&named_case("TUT1"), |case| (case.stations[1].tec, case.stations[2].tec) = (tec, 540_000 - tec)))
}

/// Both edges of the bands on SUBA to SUBB, and no flow at all.
fn add_bands(list: &mut List) {
    for (tec, milliwatts) in [
        (256_798, "400,250,000"),
        (258_400, "200,000,000"),
        (260_000, "0"),
        (261_600, "-200,000,000"),
        (263_202, "-400,250,000"),
    ] {
        list.accepted(format!("TUT1 with {milliwatts} mW from SUBA to SUBB"), &with_suba_to_subb(tec), |_| ());
    }
    for (tec, milliwatts) in [(258_398, "200,250,000"), (263_200, "-400,000,000")] {
        let label = format!("TUT1 with {milliwatts} mW from SUBA to SUBB");
        list.refused(label, &with_suba_to_subb(tec), |_| (), (11, 1, 1));
    }
}

/// A network by chance with a loop, of version 2 where its nodes are even in number, and four more cases of it: one with
/// its directions, two with others, and one with the directions of the first of those.
fn add_chance(list: &mut List, nodes: usize) {
    let by_chance = [random_of_version_2, random][nodes % 2];
    let network =
        first(|seed| by_chance(1_000 + seed, 12), |case| case.nodes.len() == nodes && case.circuits.len() >= nodes);
    let equal = |case: &Case| first(|seed| nearer(case, seed), |other| directions(other) == directions(case));
    let turned = first(|seed| another(&network, seed), |case| directions(case) != directions(&network));
    let more = first(
        |seed| another(&network, 500 + seed),
        |case| directions(case) != directions(&network) && directions(case) != directions(&turned),
    );
    for (label, case) in [
        ("", &network),
        (", other kilowatts", &equal(&network)),
        (", turned", &turned),
        (", turned, other kilowatts", &equal(&turned)),
        (", turned again", &more),
    ] {
        list.accepted(format!("a network of {nodes} by chance{label}"), case, |_| ());
    }
}

/// The first case of a run by chance that has directions and is as wanted.
fn first(made: impl Fn(u64) -> Case, wanted: impl Fn(&Case) -> bool) -> Case {
    let mut cases = (0..5_000).map(made);
    cases.find(|case| has_directions(case) && wanted(case)).expect("a case within 5,000")
}

/// A case near another, the first tries far from it.
fn nearer(case: &Case, seed: u64) -> Case {
    near(case, seed, [90, 60, 30, 10, 3][(seed as usize / 40).min(4)])
}

/// Sound tables with chargeable TEC, and no circuit in doubt in the solver's base solution.
fn has_directions(case: &Case) -> bool {
    let sound = sound_tables(case).is_ok_and(|tables| judge_chargeable(&tables).is_ok());
    sound && !directions(case).contains(&Direction::InDoubt)
}

/// The direction of each circuit.
fn directions(case: &Case) -> Vec<Direction> {
    Side::of(case).directions
}
