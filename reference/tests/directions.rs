//! 02, CR 12, "Only directions count": the tutorial's cases side by side, each thing that is asked left out alone, and every
//! stored case that is accepted against those of its network and directions.

mod common;

use common::*;
use reference::beside::{beside, laid_out, read, Asked, Beside, Side};
use reference::file::{whole_case, Case, Edition, Version};
use reference::quantities::Metres;
use reference::replay::{cases, Labelled, Told};
use reference::solutions::Direction;
use std::collections::{BTreeMap, HashMap};
use std::process::{Command, Output};

/// Cases of the replay before those for directions, and those for directions.
const EARLIER: usize = 3_267;
const DIRECTIONS: usize = 70;

/// Two texts of the folder side by side.
fn texts_beside(first: &str, second: &str) -> Beside {
    beside(&named_case(first), &named_case(second))
}

/// A case of the replay's list by its label.
fn stored(list: &[Labelled], label: &str) -> Case {
    let case = list.iter().find(|case| case.label == label).unwrap_or_else(|| panic!("no case {label}"));
    whole_case(&case.file).expect("a whole file")
}

/// The differences of all rows, wider and local of one row after the other.
fn differences(pair: &Beside) -> Vec<i128> {
    pair.differences().into_iter().flatten().map(|metres| metres.0).collect()
}

/// The greatest magnitude of a difference.
fn greatest(pair: &Beside) -> i128 {
    differences(pair).into_iter().map(i128::abs).max().expect("a node")
}

#[test]
fn more_generation_that_turns_nothing_moves_nothing() {
    for (first, second) in
        [("TUT1", "TUT1_P5"), ("TUT1_P150", "TUT1_P200"), ("TUT1", "TUT1_IC"), ("TUT1", "TUT1_OTHER")]
    {
        let pair = texts_beside(first, second);
        assert_eq!(pair.missing(), [], "{first} {second}");
        assert_eq!(differences(&pair), [0; 8], "{first} {second}");
    }
    // The solutions of TUT1_OTHER are not TUT1's: the distances are, as metres.
    assert_ne!(named_case("TUT1").runs[1], named_case("TUT1_OTHER").runs[1]);
}

#[test]
fn more_generation_that_turns_a_circuit_moves_distances() {
    for (first, second) in [("TUT1", "TUT1_P150"), ("TUT1_P5", "TUT1_P200"), ("TUT1_OTHER", "TUT1_P150")] {
        let pair = texts_beside(first, second);
        assert_eq!(pair.missing(), [Asked::Directions], "{first} {second}");
        assert_eq!(pair.turned(), [0], "{first} {second}");
        let ways = [0, 1].map(|side| pair.sides[side].directions[0]);
        assert_eq!(ways, [Direction::FirstToSecond, Direction::SecondToFirst], "{first} {second}");
        // SUBB by 20 km, SUBC and SUBD by 10 km, and no local distance.
        assert_eq!(differences(&pair), [0, 0, 20_000, 0, 10_000, 0, 10_000, 0], "{first} {second}");
    }
}

#[test]
fn a_metre_is_met() {
    let pair = texts_beside("TARN", "TARN_METRE");
    assert_eq!(pair.missing(), []);
    // HEAD's wider distance and WEIR's local one.
    assert_eq!(differences(&pair), [-1, 0, 0, 0, 0, 0, 0, 1]);
    let apart: Vec<i64> = named_case("TARN").runs.concat();
    let apart: Vec<i64> =
        apart.iter().zip(named_case("TARN_METRE").runs.concat()).map(|(first, second)| first - second).collect();
    assert_eq!(apart[7..].iter().filter(|number| **number != 0).collect::<Vec<_>>(), [&1, &-1]);
}

#[test]
fn texts_beside_others_differ_in_all_else() {
    for (first, second) in [("TUT1", "TUT1_OTHER"), ("TARN", "TARN_METRE")] {
        let [first, second] = [first, second].map(named_case);
        let (one, other) = (&first.settings, &second.settings);
        assert_ne!(one.generation_zones, other.generation_zones);
        assert_ne!(one.demand_zones, other.demand_zones);
        assert_ne!(one.p, other.p);
        assert_ne!(one.constant, other.constant);
        assert_ne!(one.wider_factor, other.wider_factor);
        assert_ne!(one.local_factor, other.local_factor);
        assert_ne!(one.revenue, other.revenue);
        assert!(first.stations.iter().all(|row| !second.stations.contains(row)));
        assert_ne!(first.stations.len(), second.stations.len());
        assert!(first.runs[0] != second.runs[0] && first.runs[1] != second.runs[1]);
    }
}

#[test]
fn each_thing_asked_left_out_alone() {
    let list = cases();
    let case = |label: &str| stored(&list, label);
    for (asked, first, second, metres) in [
        (Asked::Accepted, "TUT1", "TUT1 with a wider run of zeros", 15_000),
        (Asked::Circuits, "TUT1", "TUT1 with 30,000 m from SUBA to SUBB", 5_000),
        (Asked::Names, "TUT1", "TUT1 with SUBB and SUBC exchanged", 5_000),
        (Asked::Factors, "TUT2_275", "TUT2_275 with TUT1's factor", 5_000),
        (Asked::Reference, "TUT1", "TUT1 from SUBB", 10_000),
        (Asked::Directions, "TUT1", "TUT1_P150", 20_000),
        (Asked::Directions, "TUT1", "TUT1 with 0 mW from SUBA to SUBB", 10_000),
    ] {
        for (first, second) in [(first, second), (second, first)] {
            let pair = beside(&case(first), &case(second));
            assert_eq!(pair.missing(), [asked], "{first} {second}");
            assert_eq!(greatest(&pair), metres, "{first} {second}");
        }
    }
}

#[test]
fn a_factor_that_no_circuit_uses_is_asked_for_and_moves_nothing() {
    let pair = beside(&named_case("TUT1"), &stored(&cases(), "TUT1 with a factor that no circuit uses"));
    assert_eq!((pair.missing(), greatest(&pair)), (vec![Asked::Factors], 0));
}

#[test]
fn both_versions_have_one_table_of_circuits() {
    let pair = beside(&named_case("TUT1"), &stored(&cases(), "TUT1_OTHER in version 2"));
    assert_eq!((pair.missing(), greatest(&pair)), (vec![], 0));
}

#[test]
fn every_flow_of_a_band_is_one_direction() {
    let list = cases();
    let with = |flow: &str| stored(&list, &format!("TUT1 with {flow} mW from SUBA to SUBB"));
    let idle = ["200,000,000", "0", "-200,000,000"].map(with);
    for (first, second) in [(&idle[0], &idle[1]), (&idle[0], &idle[2]), (&idle[1], &idle[2])] {
        let pair = beside(first, second);
        assert_eq!((pair.missing(), greatest(&pair)), (vec![], 0));
        assert_eq!(pair.sides[0].directions[0], Direction::Idle);
    }
    for (flow, like, unlike) in [("400,250,000", "TUT1", "TUT1_P150"), ("-400,250,000", "TUT1_P150", "TUT1")] {
        let pair = beside(&with(flow), &named_case(like));
        assert_eq!((pair.missing(), greatest(&pair)), (vec![], 0), "{flow}");
        assert_eq!(beside(&with(flow), &named_case(unlike)).missing(), [Asked::Directions], "{flow}");
        assert_eq!(beside(&with(flow), &idle[1]).missing(), [Asked::Directions], "{flow}");
    }
    for flow in ["200,250,000", "-400,000,000"] {
        let pair = beside(&with(flow), &named_case("TUT1"));
        assert_eq!(pair.sides[0].directions[0], Direction::InDoubt, "{flow}");
        assert_eq!(pair.missing(), [Asked::Accepted, Asked::Directions], "{flow}");
    }
}

/// What is asked of two cases but for directions, as one key: circuits, names, factors and reference.
type Network = Vec<u8>;

/// A side's network.
fn network(side: &Side) -> Network {
    let numbers = side.factors.iter().chain([&side.reference]).flat_map(|number| number.to_le_bytes());
    let names = side.names.iter().flatten().copied();
    let counts = [side.names.len() as u16, side.circuits.len() as u16].into_iter().flat_map(u16::to_le_bytes);
    counts.chain(numbers).chain(names).chain(side.circuits.iter().flat_map(|row| row.bytes(Version::Two))).collect()
}

/// Least and greatest distance of each node, wider and local.
struct Extremes {
    cases: Vec<String>,
    least: Vec<Metres>,
    greatest: Vec<Metres>,
}

/// Wider distances, then local ones.
fn distances(side: &Side) -> Vec<Metres> {
    [&side.wider[..], &side.local].concat()
}

impl Extremes {
    /// One more case of the group.
    fn add(&mut self, label: String, side: &Side) {
        self.cases.push(label);
        for (place, metres) in distances(side).into_iter().enumerate() {
            self.least[place] = self.least[place].min(metres);
            self.greatest[place] = self.greatest[place].max(metres);
        }
    }

    /// The greatest distance between two cases of the group at one node.
    fn widest(&self) -> i128 {
        self.least.iter().zip(&self.greatest).map(|(least, greatest)| greatest.0 - least.0).max().expect("a node")
    }
}

/// Every accepted case of edition 1 in the list by its network, and there by its directions. 02, CR 12: "over edition 1".
fn groups(list: &[Labelled]) -> HashMap<Network, BTreeMap<String, Extremes>> {
    let mut groups: HashMap<Network, BTreeMap<String, Extremes>> = HashMap::new();
    for case in list {
        let Some(tables) = whole_case(&case.file).filter(|case| case.edition == Edition::One) else { continue };
        let side = Side::of(&tables);
        if side.refusal.is_none() {
            let group = groups.entry(network(&side)).or_default().entry(format!("{:?}", side.directions));
            let start = || Extremes { cases: Vec::new(), least: distances(&side), greatest: distances(&side) };
            group.or_insert_with(start).add(case.label.clone(), &side);
        }
    }
    groups
}

#[test]
fn equal_directions_are_within_a_metre_in_every_stored_case() {
    let groups = groups(&cases());
    let groups: Vec<&Extremes> =
        groups.values().flat_map(BTreeMap::values).filter(|group| group.cases.len() > 1).collect();
    let widest = |metres: i128| groups.iter().filter(|group| group.widest() == metres).count();
    let apart: Vec<_> = groups.iter().filter(|group| group.widest() > 1).map(|group| &group.cases).collect();
    assert!(apart.is_empty(), "{apart:#?}");
    let pairs: usize = groups.iter().map(|group| group.cases.len() * (group.cases.len() - 1) / 2).sum();
    // More cases behind these only add to the numbers.
    assert!(groups.len() >= 113 && pairs >= 6_005 && widest(1) >= 15, "{} {pairs} {}", groups.len(), widest(1));
}

#[test]
fn other_directions_of_one_network_move_by_more_than_a_metre() {
    let groups = groups(&cases());
    let several: Vec<_> = groups.values().filter(|network| network.len() > 1).collect();
    let moved = several.iter().filter(|network| moves(network)).count();
    assert!(several.len() >= 39 && moved >= 37, "{} {moved}", several.len());
}

/// Whether two groups of one network stand more than a metre apart at some node.
fn moves(network: &BTreeMap<String, Extremes>) -> bool {
    let apart = |(first, second): (&Extremes, &Extremes)| {
        first.least.iter().zip(&second.greatest).any(|(least, greatest)| least.0 - greatest.0 > 1)
    };
    network.values().any(|first| network.values().any(|second| apart((first, second))))
}

#[test]
fn cases_for_directions_are_sheets_but_for_five() {
    let list: Vec<Labelled> = cases().into_iter().skip(EARLIER).take(DIRECTIONS).collect();
    let sheets = list.iter().filter(|case| case.told == Told::Sheet).count();
    let refused =
        |number: u32| list.iter().filter(|case| matches!(case.told, Told::Refused(n, ..) if n == number)).count();
    assert_eq!((list.len(), sheets, refused(10), refused(11)), (70, 65, 3, 2));
    assert_eq!((&list[0].label[..], &list[69].label[..]), ("TUT1_OTHER", "a network of 12 by chance, turned again"));
}

#[test]
fn networks_by_chance_keep_directions_or_turn_some() {
    let list = cases();
    for nodes in 3..=12 {
        let case = |label: &str| stored(&list, &format!("a network of {nodes} by chance{label}"));
        let [network, equal, turned, equal_turned, again] =
            ["", ", other kilowatts", ", turned", ", turned, other kilowatts", ", turned again"].map(case);
        assert_eq!(network.nodes.len(), nodes);
        for (first, second) in [(&network, &equal), (&turned, &equal_turned)] {
            let pair = beside(first, second);
            assert_eq!(pair.missing(), [], "{nodes}");
            assert!(greatest(&pair) <= 1, "{nodes}");
            assert!(kilowatts(first) != kilowatts(second) && first.runs[0] != second.runs[0], "{nodes}");
        }
        for (first, second) in [(&network, &turned), (&equal, &equal_turned), (&network, &again), (&turned, &again)] {
            let pair = beside(first, second);
            assert_eq!(pair.missing(), [Asked::Directions], "{nodes}");
            assert!(greatest(&pair) > 1, "{nodes}");
        }
    }
}

/// Demand of each node and TEC of each station.
fn kilowatts(case: &Case) -> Vec<u32> {
    case.nodes.iter().map(|row| row.demand).chain(case.stations.iter().map(|row| row.tec)).collect()
}

#[test]
fn tut1_and_tut1_p150_as_text() {
    let text = laid_out(&texts_beside("TUT1", "TUT1_P150"), ["TUT1.txt", "TUT1_P150.txt"]);
    assert_eq!(
        text,
        "\
first   TUT1.txt       accepted
second  TUT1_P150.txt  accepted

circuits                 equal
names of nodes in order  equal
expansion factors        equal
reference                equal
directions               not equal: row 1, SUBA-SUBB, is SUBA to SUBB and SUBB to SUBA

Circuits with a length
ends        in the first  in the second
SUBA  SUBB  SUBA to SUBB  SUBB to SUBA   differs
SUBA  SUBC  SUBA to SUBC  SUBA to SUBC
SUBB  SUBC  SUBB to SUBC  SUBB to SUBC
SUBD  SUBC  SUBD to SUBC  SUBD to SUBC

Nodes, in metres
node  wider, first  second  difference  local, first  second  difference
SUBA             0       0           0             0       0           0
SUBB        -10000   10000       20000             0       0           0
SUBC        -15000   -5000       10000             0       0           0
SUBD        -15000   -5000       10000         30000   30000           0

Nothing is promised of these two. What fails: directions.
"
    );
}

#[test]
fn a_refused_case_as_text() {
    let mut second = named_case("TARN_METRE");
    second.runs[1][0] = 5_000_000_000;
    second.runs[0][5] = 300_000_000;
    let text = laid_out(&beside(&named_case("TARN"), &second), ["one", "the_other"]);
    assert_eq!(
        text,
        "\
first   one        accepted
second  the_other  refused 9 1 2
What a refused case proposes is shown as it is; the theorem asks for two accepted cases.

circuits                 equal
names of nodes in order  equal
expansion factors        equal
reference                equal
directions               not equal: row 2, MILL-FORD, is MILL to FORD and in doubt

Circuits with a length
ends        in the first  in the second
HEAD  MILL  HEAD to MILL  HEAD to MILL
MILL  FORD  MILL to FORD  in doubt       differs
FORD  WEIR  FORD to WEIR  FORD to WEIR

Nodes, in metres
node  wider, first  second  difference  local, first  second  difference
HEAD             5       5           0             0       0           0
MILL             0       0           0             0       0           0
FORD            -3      -3           0             0       0           0
WEIR            -3      -3           0            -3      -2           1

Nothing is promised of these two. What fails: acceptance of both, directions.
"
    );
}

#[test]
fn what_holds_of_all_and_what_of_none_as_text() {
    let all = laid_out(&texts_beside("TUT1", "TUT1_P5"), ["", ""]);
    assert!(all.contains("\ndirections               equal\n") && !all.contains("differs\n"), "{all}");
    let promise = "promises every distance equal to within a metre, whatever else differs.\n";
    assert!(all.ends_with(promise), "{all}");
    let some = laid_out(&texts_beside("TUT1", "TUT2_275"), ["", ""]);
    let circuits = "circuits                 not equal: row 3 is the first that differs\n";
    assert!(some.contains(circuits) && some.contains("directions               equal, row by row\n"), "{some}");
    let none = laid_out(&texts_beside("KILN", "TUT2_275"), ["", ""]);
    for line in [
        "circuits                 not equal: 3 and 4 rows",
        "names of nodes in order  not equal: 3 and 4 rows",
        "expansion factors        not equal: overhead_275 1000 and 2000",
        "reference                not equal: row 3 and row 1",
        "directions               not equal: 3 and 4 circuits",
        "No table of circuits: the circuits aren't equal.",
        "No table of nodes: their names aren't equal in order.",
        "Nothing is promised of these two. What fails: circuits, names of nodes in order, expansion factors, reference, \
         directions.",
    ] {
        assert!(none.lines().any(|printed| printed == line), "{line}\n{none}");
    }
}

#[test]
fn circuits_that_turned_have_a_line_each() {
    let mut second = named_case("TARN");
    (second.runs[0][4], second.runs[0][6]) = (-1_000_000_000, 0);
    let text = laid_out(&beside(&named_case("TARN"), &second), ["", ""]);
    let lines: Vec<&str> = text.lines().skip(8).take(2).collect();
    assert_eq!(
        lines,
        [
            "directions               not equal: row 1, HEAD-MILL, is HEAD to MILL and MILL to HEAD",
            "                         not equal: row 3, FORD-WEIR, is FORD to WEIR and idle",
        ]
    );
    assert_eq!(text.lines().filter(|line| line.ends_with("  differs")).count(), 2);
}

#[test]
fn columns_fit_names_of_twelve_letters() {
    let mut case = pair(1_000, vec![circuit("ABCDEFGHIJKL", "B", 1, 0), circuit("B", "ABCDEFGHIJKL", 1, 7)]);
    case.nodes = vec![node("ABCDEFGHIJKL", 0), node("B", 1_000)];
    case.stations[0].node = name("ABCDEFGHIJKL");
    let text = laid_out(&beside(&case, &case), ["a", "a"]);
    let lines: Vec<&str> = text.lines().skip(10).take(7).collect();
    assert_eq!(
        lines,
        [
            "Circuits with a length",
            "ends                in the first  in the second",
            "B     ABCDEFGHIJKL  idle          idle",
            "",
            "Nodes, in metres",
            "node          wider, first  second  difference  local, first  second  difference",
            "ABCDEFGHIJKL             0       0           0             0       0           0",
        ]
    );
}

#[test]
fn cases_are_read_from_files_and_from_texts() {
    let case = named_case("SUBSEA");
    assert_eq!(read(&folder_file("SUBSEA.case")), Ok(case.clone()));
    assert_eq!(read(&folder_file("SUBSEA.txt")), Ok(case.clone()));
    let file = case.bytes();
    assert_eq!(read(&file[..file.len() - 1]), Err("neither a whole case file nor a text".to_string()));
    let text = |line: &str| [&folder_file("KILN.txt")[..], line.as_bytes()].concat();
    assert_eq!(read(&text("cut 1\n")), Err("the file that this text describes isn't whole".to_string()));
    assert!(read(&text("nodes\n")).is_err_and(|fault| fault.starts_with("line ")));
}

/// What the case tool does with these words.
fn case_tool(words: &[&str]) -> Output {
    let folder = concat!(env!("CARGO_MANIFEST_DIR"), "/../cases");
    Command::new(env!("CARGO_BIN_EXE_case")).current_dir(folder).args(words).output().expect("the tool runs")
}

#[test]
fn the_tool_prints_two_files_or_says_what_is_wrong() {
    let output = case_tool(&["beside", "TUT1.txt", "SUBSEA.case"]);
    let pair = texts_beside("TUT1", "SUBSEA");
    assert!(output.status.success() && output.stderr.is_empty());
    assert_eq!(String::from_utf8(output.stdout).unwrap(), laid_out(&pair, ["TUT1.txt", "SUBSEA.case"]));
    for (words, start) in [
        (&["beside", "TUT1.txt"][..], "beside takes the names of two files"),
        (&["beside", "TUT1.txt", "KILN.txt", "TARN.txt"], "beside takes the names of two files"),
        (&["beside", "TUT1.txt", "absent"], "absent: "),
        (&["beside", "TUT1.sheet", "TUT1.txt"], "TUT1.sheet: line 1: "),
    ] {
        let output = case_tool(words);
        assert!(!output.status.success() && output.stdout.is_empty(), "{words:?}");
        assert!(String::from_utf8(output.stderr).unwrap().starts_with(start), "{words:?}");
    }
}
