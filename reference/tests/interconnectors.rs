//! 02, CR 1, "Interconnectors don't pay": who is charged, sheets figure by figure, and 13.

mod common;

use common::*;
use reference::charges::{node_chargeable, node_tec};
use reference::file::{Case, StationRow};
use reference::quantities::Kw;
use reference::replay::cases;
use reference::tables::{judge_chargeable, sound_tables, INTERCONNECTOR};
use reference::{judge_case, judge_into, Answer, Refusal};

const THIRTEEN: Refusal = Refusal { number: 13, system: 0, row: 0 };

/// Makes interconnectors of all stations.
fn make_all_links(case: &mut Case) {
    case.stations.iter_mut().for_each(|row| row.plant = INTERCONNECTOR);
}

#[test]
fn every_type_but_interconnectors_pays() {
    let mut case = kiln();
    case.stations = (1..=7)
        .map(|plant| StationRow { plant, ..station(&format!("TYPE_{plant}"), "NODB", 100_000 + plant) })
        .chain([StationRow { plant: INTERCONNECTOR, ..station("LINK", "NODA", 9) }])
        .collect();
    let tables = sound_tables(&case).unwrap();
    assert_eq!(node_tec(&tables), [Kw(9), Kw(700_028), Kw(0)]);
    assert_eq!(node_chargeable(&tables), [Kw(0), Kw(600_025), Kw(0)]);
    assert_eq!((tables.total_tec, tables.total_chargeable), (Kw(700_037), Kw(600_025)));
    assert_eq!(judge_chargeable(&tables), Ok(()));
}

/// Sheets by hand: NODA at 15,000 m and NODB at 12,500 m, local 17,000 and 8,500 m; the zone of NODC, the reference, without TEC.
const SHEETS: [(&str, &str); 12] = [
    (
        "zone 1 of type 3 alone",
        "\
C -8932
G 1 15000 6068 109224 108026 217250
G 2 12500 3568 64224 108026 172250
G 3 -
D 1 0 8932 160776 370890 531666
D 2 -12500 -3568 -64224 370890 306666
L NODA 17000 195500
L NODB 8500 97750
R 0 100000
",
    ),
    (
        "a node of type 3 alone in a zone that pays",
        "\
C -10004
G 1 14167 4163 74934 97316 172250
G 2 -
G 3 -
D 1 0 10004 180072 351594 531666
D 2 -12500 -2496 -44928 351594 306666
L NODA 17000 195500
L NODB 8500 97750
R 0 100000
",
    ),
    (
        "type 3 at every node and in every zone, two of them with another",
        "\
C -12346
G 1 15000 2654 47772 -105689 -57917
G 2 12500 154 2772 -105689 -102917
G 3 0 -12346 -222228 -105689 -327917
D 1 0 12346 222228 309438 531666
D 2 -12500 -154 -2772 309438 306666
L NODA 17000 195500
L NODB 8500 97750
L NODC 0 0
R 100000 100000
",
    ),
    (
        "type 3 at every node and in every zone, one of them with another",
        "\
C -2500
G 1 15000 12500 225000 3857187857 3857412857
G 2 12500 10000 180000 3857187857 3857367857
G 3 0 -2500 -45000 3857187857 3857142857
D 1 0 2500 45000 486666 531666
D 2 -12500 -10000 -180000 486666 306666
L NODA 17000 195500
L NODB 8500 97750
L NODC 0 0
R 1 100000
",
    ),
    (
        "some of NODA of type 3",
        "\
C -11807
G 1 15000 3193 57474 -80995 -23521
G 2 12500 693 12474 -80995 -68521
G 3 -
D 1 0 11807 212526 319140 531666
D 2 -12500 -693 -12474 319140 306666
L NODA 17000 195500
L NODB 8500 97750
R 40000 100000
",
    ),
    (
        "1 kW of type 1 beside type 3",
        "\
C -2500
G 1 15000 12500 225000 26999722250 26999947250
G 2 12500 10000 180000 26999722250 26999902250
G 3 -
D 1 0 2500 45000 486666 531666
D 2 -12500 -10000 -180000 486666 306666
L NODA 17000 195500
L NODB 8500 97750
R 0 100000
",
    ),
    (
        "NODA of type 3, revenue 0, p 0",
        "\
C -2500
G 1 15000 12500 225000 -277750 -52750
G 2 12500 10000 180000 -277750 -97750
G 3 -
D 1 0 2500 45000 0 45000
D 2 -12500 -10000 -180000 0 -180000
L NODA 17000 195500
L NODB 8500 97750
R 0 0
",
    ),
    (
        "KILN with NODA of type 3",
        "\
C -13853
G 1 28333 14480 260640 239360 500000
D 1 -4200 9653 173754 159579 333333
L NODA 0 0
L NODB 0 0
R 0 50000
",
    ),
    (
        "TUT1 with SUBD of type 3",
        "\
C 9440
G 1 0 9440 169920 4474080 4644000
G 2 -10000 -560 -10080 4474080 4464000
G 3 -
G 4 -15000 -5560 -100080 4474080 4374000
D 1 -
D 2 10000 560 10080 12096586 12106666
D 3 15000 5560 100080 12096586 12196666
D 4 -
L SUBA 0 0
L SUBB 0 0
L SUBD 30000 300000
R 0 200000
",
    ),
    (
        "a remainder of 99,999,998, beside 1 kW of type 3",
        "C 0\nG 1 0 0 0 998 998\nD 1 0 0 0 4990004 4990004\nL ONLY 0 0\nR 99999998 19001000\n",
    ),
    (
        "1 kW beside 19,999,999 of type 3, the greatest revenue, p 0",
        "C 0\nG 1 0 0 0 10000000000000000 10000000000000000\nD 1 0 0 0 0 0\nL ONLY 0 0\nR 0 0\n",
    ),
    (
        "greatest figures, all but 1 kW of type 3, p 0, revenue 10000000000",
        "\
C 10000000
G 1 10000000 20000000 10000000000 10000000000000000 10000010000000000
G 2 -10000000 0 0 10000000000000000 10000000000000000
D 1 10000000 0 0 100 100
D 2 -10000000 -20000000 -10000000000 100 -9999999900
L GENR 10000000 5000000000
L L1 0 0
L L2 0 0
L L3 0 0
L L4 0 0
L L5 0 0
R 0 0
",
    ),
];

#[test]
fn sheets_by_hand() {
    let list = cases();
    for (label, sheet) in SHEETS {
        assert_eq!(sheet_of(&list, label), sheet, "{label}");
    }
}

#[test]
fn sheets_that_are_the_same() {
    let list = cases();
    let paying = |label: fn(u32) -> String| [1, 2, 4, 5, 6, 7].map(label).to_vec();
    let groups = [
        // Which of the types that pay makes no difference.
        paying(|plant| format!("1 kW of type {plant} beside type 3")),
        paying(|plant| format!("NODA of type {plant}, NODB of type 3, p 500")),
        // Nor do the order of the stations and how they are split.
        ["", ", its row first", ", in three stations", ", in the first station"]
            .map(|how| format!("some of NODA of type 3{how}"))
            .to_vec(),
        // Nor do stations without kilowatts.
        [
            "no type 3, to compare",
            "a station of type 3 with 0 kW at NODA",
            "a station of type 3 with 0 kW at NODC: its zone `-`, no L line",
        ]
        .map(String::from)
        .to_vec(),
        ["zone 1 of type 3 alone", "zone 1 of type 3 and another type with 0 kW"].map(String::from).to_vec(),
    ];
    for labels in groups {
        let first = sheet_of(&list, &labels[0]);
        assert!(first.starts_with("C "), "{first}");
        labels.iter().for_each(|label| assert_eq!(sheet_of(&list, label), first, "{label}"));
    }
}

#[test]
fn thirteen_between_seven_and_eight() {
    let links = |change: fn(&mut Case)| {
        move |case: &mut Case| {
            make_all_links(case);
            change(case);
        }
    };
    let kiln = kiln();
    refused(&kiln, links(|_| ()), (13, 0, 0));
    // TEC of 150,000 is the demand.
    refused(&kiln, links(|case| case.stations[0].tec = 50_000), (13, 0, 0));
    refused(&kiln, links(|case| case.stations[0].tec = 49_999), (7, 0, 0));
    refused(&kiln, links(|case| case.runs[0][0] = i64::MAX), (13, 0, 0));
    refused(&kiln, links(|case| case.runs[0][2] = 1), (13, 0, 0));
    refused(&kiln, links(|case| case.stations.push(station("NONE", "NODA", 0))), (13, 0, 0));
    accepted(&kiln, |case| {
        make_all_links(case);
        case.stations[0].tec -= 1;
        case.stations.push(station("ONE", "NODA", 1));
    });
}

#[test]
fn thirteen_of_sound_tables() {
    let mut case = kiln();
    make_all_links(&mut case);
    let tables = sound_tables(&case).expect("none of 1 to 7 holds");
    assert_eq!(tables.total_chargeable, Kw(0));
    assert_eq!(judge_chargeable(&tables), Err(THIRTEEN));
}

#[test]
fn thirteen_behind_lent_runs_and_before_the_buffer() {
    let mut case = kiln();
    make_all_links(&mut case);
    let file = case.bytes();
    let runs = [&case.runs[0][..], &case.runs[1], &case.runs[2]];
    assert_eq!(judge_case(&file, runs), Err(THIRTEEN));
    assert_eq!(judge_into(&file, runs, &mut []), Answer::Refused(THIRTEEN));
    let mut buffer = [b'#'; 300];
    assert_eq!(judge_into(&file, runs, &mut buffer), Answer::Refused(THIRTEEN));
    assert_eq!(buffer, [b'#'; 300]);
    let not_whole = Refusal { number: 1, system: 0, row: 0 };
    assert_eq!(judge_case(&file, [runs[0], runs[1], &runs[2][1..]]), Err(not_whole));
}
