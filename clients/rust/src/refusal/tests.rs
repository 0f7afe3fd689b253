//! Each number has its own variant and words, and a number outside the table is none of them.

use super::{Refusal, System};
use crate::Answer;

/// What the library answers (number, system, row), which refusal that is, and its words.
type Known = ((u64, u64, u64), Refusal, &'static str);

const ROW_FREE: [Known; 12] = [
    (
        (1, 0, 0),
        Refusal::File,
        "the file is not whole, or a solution has another length than nodes plus circuits (none for peak in edition 1)",
    ),
    ((2, 0, 0), Refusal::Setting, "a setting is out of its range"),
    ((7, 0, 0), Refusal::Total, "total demand or total TEC is out of its range, or TEC is below demand"),
    ((10, 1, 0), Refusal::Misses { system: System::Base }, "base solution: the misses sum up too high"),
    ((10, 2, 0), Refusal::Misses { system: System::Wider }, "wider solution: the misses sum up too high"),
    ((10, 3, 0), Refusal::Misses { system: System::Local }, "local solution: the misses sum up too high"),
    ((10, 4, 0), Refusal::Misses { system: System::PeakBase }, "peak base solution: the misses sum up too high"),
    ((10, 5, 0), Refusal::Misses { system: System::PeakWider }, "peak wider solution: the misses sum up too high"),
    ((12, 0, 0), Refusal::Buffer, "the buffer is shorter than the sheet"),
    ((13, 0, 0), Refusal::ChargeableTec, "no TEC is chargeable: all of it is of interconnectors (plant type 3)"),
    (
        (14, 0, 0),
        Refusal::Unscalable,
        "generation does not scale to demand in a background: fixed plant types come to more, or the others have less than is left",
    ),
    ((16, 0, 0), Refusal::ShareFile, "the share file has a wrong length, or a load factor above 1,000 thousandths"),
];

const OF_A_ROW: [Known; 6] = [
    ((3, 0, 21), Refusal::Node { row: 21 }, "node 21 is malformed, out of range, or has the name of an earlier node"),
    (
        (4, 0, 22),
        Refusal::Circuit { row: 22 },
        "circuit 22 is malformed, out of range, without the factor it needs, or its ends are unknown or equal",
    ),
    (
        (5, 0, 23),
        Refusal::Station { row: 23 },
        "station 23 is malformed, out of range, at no node, or has the identifier of an earlier station",
    ),
    ((6, 0, 24), Refusal::Unreached { row: 24 }, "node 24 cannot be reached from the reference"),
    (
        (15, 0, 25),
        Refusal::BackgroundInDoubt { circuit: 25 },
        "it is in doubt whether circuit 25 counts for year round or for peak",
    ),
    (
        (16, 0, 26),
        Refusal::ShareZone { zone: 26 },
        "share file: zone 26 names one that it may not name, is a second centre, or its chain circles",
    ),
];

const OF_A_SYSTEM: [Known; 12] = [
    (
        (8, 1, 31),
        Refusal::Number { system: System::Base, row: 31 },
        "base solution, number 31: out of range, or the reference's potential is not 0",
    ),
    (
        (8, 2, 32),
        Refusal::Number { system: System::Wider, row: 32 },
        "wider solution, number 32: out of range, or the reference's potential is not 0",
    ),
    (
        (8, 3, 33),
        Refusal::Number { system: System::Local, row: 33 },
        "local solution, number 33: out of range, or the reference's potential is not 0",
    ),
    (
        (8, 4, 34),
        Refusal::Number { system: System::PeakBase, row: 34 },
        "peak base solution, number 34: out of range, or the reference's potential is not 0",
    ),
    (
        (8, 5, 35),
        Refusal::Number { system: System::PeakWider, row: 35 },
        "peak wider solution, number 35: out of range, or the reference's potential is not 0",
    ),
    (
        (9, 1, 36),
        Refusal::Balance { system: System::Base, row: 36 },
        "base solution: the flows do not balance at node 36",
    ),
    (
        (9, 2, 37),
        Refusal::Balance { system: System::Wider, row: 37 },
        "wider solution: the flows do not balance at node 37",
    ),
    (
        (9, 3, 38),
        Refusal::Balance { system: System::Local, row: 38 },
        "local solution: the flows do not balance at node 38",
    ),
    (
        (9, 4, 39),
        Refusal::Balance { system: System::PeakBase, row: 39 },
        "peak base solution: the flows do not balance at node 39",
    ),
    (
        (9, 5, 40),
        Refusal::Balance { system: System::PeakWider, row: 40 },
        "peak wider solution: the flows do not balance at node 40",
    ),
    (
        (11, 1, 41),
        Refusal::Direction { system: System::Base, row: 41 },
        "base solution: the direction of circuit 41 is in doubt",
    ),
    (
        (11, 4, 42),
        Refusal::Direction { system: System::PeakBase, row: 42 },
        "peak base solution: the direction of circuit 42 is in doubt",
    ),
];

const ENDS: [u64; 10] = [0, 1, 2, 3, 4, 5, 6, 7, 1 << 32, u64::MAX];

fn known() -> impl Iterator<Item = Known> {
    ROW_FREE.into_iter().chain(OF_A_ROW).chain(OF_A_SYSTEM)
}

fn answer(number: u64, system: u64, row: u64) -> Answer {
    Answer { number, system, row, length: 0 }
}

fn carried(refusal: Refusal) -> (u64, u64, u64) {
    (refusal.number(), refusal.system(), refusal.row())
}

#[test]
fn each_known_answer_is_its_own_refusal_in_its_own_words() {
    for ((number, system, row), refusal, words) in known() {
        assert_eq!(answer(number, system, row).result(), Err(refusal));
        assert_eq!(carried(refusal), (number, system, row));
        assert_eq!(refusal.to_string(), format!("refused ({number}): {words}"));
    }
}

#[test]
fn every_number_of_the_table_is_tried() {
    for number in 1..=16 {
        assert!(known().any(|((tried, ..), ..)| tried == number), "{number}");
    }
}

#[test]
fn a_number_outside_the_table_is_unknown() {
    for number in [17, 18, 255, 256 + 1, (1 << 32) + 1, u64::MAX - 1, u64::MAX] {
        for system in ENDS {
            for row in ENDS {
                let refusal = Refusal::Unknown { number, system, row };
                assert_eq!(Refusal::of(answer(number, system, row)), Some(refusal));
                assert_eq!(answer(number, system, row).result(), Err(refusal));
                assert_eq!(carried(refusal), (number, system, row));
                assert_eq!(
                    refusal.to_string(),
                    format!("refused {number} {system} {row}: a reason this client does not know; use a newer client")
                );
            }
        }
    }
}

/// Numbers of the table with a system or a row that they never have.
const STRANGE: [(u64, u64, u64); 37] = [
    (1, 0, 1),
    (1, 1, 0),
    (2, 0, 9),
    (2, 3, 0),
    (3, 1, 1),
    (4, 2, 1),
    (5, 3, 1),
    (6, 1, 1),
    (7, 0, 1),
    (7, 1, 0),
    (8, 0, 1),
    (8, 6, 1),
    (9, 0, 1),
    (9, 6, 1),
    (9, u64::MAX, 1),
    (10, 0, 0),
    (10, 6, 0),
    (10, 1, 1),
    (10, 5, 1),
    (11, 0, 1),
    (11, 2, 1),
    (11, 3, 1),
    (11, 5, 1),
    (11, 6, 1),
    (12, 0, 1),
    (12, 1, 0),
    (13, 0, 1),
    (13, 0, u64::MAX),
    (13, 1, 0),
    (13, 3, 1),
    (14, 0, 1),
    (14, 1, 0),
    (14, 4, 0),
    (15, 1, 1),
    (15, 4, 1),
    (16, 1, 0),
    (16, 4, 1),
];

#[test]
fn a_known_number_with_a_strange_system_or_row_is_unknown() {
    for (number, system, row) in STRANGE {
        assert_eq!(Refusal::of(answer(number, system, row)), Some(Refusal::Unknown { number, system, row }));
    }
}

#[test]
fn every_answer_is_carried_as_it_came() {
    for number in (1..=300).chain([1 << 32, (1 << 32) + 12, (1 << 32) + 16, u64::MAX]) {
        for system in ENDS {
            for row in ENDS {
                let refusal = Refusal::of(answer(number, system, row)).expect("a number other than 0 is a refusal");
                assert_eq!(carried(refusal), (number, system, row));
                assert!(number <= 16 || matches!(refusal, Refusal::Unknown { .. }));
            }
        }
    }
}

#[test]
fn only_0_is_no_refusal() {
    assert_eq!(Answer { number: 0, system: 0, row: 0, length: 117 }.result(), Ok(117));
    for of_any in ENDS {
        let accepted = Answer { number: 0, system: of_any, row: of_any, length: of_any };
        assert_eq!(Refusal::of(accepted), None);
        assert!(accepted.result().is_ok());
    }
}
