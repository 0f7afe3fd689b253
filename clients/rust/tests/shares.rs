//! Share files by calls of the real library: the sheet with one, what is as none, and the refusals that it adds.

mod files;

use files::{in_version_2, put_u32, KILN};
use wirepulley::{Answer, Case, Refusal, Solutions, System, LONGEST_SHEET, STACK};

/// Example 3 of the tutorial in edition 2, and a share file for it: A lies behind B, and B behind D, the centre; C has no TEC.
const TUTORIAL: &[u8] = include_bytes!("../../../cases/TUT3_E2.case");
const SHARE: &[u8] = include_bytes!("../../../cases/TUT3_SHARE.share");
const SHEET: &[u8] = include_bytes!("../../../cases/TUT3_SHARE.sheet");
const SHEET_WITHOUT: &[u8] = include_bytes!("../../../cases/TUT3_E2.sheet");

/// The tutorial's generation zones.
const A: u32 = 1;
const B: u32 = 2;
const C: u32 = 3;
const D: u32 = 4;
const ZONES: u32 = D;

/// What the tutorial is answered with beside a share file.
fn judged(share: &[u8]) -> Result<usize, Refusal> {
    Solutions::of_file(TUTORIAL).with(TUTORIAL).with_share(share).judge()
}

/// Its share file with other numbers at some places, zones before load factors.
fn share_with(numbers: &[(u32, u32)]) -> Vec<u8> {
    let mut share = SHARE.to_vec();
    numbers.iter().for_each(|(place, number)| put_u32(&mut share, 4 * (*place as usize - 1), *number));
    share
}

/// The place of a plant type's load factor.
fn load(plant: u32) -> u32 {
    ZONES + plant
}

#[test]
fn the_tutorial_is_accepted_with_its_share_file() {
    let solutions = Solutions::of_file(TUTORIAL);
    let case = solutions.with(TUTORIAL).with_share(SHARE);
    let mut sheet = [7; 600];
    assert_eq!(case.write(&mut sheet), Ok(SHEET.len()));
    assert_eq!(&sheet[..SHEET.len()], SHEET);
    assert!(sheet[SHEET.len()..].iter().all(|byte| *byte == 7));
    assert_eq!(case.judge(), Ok(SHEET.len()));
    assert_eq!(case.judgement(), Answer { number: 0, system: 0, row: 0, length: SHEET.len() as u64 });
}

#[test]
fn an_exact_buffer_is_enough_and_a_shorter_one_is_left_alone() {
    let solutions = Solutions::of_file(TUTORIAL);
    let case = solutions.with(TUTORIAL).with_share(SHARE);
    let mut exact = vec![7; SHEET.len()];
    assert_eq!(case.write(&mut exact), Ok(SHEET.len()));
    assert_eq!(exact, SHEET);
    for length in [0, 1, SHEET_WITHOUT.len(), SHEET.len() - 1] {
        let mut short = vec![7; length];
        assert_eq!(case.write(&mut short), Err(Refusal::Buffer));
        assert!(short.iter().all(|byte| *byte == 7));
    }
}

#[test]
fn an_empty_share_file_is_as_none() {
    let solutions = Solutions::of_file(TUTORIAL);
    let mut sheet = [7; 600];
    assert_eq!(solutions.with(TUTORIAL).with_share(&[]).write(&mut sheet), Ok(SHEET_WITHOUT.len()));
    assert_eq!(&sheet[..SHEET_WITHOUT.len()], SHEET_WITHOUT);
    assert_eq!(solutions.with(TUTORIAL).judge(), Ok(SHEET_WITHOUT.len()));
}

#[test]
fn edition_1_does_not_look_at_it() {
    let solutions = Solutions::of_file(KILN);
    for file in [KILN.to_vec(), in_version_2(KILN)] {
        let without = solutions.with(&file).judgement();
        assert_eq!(without.number, 0);
        for share in [&[255][..], &[255; 32], &[0; 32], SHARE, &[255; 10_000]] {
            assert_eq!(solutions.with(&file).with_share(share).judgement(), without);
        }
    }
}

#[test]
fn a_wrong_length_is_refused() {
    let longer = [SHARE, &[0; 300]].concat();
    for length in (1..longer.len()).filter(|length| *length != SHARE.len()) {
        assert_eq!(judged(&longer[..length]), Err(Refusal::ShareFile), "{length}");
    }
    let mut sheet = [7; 600];
    let solutions = Solutions::of_file(TUTORIAL);
    let case = solutions.with(TUTORIAL).with_share(&SHARE[1..]);
    assert_eq!(case.answer(&mut sheet), Answer { number: 16, system: 0, row: 0, length: 0 });
    assert_eq!(sheet, [7; 600]);
}

#[test]
fn load_factors_are_judged_before_zones() {
    for plant in 1..=7 {
        assert!(judged(&share_with(&[(load(plant), 1_000)])).is_ok());
        for factor in [1_001, 1 << 31, u32::MAX] {
            assert_eq!(judged(&share_with(&[(load(plant), factor), (A, A)])), Err(Refusal::ShareFile));
        }
    }
}

#[test]
fn zones_are_judged() {
    let refused = |zone: u32, next: u32| judged(&share_with(&[(zone, next)])).unwrap_err();
    let at = |zone: u32| Refusal::ShareZone { zone: zone.into() };
    // absent, without TEC, of a zone without TEC
    assert_eq!([refused(B, ZONES + 1), refused(B, u32::MAX)], [at(B); 2]);
    assert_eq!([refused(B, C), refused(C, D)], [at(B), at(C)]);
    // of two centres the higher number is the second
    assert_eq!(refused(A, 0), at(D));
    // a circle of all, one that A leads into, and one of a zone alone
    assert_eq!([refused(D, A), refused(D, B), refused(A, A), refused(C, C)], [at(A), at(A), at(A), at(C)]);
    assert_eq!(
        refused(D, A).to_string(),
        "refused (16): share file: zone 1 names one that it may not name, is a second centre, or its chain circles"
    );
}

#[test]
fn it_is_judged_after_the_tables_and_before_the_solutions() {
    let solutions = Solutions::of_file(TUTORIAL);
    let mut base = solutions.base.clone();
    base[0] = 1;
    let case = Case { base: &base, ..solutions.with(TUTORIAL) };
    assert_eq!(case.with_share(SHARE).judge(), Err(Refusal::Number { system: System::Base, row: 1 }));
    assert_eq!(case.with_share(&SHARE[1..]).judge(), Err(Refusal::ShareFile));
    // the settings' p stands at 8: 1,001 thousandths
    let mut file = TUTORIAL.to_vec();
    put_u32(&mut file, 8, 1_001);
    assert_eq!(solutions.with(&file).with_share(&SHARE[1..]).judge(), Err(Refusal::Setting));
}

#[test]
fn the_longest_case_needs_no_more_stack_than_is_said() {
    let file = include_bytes!("../../../cases/LONGEST_SHARE.case");
    let share = include_bytes!("../../../cases/LONGEST_SHARE.share");
    // what the thread's start and the test itself take
    let beside = 32 * 1024;
    let thread = std::thread::Builder::new().stack_size(STACK + beside).spawn(move || {
        let mut sheet = vec![0; LONGEST_SHEET];
        let written = Solutions::of_file(file).with(file).with_share(share).write(&mut sheet);
        written.map(|length| sheet[..length] == include_bytes!("../../../cases/LONGEST_SHARE.sheet")[..])
    });
    assert_eq!(thread.unwrap().join().unwrap(), Ok(true));
}
