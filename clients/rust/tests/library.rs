//! Calls of the real library; those of edition 2 stand in `editions.rs`, those with a share file in `shares.rs`.

mod files;

use files::{in_version_2, put_u32, KILN};
use wirepulley::{Answer, Case, Refusal, Solutions, System, LONGEST_SHEET, STACK};

const SHEET: &[u8] = include_bytes!("../../../cases/KILN.sheet");

#[test]
fn kiln_is_accepted() {
    let solutions = Solutions::of_file(KILN);
    let mut sheet = [7; 200];
    assert_eq!(solutions.with(KILN).write(&mut sheet), Ok(SHEET.len()));
    assert_eq!(&sheet[..SHEET.len()], SHEET);
    assert!(sheet[SHEET.len()..].iter().all(|byte| *byte == 7));
    assert_eq!(solutions.with(KILN).answer(&mut sheet), Answer { number: 0, system: 0, row: 0, length: 117 });
}

#[test]
fn kiln_is_judged_without_a_buffer() {
    let solutions = Solutions::of_file(KILN);
    assert_eq!(solutions.with(KILN).judge(), Ok(SHEET.len()));
    assert_eq!(solutions.with(KILN).judgement(), Answer { number: 0, system: 0, row: 0, length: 117 });
}

#[test]
fn an_exact_buffer_is_enough_and_one_byte_less_is_left_alone() {
    let solutions = Solutions::of_file(KILN);
    let case = solutions.with(KILN);
    let needed = case.judge().unwrap();
    let mut exact = vec![7; needed];
    assert_eq!(case.write(&mut exact), Ok(needed));
    assert_eq!(exact, SHEET);
    for length in [0, 1, needed - 1] {
        let mut short = vec![7; length];
        assert_eq!(case.write(&mut short), Err(Refusal::Buffer));
        assert!(short.iter().all(|byte| *byte == 7));
    }
}

#[test]
fn the_longest_case_needs_no_more_stack_than_is_said() {
    let file = include_bytes!("../../../cases/LONGEST.case");
    // what the thread's start and the test itself take
    let beside = 32 * 1024;
    let thread = std::thread::Builder::new().stack_size(STACK + beside).spawn(move || {
        let mut sheet = vec![0; LONGEST_SHEET];
        let written = Solutions::of_file(file).with(file).write(&mut sheet);
        written.map(|length| sheet[..length] == include_bytes!("../../../cases/LONGEST.sheet")[..])
    });
    assert_eq!(thread.unwrap().join().unwrap(), Ok(true));
}

#[test]
fn garbage_is_no_file() {
    for garbage in [&b""[..], b"no case", &[0; 64], &[255; 1_000], &KILN[1..], &KILN[..KILN.len() - 1]] {
        let mut sheet = [7; 200];
        assert_eq!(Solutions::of_file(garbage).with(garbage).write(&mut sheet), Err(Refusal::File));
        assert_eq!(sheet, [7; 200]);
    }
}

#[test]
fn the_lent_runs_are_judged() {
    let solutions = Solutions::of_file(KILN);
    let case = solutions.with(KILN);
    assert_eq!(Case { local: &[], ..case }.judge(), Err(Refusal::File));
    assert_eq!(Case { base: &solutions.wider, ..case }.judge(), Err(Refusal::Balance { system: System::Base, row: 1 }));
    let mut wider = solutions.wider.clone();
    wider[5] = i64::MIN;
    let refusal = Case { wider: &wider, ..case }.judge().unwrap_err();
    assert_eq!(refusal, Refusal::Number { system: System::Wider, row: 6 });
    assert_eq!(
        refusal.to_string(),
        "refused (8): wider solution, number 6: out of range, or the reference's potential is not 0"
    );
}

#[test]
fn empty_slices_are_judged() {
    let solutions = Solutions::of_file(KILN);
    let case = solutions.with(KILN);
    let nothing = Case { file: &[], base: &[], wider: &[], local: &[], peak_base: &[], peak_wider: &[], share: &[] };
    let lacking = [
        Case { file: &[], ..case },
        Case { base: &[], ..case },
        Case { wider: &[], ..case },
        Case { local: &[], ..case },
        Case { file: KILN, ..nothing },
        nothing,
    ];
    for case in lacking {
        let mut sheet = [7; 200];
        assert_eq!(case.judge(), Err(Refusal::File));
        assert_eq!(case.write(&mut sheet), Err(Refusal::File));
        assert_eq!(case.write(&mut []), Err(Refusal::File));
        assert_eq!(sheet, [7; 200]);
    }
    assert_eq!(case.write(&mut []), Err(Refusal::Buffer));
    let unbalanced = Case { base: &solutions.wider, ..case };
    assert_eq!(unbalanced.write(&mut []), Err(Refusal::Balance { system: System::Base, row: 1 }));
}

/// KILN with other plant types for the stations at NODA and NODB, which are both of type 7.
fn kiln_of_types(types: [u8; 2]) -> Vec<u8> {
    let mut file = KILN.to_vec();
    // station rows of 32 bytes stand from 268 on; a row has its plant type at 24
    file[268 + 24] = types[0];
    file[268 + 32 + 24] = types[1];
    file
}

#[test]
fn interconnectors_alone_are_refused() {
    let file = kiln_of_types([3, 3]);
    let solutions = Solutions::of_file(&file);
    let case = solutions.with(&file);
    let mut sheet = [7; 200];
    assert_eq!(case.judge(), Err(Refusal::ChargeableTec));
    assert_eq!(case.write(&mut sheet), Err(Refusal::ChargeableTec));
    assert_eq!(case.write(&mut []), Err(Refusal::ChargeableTec));
    assert_eq!(case.answer(&mut sheet), Answer { number: 13, system: 0, row: 0, length: 0 });
    assert_eq!(sheet, [7; 200]);
    assert_eq!(
        case.judge().unwrap_err().to_string(),
        "refused (13): no TEC is chargeable: all of it is of interconnectors (plant type 3)"
    );
}

#[test]
fn chargeable_tec_is_judged_after_totals_and_before_numbers() {
    let mut file = kiln_of_types([3, 3]);
    let solutions = Solutions::of_file(&file);
    let mut base = solutions.base.clone();
    base[0] = i64::MIN;
    let number = Refusal::Number { system: System::Base, row: 1 };
    assert_eq!(Case { base: &base, ..solutions.with(KILN) }.judge(), Err(number));
    assert_eq!(Case { base: &base, ..solutions.with(&file) }.judge(), Err(Refusal::ChargeableTec));
    // no TEC at NODA: what is left is below demand
    file[268 + 28..268 + 32].fill(0);
    assert_eq!(Case { base: &base, ..solutions.with(&file) }.judge(), Err(Refusal::Total));
}

#[test]
fn an_interconnector_does_not_pay() {
    // C, generation's income and its residual go by NODA's 200,000 kW and not by all 300,000 as in KILN
    let expected = "C -17990\nG 1 28333 10343 186174 63826 250000\nD 1 -4200 13790 248220 85113 333333\n\
                    L NODA 0 0\nL NODB 0 0\nR 0 50000\n";
    let file = kiln_of_types([7, 3]);
    let solutions = Solutions::of_file(&file);
    let mut sheet = [7; 200];
    assert_eq!(solutions.with(&file).judge(), Ok(113));
    assert_eq!(solutions.with(&file).write(&mut sheet), Ok(113));
    assert_eq!(&sheet[..113], expected.as_bytes());
    assert_eq!(sheet[113..], [7; 200 - 113]);
}

const SUBSEA: &[u8] = include_bytes!("../../../cases/SUBSEA.case");

#[test]
fn a_case_of_version_2_is_accepted() {
    let expected = include_bytes!("../../../cases/SUBSEA.sheet");
    let solutions = Solutions::of_file(SUBSEA);
    assert_eq!(solutions.base.len(), 4 + 4);
    assert_eq!(solutions.wider[..4], [396_300_000_000_000, 186_300_000_000_000, 110_700_000_000_000, 0]);
    let mut sheet = [7; 400];
    assert_eq!(solutions.with(SUBSEA).judge(), Ok(expected.len()));
    assert_eq!(solutions.with(SUBSEA).write(&mut sheet), Ok(expected.len()));
    assert_eq!(&sheet[..expected.len()], expected);
    assert!(sheet[expected.len()..].iter().all(|byte| *byte == 7));
}

/// SUBSEA with another factor for a circuit: rows of 48 bytes stand from 160 on; a row has its factor at 44.
fn subsea_with(factors: &[(usize, u32)]) -> Vec<u8> {
    let mut file = SUBSEA.to_vec();
    for (row, factor) in factors {
        put_u32(&mut file, 160 + 48 * (row - 1) + 44, *factor);
    }
    file
}

#[test]
fn factors_are_judged() {
    let solutions = Solutions::of_file(SUBSEA);
    let judged = |factors: &[(usize, u32)]| solutions.with(&subsea_with(factors)).judge();
    for (row, factor) in [(1, 0), (2, 0), (3, 1), (4, 999), (1, 30_001), (4, u32::MAX)] {
        assert_eq!(judged(&[(row, factor)]), Err(Refusal::Circuit { row: row as u64 }));
    }
    assert_eq!(judged(&[(4, 1), (2, 0)]), Err(Refusal::Circuit { row: 2 }));
    // another length than the solutions are of: circuit 3 is marked, circuit 4 is not
    assert_eq!(judged(&[(3, 1_801)]), Err(Refusal::Misses { system: System::Local }));
    assert_eq!(judged(&[(4, 1_000)]), Err(Refusal::Misses { system: System::Wider }));
}

#[test]
fn other_versions_are_refused() {
    for version in [0, 1, 3, 255] {
        let mut file = SUBSEA.to_vec();
        let place = file.len() - 8;
        file[place] = version;
        assert_eq!(Solutions::of_file(&file).with(&file).judge(), Err(Refusal::File));
    }
}

#[test]
fn one_case_in_either_version_has_one_sheet() {
    let file = in_version_2(KILN);
    let solutions = Solutions::of_file(&file);
    assert_eq!(solutions, Solutions::of_file(KILN));
    let mut sheet = [7; 200];
    assert_eq!(solutions.with(&file).write(&mut sheet), Ok(SHEET.len()));
    assert_eq!(&sheet[..SHEET.len()], SHEET);
}

/// A file of this many zeros, and then a trailer of so many entries that each say: offset, count.
fn claiming(zeros: usize, entries: usize, offset: u32, count: u32) -> Vec<u8> {
    let entry = [offset.to_le_bytes(), count.to_le_bytes()].concat();
    [vec![0; zeros], entry.repeat(entries)].concat()
}

/// The solutions that are taken out of a file which claims this are as long as it can hold them, those of peak in edition 2 alone.
fn takes_what_stands(file: &[u8], edition: u32, offset: u32, count: u32) {
    // a whole file has at least 128 bytes, and no solution more than 256 nodes and 512 circuits
    let stands = file.len() >= 128 && u64::from(offset) + 8 * u64::from(count) <= file.len() as u64 && count <= 768;
    let taken = if stands { count as usize } else { 0 };
    let of_peak = if edition == 2 { taken } else { 0 };
    let Solutions { base, wider, local, peak_base, peak_wider } = Solutions::of_file(file);
    let lengths = [base, wider, local, peak_base, peak_wider].map(|solution| solution.len());
    assert_eq!(lengths, [taken, taken, taken, of_peak, of_peak], "{} {edition} {offset} {count}", file.len());
    assert_eq!(Solutions::of_file(file).with(file).judge(), Err(Refusal::File));
}

#[test]
fn a_trailer_may_claim_anything() {
    let ends = [0, 1, 7, 8, 63, 64, 767, 768, 769, 1 << 29, 1 << 31, u32::MAX - 1, u32::MAX];
    for (offset, count) in ends.iter().flat_map(|offset| ends.map(|count| (*offset, count))) {
        for zeros in [0, 1, 8, 63, 64, 6_144, 6_152] {
            takes_what_stands(&claiming(zeros, 8, offset, count), 0, offset, count);
        }
        for (zeros, edition) in
            [64, 6_144, 6_152].iter().flat_map(|zeros| [0, 1, 2, 3].map(|edition| (*zeros, edition)))
        {
            let mut file = claiming(zeros, 10, offset, count);
            put_u32(&mut file, 52, edition);
            takes_what_stands(&file, edition, offset, count);
        }
    }
    for length in 0..=130 {
        assert_eq!(Solutions::of_file(&vec![255; length]), Solutions::default());
    }
}

/// Names every reason that there is and has an arm for those to come. Were `Refusal` exhaustive, that arm would be unreachable.
#[deny(unreachable_patterns)]
fn sort_of(refusal: Refusal) -> &'static str {
    match refusal {
        Refusal::File | Refusal::Setting | Refusal::Total | Refusal::Buffer | Refusal::ChargeableTec => "known",
        Refusal::Node { .. } | Refusal::Circuit { .. } | Refusal::Station { .. } | Refusal::Unreached { .. } => "known",
        Refusal::Number { .. } | Refusal::Balance { .. } | Refusal::Misses { .. } | Refusal::Direction { .. } => {
            "known"
        }
        Refusal::Unscalable | Refusal::BackgroundInDoubt { .. } => "known",
        Refusal::ShareFile | Refusal::ShareZone { .. } => "known",
        Refusal::Unknown { .. } => "unknown",
        _ => "to come",
    }
}

#[test]
fn a_match_has_an_arm_for_reasons_to_come() {
    assert_eq!(sort_of(Refusal::File), "known");
    assert_eq!(sort_of(Refusal::Unknown { number: 17, system: 0, row: 0 }), "unknown");
}
