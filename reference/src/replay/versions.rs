//! 02, CR 3, "Subsea and HVDC circuits": files of both versions, whole and damaged, and 1.

use super::bases::{
    circuit, in_version_2, kiln, kiln_2, kiln_with_a_spur, named_case, node, pair, station, zeros, VERSION_TEXTS,
};
use super::factors::{length, NEW_VOLTAGES};
use super::frames::{with_gap, with_trailer};
use super::orders::{said, FAULTS};
use super::{changed, solved, List, Told, ONE};
use crate::file::{Case, CircuitRow, Trailer, Version, SECTIONS, TRAILER};
use crate::random::{random_of_version_2, spoiled};
use crate::tables::INTERCONNECTOR;
use crate::{largest, text};

/// Texts, faults of either version, counts, version numbers, rows of the other version, trailers, chains, cases by chance.
pub fn add(list: &mut List) {
    add_texts(list);
    add_orders_of_version_2(list);
    add_counts(list);
    add_largest(list);
    add_version_numbers(list);
    add_other_rows(list);
    add_rows_of_equal_bytes(list);
    add_trailer_fields(list);
    add_chains(list);
    add_cuts(list);
    add_bytes_behind_the_last_row(list);
    add_chance(list);
}

/// The texts of version 2, and texts of version 1 rewritten: the same sheets.
fn add_texts(list: &mut List) {
    for (name, text) in VERSION_TEXTS {
        list.file(name, text::make(text.as_bytes()).expect("a text without faults"), Told::Sheet);
    }
    for name in ["TUT1", "CUSC1421", "DALE", "ALONE", "TARN", "LINKS"] {
        list.accepted(format!("{name} in version 2"), &in_version_2(&named_case(name)), |_| ());
    }
    let subsea = named_case("SUBSEA");
    list.solved("SUBSEA with TIDE of type 3", &subsea, |case| case.stations[1].plant = INTERCONNECTOR);
    list.solved("SUBSEA by voltage where there is one", &subsea, |case| case.circuits[2].factor = 0);
    list.refused("SUBSEA without the factor at 320", &subsea, |case| case.circuits[0].factor = 0, (4, 0, 1));
    list.refused("SUBSEA without the factor at 525", &subsea, |case| case.circuits[1].factor = 0, (4, 0, 2));
    let version_1 = |case: &mut Case| {
        case.version = Version::One;
        case.circuits.iter_mut().for_each(|row| row.factor = 0);
    };
    list.refused("SUBSEA in version 1", &subsea, version_1, (4, 0, 1));
    let only_525 = |case: &mut Case| {
        version_1(case);
        case.circuits[0].voltage = 400;
    };
    list.refused("SUBSEA in version 1, 400 in place of 320", &subsea, only_525, (4, 0, 2));
}

/// The faults of `FAULTS` in version 2, each with its number as in version 1.
fn add_orders_of_version_2(list: &mut List) {
    let base = in_version_2(&kiln_with_a_spur());
    for (answer, fault) in FAULTS {
        list.refused(format!("{} in version 2", said(answer)), &base, fault, answer);
    }
    let links = |case: &mut Case| case.stations.iter_mut().for_each(|row| row.plant = INTERCONNECTOR);
    list.refused("13 in version 2", &base, links, (13, 0, 0));
}

/// So many circuits side by side, of various lengths, and in version 2 of various factors.
pub(super) fn many(circuits: u32, version: Version) -> Case {
    let row = |number: u32| CircuitRow { cable: number % 7, ..circuit("GENR", "LOAD", 1 + number % 3, number % 11) };
    let mut case = Case { version, ..pair(5_000 * circuits, (0..circuits).map(row).collect()) };
    if version == Version::Two {
        let rows = case.circuits.iter_mut().zip(0..);
        rows.filter(|(_, number)| number % 4 > 0).for_each(|(row, number)| row.factor = 1_000 + 61 * number % 29_000);
    }
    case
}

/// "Version 2 holds at most 480 circuits"; version 1 still 512.
fn add_counts(list: &mut List) {
    for count in [1, 479, 480] {
        list.solved(format!("version 2 with {count} circuits"), &many(count, Version::Two), |_| ());
    }
    for count in [480, 481, 512] {
        list.solved(format!("version 1 with {count} circuits"), &many(count, Version::One), |_| ());
    }
    for (count, version) in [(481, Version::Two), (512, Version::Two), (513, Version::Two), (513, Version::One)] {
        let case = solved(&many(count, version));
        list.refused(format!("version {} with {count} circuits", version.number()), &case, |_| (), (1, 0, 0));
    }
}

/// The largest file of version 2.
fn add_largest(list: &mut List) {
    let largest = largest::largest_of_version_2();
    list.accepted("LARGEST_2", &largest, |_| ());
    list.refused("LARGEST_2, its last factor 999", &largest, |case| case.circuits[479].factor = 999, (4, 0, 480));
}

/// Versions other than 1 and 2, over rows of both kinds and over none; the low byte alone would mislead.
fn add_version_numbers(list: &mut List) {
    let cases = [
        ("KILN", kiln(), &[3, 257, 258, 512, 1 << 24, 2 << 24][..]),
        ("KILN_2", kiln_2(), &[0, 3, 4, 257, 258, 256, 512, 2 << 24, (1 << 31) + 2, u32::MAX]),
        ("ALONE", named_case("ALONE"), &[0, 3, 257, 258, 512, u32::MAX]),
    ];
    for (name, case, versions) in cases {
        for version in versions {
            let file = with_trailer(&case, |trailer| trailer.version = *version);
            list.file(format!("{name}, version {version} told"), file, ONE);
        }
    }
}

/// Rows of one version under the other's number. KILN has 3 circuits: 12 bytes between the versions.
fn add_other_rows(list: &mut List) {
    let one_told = with_trailer(&kiln_2(), |trailer| trailer.version = 1);
    list.file("rows of 48 bytes, version 1 told", one_told, ONE);
    let by = |more: i64| {
        move |trailer: &mut Trailer| {
            trailer.offsets[3..].iter_mut().for_each(|offset| *offset = (*offset as i64 + more) as u32)
        }
    };
    let offsets_of_1 = with_trailer(&kiln_2(), |trailer| (by(-12)(trailer), trailer.version = 1).1);
    list.file("rows of 48 bytes, version 1 and its offsets told", offsets_of_1, ONE);
    let offsets_of_2 = with_trailer(&kiln(), |trailer| (by(12)(trailer), trailer.version = 2).1);
    list.file("rows of 44 bytes, version 2 and its offsets told", offsets_of_2, ONE);
    list.file("rows of 44 bytes, the offsets of version 2 told", with_trailer(&kiln(), by(12)), ONE);
    list.file("rows of 48 bytes, the offsets of version 1 told", with_trailer(&kiln_2(), by(-12)), ONE);
    // Rows of 44 bytes and as many zeros behind them as version 2 has more: whole, and the first factor is NODB's letters.
    let (mut sections, mut trailer) = (kiln().section_bytes(), kiln_2().trailer());
    let end = kiln().trailer().offsets[3] as usize;
    sections.splice(end..end, [0; 12]);
    let as_2 = [&sections[..], &trailer.bytes()].concat();
    list.file("rows of 44 bytes and 12 zeros, version 2 told", as_2, Told::Refused(4, 0, 1));
    trailer.version = 1;
    list.file("rows of 44 bytes and 12 zeros, version 1 told", [sections, trailer.bytes()].concat(), ONE);
}

/// 12 rows of 44 bytes are 11 of 48. Under the version and the count that isn't theirs a file is whole: as version 2 its
/// first factor is a name's letters, as version 1 its second row begins with a factor.
fn add_rows_of_equal_bytes(list: &mut List) {
    let of = |count: u32, version: Version| {
        let case = many(count, version);
        Case { runs: zeros(&case), ..case }
    };
    let (twelve, eleven) = (of(12, Version::One), of(11, Version::Two));
    let rows = |case: &Case| {
        let [start, end] = [2, 3].map(|section| case.trailer().offsets[section] as usize);
        case.section_bytes()[start..end].to_vec()
    };
    let exchanged = |case: &Case, rows: &[u8]| {
        let mut file = case.bytes();
        let start = case.trailer().offsets[2] as usize;
        file[start..start + rows.len()].copy_from_slice(rows);
        file
    };
    list.file("11 rows of 48 bytes, as 12 of 44", exchanged(&twelve, &rows(&eleven)), Told::Refused(4, 0, 2));
    list.file("12 rows of 44 bytes, as 11 of 48", exchanged(&eleven, &rows(&twelve)), Told::Refused(4, 0, 1));
    let two = |trailer: &mut Trailer| trailer.version = 2;
    let one = |trailer: &mut Trailer| trailer.version = 1;
    list.file("12 rows of 44 bytes, version 2 told", with_trailer(&twelve, two), ONE);
    list.file("11 rows of 48 bytes, version 1 told", with_trailer(&eleven, one), ONE);
    let two_of_11 = |trailer: &mut Trailer| (trailer.version, trailer.counts[2]) = (2, 11);
    list.file("12 rows of 44 bytes, version 2 and 11 rows told", with_trailer(&twelve, two_of_11), ONE);
    let one_of_12 = |trailer: &mut Trailer| (trailer.version, trailer.counts[2]) = (1, 12);
    list.file("11 rows of 48 bytes, version 1 and 12 rows told", with_trailer(&eleven, one_of_12), ONE);
}

/// Each field of KILN_2's trailer one lower and one higher, but for the version; counts that wrap in 32 bits.
fn add_trailer_fields(list: &mut List) {
    let base = kiln_2();
    for (section, (name, size)) in SECTIONS.into_iter().zip(Version::Two.sizes()).enumerate() {
        for (by, way) in [(u32::MAX, "lower"), (1, "higher")] {
            let add = |field: &mut u32| *field = field.wrapping_add(by);
            let offset = with_trailer(&base, |trailer| add(&mut trailer.offsets[section]));
            list.file(format!("version 2: offset of {name} one {way}"), offset, ONE);
            let count = with_trailer(&base, |trailer| add(&mut trailer.counts[section]));
            list.file(format!("version 2: count of {name} one {way}"), count, ONE);
        }
        let more = 1 << (32 - size.trailing_zeros());
        let wrapped = with_trailer(&base, |trailer| trailer.counts[section] += more);
        list.file(format!("version 2: count of {name} {more} higher"), wrapped, ONE);
    }
    for (by, way) in [(u32::MAX, "one lower"), (1, "one higher"), (u32::MAX - 11, "12 lower"), (12, "12 higher")] {
        let length = with_trailer(&base, |trailer| trailer.length = trailer.length.wrapping_add(by));
        list.file(format!("version 2: length {way}"), length, ONE);
    }
}

/// Sections of KILN_2 with bytes between them, though every offset is true: also as many as the versions differ by.
fn add_chains(list: &mut List) {
    let base = kiln_2();
    let places = SECTIONS.into_iter().chain(["the trailer"]).enumerate();
    for (before, name) in places {
        for bytes in [1, 4, 12] {
            let file = with_gap(&base, before, bytes);
            list.file(format!("version 2: {bytes} bytes before {name}, told"), file, ONE);
        }
    }
    let file = base.bytes();
    list.file("KILN_2 and a zero", [&file[..], &[0]].concat(), ONE);
    list.file("KILN_2 twice", [&file[..], &file[..]].concat(), ONE);
    list.file("KILN and KILN_2", [kiln().bytes(), file.clone()].concat(), ONE);
    list.file("KILN_2 without its first byte", file[1..].to_vec(), ONE);
}

/// Every beginning of a file of one circuit that could hold a trailer.
fn add_cuts(list: &mut List) {
    let file = length(320, 2_500, [700, 300], 0).bytes();
    for length in TRAILER..file.len() {
        list.file(format!("version 2, one circuit, cut to {length} bytes"), file[..length].to_vec(), ONE);
    }
}

/// Version 1 without stations: what stands behind the last row is the first potential. It is no factor, whatever it is.
fn add_bytes_behind_the_last_row(list: &mut List) {
    let base = changed(&kiln(), |case| case.stations.clear());
    for potential in [0, 1, 999, 1_000, 2_500, 30_000, 30_001, -1] {
        let set = |case: &mut Case| case.runs[0][0] = potential;
        list.refused(format!("version 1 without stations, the first potential {potential}"), &base, set, (7, 0, 0));
        if (1_000..=30_000).contains(&potential) {
            for voltage in NEW_VOLTAGES {
                let new = |case: &mut Case| (set(case), case.circuits[2].voltage = voltage).1;
                let label = format!("version 1 without stations, {potential} behind a row at {voltage}");
                list.refused(label, &base, new, (4, 0, 3));
            }
        }
    }
    // In version 2 the same potential stands behind a factor.
    for factor in [1_000, 2_500] {
        let set = |case: &mut Case| (case.runs[0][0], case.circuits[2].factor) = (1, factor);
        let label = format!("version 2 without stations, factor {factor}, the first potential 1");
        list.refused(label, &in_version_2(&base), set, (7, 0, 0));
    }
    let bad = |case: &mut Case| (case.runs[0][0], case.circuits[2].factor) = (1_000, 1);
    list.refused(
        "version 2 without stations, factor 1, the first potential 1000",
        &in_version_2(&base),
        bad,
        (4, 0, 3),
    );
    // With a station as well: its letters are no factor.
    let one = changed(&pair(1_000, vec![circuit("GENR", "LOAD", 1, 5)]), |case| {
        case.nodes.push(node("MORE", 0));
        case.circuits.push(circuit("LOAD", "MORE", 1, 0));
        case.stations.push(station("A", "MORE", 0));
    });
    list.solved("version 1 with a station named by one letter", &one, |case| case.stations.reverse());
}

/// 60 small cases and 40 spoiled ones, of version 2.
fn add_chance(list: &mut List) {
    for seed in 300..360 {
        list.file(format!("version 2 by chance {seed}"), random_of_version_2(seed, 12).bytes(), Told::Open);
    }
    for seed in 400..440 {
        let case = spoiled(&random_of_version_2(seed, 8), seed);
        list.file(format!("version 2 by chance {seed}, spoiled"), case.bytes(), Told::Open);
    }
}
