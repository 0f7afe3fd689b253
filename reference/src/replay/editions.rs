//! 02, CR 5, "Peak and year round": files of edition 2, whole and damaged, and 1; what the tables are refused for, as in
//! edition 1; cases by chance.

use super::bases::{all_kinds, in_version_2, kiln, kiln_2, kiln_marked, kiln_zoned, name, named_case, EDITION_TEXTS};
use super::edition_2::{as_edition_2, kiln_twin, small, twin, SYSTEMS};
use super::files::of_counts;
use super::frames::{with_gap, with_settings, with_trailer};
use super::scaling::{FOURTEEN, THIRTEEN};
use super::versions::many;
use super::{changed, solved, List, Told, ONE};
use crate::file::{Case, Edition, Name, StationRow, Trailer, Version, SECTIONS_EDITION_2, TRAILER, ZERO_AT};
use crate::random::{random_of_edition_2, spoiled};
use crate::tables::INTERCONNECTOR;
use crate::{largest, text};

/// Texts, twins, edition numbers, versions, counts, trailers, chains, lengths; settings and tables; cases by chance.
pub fn add(list: &mut List) {
    for (name, text) in EDITION_TEXTS {
        list.file(name, text::make(text.as_bytes()).expect("a text without faults"), Told::Sheet);
    }
    add_twins(list);
    add_types_alone(list);
    add_edition_numbers(list);
    add_versions(list);
    add_counts(list);
    add_other_trailers(list);
    add_trailer_fields(list);
    add_chains(list);
    add_solutions(list);
    add_cuts(list);
    add_shortest(list);
    add_settings(list);
    add_tables(list);
    add_reach(list);
    add_totals(list);
    add_chance(list);
}

/// Cases of type 7 in version 2 beside themselves in edition 2: edition 1's figures are peak's, and year round has none.
fn add_twins(list: &mut List) {
    list.accepted("KILN in edition 2", &kiln_twin(), |_| ());
    for (name, case) in [
        ("KILN with zones", kiln_zoned()),
        ("KILN with A-C marked", kiln_marked()),
        ("all kinds of lengths", all_kinds()),
        ("TUT1_P150", named_case("TUT1_P150")),
    ] {
        list.accepted(format!("{name}, version 2"), &in_version_2(&case), |_| ());
        list.accepted(format!("{name}, edition 2"), &twin(&case), |_| ());
    }
    for name in ["ALONE", "TUT1", "CUSC1421"] {
        list.accepted(format!("{name} in edition 2"), &twin(&named_case(name)), |_| ());
    }
}

/// KILN of each type alone but 7, which the twins have, in both editions. In edition 2 types 1, 3 and 6 don't run in one of
/// the backgrounds, 85% of type 2 are above demand, and 50% of type 5 are demand.
fn add_types_alone(list: &mut List) {
    for (plant, edition_1, edition_2) in [
        (1, Told::Sheet, FOURTEEN),
        (2, Told::Sheet, FOURTEEN),
        (3, THIRTEEN, THIRTEEN),
        (4, Told::Sheet, Told::Sheet),
        (5, Told::Sheet, Told::Sheet),
        (6, Told::Sheet, FOURTEEN),
    ] {
        let alone = |case: &mut Case| case.stations.iter_mut().for_each(|row| row.plant = plant);
        let label = |of: &str| format!("KILN of type {plant} alone, {of}");
        list.file(label("version 2"), changed(&kiln_2(), alone).bytes(), edition_1);
        list.file(label("edition 2"), changed(&kiln_twin(), alone).bytes(), edition_2);
    }
}

/// Numbers of editions other than 0 and 2 over nine sections, over seven and over rows of version 1; 0 over nine sections
/// and 2 over seven. The low byte alone would mislead.
fn add_edition_numbers(list: &mut List) {
    for zero in [0, 1, 3, 4, 255, 256, 258, 512, 2 << 16, 2 << 24, (1 << 31) + 2, u32::MAX] {
        let set = |case: &mut Case| case.settings.zero = zero;
        list.refused(format!("nine sections, edition number {zero}"), &small(), set, (1, 0, 0));
    }
    for zero in [1, 2, 3, 255, 258, u32::MAX] {
        let set = |case: &mut Case| case.settings.zero = zero;
        list.refused(format!("seven sections, version 2, edition number {zero}"), &kiln_2(), set, (1, 0, 0));
    }
    for zero in [2, 3] {
        let set = |case: &mut Case| case.settings.zero = zero;
        list.refused(format!("seven sections, version 1, edition number {zero}"), &kiln(), set, (1, 0, 0));
    }
    let before = |zero: u32| move |case: &mut Case| (case.settings.zero, case.settings.p) = (zero, 1_001);
    list.refused("edition number 1 before 2", &small(), before(1), (1, 0, 0));
    list.refused("edition number 3 before 2", &small(), before(3), (1, 0, 0));
    list.refused("edition number 2 before 2, seven sections", &kiln_2(), before(2), (1, 0, 0));
}

/// "in version 2 files": edition 2 under other versions, with rows of 48 bytes, of 44 and with none.
fn add_versions(list: &mut List) {
    let rows_of_44 = |case: &Case| Case { version: Version::One, ..case.clone() };
    for (name, case) in [("KILN", kiln_twin()), ("two nodes", small()), ("ALONE", twin(&named_case("ALONE")))] {
        let told = |version: u32| with_trailer(&case, |trailer| trailer.version = version);
        list.file(format!("{name} in edition 2, version 1 told"), told(1), ONE);
        list.file(format!("{name} in edition 2, version 0 told"), told(0), ONE);
        list.file(format!("{name} in edition 2, version 3 told"), told(3), ONE);
        list.file(format!("{name} in edition 2, version 258 told"), told(258), ONE);
        if !case.circuits.is_empty() {
            let old = rows_of_44(&case);
            list.file(format!("{name} in edition 2, rows of 44 bytes, version 1"), old.bytes(), ONE);
            let as_2 = with_trailer(&old, |trailer| trailer.version = 2);
            list.file(format!("{name} in edition 2, rows of 44 bytes, version 2 told"), as_2, ONE);
        }
    }
}

/// "at most 320 circuits", which LARGEST has; one less and one more; no nodes, settings of other counts.
fn add_counts(list: &mut List) {
    let of = |circuits: u32| solved(&as_edition_2(&many(circuits, Version::Two)));
    list.accepted("edition 2 with 319 circuits", &of(319), |_| ());
    list.refused("edition 2 with 321 circuits", &of(321), |_| (), (1, 0, 0));
    for stations in [0, 2] {
        let case = as_edition_2(&of_counts(0, 0, stations));
        list.refused(format!("edition 2 with no nodes and {stations} stations"), &case, |_| (), (1, 0, 0));
    }
    for (count, times) in [(0, "no settings"), (2, "settings twice")] {
        list.file(format!("edition 2 with {times}"), with_settings(&small(), count), ONE);
    }
    let largest = largest::largest_of_edition_2();
    list.accepted("LARGEST of edition 2", &largest, |_| ());
    list.file("LARGEST of edition 2 and one byte", [&largest.bytes()[..], &[0]].concat(), ONE);
}

/// Trailers of 64 bytes under edition 2, of 80 under edition 1, of 96, and two sections without records.
fn add_other_trailers(list: &mut List) {
    let of = |case: &Case, sections: usize, last: &[(u32, u32)]| {
        let mut trailer = case.trailer();
        trailer.offsets.truncate(sections);
        trailer.counts.truncate(sections);
        trailer.offsets.extend(last.iter().map(|(offset, _)| *offset));
        trailer.counts.extend(last.iter().map(|(_, count)| *count));
        let sections = case.section_bytes();
        trailer.length = (sections.len() + 8 * trailer.offsets.len() + 8) as u32;
        [sections, trailer.bytes()].concat()
    };
    for (name, case) in [("KILN", kiln_twin()), ("two nodes", small()), ("ALONE", twin(&named_case("ALONE")))] {
        list.file(format!("{name} in edition 2, a trailer of 64 bytes"), of(&case, 7, &[]), ONE);
        list.file(format!("{name} in edition 2, a trailer of 72 bytes"), of(&case, 8, &[]), ONE);
        let end = case.section_bytes().len() as u32;
        list.file(format!("{name} in edition 2, a trailer of 96 bytes"), of(&case, 9, &[(end, 0), (end, 0)]), ONE);
    }
    let old = kiln_2();
    let end = old.section_bytes().len() as u32;
    let rows = old.rows() as u32;
    for (zero, edition) in [(0, "edition 1"), (2, "edition 2")] {
        let case = changed(&old, |case| case.settings.zero = zero);
        let two_more = of(&case, 7, &[(end, 0), (end, 0)]);
        list.file(format!("KILN_2, {edition} named, a trailer of 80 bytes, two sections empty"), two_more, ONE);
        let same = of(&case, 7, &[(case.trailer().offsets[4], rows), (case.trailer().offsets[5], rows)]);
        list.file(format!("KILN_2, {edition} named, a trailer of 80 bytes, two sections again"), same, ONE);
    }
    list.file("KILN_2 with 16 bytes before its trailer, told", with_gap(&old, 7, 16), ONE);
}

/// Each of the 20 fields of the trailer one lower and one higher, counts that wrap in 32 bits.
fn add_trailer_fields(list: &mut List) {
    let base = small();
    for (section, (name, size)) in SECTIONS_EDITION_2.into_iter().zip(Edition::Two.sizes(Version::Two)).enumerate() {
        for (by, way) in [(u32::MAX, "lower"), (1, "higher")] {
            let add = |field: &mut u32| *field = field.wrapping_add(by);
            let offset = with_trailer(&base, |trailer| add(&mut trailer.offsets[section]));
            list.file(format!("edition 2: offset of {name} one {way}"), offset, ONE);
            let count = with_trailer(&base, |trailer| add(&mut trailer.counts[section]));
            list.file(format!("edition 2: count of {name} one {way}"), count, ONE);
        }
        let more = 1 << (32 - size.trailing_zeros());
        let wrapped = with_trailer(&base, |trailer| trailer.counts[section] += more);
        list.file(format!("edition 2: count of {name} {more} higher"), wrapped, ONE);
    }
    for (by, way) in [(u32::MAX, "one lower"), (1, "one higher"), (u32::MAX - 15, "16 lower"), (16, "16 higher")] {
        let length = with_trailer(&base, |trailer| trailer.length = trailer.length.wrapping_add(by));
        list.file(format!("edition 2: length {way}"), length, ONE);
    }
}

/// Sections with bytes between them, though every offset is true: also as many as the trailers differ by. Peak's solutions
/// before year round's.
fn add_chains(list: &mut List) {
    let base = small();
    for (before, name) in SECTIONS_EDITION_2.into_iter().chain(["the trailer"]).enumerate() {
        for bytes in [1, 16] {
            let file = with_gap(&base, before, bytes);
            list.file(format!("edition 2: {bytes} bytes before {name}, told"), file, ONE);
        }
    }
    let exchanged = |first: usize, second: usize| move |trailer: &mut Trailer| trailer.offsets.swap(first, second);
    for (first, second) in [(4, 7), (5, 8), (7, 8)] {
        let names = [first, second].map(|section| SECTIONS_EDITION_2[section]);
        let file = with_trailer(&base, exchanged(first, second));
        list.file(format!("edition 2: the places of {} and {} exchanged", names[0], names[1]), file, ONE);
    }
    let file = base.bytes();
    list.file("a file of edition 2 and a zero", [&file[..], &[0]].concat(), ONE);
    list.file("a file of edition 2 twice", [&file[..], &file[..]].concat(), ONE);
    list.file("a file of edition 2 without its first byte", file[1..].to_vec(), ONE);
    list.file("KILN_2 and a file of edition 2", [kiln_2().bytes(), file].concat(), ONE);
}

/// Solutions of other lengths, with a chain that fits.
fn add_solutions(list: &mut List) {
    let base = small();
    let one = (1, 0, 0);
    for (run, _, system) in SYSTEMS {
        list.refused(format!("edition 2: {system} one row longer"), &base, |case| case.runs[run].push(0), one);
        list.refused(format!("edition 2: {system} one row shorter"), &base, |case| case.runs[run].truncate(2), one);
        list.refused(format!("edition 2: {system} empty"), &base, |case| case.runs[run].clear(), one);
    }
    for (longer, shorter) in [(3, 4), (4, 3), (0, 3), (4, 1), (2, 4)] {
        let names = [longer, shorter].map(|run: usize| SYSTEMS[run].2);
        let label = format!("edition 2: {} one row longer, {} one row shorter", names[0], names[1]);
        list.refused(label, &base, |case| (case.runs[longer].push(0), case.runs[shorter].truncate(2)).0, one);
    }
    let all = |change: fn(&mut Vec<i64>)| move |case: &mut Case| case.runs.iter_mut().for_each(change);
    list.refused("edition 2: solutions one row longer", &base, all(|run| run.push(0)), one);
    list.refused("edition 2: solutions one row shorter", &base, all(|run| run.truncate(2)), one);
    let none = |case: &mut Case| case.runs[3..].iter_mut().for_each(Vec::clear);
    list.refused("edition 2: both solutions of peak empty", &base, none, one);
    let longer = |case: &mut Case| case.runs[3..].iter_mut().for_each(|run| run.push(0));
    list.refused("edition 2: both solutions of peak one row longer", &base, longer, one);
}

/// The beginnings of a file at every section's border and a byte to either side, and where other trailers would begin.
fn add_cuts(list: &mut List) {
    let case = small();
    let file = case.bytes();
    let sections = file.len() - Edition::Two.trailer_size();
    let offsets = case.trailer().offsets.into_iter().skip(1).map(|offset| offset as usize);
    let ends = [128, 144, file.len() - TRAILER, file.len() - 16, file.len() - 8];
    let mut lengths: Vec<usize> = offsets
        .chain([sections])
        .chain(ends)
        .flat_map(|border| border - 1..=border + 1)
        .chain([file.len() - 1])
        .collect();
    lengths.sort();
    lengths.dedup();
    for length in lengths {
        list.file(format!("edition 2, two nodes, cut to {length} bytes"), file[..length].to_vec(), ONE);
    }
}

/// Files too short for their sections, and the shortest that is whole.
fn add_shortest(list: &mut List) {
    let settings = small().settings.bytes();
    for zero in [0u32, 2] {
        for length in [127u32, 128] {
            let mut file = settings.clone();
            file[ZERO_AT..ZERO_AT + 4].copy_from_slice(&zero.to_le_bytes());
            file.resize(length as usize - 8, 0);
            file.extend([2, length].into_iter().flat_map(u32::to_le_bytes));
            list.file(format!("{length} bytes, edition number {zero}, version 2"), file, ONE);
        }
    }
    let none = as_edition_2(&of_counts(1, 0, 0));
    let file = none.bytes();
    list.file("edition 2: one node and nothing else", file.clone(), Told::Refused(7, 0, 0));
    list.file("edition 2: one node and nothing else, cut by a byte", file[..file.len() - 1].to_vec(), ONE);
    let no_zero = changed(&none, |case| case.settings.zero = 0).bytes();
    list.file("edition 2: one node and nothing else, edition number 0", no_zero, ONE);
}

/// 2 as in edition 1.
fn add_settings(list: &mut List) {
    let faults: [(&str, fn(&mut Case)); 12] = [
        ("no generation zones", |case| case.settings.generation_zones = 0),
        ("33 demand zones", |case| case.settings.demand_zones = 33),
        ("p 1,001", |case| case.settings.p = 1_001),
        ("constant 0", |case| case.settings.constant = 0),
        ("wider factor 5,001", |case| case.settings.wider_factor = 5_001),
        ("local factor 999", |case| case.settings.local_factor = 999),
        ("400 kV overhead 1,001", |case| case.settings.factors[0] = 1_001),
        ("132 kV cable 30,001", |case| case.settings.factors[5] = 30_001),
        ("reference row 0", |case| case.settings.reference = 0),
        ("reference row 4 of 3", |case| case.settings.reference = 4),
        ("revenue 10,000,000,001", |case| case.settings.revenue = 10_000_000_001),
        ("p 1,001 and the first node malformed", |case| (case.settings.p, case.nodes[0].name) = (1_001, [b'a'; 12])),
    ];
    for (what, fault) in faults {
        list.refused(format!("edition 2: {what}"), &kiln_twin(), fault, (2, 0, 0));
    }
}

/// 3, 4 and 5 as in edition 1, in first rows and last ones.
fn add_tables(list: &mut List) {
    let faults: [(&str, (u32, u32, u32), fn(&mut Case)); 22] = [
        ("node 1 in lower case", (3, 0, 1), |case| case.nodes[0].name = name("noda")),
        ("node 1 without a generation zone", (3, 0, 1), |case| case.nodes[0].generation_zone = 0),
        ("node 1 above its demand", (3, 0, 1), |case| case.nodes[0].demand = 20_000_001),
        ("node 3 with a space inside", (3, 0, 3), |case| case.nodes[2].name = name("NO DC")),
        ("node 3 in demand zone 2 of 1", (3, 0, 3), |case| case.nodes[2].demand_zone = 2),
        ("node 3 named as node 1", (3, 0, 3), |case| case.nodes[2].name = case.nodes[0].name),
        ("node 2 named as node 1, node 3 malformed", (3, 0, 2), |case| {
            (case.nodes[1].name, case.nodes[2].demand) = (case.nodes[0].name, u32::MAX)
        }),
        ("circuit 1 with x 0", (4, 0, 1), |case| case.circuits[0].x = 0),
        ("circuit 1 at 320 without a factor", (4, 0, 1), |case| case.circuits[0].voltage = 320),
        ("circuit 1 with factor 30,001", (4, 0, 1), |case| case.circuits[0].factor = 30_001),
        ("circuit 1 from an unknown node", (4, 0, 1), |case| case.circuits[0].first = name("NODX")),
        ("circuit 3 with x 10,001", (4, 0, 3), |case| case.circuits[2].x = 10_001),
        ("circuit 3 with factor 999", (4, 0, 3), |case| case.circuits[2].factor = 999),
        ("circuit 3 with equal ends", (4, 0, 3), |case| case.circuits[2].second = case.circuits[2].first),
        ("circuit 3 with mark 2", (4, 0, 3), |case| case.circuits[2].mark = 2),
        ("circuit 3 of 500,001 m cable", (4, 0, 3), |case| case.circuits[2].cable = 500_001),
        ("station 1 of type 0", (5, 0, 1), |case| case.stations[0].plant = 0),
        ("station 1 at an unknown node", (5, 0, 1), |case| case.stations[0].node = name("NODX")),
        ("station 1 above its TEC", (5, 0, 1), |case| case.stations[0].tec = 20_000_001),
        ("station 2 of type 8", (5, 0, 2), |case| case.stations[1].plant = 8),
        ("station 2 without an identifier", (5, 0, 2), |case| case.stations[1].identifier = name("")),
        ("station 2 named as station 1", (5, 0, 2), |case| case.stations[1].identifier = case.stations[0].identifier),
    ];
    for (what, answer, fault) in faults {
        list.refused(format!("edition 2: {what}"), &kiln_twin(), fault, answer);
    }
}

/// 6 as in edition 1: all circuits join the two other nodes.
fn add_reach(list: &mut List) {
    let cut_off = |cut: &'static str| {
        move |case: &mut Case| {
            case.settings.reference = 2;
            let others: Vec<Name> =
                ["NODA", "NODB", "NODC"].into_iter().filter(|other| *other != cut).map(name).collect();
            case.circuits.iter_mut().for_each(|row| (row.first, row.second) = (others[0], others[1]));
        }
    };
    list.refused("edition 2: node 1 not reached", &kiln_twin(), cut_off("NODA"), (6, 0, 1));
    list.refused("edition 2: node 3 not reached", &kiln_twin(), cut_off("NODC"), (6, 0, 3));
    list.refused("edition 2: only node 2 reached", &kiln_twin(), cut_off("NODB"), (6, 0, 1));
}

/// 7 and 13 as in edition 1.
fn add_totals(list: &mut List) {
    let most = |case: &mut Case| {
        case.stations = vec![case.stations[0].clone(); 6];
        for (turn, row) in case.stations.iter_mut().enumerate() {
            (row.identifier, row.tec) = (name(&format!("S{turn}")), [20_000_000, 1][turn / 5]);
        }
    };
    let seven: [(&str, fn(&mut Case)); 5] = [
        ("no demand", |case| case.nodes.iter_mut().for_each(|row| row.demand = 0)),
        ("no TEC", |case| case.stations.iter_mut().for_each(|row| row.tec = 0)),
        ("no stations", |case| case.stations.clear()),
        ("TEC one below demand", |case| (case.stations[0].tec, case.stations[1].tec) = (149_998, 1)),
        ("100,000,001 kW of TEC", most),
    ];
    for (what, fault) in seven {
        list.refused(format!("edition 2: {what}"), &kiln_twin(), fault, (7, 0, 0));
    }
    let links = changed(&kiln_twin(), |case| case.stations.iter_mut().for_each(|row| row.plant = INTERCONNECTOR));
    let none = |case: &mut Case| {
        let last = StationRow { identifier: name("NONE"), plant: 7, tec: 0, ..case.stations[0].clone() };
        case.stations.push(last);
    };
    list.refused("edition 2: type 3, and type 7 with 0 kW", &links, none, (13, 0, 0));
    let equal = |case: &mut Case| (case.stations[0].tec, case.stations[1].tec) = (100_000, 50_000);
    list.refused("edition 2: type 3 alone, as much as demand", &links, equal, (13, 0, 0));
}

/// Seeds of accepted cases of 60 to 110 nodes.
const MIDDLE: [u64; 3] = [31, 46, 49];

/// 80 cases of two to 14 nodes, 60 small ones spoiled, 3 of a middle size.
fn add_chance(list: &mut List) {
    for turn in 0..80 {
        let most_nodes = 2 + turn % 13;
        let mut seeds = (500 + 100 * turn..).map(|seed| (seed, random_of_edition_2(seed, most_nodes)));
        let (seed, case) = seeds.find(|(_, case)| case.nodes.len() >= 2).expect("two nodes or more");
        list.file(format!("edition 2 by chance {seed}"), case.bytes(), Told::Open);
    }
    for seed in 700..760 {
        let case = spoiled(&random_of_edition_2(seed, 5), seed);
        list.file(format!("edition 2 by chance {seed}, spoiled"), case.bytes(), Told::Open);
    }
    for seed in MIDDLE {
        let case = random_of_edition_2(seed, 120);
        list.file(format!("edition 2 by chance {seed}, {} nodes", case.nodes.len()), case.bytes(), Told::Open);
    }
}
