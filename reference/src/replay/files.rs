//! Whole files, and files that aren't: 01 "What stops a case", 1.

use super::bases::{circuit, kiln, named_case, node, station, zeros, TEXTS};
use super::{frames, List, Told, LONGEST, ONE};
use crate::file::{Case, Trailer, Version, SECTIONS, TRAILER};
use crate::{largest, text};

/// Texts, lengths, trailers, chains, counts, the settings' zero.
pub fn add(list: &mut List) {
    for (name, text) in TEXTS {
        list.file(name, text::make(text.as_bytes()).expect("a text without faults"), Told::Sheet);
    }
    add_largest(list);
    add_lengths(list);
    add_trailer_fields(list);
    add_wrapped_counts(list);
    add_chains(list);
    add_counts(list);
    add_zeros(list);
}

/// LARGEST alone and with bytes behind it: a buffer filled and no more read would take it for whole.
fn add_largest(list: &mut List) {
    let largest = largest::largest().bytes();
    list.file("LARGEST", largest.clone(), Told::Sheet);
    list.file("LARGEST and one byte", [&largest[..], &[0]].concat(), ONE);
    let mut filled = largest.clone();
    filled.resize(LONGEST, 0);
    list.file("LARGEST and zeros to 65,536 bytes", filled.clone(), ONE);
    // A trailer again at the very end, that tells this length.
    let trailer = Trailer { length: LONGEST as u32, ..Trailer::read(&largest).expect("a whole file") };
    filled.splice(LONGEST - TRAILER.., trailer.bytes());
    list.file("LARGEST and zeros to 65,536 bytes with a trailer of that length", filled, ONE);
}

/// Every beginning of KILN, and KILN with more.
fn add_lengths(list: &mut List) {
    let file = kiln().bytes();
    for length in 0..file.len() {
        list.file(format!("KILN cut to {length} bytes"), file[..length].to_vec(), ONE);
    }
    list.file("KILN without its first byte", file[1..].to_vec(), ONE);
    list.file("KILN's trailer alone", file[file.len() - TRAILER..].to_vec(), ONE);
    list.file("KILN and a zero", [&file[..], &[0]].concat(), ONE);
    list.file("KILN and a line feed", [&file[..], b"\n"].concat(), ONE);
    list.file("KILN twice", [&file[..], &file[..]].concat(), ONE);
    list.file("64 zeros", vec![0; 64], ONE);
    list.file("128 zeros", vec![0; 128], ONE);
}

/// KILN with another trailer.
fn with_trailer(change: impl Fn(&mut Trailer)) -> Vec<u8> {
    frames::with_trailer(&kiln(), change)
}

/// Each of the 16 fields of KILN's trailer one lower and one higher.
fn add_trailer_fields(list: &mut List) {
    for (section, name) in SECTIONS.into_iter().enumerate() {
        for (by, way) in [(u32::MAX, "lower"), (1, "higher")] {
            let add = |field: &mut u32| *field = field.wrapping_add(by);
            list.file(format!("offset of {name} one {way}"), with_trailer(|t| add(&mut t.offsets[section])), ONE);
            list.file(format!("count of {name} one {way}"), with_trailer(|t| add(&mut t.counts[section])), ONE);
        }
    }
    for (by, way) in [(u32::MAX, "lower"), (1, "higher")] {
        list.file(format!("version one {way}"), with_trailer(|t| t.version = t.version.wrapping_add(by)), ONE);
        list.file(format!("length one {way}"), with_trailer(|t| t.length = t.length.wrapping_add(by)), ONE);
    }
}

/// Counts so great that in 32 bits their sections end where they should, and the greatest numbers everywhere.
fn add_wrapped_counts(list: &mut List) {
    for (section, (name, size)) in SECTIONS.into_iter().zip(Version::One.sizes()).enumerate() {
        let more = 1 << (32 - size.trailing_zeros());
        list.file(format!("count of {name} {more} higher"), with_trailer(|t| t.counts[section] += more), ONE);
        list.file(format!("count of {name} greatest"), with_trailer(|t| t.counts[section] = u32::MAX), ONE);
        let more = 1 << 31;
        list.file(format!("offset of {name} {more} higher"), with_trailer(|t| t.offsets[section] += more), ONE);
    }
    list.file("version greatest", with_trailer(|t| t.version = u32::MAX), ONE);
    list.file("length greatest", with_trailer(|t| t.length = u32::MAX), ONE);
    list.file("length 65,536 higher", with_trailer(|t| t.length += 65_536), ONE);
    list.file("trailer of zeros", with_trailer(|t| *t = Trailer::read(&[0; TRAILER]).expect("64 bytes")), ONE);
}

/// KILN with bytes put before a section (7: before the trailer), the offsets and the length told as they are.
fn with_gap(before: usize, bytes: u32) -> Vec<u8> {
    frames::with_gap(&kiln(), before, bytes)
}

/// Sections that don't follow one another exactly, though every offset is true.
fn add_chains(list: &mut List) {
    for (section, name) in SECTIONS.into_iter().enumerate() {
        list.file(format!("one byte before {name}, told"), with_gap(section, 1), ONE);
        list.file(format!("64 bytes before {name}, told"), with_gap(section, 64), ONE);
    }
    list.file("one byte before the trailer, told", with_gap(7, 1), ONE);
    list.file("64 bytes before the trailer, told", with_gap(7, 64), ONE);
    let case = kiln();
    let (bytes, mut trailer) = (case.section_bytes(), case.trailer());
    let [nodes, circuits, stations] = [1, 2, 3].map(|section| trailer.offsets[section] as usize);
    let turned = [&bytes[..nodes], &bytes[circuits..stations], &bytes[nodes..circuits], &bytes[stations..]].concat();
    (trailer.offsets[1], trailer.offsets[2]) = (nodes as u32 + 3 * 44, nodes as u32);
    list.file("circuits before nodes, told", [turned, trailer.bytes()].concat(), ONE);
    // 01 "The case file": a section without records has its place too.
    let alone = named_case("ALONE");
    for offset in [0, 87, 89] {
        let mut trailer = alone.trailer();
        trailer.offsets[2] = offset;
        let file = [alone.section_bytes(), trailer.bytes()].concat();
        list.file(format!("ALONE with its empty circuits at {offset}"), file, ONE);
    }
}

/// Tables of no nodes or one row too many (LARGEST has the greatest counts), solutions of other lengths, settings of
/// other counts, all with a chain that fits.
fn add_counts(list: &mut List) {
    let one = (1, 0, 0);
    let kiln = kiln();
    list.refused("no nodes", &kiln, |case| *case = of_counts(0, 0, 0), one);
    list.refused("no nodes, 3 circuits, 2 stations", &kiln, |case| *case = of_counts(0, 3, 2), one);
    list.refused("257 nodes", &kiln, |case| *case = of_counts(257, 0, 0), one);
    list.refused("513 circuits", &kiln, |case| *case = of_counts(2, 513, 0), one);
    list.refused("513 stations", &kiln, |case| *case = of_counts(1, 0, 513), one);
    for (system, name) in ["base", "wider", "local"].into_iter().enumerate() {
        list.refused(format!("{name} one row longer"), &kiln, |case| case.runs[system].push(0), one);
        list.refused(format!("{name} one row shorter"), &kiln, |case| case.runs[system].truncate(5), one);
        list.refused(format!("{name} empty"), &kiln, |case| case.runs[system].clear(), one);
    }
    list.refused(
        "solutions one row longer",
        &kiln,
        |case| case.own_runs_mut().iter_mut().for_each(|run| run.push(0)),
        one,
    );
    let lent = |case: &mut Case| (case.runs[0].push(0), case.runs[1].truncate(5)).0;
    list.refused("base one row longer, wider one row shorter", &kiln, lent, one);
    list.file("settings twice", frames::with_settings(&kiln, 2), ONE);
    list.file("no settings", frames::with_settings(&kiln, 0), ONE);
}

/// A case of so many rows, lawful each by itself, without demand or TEC and with solutions of zeros.
pub(super) fn of_counts(nodes: usize, circuits: usize, stations: usize) -> Case {
    let mut case = Case { settings: named_case("ALONE").settings, ..Case::default() };
    case.nodes = (0..nodes).map(|number| node(&format!("N{number}"), 0)).collect();
    case.circuits = (0..circuits).map(|_| circuit("N0", "N1", 1, 0)).collect();
    case.stations = (0..stations).map(|number| station(&format!("S{number}"), "N0", 0)).collect();
    case.runs = zeros(&case);
    case
}

/// The settings' zero, also before 2 and 3.
fn add_zeros(list: &mut List) {
    let one = (1, 0, 0);
    for zero in [1, 1 << 8, 1 << 31, u32::MAX] {
        list.refused(format!("the settings' zero {zero}"), &kiln(), |case| case.settings.zero = zero, one);
    }
    list.refused("1 before 2", &kiln(), |case| (case.settings.zero, case.settings.p) = (1, 1_001), one);
    list.refused("1 before 3", &kiln(), |case| (case.settings.zero, case.nodes[0].demand) = (1, u32::MAX), one);
}
