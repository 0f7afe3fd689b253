//! From the bytes of a file to a text, as far as they can be read.

use super::words::{shown_name, to_hex};
use super::{Damage, Described, SETTINGS, SOLUTIONS};
use crate::file::*;

/// A text whose file is exactly these bytes. What isn't whole is told by words of damage; where no case fits the
/// bytes, they stand as `bytes` lines behind what their shapes suggest, given as comments.
pub fn show(file: &[u8]) -> String {
    let found = ways(file).into_iter().flatten().find(|described| described.bytes() == file);
    match (found, whole_case(file)) {
        (Some(described), Some(_)) => shown(&described),
        (Some(described), None) => format!("# not whole: refused 1 0 0\n{}", shown(&described)),
        (None, _) => shown_by_shape(file),
    }
}

/// Ways to read a file, the likeliest first: by the sections of the edition that its settings name and by the rows of the
/// trailer's version, with a tail, by the other rows; then by the other edition's sections.
fn ways(file: &[u8]) -> Vec<Option<Described>> {
    let editions = match named_edition(file) {
        Some(Edition::Two) => [Edition::Two, Edition::One],
        Some(Edition::One) | None => [Edition::One, Edition::Two],
    };
    let of_edition = |edition: Edition| {
        let [rows, other] = match Trailer::read_in(file, edition).and_then(|trailer| Version::of(trailer.version)) {
            Some(Version::Two) => [Version::Two, Version::One],
            Some(Version::One) | None => [Version::One, Version::Two],
        };
        let by = |version| [by_counts(file, version, edition), by_offsets(file, version, edition)];
        [by(rows), by(other)].into_iter().flatten()
    };
    let mut ways: Vec<Option<Described>> = editions.into_iter().flat_map(of_edition).collect();
    ways.insert(2, with_tail(file));
    ways
}

/// The case by the trailer's counts, one section after another.
fn by_counts(file: &[u8], version: Version, edition: Edition) -> Option<Described> {
    let trailer = Trailer::read_in(file, edition)?;
    let sections = &file[..file.len() - edition.trailer_size()];
    let counts: Vec<usize> = trailer.counts.iter().map(|count| *count as usize).collect();
    Case::read(sections, version, edition, &counts).map(|case| with_damage(case, &trailer))
}

/// The case by the trailer's offsets: a section ends where the next begins.
fn by_offsets(file: &[u8], version: Version, edition: Edition) -> Option<Described> {
    let trailer = Trailer::read_in(file, edition)?;
    let end = file.len() - edition.trailer_size();
    let ends = trailer.offsets.iter().skip(1).map(|offset| *offset as usize).chain([end]);
    let sections = trailer.offsets.iter().zip(ends).zip(edition.sizes(version));
    let count = |((start, end), size): ((&u32, usize), usize)| Some(end.checked_sub(*start as usize)? / size);
    let counts = sections.map(count).collect::<Option<Vec<usize>>>()?;
    Case::read(&file[..end], version, edition, &counts).map(|case| with_damage(case, &trailer))
}

/// A whole file with further bytes behind it.
fn with_tail(file: &[u8]) -> Option<Described> {
    let ends = (SHORTEST..file.len()).filter(|end| u32_at(file, end - 4) as usize == *end);
    let case = ends.map(|end| (end, whole_case(&file[..end]))).find(|(_, case)| case.is_some());
    let (end, case) = case?;
    Some(Described { case: case?, damage: Damage { tail: file[end..].to_vec(), ..Damage::default() } })
}

/// The damage that turns a case's own trailer into the one found.
fn with_damage(case: Case, found: &Trailer) -> Described {
    let own = case.trailer();
    let other = |found: u32, own: u32| (found != own).then_some(found);
    let others = |found: &[u32], own: &[u32]| {
        std::array::from_fn(|place| found.get(place).zip(own.get(place)).and_then(|(found, own)| other(*found, *own)))
    };
    let damage = Damage {
        as_is: case.own_runs().iter().any(|run| run.len() != case.rows()),
        version: other(found.version, own.version),
        length: other(found.length, own.length),
        offsets: others(&found.offsets, &own.offsets),
        counts: others(&found.counts, &own.counts),
        ..Damage::default()
    };
    Described { case, damage }
}

/// The text of a case and its damage.
fn shown(described: &Described) -> String {
    let case = &described.case;
    let mut text = version_lines(described);
    text += &settings_lines(&case.settings, case.edition);
    text += &table_lines(case);
    text += &solution_lines(case);
    text + &damage_lines(&described.damage)
}

/// 02, CR 5: the edition where it isn't 1. 02, CR 3: the version where it isn't 1, and the bytes of a circuit row where they
/// aren't that version's.
fn version_lines(described: &Described) -> String {
    let Case { version: rows, edition, .. } = described.case;
    let number = described.damage.version.unwrap_or(rows.number());
    let version = match Version::of(number) {
        Some(version) if version != rows => format!("version {number}\ncircuit_bytes {}\n", rows.circuit_size()),
        Some(Version::One) if edition == Edition::One => String::new(),
        Some(_) | None => format!("version {number}\n"),
    };
    match edition {
        Edition::One => version,
        Edition::Two => format!("edition {}\n{version}", edition.number()),
    }
}

/// 01 "The case file", settings: one line each, `zero` only where it isn't the edition's.
fn settings_lines(settings: &Settings, edition: Edition) -> String {
    let mut settings = settings.clone();
    let mut text = String::new();
    for (word, place) in SETTINGS {
        let number = *place(&mut settings);
        if word != "zero" || number != edition.zero() {
            text += &format!("{word} {number}\n");
        }
    }
    text + &format!("revenue {}\n", settings.revenue)
}

/// 01 "The case file": one line a node, a circuit, a station. 02, CR 3: in version 2 every circuit with its factor.
fn table_lines(case: &Case) -> String {
    let mut text = "\n# name, generation zone, demand zone, demand kW\n".to_string();
    for row in &case.nodes {
        text += &format!("node {} {} {} {}\n", shown_name(&row.name), row.generation_zone, row.demand_zone, row.demand);
    }
    let two = case.version == Version::Two;
    text += &format!("\n# ends, voltage, x, overhead m, cable m, local mark{}\n", if two { ", factor" } else { "" });
    for row in &case.circuits {
        let ends = format!("{} {}", shown_name(&row.first), shown_name(&row.second));
        let factor = if two { format!(" {}", row.factor) } else { String::new() };
        let (lengths, mark) = (format!("{} {}", row.overhead, row.cable), row.mark);
        text += &format!("circuit {ends} {} {} {lengths} {mark}{factor}\n", row.voltage, row.x);
    }
    text += "\n# identifier, node, plant type, TEC kW\n";
    for row in &case.stations {
        text +=
            &format!("station {} {} {} {}\n", shown_name(&row.identifier), shown_name(&row.node), row.plant, row.tec);
    }
    text
}

/// 01 "The case file", solutions: one line a row, with the row it belongs to as a comment.
pub fn solution_lines(case: &Case) -> String {
    let nodes = case.nodes.iter().map(|row| format!("potential {}", shown_name(&row.name)));
    let circuits =
        case.circuits.iter().map(|row| format!("flow {} {}", shown_name(&row.first), shown_name(&row.second)));
    let rows: Vec<String> = nodes.chain(circuits).collect();
    let mut text = String::new();
    for (word, run) in SOLUTIONS.iter().zip(case.own_runs()) {
        text += "\n";
        for (place, number) in run.iter().enumerate() {
            text += &format!("{word} {number} # {}\n", rows.get(place).map_or("no row", String::as_str));
        }
    }
    text
}

/// The words of damage.
fn damage_lines(damage: &Damage) -> String {
    let mut text = String::new();
    let mut say = |word: String, number: Option<u32>| {
        if let Some(number) = number {
            text += &format!("{word} {number}\n");
        }
    };
    say("length".to_string(), damage.length);
    for (place, section) in SECTIONS_EDITION_2.iter().enumerate() {
        say(format!("offset {section}"), damage.offsets[place]);
        say(format!("count {section}"), damage.counts[place]);
    }
    if damage.as_is {
        text += "as_is\n";
    }
    damage.tail.chunks(32).for_each(|part| text += &format!("tail {}\n", to_hex(part)));
    text
}

/// The bytes alone, behind comments that say what their shapes suggest.
fn shown_by_shape(file: &[u8]) -> String {
    let mut text =
        "# not whole: refused 1 0 0. Read by the shapes of its rows; the bytes below are the file.\n".to_string();
    for line in suggested_lines(file).lines().filter(|line| !line.is_empty()) {
        text += &format!("# {line}\n");
    }
    text += "bytes\n";
    file.chunks(32).for_each(|part| text += &format!("bytes {}\n", to_hex(part)));
    text
}

/// The lines of the version that finds more rows in the file.
fn suggested_lines(file: &[u8]) -> String {
    if file.len() < 64 {
        return String::new();
    }
    let [one, two] = [Version::One, Version::Two].map(|version| suggested_case(file, version));
    let rows = |case: &Case| case.circuits.len() + case.stations.len();
    let case = if rows(&two) > rows(&one) { two } else { one };
    shown(&Described { case, damage: Damage::default() })
}

/// Settings from the first 64 bytes, then rows as long as they have the shape of a node, a circuit, a station, then
/// numbers of 64 bits as long as the solutions have rows.
fn suggested_case(file: &[u8], version: Version) -> Case {
    let edition = named_edition(file).unwrap_or_default();
    let mut case = Case { version, edition, settings: Settings::read(file), ..Case::default() };
    let mut rest = &file[64..];
    case.nodes = rows_of_shape(&mut rest, 24, |row| !name_shaped(row, 12)).into_iter().map(NodeRow::read).collect();
    let circuit = |row: &[u8]| name_shaped(row, 12) && [132, 275, 320, 400, 525].contains(&u32_at(row, 24));
    let circuits = rows_of_shape(&mut rest, version.circuit_size(), circuit);
    case.circuits = circuits.into_iter().map(|row| CircuitRow::read(row, version)).collect();
    let station = |row: &[u8]| name_shaped(row, 12) && (1..=7).contains(&u32_at(row, 24));
    case.stations = rows_of_shape(&mut rest, 32, station).into_iter().map(StationRow::read).collect();
    let rows = case.rows();
    for run in case.own_runs_mut() {
        *run = rest.chunks_exact(8).take(rows).map(|number| i64_at(number, 0)).collect();
        rest = &rest[8 * run.len()..];
    }
    case
}

/// A well-formed name stands at an offset of a row.
fn name_shaped(row: &[u8], at: usize) -> bool {
    well_formed(&name_at(row, at))
}

/// Takes rows of a size off the front as long as they begin with a name and pass the test.
fn rows_of_shape<'a>(rest: &mut &'a [u8], size: usize, passes: impl Fn(&[u8]) -> bool) -> Vec<&'a [u8]> {
    let mut rows = Vec::new();
    while rest.len() >= size && name_shaped(rest, 0) && passes(&rest[..size]) {
        rows.push(&rest[..size]);
        *rest = &rest[size..];
    }
    rows
}
