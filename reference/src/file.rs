//! 01 "The case file": records, sections and trailer as bytes, and refusal 1. 02, CR 3: a second version, whose circuits
//! have a factor. 02, CR 5: a second edition, with two more solutions.

use crate::quantities::{within, CIRCUITS, CIRCUITS_EDITION_2, CIRCUITS_VERSION_2, NODES, STATIONS};

/// 01 "The case file": twelve bytes of a name or an identifier, as they stand in the file.
pub type Name = [u8; 12];

/// 01 "The case file": the sections in their order.
pub const SECTIONS: [&str; 7] = ["settings", "nodes", "circuits", "stations", "base", "wider", "local"];
/// 02, CR 5: edition 2's, where "4 and 5, peak base and wider, follow".
pub const SECTIONS_EDITION_2: [&str; 9] =
    ["settings", "nodes", "circuits", "stations", "base", "wider", "local", "peak_base", "peak_wider"];
/// How many of the sections are tables; the solutions follow them.
pub const TABLES: usize = 4;
/// 02, CR 5: the solutions of the edition that has most.
pub const RUNS: usize = 5;

/// 01 "The case file": "then a 64-byte trailer".
pub const TRAILER: usize = 64;
/// 02, CR 5: "the trailer has 80 bytes".
pub const TRAILER_EDITION_2: usize = 80;
/// The least that a file may have for its edition, its version and its length to be read: settings and a trailer.
pub const SHORTEST: usize = 128;
/// 01 "The case file": where the settings' zero stands. 02, CR 5: it "names the edition".
pub const ZERO_AT: usize = 52;

/// 02, CR 5: "Some clients use the later edition of 14.15, some the earlier."
#[derive(Clone, Copy, Debug, Default, PartialEq, Eq)]
pub enum Edition {
    #[default]
    One,
    Two,
}

impl Edition {
    /// 02, CR 5: "0 is edition 1 ..; 2 is edition 2"; `None` for another number, and 1 is another.
    pub fn of(zero: u32) -> Option<Edition> {
        match zero {
            0 => Some(Edition::One),
            2 => Some(Edition::Two),
            _ => None,
        }
    }

    /// 02, CR 5: what the settings' zero is in this edition.
    pub fn zero(self) -> u32 {
        match self {
            Edition::One => 0,
            Edition::Two => 2,
        }
    }

    /// The number that 02 calls it by.
    pub fn number(self) -> u32 {
        match self {
            Edition::One => 1,
            Edition::Two => 2,
        }
    }

    /// 01 "The case file", 02 CR 5: the sections in their order.
    pub fn sections(self) -> &'static [&'static str] {
        match self {
            Edition::One => &SECTIONS,
            Edition::Two => &SECTIONS_EDITION_2,
        }
    }

    /// How many solutions a file has.
    pub fn runs(self) -> usize {
        self.sections().len() - TABLES
    }

    /// 01 "The case file": 64 bytes. 02, CR 5: 80.
    pub fn trailer_size(self) -> usize {
        match self {
            Edition::One => TRAILER,
            Edition::Two => TRAILER_EDITION_2,
        }
    }

    /// 01 "The case file": the bytes of one record, section by section.
    pub fn sizes(self, version: Version) -> Vec<usize> {
        let solutions = std::iter::repeat_n(8, self.runs());
        version.sizes()[..TABLES].iter().copied().chain(solutions).collect()
    }

    /// 01 "Quantities", 02 CR 3: how many circuits a file of a version holds. 02, CR 5: edition 2 is "in version 2 files
    /// of at most 320 circuits"; `None` for a version that doesn't hold it.
    pub fn circuits(self, version: Version) -> Option<(u32, u32)> {
        match (self, version) {
            (Edition::One, _) => Some(version.circuits()),
            (Edition::Two, Version::Two) => Some(CIRCUITS_EDITION_2),
            (Edition::Two, Version::One) => None,
        }
    }
}

/// 01 "The case file": "then the version 1". 02, CR 3: "Case version 2".
#[derive(Clone, Copy, Debug, Default, PartialEq, Eq)]
pub enum Version {
    #[default]
    One,
    Two,
}

impl Version {
    /// 01 "What stops a case", 1: the version that a trailer names; `None` for another number.
    pub fn of(number: u32) -> Option<Version> {
        match number {
            1 => Some(Version::One),
            2 => Some(Version::Two),
            _ => None,
        }
    }

    /// The number that a trailer names it by.
    pub fn number(self) -> u32 {
        match self {
            Version::One => 1,
            Version::Two => 2,
        }
    }

    /// 01 "The case file": the bytes of one record, section by section. 02, CR 3: "Case version 2 has circuit rows of 48
    /// bytes".
    pub fn sizes(self) -> [usize; 7] {
        [64, 24, self.circuit_size(), 32, 8, 8, 8]
    }

    /// 01 "The case file", circuit: 44 bytes. 02, CR 3: 48, "with the new factor last".
    pub fn circuit_size(self) -> usize {
        match self {
            Version::One => 44,
            Version::Two => 48,
        }
    }

    /// 01 "Quantities": at most 512 circuits. 02, CR 3: "Version 2 holds at most 480 circuits".
    pub fn circuits(self) -> (u32, u32) {
        match self {
            Version::One => CIRCUITS,
            Version::Two => CIRCUITS_VERSION_2,
        }
    }
}

/// 01 "The case file", settings: the 64 bytes of the one record.
#[derive(Clone, Debug, Default, PartialEq, Eq)]
pub struct Settings {
    pub generation_zones: u32,
    pub demand_zones: u32,
    pub p: u32,
    pub constant: u32,
    pub wider_factor: u32,
    pub local_factor: u32,
    /// 400 overhead, 400 cable, 275 overhead, 275 cable, 132 overhead, 132 cable.
    pub factors: [u32; 6],
    pub reference: u32,
    pub zero: u32,
    pub revenue: u64,
}

/// 01 "The case file", node: 24 bytes.
#[derive(Clone, Debug, PartialEq, Eq)]
pub struct NodeRow {
    pub name: Name,
    pub generation_zone: u32,
    pub demand_zone: u32,
    pub demand: u32,
}

/// 01 "The case file", circuit: 44 bytes. 02, CR 3: 48 in version 2.
#[derive(Clone, Debug, PartialEq, Eq)]
pub struct CircuitRow {
    pub first: Name,
    pub second: Name,
    pub voltage: u32,
    pub x: u32,
    pub overhead: u32,
    pub cable: u32,
    pub mark: u32,
    /// 02, CR 3: "Version 1 files read as if the factor were 0".
    pub factor: u32,
}

/// 01 "The case file", station: 32 bytes.
#[derive(Clone, Debug, PartialEq, Eq)]
pub struct StationRow {
    pub identifier: Name,
    pub node: Name,
    pub plant: u32,
    pub tec: u32,
}

/// 01 "The case file": all sections, not yet judged by anything but their places.
#[derive(Clone, Debug, Default, PartialEq, Eq)]
pub struct Case {
    pub version: Version,
    /// 02, CR 5: which sections and which trailer the file has. In a whole file the settings' zero says the same.
    pub edition: Edition,
    pub settings: Settings,
    pub nodes: Vec<NodeRow>,
    pub circuits: Vec<CircuitRow>,
    pub stations: Vec<StationRow>,
    /// Base, wider, local, and in edition 2 peak base and peak wider, else empty: one potential a node, then one flow a
    /// circuit. The run of system N has the place N - 1.
    pub runs: [Vec<i64>; RUNS],
}

/// 01 "The case file": offset and record count of each section, version, file length.
#[derive(Clone, Debug, PartialEq, Eq)]
pub struct Trailer {
    /// As many as there are sections.
    pub offsets: Vec<u32>,
    pub counts: Vec<u32>,
    pub version: u32,
    pub length: u32,
}

/// 01 "The case file": the u32 at an offset, little-endian.
pub fn u32_at(bytes: &[u8], at: usize) -> u32 {
    u32::from_le_bytes(bytes[at..at + 4].try_into().unwrap())
}

/// 01 "The case file": the u64 at an offset, little-endian.
pub fn u64_at(bytes: &[u8], at: usize) -> u64 {
    u64::from_le_bytes(bytes[at..at + 8].try_into().unwrap())
}

/// 01 "The case file": the i64 at an offset, little-endian.
pub fn i64_at(bytes: &[u8], at: usize) -> i64 {
    i64::from_le_bytes(bytes[at..at + 8].try_into().unwrap())
}

/// 01 "The case file": the name at an offset.
pub fn name_at(bytes: &[u8], at: usize) -> Name {
    bytes[at..at + 12].try_into().unwrap()
}

impl Settings {
    /// 01 "The case file": settings from their 64 bytes.
    pub fn read(bytes: &[u8]) -> Settings {
        Settings {
            generation_zones: u32_at(bytes, 0),
            demand_zones: u32_at(bytes, 4),
            p: u32_at(bytes, 8),
            constant: u32_at(bytes, 12),
            wider_factor: u32_at(bytes, 16),
            local_factor: u32_at(bytes, 20),
            factors: std::array::from_fn(|k| u32_at(bytes, 24 + 4 * k)),
            reference: u32_at(bytes, 48),
            zero: u32_at(bytes, 52),
            revenue: u64_at(bytes, 56),
        }
    }

    /// 01 "The case file": the 64 bytes of settings.
    pub fn bytes(&self) -> Vec<u8> {
        let head =
            [self.generation_zones, self.demand_zones, self.p, self.constant, self.wider_factor, self.local_factor];
        let numbers = head.iter().chain(&self.factors).chain([&self.reference, &self.zero]);
        let mut bytes: Vec<u8> = numbers.flat_map(|number| number.to_le_bytes()).collect();
        bytes.extend(self.revenue.to_le_bytes());
        bytes
    }
}

impl NodeRow {
    /// 01 "The case file": a node from its 24 bytes.
    pub fn read(bytes: &[u8]) -> NodeRow {
        NodeRow {
            name: name_at(bytes, 0),
            generation_zone: u32_at(bytes, 12),
            demand_zone: u32_at(bytes, 16),
            demand: u32_at(bytes, 20),
        }
    }

    /// 01 "The case file": the 24 bytes of a node.
    pub fn bytes(&self) -> Vec<u8> {
        let numbers = [self.generation_zone, self.demand_zone, self.demand];
        self.name.into_iter().chain(numbers.into_iter().flat_map(u32::to_le_bytes)).collect()
    }
}

impl CircuitRow {
    /// 01 "The case file": a circuit from its 44 bytes, or 48 in version 2. 02, CR 3: "the new factor last".
    pub fn read(bytes: &[u8], version: Version) -> CircuitRow {
        CircuitRow {
            first: name_at(bytes, 0),
            second: name_at(bytes, 12),
            voltage: u32_at(bytes, 24),
            x: u32_at(bytes, 28),
            overhead: u32_at(bytes, 32),
            cable: u32_at(bytes, 36),
            mark: u32_at(bytes, 40),
            factor: match version {
                Version::One => 0,
                Version::Two => u32_at(bytes, 44),
            },
        }
    }

    /// 01 "The case file": the 44 bytes of a circuit. 02, CR 3: 48 in version 2, "with the new factor last"; version 1
    /// has no place for one.
    pub fn bytes(&self, version: Version) -> Vec<u8> {
        assert!(version == Version::Two || self.factor == 0, "a factor in a row of version 1");
        let numbers = [self.voltage, self.x, self.overhead, self.cable, self.mark, self.factor];
        let names = self.first.into_iter().chain(self.second);
        names.chain(numbers.into_iter().flat_map(u32::to_le_bytes)).take(version.circuit_size()).collect()
    }
}

impl StationRow {
    /// 01 "The case file": a station from its 32 bytes.
    pub fn read(bytes: &[u8]) -> StationRow {
        StationRow {
            identifier: name_at(bytes, 0),
            node: name_at(bytes, 12),
            plant: u32_at(bytes, 24),
            tec: u32_at(bytes, 28),
        }
    }

    /// 01 "The case file": the 32 bytes of a station.
    pub fn bytes(&self) -> Vec<u8> {
        let names = self.identifier.into_iter().chain(self.node);
        names.chain([self.plant, self.tec].into_iter().flat_map(u32::to_le_bytes)).collect()
    }
}

impl Trailer {
    /// 01 "The case file": the trailer of a file long enough to have one, by the edition that its settings name; 64 bytes
    /// where they name none.
    pub fn read(file: &[u8]) -> Option<Trailer> {
        Trailer::read_in(file, named_edition(file).unwrap_or_default())
    }

    /// 01 "The case file": the last 64 bytes of a file as a trailer. 02, CR 5: 80 in edition 2.
    pub fn read_in(file: &[u8], edition: Edition) -> Option<Trailer> {
        let bytes = &file[file.len().checked_sub(edition.trailer_size())?..];
        let places = || 0..edition.sections().len();
        Some(Trailer {
            offsets: places().map(|k| u32_at(bytes, 8 * k)).collect(),
            counts: places().map(|k| u32_at(bytes, 8 * k + 4)).collect(),
            version: u32_at(bytes, bytes.len() - 8),
            length: u32_at(bytes, bytes.len() - 4),
        })
    }

    /// 01 "The case file": the bytes of a trailer.
    pub fn bytes(&self) -> Vec<u8> {
        let pairs = self.offsets.iter().zip(&self.counts).flat_map(|(offset, count)| [*offset, *count]);
        pairs.chain([self.version, self.length]).flat_map(u32::to_le_bytes).collect()
    }
}

/// 02, CR 5: "The settings' zero names the edition". `None` where it names none or stands behind the file's end.
pub fn named_edition(file: &[u8]) -> Option<Edition> {
    (file.len() >= ZERO_AT + 4).then(|| Edition::of(u32_at(file, ZERO_AT)))?
}

impl Case {
    /// 01 "The case file": the solutions that the file has.
    pub fn own_runs(&self) -> &[Vec<i64>] {
        &self.runs[..self.edition.runs()]
    }

    /// The same, to be changed.
    pub fn own_runs_mut(&mut self) -> &mut [Vec<i64>] {
        &mut self.runs[..self.edition.runs()]
    }

    /// 01 "The case file", 02 CR 5: all five runs as the library is lent them.
    pub fn lent(&self) -> [&[i64]; RUNS] {
        self.runs.each_ref().map(Vec::as_slice)
    }

    /// 01 "The case file": as many rows as a solution has: "nodes plus circuits".
    pub fn rows(&self) -> usize {
        self.nodes.len() + self.circuits.len()
    }

    /// Solutions of zeros, as many as the edition has; the others are empty.
    pub fn zeros(&self) -> [Vec<i64>; RUNS] {
        std::array::from_fn(|place| if place < self.edition.runs() { vec![0; self.rows()] } else { Vec::new() })
    }

    /// 01 "The case file": the record counts of the sections in their order.
    pub fn counts(&self) -> Vec<usize> {
        let tables = [1, self.nodes.len(), self.circuits.len(), self.stations.len()];
        tables.into_iter().chain(self.own_runs().iter().map(Vec::len)).collect()
    }

    /// 01 "The case file": the sections one after another, without the trailer.
    pub fn section_bytes(&self) -> Vec<u8> {
        let mut bytes = self.settings.bytes();
        bytes.extend(self.nodes.iter().flat_map(NodeRow::bytes));
        bytes.extend(self.circuits.iter().flat_map(|row| row.bytes(self.version)));
        bytes.extend(self.stations.iter().flat_map(StationRow::bytes));
        bytes.extend(self.own_runs().iter().flatten().flat_map(|number| number.to_le_bytes()));
        bytes
    }

    /// 01 "The case file": the trailer that fits the sections.
    pub fn trailer(&self) -> Trailer {
        let counts = self.counts();
        let mut offsets = Vec::new();
        let mut end = 0;
        for (count, size) in counts.iter().zip(self.edition.sizes(self.version)) {
            offsets.push(end as u32);
            end += count * size;
        }
        Trailer {
            offsets,
            counts: counts.into_iter().map(|count| count as u32).collect(),
            version: self.version.number(),
            length: (end + self.edition.trailer_size()) as u32,
        }
    }

    /// 01 "The case file": the whole file.
    pub fn bytes(&self) -> Vec<u8> {
        let mut bytes = self.section_bytes();
        bytes.extend(self.trailer().bytes());
        bytes
    }

    /// 01 "The case file": the sections of given counts, read one after another from offset 0. `None` where the bytes end
    /// too early, the settings' count isn't 1 or the counts aren't those of the edition's sections.
    pub fn read(bytes: &[u8], version: Version, edition: Edition, counts: &[usize]) -> Option<Case> {
        let sizes = edition.sizes(version);
        let needed = counts
            .iter()
            .zip(&sizes)
            .try_fold(0usize, |sum, (count, size)| sum.checked_add(count.checked_mul(*size)?))?;
        if counts.len() != sizes.len() || counts[0] != 1 || needed > bytes.len() {
            return None;
        }
        let mut end = 0;
        let mut records = |section: usize| -> Vec<&[u8]> {
            let start = end;
            end += counts[section] * sizes[section];
            bytes[start..end].chunks_exact(sizes[section]).collect()
        };
        let mut case = Case {
            version,
            edition,
            settings: Settings::read(records(0)[0]),
            nodes: records(1).into_iter().map(NodeRow::read).collect(),
            circuits: records(2).into_iter().map(|record| CircuitRow::read(record, version)).collect(),
            stations: records(3).into_iter().map(StationRow::read).collect(),
            runs: Default::default(),
        };
        for (place, run) in case.own_runs_mut().iter_mut().enumerate() {
            *run = records(TABLES + place).into_iter().map(|record| i64_at(record, 0)).collect();
        }
        Some(case)
    }

    /// 02, CR 3: "one case in either version": the same tables and solutions in another version, or why it has no place for
    /// them. 02, CR 5: edition 2 is "in version 2 files".
    pub fn in_version(&self, version: Version) -> Result<Case, String> {
        let Some((_, most)) = self.edition.circuits(version) else {
            let (edition, version) = (self.edition.number(), version.number());
            return Err(format!("a case of edition {edition}: version {version} has no place for its solutions"));
        };
        if self.circuits.len() > most as usize {
            return Err(format!("{} circuits: version {} holds at most {most}", self.circuits.len(), version.number()));
        }
        if let Some(place) = self.circuits.iter().position(|row| version == Version::One && row.factor != 0) {
            let factor = self.circuits[place].factor;
            return Err(format!("circuit {} has the factor {factor}: version 1 has no place for one", place + 1));
        }
        Ok(Case { version, ..self.clone() })
    }

    /// 02, CR 5: the same tables in a file of edition 2, with solutions of zeros: they are of other systems.
    pub fn in_edition_2(&self) -> Result<Case, String> {
        let mut case = self.in_version(Version::Two)?;
        case.edition = Edition::Two;
        case.settings.zero = case.edition.zero();
        case.runs = case.zeros();
        case.in_version(Version::Two)
    }
}

/// 01 "What stops a case", 1, "counts": settings 1, tables within their ranges, each solution nodes plus circuits. 02,
/// CR 3 and CR 5: "1 for any other edition, version or count", the circuits' by version and edition.
fn counts_are_right(version: Version, edition: Edition, counts: &[u32]) -> bool {
    let [settings, nodes, circuits, stations, solutions @ ..] = counts else { return false };
    *settings == 1
        && within(*nodes, NODES)
        && edition.circuits(version).is_some_and(|range| within(*circuits, range))
        && within(*stations, STATIONS)
        && solutions.iter().all(|solution| *solution == nodes + circuits)
}

/// 01 "What stops a case", 1, "chain": "Sections must follow one another exactly and end at the trailer".
fn chain_is_right(version: Version, edition: Edition, trailer: &Trailer, file_length: usize) -> bool {
    let mut end = 0;
    for (k, size) in edition.sizes(version).into_iter().enumerate() {
        if trailer.offsets[k] as usize != end {
            return false;
        }
        end += trailer.counts[k] as usize * size;
    }
    end + edition.trailer_size() == file_length
}

/// 01 "What stops a case", 1: the case of a whole file. `None` where "length, trailer, version, counts, chain or
/// the settings' zero" is wrong; which of them is found first makes no difference. 02, CR 3: version 1 or 2. 02, CR 5: the
/// edition stands in the settings, version and length in the last 8 bytes whatever the trailer's size.
pub fn whole_case(file: &[u8]) -> Option<Case> {
    if file.len() < SHORTEST {
        return None;
    }
    let edition = named_edition(file)?;
    let trailer = Trailer::read_in(file, edition)?;
    let version = Version::of(trailer.version)?;
    let whole = trailer.length as usize == file.len()
        && counts_are_right(version, edition, &trailer.counts)
        && chain_is_right(version, edition, &trailer, file.len());
    let counts: Vec<usize> = trailer.counts.iter().map(|count| *count as usize).collect();
    whole.then(|| Case::read(file, version, edition, &counts))?
}

/// 01 "The case file": "A name or identifier is 1 to 12 of A-Z, 0-9 and underscore, then spaces to 12".
pub fn well_formed(name: &Name) -> bool {
    let letters = name.iter().take_while(|byte| matches!(byte, b'A'..=b'Z' | b'0'..=b'9' | b'_')).count();
    letters >= 1 && name[letters..].iter().all(|byte| *byte == b' ')
}

/// 01 "The sheet": a name "without padding".
pub fn without_padding(name: &Name) -> &[u8] {
    let end = name.iter().rposition(|byte| *byte != b' ').map_or(0, |last| last + 1);
    &name[..end]
}

/// 01 "The case file": at most twelve bytes, "then spaces to 12".
pub fn padded(bytes: &[u8]) -> Name {
    let mut name = [b' '; 12];
    name[..bytes.len()].copy_from_slice(bytes);
    name
}
