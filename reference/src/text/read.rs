//! From a text to a case and to the bytes of its file.

use super::words::{fitting, from_hex, name, split, Word};
use super::{TextError, SETTINGS, SOLUTIONS};
use crate::file::{Case, CircuitRow, Edition, NodeRow, StationRow, Version, SECTIONS_EDITION_2};

/// What a text says beside the case itself, to make files that aren't whole.
#[derive(Clone, Debug, Default, PartialEq, Eq)]
pub struct Damage {
    /// Solutions may have any number of rows.
    pub as_is: bool,
    /// The version in the trailer, where it isn't that of the rows.
    pub version: Option<u32>,
    pub length: Option<u32>,
    /// Of the sections that the edition has.
    pub offsets: [Option<u32>; 9],
    pub counts: [Option<u32>; 9],
    /// Last bytes to leave out.
    pub cut: usize,
    /// Bytes behind the trailer.
    pub tail: Vec<u8>,
    /// The whole file as bytes; then nothing else is said.
    pub bytes: Option<Vec<u8>>,
}

/// A text's meaning.
#[derive(Clone, Debug, Default, PartialEq, Eq)]
pub struct Described {
    pub case: Case,
    pub damage: Damage,
}

/// The bytes of the file that a text describes, or every fault with its line.
pub fn make(text: &[u8]) -> Result<Vec<u8>, Vec<TextError>> {
    let described = parse(text)?;
    let last = text.split(|byte| *byte == b'\n').count();
    let faults = solutions_that_do_not_fit(&described);
    if faults.is_empty() {
        return Ok(described.bytes());
    }
    Err(faults.into_iter().map(|message| TextError { line: last, message }).collect())
}

/// Solutions whose rows aren't nodes plus circuits, unless the text says `as_is`.
fn solutions_that_do_not_fit(described: &Described) -> Vec<String> {
    let case = &described.case;
    let rows = case.rows();
    let free = described.damage.as_is || described.damage.bytes.is_some();
    let unfit = SOLUTIONS.iter().zip(case.own_runs()).filter(|(_, run)| !free && run.len() != rows);
    unfit.map(|(word, run)| format!("{word} has {} rows, nodes and circuits are {rows}", run.len())).collect()
}

/// A text's meaning, its solutions of any number of rows, or every fault with its line.
pub fn parse(text: &[u8]) -> Result<Described, Vec<TextError>> {
    let mut reader = Reader::default();
    let mut faults = Vec::new();
    for (place, line) in text.split(|byte| *byte == b'\n').enumerate() {
        reader.number = place + 1;
        let read =
            std::str::from_utf8(line).map_err(|_| "not plain text".to_string()).and_then(|line| reader.line(line));
        faults.extend(read.err().map(|message| TextError { line: reader.number, message }));
    }
    if faults.is_empty() {
        reader.settle_edition();
        faults.extend(reader.settle_version().err());
        faults.extend(reader.without_a_section());
        faults.extend(reader.left_out().map(|message| TextError { line: reader.number, message }));
    }
    if faults.is_empty() {
        Ok(reader.described)
    } else {
        Err(faults)
    }
}

/// A text being read.
#[derive(Default)]
struct Reader {
    described: Described,
    /// The line, counted from 1.
    number: usize,
    /// The first line with a factor.
    factor: Option<usize>,
    /// The version whose circuit rows are asked for by their bytes.
    rows: Option<Version>,
    /// The first line of each section that only edition 2 has, and the section.
    peak: Vec<(usize, String)>,
    /// Words that may stand once, and stood.
    said: Vec<String>,
    /// Some line other than `bytes` was read.
    parts: bool,
}

impl Reader {
    /// Takes one line in.
    fn line(&mut self, line: &str) -> Result<(), String> {
        let words = split(line)?;
        let Some((first, fields)) = words.split_first() else { return Ok(()) };
        let Word::Bare(kind) = first else { return Err("a line begins with a quote".to_string()) };
        self.parts |= kind != "bytes";
        match kind.as_str() {
            "node" => self.node(fields),
            "circuit" => self.circuit(fields),
            "station" => self.station(fields),
            "revenue" => self.revenue(fields),
            "circuit_bytes" => self.circuit_bytes(fields),
            "edition" => self.edition(fields),
            _ => self.other(kind, fields),
        }
    }

    /// 01 "The case file", node: name, generation zone, demand zone, demand.
    fn node(&mut self, fields: &[Word]) -> Result<(), String> {
        let [first, generation_zone, demand_zone, demand] =
            exactly(fields, "name, generation zone, demand zone, demand")?;
        self.described.case.nodes.push(NodeRow {
            name: name(first)?,
            generation_zone: fitting(generation_zone)?,
            demand_zone: fitting(demand_zone)?,
            demand: fitting(demand)?,
        });
        Ok(())
    }

    /// 01 "The case file", circuit: both ends, voltage, x, lengths, mark. 02, CR 3: the factor last, where there is one.
    fn circuit(&mut self, fields: &[Word]) -> Result<(), String> {
        let (fields, factor) = match fields {
            [row @ .., factor] if row.len() == 7 => (row, Some(factor)),
            row => (row, None),
        };
        let [first, second, voltage, x, overhead, cable, mark] =
            exactly(fields, "first node, second node, voltage, x, overhead, cable, mark, and maybe a factor")?;
        self.factor = self.factor.or(factor.map(|_| self.number));
        self.described.case.circuits.push(CircuitRow {
            first: name(first)?,
            second: name(second)?,
            voltage: fitting(voltage)?,
            x: fitting(x)?,
            overhead: fitting(overhead)?,
            cable: fitting(cable)?,
            mark: fitting(mark)?,
            factor: factor.map_or(Ok(0), fitting)?,
        });
        Ok(())
    }

    /// 01 "The case file", station: identifier, node, plant type, TEC.
    fn station(&mut self, fields: &[Word]) -> Result<(), String> {
        let [identifier, node, plant, tec] = exactly(fields, "identifier, node, plant type, TEC")?;
        self.described.case.stations.push(StationRow {
            identifier: name(identifier)?,
            node: name(node)?,
            plant: fitting(plant)?,
            tec: fitting(tec)?,
        });
        Ok(())
    }

    /// 01 "The case file", settings: the revenue, of 64 bits.
    fn revenue(&mut self, fields: &[Word]) -> Result<(), String> {
        let [number] = exactly(fields, "one number")?;
        self.described.case.settings.revenue = fitting(number)?;
        self.once("revenue".to_string())
    }

    /// The bytes of a circuit row, 44 or 48, whatever the trailer's version.
    fn circuit_bytes(&mut self, fields: &[Word]) -> Result<(), String> {
        let [number] = exactly(fields, "one number")?;
        let bytes: usize = fitting(number)?;
        let version = [Version::One, Version::Two].into_iter().find(|version| version.circuit_size() == bytes);
        self.rows = Some(version.ok_or("a circuit row has 44 bytes, or 48 in version 2")?);
        self.once("circuit_bytes".to_string())
    }

    /// 02, CR 5: the edition, 1 or 2.
    fn edition(&mut self, fields: &[Word]) -> Result<(), String> {
        let [number] = exactly(fields, "one number")?;
        let number: u32 = fitting(number)?;
        let edition = [Edition::One, Edition::Two].into_iter().find(|edition| edition.number() == number);
        self.described.case.edition = edition.ok_or("an edition is 1 or 2")?;
        self.once("edition".to_string())
    }

    /// A setting of 32 bits, a solution row, or a word of damage.
    fn other(&mut self, kind: &str, fields: &[Word]) -> Result<(), String> {
        if let Some((_, place)) = SETTINGS.iter().find(|(word, _)| *word == kind) {
            let [number] = exactly(fields, "one number")?;
            *place(&mut self.described.case.settings) = fitting(number)?;
            return self.once(kind.to_string());
        }
        if let Some(solution) = SOLUTIONS.iter().position(|word| *word == kind) {
            let [number] = exactly(fields, "one number")?;
            self.described.case.runs[solution].push(fitting(number)?);
            self.section(kind);
            return Ok(());
        }
        self.damage(kind, fields)
    }

    /// A word of damage.
    fn damage(&mut self, kind: &str, fields: &[Word]) -> Result<(), String> {
        let damage = &mut self.described.damage;
        match (kind, fields) {
            ("as_is", []) => damage.as_is = true,
            ("version", [number]) => damage.version = Some(fitting(number)?),
            ("length", [number]) => damage.length = Some(fitting(number)?),
            ("offset", [section, number]) => damage.offsets[section_place(section)?] = Some(fitting(number)?),
            ("count", [section, number]) => damage.counts[section_place(section)?] = Some(fitting(number)?),
            ("cut", [number]) => damage.cut = fitting(number)?,
            ("tail", [Word::Bare(digits)]) => damage.tail.extend(from_hex(digits)?),
            ("bytes", []) => damage.bytes = Some(damage.bytes.take().unwrap_or_default()),
            ("bytes", [Word::Bare(digits)]) => damage.bytes.get_or_insert_with(Vec::new).extend(from_hex(digits)?),
            ("as_is" | "version" | "length" | "offset" | "count" | "cut" | "tail" | "bytes", _) => {
                return Err(format!("wrong fields for {kind}"));
            }
            _ => return Err(format!("unknown word {kind}")),
        }
        match (kind, fields) {
            ("tail" | "bytes", _) => Ok(()),
            ("offset" | "count", [Word::Bare(section), _]) => {
                self.section(section);
                self.once(format!("{kind} {section}"))
            }
            _ => self.once(kind.to_string()),
        }
    }

    /// A word that may stand only once.
    fn once(&mut self, word: String) -> Result<(), String> {
        if self.said.contains(&word) {
            return Err(format!("{word} a second time"));
        }
        self.said.push(word);
        Ok(())
    }

    /// Remembers the line of a section that edition 1 doesn't have.
    fn section(&mut self, section: &str) {
        let known = |name: &str| Edition::One.sections().contains(&name);
        if !known(section) && self.peak.iter().all(|(_, other)| other != section) {
            self.peak.push((self.number, section.to_string()));
        }
    }

    /// 02, CR 5: sections that a text speaks of and its edition doesn't have.
    fn without_a_section(&self) -> Vec<TextError> {
        let edition = self.described.case.edition;
        let absent = self.peak.iter().filter(|(_, section)| !edition.sections().contains(&section.as_str()));
        let message = |section| format!("edition {} has no section {section}", edition.number());
        absent.map(|(line, section)| TextError { line: *line, message: message(section) }).collect()
    }

    /// 02, CR 5: "The settings' zero names the edition", but where the text says another number.
    fn settle_edition(&mut self) {
        if !self.said.iter().any(|word| word == "zero") {
            self.described.case.settings.zero = self.described.case.edition.zero();
        }
    }

    /// 02, CR 3: the version by the bytes of rows or by the word `version`, else 2 where a circuit has a factor, else 1. 02,
    /// CR 5: edition 2 is "in version 2 files".
    fn settle_version(&mut self) -> Result<(), TextError> {
        let said = self.described.damage.version;
        let two = self.factor.is_some() || self.described.case.edition == Edition::Two;
        let unsaid = if two { Version::Two } else { Version::One };
        let version = self.rows.or(said.and_then(Version::of)).unwrap_or(unsaid);
        self.described.case.version = version;
        self.described.damage.version = said.filter(|number| *number != version.number());
        match (version, self.factor) {
            (Version::One, Some(line)) => {
                Err(TextError { line, message: "a factor, and rows of version 1 have no place for one".to_string() })
            }
            _ => Ok(()),
        }
    }

    /// What a text must still say at its end.
    fn left_out(&self) -> Option<String> {
        if self.described.damage.bytes.is_some() {
            return self.parts.then(|| "bytes stand alone: no other lines beside them".to_string());
        }
        let needed = SETTINGS.iter().map(|(word, _)| *word).filter(|word| *word != "zero").chain(["revenue"]);
        let missing: Vec<&str> = needed.filter(|word| !self.said.iter().any(|said| said == word)).collect();
        (!missing.is_empty()).then(|| format!("settings left out: {}", missing.join(", ")))
    }
}

/// The fields of a line, when they are as many as its kind has.
pub(super) fn exactly<'a, const N: usize>(fields: &'a [Word], wanted: &str) -> Result<&'a [Word; N], String> {
    fields.try_into().map_err(|_| format!("{} fields where {N} are wanted: {wanted}", fields.len()))
}

/// A section's place by its name.
fn section_place(word: &Word) -> Result<usize, String> {
    let place = SECTIONS_EDITION_2.iter().position(|section| *word == Word::Bare(section.to_string()));
    place.ok_or_else(|| format!("a section is one of {}", SECTIONS_EDITION_2.join(", ")))
}

impl Described {
    /// The file described, damage done.
    pub fn bytes(&self) -> Vec<u8> {
        let damage = &self.damage;
        if let Some(bytes) = &damage.bytes {
            return bytes.clone();
        }
        let mut trailer = self.case.trailer();
        for place in 0..trailer.offsets.len() {
            trailer.offsets[place] = damage.offsets[place].unwrap_or(trailer.offsets[place]);
            trailer.counts[place] = damage.counts[place].unwrap_or(trailer.counts[place]);
        }
        trailer.version = damage.version.unwrap_or(trailer.version);
        trailer.length = damage.length.unwrap_or(trailer.length);
        let mut bytes = self.case.section_bytes();
        bytes.extend(trailer.bytes());
        bytes.truncate(bytes.len().saturating_sub(damage.cut));
        bytes.extend(&damage.tail);
        bytes
    }
}
