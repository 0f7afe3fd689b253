//! A fixed list of labelled cases, the archive that holds their files, and the text the program prints for them.
//!
//! An archive is one entry a case: a u32 length, little-endian, and that many bytes, a case file, whole or damaged; then the
//! same for its share file (02, CR 6), of length 0 where there is none.
//! The text is what the program prints for each entry, one after the other. Where 01 or 02 decides the answer of a case,
//! it stands beside the case, written from their words and not from the judgement; a test compares the two.

pub mod bases;

mod backgrounds;
mod bands;
mod boundaries;
mod chance;
mod circuits;
mod directions;
mod edition_2;
mod editions;
mod factors;
mod figures;
mod files;
mod frames;
mod halves;
mod interconnectors;
mod names;
mod network;
mod nodes;
mod orders;
mod proposals;
mod scaling;
mod settings;
mod share_files;
mod stations;
mod systems;
mod tariffs;
mod versions;
mod walks;
mod zones;

use crate::file::Case;
use crate::{program_output_with_share, solver};
use std::fmt;

/// The greatest length of an entry's case file.
pub const LONGEST: usize = 65_536;
/// The greatest length of an entry's share file.
pub const LONGEST_SHARE: usize = 256;

/// What 01 and 02 say of a case.
#[derive(Clone, Copy, Debug, PartialEq, Eq)]
pub enum Told {
    Sheet,
    /// Number, system, row.
    Refused(u32, u32, u32),
    /// A case by chance: either.
    Open,
}

/// 01 "What stops a case", 1.
const ONE: Told = Told::Refused(1, 0, 0);

/// A case of the list.
#[derive(Clone, Debug)]
pub struct Labelled {
    pub label: String,
    pub file: Vec<u8>,
    /// 02, CR 6: the bytes of `share.bin`, empty where there is none.
    pub share: Vec<u8>,
    pub told: Told,
}

impl Labelled {
    /// What the program prints for the case.
    pub fn output(&self) -> String {
        String::from_utf8_lossy(&program_output_with_share(&self.file, &self.share)).into_owned()
    }

    /// The first line of it.
    pub fn first_line(&self) -> String {
        self.output().lines().next().unwrap_or_default().to_string()
    }
}

/// The list, always the same.
pub fn cases() -> Vec<Labelled> {
    let groups = [
        files::add,
        settings::add,
        nodes::add,
        circuits::add,
        stations::add,
        network::add,
        proposals::add,
        bands::add,
        orders::add,
        figures::add,
        chance::add,
        interconnectors::add,
        halves::add,
        factors::add,
        versions::add,
        walks::add,
        directions::add,
        editions::add,
        scaling::add,
        backgrounds::add,
        systems::add,
        tariffs::add,
        boundaries::add,
        share_files::add,
    ];
    let mut list = List::default();
    groups.iter().for_each(|add| add(&mut list));
    list.0
}

/// The list in the making.
#[derive(Default)]
struct List(Vec<Labelled>);

impl List {
    /// A file as it is, without a share file.
    fn file(&mut self, label: impl Into<String>, file: Vec<u8>, told: Told) {
        self.shared(label, file, Vec::new(), told);
    }

    /// A file and a share file as they are.
    fn shared(&mut self, label: impl Into<String>, file: Vec<u8>, share: Vec<u8>, told: Told) {
        self.0.push(Labelled { label: label.into(), file, share, told });
    }

    /// A changed case that is refused so.
    fn refused(
        &mut self,
        label: impl Into<String>,
        case: &Case,
        change: impl Fn(&mut Case),
        (number, system, row): (u32, u32, u32),
    ) {
        self.file(label, changed(case, change).bytes(), Told::Refused(number, system, row));
    }

    /// A changed case that is accepted with the solutions it has.
    fn accepted(&mut self, label: impl Into<String>, case: &Case, change: impl Fn(&mut Case)) {
        self.file(label, changed(case, change).bytes(), Told::Sheet);
    }

    /// A changed case that is accepted once it is solved again.
    fn solved(&mut self, label: impl Into<String>, case: &Case, change: impl Fn(&mut Case)) {
        self.file(label, solved(&changed(case, change)).bytes(), Told::Sheet);
    }
}

/// A case with a change.
fn changed(case: &Case, change: impl Fn(&mut Case)) -> Case {
    let mut changed = case.clone();
    change(&mut changed);
    changed
}

/// A case with solutions of its own tables.
fn solved(case: &Case) -> Case {
    solver::solved(case).0
}

/// The archive of a list.
pub fn archive(cases: &[Labelled]) -> Vec<u8> {
    let mut bytes = Vec::new();
    for part in cases.iter().flat_map(|case| [&case.file, &case.share]) {
        bytes.extend((part.len() as u32).to_le_bytes());
        bytes.extend(part);
    }
    bytes
}

/// An archive that can't be read: the entry, counted from 1, of which a file is longer than allowed or than what is there.
#[derive(Clone, Copy, Debug, PartialEq, Eq)]
pub struct ArchiveError {
    pub entry: usize,
}

impl fmt::Display for ArchiveError {
    fn fmt(&self, to: &mut fmt::Formatter) -> fmt::Result {
        let most = format!("{LONGEST} bytes, or its share file than {LONGEST_SHARE}");
        write!(to, "the case file of entry {} is longer than {most}, or either than what is there", self.entry)
    }
}

/// An entry of an archive.
#[derive(Clone, Copy, Debug, PartialEq, Eq)]
pub struct Entry<'a> {
    pub file: &'a [u8],
    pub share: &'a [u8],
}

/// The entries of an archive.
pub fn entries(archive: &[u8]) -> Result<Vec<Entry<'_>>, ArchiveError> {
    let mut entries = Vec::new();
    let mut rest = archive;
    while !rest.is_empty() {
        let (entry, behind) = entry(rest).ok_or(ArchiveError { entry: entries.len() + 1 })?;
        entries.push(entry);
        rest = behind;
    }
    Ok(entries)
}

/// The first entry of an archive and what stands behind it.
fn entry(archive: &[u8]) -> Option<(Entry<'_>, &[u8])> {
    let (file, behind) = part(archive, LONGEST)?;
    let (share, behind) = part(behind, LONGEST_SHARE)?;
    Some((Entry { file, share }, behind))
}

/// A length of at most so many bytes and the bytes, and what stands behind them.
fn part(bytes: &[u8], longest: usize) -> Option<(&[u8], &[u8])> {
    let (length, behind) = bytes.split_first_chunk()?;
    let length = u32::from_le_bytes(*length) as usize;
    (length <= longest).then(|| behind.split_at_checked(length))?
}

/// What the program prints for the entries of an archive, one after the other.
pub fn expected(archive: &[u8]) -> Result<Vec<u8>, ArchiveError> {
    let print = |entry: Entry| program_output_with_share(entry.file, entry.share);
    Ok(entries(archive)?.into_iter().flat_map(print).collect())
}
