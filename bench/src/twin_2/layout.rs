//! A case file's frame, refusals 1 and 2: the trailer that points back at the sections, and the settings.

use super::editions::{Edition, Runs};
use super::fields::u32_at;
use super::settings::Settings;
use crate::answer::{refused, Answer};
use std::slice::ChunksExact;

/// What is known of a file before any table is judged: its edition and settings, and where its rows are.
pub struct Frame<'a> {
    pub edition: Edition,
    pub settings: Settings,
    pub nodes: &'a [[u8; 24]],
    /// Rows of 44 bytes, or of 48 in version 2.
    pub circuits: ChunksExact<'a, u8>,
    pub stations: &'a [[u8; 32]],
}

/// The trailer of a file of at least 128 bytes.
struct Trailer<'a> {
    file: &'a [u8],
    edition: Edition,
    version: usize,
    sections: usize,
}

impl<'a> Trailer<'a> {
    fn of(file: &[u8]) -> Trailer<'_> {
        let edition = if u32_at(file, 52) == 2 { Edition::Second } else { Edition::First };
        Trailer { file, edition, version: u32_at(file, file.len() - 8), sections: 7 + edition.at_peak(2) }
    }

    fn length(&self) -> usize {
        8 * self.sections + 8
    }

    fn entry(&self, section: usize) -> usize {
        self.file.len() - self.length() + 8 * section
    }

    fn offset(&self, section: usize) -> usize {
        u32_at(self.file, self.entry(section))
    }

    fn count(&self, section: usize) -> usize {
        u32_at(self.file, self.entry(section) + 4)
    }

    /// The bytes of a section's record.
    fn size(&self, section: usize) -> usize {
        match (section, self.version) {
            (0, _) => 64,
            (1, _) => 24,
            (2, 2) => 48,
            (2, _) => 44,
            (3, _) => 32,
            _ => 8,
        }
    }

    /// Edition 1 has versions 1 and 2, edition 2 version 2 alone.
    fn known(&self) -> bool {
        match self.edition {
            Edition::First => (1..=2).contains(&self.version) && u32_at(self.file, 52) == 0,
            Edition::Second => self.version == 2,
        }
    }

    fn most_circuits(&self) -> usize {
        match (self.edition, self.version) {
            (Edition::First, 1) => 512,
            (Edition::First, _) => 480,
            (Edition::Second, _) => 320,
        }
    }

    fn counted(&self) -> bool {
        let (nodes, circuits) = (self.count(1), self.count(2));
        self.count(0) == 1
            && (1..=256).contains(&nodes)
            && circuits <= self.most_circuits()
            && self.count(3) <= 512
            && (4..self.sections).all(|solution| self.count(solution) == nodes + circuits)
    }

    fn chained(&self) -> bool {
        let mut start = 0;
        for section in 0..self.sections {
            if self.offset(section) != start {
                return false;
            }
            start += self.size(section) * self.count(section);
        }
        start + self.length() == self.file.len()
    }

    fn whole(&self) -> bool {
        let length = u32_at(self.file, self.file.len() - 4);
        self.known() && length == self.file.len() && self.counted() && self.chained()
    }

    /// The bytes of a section of a whole file.
    fn section(&self, section: usize) -> &'a [u8] {
        &self.file[self.offset(section)..][..self.size(section) * self.count(section)]
    }
}

/// The frame, once 1 and 2 have judged it: a file that is not whole, a run of another length, a setting out of its range.
pub fn frame<'a>(file: &'a [u8], runs: Runs) -> Result<Frame<'a>, Answer> {
    let trailer = if file.len() < 128 { None } else { Some(Trailer::of(file)) };
    let Some(trailer) = trailer.filter(Trailer::whole) else { return Err(refused(1, 0, 0)) };
    let frame = Frame {
        edition: trailer.edition,
        settings: Settings::of(file),
        nodes: trailer.section(1).as_chunks().0,
        circuits: trailer.section(2).chunks_exact(trailer.size(2)),
        stations: trailer.section(3).as_chunks().0,
    };
    if !runs.fit(frame.edition, frame.nodes.len() + frame.circuits.len()) {
        return Err(refused(1, 0, 0));
    }
    if !frame.settings.sound(frame.nodes.len()) {
        return Err(refused(2, 0, 0));
    }
    Ok(frame)
}
