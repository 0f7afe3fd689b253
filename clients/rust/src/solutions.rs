//! The solutions that are judged, and how they stand in a case file.

use crate::Case;

/// Settings and the shorter trailer: no whole file has less.
const SHORTEST: usize = 128;

/// Where the settings name the edition: 0 is edition 1, 2 is edition 2.
const EDITION: usize = 52;

/// Settings, nodes, circuits and stations stand before the solutions.
const TABLES: usize = 4;

/// No solution is longer: 256 nodes and 512 circuits, in version 1. A file that claims more gets no memory for it.
const LONGEST: usize = 256 + 512;

/// The solutions of a case, each a potential for each node, then a flow for each circuit. In edition 2 base and wider are year round's.
#[derive(Clone, Debug, Default, PartialEq, Eq)]
pub struct Solutions {
    pub base: Vec<i64>,
    pub wider: Vec<i64>,
    pub local: Vec<i64>,
    /// Empty in edition 1, which has no peak.
    pub peak_base: Vec<i64>,
    /// Empty in edition 1, which has no peak.
    pub peak_wider: Vec<i64>,
}

impl Solutions {
    /// The three of edition 1, in the order of their systems. Given for a file of edition 2 they are refused as [`crate::Refusal::File`].
    pub fn of_edition_1([base, wider, local]: [Vec<i64>; 3]) -> Solutions {
        Solutions { base, wider, local, ..Solutions::default() }
    }

    /// The five of edition 2, in the order of their systems. Given for a file of edition 1 they are refused as [`crate::Refusal::File`].
    pub fn of_edition_2([base, wider, local, peak_base, peak_wider]: [Vec<i64>; 5]) -> Solutions {
        Solutions { base, wider, local, peak_base, peak_wider }
    }

    /// The solutions in a file of either edition, from where its trailer says that they stand. A solution that cannot stand there, or is
    /// too long, is empty: the library refuses such a file as not whole in any case.
    pub fn of_file(file: &[u8]) -> Solutions {
        if file.len() < SHORTEST {
            Solutions::default()
        } else if field(file, EDITION) == Some(2) {
            Solutions::of_edition_2(solutions_in(file))
        } else {
            Solutions::of_edition_1(solutions_in(file))
        }
    }

    /// A case of a file with these solutions, and no share file.
    pub fn with<'a>(&'a self, file: &'a [u8]) -> Case<'a> {
        let Solutions { base, wider, local, peak_base, peak_wider } = self;
        Case { file, base, wider, local, peak_base, peak_wider, share: &[] }
    }
}

/// As many solutions as an edition has. The trailer has offset and count of each section, then version and length: 64 bytes where three
/// solutions follow the tables, 80 where five do.
fn solutions_in<const COUNT: usize>(file: &[u8]) -> [Vec<i64>; COUNT] {
    let trailer = file.len().saturating_sub(8 * (TABLES + COUNT + 1));
    std::array::from_fn(|k| section_of(file, trailer + 8 * (TABLES + k)).unwrap_or_default())
}

/// The numbers of the section that an entry of the trailer points at.
fn section_of(file: &[u8], entry: usize) -> Option<Vec<i64>> {
    let (offset, count) = (field(file, entry)?, field(file, entry + 4)?);
    if count > LONGEST {
        return None;
    }
    let bytes = file.get(offset..offset.checked_add(count.checked_mul(8)?)?)?;
    bytes.chunks_exact(8).map(|number| Some(i64::from_le_bytes(number.try_into().ok()?))).collect()
}

/// The number in the four bytes at a place.
fn field(file: &[u8], place: usize) -> Option<usize> {
    let bytes = file.get(place..place.checked_add(4)?)?;
    usize::try_from(u32::from_le_bytes(bytes.try_into().ok()?)).ok()
}
