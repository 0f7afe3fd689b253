//! 01 "The case file": names that are well-formed and names that aren't.

use crate::file::{padded, Case, Name};

/// Malformed names with what is wrong with them. The letters before A, behind Z, before 0, behind 9 and beside the
/// underscore are among them.
pub fn malformed() -> Vec<(&'static str, Name)> {
    vec![
        ("empty", padded(b"")),
        ("with a space before", padded(b" NODB")),
        ("with a space inside", padded(b"NO DB")),
        ("with a letter in the last place behind spaces", *b"NODB       B"),
        ("in lower case", padded(b"nodb")),
        ("with a lower case letter last", padded(b"NODb")),
        ("with NUL padding", *b"NODB\0\0\0\0\0\0\0\0"),
        ("with one NUL in the last place", *b"NODB       \0"),
        ("of NULs", [0; 12]),
        ("with a tab", padded(b"NODB\t")),
        ("with a line feed", padded(b"NODB\n")),
        ("with a hyphen", padded(b"NOD-B")),
        ("with an at sign", padded(b"NOD@")),
        ("with a bracket", padded(b"NOD[")),
        ("with a slash", padded(b"NOD/")),
        ("with a colon", padded(b"NOD:")),
        ("with a caret", padded(b"NOD^")),
        ("with a backquote", padded(b"NOD`")),
        ("with a byte of 255", padded(b"\xffNODB")),
        ("with A and the high bit", padded(b"NOD\xc1")),
        ("of 12 letters, the last a full stop", *b"NODANODANOD."),
    ]
}

/// Well-formed names of all letters and of lengths 1, 2, 11 and 12.
pub const WELL_FORMED: [&str; 9] =
    ["A", "_", "0", "Z9", "ABCDEFGHIJK", "ABCDEFGHIJKL", "MNOPQRSTUVWX", "YZ0123456789", "____________"];

/// A node by another name, in its row, its circuits and its stations.
pub fn rename_node(case: &mut Case, row: usize, new: Name) {
    let old = std::mem::replace(&mut case.nodes[row].name, new);
    let ends = case.circuits.iter_mut().flat_map(|circuit| [&mut circuit.first, &mut circuit.second]);
    let places = case.stations.iter_mut().map(|station| &mut station.node);
    ends.chain(places).filter(|name| **name == old).for_each(|name| *name = new);
}
