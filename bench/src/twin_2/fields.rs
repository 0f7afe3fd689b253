//! Fields of a case file, and rows of names.

pub fn u32_at(bytes: &[u8], at: usize) -> usize {
    u32::from_le_bytes(bytes[at..at + 4].try_into().unwrap()) as usize
}

pub fn u64_at(bytes: &[u8], at: usize) -> u64 {
    u64::from_le_bytes(bytes[at..at + 8].try_into().unwrap())
}

fn is_name_byte(byte: u8) -> bool {
    matches!(byte, b'0'..=b'9' | b'A'..=b'Z' | b'_')
}

/// Whether the 12 bytes at a place are a name: name bytes, at least one, and then spaces.
pub fn name_formed(bytes: &[u8], at: usize) -> bool {
    let name = &bytes[at..at + 12];
    let letters = name.iter().take_while(|byte| is_name_byte(**byte)).count();
    letters >= 1 && name[letters..].iter().all(|byte| *byte == b' ')
}

/// A name as two numbers: its last eight bytes, where names of a table mostly differ, and its first four.
pub fn key_at(bytes: &[u8], at: usize) -> (u64, u32) {
    (u64_at(bytes, at + 4), u32_at(bytes, at) as u32)
}

/// The lowest row that begins with a name; the count of rows where there is none.
pub fn place<const SIZE: usize>(rows: &[[u8; SIZE]], name: (u64, u32)) -> usize {
    rows.iter().position(|row| key_at(row, 0) == name).unwrap_or(rows.len())
}

/// The lowest row whose name an earlier row has; the count of rows where there is none.
pub fn repeated<const SIZE: usize>(rows: &[[u8; SIZE]]) -> usize {
    let seen = |row: usize| place(&rows[..row], key_at(&rows[row], 0)) < row;
    (0..rows.len()).position(seen).unwrap_or(rows.len())
}

/// Fills a column with a value of each row.
pub fn fill<T>(column: &mut [T], rows: impl Iterator<Item = T>) {
    for (value, row) in column.iter_mut().zip(rows) {
        *value = row;
    }
}
