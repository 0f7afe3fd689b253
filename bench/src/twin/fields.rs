//! Fields of a case file.

pub type Name = [u8; 12];

pub fn u32_at(file: &[u8], at: usize) -> usize {
    u32::from_le_bytes(file[at..at + 4].try_into().unwrap()) as usize
}

pub fn u64_at(file: &[u8], at: usize) -> u64 {
    u64::from_le_bytes(file[at..at + 8].try_into().unwrap())
}

pub fn name_at(file: &[u8], at: usize) -> &Name {
    file[at..at + 12].try_into().unwrap()
}

fn is_name_byte(byte: u8) -> bool {
    matches!(byte, b'0'..=b'9' | b'A'..=b'Z' | b'_')
}

pub fn name_formed(name: &Name) -> bool {
    let mut letters = 0;
    while letters < 12 && is_name_byte(name[letters]) {
        letters += 1;
    }
    letters >= 1 && name[letters..].iter().all(|byte| *byte == b' ')
}

/// A name as two numbers: its last eight bytes, where names of a table mostly differ, and its first four.
pub fn key_at(file: &[u8], at: usize) -> (u64, u32) {
    let name = name_at(file, at);
    (u64::from_le_bytes(name[4..].try_into().unwrap()), u32::from_le_bytes(name[..4].try_into().unwrap()))
}

/// The lowest row whose name an earlier row has; the count of rows where there is none.
pub fn repeated(file: &[u8], start: usize, stride: usize, count: usize) -> usize {
    for row in 0..count {
        if place(file, start, stride, row, key_at(file, start + stride * row)) < row {
            return row;
        }
    }
    count
}

/// The lowest row that has a name; the count of rows where there is none.
pub fn place(file: &[u8], start: usize, stride: usize, count: usize, name: (u64, u32)) -> usize {
    let rows = file[start..start + stride * count].chunks_exact(stride);
    rows.map(|row| key_at(row, 0)).position(|row| row == name).unwrap_or(count)
}
