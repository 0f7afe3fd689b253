//! Case KILN, and what the tests change in a file.

pub const KILN: &[u8] = include_bytes!("../../../../crates/tariff/stdin");

pub fn u32_at(file: &[u8], place: usize) -> u32 {
    u32::from_le_bytes(file[place..place + 4].try_into().unwrap())
}

pub fn put_u32(file: &mut [u8], place: usize, number: u32) {
    file[place..place + 4].copy_from_slice(&number.to_le_bytes());
}

/// A file of version 1 with three circuits of 44 bytes, from 136 on, as one of version 2: a zero behind each row.
pub fn in_version_2(file: &[u8]) -> Vec<u8> {
    let rows = file[136..268].chunks(44).flat_map(|row| [row, &[0; 4]].concat());
    let mut made: Vec<u8> = file[..136].iter().copied().chain(rows).chain(file[268..].iter().copied()).collect();
    let trailer = made.len() - 64;
    for section in 3..7 {
        let place = trailer + 8 * section;
        let offset = u32_at(&made, place);
        put_u32(&mut made, place, offset + 12);
    }
    let length = made.len() as u32;
    put_u32(&mut made, trailer + 56, 2);
    put_u32(&mut made, trailer + 60, length);
    made
}
