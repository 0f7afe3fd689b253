//! Inputs of bytes by chance.

use super::Compare;
use crate::input::Input;
use crate::networks::{EDITION_2, VERSION_1, VERSION_2};
use reference::file::{Case, ZERO_AT};
use std::io::Result;

impl Compare {
    /// Bytes by chance of every length from 0, and sections of such bytes with a trailer that fits.
    pub fn random_bytes(&mut self) -> Result<()> {
        for number in 0..self.plan.random_bytes {
            let length = if number < 2_100 { number } else { self.chance.within(0, 70_000) as usize };
            let file = self.bytes(length);
            let runs =
                std::array::from_fn(|_| (0..self.chance.within(0, 9)).map(|_| self.chance.bits() as i64).collect());
            let count = self.chance.of(&[0, self.chance.0 as usize % 200]);
            let input = Input::new(file, runs).with_share(self.bytes(count));
            if number % 4 == 0 && length >= 128 {
                let named = self.named(input.clone());
                self.check(named, Some((1, 0, 0)), "bytes by chance that name an edition, a version and their length")?;
            }
            self.check(input, Some((1, 0, 0)), "bytes by chance")?;
            if number % 8 == 0 {
                let case = self.random_tables();
                self.check(Input::of(&case), None, "tables of bytes by chance")?;
            }
        }
        Ok(())
    }

    /// A file whose settings name an edition, and whose last bytes a version and its length.
    fn named(&mut self, mut input: Input) -> Input {
        let (zero, version) = (self.chance.of(&[0u32, 2]), self.chance.of(&[1u32, 2]));
        let length = input.file.len();
        let words = [(ZERO_AT, zero), (length - 8, version), (length - 4, length as u32)];
        words.iter().for_each(|(at, word)| input.file[*at..at + 4].copy_from_slice(&word.to_le_bytes()));
        input
    }

    /// A whole file of either edition and version, of bytes by chance but for what says so.
    fn random_tables(&mut self) -> Case {
        let (version, edition) = self.chance.of(&[VERSION_1, VERSION_2, EDITION_2]);
        let [nodes, circuits, stations] = [1, 0, 0].map(|least| self.chance.within(least, 20) as usize);
        let solutions = std::iter::repeat_n(nodes + circuits, edition.runs());
        let counts: Vec<usize> = [1, nodes, circuits, stations].into_iter().chain(solutions).collect();
        let length = counts.iter().zip(edition.sizes(version)).map(|(count, size)| count * size).sum();
        let bytes = self.bytes(length);
        let mut case = Case::read(&bytes, version, edition, &counts).expect("bytes for all rows");
        case.settings.zero = edition.zero();
        case
    }

    fn bytes(&mut self, length: usize) -> Vec<u8> {
        (0..length).map(|_| self.chance.bits() as u8).collect()
    }
}
