//! 02, CR 6: inputs with share files that are not one fault of 16.

use super::Compare;
use crate::faults::Draft;
use crate::input::Input;
use crate::shares::of_share;
use reference::file::{Case, Edition};
use reference::random_share::sound;
use reference::sharing::Share;
use reference::tables::{sound_tables, Tables, PLANTS};
use std::io::Result;

/// How many sound share files are drawn for the one that has what was met least.
const DRAWN: usize = 6;

/// A sound share file by chance; none for the few networks whose tables are refused.
pub fn sound_share(case: &Case, seed: u64) -> Vec<u8> {
    sound_tables(case).map_or_else(|_| Vec::new(), |tables| sound(&tables, seed).bytes())
}

impl Compare {
    /// The share file that goes with a network: in edition 2 a sound one with every other, in edition 1 any bytes with one in four.
    pub fn share_of(&mut self, case: &Case) -> Vec<u8> {
        match (case.edition, self.chance.within(0, 3)) {
            (Edition::One, 0) => self.any_share(case),
            (Edition::Two, 0 | 1) => sound_share(case, self.chance.bits()),
            _ => Vec::new(),
        }
    }

    /// Share files for a case that is accepted: whatever stands there in edition 1; in edition 2 sound ones and ones by chance.
    pub fn shares(&mut self, draft: &Draft) -> Result<()> {
        let input = Input::of(&draft.case);
        if draft.case.edition == Edition::One {
            let share = self.any_share(&draft.case);
            return self.check(input.with_share(share), Some((0, 0, 0)), "edition 1, accepted with any share file");
        }
        let tables = sound_tables(&draft.case).expect("an accepted case's tables are sound");
        let share = self.rarest_share(&draft.case, &tables);
        self.accepted_share(&draft.case, &share)?;
        let changed = self.changed_share(share);
        self.check(input.clone().with_share(changed), None, "a share file with one number changed by chance")?;
        let numbers = self.share_of_numbers(&tables);
        self.check(input.clone().with_share(numbers), None, "a share file of numbers by chance")?;
        let share = self.any_share(&draft.case);
        self.check(input.with_share(share), None, "a share file of bytes by chance")
    }

    /// A sound share file: exact buffers, and ones a byte short.
    fn accepted_share(&mut self, case: &Case, share: &Share) -> Result<()> {
        let mut input = Input::of(case).with_share(share.bytes());
        input.sheet_len = input.expected().answer()[3] as usize;
        self.tally.met_share(case, &input.share);
        self.check(input.clone(), Some((0, 0, 0)), "accepted with a share file in a buffer of exactly its length")?;
        input.sheet_len -= 1;
        self.check(input, Some((12, 0, 0)), "refused with a share file in a buffer one byte short")
    }

    /// Of some sound share files by chance the one that has what was met least.
    fn rarest_share(&mut self, case: &Case, tables: &Tables) -> Share {
        let drawn: Vec<Share> = (0..DRAWN).map(|_| sound(tables, self.chance.bits())).collect();
        let rarity = |share: &Share| {
            let met = of_share(case, &share.bytes()).into_iter().filter(|(_, met)| *met);
            met.map(|(name, _)| 1.0 / (1.0 + self.tally.accepted_with(name) as f64)).sum::<f64>()
        };
        let rarest = drawn.iter().max_by(|one, other| rarity(one).total_cmp(&rarity(other)));
        rarest.expect("one share file and more").clone()
    }

    /// Another number for one zone or one load factor.
    fn changed_share(&mut self, mut share: Share) -> Vec<u8> {
        let zones = share.next.len() as u64;
        let place = self.chance.within(0, zones + PLANTS.len() as u64 - 1) as usize;
        match share.next.get_mut(place) {
            Some(next) => *next = self.chance.within(0, zones + 1) as u32,
            None => share.load[place - zones as usize] = self.chance.of(&[0, 1, 999, 1_000, 1_001, u32::MAX]),
        }
        share.bytes()
    }

    /// Any zone for each zone, and any load factors; one more than there are now and then.
    fn share_of_numbers(&mut self, tables: &Tables) -> Vec<u8> {
        let zones = tables.settings.generation_zones as u64;
        let more = self.chance.of(&[0, 0, 0, 0, 1]);
        let next = (0..zones).map(|_| self.chance.within(0, zones + more) as u32).collect();
        let load = std::array::from_fn(|_| self.chance.spread(0, 1_000 + more));
        Share { next, load }.bytes()
    }

    /// Bytes by chance, half of the time as many as a share file has.
    fn any_share(&mut self, case: &Case) -> Vec<u8> {
        let right = 4 * (case.settings.generation_zones as usize + PLANTS.len());
        let length = match self.chance.within(0, 3) {
            0 => self.chance.within(1, 300) as usize,
            1 => self.chance.of(&[1, right - 1, right + 1, 1_000, 40_000]),
            _ => right,
        };
        let most = self.chance.of(&[0, 255]);
        (0..length).map(|_| self.chance.within(0, most) as u8).collect()
    }
}
