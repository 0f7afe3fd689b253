//! 02, CR 6, 16: share files with a fault, of edition 2.

use super::files::case_of;
use super::{any, Faults};
use crate::edition_2::zones_by_types;
use crate::input::Input;
use reference::file::Edition;
use reference::random::Chance;
use reference::random_share::{kinds, sound, spoiled};
use reference::sharing::Share;
use reference::tables::sound_tables;

/// How often a kind of fault is drawn for, one in twelve at the least where the zones have a place for it.
const TRIES: usize = 60;

/// The bytes of share files of the fewest zones and of the most.
const SHORTEST: u64 = 4 * (1 + 7);
const LONGEST: u64 = 4 * (32 + 7);

pub fn add(list: &mut Faults) {
    list.only(Edition::Two, add_kinds);
    list.only(Edition::Two, add_lengths);
    list.only(Edition::Two, add_numbers);
    list.only(Edition::Two, add_orders);
}

/// Each kind of the reference's own.
fn add_kinds(list: &mut Faults) {
    for kind in kinds() {
        list.input(16, format!("share file: {kind}"), move |input, chance| {
            let tables = sound_tables(&case_of(input)?).ok()?;
            let mut drawn = (0..TRIES).map(|_| spoiled(&tables, chance.bits()));
            let of_kind = drawn.find(|spoiled| spoiled.kind == kind)?;
            input.share = of_kind.bytes;
            Some(of_kind.row as u64)
        });
    }
}

/// Lengths that no count of zones has.
fn add_lengths(list: &mut Faults) {
    list.input(16, "share file: shorter than any", |input, chance| {
        let length = chance.within(1, SHORTEST - 1) as usize;
        input.share = vec![0; length];
        Some(0)
    });
    list.input(16, "share file: longer than any", |input, chance| {
        let length = chance.of(&[LONGEST + 1, LONGEST + 4, 255, 256, 257, 1_000, 4_096, 65_536]) as usize;
        input.share = sound_share(input, chance)?.bytes().into_iter().cycle().take(length).collect();
        Some(0)
    });
}

/// A sound file but for one number, whose lower bytes alone would be sound.
fn add_numbers(list: &mut Faults) {
    list.input(16, "share file: a zone's number and a higher byte", |input, chance| {
        let mut share = sound_share(input, chance)?;
        let zone = any(chance, share.next.len())?;
        share.next[zone] += chance.of(&[1 << 8, 1 << 16, 1 << 24]);
        lend(input, share, zone + 1)
    });
    list.input(16, "share file: a load factor and a higher byte", |input, chance| {
        let mut share = sound_share(input, chance)?;
        let plant = any(chance, share.load.len())?;
        share.load[plant] += chance.of(&[1 << 16, 1 << 24]);
        lend(input, share, 0)
    });
}

/// "row 0 for a wrong length or load factor, else the lowest zone that ..".
fn add_orders(list: &mut Faults) {
    list.input(16, "share file: a load factor, and a zone that names an absent one", |input, chance| {
        let mut share = sound_share(input, chance)?;
        let (zone, plant) = (any(chance, share.next.len())?, any(chance, share.load.len())?);
        (share.next[zone], share.load[plant]) = (u32::MAX, 1_001);
        lend(input, share, 0)
    });
    list.input(16, "share file: two zones that name an absent one", |input, chance| {
        let mut share = sound_share(input, chance)?;
        let (one, other) = (any(chance, share.next.len())?, any(chance, share.next.len())?);
        share.next[one] = share.next.len() as u32 + 1;
        share.next[other] = u32::MAX;
        (one != other).then(|| lend(input, share, one.min(other) + 1))?
    });
    list.input(16, "share file: every zone a centre", |input, chance| {
        let mut share = sound_share(input, chance)?;
        let second = *zones_by_types(&case_of(input)?).keys().nth(1)?;
        share.next.fill(0);
        lend(input, share, second as usize)
    });
}

/// A sound share file for an input whose tables are sound.
fn sound_share(input: &Input, chance: &mut Chance) -> Option<Share> {
    Some(sound(&sound_tables(&case_of(input)?).ok()?, chance.bits()))
}

/// Lends a share file that is refused at a row.
fn lend(input: &mut Input, share: Share, row: usize) -> Option<u64> {
    input.share = share.bytes();
    Some(row as u64)
}
