//! Inputs that the fuzz target starts from, always the same.

use crate::compare::sound_share;
use crate::faults::{self, Draft, Fault};
use crate::networks::{network, tastes, EDITION_2, SHAPES};
use reference::random::Chance;
use reference::replay;
use std::io::Result;

/// The most bytes of a share file and a case file that the fuzz target takes.
const LONGEST: usize = 8_184;

/// A case file and its share file.
type Files = (Vec<u8>, Vec<u8>);

/// Writes each as a file of a folder: eight bytes that lend a buffer for any sheet, the share file's length and the file's own runs;
/// then the share file and the case file.
pub fn write(folder: &str) -> Result<()> {
    let listed = replay::cases().into_iter().map(|case| (case.file, case.share));
    let drafts = networks_of_edition_2();
    let whole = drafts.iter().map(|draft| (draft.case.bytes(), draft.share.clone()));
    let all: Vec<Files> = listed.chain(whole).chain(with_faults(&drafts)).collect();
    for (number, (file, share)) in
        all.iter().enumerate().filter(|(_, (file, share))| file.len() + share.len() <= LONGEST)
    {
        let Ok(length) = u8::try_from(share.len()) else { continue };
        let input = [&[0, 128, length, 0, 0, 0, 0, 0], &share[..], &file[..]].concat();
        std::fs::write(format!("{folder}/{number:04}"), input)?;
    }
    Ok(())
}

/// 02, CR 5: networks of every taste and shape. 02, CR 6: every other with a sound share file.
fn networks_of_edition_2() -> Vec<Draft> {
    let (tastes, chance) = (tastes(EDITION_2.1), &mut Chance(1));
    let made = |number: usize| {
        let (shape, nodes) = (SHAPES[number % SHAPES.len()], chance.within(1, 12) as usize);
        let case = network(chance, shape, tastes[number % tastes.len()], nodes, EDITION_2);
        // by pairs, so that every shape and taste has both
        let share = if number / 2 % 2 == 0 { Vec::new() } else { sound_share(&case, number as u64) };
        let draft = Draft { case, share, sheet: 0 };
        let [_, _, _, sheet] = draft.input().expected().answer();
        Draft { sheet: sheet as usize, ..draft }
    };
    (0..10 * tastes.len()).map(made).collect()
}

/// Every fault of edition 2, each in the first network that is accepted and has a place for it.
fn with_faults(drafts: &[Draft]) -> Vec<Files> {
    let chance = &mut Chance(2);
    let accepted = || drafts.iter().filter(|draft| draft.sheet > 0);
    let mut planted = |fault: &Fault| {
        let mut inputs = accepted().filter_map(|draft| faults::planted(draft, &mut [fault], chance));
        inputs.next().map(|(input, _)| (input.file, input.share))
    };
    faults::all().iter().filter(|fault| fault.is_of(EDITION_2.1)).filter_map(&mut planted).collect()
}
