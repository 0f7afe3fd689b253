//! The run: inputs of each kind, each through the library and the reference.

mod bytes;
mod pairs;
mod shares;
pub use shares::sound_share;

use crate::bands::{self, at_edge};
use crate::faults::{self, Draft, Fault, Told};
use crate::input::{shown, Input, Outcome, LONGEST_SHEET};
use crate::library::Library;
use crate::networks::{network, tastes, Form, Shape, EDITION_2, SHAPES, VERSION_1, VERSION_2};
use crate::program::{Archive, Differing, Tariff};
use crate::tally::Tally;
use reference::file::{whole_case, Case, Edition, Version};
use reference::program_output_with_share;
use reference::random::{spoiled, Chance};
use reference::replay::{self, Told as Said};
use std::io::Result;
use std::time::Instant;

/// How much of each kind.
#[derive(Clone, Copy)]
pub struct Plan {
    /// Networks by their most nodes: how many, and how many faults, pairs and spoiled copies each.
    pub sizes: [(usize, usize, usize); 4],
    pub random_bytes: usize,
    /// The list of the replay too.
    pub replay: bool,
    /// One file in so many through `tariff`, and one in so many through `replay`.
    pub tariff: u64,
    pub archive: u64,
    pub least_answer: u64,
    pub least_cause: u64,
}

impl Plan {
    pub const SHORT: Plan = Plan {
        sizes: [(12, 840, 8), (60, 60, 8), (255, 6, 4), (256, 60, 2)],
        random_bytes: 1_000,
        replay: true,
        tariff: 200,
        archive: 4,
        least_answer: 50,
        least_cause: 5,
    };
    pub const LONG: Plan = Plan {
        sizes: [(12, 8_600, 8), (60, 800, 8), (255, 120, 4), (256, 800, 2)],
        random_bytes: 12_000,
        replay: true,
        tariff: 500,
        archive: 4,
        least_answer: 1_000,
        least_cause: 100,
    };
}

/// 02, CR 3: what is put through the library once more in the other version.
const LISTED_IN_VERSION_2: &str = "a case of the replay's list, in version 2";
const NETWORK_IN_VERSION_2: &str = "a network by chance, in version 2";

/// 02, CR 5: what the two forms leave behind of a case that is accepted with five runs.
const TWO_BY_THREE: &str = "edition 2, accepted with five runs and refused as 1 with three";
const ONE_BY_THREE: &str = "edition 1, accepted with five runs and with three";

/// 02, CR 6: what the forms leave behind of a case that is lent a share file and accepted without.
const ONE_BY_SHARE: &str = "edition 1, accepted with a share file and without";
const TWO_BY_SHARE: &str = "edition 2, accepted with a share file and without";
const REFUSED_BY_SHARE: &str = "edition 2, refused as 16 with a share file and accepted without";

pub struct Compare {
    plan: Plan,
    seed: u64,
    chance: Chance,
    library: Library,
    commands: [Vec<String>; 3],
    faults: Vec<Fault>,
    tally: Tally,
    archive: Archive,
    tariff: Tariff,
    /// Cases with a share file through `tariff` and through `replay`.
    with_share: [u64; 2],
    differences: u64,
    started: Instant,
}

impl Compare {
    pub fn start(plan: Plan, seed: u64, commands: [Vec<String>; 3]) -> Result<Compare> {
        let library = Library::start(&commands[0])?;
        let mut tally = Tally::default();
        let faults = faults::all();
        faults.iter().for_each(|fault| tally.expect(&name(fault)));
        tally.expect_accepted();
        for cause in [LISTED_IN_VERSION_2, NETWORK_IN_VERSION_2, TWO_BY_THREE, ONE_BY_THREE] {
            tally.expect(cause);
        }
        [ONE_BY_SHARE, TWO_BY_SHARE, REFUSED_BY_SHARE].iter().for_each(|cause| tally.expect(cause));
        bands::ACCEPTED.iter().for_each(|(edge, _)| tally.expect(&at_edge_said(edge)));
        pairs::asked_orders().iter().for_each(|order| tally.expect(order));
        Ok(Compare {
            plan,
            seed,
            chance: Chance(seed),
            library,
            tariff: Tariff::start(&commands[1])?,
            commands,
            faults,
            tally,
            archive: Archive::default(),
            with_share: [0; 2],
            differences: 0,
            started: Instant::now(),
        })
    }

    /// Everything, and the counts: whether nothing differed and nothing was rare.
    pub fn run(mut self) -> Result<bool> {
        println!("seed {}", self.seed);
        if self.plan.replay {
            self.listed()?;
        }
        for (most, count, each) in self.plan.sizes {
            for number in 0..count {
                self.network(most, number, each)?;
            }
        }
        self.random_bytes()?;
        if self.archive.len() > 0 {
            if let Some(differing) = self.archive.differing(&self.commands[2])? {
                self.program_differs("replay", differing);
            }
        }
        let rare = self.tally.report(self.plan.least_answer, self.plan.least_cause);
        let [tariff, replay] = self.with_share;
        println!(
            "programs: {} cases through tariff, {tariff} of them with a share file, {} through replay, {replay} with one",
            self.tariff.files,
            self.archive.len()
        );
        println!(
            "seed {}, {} inputs, {} differences, {:.0} s",
            self.seed,
            self.tally.inputs,
            self.differences,
            self.started.elapsed().as_secs_f64()
        );
        rare.iter().for_each(|what| println!("too rare: {what}"));
        Ok(self.library.end()? && self.differences == 0 && rare.is_empty())
    }

    /// The cases of the replay, with what they tell, and those of version 1 in version 2 as well.
    fn listed(&mut self) -> Result<()> {
        for case in replay::cases() {
            let runs = whole_case(&case.file).map(|case| case.runs).unwrap_or_default();
            let told = match case.told {
                Said::Sheet => Some((0, 0, 0)),
                Said::Refused(number, system, row) => Some((number as u64, system as u64, row as u64)),
                Said::Open => None,
            };
            let input = Input::new(case.file, runs).with_share(case.share);
            self.check_in_both(input, told, "a case of the replay's list", LISTED_IN_VERSION_2)?;
        }
        Ok(())
    }

    /// 02, CR 3, "one case in either version gives one sheet": an input, and where its file is of version 1 and has a place in
    /// version 2, the same case so: the library leaves the same behind.
    fn check_in_both(&mut self, input: Input, told: Option<Told>, cause: &str, again: &str) -> Result<()> {
        let input = self.anywhere(input);
        let first = self.checked(&input, told, cause)?;
        let case = whole_case(&input.file).filter(|case| case.version == Version::One);
        let Some(case) = case.and_then(|case| case.in_version(Version::Two).ok()) else { return Ok(()) };
        let rewritten = Input { file: case.bytes(), ..input };
        let second = self.checked(&rewritten, told, again)?;
        if let (Some(first), Some(second)) = (first, second) {
            if first != second {
                self.differs(again, &rewritten.text(), &second.said(), &first.said());
            }
        }
        Ok(())
    }

    /// A network, and what is made from it.
    fn network(&mut self, most: usize, number: usize, each: usize) -> Result<()> {
        let nodes = if most == 256 { 256 } else { self.chance.within(1, most as u64) as usize };
        let (shape, form) = self.shape_and_form(nodes, number);
        let tastes = tastes(form.1);
        let taste = tastes[number % tastes.len()];
        let case = network(&mut self.chance, shape, taste, nodes, form);
        let mut draft = Draft { share: self.share_of(&case), case, sheet: 0 };
        let outcome = draft.input().expected();
        self.check_in_both(draft.input(), None, "a network by chance", NETWORK_IN_VERSION_2)?;
        if outcome.answer()[0] != 0 {
            return self.spoiled(&draft, each);
        }
        draft.sheet = outcome.answer()[3] as usize;
        self.tally.met_accepted(&draft.case, &outcome.shared.sheet[..draft.sheet]);
        self.tally.met_share(&draft.case, &draft.share);
        self.accepted(&draft)?;
        self.tally.met(&format!("accepted, a network of shape: {}", shape.0));
        self.tally.met(&format!("accepted, edition {}, figures: {taste}", form.1.number()));
        self.shares(&draft)?;
        self.single_faults(&draft, each)?;
        self.pairs(&draft, each)?;
        self.spoiled(&draft, each / 4)
    }

    /// Of the greatest networks most have as many circuits as their form holds; of the others nine in twenty are of edition 2.
    fn shape_and_form(&mut self, nodes: usize, number: usize) -> (Shape, Form) {
        match (nodes, (number + number / 12) % 5) {
            (256, 1) => (SHAPES[5], VERSION_1),
            (256, 2) => (SHAPES[5], VERSION_2),
            (256, 3 | 4) => (SHAPES[5], EDITION_2),
            _ => {
                let form = match self.chance.within(0, 19) {
                    0..=8 => EDITION_2,
                    _ => self.chance.of(&[VERSION_1, VERSION_2]),
                };
                (self.chance.of(&SHAPES), form)
            }
        }
    }

    /// An accepted case: exact and longer buffers, solutions in the file that are not those lent, misses up to their limit, flows at
    /// the edges of the bands.
    fn accepted(&mut self, draft: &Draft) -> Result<()> {
        let (case, mut input) = (&draft.case, draft.input());
        let lent = |case: &Case| Input::of(case).with_share(draft.share.clone());
        input.sheet_len = draft.sheet;
        self.check(input.clone(), Some((0, 0, 0)), "accepted in a buffer of exactly its length")?;
        input.sheet_len -= 1;
        self.check(input.clone(), Some((12, 0, 0)), "refused in a buffer one byte short")?;
        input.sheet_len += 1 + self.chance.within(1, 300) as usize;
        self.check(input.clone(), Some((0, 0, 0)), "accepted in a longer buffer")?;
        let other =
            Case { runs: case.runs.clone().map(|run| run.iter().map(|number| number ^ 1).collect()), ..case.clone() };
        input.file = other.bytes();
        self.check(input, Some((0, 0, 0)), "accepted with other solutions in the file than those lent")?;
        let system = self.chance.within(0, case.edition.runs() as u64 - 1) as usize;
        if let Some((place, step)) = faults::step_past(case, system, &mut self.chance) {
            let mut case = case.clone();
            case.runs[system][place] += step - step.signum();
            self.check(lent(&case), Some((0, 0, 0)), "accepted with misses up to 100,000,000")?;
        }
        for (name, edge) in bands::ACCEPTED {
            if let Some((moved, _)) = at_edge(case, edge, None, &mut self.chance) {
                self.check(lent(&moved), Some((0, 0, 0)), &at_edge_said(name))?;
            }
        }
        Ok(())
    }

    /// Faults one at a time, those met least first.
    fn single_faults(&mut self, draft: &Draft, each: usize) -> Result<()> {
        let fits = |place: &usize| self.faults[*place].is_of(draft.case.edition);
        let mut places: Vec<usize> = (0..self.faults.len()).filter(fits).collect();
        places.sort_by_key(|place| self.tally.causes[&name(&self.faults[*place])]);
        let mut left = each;
        for place in places.into_iter().take(5 * each) {
            let fault = &self.faults[place];
            let Some((input, told)) = faults::planted(draft, &mut [fault], &mut self.chance) else { continue };
            let (name, number) = (name(fault), fault.number);
            let input = self.with_any_buffer(input, number);
            self.check(input, Some(told[0]), &name)?;
            left -= 1;
            if left == 0 {
                break;
            }
        }
        Ok(())
    }

    /// Copies with one thing changed by chance, whatever comes of it.
    fn spoiled(&mut self, draft: &Draft, count: usize) -> Result<()> {
        for _ in 0..count {
            let seed = self.chance.bits();
            let input = Input::of(&spoiled(&draft.case, seed)).with_share(draft.share.clone());
            let input = self.with_any_buffer(input, 0);
            self.check(input, None, "a field changed by chance")?;
        }
        Ok(())
    }

    /// Any buffer, but for a fault of the buffer itself.
    fn with_any_buffer(&mut self, mut input: Input, number: u64) -> Input {
        if number != 12 && number != 0 {
            input.sheet_len = self.chance.of(&[0, 1, input.sheet_len, LONGEST_SHEET, self.chance.0 as usize % 2_000]);
        }
        input
    }

    /// An input lent in any place, over any fill.
    fn anywhere(&mut self, mut input: Input) -> Input {
        input.place = self.chance.within(0, 1) as u32;
        input.fill = self.chance.bits() as u32;
        input
    }

    /// One input, lent anywhere, through the library, and for some through the programs: a difference is told.
    fn check(&mut self, input: Input, told: Option<Told>, cause: &str) -> Result<()> {
        let input = self.anywhere(input);
        self.checked(&input, told, cause).map(|_| ())
    }

    /// The same for an input as it is: what the library left behind; nothing where it did not come back.
    fn checked(&mut self, input: &Input, told: Option<Told>, cause: &str) -> Result<Option<Outcome>> {
        let expected = input.expected();
        let outcome = self.called(input, &expected, cause)?;
        let [number, system, row, _] = expected.answer();
        if told.is_some_and(|told| told != (number, system, row)) {
            self.differs(cause, &input.text(), &format!("{told:?} is told of this cause"), &expected.said());
        }
        self.tally.answered(input.edition(), (number, system, row));
        if self.tally.inputs % 20_000 == 0 {
            eprintln!(
                "outside: {} inputs, {} differences, {:.0} s",
                self.tally.inputs,
                self.differences,
                self.started.elapsed().as_secs_f64()
            );
        }
        self.tally.met(cause);
        self.forms(input, &expected);
        self.programs(&input.file, &input.share)?;
        Ok(outcome)
    }

    /// Counts what the forms leave behind of a case that is accepted with five runs.
    fn forms(&mut self, input: &Input, expected: &Outcome) {
        if expected.five.written.0 != 0 {
            return;
        }
        match (input.edition(), expected.three.written.0) {
            (Some(Edition::One), 0) => self.tally.met(ONE_BY_THREE),
            (Some(Edition::Two), 1) => self.tally.met(TWO_BY_THREE),
            _ => (),
        }
        match (input.edition(), expected.shared.written.0, input.share.is_empty()) {
            (Some(Edition::One), 0, false) => self.tally.met(ONE_BY_SHARE),
            (Some(Edition::Two), 0, false) => self.tally.met(TWO_BY_SHARE),
            (Some(Edition::Two), 16, false) => self.tally.met(REFUSED_BY_SHARE),
            _ => (),
        }
    }

    /// What the library left behind of an input, where it came back, held to what it has to be.
    fn called(&mut self, input: &Input, expected: &Outcome, cause: &str) -> Result<Option<Outcome>> {
        let (outcome, said) = match self.library.call(input) {
            Ok(outcome) => {
                let said = (outcome != *expected).then(|| outcome.said());
                (Some(outcome), said)
            }
            Err(error) => {
                let ended = self.library.again()?;
                (None, Some(format!("no answer ({error}); the caller ended: {ended}")))
            }
        };
        if let Some(said) = said {
            self.differs(cause, &input.text(), &said, &expected.said());
        }
        Ok(outcome)
    }

    /// One case in some through the programs.
    fn programs(&mut self, file: &[u8], share: &[u8]) -> Result<()> {
        let archived = !self.commands[2].is_empty() && self.archive.takes(file, share);
        if archived && self.tally.inputs % self.plan.archive == 0 {
            self.with_share[1] += !share.is_empty() as u64;
            self.archive.add(file, share);
        }
        if self.tariff.is_asked() && self.tally.inputs % self.plan.tariff == 0 {
            self.with_share[0] += !share.is_empty() as u64;
            let (printed, expected) = (self.tariff.prints(file, share)?, program_output_with_share(file, share));
            if printed != expected {
                let [file, share] = [file, share].map(<[u8]>::to_vec);
                self.program_differs("tariff", Differing { file, share, printed, expected });
            }
        }
        Ok(())
    }

    /// Tells a difference of a program.
    fn program_differs(&mut self, program: &str, differing: Differing) {
        let Differing { file, share, printed, expected } = differing;
        let [printed, expected] = [printed, expected].map(|bytes| String::from_utf8_lossy(&bytes).into_owned());
        self.differs(program, &shown(&file, &share), &printed, &expected);
    }

    /// Tells a difference. After twenty the rest is only counted.
    fn differs(&mut self, cause: &str, input: &str, ours: &str, reference: &str) {
        self.differences += 1;
        if self.differences <= 20 {
            println!("DIFFERENCE {}: {cause}\n{input}\nours: {ours}\nreference: {reference}\n", self.differences);
        }
    }
}

/// A fault's name among the causes.
fn name(fault: &Fault) -> String {
    format!("{:>2}: {}", fault.number, fault.cause)
}

/// An accepted case at an edge of a band.
fn at_edge_said(edge: &str) -> String {
    format!("accepted with {edge}")
}
