//! Every cause of every number of 01, "What stops a case", and of 02 as a change of a case that is accepted.

mod editions;
mod files;
mod proposals;
pub use proposals::{misses_pass, step_past};
mod rows;
mod settings;
mod shares;
mod tables;

use crate::input::Input;
use reference::file::{Case, Edition, RUNS};
use reference::random::Chance;

/// The solutions, in the order of their systems' numbers.
const SOLUTIONS: [&str; RUNS] = ["base", "wider", "local", "peak base", "peak wider"];

/// Number, system, row.
pub type Told = (u64, u64, u64);

/// A case in the making: its tables and solutions, then its bytes and what is lent.
pub struct Draft {
    pub case: Case,
    /// 02, CR 6: the share file that is lent with it, sound or empty; any bytes in edition 1.
    pub share: Vec<u8>,
    /// The length of the sheet of the case without faults.
    pub sheet: usize,
}

impl Draft {
    /// What is lent without faults.
    pub fn input(&self) -> Input {
        Input::of(&self.case).with_share(self.share.clone())
    }
}

/// Where a fault is planted. Each gives the row that 01 names, or nothing where the case has no place for it.
pub enum Plant {
    /// In the tables or the solutions; the trailer is made afterwards.
    Case(Box<dyn Fn(&mut Case, &mut Chance) -> Option<u64>>),
    /// In the file's bytes, the share file's or the lent runs and buffers.
    Input(Box<dyn Fn(&mut Input, &mut Chance) -> Option<u64>>),
}

/// A cause of a refusal.
pub struct Fault {
    pub cause: String,
    pub number: u64,
    pub system: u64,
    /// The edition of the cases that it can be planted in; none where it is all one.
    pub only: Option<Edition>,
    pub plant: Plant,
}

impl Fault {
    /// The place in the order: "1 to 7", 13 "after 7" (02, CR 1), 14 "after 13" (CR 5), 16 "after 14" (CR 6); "8, 9, 10 for system
    /// 1; 11; 8, 9, 10 for system 2, then 3; 12", and in edition 2 "8 to 10 for systems 1 and 4; 15 ..; 11 ..; 8 to 10 for 2, 5 and 3".
    pub fn order(&self) -> u64 {
        // Behind the base systems 15 and 11 take two places.
        let start = |system: u64| match system {
            1 => 11,
            4 => 14,
            2 => 19,
            5 => 22,
            _ => 25,
        };
        match (self.number, self.system) {
            (13, _) => 8,
            (14, _) => 9,
            (16, _) => 10,
            (8..=10, system) => start(system) + self.number - 8,
            (15, _) => 17,
            (11, _) => 18,
            (12, _) => 28,
            (number, _) => number,
        }
    }

    /// Number and system.
    pub fn key(&self) -> (u64, u64) {
        (self.number, self.system)
    }

    /// Whether it is planted by moving a flow.
    pub fn moves_flow(&self) -> bool {
        self.cause.contains(proposals::MOVED)
    }

    /// Whether it can be planted in cases of an edition.
    pub fn is_of(&self, edition: Edition) -> bool {
        self.only.is_none_or(|only| only == edition)
    }
}

/// A list in the making.
#[derive(Default)]
pub struct Faults {
    list: Vec<Fault>,
    /// The edition of what is added now.
    only: Option<Edition>,
}

impl Faults {
    /// What `add` adds is of one edition.
    fn only(&mut self, edition: Edition, add: impl FnOnce(&mut Faults)) {
        self.only = Some(edition);
        add(self);
        self.only = None;
    }

    /// Adds for each solution, by its place and its name; peak's are of edition 2.
    fn each_solution(&mut self, add: impl Fn(&mut Faults, usize, &'static str)) {
        for (place, name) in SOLUTIONS.into_iter().enumerate() {
            self.only = (place >= Edition::One.runs()).then_some(Edition::Two);
            add(self, place, name);
        }
        self.only = None;
    }

    fn push(&mut self, number: u64, system: u64, cause: String, plant: Plant) {
        self.list.push(Fault { cause, number, system, only: self.only, plant });
    }

    fn case(
        &mut self,
        number: u64,
        system: u64,
        cause: impl Into<String>,
        plant: impl Fn(&mut Case, &mut Chance) -> Option<u64> + 'static,
    ) {
        self.push(number, system, cause.into(), Plant::Case(Box::new(plant)));
    }

    fn input(
        &mut self,
        number: u64,
        cause: impl Into<String>,
        plant: impl Fn(&mut Input, &mut Chance) -> Option<u64> + 'static,
    ) {
        self.push(number, 0, cause.into(), Plant::Input(Box::new(plant)));
    }
}

/// The whole list, in 01's order of numbers.
pub fn all() -> Vec<Fault> {
    let mut list = Faults::default();
    files::add(&mut list);
    editions::add(&mut list);
    settings::add(&mut list);
    rows::add(&mut list);
    tables::add(&mut list);
    shares::add(&mut list);
    proposals::add(&mut list);
    list.list
}

/// A place of a list, from 0.
fn any(chance: &mut Chance, count: usize) -> Option<usize> {
    (count > 0).then(|| chance.within(0, count as u64 - 1) as usize)
}

/// Plants faults in a case, those that come later in 01's order first, so that an earlier one has the last word: the input, and what
/// 01 answers to each of them, first to the one that it answers to all. Nothing where a fault has no place.
pub fn planted(draft: &Draft, faults: &mut [&Fault], chance: &mut Chance) -> Option<(Input, Vec<Told>)> {
    faults.sort_by_key(|fault| std::cmp::Reverse(fault.order()));
    let mut case = draft.case.clone();
    let mut told = Vec::new();
    let mut say =
        |fault: &Fault, row: Option<u64>| row.map(|row| told.push((fault.order(), (fault.number, fault.system, row))));
    for fault in faults.iter() {
        if let Plant::Case(plant) = &fault.plant {
            say(fault, plant(&mut case, chance))?;
        }
    }
    let mut input = Input::of(&case).with_share(draft.share.clone());
    input.sheet_len = draft.sheet;
    for fault in faults.iter() {
        if let Plant::Input(plant) = &fault.plant {
            say(fault, plant(&mut input, chance))?;
        }
    }
    told.sort_by_key(|(order, (_, _, row))| (*order, *row));
    Some((input, told.into_iter().map(|(_, told)| told).collect()))
}
