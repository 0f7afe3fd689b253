//! Plant types, how they run in a background, and what counts of the TEC of one.

use super::editions::{Background, Edition};

#[derive(Clone, Copy)]
enum Plant {
    Intermittent,
    NuclearAndCcs,
    Interconnector,
    Hydro,
    PumpedStorage,
    Peaking,
    Other,
}

impl Plant {
    fn of(number: usize) -> Plant {
        match number {
            1 => Plant::Intermittent,
            2 => Plant::NuclearAndCcs,
            3 => Plant::Interconnector,
            4 => Plant::Hydro,
            5 => Plant::PumpedStorage,
            6 => Plant::Peaking,
            _ => Plant::Other,
        }
    }

    fn pays(self) -> bool {
        !matches!(self, Plant::Interconnector)
    }

    fn pays_at_peak(self) -> bool {
        !matches!(self, Plant::Interconnector | Plant::Intermittent)
    }
}

/// At a percentage of TEC, or as the demand that remains asks.
enum Running {
    Fixed(u64),
    Variable,
}

impl Running {
    /// The table in 14.15.7, of the later edition; in edition 1 every type is variable.
    fn of(edition: Edition, background: Background, plant: Plant) -> Running {
        match (edition, background) {
            (Edition::First, _) => Running::Variable,
            (Edition::Second, Background::YearRound) => Running::year_round(plant),
            (Edition::Second, Background::Peak) => Running::at_peak(plant),
        }
    }

    fn year_round(plant: Plant) -> Running {
        match plant {
            Plant::Intermittent => Running::Fixed(70),
            Plant::NuclearAndCcs => Running::Fixed(85),
            Plant::Interconnector => Running::Fixed(100),
            Plant::PumpedStorage => Running::Fixed(50),
            Plant::Peaking => Running::Fixed(0),
            Plant::Hydro | Plant::Other => Running::Variable,
        }
    }

    fn at_peak(plant: Plant) -> Running {
        match plant {
            Plant::Intermittent | Plant::Interconnector => Running::Fixed(0),
            _ => Running::Variable,
        }
    }

    /// Rounded down, by whole hundreds and what is left of them.
    fn fixed(self, kw: u64) -> u64 {
        match self {
            Running::Fixed(percent) => percent * (kw / 100) + percent * (kw % 100) / 100,
            Running::Variable => 0,
        }
    }

    fn variable(self, kw: u64) -> u64 {
        match self {
            Running::Fixed(_) => 0,
            Running::Variable => kw,
        }
    }
}

/// What counts of TEC: all of it, what pays, what of this pays at peak; in a background what is fixed, and the TEC of the variable types.
#[derive(Clone, Copy)]
pub enum Counted {
    All,
    Paying,
    PayingAtPeak,
    Fixed(Edition, Background),
    Variable(Edition, Background),
}

impl Counted {
    /// What counts of the TEC of the plant type of a number.
    pub fn part(self, plant: usize, kw: u64) -> u64 {
        let plant = Plant::of(plant);
        let kept = |counts| if counts { kw } else { 0 };
        match self {
            Counted::All => kw,
            Counted::Paying => kept(plant.pays()),
            Counted::PayingAtPeak => kept(plant.pays_at_peak()),
            Counted::Fixed(edition, background) => Running::of(edition, background, plant).fixed(kw),
            Counted::Variable(edition, background) => Running::of(edition, background, plant).variable(kw),
        }
    }
}
