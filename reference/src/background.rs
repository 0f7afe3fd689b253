//! 02, CR 5, "Peak and year round": the backgrounds that an edition makes, and what a plant type does in each. Edition 1 has
//! one, where every type is variable: 01's own rule.

use crate::file::Edition;
use crate::tables::Plant;

/// 01, 02 CR 5: what generation is scaled for.
#[derive(Clone, Copy, Debug, PartialEq, Eq)]
pub enum Background {
    /// 01: "The method is the single-background one".
    Single,
    YearRound,
    Peak,
}

/// 02, CR 5: how a plant type's generation comes about.
#[derive(Clone, Copy, Debug, PartialEq, Eq)]
pub enum Running {
    /// "fixed types run at their percentage of TEC".
    Fixed(i128),
    /// "variable types share the remaining demand".
    Variable,
}

/// 01 step 5, 02 CR 5: the local system's number; "marked circuits use year round alone".
pub const LOCAL_SYSTEM: u32 = 3;

impl Edition {
    /// 02, CR 5: the backgrounds in the order they are judged: "8 to 10 for systems 1 and 4", "for 2, 5".
    pub fn backgrounds(self) -> &'static [Background] {
        match self {
            Edition::One => &[Background::Single],
            Edition::Two => &[Background::YearRound, Background::Peak],
        }
    }

    /// 02, CR 5: the backgrounds in the order they are printed: "peak's C before year round's".
    pub fn printed(self) -> &'static [Background] {
        match self {
            Edition::One => &[Background::Single],
            Edition::Two => &[Background::Peak, Background::YearRound],
        }
    }
}

impl Background {
    /// 01 step 3; 02, CR 5: "Systems 1, 2 and 3 are year round base, wider and local; 4 and 5, peak base and wider".
    pub fn base_system(self) -> u32 {
        match self {
            Background::Single | Background::YearRound => 1,
            Background::Peak => 4,
        }
    }

    /// 01 step 5, 02 CR 5: the number of the wider system.
    pub fn wider_system(self) -> u32 {
        match self {
            Background::Single | Background::YearRound => 2,
            Background::Peak => 5,
        }
    }

    /// 02, CR 5: "the scaling table in 14.15.7 (source document 000)".
    pub fn running(self, plant: Plant) -> Running {
        match self {
            Background::Single => Running::Variable,
            Background::YearRound => running_year_round(plant),
            Background::Peak => running_at_peak(plant),
        }
    }

    /// 02, CR 1: "Interconnectors don't pay". CR 5: "Peak's income and C count every chargeable type but 1".
    pub fn charges(self, plant: Plant) -> bool {
        match self {
            Background::Single | Background::YearRound => plant.pays(),
            Background::Peak => plant.pays() && plant != Plant::Intermittent,
        }
    }
}

/// 14.15.7, year round's column.
fn running_year_round(plant: Plant) -> Running {
    match plant {
        Plant::Intermittent => Running::Fixed(70),
        Plant::NuclearAndCcs => Running::Fixed(85),
        Plant::Interconnector => Running::Fixed(100),
        Plant::PumpedStorage => Running::Fixed(50),
        Plant::Peaking => Running::Fixed(0),
        Plant::Hydro | Plant::Other => Running::Variable,
    }
}

/// 14.15.7, peak's column.
fn running_at_peak(plant: Plant) -> Running {
    match plant {
        Plant::Intermittent | Plant::Interconnector => Running::Fixed(0),
        Plant::NuclearAndCcs | Plant::Hydro | Plant::PumpedStorage | Plant::Peaking | Plant::Other => Running::Variable,
    }
}
