//! Editions, backgrounds and systems, and the runs that are lent for them.

#[derive(Clone, Copy, PartialEq, Eq)]
pub enum Edition {
    First,
    Second,
}

impl Edition {
    /// How many of these peak has: none in edition 1.
    pub fn at_peak(self, count: usize) -> usize {
        match self {
            Edition::First => 0,
            Edition::Second => count,
        }
    }
}

/// Edition 1 has one, under the name of year round.
#[derive(Clone, Copy, PartialEq, Eq)]
pub enum Background {
    YearRound,
    Peak,
}

#[derive(Clone, Copy)]
pub enum System {
    Base(Background),
    Wider(Background),
    Local,
}

impl System {
    pub fn number(self) -> u64 {
        match self {
            System::Base(Background::YearRound) => 1,
            System::Wider(Background::YearRound) => 2,
            System::Local => 3,
            System::Base(Background::Peak) => 4,
            System::Wider(Background::Peak) => 5,
        }
    }

    /// The largest magnitude of a potential.
    pub fn limit(self) -> i64 {
        match self {
            System::Base(_) => 2_000_000_000_000_000_000,
            System::Wider(_) | System::Local => 10_000_000_000_000_000,
        }
    }
}

/// A potential a node, then a flow a circuit; peak's two are empty in edition 1.
#[derive(Clone, Copy)]
pub struct Runs<'a> {
    pub base: &'a [i64],
    pub wider: &'a [i64],
    pub local: &'a [i64],
    pub peak_base: &'a [i64],
    pub peak_wider: &'a [i64],
}

impl Runs<'_> {
    /// Whether each run of the edition has this length.
    pub fn fit(&self, edition: Edition, count: usize) -> bool {
        let peak = edition.at_peak(count);
        let lengths =
            [self.base.len(), self.wider.len(), self.local.len(), self.peak_base.len(), self.peak_wider.len()];
        lengths == [count, count, count, peak, peak]
    }
}
