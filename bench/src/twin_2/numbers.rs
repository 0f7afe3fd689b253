//! The numbers of proposed solutions, each by itself: ranges, directions, and the background that a circuit counts for.

use super::editions::{Background, Edition, System};

pub const FLOW_LIMIT: i64 = 100_000_000_000_000;

pub fn within(z: i64, most: i64) -> bool {
    (-most..=most).contains(&z)
}

/// 8: the lowest row out of range; flows stand after the potentials, and the reference's potential is 0.
pub fn first_out_of_range(system: System, nodes: usize, reference: usize, run: &[i64]) -> Option<usize> {
    let limit = system.limit();
    let most = |row: usize| match row {
        row if row >= nodes => FLOW_LIMIT,
        row if row == reference => 0,
        _ => limit,
    };
    run.iter().enumerate().position(|(row, z)| !within(*z, most(row)))
}

pub enum Direction {
    Idle,
    Forward,
    Backward,
    InDoubt,
}

pub fn direction_of(flow: i64) -> Direction {
    if within(flow, 200_000_000) {
        Direction::Idle
    } else if within(flow, 400_000_000) {
        Direction::InDoubt
    } else if flow < 0 {
        Direction::Backward
    } else {
        Direction::Forward
    }
}

#[derive(Clone, Copy)]
pub enum Counting {
    For(Background),
    Doubtful,
}

impl Counting {
    /// By the two base flows of a circuit; year round alone where it is marked, and in edition 1.
    fn of(edition: Edition, mark: u64, year_round: i64, peak: i64) -> Counting {
        if edition == Edition::First || mark != 0 {
            return Counting::For(Background::YearRound);
        }
        let (there, here) = (year_round.unsigned_abs(), peak.unsigned_abs());
        if there <= here + 400_000_000 {
            Counting::For(Background::Peak)
        } else if there <= here + 800_000_000 {
            Counting::Doubtful
        } else {
            Counting::For(Background::YearRound)
        }
    }

    /// In doubt is refused as 15 before this is used.
    pub fn background(self) -> Background {
        match self {
            Counting::For(background) => background,
            Counting::Doubtful => Background::YearRound,
        }
    }
}

/// The background that a circuit counts for, and its base flow there.
#[derive(Clone, Copy)]
pub struct Heading {
    pub counting: Counting,
    pub flow: i64,
}

impl Heading {
    /// That of no circuit.
    pub const NONE: Heading = Heading { counting: Counting::For(Background::YearRound), flow: 0 };

    pub fn of(edition: Edition, mark: u64, year_round: i64, peak: i64) -> Heading {
        let counting = Counting::of(edition, mark, year_round, peak);
        let flow = match counting.background() {
            Background::YearRound => year_round,
            Background::Peak => peak,
        };
        Heading { counting, flow }
    }
}

/// 15: the lowest circuit with a length whose background is in doubt.
pub fn first_doubtful(lengths: &[u64; 512], headings: &[Heading; 512]) -> Option<usize> {
    let mut circuits = lengths.iter().zip(headings);
    circuits.position(|(length, heading)| *length > 0 && matches!(heading.counting, Counting::Doubtful))
}

/// 11: the lowest circuit with a length whose own base flow is in doubt.
pub fn first_in_doubt(lengths: &[u64; 512], headings: &[Heading; 512]) -> Option<usize> {
    let mut circuits = lengths.iter().zip(headings);
    circuits.position(|(length, heading)| *length > 0 && matches!(direction_of(heading.flow), Direction::InDoubt))
}
