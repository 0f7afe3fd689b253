//! Why there is no sheet, in plain words.

#[cfg(test)]
mod tests;

use crate::Answer;
use std::fmt;

/// The systems whose solutions are proposed. A newer client may have more.
#[derive(Clone, Copy, Debug, PartialEq, Eq)]
#[non_exhaustive]
pub enum System {
    /// 1: in edition 2 year round's.
    Base,
    /// 2: in edition 2 year round's.
    Wider,
    /// 3.
    Local,
    /// 4: edition 2 alone.
    PeakBase,
    /// 5: edition 2 alone.
    PeakWider,
}

impl System {
    fn of(number: u64) -> Option<System> {
        match number {
            1 => Some(System::Base),
            2 => Some(System::Wider),
            3 => Some(System::Local),
            4 => Some(System::PeakBase),
            5 => Some(System::PeakWider),
            _ => None,
        }
    }

    fn number(self) -> u64 {
        match self {
            System::Base => 1,
            System::Wider => 2,
            System::Local => 3,
            System::PeakBase => 4,
            System::PeakWider => 5,
        }
    }
}

/// What stopped a case, and what it asks for. Rows count from 1. A newer client may have more reasons, so a match has an arm for those to
/// come.
///
/// The first that holds is told, in this order: 1 to 7; 13; 14; 16; 8, 9, 10 of system 1 (base), then of 4 (peak base); 15; 11; 8, 9, 10
/// of system 2 (wider), then of 5 (peak wider), then of 3 (local); 12. Edition 1 has no 14, 15 and 16 and no systems 4 and 5.
#[derive(Clone, Copy, Debug, PartialEq, Eq)]
#[non_exhaustive]
pub enum Refusal {
    /// 1: length, trailer, version, edition, counts or chain wrong, or a solution of another length. Version 1 holds at most 512 circuits,
    /// version 2 at most 480, edition 2 at most 320 in version 2. Write the file again, and give five solutions with a file of edition 2
    /// and three, those of peak empty, with one of edition 1.
    File,
    /// 2: a setting out of its range. Correct it; the reference has to be a row of the nodes.
    Setting,
    /// 3: a node row malformed, out of range, or its name seen earlier. Correct the row, or rename one of the two nodes.
    Node { row: u64 },
    /// 4: a circuit row malformed, out of range, an end unknown, equal ends. A factor is 0 or 1,000 to 30,000, and not 0 at 320 and
    /// 525 kV, which are refused in version 1. Correct the row; write a circuit of 320 or 525 kV in version 2, with its factor.
    Circuit { row: u64 },
    /// 5: a station row malformed, out of range, its node unknown, its identifier seen earlier. Correct the row.
    Station { row: u64 },
    /// 6: a node out of reach of the reference. Join it by a circuit, or take it out.
    Unreached { row: u64 },
    /// 7: a total out of its range, or total TEC below total demand. TEC of every plant type counts. Enter the TEC that is missing, since
    /// generation is only scaled down.
    Total,
    /// 8: a proposed number out of range, or the reference's potential not 0. Circuits count after nodes. Shift the potentials so that the
    /// reference has 0.
    Number { system: System, row: u64 },
    /// 9: balance broken at a node. Round the flows so that each node balances to the milliwatt, in the background of the system.
    Balance { system: System, row: u64 },
    /// 10: the misses' sum too high. The potentials do not belong to these flows and lengths: solve to more digits, and in edition 2 put
    /// each length into the wider solution of the background that its circuit counts for.
    Misses { system: System },
    /// 11: the direction of a circuit in doubt: its flow in [`System::Base`] or, where it counts for peak, in [`System::PeakBase`] is above
    /// 200,000,000 and at most 400,000,000 mW. Change the case by a little: two solvers could differ.
    Direction { system: System, row: u64 },
    /// 12: the buffer shorter than the sheet. Lend [`crate::LONGEST_SHEET`] bytes, or as many as [`crate::Case::judge`] says, which never
    /// gives this refusal.
    Buffer,
    /// 13: no chargeable TEC, since all of it is of interconnectors (plant type 3), which do not pay. Enter the other stations, or correct
    /// a plant type.
    ChargeableTec,
    /// 14, edition 2: generation does not scale to demand in a background. Either the plant types that run at a fixed share of their TEC
    /// come to more than demand, or the others have less TEC than is left of it. Year round 1 runs at 70 %, 2 at 85 %, 3 at 100 %, 5 at
    /// 50 % and 6 at 0, and 4 and 7 share the rest; at peak 1 and 3 run at 0, and the others share all of it. Enter TEC of other types or
    /// other demand, or correct a plant type.
    Unscalable,
    /// 15, edition 2: a circuit's flow year round is greater in magnitude than at peak by more than 400,000,000 and at most 800,000,000 mW,
    /// so it is in doubt which of them it counts for. Change the case by a little: two solvers could differ.
    BackgroundInDoubt { circuit: u64 },
    /// 16 with row 0, edition 2: the share file has another length than 4 bytes for each generation zone and each of the seven plant types,
    /// or a load factor above 1,000 thousandths. Write the file again for the zones of this case.
    ShareFile,
    /// 16 with a row, edition 2: a generation zone of the share file names one that does not exist or has no TEC, names one though it has no
    /// TEC itself, is a second centre (a lower zone with TEC names none too), or following the numbers from it never ends. TEC of every
    /// plant type counts. Correct the zone's number, or that of one which it leads to.
    ShareZone { zone: u64 },
    /// A reason that this client does not know: another number, or one of these numbers with a system or row that it never has.
    /// A newer client may have a variant of its own for it; what `number`, `system` and `row` say stays the same.
    Unknown { number: u64, system: u64, row: u64 },
}

impl Refusal {
    /// The refusal that an answer is; none where it accepts the case.
    pub fn of(answer: Answer) -> Option<Refusal> {
        let Answer { number, system, row, .. } = answer;
        if number == 0 {
            return None;
        }
        Some(Refusal::known(number, system, row).unwrap_or(Refusal::Unknown { number, system, row }))
    }

    fn known(number: u64, system: u64, row: u64) -> Option<Refusal> {
        let proposed = System::of(system);
        Some(match (number, system, row) {
            (1, 0, 0) => Refusal::File,
            (2, 0, 0) => Refusal::Setting,
            (3, 0, row) => Refusal::Node { row },
            (4, 0, row) => Refusal::Circuit { row },
            (5, 0, row) => Refusal::Station { row },
            (6, 0, row) => Refusal::Unreached { row },
            (7, 0, 0) => Refusal::Total,
            (8, _, row) => Refusal::Number { system: proposed?, row },
            (9, _, row) => Refusal::Balance { system: proposed?, row },
            (10, _, 0) => Refusal::Misses { system: proposed? },
            (11, 1 | 4, row) => Refusal::Direction { system: proposed?, row },
            (12, 0, 0) => Refusal::Buffer,
            (13, 0, 0) => Refusal::ChargeableTec,
            (14, 0, 0) => Refusal::Unscalable,
            (15, 0, circuit) => Refusal::BackgroundInDoubt { circuit },
            (16, 0, 0) => Refusal::ShareFile,
            (16, 0, zone) => Refusal::ShareZone { zone },
            _ => return None,
        })
    }

    /// Number, system and row, as the library answers them.
    fn numbers(self) -> (u64, u64, u64) {
        match self {
            Refusal::File => (1, 0, 0),
            Refusal::Setting => (2, 0, 0),
            Refusal::Node { row } => (3, 0, row),
            Refusal::Circuit { row } => (4, 0, row),
            Refusal::Station { row } => (5, 0, row),
            Refusal::Unreached { row } => (6, 0, row),
            Refusal::Total => (7, 0, 0),
            Refusal::Number { system, row } => (8, system.number(), row),
            Refusal::Balance { system, row } => (9, system.number(), row),
            Refusal::Misses { system } => (10, system.number(), 0),
            Refusal::Direction { system, row } => (11, system.number(), row),
            Refusal::Buffer => (12, 0, 0),
            Refusal::ChargeableTec => (13, 0, 0),
            Refusal::Unscalable => (14, 0, 0),
            Refusal::BackgroundInDoubt { circuit } => (15, 0, circuit),
            Refusal::ShareFile => (16, 0, 0),
            Refusal::ShareZone { zone } => (16, 0, zone),
            Refusal::Unknown { number, system, row } => (number, system, row),
        }
    }

    /// The number of document 01; of a reason that this client does not know, the number that the library answered.
    pub fn number(self) -> u64 {
        self.numbers().0
    }

    /// 1 base, 2 wider, 3 local, 4 peak base, 5 peak wider; 0 where the refusal is about none of them.
    pub fn system(self) -> u64 {
        self.numbers().1
    }

    /// Counted from 1; 0 where the refusal is about no row.
    pub fn row(self) -> u64 {
        self.numbers().2
    }
}

impl fmt::Display for System {
    fn fmt(&self, to: &mut fmt::Formatter) -> fmt::Result {
        to.write_str(match self {
            System::Base => "base",
            System::Wider => "wider",
            System::Local => "local",
            System::PeakBase => "peak base",
            System::PeakWider => "peak wider",
        })
    }
}

// Words that are too long for the line that says them.
const FILE: &str =
    "the file is not whole, or a solution has another length than nodes plus circuits (none for peak in edition 1)";
const NODE: &str = "is malformed, out of range, or has the name of an earlier node";
const CIRCUIT: &str = "is malformed, out of range, without the factor it needs, or its ends are unknown or equal";
const STATION: &str = "is malformed, out of range, at no node, or has the identifier of an earlier station";
const TOTAL: &str = "total demand or total TEC is out of its range, or TEC is below demand";
const NUMBER: &str = "out of range, or the reference's potential is not 0";
const CHARGEABLE: &str = "no TEC is chargeable: all of it is of interconnectors (plant type 3)";
const UNSCALABLE: &str = "generation does not scale to demand in a background: fixed plant types come to more, or the others have less than is left";

const SHARE_FILE: &str = "the share file has a wrong length, or a load factor above 1,000 thousandths";
const SHARE_ZONE: &str = "names one that it may not name, is a second centre, or its chain circles";

impl Refusal {
    /// The words, without the number.
    fn say(self, to: &mut fmt::Formatter) -> fmt::Result {
        match self {
            Refusal::File => write!(to, "{FILE}"),
            Refusal::Setting => write!(to, "a setting is out of its range"),
            Refusal::Node { row } => write!(to, "node {row} {NODE}"),
            Refusal::Circuit { row } => write!(to, "circuit {row} {CIRCUIT}"),
            Refusal::Station { row } => write!(to, "station {row} {STATION}"),
            Refusal::Unreached { row } => write!(to, "node {row} cannot be reached from the reference"),
            Refusal::Total => write!(to, "{TOTAL}"),
            Refusal::Number { system, row } => write!(to, "{system} solution, number {row}: {NUMBER}"),
            Refusal::Balance { system, row } => write!(to, "{system} solution: the flows do not balance at node {row}"),
            Refusal::Misses { system } => write!(to, "{system} solution: the misses sum up too high"),
            Refusal::Direction { system, row } => {
                write!(to, "{system} solution: the direction of circuit {row} is in doubt")
            }
            Refusal::Buffer => write!(to, "the buffer is shorter than the sheet"),
            Refusal::ChargeableTec => write!(to, "{CHARGEABLE}"),
            Refusal::Unscalable => write!(to, "{UNSCALABLE}"),
            Refusal::BackgroundInDoubt { circuit } => {
                write!(to, "it is in doubt whether circuit {circuit} counts for year round or for peak")
            }
            Refusal::ShareFile => write!(to, "{SHARE_FILE}"),
            Refusal::ShareZone { zone } => write!(to, "share file: zone {zone} {SHARE_ZONE}"),
            Refusal::Unknown { .. } => write!(to, "a reason this client does not know; use a newer client"),
        }
    }
}

impl fmt::Display for Refusal {
    fn fmt(&self, to: &mut fmt::Formatter) -> fmt::Result {
        match self {
            Refusal::Unknown { number, system, row } => write!(to, "refused {number} {system} {row}: ")?,
            known => write!(to, "refused ({}): ", known.number())?,
        }
        self.say(to)
    }
}

impl std::error::Error for Refusal {}
