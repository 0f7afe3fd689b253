//! Kilowatts added up as far as their range.

/// The greatest total there is.
pub const MOST: u64 = 100_000_000;

/// The total; one more than the greatest where it is past that.
pub fn total(kilowatts: &[u64]) -> u64 {
    let mut total = 0;
    for kw in kilowatts {
        if *kw > MOST - total {
            return MOST + 1;
        }
        total += kw;
    }
    total
}
