//! Divisions to the nearest, a half going away from zero.

/// 0 where nothing is divided by.
pub fn nearest(z: i64, d: u64) -> i64 {
    if d == 0 {
        return 0;
    }
    let (a, half) = (z.unsigned_abs() / d, z.unsigned_abs() % d);
    let whole = (a + (half >= d - half) as u64) as i64;
    if z < 0 {
        -whole
    } else {
        whole
    }
}

/// A potential's nanometres as metres.
pub fn metres(potential: i64) -> i64 {
    nearest(potential, 1_000_000_000)
}

/// The price of a distance, by expansion constant and security factor.
pub fn price(metres: i64, constant: i64, factor: i64) -> i64 {
    nearest(metres * constant * factor, 100_000)
}
