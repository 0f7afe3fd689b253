//! What is left of a target, held as a residual for each kilowatt that pays and a remainder below their number, so that no income has to fit 64 bits.

use super::numbers::within;
use super::totals::MOST;

#[derive(Clone, Copy)]
pub struct Rest {
    pub each: i64,
    pub over: u64,
}

impl Rest {
    /// z over d kilowatts.
    fn divided(z: i64, d: u64) -> Rest {
        let d = d as i64;
        Rest { each: z.div_euclid(d), over: z.rem_euclid(d) as u64 }
    }

    /// A target over the kilowatts that pay; nothing where a number is out of its range.
    pub fn start(target: i64, payers: u64) -> Rest {
        if (1..=MOST).contains(&payers) && within(target, 1_000_000_000_000_000_000) {
            return Rest::divided(target, payers);
        }
        Rest { each: 0, over: 0 }
    }

    /// Less a tariff on some of the kilowatts that pay; unchanged where a number is out of its range.
    pub fn less(self, payers: u64, tariff: i64, kw: u64) -> Rest {
        if (1..=MOST).contains(&payers)
            && self.over < payers
            && kw <= payers
            && within(self.each, 9_000_000_000_000_000_000)
            && within(tariff, 1_000_000_000_000)
        {
            return self.without(payers, tariff, kw);
        }
        self
    }

    /// The tariff's millions first, whose kilowatts make whole residuals and a part of one, then what is below a million.
    fn without(self, payers: u64, tariff: i64, kw: u64) -> Rest {
        let kw = kw as i64;
        let millions = Rest::divided(tariff, 1_000_000);
        let share = Rest::divided(millions.each * kw, payers);
        let left = self.over as i64 - 1_000_000 * share.over as i64 - millions.over as i64 * kw;
        let last = Rest::divided(left, payers);
        Rest { each: self.each - 1_000_000 * share.each + last.each, over: last.over }
    }
}
