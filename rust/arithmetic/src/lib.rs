//! The proved functions of the crate `arithmetic`, through the probes, beside plain Rust with
//! 128-bit numbers.

/// What a probe answers outside its range.
pub const OUTSIDE: i64 = i64::MIN;

/// What `share` and `row_base` answer past their caps.
pub const TOO_LARGE: i64 = i64::MAX;

/// The cap of `share`.
pub const LARGEST_SHARE: u64 = 4_000_000_000;

/// S.
pub const SCALE: i64 = 1_000_000_000;

mod foreign {
    extern "C" {
        pub fn probe_round_div(a: i64, b: i64) -> i64;
        pub fn probe_share(g: i64, a: i64, b: i64) -> i64;
        pub fn probe_ultimate(c: i64, g: i64) -> i64;
        pub fn probe_row_base(u: i64, w: i64, d: i64, cap: u64) -> i64;
        pub fn probe_cell(v: i64, x: i64) -> i64;
    }
}

/// The proved functions. Each takes any numbers and touches no memory, so that a call is safe.
pub mod proved {
    use super::foreign;

    #[inline(always)]
    pub fn round_div(a: i64, b: i64) -> i64 {
        unsafe { foreign::probe_round_div(a, b) }
    }

    #[inline(always)]
    pub fn share(g: i64, a: i64, b: i64) -> i64 {
        unsafe { foreign::probe_share(g, a, b) }
    }

    #[inline(always)]
    pub fn ultimate(c: i64, g: i64) -> i64 {
        unsafe { foreign::probe_ultimate(c, g) }
    }

    #[inline(always)]
    pub fn row_base(u: i64, w: i64, d: i64, cap: u64) -> i64 {
        unsafe { foreign::probe_row_base(u, w, d, cap) }
    }

    #[inline(always)]
    pub fn cell(v: i64, x: i64) -> i64 {
        unsafe { foreign::probe_cell(v, x) }
    }
}

/// The same with i128: the same ranges, and a call that is not inlined.
pub mod plain {
    use super::{LARGEST_SHARE, OUTSIDE, SCALE, TOO_LARGE};

    /// The whole number nearest to a / b, halves to the even one: an odd quotient tips a half.
    #[inline(always)]
    fn nearest(a: i128, b: i64) -> i128 {
        let q = a / b as i128;
        let rem = (a - q * b as i128) as i64;
        if 2 * rem.unsigned_abs() + (q & 1) as u64 <= b as u64 {
            q
        } else if rem < 0 {
            q - 1
        } else {
            q + 1
        }
    }

    /// A number up to a cap.
    #[inline(always)]
    fn capped(k: i128, cap: u64) -> i64 {
        if k.unsigned_abs() > cap as u128 {
            TOO_LARGE
        } else {
            k as i64
        }
    }

    #[inline(never)]
    pub extern "C" fn round_div(a: i64, b: i64) -> i64 {
        if a.unsigned_abs() > 9_000_000_000_000_000_000
            || !(1..=1_000_000_000_000_000_000).contains(&b)
        {
            return OUTSIDE;
        }
        nearest(a as i128, b) as i64
    }

    #[inline(never)]
    pub extern "C" fn share(g: i64, a: i64, b: i64) -> i64 {
        const MOST: i64 = 4_000_000_000_000;
        if !(0..=LARGEST_SHARE as i64).contains(&g)
            || !(-MOST..=MOST).contains(&a)
            || !(1..=MOST).contains(&b)
        {
            return OUTSIDE;
        }
        capped(nearest(g as i128 * a as i128, b), LARGEST_SHARE)
    }

    #[inline(never)]
    pub extern "C" fn ultimate(c: i64, g: i64) -> i64 {
        if !(0..=200_000_000_000).contains(&c) || !(1_000_000..=4_000_000_000).contains(&g) {
            return OUTSIDE;
        }
        nearest(c as i128 * SCALE as i128, g) as i64
    }

    #[inline(never)]
    pub extern "C" fn row_base(u: i64, w: i64, d: i64, cap: u64) -> i64 {
        const MOST: u64 = 210_000_000_000_000;
        if u.unsigned_abs() > MOST
            || w.unsigned_abs() > MOST
            || !(1..=MOST as i64).contains(&d)
            || cap > MOST
        {
            return OUTSIDE;
        }
        capped(nearest(u as i128 * w as i128, d), cap)
    }

    #[inline(never)]
    pub extern "C" fn cell(v: i64, x: i64) -> i64 {
        if v.unsigned_abs() > 200_000_000_000_000 || x.unsigned_abs() > 9_000_000_000_000_000_000 {
            return OUTSIDE;
        }
        nearest(v as i128 * x as i128, SCALE * SCALE) as i64
    }
}

/// A small generator of numbers (xorshift).
pub struct Numbers(pub u64);

impl Numbers {
    pub fn number(&mut self) -> u64 {
        self.0 ^= self.0 << 13;
        self.0 ^= self.0 >> 7;
        self.0 ^= self.0 << 17;
        self.0
    }

    /// From 0 to most, evenly.
    pub fn below(&mut self, most: u64) -> u64 {
        self.number() % (most + 1)
    }

    /// From 0 to most, of every size, and often an end of the range.
    pub fn edgy(&mut self, most: u64) -> u64 {
        match self.number() % 16 {
            0 => most,
            1 => most.saturating_sub(1),
            2 => 0,
            3 => 1.min(most),
            _ => {
                let cut = self.number() % 64;
                (self.number() >> cut) % (most + 1)
            }
        }
    }

    /// As `edgy`, with either sign.
    pub fn signed(&mut self, most: u64) -> i64 {
        let size = self.edgy(most) as i64;
        if self.number() & 1 == 0 {
            size
        } else {
            -size
        }
    }
}
