//! Each proved function and its peer against a calculation with 128-bit numbers, on random numbers,
//! ends of ranges, exact halves and caps.
use arithmetic::{plain, proved, Numbers, LARGEST_SHARE, OUTSIDE, SCALE, TOO_LARGE};
use std::cmp::Ordering;

const ROUNDS: usize = 4_000_000;

/// Written by its meaning, not as the code: of the whole numbers around a / b the nearer one, and
/// the even one where both are as near.
fn nearest(a: i128, b: i128) -> i128 {
    let below = a.div_euclid(b);
    let above = below + 1;
    match (a - below * b).cmp(&(above * b - a)) {
        Ordering::Less => below,
        Ordering::Greater => above,
        Ordering::Equal if below % 2 == 0 => below,
        Ordering::Equal => above,
    }
}

fn capped(k: i128, cap: u64) -> i64 {
    if k.abs() > cap as i128 {
        TOO_LARGE
    } else {
        k as i64
    }
}

/// The halves met: of those above and those below zero the ones with an even and the ones with an
/// odd whole part.
#[derive(Default)]
struct Halves([[usize; 2]; 2]);

impl Halves {
    /// Counts a / b where it is a half that has an answer.
    fn count(&mut self, a: i128, b: i128, answer: i64) {
        if answer != TOO_LARGE && 2 * (a % b).abs() == b {
            self.0[usize::from(a < 0)][usize::from(a / b % 2 != 0)] += 1;
        }
    }

    /// Above zero, and below it where there are two signs, each was met often.
    fn were_met(&self, signs: usize) {
        let often = self.0[..signs].iter().flatten().all(|&n| n > ROUNDS / 10);
        assert!(often, "{:?}", self.0);
    }
}

/// An odd multiple of x up to most.
fn odd_multiple(n: &mut Numbers, x: u64, most: u64) -> i64 {
    ((2 * n.edgy((most / x - 1) / 2) + 1) * x) as i64
}

/// Odd multiples of some x and y, and 2xy: the product over it is a half.
fn half_of_product(n: &mut Numbers, most: [u64; 2], most_divisor: u64) -> (i64, i64, i64) {
    let x = 1 + n.edgy(most[0].min(most_divisor / 2) - 1);
    let y = 1 + n.edgy(most[1].min(most_divisor / 2 / x) - 1);
    let factors = [(x, most[0]), (y, most[1])].map(|(of, most)| odd_multiple(n, of, most));
    (factors[0], factors[1], (2 * x * y) as i64)
}

/// Each function, of each sign that it meets: an ultimate is never below zero.
#[test]
fn halves_go_to_even() {
    const MOST: u64 = 200_000_000_000_000;
    for (twice, want) in [(1, 0), (3, 2), (5, 2), (7, 4), (9, 4)] {
        for sign in [-1, 1] {
            let (twice, want) = (sign * twice, sign * want);
            assert_eq!(proved::round_div(twice, 2), want);
            assert_eq!(proved::round_div(15 * twice, 30), want);
            assert_eq!(proved::share(SCALE, twice, 2 * SCALE), want);
            assert_eq!(proved::row_base(twice, 3 * SCALE, 6 * SCALE, 4), want);
            assert_eq!(proved::row_base(-3 * SCALE, twice, 6 * SCALE, 4), -want);
            assert_eq!(proved::cell(twice * SCALE, SCALE / 2), want);
            assert_eq!(proved::cell(-SCALE / 2, twice * SCALE), -want);
        }
        assert_eq!(proved::ultimate(twice, 2 * SCALE), want);
    }
    assert_eq!(proved::cell(200_000_000_000_000, 2_500), 0);
    assert_eq!(proved::cell(200_000_000_000_000, -2_501), -1);
    assert_eq!(proved::cell(-200_000_000_000_000, 7_500), -2);
    // Half past an even cap is the cap.
    assert_eq!(
        proved::share(4 * SCALE, 8 * SCALE + 1, 8 * SCALE),
        4 * SCALE
    );
    for (u, want) in [(7_333, MOST as i64), (-7_333, -(MOST as i64))] {
        assert_eq!(proved::row_base(u, 54_547_933_997, 2, MOST), want);
        assert_eq!(proved::row_base(u, 54_547_933_997, 2, MOST - 1), TOO_LARGE);
    }
}

#[test]
fn round_div() {
    let mut n = Numbers(88172645463325252);
    let mut halves = Halves::default();
    let mut check = |a: i64, b: i64| {
        let (upper, lower) = (a as i128, b as i128);
        let want = nearest(upper, lower) as i64;
        assert_eq!(proved::round_div(a, b), want, "{a} / {b}");
        assert_eq!(plain::round_div(a, b), want, "{a} / {b}");
        halves.count(upper, lower, want);
    };
    for _ in 0..ROUNDS {
        let a = n.signed(9_000_000_000_000_000_000);
        check(a, 1 + n.edgy(999_999_999_999_999_999) as i64);
        // an exact half, and its neighbours
        let half = 1 + n.edgy(499_999_999_999_999_999);
        let a = odd_multiple(&mut n, half, 8_999_999_999_999_999_999);
        for near in [-1, 0, 1] {
            for sign in [-1, 1] {
                check(sign * (a + near), 2 * half as i64);
            }
        }
    }
    halves.were_met(2);
}

#[test]
fn share() {
    const MOST: u64 = 4_000_000_000_000;
    let mut n = Numbers(3141592653589793);
    let (mut too_large, mut halves) = (0, Halves::default());
    let mut check = |g: i64, a: i64, b: i64| {
        let (upper, lower) = (g as i128 * a as i128, b as i128);
        let want = capped(nearest(upper, lower), LARGEST_SHARE);
        too_large += (want == TOO_LARGE) as usize;
        assert_eq!(proved::share(g, a, b), want, "{g} x {a} / {b}");
        assert_eq!(plain::share(g, a, b), want, "{g} x {a} / {b}");
        halves.count(upper, lower, want);
    };
    for _ in 0..ROUNDS {
        let g = n.edgy(LARGEST_SHARE) as i64;
        let b = 1 + n.edgy(MOST - 1) as i64;
        // a column sum is mostly below the next one; around b the share is around g
        for a in [
            n.edgy(b as u64) as i64,
            n.signed(MOST),
            b.min(MOST as i64 - 1) + 1,
        ] {
            check(g, a, b);
        }
        // an exact half, and its neighbours
        let (g, a, b) = half_of_product(&mut n, [LARGEST_SHARE, MOST - 1], MOST);
        for near in [-1, 0, 1] {
            for sign in [-1, 1] {
                check(g, sign * (a + near), b);
            }
        }
    }
    halves.were_met(2);
    assert!(too_large > ROUNDS / 10);
}

#[test]
fn ultimate() {
    let mut n = Numbers(2718281828459045);
    let mut halves = Halves::default();
    let mut check = |c: i64, g: i64| {
        let (upper, lower) = (c as i128 * SCALE as i128, g as i128);
        let want = nearest(upper, lower) as i64;
        assert_eq!(proved::ultimate(c, g), want, "{c} x S / {g}");
        assert_eq!(plain::ultimate(c, g), want, "{c} x S / {g}");
        halves.count(upper, lower, want);
    };
    for _ in 0..ROUNDS {
        let c = n.edgy(200_000_000_000) as i64;
        check(c, 1_000_000 + n.edgy(3_999_000_000) as i64);
        // an exact half, and its neighbours: S is an odd multiple of y
        let y = 512 * 5u64.pow(n.below(9) as u32);
        let least = 1_000_000u64.div_ceil(2 * y);
        let x = least + n.edgy(4_000_000_000 / (2 * y) - least);
        let c = odd_multiple(&mut n, x, 199_999_999_999);
        for near in [-1, 0, 1] {
            check(c + near, (2 * x * y) as i64);
        }
    }
    halves.were_met(1);
}

#[test]
fn row_base() {
    const MOST: u64 = 210_000_000_000_000;
    let mut n = Numbers(1618033988749895);
    let (mut too_large, mut halves) = (0, Halves::default());
    let mut check = |u: i64, w: i64, d: i64, cap: u64| {
        let (upper, lower) = (u as i128 * w as i128, d as i128);
        let want = capped(nearest(upper, lower), cap);
        too_large += (want == TOO_LARGE) as usize;
        let text = format_args!("{u} x {w} / {d} up to {cap}");
        assert_eq!(proved::row_base(u, w, d, cap), want, "{text}");
        assert_eq!(plain::row_base(u, w, d, cap), want, "{text}");
        halves.count(upper, lower, want);
    };
    for _ in 0..ROUNDS {
        let (u, w) = (n.signed(MOST), n.signed(MOST));
        let d = 1 + n.edgy(MOST - 1) as i64;
        // caps of the callers, at random, and around the answer
        let exact = nearest(u as i128 * w as i128, d as i128);
        let around = exact.unsigned_abs().min(MOST as u128 - 1) as u64;
        for cap in [
            4_000_000_000,
            200_000_000_000_000,
            n.edgy(MOST),
            around,
            around + 1,
            around.max(1) - 1,
        ] {
            check(u, w, d, cap);
        }
        // an exact half, and its neighbours
        let (u, w, d) = half_of_product(&mut n, [MOST, MOST - 1], MOST);
        for near in [-1, 0, 1] {
            for sign in [-1, 1] {
                check(sign * u, w + near, d, MOST);
            }
        }
    }
    halves.were_met(2);
    assert!(too_large > ROUNDS / 10);
}

#[test]
fn cell() {
    const MOST: u64 = 200_000_000_000_000;
    const MOST_SUM: u64 = 9_000_000_000_000_000_000;
    let square = SCALE as i128 * SCALE as i128;
    let mut n = Numbers(5772156649015329);
    let mut halves = Halves::default();
    let mut check = |v: i64, x: i64| {
        let upper = v as i128 * x as i128;
        let want = nearest(upper, square) as i64;
        assert_eq!(proved::cell(v, x), want, "{v} x {x}");
        assert_eq!(plain::cell(v, x), want, "{v} x {x}");
        halves.count(upper, square, want);
    };
    for _ in 0..ROUNDS {
        check(n.signed(MOST), n.signed(MOST_SUM));
        // an exact half, and its neighbours: S² is 2 x y
        let (twos, fives) = (n.below(17) as u32, n.below(18) as u32);
        let x = 2u64.pow(twos) * 5u64.pow(fives);
        if x > MOST {
            continue;
        }
        let y = 500_000_000_000_000_000 / x;
        let v = odd_multiple(&mut n, x, MOST);
        let sum = odd_multiple(&mut n, y, MOST_SUM - 1);
        for near in [-1, 0, 1] {
            for sign in [-1, 1] {
                check(v, sign * (sum + near));
                check(-v, sign * (sum + near));
            }
        }
    }
    halves.were_met(2);
}

#[test]
fn outside_the_range() {
    assert_eq!(proved::round_div(1, 0), OUTSIDE);
    assert_eq!(proved::round_div(i64::MIN, 1), OUTSIDE);
    assert_eq!(proved::share(-1, 1, 1), OUTSIDE);
    assert_eq!(proved::share(1, 1, 0), OUTSIDE);
    assert_eq!(proved::share(1, i64::MIN, 1), OUTSIDE);
    assert_eq!(proved::ultimate(1, 999_999), OUTSIDE);
    assert_eq!(proved::row_base(1, 1, 0, 1), OUTSIDE);
    assert_eq!(proved::row_base(210_000_000_000_001, 1, 1, 1), OUTSIDE);
    assert_eq!(proved::cell(200_000_000_000_001, 1), OUTSIDE);
    assert_eq!(proved::cell(1, i64::MIN), OUTSIDE);
}
