//! The whole numbers of any size, against 128-bit arithmetic and by identities.

use reference::generate::Random;
use reference::halves::Quotient::Cell;
use reference::rounding::r;
use reference::Big;

/// A number of 0 to `limbs` limbs with either sign, made by multiplication and addition.
fn any_big(random: &mut Random, limbs: usize) -> Big {
    let base = Big::from(1i128 << 64);
    let mut number = Big::zero();
    for _ in 0..random.below(limbs + 1) {
        let limb = match random.below(4) {
            0 => 0,
            1 => u64::MAX,
            _ => random.number(),
        };
        number = number * &base + Big::from(i128::from(limb));
    }
    if random.one_in(2) {
        -number
    } else {
        number
    }
}

/// A 128-bit number of any length whose products below stay in 128 bits.
fn any_i64(random: &mut Random) -> i64 {
    match random.below(6) {
        0 => random.pick(&[0, 1, -1, i64::MAX, i64::MIN, i64::MIN + 1]),
        _ => (random.number() as i64) >> random.below(64),
    }
}

#[test]
fn agrees_with_128_bits() {
    let mut random = Random::new(1);
    for _ in 0..100_000 {
        let (x, y) = (any_i64(&mut random), any_i64(&mut random));
        let (a, b) = (Big::from(x), Big::from(y));
        let (x, y) = (i128::from(x), i128::from(y));
        assert_eq!((&a + &b).to_i128(), Some(x + y));
        assert_eq!((&a - &b).to_i128(), Some(x - y));
        assert_eq!((&a * &b).to_i128(), Some(x * y));
        assert_eq!(a.cmp(&b), x.cmp(&y));
        assert_eq!(a == b, x == y);
        assert_eq!(a.is_negative(), x < 0);
        assert_eq!(a.is_positive(), x > 0);
        assert_eq!(a.is_zero(), x == 0);
        assert_eq!(a.is_even(), x % 2 == 0);
        assert_eq!(a.abs().to_i128(), Some(x.abs()));
        assert_eq!(a.to_string(), x.to_string());
        let product = &a * &b + Big::from(7i64);
        let wide = x * y + 7;
        assert_eq!(product.to_string(), wide.to_string());
        if y != 0 {
            let (quotient, rest) = product.div_rem(&b);
            assert_eq!(quotient.to_i128(), Some(wide / y));
            assert_eq!(rest.to_i128(), Some(wide % y));
        }
    }
}

#[test]
fn agrees_with_128_bits_for_long_divisors() {
    let mut random = Random::new(2);
    for _ in 0..10_000 {
        let wide = |random: &mut Random| {
            let high = i128::from(random.number() as i64) << 64;
            (high | i128::from(random.number())) >> random.below(100)
        };
        let (x, y) = (wide(&mut random), wide(&mut random));
        if y != 0 {
            let (quotient, rest) = Big::from(x).div_rem(&Big::from(y));
            assert_eq!(quotient.to_i128(), Some(x / y));
            assert_eq!(rest.to_i128(), Some(x % y));
        }
    }
}

#[test]
fn identities() {
    let mut random = Random::new(3);
    for _ in 0..3_000 {
        let a = any_big(&mut random, 12);
        let b = any_big(&mut random, 8);
        let c = any_big(&mut random, 8);
        assert_eq!(&a + &b, &b + &a);
        assert_eq!(&a - &b + &b, a);
        assert_eq!(&a * &b, &b * &a);
        assert_eq!((&a + &b) * &c, &a * &c + &b * &c);
        assert_eq!((&a - &b) * (&a + &b), &a * &a - &b * &b);
        assert_eq!((&a - &b).is_negative(), a < b);
        if b.is_zero() {
            continue;
        }
        let (quotient, rest) = a.div_rem(&b);
        assert_eq!(&quotient * &b + &rest, a);
        assert!(rest.abs() < b.abs());
        assert!(rest.is_zero() || rest.is_negative() == a.is_negative());
        assert_eq!((&a * &b).div_rem(&b), (a.clone(), Big::zero()));
        // A remainder with the product's sign does not change the quotient.
        let product = &a * &b;
        let small = if product.is_negative() {
            -rest.abs()
        } else {
            rest.abs()
        };
        assert_eq!((product + &small).div_rem(&b), (a, small));
    }
}

#[test]
fn conversions_at_the_ends() {
    for value in [
        i128::MIN,
        i128::MAX,
        i128::MIN + 1,
        0,
        -1,
        1 << 64,
        -(1 << 64),
    ] {
        assert_eq!(Big::from(value).to_i128(), Some(value));
        assert_eq!(Big::from(value).to_string(), value.to_string());
        assert_eq!(Big::from(value).to_i64(), i64::try_from(value).ok());
    }
    let one = Big::from(1i64);
    assert_eq!((Big::from(i128::MAX) + &one).to_i128(), None);
    assert_eq!((Big::from(i128::MIN) - &one).to_i128(), None);
    assert_eq!((Big::from(i64::MAX) + &one).to_i64(), None);
    assert_eq!((Big::from(i64::MIN) - &one).to_i64(), None);
    assert_eq!(Big::from(i64::MIN).to_i64(), Some(i64::MIN));
}

#[test]
fn decimal_text() {
    let mut number = Big::from(1i64);
    for _ in 0..237 {
        number = number * Big::from(10i64);
    }
    assert_eq!(number.to_string(), format!("1{}", "0".repeat(237)));
    assert_eq!((number - Big::from(1i64)).to_string(), "9".repeat(237));
    let mut factorial = Big::from(1i64);
    for n in 1..=30i64 {
        factorial = factorial * Big::from(n);
    }
    assert_eq!(factorial.to_string(), "265252859812191058636308480000000");
}

#[test]
fn halves_go_to_even() {
    let round = |a: i64, b: i64| r(Cell, &Big::from(a), &Big::from(b)).to_i64().unwrap();
    assert_eq!(round(-5, 2), -2);
    assert_eq!(round(-7, 2), -4);
    assert_eq!(round(5, 2), 2);
    assert_eq!(round(7, 2), 4);
    assert_eq!(round(1, 2), 0);
    assert_eq!(round(-1, 2), 0);
    assert_eq!(round(3, 2), 2);
    assert_eq!(round(-3, 2), -2);
    assert_eq!(round(15, 6), 2);
    assert_eq!(round(-21, 6), -4);
    assert_eq!(round(-1, 3), 0);
    assert_eq!(round(4, 3), 1);
    assert_eq!(round(5, 3), 2);
    assert_eq!(round(-5, 3), -2);
    assert_eq!(round(0, 7), 0);
    assert_eq!(round(6, 3), 2);
}

/// 2 |a - b r| <= b, and r is even where another is as near, of both signs and in both directions.
#[test]
fn rounded_quotients_are_nearest() {
    let mut random = Random::new(4);
    let mut halves = [[0; 2]; 2];
    for round in 0..20_000 {
        let b = any_big(&mut random, 3).abs() + Big::from(1i64);
        let a = if round % 4 == 0 {
            // A half: an odd multiple of b over 2.
            any_big(&mut random, 4) * &b + any_half(&b)
        } else {
            any_big(&mut random, 5)
        };
        let nearest = r(Cell, &a, &b);
        let off = (&a - &b * &nearest).abs();
        let twice = &off + &off;
        assert!(twice <= b);
        if twice == b {
            assert!(nearest.div_rem(&Big::from(2i64)).1.is_zero());
            let away = (&b * &nearest).abs() > a.abs();
            halves[usize::from(a.is_negative())][usize::from(away)] += 1;
        }
    }
    assert!(halves.iter().flatten().all(|&n| n > 200), "{halves:?}");
}

/// b/2 where b is even, else zero.
fn any_half(b: &Big) -> Big {
    let (half, rest) = b.div_rem(&Big::from(2i64));
    if rest.is_zero() {
        half
    } else {
        Big::zero()
    }
}
