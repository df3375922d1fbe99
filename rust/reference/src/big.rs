//! Signed whole numbers of any size.
//!
//! A number is a sign and a magnitude. The magnitude is a list of 64-bit limbs, least first, with
//! no zero limb at its end; zero is the empty list and is never negative.

use std::cmp::Ordering;
use std::fmt;
use std::iter::Sum;
use std::ops::{Add, Mul, Neg, Sub};

#[derive(Clone, Debug, PartialEq, Eq)]
pub struct Big {
    negative: bool,
    limbs: Vec<u64>,
}

impl Big {
    pub fn zero() -> Big {
        Big::from_parts(false, Vec::new())
    }

    /// The number with this sign and magnitude, brought to its one form.
    fn from_parts(negative: bool, mut limbs: Vec<u64>) -> Big {
        while limbs.last() == Some(&0) {
            limbs.pop();
        }
        Big {
            negative: negative && !limbs.is_empty(),
            limbs,
        }
    }

    pub fn is_zero(&self) -> bool {
        self.limbs.is_empty()
    }

    pub fn is_negative(&self) -> bool {
        self.negative
    }

    pub fn is_positive(&self) -> bool {
        !self.negative && !self.is_zero()
    }

    pub fn is_even(&self) -> bool {
        self.limbs.first().is_none_or(|limb| limb % 2 == 0)
    }

    pub fn abs(&self) -> Big {
        Big::from_parts(false, self.limbs.clone())
    }

    /// Quotient cut towards zero, and the remainder, which has the dividend's sign.
    pub fn div_rem(&self, divisor: &Big) -> (Big, Big) {
        assert!(!divisor.is_zero(), "division by zero");
        let (quotient, remainder) = if divisor.limbs.len() == 1 {
            divide_by_limb(&self.limbs, divisor.limbs[0])
        } else {
            divide_by_bits(&self.limbs, &divisor.limbs)
        };
        (
            Big::from_parts(self.negative != divisor.negative, quotient),
            Big::from_parts(self.negative, remainder),
        )
    }

    pub fn to_i128(&self) -> Option<i128> {
        if self.limbs.len() > 2 {
            return None;
        }
        let limb = |at: usize| u128::from(self.limbs.get(at).copied().unwrap_or(0));
        let magnitude = limb(1) << 64 | limb(0);
        if self.negative {
            0i128.checked_sub_unsigned(magnitude)
        } else {
            i128::try_from(magnitude).ok()
        }
    }

    pub fn to_i64(&self) -> Option<i64> {
        self.to_i128().and_then(|value| i64::try_from(value).ok())
    }
}

fn compare_magnitudes(a: &[u64], b: &[u64]) -> Ordering {
    a.len()
        .cmp(&b.len())
        .then_with(|| a.iter().rev().cmp(b.iter().rev()))
}

fn add_magnitudes(a: &[u64], b: &[u64]) -> Vec<u64> {
    let (long, short) = if a.len() < b.len() { (b, a) } else { (a, b) };
    let mut sum = Vec::with_capacity(long.len() + 1);
    let mut carry = 0u128;
    for (at, &limb) in long.iter().enumerate() {
        let other = short.get(at).copied().unwrap_or(0);
        let total = u128::from(limb) + u128::from(other) + carry;
        sum.push(total as u64);
        carry = total >> 64;
    }
    sum.push(carry as u64);
    sum
}

/// a - b, where a is not the smaller one.
fn subtract_magnitudes(a: &[u64], b: &[u64]) -> Vec<u64> {
    let mut difference = Vec::with_capacity(a.len());
    let mut borrow = false;
    for (at, &limb) in a.iter().enumerate() {
        let other = b.get(at).copied().unwrap_or(0);
        let (partial, first) = limb.overflowing_sub(other);
        let (result, second) = partial.overflowing_sub(u64::from(borrow));
        difference.push(result);
        borrow = first || second;
    }
    assert!(!borrow, "the smaller magnitude was reduced by the larger");
    difference
}

fn multiply_magnitudes(a: &[u64], b: &[u64]) -> Vec<u64> {
    let mut product = vec![0u64; a.len() + b.len()];
    for (i, &x) in a.iter().enumerate() {
        let mut carry = 0u128;
        for (j, &y) in b.iter().enumerate() {
            let total = u128::from(x) * u128::from(y) + u128::from(product[i + j]) + carry;
            product[i + j] = total as u64;
            carry = total >> 64;
        }
        product[i + b.len()] = carry as u64;
    }
    product
}

/// Limb by limb from the greatest, as on paper.
fn divide_by_limb(a: &[u64], divisor: u64) -> (Vec<u64>, Vec<u64>) {
    let mut quotient = vec![0; a.len()];
    let mut rest = 0u128;
    for (at, &limb) in a.iter().enumerate().rev() {
        let dividend = rest << 64 | u128::from(limb);
        quotient[at] = (dividend / u128::from(divisor)) as u64;
        rest = dividend % u128::from(divisor);
    }
    (quotient, vec![rest as u64])
}

/// Bit by bit from the greatest: bring down a bit, and subtract the divisor where it fits.
fn divide_by_bits(a: &[u64], divisor: &[u64]) -> (Vec<u64>, Vec<u64>) {
    let mut quotient = vec![0; a.len()];
    let mut rest = Vec::new();
    for bit in (0..64 * a.len()).rev() {
        double_and_add(&mut rest, a[bit / 64] >> (bit % 64) & 1);
        if compare_magnitudes(&rest, divisor) != Ordering::Less {
            rest = Big::from_parts(false, subtract_magnitudes(&rest, divisor)).limbs;
            quotient[bit / 64] |= 1 << (bit % 64);
        }
    }
    (quotient, rest)
}

/// magnitude := 2 magnitude + bit.
fn double_and_add(magnitude: &mut Vec<u64>, bit: u64) {
    let mut carry = bit;
    for limb in magnitude.iter_mut() {
        let top = *limb >> 63;
        *limb = *limb << 1 | carry;
        carry = top;
    }
    if carry == 1 {
        magnitude.push(1);
    }
}

fn sum(a: &Big, b: &Big) -> Big {
    if a.negative == b.negative {
        return Big::from_parts(a.negative, add_magnitudes(&a.limbs, &b.limbs));
    }
    match compare_magnitudes(&a.limbs, &b.limbs) {
        Ordering::Less => Big::from_parts(b.negative, subtract_magnitudes(&b.limbs, &a.limbs)),
        _ => Big::from_parts(a.negative, subtract_magnitudes(&a.limbs, &b.limbs)),
    }
}

fn difference(a: &Big, b: &Big) -> Big {
    sum(a, &-b.clone())
}

fn product(a: &Big, b: &Big) -> Big {
    Big::from_parts(
        a.negative != b.negative,
        multiply_magnitudes(&a.limbs, &b.limbs),
    )
}

/// An operator on numbers, lent or given away.
macro_rules! operator {
    ($operator:ident, $method:ident, $function:ident) => {
        impl $operator<&Big> for &Big {
            type Output = Big;
            fn $method(self, other: &Big) -> Big {
                $function(self, other)
            }
        }
        impl $operator<Big> for &Big {
            type Output = Big;
            fn $method(self, other: Big) -> Big {
                $function(self, &other)
            }
        }
        impl $operator<&Big> for Big {
            type Output = Big;
            fn $method(self, other: &Big) -> Big {
                $function(&self, other)
            }
        }
        impl $operator<Big> for Big {
            type Output = Big;
            fn $method(self, other: Big) -> Big {
                $function(&self, &other)
            }
        }
    };
}

operator!(Add, add, sum);
operator!(Sub, sub, difference);
operator!(Mul, mul, product);

impl Neg for Big {
    type Output = Big;
    fn neg(self) -> Big {
        Big::from_parts(!self.negative, self.limbs)
    }
}

impl Sum for Big {
    fn sum<I: Iterator<Item = Big>>(numbers: I) -> Big {
        numbers.fold(Big::zero(), |total, number| total + number)
    }
}

impl Ord for Big {
    fn cmp(&self, other: &Big) -> Ordering {
        match (self.negative, other.negative) {
            (false, true) => Ordering::Greater,
            (true, false) => Ordering::Less,
            (false, false) => compare_magnitudes(&self.limbs, &other.limbs),
            (true, true) => compare_magnitudes(&other.limbs, &self.limbs),
        }
    }
}

impl PartialOrd for Big {
    fn partial_cmp(&self, other: &Big) -> Option<Ordering> {
        Some(self.cmp(other))
    }
}

impl From<i128> for Big {
    fn from(value: i128) -> Big {
        let magnitude = value.unsigned_abs();
        Big::from_parts(value < 0, vec![magnitude as u64, (magnitude >> 64) as u64])
    }
}

impl From<i64> for Big {
    fn from(value: i64) -> Big {
        Big::from(i128::from(value))
    }
}

impl From<usize> for Big {
    fn from(value: usize) -> Big {
        Big::from(value as i128)
    }
}

impl fmt::Display for Big {
    fn fmt(&self, out: &mut fmt::Formatter) -> fmt::Result {
        const GROUP: u64 = 1_000_000_000_000_000_000;
        let mut groups = Vec::new();
        let mut rest = self.abs();
        while !rest.is_zero() {
            let (quotient, group) = divide_by_limb(&rest.limbs, GROUP);
            groups.push(group[0]);
            rest = Big::from_parts(false, quotient);
        }
        let mut digits = groups.pop().unwrap_or(0).to_string();
        for group in groups.iter().rev() {
            digits.push_str(&format!("{group:018}"));
        }
        out.pad_integral(!self.negative, "", &digits)
    }
}
