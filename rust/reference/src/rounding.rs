//! 01, Rounding, as 02, Job 4 has it: halves go to even.

use crate::big::Big;
use crate::halves::{self, Quotient};
use std::cmp::Ordering;

/// S, by which shares are scaled.
pub fn scale() -> Big {
    Big::from(1_000_000_000i64)
}

/// r(a/b): the whole number nearest to a/b, and the even one where two are as near; such a half is
/// counted for its quotient. b is above zero wherever the document divides.
pub fn r(quotient: Quotient, a: &Big, b: &Big) -> Big {
    assert!(b.is_positive(), "rounded quotient by {b}");
    let (inner, rest) = a.div_rem(b);
    let one = Big::from(1i64);
    let outer = if a.is_negative() {
        &inner - one
    } else {
        &inner + one
    };
    // a/b lies between the two; b times its distances from them.
    let (from_inner, from_outer) = (rest.abs(), b - rest.abs());
    match from_inner.cmp(&from_outer) {
        Ordering::Less => inner,
        Ordering::Greater => outer,
        Ordering::Equal => {
            halves::count(quotient, a.is_negative(), inner.is_even());
            if inner.is_even() {
                inner
            } else {
                outer
            }
        }
    }
}
