//! 01, Shares: exact fractions, whose lower number is above zero.

use crate::big::Big;

#[derive(Clone, Debug)]
pub struct Fraction {
    pub upper: Big,
    pub lower: Big,
}

impl Fraction {
    /// upper / lower; a lower number that is not above zero breaks off the calculation.
    pub fn new(upper: Big, lower: Big) -> Fraction {
        assert!(lower.is_positive(), "a fraction's lower number is {lower}");
        Fraction { upper, lower }
    }

    pub fn whole(value: Big) -> Fraction {
        Fraction::new(value, Big::from(1i64))
    }

    pub fn plus(&self, other: &Fraction) -> Fraction {
        Fraction::new(
            &self.upper * &other.lower + &other.upper * &self.lower,
            &self.lower * &other.lower,
        )
    }

    pub fn minus(&self, other: &Fraction) -> Fraction {
        Fraction::new(
            &self.upper * &other.lower - &other.upper * &self.lower,
            &self.lower * &other.lower,
        )
    }

    pub fn times(&self, other: &Fraction) -> Fraction {
        Fraction::new(&self.upper * &other.upper, &self.lower * &other.lower)
    }

    pub fn over(&self, other: &Fraction) -> Fraction {
        Fraction::new(&self.upper * &other.lower, &self.lower * &other.upper)
    }

    /// How far apart two fractions are.
    pub fn distance(&self, other: &Fraction) -> Fraction {
        let difference = self.minus(other);
        Fraction::new(difference.upper.abs(), difference.lower)
    }

    /// self <= other, without a division.
    pub fn at_most(&self, other: &Fraction) -> bool {
        &self.upper * &other.lower <= &other.upper * &self.lower
    }

    /// The fraction in billionths, cut towards zero; for reports only.
    pub fn billionths(&self) -> Big {
        let scaled = &self.upper * Big::from(1_000_000_000i64);
        scaled.div_rem(&self.lower).0
    }
}
