//! Source document 002: its two triangles, its printed chain-ladder column, and how near the
//! calculation comes to it.

use crate::big::Big;
use crate::forecast::{entry, forecast_set};
use crate::fraction::Fraction;
use crate::paid_reserve::{exact_shares, exact_ultimate};
use crate::records::{cells, place, Refusal, Set};
use crate::rounding::scale;
use crate::shares::Triangle;

/// The counts of accident years 2005 to 2014; padding past i + j = 10.
pub const COUNTS: [[i64; 10]; 10] = [
    [298, 30, 2, 0, 0, 0, 0, 0, 0, 0],
    [447, 14, 1, 0, 1, 0, 0, 0, 0, 0],
    [439, 27, 0, 2, 0, 0, 0, 0, 0, 0],
    [542, 41, 5, 2, 1, 2, 0, 0, 0, 0],
    [569, 54, 5, 3, 0, 0, 0, 0, 0, 0],
    [531, 34, 9, 1, 1, 0, 0, 0, 0, 0],
    [462, 37, 10, 1, 0, 0, 0, 0, 0, 0],
    [507, 45, 8, 0, 0, 0, 0, 0, 0, 0],
    [427, 39, 0, 0, 0, 0, 0, 0, 0, 0],
    [395, 0, 0, 0, 0, 0, 0, 0, 0, 0],
];

/// The payments.
pub const PAID: [[i64; 10]; 10] = [
    [
        13_247_635, 6_624_159, 2_642_654, 911_253, 0, 4_609_220, 0, 500_000, 1_092_696, 0,
    ],
    [
        18_545_263, 9_551_339, 408_400, 1_879_844, 5_825_431, 0, 0, 0, 0, 0,
    ],
    [
        22_805_548, 9_871_739, 379_680, 1_487_431, 356_650, 5_000_000, 0, 0, 0, 0,
    ],
    [
        25_061_272, 16_388_640, 12_082_016, 1_100_000, 0, 849_872, 0, 0, 0, 0,
    ],
    [
        27_800_292, 12_084_832, 7_851_518, 11_090_317, 400_000, 0, 0, 0, 0, 0,
    ],
    [
        28_171_203, 18_313_884, 11_392_441, 14_156_137, 2_649_184, 0, 0, 0, 0, 0,
    ],
    [
        24_747_420, 20_303_903, 6_483_741, 3_295_964, 0, 0, 0, 0, 0, 0,
    ],
    [22_311_896, 22_367_649, 10_962_560, 0, 0, 0, 0, 0, 0, 0],
    [16_811_300, 20_170_086, 0, 0, 0, 0, 0, 0, 0, 0],
    [21_903_227, 0, 0, 0, 0, 0, 0, 0, 0, 0],
];

/// The column CLM in tenths of a unit, calendar years 1 to 9; the later ones are 0.0.
pub const PRINTED: [i64; 9] = [
    343_095_554,
    176_043_876,
    112_095_140,
    57_551_116,
    38_343_106,
    13_947_607,
    11_433_494,
    8_876_498,
    0,
];

/// Its total, in tenths.
pub const PRINTED_TOTAL: i64 = 761_386_391;

/// The set, without incurred.
pub fn set() -> Set {
    let mut set = Set::empty(10, false);
    for (i, j) in cells(10) {
        set.counts[place(i, j)] = COUNTS[i - 1][j];
        set.paid[place(i, j)] = PAID[i - 1][j];
    }
    set
}

/// What was compared, by calendar year 1 to 9.
pub struct Comparison {
    /// The printed chain ladder against the unrounded one.
    pub printed: Vec<Fraction>,
    pub printed_total: Fraction,
    /// The forecast (method 0, basis 1) at delays below m against the unrounded chain ladder.
    pub forecast: Vec<Fraction>,
}

/// Distances to the unrounded chain ladder, calendar year t at place t - 1.
pub fn compare() -> Result<Comparison, Refusal> {
    let set = set();
    let m = set.m;
    let entries = forecast_set(&set, 0, 1)?.entries;
    let exact = exact_years();
    let total = exact
        .iter()
        .fold(Fraction::whole(Big::zero()), |sum, year| sum.plus(year));
    let tenths = |amount: i64| Fraction::new(Big::from(amount), Big::from(10i64));
    let written = |t: usize| -> Big {
        let of_year = (t + 1..=m).map(|i| entry(m, i, m + t - i));
        of_year
            .map(|at| Big::from(entries[at]) + Big::from(entries[at + 1]))
            .sum()
    };
    Ok(Comparison {
        printed: (1..m)
            .map(|t| tenths(PRINTED[t - 1]).distance(&exact[t - 1]))
            .collect(),
        printed_total: tenths(PRINTED_TOTAL).distance(&total),
        forecast: (1..m)
            .map(|t| Fraction::whole(written(t)).distance(&exact[t - 1]))
            .collect(),
    })
}

/// The unrounded chain ladder of calendar years 1 to 9.
pub fn exact_years() -> Vec<Fraction> {
    let set = set();
    (1..set.m).map(|t| exact_year(&set, t)).collect()
}

/// The unrounded chain ladder of calendar year t: H × (G(j) - G(j-1)) / S over i + j = m + t.
fn exact_year(set: &Set, t: usize) -> Fraction {
    let m = set.m;
    let paid = Triangle::new(m, &set.paid);
    let shares = exact_shares(&paid);
    let cell = |i: usize| {
        let j = m + t - i;
        let share = shares[j]
            .minus(&shares[j - 1])
            .over(&Fraction::whole(scale()));
        exact_ultimate(&paid, &shares, i).times(&share)
    };
    (t + 1..=m)
        .map(cell)
        .fold(Fraction::whole(Big::zero()), |sum, amount| {
            sum.plus(&amount)
        })
}
