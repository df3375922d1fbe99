//! 01, Examples from a small shelf, where halves went away from zero, with the numbers that 02, Job
//! 4 prints in their place: each example once, for this calculation and for the library.

use crate::back_test::{back_test, BackTest};
use crate::calendar::closing;
use crate::delays::{delays, Delays};
use crate::forecast::{entry, entry_count, forecast, Forecast};
use crate::generate::file;
use crate::records::{place, Refusal, Set};
use crate::shares::{shares, Shares};
use Number::{Cells, Cellwise, Ibnr, Overall, Rbns, Together, Yearwise, B, N, P, Q, U};

/// The set of triangles by rows, on line 0.
pub fn set(counts: &[&[i64]], paid: &[&[i64]], incurred: Option<&[&[i64]]>) -> Set {
    let mut set = Set::empty(counts.len(), incurred.is_some());
    let triangles = [counts, paid, incurred.unwrap_or(&[])];
    for (kind, rows) in triangles.iter().enumerate() {
        for (at, row) in rows.iter().enumerate() {
            let start = place(at + 1, 0);
            set.triangle_mut(kind as u8)[start..start + row.len()].copy_from_slice(row);
        }
    }
    set
}

/// Set K.
pub fn set_k() -> Set {
    K.set()
}

pub fn set_k_without_incurred() -> Set {
    K_WITHOUT_INCURRED.set()
}

/// A set with a half in its delays, p(0) = 2500002.5: with its even neighbour 2500002 p(1) is
/// another half, 2493749994.5, and with the odd one p(1) = 2493749993.
pub fn set_of_three_solutions() -> Set {
    THREE_SOLUTIONS.set()
}

/// A set that question 12 refuses, and delays that question 20 accepts: p(0) = 3147826087.5, whose
/// even neighbour leads to p(1) = -8000000003.
pub fn set_of_other_solution() -> (Set, [i64; 3]) {
    let given = [3_147_826_087, -8_000_000_000, 4_152_173_912];
    (OTHER_SOLUTION.set(), given)
}

/// Sets with delays that solve their system and are refused for one alone, p(1), which is one past
/// an end of question 12's range.
pub fn sets_past_the_range() -> [(Set, [i64; 3]); 2] {
    let below = [3_125_000_013, -8_000_000_001, 5_437_499_842];
    let above = [624_999_988, 8_000_000_001, -4_312_499_851];
    [
        (BELOW_THE_RANGE.set(), below),
        (ABOVE_THE_RANGE.set(), above),
    ]
}

type Triangle = &'static [&'static [i64]];

/// The triangles of an example.
pub struct Rows {
    counts: Triangle,
    paid: Triangle,
    incurred: Option<Triangle>,
}

impl Rows {
    pub fn set(&self) -> Set {
        set(self.counts, self.paid, self.incurred)
    }
}

/// The call of an example.
#[derive(Clone, Copy, Debug)]
pub enum Call {
    Shares,
    Delays,
    Forecast { method: u64, basis: u64 },
    BackTest { method: u64, basis: u64, cut: u64 },
    Closing { line: &'static str },
}

/// A number of an answer, in the document's letters.
#[derive(Clone, Copy, Debug)]
pub enum Number {
    B(usize),
    N(usize),
    Q(usize),
    U(usize),
    P(usize),
    Rbns(usize, usize),
    Ibnr(usize, usize),
    Together(usize, usize),
    Cells,
    Cellwise,
    Yearwise,
    Overall,
}

/// What the documents print of an answer.
pub enum Printed {
    Numbers(&'static [(Number, i64)]),
    Lines(&'static str),
    Refused(Refusal),
    Passed,
}

pub struct Example {
    pub says: &'static str,
    pub rows: Rows,
    pub call: Call,
    pub printed: Printed,
}

/// The answer to a call.
#[derive(Debug)]
pub enum Answer {
    Shares(Box<Shares>),
    Delays(Delays),
    Forecast(Forecast),
    BackTest(BackTest),
    Text(Vec<u8>),
    Refused(Refusal),
}

const K: Rows = Rows {
    counts: &[&[80, 20], &[90]],
    paid: &[&[600, 400], &[660]],
    incurred: Some(&[&[900, 100], &[1080]]),
};

const K_WITHOUT_INCURRED: Rows = Rows {
    incurred: None,
    ..K
};

const WIDEST: Rows = Rows {
    counts: &[&[25, 75], &[50]],
    paid: &[&[750, 250], &[750]],
    incurred: None,
};

const WIDER: Rows = Rows {
    paid: &[&[751, 249], &[750]],
    ..WIDEST
};

const THIN: Rows = Rows {
    counts: &[&[1, 1000], &[90]],
    ..K
};

const NOT_SO_THIN: Rows = Rows {
    counts: &[&[1, 999], &[90]],
    ..K
};

const THREE_YEARS: Rows = Rows {
    counts: &[&[80, 20, 0], &[90, 25], &[100]],
    paid: &[&[600, 400, 50], &[660, 430], &[700]],
    incurred: None,
};

const THREE_SOLUTIONS: Rows = Rows {
    counts: &[&[2, 3], &[2]],
    paid: &[&[1_000_001, 998_999_999], &[1_000_001]],
    incurred: None,
};

const OTHER_SOLUTION: Rows = Rows {
    counts: &[&[8, 23, 69], &[8, 23], &[8]],
    paid: &[
        &[251_826_087, 84_000_000, 664_173_913],
        &[251_826_087, 84_000_000],
        &[251_826_087],
    ],
    incurred: None,
};

const BELOW_THE_RANGE: Rows = Rows {
    counts: &[&[8, 24, 68], &[8, 24], &[8]],
    paid: &[
        &[250_000_001, 110_000_003, 639_999_996],
        &[250_000_001, 110_000_003],
        &[250_000_001],
    ],
    incurred: None,
};

const ABOVE_THE_RANGE: Rows = Rows {
    counts: &[&[8, 1, 91], &[8, 1], &[8]],
    paid: &[
        &[49_999_999, 646_250_000, 303_750_001],
        &[49_999_999, 646_250_000],
        &[49_999_999],
    ],
    incurred: None,
};

const DCL: Call = Call::Forecast {
    method: 0,
    basis: 1,
};

const BDCL: Call = Call::Forecast {
    method: 1,
    basis: 1,
};

const IDCL: Call = Call::Forecast {
    method: 2,
    basis: 1,
};

/// All examples.
pub const EXAMPLES: &[Example] = &[
    Example {
        says: "b = 0.8, 0.2 and q = 0.6, 0.4 of S",
        rows: K,
        call: Call::Shares,
        printed: Printed::Numbers(&[
            (B(0), 800_000_000),
            (B(1), 200_000_000),
            (Q(0), 600_000_000),
            (Q(1), 400_000_000),
        ]),
    },
    Example {
        says: "p = 750,000,000 and 312,500,000",
        rows: K,
        call: Call::Delays,
        printed: Printed::Numbers(&[(P(0), 750_000_000), (P(1), 312_500_000)]),
    },
    Example {
        says: "U = 1000, 1100; N = 100, and by 02, Job 4: N(2) = 112",
        rows: K,
        call: Call::Shares,
        printed: Printed::Numbers(&[(U(1), 1000), (U(2), 1100), (N(1), 100), (N(2), 112)]),
    },
    Example {
        says: "DCL, basis 1, year 2: delay 1 RBNS 275, IBNR 165, together 1100 - 660; delay 2: 0 and 69",
        rows: K,
        call: DCL,
        printed: Printed::Numbers(&[
            (Rbns(2, 1), 275),
            (Ibnr(2, 1), 165),
            (Together(2, 1), 1100 - 660),
            (Rbns(2, 2), 0),
            (Ibnr(2, 2), 69),
        ]),
    },
    Example {
        says: "Year 1, delay 2: by 02, Job 4 62, and 0",
        rows: K,
        call: DCL,
        printed: Printed::Numbers(&[(Rbns(1, 2), 62), (Ibnr(1, 2), 0)]),
    },
    Example {
        says: "`closing` on K without incurred, method 0, basis 1, by 02, Job 4",
        rows: K_WITHOUT_INCURRED,
        call: Call::Closing { line: "2 0 1\n" },
        printed: Printed::Lines("1 337 165 502\n2 0 69 69\nT 337 234 571\n"),
    },
    Example {
        says: "BDCL V(2) = 1200: delay 1 is 300 and 180",
        rows: K,
        call: BDCL,
        printed: Printed::Numbers(&[(Rbns(2, 1), 300), (Ibnr(2, 1), 180)]),
    },
    Example {
        says: "IDCL V(2) = 1350: 338, and by 02, Job 4: 202",
        rows: K,
        call: IDCL,
        printed: Printed::Numbers(&[(Rbns(2, 1), 338), (Ibnr(2, 1), 202)]),
    },
    Example {
        says: "Counts 25, 75 / 50, paid 750, 250 / 750: delays 3 × 10^9 and -8 × 10^9",
        rows: WIDEST,
        call: Call::Delays,
        printed: Printed::Numbers(&[(P(0), 3_000_000_000), (P(1), -8_000_000_000)]),
    },
    Example {
        says: "accepted; year 2, delay 1 is -2000 and 2250",
        rows: WIDEST,
        call: DCL,
        printed: Printed::Numbers(&[(Rbns(2, 1), -2000), (Ibnr(2, 1), 2250)]),
    },
    Example {
        says: "Paid 751, 249 instead: refused 12",
        rows: WIDER,
        call: DCL,
        printed: Printed::Refused(12),
    },
    Example {
        says: "Paid 751, 249 instead: refused 12, by the delays",
        rows: WIDER,
        call: Call::Delays,
        printed: Printed::Refused(12),
    },
    Example {
        says: "Row 1 counts 1, 1000: refused 11",
        rows: THIN,
        call: DCL,
        printed: Printed::Refused(11),
    },
    Example {
        says: "Row 1 counts 1, 1000: refused 11, by the shares",
        rows: THIN,
        call: Call::Shares,
        printed: Printed::Refused(11),
    },
    Example {
        says: "Row 1 counts 1, 999: accepted by the shares",
        rows: NOT_SO_THIN,
        call: Call::Shares,
        printed: Printed::Passed,
    },
    Example {
        says: "Back-test, m = 3, c = 1: forecast 440, of the cut set",
        rows: K_WITHOUT_INCURRED,
        call: DCL,
        printed: Printed::Numbers(&[(Together(2, 1), 440)]),
    },
    Example {
        says: "Back-test, m = 3, c = 1: one cell, errors 10, 10, 10",
        rows: THREE_YEARS,
        call: Call::BackTest {
            method: 0,
            basis: 1,
            cut: 1,
        },
        printed: Printed::Numbers(&[(Cells, 1), (Cellwise, 10), (Yearwise, 10), (Overall, 10)]),
    },
];

/// A set at an edge of questions 12 to 14, and the refusals of methods 0 to 2 with actual counts, 0
/// where it is accepted.
pub struct Edge {
    pub rows: Rows,
    pub refused: [Refusal; 3],
}

const fn edge(counts: Triangle, paid: Triangle, incurred: Triangle, refused: [u64; 3]) -> Edge {
    let rows = Rows {
        counts,
        paid,
        incurred: Some(incurred),
    };
    Edge { rows, refused }
}

/// Set K with another incurred triangle.
const fn incurred(incurred: Triangle, refused: [u64; 3]) -> Edge {
    edge(K.counts, K.paid, incurred, refused)
}

const ONE_COUNT: Triangle = &[&[1, 0], &[1]];

/// The largest incurred reserve of a year with U = 200001 and R = 1 under IDCL.
const RESERVE: i64 = 200_000_000_000_000 / 200_001;

/// Edges that are met exactly, and the same a unit past them.
pub const EDGES: &[Edge] = &[
    // p(1) = -8 × 10^9.
    edge(WIDEST.counts, WIDEST.paid, WIDEST.paid, [0, 0, 0]),
    edge(WIDER.counts, WIDER.paid, WIDER.paid, [12, 12, 12]),
    // p(1) = 8 × 10^9.
    edge(
        &[&[1, 9], &[1]],
        &[&[200, 9_800], &[1]],
        &[&[1, 0], &[1]],
        [0, 0, 0],
    ),
    edge(
        &[&[1, 9], &[1]],
        &[&[199, 9_801], &[1]],
        &[&[1, 0], &[1]],
        [12, 12, 12],
    ),
    // A(1), B(1) and the latest row sums of incurred.
    incurred(&[&[0, 100], &[5]], [0, 13, 13]),
    incurred(&[&[-1, 100], &[5]], [0, 13, 13]),
    incurred(&[&[100, -100], &[5]], [0, 13, 13]),
    incurred(&[&[100, -101], &[5]], [0, 13, 13]),
    incurred(&[&[100, 0], &[-1]], [0, 13, 13]),
    incurred(&[&[100, 0], &[0]], [0, 0, 0]),
    // g(0) of incurred, from 10^6 to 4 × 10^9.
    incurred(&[&[1, 1000], &[1]], [0, 13, 13]),
    incurred(&[&[1, 999], &[1]], [0, 0, 0]),
    incurred(&[&[4001, -3001], &[1000]], [0, 13, 13]),
    incurred(&[&[4000, -3000], &[1000]], [0, 0, 0]),
    // Half a billionth past these goes to them, which are even.
    incurred(&[&[1_999_999, 1_998_000_001], &[1]], [0, 0, 0]),
    incurred(&[&[8_000_000_001, -6_000_000_001], &[1000]], [0, 0, 0]),
    // g(0) of paid, half a billionth below 10^6.
    edge(
        ONE_COUNT,
        &[&[1_999_999, 1_998_000_001], &[1]],
        &[&[1, 0], &[1]],
        [0, 0, 0],
    ),
    // BDCL: V(2) = 10^6 × W(2) / 10.
    edge(
        ONE_COUNT,
        &[&[1_000_000, 0], &[1]],
        &[&[10, 0], &[2_000_000_000]],
        [0, 0, 0],
    ),
    edge(
        ONE_COUNT,
        &[&[1_000_000, 0], &[1]],
        &[&[10, 0], &[2_000_000_001]],
        [0, 14, 0],
    ),
    // BDCL: V(2) = 21999 × W(2) / 6, where W(2) = 54547933997, half a unit past 2 × 10^14.
    edge(
        ONE_COUNT,
        &[&[21_999, 0], &[1]],
        &[&[1, 5], &[9_091_322_351]],
        [0, 0, 0],
    ),
    // IDCL: V(2) = 200001 × R*.
    edge(
        ONE_COUNT,
        &[&[200_000, 1], &[200_000]],
        &[&[1_000_000_000, 0], &[200_000 + RESERVE]],
        [0, 0, 0],
    ),
    edge(
        ONE_COUNT,
        &[&[200_000, 1], &[200_000]],
        &[&[1_000_000_000, 0], &[200_001 + RESERVE]],
        [0, 0, 14],
    ),
    // IDCL: V(2) = 200000 × R*, with R = 1 and R* = 10^9: 2 × 10^14.
    edge(
        ONE_COUNT,
        &[&[199_999, 1], &[199_999]],
        &[&[1_000_000_000, 0], &[1_000_199_999]],
        [0, 0, 0],
    ),
    // IDCL: V(2) = 7333 × R* / 2, where R* = 54547933997, half a unit past 2 × 10^14.
    edge(
        ONE_COUNT,
        &[&[7_331, 2], &[7_331]],
        &[&[1, 7], &[6_818_492_666]],
        [0, 0, 0],
    ),
    // IDCL: V(2) = -paid × (paid + 1).
    edge(
        ONE_COUNT,
        &[&[14_142_135, 1], &[14_142_135]],
        &[&[1_000_000_000, 0], &[0]],
        [0, 0, 0],
    ),
    edge(
        ONE_COUNT,
        &[&[14_142_136, 1], &[14_142_136]],
        &[&[1_000_000_000, 0], &[0]],
        [0, 0, 14],
    ),
];

impl Example {
    /// The number of accident years and the file.
    pub fn file(&self) -> (u64, Vec<u8>) {
        let set = self.rows.set();
        (set.m as u64, file(&set))
    }

    /// The answer of this crate's calculation.
    pub fn calculated(&self) -> Answer {
        let (m, file) = self.file();
        let answer = match self.call {
            Call::Shares => shares(&file, m).map(|of| Answer::Shares(Box::new(of))),
            Call::Delays => delays(&file, m).map(Answer::Delays),
            Call::Forecast { method, basis } => {
                let room = entry_count(m as usize);
                forecast(&file, m, method, basis, room).map(Answer::Forecast)
            }
            Call::BackTest { method, basis, cut } => {
                back_test(&file, m, cut, method, basis).map(Answer::BackTest)
            }
            Call::Closing { line } => Ok(Answer::Text(closing(&[line.as_bytes(), &file].concat()))),
        };
        answer.unwrap_or_else(Answer::Refused)
    }

    /// Whether an answer is what the documents print; says what is not.
    pub fn check(&self, answer: &Answer) -> Result<(), String> {
        let holds = match (&self.printed, answer) {
            (Printed::Numbers(numbers), _) => return self.check_numbers(answer, numbers),
            (Printed::Lines(lines), Answer::Text(text)) => text == lines.as_bytes(),
            (Printed::Refused(printed), Answer::Refused(refusal)) => refusal == printed,
            (Printed::Passed, Answer::Refused(_)) => false,
            (Printed::Passed, _) => true,
            _ => false,
        };
        match holds {
            true => Ok(()),
            false => Err(format!("{}: found {answer:?}", self.says)),
        }
    }

    fn check_numbers(&self, answer: &Answer, numbers: &[(Number, i64)]) -> Result<(), String> {
        for &(number, printed) in numbers {
            let found = self.number(answer, number);
            if found != Some(printed) {
                let says = self.says;
                return Err(format!("{says}: {number:?} of {answer:?} is not {printed}"));
            }
        }
        Ok(())
    }

    fn number(&self, answer: &Answer, number: Number) -> Option<i64> {
        let m = self.rows.counts.len();
        let found = match (answer, number) {
            (Answer::Shares(of), B(j)) => of.b[j],
            (Answer::Shares(of), N(i)) => of.n[i - 1],
            (Answer::Shares(of), Q(j)) => of.q[j],
            (Answer::Shares(of), U(i)) => of.u[i - 1],
            (Answer::Delays(of), P(l)) => of.p[l],
            (Answer::Forecast(of), Rbns(i, j)) => of.entries[entry(m, i, j)],
            (Answer::Forecast(of), Ibnr(i, j)) => of.entries[entry(m, i, j) + 1],
            (Answer::Forecast(of), Together(i, j)) => {
                of.entries[entry(m, i, j)] + of.entries[entry(m, i, j) + 1]
            }
            (Answer::BackTest(of), Cells) => of.cells as i64,
            (Answer::BackTest(of), Cellwise) => of.cellwise as i64,
            (Answer::BackTest(of), Yearwise) => of.yearwise as i64,
            (Answer::BackTest(of), Overall) => of.overall as i64,
            _ => return None,
        };
        Some(found)
    }
}
