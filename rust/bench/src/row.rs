//! The table of what was measured.

use crate::cases::{cases, SIDES};
use crate::instructions::instructions;
use crate::times::times;
use std::env;
use std::fmt::{self, Display, Formatter};
use std::str::FromStr;

/// The table's head.
pub const HEAD: &str = "\
| call | m | instructions, proved | plain | ratio | expert | ratio | ns, proved | plain | ratio | \
expert | ratio |
|---|---|---|---|---|---|---|---|---|---|---|---|
";

/// A line of the table; of each three, the proved call's number comes first, then the peers'.
pub struct Row {
    pub call: String,
    pub m: usize,
    pub instructions: [u64; SIDES],
    pub nanoseconds: [u64; SIDES],
}

/// All rows, measured now, in a program that answers [`asked_to_count`] with [`count`].
///
/// [`asked_to_count`]: crate::asked_to_count
/// [`count`]: crate::count
pub fn rows() -> Result<Vec<Row>, String> {
    let program = env::current_exe().map_err(|error| error.to_string())?;
    let counted = instructions(&program)?;
    let mut cases = cases();
    let timed = times(&mut cases);
    let rows = cases.into_iter().zip(counted).zip(timed);
    let rows = rows.map(|((case, counted), nanoseconds)| {
        assert_eq!((&case.call, case.m), (&counted.call, counted.m));
        Row {
            call: case.call,
            m: case.m,
            instructions: counted.counts,
            nanoseconds,
        }
    });
    Ok(rows.collect())
}

/// The proved call's over each peer's.
pub fn ratios(sides: [u64; SIDES]) -> [f64; SIDES - 1] {
    let [proved, peers @ ..] = sides;
    peers.map(|peer| proved as f64 / peer as f64)
}

impl Display for Row {
    fn fmt(&self, to: &mut Formatter) -> fmt::Result {
        write!(to, "| {} | {} |", self.call, self.m)?;
        for sides in [self.instructions, self.nanoseconds] {
            write!(to, " {} |", sides[0])?;
            for (peer, ratio) in sides[1..].iter().zip(ratios(sides)) {
                write!(to, " {peer} | {ratio:.2} |")?;
            }
        }
        Ok(())
    }
}

impl FromStr for Row {
    type Err = ();

    fn from_str(line: &str) -> Result<Row, ()> {
        let cells: Vec<&str> = line.split('|').map(str::trim).collect();
        let number = |cell: usize| cells[cell].parse().map_err(|_| ());
        match cells[..] {
            ["", call, m, _, _, _, _, _, _, _, _, _, _, ""] => Ok(Row {
                call: call.to_string(),
                m: m.parse().map_err(|_| ())?,
                instructions: [number(3)?, number(4)?, number(6)?],
                nanoseconds: [number(8)?, number(9)?, number(11)?],
            }),
            _ => Err(()),
        }
    }
}
