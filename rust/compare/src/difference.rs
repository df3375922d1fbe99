//! What is printed of the first difference.

use std::fmt;

/// What differs, and the case, so that it can be replayed.
#[derive(Debug)]
pub struct Difference {
    what: String,
    case: String,
}

impl Difference {
    pub fn new(what: String, case: String) -> Difference {
        Difference { what, case }
    }
}

impl fmt::Display for Difference {
    fn fmt(&self, f: &mut fmt::Formatter) -> fmt::Result {
        write!(f, "{}\n{}", self.what, self.case)
    }
}

/// Ok where the two are the same; `case` describes the case.
pub fn same<T: PartialEq + fmt::Debug>(
    what: &str,
    found: T,
    wanted: T,
    case: impl Fn() -> String,
) -> Result<(), Difference> {
    if found == wanted {
        return Ok(());
    }
    Err(Difference {
        what: format!("{what}: found {found:?}, wanted {wanted:?}"),
        case: case(),
    })
}

/// Ok where the two lists are the same; names the first place that differs.
pub fn same_list<T: PartialEq + fmt::Debug>(
    what: &str,
    found: &[T],
    wanted: &[T],
    case: impl Fn() -> String,
) -> Result<(), Difference> {
    same(&format!("{what}, length"), found.len(), wanted.len(), &case)?;
    match (0..found.len()).find(|&at| found[at] != wanted[at]) {
        Some(at) => same(
            &format!("{what}, place {at}"),
            &found[at],
            &wanted[at],
            &case,
        ),
        None => Ok(()),
    }
}

/// Bytes in hexadecimal.
pub fn hexadecimal(bytes: &[u8]) -> String {
    bytes.iter().map(|byte| format!("{byte:02x}")).collect()
}
