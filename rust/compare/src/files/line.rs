//! The line of cover that a call hands back beside its refusal.

use crate::difference::{same, Difference};
use crate::memory::Memory;

/// The memory of a line, between words that have to stay.
pub struct LentLine(Memory<u64>);

impl LentLine {
    pub fn new(seed: u64) -> LentLine {
        LentLine(Memory::new(seed, &[1]))
    }

    /// The line, to be lent.
    pub fn lent(&mut self) -> &mut u64 {
        let [line] = self.0.lists();
        &mut line[0]
    }

    /// Whether the call that it was lent to refused as is wanted: with the answer's line beside it
    /// where it did not, and with the memory as it was where it did.
    pub fn beside<T>(
        &self,
        what: &str,
        refusal: u64,
        wanted: &Result<T, u64>,
        line: impl FnOnce(&T) -> u64,
        case: impl Fn() -> String,
    ) -> Result<(), Difference> {
        same(
            &format!("{what}, refusal"),
            Some(refusal).filter(|&n| n != 0),
            wanted.as_ref().err().copied(),
            &case,
        )?;
        let line = wanted.as_ref().ok().map(|answer| [line(answer)]);
        let list = line.as_ref().map(|line| [&line[..]]);
        let list = list.as_ref().map(|list| &list[..]);
        self.0.holds(&format!("{what}, line"), list, case)
    }
}

#[cfg(test)]
mod tests {
    use super::LentLine;

    /// Whether a call holds that writes this line, or none, and answers so.
    fn holds(writes: Option<u64>, refusal: u64, wanted: Result<u64, u64>) -> bool {
        let mut line = LentLine::new(1);
        if let Some(number) = writes {
            *line.lent() = number;
        }
        let found = line.beside("test", refusal, &wanted, |&line| line, String::new);
        found.is_ok()
    }

    #[test]
    fn line_is_the_answers() {
        assert!(holds(Some(5), 0, Ok(5)));
        assert!(!holds(Some(0), 0, Ok(5)));
        assert!(!holds(None, 0, Ok(5)));
    }

    #[test]
    fn refusal_leaves_the_line() {
        assert!(holds(None, 3, Err(3)));
        assert!(!holds(Some(0), 3, Err(3)));
        assert!(!holds(None, 3, Err(4)));
        assert!(!holds(None, 0, Err(3)) && !holds(Some(5), 3, Ok(5)));
    }
}
