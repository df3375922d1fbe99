//! What `closing` prints.

use crate::calls;

/// The bytes of the longest text.
const LONGEST: usize = 2_573;

/// The text that `closing` prints for its whole standard input: a line "m method basis", then the
/// file. A refusal prints its number; the line of cover is not printed.
///
/// ```
/// use pardesul::{respond, Triangle, TriangleSet};
///
/// let counts = Triangle::from_rows(&[&[80, 20], &[90]]);
/// let paid = Triangle::from_rows(&[&[600, 400], &[660]]);
/// let set = TriangleSet { m: 2, line: 0, counts, paid, incurred: None };
/// let input = [b"2 0 1\n", &set.to_file()?[..]].concat();
/// assert_eq!(respond(&input), b"1 337 165 502\n2 0 69 69\nT 337 234 571\n");
/// assert_eq!(respond(b"2 0 1\n"), b"refused 2\n");
/// # Ok::<(), pardesul::Refusal>(())
/// ```
pub fn respond(input: &[u8]) -> Vec<u8> {
    let mut text = vec![0; LONGEST];
    let length = calls::respond(input, &mut text);
    text.truncate(length);
    text
}
