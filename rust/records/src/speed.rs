//! How fast the proved calls are.

use crate::lines_of;
use bench::{ratios, Row, HEAD, ROUNDS};

/// The section of these rows.
pub fn section(rows: &[Row]) -> String {
    let table: String = rows.iter().map(|row| format!("{row}\n")).collect();
    let largest: String = rows
        .chunk_by(|a, b| a.m == b.m)
        .map(|rows| {
            let instructions = largest(rows, |row| row.instructions);
            let nanoseconds = largest(rows, |row| row.nanoseconds);
            format!("| {} | {instructions} | {nanoseconds} |\n", rows[0].m)
        })
        .collect();
    format!(
        "\
## Speed

Each proved call against two peers on the file of a set of m years, `replay` on a journal of m years
and 4,096 transactions, in one run of a release build (`rust/bench`): document 01 in plain Rust with
128-bit numbers, and as an expert writes it in safe Rust, with one pass over the file, sums that are
carried on and 64 bits where they are enough. The numbers after a call are its method and basis, and
c is the back-test's cut. Instructions are those of one call under `valgrind --tool=callgrind`, with
the C library copying by moves of 16 bytes whatever the machine has. Nanoseconds are the best of
{ROUNDS} turns. A ratio is the proved call's number over the peer's. A test counts the instructions
of the proved calls again, which have to be within 3 % of these; the times are not checked.

{HEAD}{table}
The largest ratios at each m, and their calls:

| m | instructions, plain | expert | ns, plain | expert |
|---|---|---|---|---|
{largest}"
    )
}

/// The largest ratio to each peer, and its call.
fn largest(rows: &[Row], sides: fn(&Row) -> [u64; 3]) -> String {
    let largest = |peer: usize| {
        let ratios = rows.iter().map(|row| (ratios(sides(row))[peer], &row.call));
        let (ratio, call) = ratios.max_by(|a, b| a.0.total_cmp(&b.0)).expect("a row");
        format!("{ratio:.2} ({call})")
    };
    [0, 1].map(largest).join(" | ")
}

/// The rows that the text has.
pub fn written_rows(text: &str) -> Vec<Row> {
    lines_of(text, "Speed")
        .filter_map(|line| line.parse().ok())
        .collect()
}
