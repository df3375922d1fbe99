//! The long comparison: `compare COUNT [FIRST]` compares the examples of the documents, and runs
//! every comparison on the seeds FIRST (or 0) to FIRST + COUNT - 1. It prints what was accepted,
//! and by shape how many halves the calculation met: with an even + with an odd whole part.

use compare::{edges, examples, Counts, COMPARISONS};
use reference::halves::{texts, KINDS};
use std::env;
use std::process::ExitCode;

fn main() -> ExitCode {
    let numbers: Option<Vec<u64>> = env::args().skip(1).map(|word| word.parse().ok()).collect();
    let (count, first) = match numbers.as_deref() {
        Some([count]) => (*count, 0),
        Some([count, first]) => (*count, *first),
        _ => {
            eprintln!("usage: compare COUNT [FIRST]");
            return ExitCode::FAILURE;
        }
    };
    match examples().and_then(|count| Ok((count, edges()?))) {
        Ok((count, edges)) => {
            println!("examples: {count} as the documents print them, {edges} edges")
        }
        Err(difference) => {
            println!("examples: {difference}");
            return ExitCode::FAILURE;
        }
    }
    for comparison in &COMPARISONS {
        match comparison.run(first..first.saturating_add(count)) {
            Ok(Counts { accepted, halves }) => {
                println!(
                    "{}: {count} the same, accepted {accepted:?}",
                    comparison.name
                );
                for (shape, met) in halves {
                    let counts = KINDS.iter().zip(texts(&met));
                    let counts = counts.map(|((name, _), text)| format!("{name} {text}"));
                    let counts: Vec<String> = counts.collect();
                    println!("  halves ({}): {}", shape.name(), counts.join(", "));
                }
            }
            Err(difference) => {
                println!("{}: {difference}", comparison.name);
                return ExitCode::FAILURE;
            }
        }
    }
    ExitCode::SUCCESS
}
