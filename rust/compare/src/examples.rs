//! The examples of the documents, and sets at the edges of the questions: what is printed, and
//! every call on the file.

use crate::difference::{same, Difference};
use crate::every_call;
use pardesul::calls;
use reference::examples::{Answer, Call, Example, EDGES, EXAMPLES};
use reference::forecast::entry_count;
use reference::generate::{file, Case};
use reference::page::page_length;
use reference::{BackTest, Delays, Forecast, Shares};

/// Compares every example, and says how many there are.
pub fn examples() -> Result<usize, Difference> {
    for (seed, example) in (0..).zip(EXAMPLES) {
        example
            .check(&answer(example))
            .map_err(|what| Difference::new(what, example.says.to_string()))?;
        let (m, file) = example.file();
        let (method, basis, cut) = match example.call {
            Call::Forecast { method, basis } => (method, basis, 1),
            Call::BackTest { method, basis, cut } => (method, basis, cut),
            _ => (0, 1, 1),
        };
        every_call(seed, &case(m, file, method, basis, cut))?;
    }
    Ok(EXAMPLES.len())
}

/// Compares every method on every edge, and says how many edges there are.
pub fn edges() -> Result<usize, Difference> {
    for (seed, edge) in (0..).zip(EDGES) {
        let set = edge.rows.set();
        for (method, refused) in (0..).zip(edge.refused) {
            let text = || format!("method {method}, edge {seed}");
            let (mut line, mut out, mut leftovers) = (0, vec![0; entry_count(set.m)], [0; 20]);
            let refusal = calls::forecast(
                &file(&set),
                set.m,
                method,
                0,
                &mut line,
                &mut out,
                &mut leftovers,
            );
            same("edge, refusal", refusal, refused, text)?;
            let mut page = vec![0; page_length(set.m)];
            let refusal = calls::closing_page(&file(&set), set.m, method, 0, &mut page);
            same("edge, refusal of the page", refusal, refused, text)?;
            every_call(seed, &case(set.m as u64, file(&set), method, 0, 1))?;
        }
    }
    Ok(EDGES.len())
}

/// The library's answer.
fn answer(example: &Example) -> Answer {
    let (m, file) = example.file();
    let (m, mut line) = (m as usize, 0);
    let (refusal, answer) = match example.call {
        Call::Shares => {
            let [mut b, mut n, mut q, mut g, mut u] = [[0; 20]; 5];
            let refusal =
                calls::shares(&file, m, &mut line, &mut b, &mut n, &mut q, &mut g, &mut u);
            let shares = Shares {
                line,
                b,
                n,
                q,
                g,
                u,
            };
            (refusal, Answer::Shares(Box::new(shares)))
        }
        Call::Delays => {
            let mut p = [0; 20];
            let refusal = calls::delays(&file, m, &mut line, &mut p);
            (refusal, Answer::Delays(Delays { line, p }))
        }
        Call::Forecast { method, basis } => {
            let (mut entries, mut leftovers) = (vec![0; entry_count(m)], [0; 20]);
            let refusal = calls::forecast(
                &file,
                m,
                method,
                basis,
                &mut line,
                &mut entries,
                &mut leftovers,
            );
            let forecast = Forecast {
                line,
                entries,
                leftovers,
            };
            (refusal, Answer::Forecast(forecast))
        }
        Call::BackTest { method, basis, cut } => {
            let (mut sums, c) = ([0; 4], cut as usize);
            let refusal = calls::back_test(&file, m, method, basis, c, &mut line, &mut sums);
            let [cells, cellwise, yearwise, overall] = sums;
            let test = BackTest {
                line,
                cells,
                cellwise,
                yearwise,
                overall,
            };
            (refusal, Answer::BackTest(test))
        }
        Call::Closing { line } => {
            let input = [line.as_bytes(), &file].concat();
            (0, Answer::Text(pardesul::respond(&input)))
        }
    };
    match refusal {
        0 => answer,
        _ => Answer::Refused(refusal),
    }
}

fn case(m: u64, file: Vec<u8>, method: u64, basis: u64, cut: u64) -> Case {
    Case {
        m,
        file,
        method,
        basis,
        out_len: entry_count(m as usize) + 1,
        cut,
    }
}
