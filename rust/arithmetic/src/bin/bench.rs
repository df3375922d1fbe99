//! Nanoseconds of a call, proved code against plain Rust with i128, on the same numbers in one run.
//! Both sides test the same ranges and are calls that are not inlined. A number is the least of
//! many passes.
use arithmetic::{plain, proved, Numbers};
use std::{hint::black_box, time::Instant};

const CALLS: usize = 1 << 14;
const PASSES: usize = 61;

/// Both sides by turns over the rows: the name, the two times and their ratio.
fn compare<T: Copy>(name: &str, rows: &[T], proved: impl Fn(T) -> i64, plain: impl Fn(T) -> i64) {
    let mut least = [f64::MAX; 2];
    for _ in 0..PASSES {
        let start = Instant::now();
        black_box(
            rows.iter()
                .fold(0, |sum: i64, &row| sum.wrapping_add(proved(row))),
        );
        let middle = Instant::now();
        black_box(
            rows.iter()
                .fold(0, |sum: i64, &row| sum.wrapping_add(plain(row))),
        );
        let times = [middle - start, middle.elapsed()];
        for (best, time) in least.iter_mut().zip(times) {
            *best = best.min(time.as_secs_f64() * 1e9 / CALLS as f64);
        }
    }
    println!(
        "{name:38} {:7.2} {:7.2} {:7.2}",
        least[0],
        least[1],
        least[0] / least[1]
    );
}

/// Rows of numbers from a generator.
fn rows<T>(mut row: impl FnMut(&mut Numbers) -> T) -> Vec<T> {
    let mut n = Numbers(88172645463325252);
    (0..CALLS).map(|_| row(&mut n)).collect()
}

/// From half of most to most.
fn upper(n: &mut Numbers, most: u64) -> i64 {
    (most - n.below(most / 2)) as i64
}

fn main() {
    println!("{:38} {:>7} {:>7} {:>7}", "", "proved", "i128", "ratio");

    let cells = |most: u64, signs: u64| {
        rows(move |n| {
            let (v, x) = (
                n.below(most) as i64,
                n.below(8_000_000_000_000_000_000) as i64,
            );
            let sign = if n.number() % 100 < signs { -1 } else { 1 };
            (v, sign * x)
        })
    };
    for (name, most, signs) in [
        ("cell, V to 10^7", 10_000_000, 0),
        ("cell, V to 10^9", 1_000_000_000, 0),
        ("cell, V to 10^9, 1 in 10 negative", 1_000_000_000, 10),
        ("cell, V to 10^9, signs at random", 1_000_000_000, 50),
        ("cell, V to 2x10^14", 200_000_000_000_000, 0),
        (
            "cell, V to 2x10^14, signs at random",
            200_000_000_000_000,
            50,
        ),
    ] {
        compare(
            name,
            &cells(most, signs),
            |(v, x)| proved::cell(v, x),
            |(v, x)| plain::cell(v, x),
        );
    }

    for (name, most) in [
        ("share, B to 10^6", 1_000_000),
        ("share, B to 10^9", 1_000_000_000),
        ("share, B to 1.1x10^12", 1_100_000_000_000),
    ] {
        let rows = rows(|n| {
            let b = upper(n, most);
            (upper(n, 1_000_000_000), upper(n, b as u64), b)
        });
        compare(
            name,
            &rows,
            |(g, a, b)| proved::share(g, a, b),
            |(g, a, b)| plain::share(g, a, b),
        );
    }

    for (name, most) in [
        ("ultimate, C to 10^6", 1_000_000),
        ("ultimate, C to 10^9", 1_000_000_000),
        ("ultimate, C to 2x10^11", 200_000_000_000),
    ] {
        let rows = rows(|n| (upper(n, most), upper(n, 1_000_000_000)));
        compare(
            name,
            &rows,
            |(c, g)| proved::ultimate(c, g),
            |(c, g)| plain::ultimate(c, g),
        );
    }

    for (name, most) in [
        ("row base, amounts to 10^7", 10_000_000),
        ("row base, amounts to 10^9", 1_000_000_000),
        ("row base, amounts to 10^12", 1_000_000_000_000),
        ("row base, amounts to 2x10^14", 200_000_000_000_000),
    ] {
        let rows = rows(|n| (upper(n, most), upper(n, most / 2), upper(n, most)));
        let cap = 200_000_000_000_000;
        compare(
            name,
            &rows,
            |(u, w, d)| proved::row_base(u, w, d, cap),
            |(u, w, d)| plain::row_base(u, w, d, cap),
        );
    }

    let delays = rows(|n| {
        (
            n.below(8_992_000_000_000_000_000) as i64,
            upper(n, 1_000_000_000),
        )
    });
    compare(
        "delay (round_div)",
        &delays,
        |(a, b)| proved::round_div(a, b),
        |(a, b)| plain::round_div(a, b),
    );
}
