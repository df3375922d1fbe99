//! The reader and the writer.

use reference::examples::{set_k, set_k_without_incurred};
use reference::generate::{any_set, file, shuffled_file, writer_case, Random};
use reference::records::{cells, file_length, is_line, place};
use reference::*;

#[test]
fn bytes_of_a_file() {
    for line in 0..=5 {
        let record = |kind: u8, i: u8, j: u8, value: i64| {
            let mut record = vec![kind, i, j, line, 0, 0, 0, 0];
            record.extend(value.to_le_bytes());
            record
        };
        let expected = [
            record(0, 1, 0, 80),
            record(0, 1, 1, 20),
            record(0, 2, 0, 90),
            record(1, 1, 0, 600),
            record(1, 1, 1, 400),
            record(1, 2, 0, 660),
            record(2, 1, 0, 900),
            record(2, 1, 1, 100),
            record(2, 2, 0, 1080),
        ];
        let line = u64::from(line);
        let (long, short) = (
            set_k().on_line(line),
            set_k_without_incurred().on_line(line),
        );
        assert_eq!(file(&long), expected.concat());
        assert_eq!(file(&short), expected[..6].concat());
    }
    assert_eq!(file(&set_k()), file(&set_k().on_line(0)));
}

/// Kind, accident year and delay, of a record.
fn key(record: &[u8]) -> [u8; 3] {
    [record[0], record[1], record[2]]
}

/// Equal sets have equal files, whatever order they were read in; a set that differs in one cell
/// has a file that differs in that record alone.
#[test]
fn one_file_for_one_set() {
    let mut random = Random::new(3);
    for _ in 0..1_000 {
        let set = any_set(&mut random);
        let m = set.m as u64;
        let bytes = file(&set);
        assert!(bytes.chunks(16).map(key).is_sorted());
        let read = read_set(&shuffled_file(&mut random, &set), m).unwrap();
        assert_eq!(file(&read), bytes);

        let mut other = set.clone();
        let kind = random.below(usize::from(set.kinds())) as u8;
        let every: Vec<(usize, usize)> = cells(set.m).collect();
        let (i, j) = random.pick(&every);
        let value = &mut other.triangle_mut(kind)[place(i, j)];
        *value = if *value == 0 {
            1
        } else {
            *value - value.signum()
        };
        let differing: Vec<[u8; 3]> = bytes
            .chunks(16)
            .zip(file(&other).chunks(16))
            .filter(|(one, other)| one != other)
            .map(|(one, _)| key(one))
            .collect();
        assert_eq!(differing, [[kind, i as u8, j as u8]]);
    }
}

/// What is written on a line reads back on it, and the files of two lines differ in byte 3 of each
/// record and nowhere else.
#[test]
fn one_file_for_each_line() {
    let mut random = Random::new(6);
    for _ in 0..200 {
        let set = any_set(&mut random);
        let files = [0, 1, 2, 3, 4, 5].map(|line| file(&set.on_line(line)));
        for (bytes, line) in files.iter().zip(0u8..) {
            let on_line = set.on_line(u64::from(line));
            assert_eq!(read_set(bytes, set.m as u64), Ok(on_line));
            for (at, (byte, of_0)) in bytes.iter().zip(&files[0]).enumerate() {
                let wanted = if at % 16 == 3 { line } else { *of_0 };
                assert_eq!(*byte, wanted, "line {line}, byte {at}");
            }
        }
    }
}

#[test]
fn negative_values_are_twos_complement() {
    let mut set = set_k();
    set.incurred[place(1, 1)] = -2;
    let bytes = file(&set);
    let negative = bytes
        .chunks(16)
        .find(|record| record[..3] == [2, 1, 1])
        .unwrap();
    assert_eq!(negative[8..], [254, 255, 255, 255, 255, 255, 255, 255]);
    assert_eq!(read_set(&bytes, 2), Ok(set));
}

#[test]
fn length_decides_whether_incurred_is_there() {
    let bytes = file(&set_k_without_incurred());
    assert_eq!(bytes.len(), 6 * 16);
    let read = read_set(&bytes, 2).unwrap();
    assert!(!read.has_incurred);
    assert_eq!(read.incurred, [0; 400]);
    assert_eq!((read.counts, read.paid), (set_k().counts, set_k().paid));
}

#[test]
fn what_is_written_reads_back_in_any_order() {
    let mut random = Random::new(1);
    for _ in 0..1_000 {
        let set = any_set(&mut random);
        let m = set.m as u64;
        assert_eq!(read_set(&file(&set), m), Ok(set.clone()));
        let shuffled = shuffled_file(&mut random, &set);
        assert_eq!(read_set(&shuffled, m), Ok(set));
    }
}

#[test]
fn order_changes_no_answer() {
    let mut random = Random::new(2);
    for round in 0..300 {
        let set = any_set(&mut random);
        let m = set.m as u64;
        let (method, basis) = (round % 3, round % 2);
        let (one, other) = (file(&set), shuffled_file(&mut random, &set));
        assert_eq!(shares(&one, m), shares(&other, m));
        assert_eq!(delays(&one, m), delays(&other, m));
        assert_eq!(claim_costs(&one, m), claim_costs(&other, m));
        assert_eq!(
            forecast(&one, m, method, basis, 2_000),
            forecast(&other, m, method, basis, 2_000)
        );
        assert_eq!(
            back_test(&one, m, 1, method, basis),
            back_test(&other, m, 1, method, basis)
        );
    }
}

/// Bytes past the set and, on a refusal, all bytes keep their values; numbers outside the cells
/// are not read.
#[test]
fn generated_writes() {
    let (mut outcomes, mut lines) = ([0; 8], [0; 6]);
    for seed in 0..2_000 {
        let case = writer_case(seed);
        let before: Vec<u8> = (0..case.out_len).map(|at| at as u8 ^ 0x5a).collect();
        let mut out = before.clone();
        let answer = write_set(
            case.m,
            case.line,
            case.has_incurred,
            &case.counts,
            &case.paid,
            &case.incurred,
            &mut out,
        );
        match answer {
            Err(refusal) => {
                outcomes[refusal as usize] += 1;
                assert_eq!(out, before);
                assert_eq!(refusal == 3, !is_line(case.line) && refusal != 1);
            }
            Ok(()) => {
                outcomes[0] += 1;
                lines[case.line as usize] += 1;
                let length = file_length(case.m as usize, case.has_incurred);
                assert_eq!(out[length..], before[length..]);
                let set = read_set(&out[..length], case.m).unwrap();
                assert_eq!((set.line, set.has_incurred), (case.line, case.has_incurred));
                let given = [&case.counts, &case.paid, &case.incurred];
                for kind in 0..set.kinds() {
                    for (i, j) in cells(set.m) {
                        let at = place(i, j);
                        assert_eq!(set.triangle(kind)[at], given[usize::from(kind)][at]);
                    }
                }
            }
        }
    }
    assert!(outcomes[0] > 1_000, "{outcomes:?}");
    assert!(
        [1, 3, 5, 7].iter().all(|&refusal| outcomes[refusal] >= 20),
        "{outcomes:?}"
    );
    assert!([2, 4, 6].iter().all(|&refusal| outcomes[refusal] == 0));
    assert!(lines.iter().all(|&times| times >= 100), "{lines:?}");
}

#[test]
fn writer_takes_its_questions_in_order() {
    let mut bad = set_k();
    bad.counts[0] = -1;
    let write = |m: u64, set: &Set, has_incurred: bool, length: usize| {
        let mut out = vec![7; length];
        let answer = write_set(
            m,
            set.line,
            has_incurred,
            &set.counts,
            &set.paid,
            &set.incurred,
            &mut out,
        );
        assert!(answer.is_ok() || out.iter().all(|&byte| byte == 7));
        answer
    };
    for line in [6, 7, 255, 256, 257, 261, 1 << 32, u64::MAX] {
        let bad = bad.on_line(line);
        assert_eq!(write(1, &bad, true, 0), Err(1));
        assert_eq!(write(21, &bad, true, 0), Err(1));
        assert_eq!(write(2, &bad, true, 0), Err(3));
        assert_eq!(write(2, &set_k().on_line(line), true, 143), Err(3));
        assert_eq!(write(2, &set_k().on_line(line), true, 144), Err(3));
    }
    for line in 0..=5 {
        let bad = bad.on_line(line);
        assert_eq!(write(1, &bad, true, 0), Err(1));
        assert_eq!(write(2, &bad, true, 0), Err(5));
        assert_eq!(write(2, &set_k().on_line(line), true, 143), Err(7));
        assert_eq!(write(2, &set_k().on_line(line), true, 144), Ok(()));
    }
    assert_eq!(write(2, &set_k(), false, 95), Err(7));
    assert_eq!(write(2, &set_k(), false, 96), Ok(()));
    // Incurred is not looked at where it is not there.
    let mut far = set_k();
    far.incurred.fill(i64::MAX);
    assert_eq!(write(2, &far, false, 96), Ok(()));
    assert_eq!(write(2, &far, true, 144), Err(5));
}
