//! Coverage-guided fuzzing of `respond`, `read_set`, `closing_page`, `cash_in_window`,
//! `forecast_with_delays` and `replay` with libFuzzer: each input is put to the library and to the
//! independent calculation of `reference`, and the answers and the lent memory are compared bit for
//! bit. New coverage is that of the calculation and of the library's own machine code.

pub mod blocks;
mod guarded;
mod mutate;
mod system;

pub use mutate::{change_record, mutate};

use compare::Difference;
use guarded::Guarded;
use reference::examples::EXAMPLES;
use reference::generate::{case, Random};

/// The longest input: a head and some bytes more than any set or journal has.
const LONGEST: usize = 65_600;

/// A call to be fuzzed; its input is a head and then a file or a journal.
pub struct Target {
    /// Compares the call's answer to an input; the seed chooses the memory that is lent.
    pub compare: fn(u64, &[u8]) -> Result<(), Difference>,
    /// The input of a seed.
    pub generate: fn(u64) -> Vec<u8>,
    /// How many bytes of an input are its head.
    pub head: fn(&[u8]) -> usize,
    pub any_head: fn(&mut Random) -> Vec<u8>,
    /// Changes one of the records behind the head, or all.
    pub change_record: fn(&mut Random, &mut [[u8; 16]]),
}

/// A head of N numbers, 8 bytes each, least byte first, and the bytes behind it; a head that is cut
/// short goes on with zeros.
pub fn numbers<const N: usize>(input: &[u8]) -> ([u64; N], &[u8]) {
    let (head, rest) = input.split_at(input.len().min(8 * N));
    let mut bytes = head.to_vec();
    bytes.resize(8 * N, 0);
    let mut numbers = bytes.chunks_exact(8);
    let number = |_| u64::from_le_bytes(numbers.next().unwrap().try_into().unwrap());
    ([0; N].map(number), rest)
}

/// The number of years and the file of an example of document 01.
pub fn any_example(random: &mut Random) -> (u64, Vec<u8>) {
    EXAMPLES[random.below(EXAMPLES.len())].file()
}

/// A number of years, mostly a small one, and now and then one that no set has.
pub fn any_m(random: &mut Random) -> u64 {
    random.pick(&[
        2,
        2,
        2,
        3,
        3,
        4,
        5,
        20,
        21,
        1,
        0,
        258,
        2 + (1 << 32),
        u64::MAX,
    ])
}

/// m, method and basis: any, and now and then such as there are not.
pub fn any_settings(random: &mut Random) -> [u64; 3] {
    let m = any_m(random);
    [m, random.between(0, 3) as u64, random.between(0, 2) as u64]
}

/// The settings and the file of the seed's case, and now and then of an example.
pub fn any_case(seed: u64, random: &mut Random) -> ([u64; 3], Vec<u8>) {
    if random.one_in(8) {
        let (m, file) = any_example(random);
        ([m, random.below(3) as u64, random.below(2) as u64], file)
    } else {
        let case = case(seed);
        ([case.m, case.method, case.basis], case.file)
    }
}

/// Compares the answer to one input, which lies at an end of memory that can be read; panics where
/// something differs.
pub fn test(target: &Target, input: &[u8]) {
    let seed = input.iter().fold(input.len() as u64, |sum, &byte| {
        (sum ^ u64::from(byte)).wrapping_mul(0x0100_0000_01b3)
    });
    let memory = Guarded::new(LONGEST);
    let lent = if seed & 1 == 0 {
        memory.at_end(input)
    } else {
        memory.at_start(input)
    };
    if let Err(difference) = (target.compare)(seed, lent) {
        panic!("{difference}");
    }
}

/// The functions that libFuzzer calls, for a constant [`Target`].
#[macro_export]
macro_rules! fuzz {
    ($target:expr) => {
        #[export_name = "LLVMFuzzerInitialize"]
        extern "C" fn initialize(_: *mut i32, _: *mut *mut *mut u8) -> i32 {
            $crate::blocks::watch();
            0
        }

        #[export_name = "LLVMFuzzerTestOneInput"]
        unsafe extern "C" fn test_one_input(input: *const u8, length: usize) -> i32 {
            // SAFETY: libFuzzer lends so many bytes.
            $crate::test(&$target, unsafe {
                std::slice::from_raw_parts(input, length)
            });
            0
        }

        #[export_name = "LLVMFuzzerCustomMutator"]
        unsafe extern "C" fn custom_mutator(
            input: *mut u8,
            length: usize,
            most: usize,
            seed: u32,
        ) -> usize {
            // SAFETY: libFuzzer lends `most` bytes, of which the first `length` are the input.
            let memory = unsafe { std::slice::from_raw_parts_mut(input, most) };
            $crate::mutate(&$target, memory, length, seed.into())
        }
    };
}
