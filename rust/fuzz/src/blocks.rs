//! Which basic blocks of the library have run. The library is not compiled with counters, so each
//! of its blocks gets a breakpoint, which is taken away the first time it is met; libFuzzer keeps
//! the input that met it.

use crate::system::{
    atexit, mprotect, sigaction, SignalAction, INSTRUCTION_POINTER, PAGE, PROT_EXEC, PROT_READ,
    PROT_WRITE, SA_SIGINFO, SIGTRAP,
};
use std::collections::{BTreeMap, BTreeSet};
use std::process::Command;
use std::sync::atomic::{AtomicBool, AtomicU8, Ordering};
use std::sync::OnceLock;

/// The instruction of a breakpoint.
const BREAKPOINT: u8 = 0xcc;

/// The most blocks.
const MOST: usize = 8_192;

/// Where libFuzzer looks for coverage beside its own counters.
#[link_section = "__libfuzzer_extra_counters"]
static COUNTERS: [AtomicU8; MOST] = [const { AtomicU8::new(0) }; MOST];

struct Block {
    address: usize,
    function: String,
    /// The byte that the breakpoint stands for.
    byte: u8,
    met: AtomicBool,
}

extern "C" {
    fn pardesul_respond();
}

/// All blocks, by address.
static BLOCKS: OnceLock<Vec<Block>> = OnceLock::new();

/// Sets a breakpoint at each block of the library, and says at the end which were met.
pub fn watch() {
    let found = find();
    assert!(found.len() <= MOST);
    let blocks = BLOCKS.get_or_init(|| found);
    let action = SignalAction {
        handler: met,
        mask: [0; 16],
        flags: SA_SIGINFO,
        restorer: 0,
    };
    // SAFETY: the handler below takes the breakpoints away; no block runs meanwhile.
    unsafe {
        assert_eq!(sigaction(SIGTRAP, &action, std::ptr::null_mut()), 0);
        for block in blocks {
            let page = block.address / PAGE * PAGE;
            let all = PROT_READ | PROT_WRITE | PROT_EXEC;
            assert_eq!(mprotect(page as *mut u8, PAGE, all), 0);
            *(block.address as *mut u8) = BREAKPOINT;
        }
        atexit(report);
    }
}

/// A breakpoint was met: the byte is put back and runs next.
extern "C" fn met(_: i32, _: *mut u8, context: *mut u64) {
    let blocks = BLOCKS.get().expect("blocks are watched");
    // SAFETY: the kernel hands over the registers, and the address is that of a breakpoint.
    unsafe {
        let pointer = context.add(INSTRUCTION_POINTER);
        let address = *pointer as usize - 1;
        let Ok(at) = blocks.binary_search_by_key(&address, |block| block.address) else {
            std::process::abort();
        };
        *(address as *mut u8) = blocks[at].byte;
        *pointer = address as u64;
        blocks[at].met.store(true, Ordering::Relaxed);
        COUNTERS[at].store(1, Ordering::Relaxed);
    }
}

/// Prints how many blocks of each function were met.
extern "C" fn report() {
    let mut functions: BTreeMap<&str, (usize, usize)> = BTreeMap::new();
    for block in BLOCKS.get().into_iter().flatten() {
        let count = functions.entry(&block.function).or_default();
        count.0 += usize::from(block.met.load(Ordering::Relaxed));
        count.1 += 1;
    }
    for (function, (met, all)) in functions {
        if met > 0 {
            eprintln!("blocks: {met} of {all} {function}");
        }
    }
}

/// The blocks of the library's functions in this program.
fn find() -> Vec<Block> {
    let library = concat!(
        env!("CARGO_MANIFEST_DIR"),
        "/../../crates/c_api/out/libc_api.a"
    );
    let symbols = output("nm", &[library]);
    let functions: BTreeSet<&str> = symbols
        .lines()
        .filter_map(|line| line.split_once(" t ").or(line.split_once(" T ")))
        .map(|(_, name)| name)
        .collect();
    let program = std::env::current_exe().expect("this program");
    let program = program.to_str().expect("a path");
    let listing = output("objdump", &["-d", "--no-show-raw-insn", program]);
    let starts = starts(&listing, &functions);
    // What the program's addresses are off by.
    let linked = starts
        .iter()
        .find(|(_, name)| **name == "pardesul_respond")
        .expect("the program has the library");
    let offset = (pardesul_respond as *const () as usize).wrapping_sub(*linked.0);
    let block = |(address, function): (usize, &str)| {
        let address = address.wrapping_add(offset);
        Block {
            address,
            function: function.to_string(),
            // SAFETY: code can be read.
            byte: unsafe { *(address as *const u8) },
            met: AtomicBool::new(false),
        }
    };
    starts.into_iter().map(block).collect()
}

/// The address of each basic block and its function: the first instruction, the target of a jump,
/// and what stands behind a jump.
fn starts<'a>(listing: &'a str, functions: &BTreeSet<&str>) -> BTreeMap<usize, &'a str> {
    let mut starts = BTreeMap::new();
    let (mut function, mut begins) = (None, false);
    for line in listing.lines() {
        if let Some((_, name)) = line
            .strip_suffix(">:")
            .and_then(|line| line.split_once(" <"))
        {
            function = functions.contains(name).then_some(name);
            begins = true;
            continue;
        }
        let (Some(name), Some((address, instruction))) = (function, line.split_once(":\t")) else {
            continue;
        };
        let (operation, operand) = instruction.split_once(' ').unwrap_or((instruction, ""));
        if begins && padding(operation) {
            continue;
        }
        if begins {
            starts.insert(hexadecimal(address.trim()), name);
        }
        let jumps = operation.starts_with('j');
        begins = jumps || operation == "ret";
        if let (true, Some((target, place))) = (jumps, operand.trim().split_once(" <")) {
            let inside = place.trim_end_matches('>').split('+').next();
            if inside == Some(name) {
                starts.insert(hexadecimal(target), name);
            }
        }
    }
    starts
}

/// Whether the operation only fills the space between functions and before jump targets.
fn padding(operation: &str) -> bool {
    operation.starts_with("nop") || ["cs", "data16", "xchg", "int3"].contains(&operation)
}

fn hexadecimal(digits: &str) -> usize {
    usize::from_str_radix(digits, 16).expect("an address")
}

fn output(program: &str, words: &[&str]) -> String {
    let output = Command::new(program)
        .args(words)
        .output()
        .unwrap_or_else(|_| panic!("{program} is not there"));
    assert!(output.status.success(), "{program} failed");
    String::from_utf8(output.stdout).expect("text")
}
