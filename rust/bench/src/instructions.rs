//! Instructions of each call, counted by valgrind's tool callgrind: a program that measures starts
//! itself once more under valgrind, and that run calls [`count`].

use crate::callgrind;
use crate::cases::{cases, SIDES};
use std::env;
use std::ffi::CString;
use std::fs;
use std::path::Path;
use std::process::Command;

/// The argument that asks a program for [`count`].
const COUNT: &str = "count";

/// The instructions of a call, by each side of its case.
pub struct Instructions {
    pub call: String,
    pub m: usize,
    pub counts: [u64; SIDES],
}

/// Whether this is the run under valgrind.
pub fn asked_to_count() -> bool {
    env::args().nth(1).is_some_and(|word| word == COUNT)
}

/// Makes each call, and has callgrind write its instructions out under its name. A first call is
/// not counted: library functions may be bound in it.
pub fn count() {
    let mut cases = cases();
    callgrind::start();
    for case in &mut cases {
        let name = CString::new(format!("{}, {}", case.call, case.m)).expect("no zero byte");
        for call in &mut case.sides {
            call();
            callgrind::zero();
            call();
            callgrind::dump(&name);
        }
    }
}

/// What a run of this program under valgrind counts. The C library copies by plain 16-byte moves:
/// so the counts are those of any x86-64 machine, and a repeated string instruction, which
/// callgrind would count once for each byte, does not occur.
pub fn instructions(program: &Path) -> Result<Vec<Instructions>, String> {
    let path = program.with_extension("callgrind");
    let output = Command::new("valgrind")
        .args(["-q", "--tool=callgrind", "--instr-atstart=no"])
        .arg("--combine-dumps=yes")
        .arg(format!("--callgrind-out-file={}", path.display()))
        .args([program.as_os_str(), COUNT.as_ref()])
        .env(
            "GLIBC_TUNABLES",
            "glibc.cpu.hwcaps=-ERMS,-AVX2,-AVX_Fast_Unaligned_Load",
        )
        .output()
        .map_err(|error| format!("valgrind does not start, is it installed? {error}"))?;
    if !output.status.success() {
        let said = String::from_utf8_lossy(&output.stderr);
        return Err(format!("valgrind: {}\n{said}", output.status));
    }
    let text = fs::read_to_string(&path).map_err(|error| format!("{}: {error}", path.display()))?;
    read(&text).ok_or_else(|| format!("{} is not as callgrind writes it", path.display()))
}

/// Reads callgrind's file: a part with a name and a total for each dump, the sides of a case one
/// after the other, and a part without a name for the program's end.
fn read(text: &str) -> Option<Vec<Instructions>> {
    let lines = |start| {
        text.lines()
            .filter_map(move |line| line.strip_prefix(start))
    };
    let names = lines("desc: Trigger: Client Request: ").step_by(SIDES);
    let totals: Option<Vec<u64>> = lines("totals: ").map(|total| total.parse().ok()).collect();
    names
        .zip(totals?.chunks(SIDES))
        .map(|(name, totals)| {
            let (call, m) = name.rsplit_once(", ")?;
            Some(Instructions {
                call: call.to_string(),
                m: m.parse().ok()?,
                counts: totals.try_into().ok()?,
            })
        })
        .collect()
}
