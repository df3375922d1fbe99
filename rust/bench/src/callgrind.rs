//! What a program asks of valgrind's tool callgrind while it runs under it. Outside of valgrind a
//! request does nothing.

use std::arch::asm;
use std::ffi::CStr;

/// callgrind.h counts its requests from the letters C and T.
const FIRST: usize = (b'C' as usize) << 24 | (b'T' as usize) << 16;

/// Counts instructions from here on.
pub fn start() {
    request(FIRST + 4, 0);
}

/// Sets the counters to zero.
pub fn zero() {
    request(FIRST + 1, 0);
}

/// Writes the counters out under a name.
pub fn dump(name: &CStr) {
    request(FIRST + 3, name.as_ptr() as usize);
}

fn request(number: usize, argument: usize) {
    let words = [number, argument, 0, 0, 0, 0];
    // SAFETY: the five instructions, which valgrind knows as the sign of a request, leave every
    // register as it was, but for rdx under valgrind; callgrind only reads the words and the name.
    unsafe {
        asm!(
            "rol rdi, 3",
            "rol rdi, 13",
            "rol rdi, 61",
            "rol rdi, 51",
            "xchg rbx, rbx",
            in("rax") words.as_ptr(),
            inout("rdx") 0usize => _,
        );
    }
}
