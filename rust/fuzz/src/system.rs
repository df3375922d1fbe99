//! What the standard library has no name for.

pub const PROT_NONE: i32 = 0;
pub const PROT_READ: i32 = 1;
pub const PROT_WRITE: i32 = 2;
pub const PROT_EXEC: i32 = 4;
pub const MAP_PRIVATE: i32 = 2;
pub const MAP_ANONYMOUS: i32 = 32;
pub const SIGTRAP: i32 = 5;
pub const SA_SIGINFO: i32 = 4;
pub const PAGE: usize = 4_096;

/// The numbers before the registers in the context of a signal, and the place of the instruction
/// pointer among them, on x86-64.
pub const INSTRUCTION_POINTER: usize = 5 + 16;

#[repr(C)]
pub struct SignalAction {
    pub handler: extern "C" fn(i32, *mut u8, *mut u64),
    pub mask: [u64; 16],
    pub flags: i32,
    pub restorer: usize,
}

extern "C" {
    pub fn mmap(
        at: *mut u8,
        length: usize,
        protection: i32,
        flags: i32,
        file: i32,
        offset: i64,
    ) -> *mut u8;
    pub fn mprotect(at: *mut u8, length: usize, protection: i32) -> i32;
    pub fn sigaction(signal: i32, action: *const SignalAction, old: *mut SignalAction) -> i32;
    pub fn atexit(call: extern "C" fn()) -> i32;
    /// libFuzzer's own mutation of bytes; hands back the new length.
    pub fn LLVMFuzzerMutate(input: *mut u8, length: usize, most: usize) -> usize;
}
