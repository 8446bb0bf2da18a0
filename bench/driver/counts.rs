//! Requests to valgrind's callgrind. Outside of valgrind they do nothing.
use std::ffi::CString;

const BASE: u64 = 0x4354_0000; // 'C', 'T'
const ZERO: u64 = BASE + 1;
const DUMP_AT: u64 = BASE + 3;
const START: u64 = BASE + 4;

fn request(code: u64, argument: u64) {
    let words: [u64; 6] = [code, argument, 0, 0, 0, 0];
    // The instructions that valgrind takes for a request; on the processor they change no register.
    unsafe {
        std::arch::asm!(
            "rol rdi, 3",
            "rol rdi, 13",
            "rol rdi, 61",
            "rol rdi, 51",
            "xchg rbx, rbx",
            in("rax") words.as_ptr(),
            inout("rdx") 0u64 => _,
        );
    }
}

/// Begins to count.
pub fn start() {
    request(START, 0);
}

/// Counts the instructions of one run, into a file that has the label in it.
pub fn count(label: &str, run: impl FnOnce()) {
    let label = CString::new(label).expect("no zero byte");
    request(ZERO, 0);
    run();
    request(DUMP_AT, label.as_ptr() as u64);
}
