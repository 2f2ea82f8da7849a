//! Prints a line. What `main` returns is the status: the run ends with BKPT 0 for 0, and BKPT 1 otherwise.
#![no_std]
#![no_main]

use core::fmt::Write;
use hello::Console;

#[no_mangle]
extern "C" fn main() -> i32 {
    let _ = writeln!(Console, "hello, {}", 6 * 7);
    0
}
