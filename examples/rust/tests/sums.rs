//! A test is a program of its own. It passes where the run ends with BKPT 0; a panic ends with BKPT 1.
#![no_std]
#![no_main]

use core::fmt::Write;
use hello::Console;

#[no_mangle]
extern "C" fn main() -> i32 {
    let sum: u32 = (1..=10).sum();
    assert_eq!(sum, 55);
    let _ = writeln!(Console, "sums: ok");
    0
}
