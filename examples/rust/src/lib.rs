//! The console, and what a panic does. The kit's start code is assembled into this crate.
#![no_std]

use core::fmt::{self, Write};
use core::{arch, panic};

// The vector table, and the code from reset to main.
arch::global_asm!(include_str!("../../firmware/kit/start.s"), options(raw));

/// The word to which a byte for the console is stored.
const OUT: *mut u32 = 0x4000_0000 as *mut u32;

/// The console of the device window.
pub struct Console;

impl Write for Console {
    fn write_str(&mut self, text: &str) -> fmt::Result {
        for byte in text.bytes() {
            unsafe { OUT.write_volatile(byte.into()) };
        }
        Ok(())
    }
}

/// Prints the message and the place, and ends the run with BKPT 1.
#[panic_handler]
fn panic(info: &panic::PanicInfo) -> ! {
    let _ = writeln!(Console, "{}", info);
    loop {
        unsafe { arch::asm!("bkpt 1") };
    }
}
