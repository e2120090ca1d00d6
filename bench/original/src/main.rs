//! 000, unchanged and optimised, over the oracle's stand-ins, on registers that are plain memory.
//!   original count N K    K lives of a request with N descriptors (0: control), for callgrind: the m_original_* functions
//!   original whole N K    the same, as docs/INTEGRATION.md prescribes a life
//!   original time N K     the same, timed call by call
//!   original stack N      bytes of stack below the caller, the deepest byte written
#![allow(dead_code, unused_imports, private_interfaces)]
extern crate alloc;
#[macro_use]
extern crate log;
#[macro_use]
extern crate anyhow;

#[allow(clippy::all)]
mod backend {
    include!(concat!(env!("OUT_DIR"), "/backend.rs"));
}
mod err {
    include!(concat!(env!("OUT_DIR"), "/err.rs"));
}

pub use backend::kmod::osal;
pub type Mmio = core::ptr::NonNull<u8>;

/// 000 reads the speed alone.
pub struct DeviceAddressInfo {
    pub port_speed: usb_if::host::hub::Speed,
}

use backend::kmod::ehci::life;

fn main() {
    let words: Vec<String> = std::env::args().collect();
    let number = |i: usize| words.get(i).and_then(|word| word.parse().ok()).unwrap_or(1);
    match words.get(1).map(String::as_str) {
        Some("count") => life::lives(number(2), number(3)),
        Some("whole") => life::wholes(number(2), number(3)),
        Some("time") => life::times(number(2), number(3)),
        Some("stack") => life::stacks(number(2)),
        Some("words") => life::words(number(2)),
        _ => std::process::exit(2),
    }
}
