//! Any other processor: what the registers need.
use std::ffi::c_void;

pub fn prepare() {
    eprintln!(
        "oracle: the registers are a page that traps, which needs Linux on x86-64 or aarch64; this is {} on {}",
        std::env::consts::OS,
        std::env::consts::ARCH
    );
    std::process::exit(2);
}

pub unsafe fn writes(_: *mut c_void) -> bool {
    unreachable!()
}

pub unsafe fn carry_out(_: *mut c_void, _: *mut u32) -> bool {
    unreachable!()
}
