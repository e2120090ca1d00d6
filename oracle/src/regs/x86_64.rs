//! x86-64: the processor runs the one instruction on the open page and traps after it (the trap flag).
use std::ffi::{c_int, c_void};

use super::{handle, noted};

const SIGTRAP: c_int = 5;
/// The saved registers in a ucontext, and two of them.
const GREGS: usize = 40;
const REG_EFL: usize = 17;
const REG_ERR: usize = 19;
const TRAP_FLAG: u64 = 0x100;
/// In the fault's error code.
const WRITES: u64 = 2;

unsafe fn saved(context: *mut c_void, register: usize) -> *mut u64 {
    unsafe { (context as *mut u8).add(GREGS + 8 * register) as *mut u64 }
}

pub fn prepare() {
    handle(SIGTRAP, on_step);
}

/// Whether the access that faulted is a write.
pub unsafe fn writes(context: *mut c_void) -> bool {
    unsafe { *saved(context, REG_ERR) & WRITES != 0 }
}

/// Lets the instruction run once the handler has returned; `on_step` comes after it.
pub unsafe fn carry_out(context: *mut c_void, _: *mut u32) -> bool {
    unsafe { *saved(context, REG_EFL) |= TRAP_FLAG };
    false
}

unsafe extern "C" fn on_step(_: c_int, _: *mut u8, context: *mut c_void) {
    unsafe { *saved(context, REG_EFL) &= !TRAP_FLAG };
    noted();
}
