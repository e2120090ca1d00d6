//! The controller's registers: one page that traps. Each access of 000 faults; the handler opens the page, has the one
//! instruction carried out (how, is the processor's: `regs/`), notes it and closes the page again. So every read and every
//! write is seen, in order, with its value. A read has the value that the page holds, or, in a stepped function, the value
//! that its next step is given.
use std::any::Any;
use std::ffi::{c_int, c_void};
use std::ptr::NonNull;
use std::sync::mpsc::{Receiver, Sender, channel};
use std::thread::JoinHandle;

/// It can be tested on any processor.
#[cfg(all(test, not(target_arch = "aarch64")))]
#[path = "regs/aarch64.rs"]
#[allow(dead_code)]
mod aarch64;
#[cfg_attr(all(target_os = "linux", target_arch = "x86_64"), path = "regs/x86_64.rs")]
#[cfg_attr(all(target_os = "linux", target_arch = "aarch64"), path = "regs/aarch64.rs")]
#[cfg_attr(not(all(target_os = "linux", any(target_arch = "x86_64", target_arch = "aarch64"))), path = "regs/other.rs")]
mod processor;

pub const USBCMD: u32 = 0x00;
pub const USBSTS: u32 = 0x04;
pub const USBINTR: u32 = 0x08;
pub const FRINDEX: u32 = 0x0c;

#[derive(Clone, Copy, Debug, PartialEq, Eq)]
pub enum Access {
    Read(u32, u32),
    Write(u32, u32),
    /// Milliseconds.
    Wait(u32),
}

/// Where the operational registers begin.
const CAPLENGTH: usize = 0x20;
const PAGE: usize = 4096;

const SIGSEGV: c_int = 11;
const SA_SIGINFO: c_int = 4;
const SA_NODEFER: c_int = 0x4000_0000;
const OPEN: c_int = 3;
const CLOSED: c_int = 0;

#[repr(C)]
struct SigAction {
    handler: usize,
    mask: [u64; 16],
    flags: c_int,
    restorer: usize,
}

unsafe extern "C" {
    fn mmap(at: *mut c_void, size: usize, protection: c_int, flags: c_int, file: c_int, offset: i64) -> *mut c_void;
    fn mprotect(at: *mut c_void, size: usize, protection: c_int) -> c_int;
    fn sigaction(signal: c_int, action: *const SigAction, old: *mut SigAction) -> c_int;
    fn _exit(status: c_int) -> !;
}

struct Page {
    base: *mut u8,
    trapping: bool,
    /// The access that is being carried out: offset, and whether it writes.
    current: Option<(u32, bool)>,
    /// In a stepped function: to say that a read has come, and to be given its value.
    stepped: Option<(Sender<Stop>, Receiver<u32>)>,
    alone: u32,
    trace: Vec<Access>,
}

static mut THE_PAGE: *mut Page = std::ptr::null_mut();

/// One thread runs at a time: the main one waits while a stepped function runs, and that one waits at each read.
fn page() -> &'static mut Page {
    unsafe { &mut *THE_PAGE }
}

fn protect(protection: c_int) {
    unsafe { mprotect(page().base as *mut c_void, PAGE, protection) };
}

fn word(offset: u32) -> *mut u32 {
    unsafe { page().base.add(CAPLENGTH + offset as usize) as *mut u32 }
}

/// The value of a read in a stepped function. A function that was given up runs to its end by itself, on readings that
/// let each of 000's waits pass.
fn awaited(offset: u32) -> Option<u32> {
    let (stops, readings) = page().stepped.take()?;
    let _ = stops.send(Stop::Read(offset));
    let reading = readings.recv().unwrap_or_else(|_| {
        page().alone ^= 0x1000;
        page().alone
    });
    page().stepped = Some((stops, readings));
    Some(reading)
}

unsafe extern "C" fn on_fault(_: c_int, info: *mut u8, context: *mut c_void) {
    unsafe {
        let at = *(info.add(16) as *const usize);
        let base = page().base as usize;
        if !page().trapping || !(base..base + PAGE).contains(&at) {
            eprintln!("oracle: a fault at {at:#x} that is no register");
            _exit(139);
        }
        let offset = (at - base - CAPLENGTH) as u32;
        let writes = processor::writes(context);
        let reading = if writes { None } else { awaited(offset) };
        protect(OPEN);
        if let Some(reading) = reading {
            *word(offset) = reading;
        }
        page().current = Some((offset, writes));
        if processor::carry_out(context, word(offset)) {
            noted();
        }
    }
}

/// The access has been carried out.
fn noted() {
    if let Some((offset, writes)) = page().current.take() {
        let value = unsafe { *word(offset) };
        page().trace.push(if writes { Access::Write(offset, value) } else { Access::Read(offset, value) });
        protect(CLOSED);
    }
}

fn handle(signal: c_int, handler: unsafe extern "C" fn(c_int, *mut u8, *mut c_void)) {
    let handler = handler as *const () as usize;
    let action = SigAction { handler, mask: [0; 16], flags: SA_SIGINFO | SA_NODEFER, restorer: 0 };
    assert_eq!(unsafe { sigaction(signal, &action, std::ptr::null_mut()) }, 0);
}

fn prepare() {
    unsafe {
        if !THE_PAGE.is_null() {
            return;
        }
        processor::prepare();
        let base = mmap(std::ptr::null_mut(), PAGE, OPEN, 0x22, -1, 0);
        assert!(base as isize != -1);
        THE_PAGE = Box::leak(Box::new(Page {
            base: base as *mut u8,
            trapping: false,
            current: None,
            stepped: None,
            alone: 0,
            trace: Vec::new(),
        }));
    }
    handle(SIGSEGV, on_fault);
}

/// Registers of 0 and a controller with so many ports.
pub fn fresh(ports: u8) -> NonNull<u8> {
    prepare();
    assert!(!page().trapping);
    unsafe {
        page().base.write_bytes(0, PAGE);
        *page().base = CAPLENGTH as u8;
        *(page().base.add(4) as *mut u32) = ports as u32;
    }
    NonNull::new(page().base).unwrap()
}

/// What the next reads of a register show. Only between traced calls.
pub fn set(offset: u32, value: u32) {
    assert!(!page().trapping);
    unsafe { *word(offset) = value }
}

fn trap() {
    page().trace.clear();
    page().trapping = true;
    protect(CLOSED);
}

fn untrap() -> Vec<Access> {
    page().trapping = false;
    protect(OPEN);
    std::mem::take(&mut page().trace)
}

/// A function with every access noted.
pub fn traced<R>(run: impl FnOnce() -> R) -> (R, Vec<Access>) {
    page().stepped = None;
    trap();
    let result = run();
    (result, untrap())
}

/// For the kernel's delay.
pub fn waited(milliseconds: u32) {
    page().trace.push(Access::Wait(milliseconds));
}

enum Stop {
    Read(u32),
    End(Box<dyn Any + Send>),
}

/// Where a stepped function stands: the register that it reads next, or its result.
pub enum Now<R> {
    Reads(u32),
    Done(R),
}

/// A function that is run from one register read to the next, on a thread of its own. Dropped before its end it is given
/// up: it runs to its end unseen.
pub struct Stepped {
    thread: Option<JoinHandle<()>>,
    readings: Option<Sender<u32>>,
    stops: Receiver<Stop>,
}

impl Stepped {
    /// Runs up to the first read.
    pub fn start<R: Send + 'static>(run: impl FnOnce() -> R + Send + 'static) -> (Self, Now<R>, Vec<Access>) {
        let (to_main, stops) = channel();
        let (readings, from_main) = channel();
        let last = to_main.clone();
        page().stepped = Some((to_main, from_main));
        trap();
        let thread = std::thread::spawn(move || {
            let result = run();
            let _ = last.send(Stop::End(Box::new(result)));
        });
        let stepped = Self { thread: Some(thread), readings: Some(readings), stops };
        let (now, trace) = stepped.stop();
        (stepped, now, trace)
    }

    /// Gives the reading that is waited for, and runs up to the next.
    pub fn step<R: 'static>(&self, reading: u32) -> (Now<R>, Vec<Access>) {
        trap();
        self.readings.as_ref().unwrap().send(reading).unwrap();
        self.stop()
    }

    fn stop<R: 'static>(&self) -> (Now<R>, Vec<Access>) {
        let now = match self.stops.recv().unwrap() {
            Stop::Read(offset) => Now::Reads(offset),
            Stop::End(result) => {
                page().stepped = None;
                Now::Done(*result.downcast().unwrap())
            }
        };
        (now, untrap())
    }
}

impl Drop for Stepped {
    fn drop(&mut self) {
        trap();
        drop(self.readings.take());
        self.thread.take().unwrap().join().unwrap();
        page().stepped = None;
        untrap();
    }
}
