// One life of a request through 000: submit, collect (unlinks), acknowledge and drain twice, since 000 waits for two
// advances, collect (finishes). The controller's writeback is done in memory; 000 has no call for it.
use super::*;
use usb_if::endpoint::{EndpointAddress, TransferBuffer};

struct Clock;

impl KernelOp for Clock {
    fn delay(&self, _: Duration) {}
}

static CLOCK: Clock = Clock;

/// CAPLENGTH, and where the operational registers begin.
const OPERATIONAL: usize = 0x20;

pub struct Life {
    registers: *mut u32,
    handler: EhciEventHandler,
    control: EhciEndpoint,
    bulk: EhciEndpoint,
}

impl Life {
    fn new() -> Self {
        dma_api::lay_out([256, 9, 1, 8], [0x100000, 0x200000, 0x300000, 0x400000]);
        let page = Box::leak(Box::new([0u32; 1024]));
        page[0] = OPERATIONAL as u32;
        page[1] = 4;
        let registers = page.as_mut_ptr();
        let mmio = NonNull::new(registers as *mut u8).unwrap();
        let mut ehci = Ehci::new(EhciNewParams { mmio, dma: DeviceDma, kernel: &CLOCK }).ok().unwrap();
        ehci.enable_irq().ok().unwrap();
        let handler = ehci.event_handler.take().unwrap();
        let endpoint = |number: u8, transfer_type, max_packet_size| {
            let info = EndpointInfo { address: EndpointAddress(number), transfer_type, max_packet_size };
            EhciEndpoint::new(ehci.regs, ehci.schedule.clone(), ehci.kernel.clone(), 1, info).ok().unwrap()
        };
        let control = endpoint(0, EndpointType::Control, 64);
        let bulk = endpoint(1, EndpointType::Bulk, 512);
        Self { registers, handler, control, bulk }
    }

    fn endpoint(&mut self, count: usize) -> &mut EhciEndpoint {
        if count == 0 { &mut self.control } else { &mut self.bulk }
    }

    fn set(&mut self, register: usize, value: u32) {
        unsafe { self.registers.byte_add(OPERATIONAL + register).write_volatile(value) }
    }

    /// Every descriptor done, no byte left.
    fn controller(&mut self, count: usize) {
        for qtd in &mut self.endpoint(count).inflight.as_mut().unwrap().qtds {
            qtd.modify_cpu(|qtd| qtd.token = 0x0000_0d00);
        }
    }
}

/// 000's chunks are of 20480 bytes; the last one is 100 short, as in the port's request.
fn request(count: usize) -> TransferRequest {
    let direction = Direction::In;
    let len = if count == 0 { 18 } else { count * QTD_MAX_TOTAL_BYTES - 100 };
    let buffer = Some(TransferBuffer { address: 0x1000_0000, len });
    if count > 0 {
        return TransferRequest::Bulk { direction, buffer };
    }
    let setup = ControlSetup {
        request_type: RequestType::Standard,
        recipient: Recipient::Device,
        request: Request::GetDescriptor,
        value: 0x100,
        index: 0,
    };
    TransferRequest::Control { setup, direction, buffer }
}

#[unsafe(no_mangle)]
#[inline(never)]
fn m_original_submit(endpoint: &mut EhciEndpoint, request: TransferRequest) -> bool {
    endpoint.submit_request(request).is_ok()
}

#[unsafe(no_mangle)]
#[inline(never)]
fn m_original_unlink(endpoint: &mut EhciEndpoint, id: u64) -> bool {
    endpoint.reclaim_request(RequestId::new(id)).is_none()
}

#[unsafe(no_mangle)]
#[inline(never)]
fn m_original_acknowledge(handler: &EhciEventHandler) -> bool {
    handler.acknowledge_irq()
}

#[unsafe(no_mangle)]
#[inline(never)]
fn m_original_drain(handler: &EhciEventHandler) -> bool {
    handler.drain_event() != Event::Nothing
}

#[unsafe(no_mangle)]
#[inline(never)]
fn m_original_finish(endpoint: &mut EhciEndpoint, id: u64) -> bool {
    matches!(endpoint.reclaim_request(RequestId::new(id)), Some(Ok(_)))
}

#[unsafe(no_mangle)]
#[inline(never)]
fn m_original_rearm(handler: &EhciEventHandler) -> bool {
    handler.rearm_irq();
    true
}

const NAMES: [&str; 6] = ["submit", "unlink", "acknowledge", "drain", "finish", "rearm"];

/// One life; `around` runs each call and is told which it is.
fn live(life: &mut Life, count: usize, id: u64, mut around: impl FnMut(usize, &mut dyn FnMut() -> bool)) {
    let mut asked = Some(request(count));
    around(0, &mut || m_original_submit(life.endpoint(count), asked.take().unwrap()));
    life.controller(count);
    around(1, &mut || m_original_unlink(life.endpoint(count), id));
    for _ in 0..2 {
        life.set(USBSTS, 0x21);
        around(2, &mut || m_original_acknowledge(&life.handler));
        around(3, &mut || m_original_drain(&life.handler));
    }
    around(4, &mut || m_original_finish(life.endpoint(count), id));
}

/// A life with the calls that docs/INTEGRATION.md prescribes: an interrupt for the transfer, one for each advance, then rearm.
fn live_whole(life: &mut Life, count: usize, id: u64, mut around: impl FnMut(usize, &mut dyn FnMut() -> bool)) {
    let mut asked = Some(request(count));
    around(0, &mut || m_original_submit(life.endpoint(count), asked.take().unwrap()));
    life.controller(count);
    for (turn, status) in [0x01, 0x20, 0x20].into_iter().enumerate() {
        life.set(USBSTS, status);
        around(2, &mut || m_original_acknowledge(&life.handler));
        around(3, &mut || m_original_drain(&life.handler));
        if turn == 0 {
            around(1, &mut || m_original_unlink(life.endpoint(count), id));
        }
    }
    around(5, &mut || m_original_rearm(&life.handler));
    around(4, &mut || m_original_finish(life.endpoint(count), id));
}

pub fn lives(count: usize, lives: usize) {
    let mut life = Life::new();
    for id in 1..=lives {
        live(&mut life, count, id as u64, |which, call| assert!(call(), "{}", NAMES[which]));
    }
}

pub fn wholes(count: usize, lives: usize) {
    let mut life = Life::new();
    for id in 1..=lives {
        live_whole(&mut life, count, id as u64, |which, call| assert!(call(), "{}", NAMES[which]));
    }
}

/// Cycles of the time stamp counter: least, quartiles, with the cost of reading it taken off.
pub fn times(count: usize, lives: usize) {
    use std::arch::x86_64::__rdtscp;
    let now = || unsafe { __rdtscp(&mut 0) };
    let empty = (0..1000).map(|_| { let t = now(); now() - t }).min().unwrap();
    let mut took: [Vec<u64>; 6] = Default::default();
    let mut life = Life::new();
    for id in 1..=lives {
        live(&mut life, count, id as u64, |which, call| {
            let began = now();
            let good = call();
            took[which].push((now() - began).saturating_sub(empty));
            assert!(good, "{}", NAMES[which]);
        });
    }
    for (name, took) in NAMES.iter().zip(&mut took).filter(|(_, took)| !took.is_empty()) {
        took.sort_unstable();
        let n = took.len();
        println!("{name} {} {} {} {}", took[0], took[n / 4], took[n / 2], took[3 * n / 4]);
    }
}

// The stack below the caller is painted, and then searched for the deepest byte that is no longer paint.
const ROOM: usize = 256 * 1024;
const NEAR: usize = 192;

#[inline(never)]
fn paint() {
    let here = 0u8;
    let at = std::hint::black_box(&raw const here) as *mut u8;
    for i in NEAR..ROOM {
        unsafe { at.sub(i).write_volatile(0xa5) }
    }
}

#[inline(never)]
fn painted() -> usize {
    let here = 0u8;
    let at = std::hint::black_box(&raw const here) as *mut u8;
    (NEAR..ROOM).rev().find(|i| unsafe { at.sub(*i).read_volatile() } != 0xa5).unwrap_or(NEAR)
}

pub fn stacks(count: usize) {
    let mut life = Life::new();
    let mut deep = [0; 6];
    live_whole(&mut life, count, 1, |which, call| {
        paint();
        let good = call();
        deep[which] = painted();
        assert!(good, "{}", NAMES[which]);
    });
    for (name, deep) in NAMES.iter().zip(deep) {
        println!("{name} {deep}");
    }
}

/// The descriptors of a submitted request, to be held beside the port's.
pub fn words(count: usize) {
    let mut life = Life::new();
    assert!(m_original_submit(life.endpoint(count), request(count)));
    for qtd in &life.endpoint(count).inflight.as_ref().unwrap().qtds {
        let q = qtd.read_cpu();
        println!("{:08x} {:08x} {:08x?}", q.next_qtd, q.token, q.buffer);
    }
}
