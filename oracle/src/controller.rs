// Document 01's calls on one controller, done by 000's own functions. What 000 lacks or does otherwise is put right here,
// each time under its tag, from the call and 000's own state.
use std::cell::UnsafeCell;
use std::mem::offset_of;

use super::super::hub::{HubInfo, PortEvent, PortState};
use super::*;
use crate::regs::{self, Access, Now, Stepped};
use crate::tags;
use blocks::rows::Rows;
use dma_api::Area;
use usb_if::endpoint::{EndpointAddress, TransferBuffer};

pub mod answer {
    pub const DONE: u8 = 0;
    pub const INVALID: u8 = 1;
    pub const LIMIT: u8 = 2;
    pub const ENDPOINT: u8 = 3;
    pub const FULL: u8 = 4;
    pub const UNSUPPORTED: u8 = 5;
    pub const MEMORY: u8 = 6;
    pub const TIMEOUT: u8 = 7;
    pub const NOT_READY: u8 = 8;
    pub const PENDING: u8 = 9;
    pub const CANCELLED: u8 = 10;
    pub const FAILED: u8 = 11;
    /// An error of 000 that has no number in 01.
    pub const UNNAMED: u8 = 255;
}
use answer::*;

const DOORBELL: u32 = USBCMD_INT_ASYNC_ADVANCE_DOORBELL;
const KINDS: [EndpointType; 4] =
    [EndpointType::Control, EndpointType::Isochronous, EndpointType::Bulk, EndpointType::Interrupt];

#[derive(Clone, Copy)]
pub struct Settings {
    pub descriptors: u64,
    pub endpoints: u8,
    pub ports: u8,
    pub limit: u64,
    pub wait: u64,
    pub areas: [u64; 4],
}

impl Settings {
    /// 01's ranges, but for a port count of 0. The descriptors' area has place D too (02, order 1).
    pub fn good(&self) -> bool {
        self.good_with(1)
    }

    /// Refused for place D alone.
    pub fn lacks_place(&self) -> bool {
        !self.good_with(1) && self.good_with(0)
    }

    /// The ranges with so many places after the D of the pool.
    fn good_with(&self, more: u64) -> bool {
        let counts = (1..=256).contains(&self.descriptors) && (1..=32).contains(&self.endpoints) && self.ports <= 15;
        counts && (1..=16384).contains(&self.limit) && (1..=65536).contains(&self.wait) && self.areas_good(more)
    }

    fn areas_good(&self, more: u64) -> bool {
        let aligned = self.areas.iter().zip([64, 128, 4096, 8]).all(|(at, by)| at % by == 0);
        let endpoints = self.endpoints as u64;
        let sizes = [64 * (self.descriptors + more), 128 * (endpoints + 1), 4096, 8 * endpoints];
        let mut spans: Vec<(u64, u64)> = self.areas.into_iter().zip(sizes).collect();
        spans.sort();
        let inside = spans.iter().all(|(at, size)| at.checked_add(*size).is_some_and(|end| end <= 1 << 32));
        aligned && inside && spans.windows(2).all(|two| two[0].0 + two[0].1 <= two[1].0)
    }
}

/// What a call answered and the register accesses that its block shows.
pub struct Reply {
    pub answer: u8,
    pub values: Vec<String>,
    pub accesses: Vec<Access>,
    /// What else a run must meet with this kind and answer.
    pub met: &'static str,
    /// The same of the toggle and of retried packets, counted beside it.
    pub also: Vec<&'static str>,
}

impl Reply {
    fn new(answer: u8, values: Vec<String>, accesses: Vec<Access>) -> Self {
        Self { answer, values, accesses, met: "", also: Vec::new() }
    }

    pub fn only(answer: u8) -> Self {
        Self::new(answer, Vec::new(), Vec::new())
    }

    fn done(values: Vec<String>, accesses: Vec<Access>) -> Self {
        Self::new(DONE, values, accesses)
    }

    pub fn met(self, met: &'static str) -> Self {
        Self { met, ..self }
    }

    fn also(self, also: Vec<&'static str>) -> Self {
        Self { also, ..self }
    }
}

/// A request as the log gives it.
pub struct Asked {
    pub kind: u8,
    pub incoming: bool,
    pub setup: [u8; 6],
    pub address: u64,
    pub length: u64,
}

/// The request in flight on a slot.
pub struct Flight {
    pub id: u64,
    pub kind: u8,
    pub places: Vec<usize>,
    pub tokens: Vec<u32>,
    /// The bytes that each descriptor was asked for.
    pub lengths: Vec<usize>,
    /// It may end before its last descriptor.
    pub early: bool,
    /// Its chunks are shorter than the limit, for whole packets.
    pub packed: bool,
    pub unlinking: bool,
}

impl Flight {
    /// How a reply that ended early was answered, or one whose chunks are whole packets.
    fn met(&self, answer: u8, unlinked: bool) -> &'static str {
        let short = self.tokens.iter().position(|token| is_short(QtdToken(*token)));
        let Some(at) = short.filter(|at| self.early && at + 1 < self.tokens.len()) else {
            return if answer == DONE && self.packed { WHOLE } else { "" };
        };
        match answer {
            PENDING if unlinked => ", short",
            DONE if self.tokens[..at].iter().any(|token| QtdToken(*token).active()) => ", short after an active one",
            DONE if self.tokens[at..].iter().any(|token| halted(QtdToken(*token))) => ", error after the short one",
            DONE if at == 0 => ", short at once",
            DONE => ", short within",
            _ => "",
        }
    }

    /// Its tokens that a collection reads: up to and with the first short one (N23), or all.
    fn read(&self) -> &[u32] {
        let short = self.tokens.iter().position(|token| is_short(QtdToken(*token)));
        match short.filter(|_| self.early && tags::stands("N23")) {
            Some(at) => &self.tokens[..=at],
            None => &self.tokens,
        }
    }

    /// How many of them have bit 3 set (02, order 7).
    fn retried(&self) -> usize {
        self.read().iter().filter(|token| *token & RETRIED != 0).count()
    }

    /// N27: 000 itself, with nothing taken out of the tokens that it meets, would have done something else than it did: begun
    /// the unlink, failed, or failed with another token.
    fn otherwise(&self, answer: u8, unlinked: bool) -> bool {
        let read = || self.read().iter().map(|token| QtdToken(*token));
        let erring = read().find(|token| token.has_error());
        match answer {
            PENDING if !self.unlinking && !unlinked => {
                read().find(|token| token.active() || token.has_error()).is_some_and(|token| !token.active())
            }
            DONE => erring.is_some(),
            FAILED => erring.is_some_and(|token| !halted(token)),
            _ => false,
        }
    }

    /// What a run must meet of retried packets, at a collect of this request.
    fn retries_met(&self, answer: u8, unlinked: bool) -> Vec<&'static str> {
        let (read, bit) = (self.read(), |token: &u32| *token & RETRIED != 0);
        let (first, last) = (bit(&self.tokens[0]), bit(self.tokens.last().unwrap()));
        let failed = read.iter().find(|token| halted(QtdToken(**token)));
        let count = self.retried();
        let met = match answer {
            PENDING => vec![(self.otherwise(answer, unlinked), ", no unlink for an error of 000's")],
            DONE => vec![
                (count == 1, ", one retried"),
                (count > 1, ", some retried"),
                (count == 0 && self.otherwise(answer, unlinked), ", bits 4 and 5 alone"),
                (count > 0 && self.kind == 0, ", retried, control"),
                (count > 0 && self.kind == 2, ", retried, bulk"),
                (count > 0 && self.kind == 3, ", retried, interrupt"),
                (self.kind == 0 && first, ", retried setup stage"),
                (self.kind == 0 && last, ", retried status stage"),
                (read.iter().any(|token| bit(token) && QtdToken(*token).active()), ", retried and active"),
                (read.len() < self.tokens.len() && bit(read.last().unwrap()), ", retried and short"),
                (self.tokens[read.len()..].iter().any(bit), ", retried after the short one"),
            ],
            CANCELLED => vec![(count > 0, ", retried")],
            FAILED => vec![
                (self.otherwise(answer, unlinked), ", after an error of 000's"),
                (failed.is_some_and(bit), ", retried too"),
            ],
            _ => vec![],
        };
        met.into_iter().filter(|(met, _)| *met).map(|(_, label)| label).collect()
    }
}

/// A slot's toggle (02, order 6), kept from the calls: 000 keeps none.
#[derive(Clone, Copy, Default)]
struct Toggle {
    on: bool,
    /// What the collect answered that kept it.
    answer: u8,
    /// It was 1 until a clear-halt.
    cleared: bool,
}

impl Toggle {
    /// What a run must meet of it at an accepted submit.
    fn met(&self, kind: u8, incoming: bool) -> Vec<&'static str> {
        let mut met = Vec::new();
        match (kind, incoming) {
            (0, _) if self.on => met.push(", toggle 1 and control"),
            (2, true) if self.on => met.push(", toggle 1, bulk In"),
            (2, false) if self.on => met.push(", toggle 1, bulk Out"),
            (3, _) if self.on => met.push(", toggle 1, interrupt"),
            _ if kind != 0 && self.cleared => met.push(", toggle cleared"),
            _ => {}
        }
        match self.answer {
            CANCELLED if self.on && kind != 0 => met.push(", toggle 1 of a cancelled request"),
            FAILED if self.on && kind != 0 => met.push(", toggle 1 of a failed request"),
            _ => {}
        }
        met
    }
}

/// The kernel's delay is noted and does not wait.
pub(super) struct Pause;

impl KernelOp for Pause {
    fn delay(&self, duration: Duration) {
        regs::waited(duration.as_millis() as u32);
    }
}

/// The futures that are driven here never wait.
pub(super) fn finished<T>(future: impl Future<Output = T>) -> T {
    match Box::pin(future).as_mut().poll(&mut Context::from_waker(std::task::Waker::noop())) {
        Poll::Ready(value) => value,
        Poll::Pending => panic!("a future of 000 waits"),
    }
}

/// 000's controller over fresh registers. The memory has been laid out.
pub(super) fn new_ehci(ports: u8) -> Ehci {
    let params = EhciNewParams { mmio: regs::fresh(ports), dma: DeviceDma, kernel: &Pause };
    Ehci::new(params).ok().unwrap()
}

/// 000's endpoint of device 5, outside any slot.
pub(super) fn new_endpoint(ehci: &Ehci, transfer_type: EndpointType) -> (EndpointInfo, EhciEndpoint) {
    let info = EndpointInfo { address: EndpointAddress(1), transfer_type, max_packet_size: 512 };
    let raw = EhciEndpoint::new(ehci.regs, ehci.schedule.clone(), ehci.kernel.clone(), 5, info);
    (info, raw.ok().unwrap())
}

/// The root hub. While a scan stands at a read its states are looked at from outside.
struct Hub(UnsafeCell<EhciRootHub>);

unsafe impl Send for Hub {}
unsafe impl Sync for Hub {}

impl Hub {
    #[allow(clippy::mut_from_ref)]
    fn get(&self) -> &mut EhciRootHub {
        unsafe { &mut *self.0.get() }
    }
}

struct BringUp {
    run: Stepped,
    reads: u32,
    waited: u64,
}

struct Scan {
    run: Stepped,
    /// A port that 000 has as Uninit and 01 not yet.
    leaving: Option<u8>,
    events: Vec<PortEvent>,
}

pub struct Controller {
    pub settings: Settings,
    ehci: Ehci,
    handler: EhciEventHandler,
    hub: Arc<Hub>,
    endpoints: Vec<Option<EndpointHandle>>,
    toggles: Vec<Toggle>,
    running: bool,
    /// 01's note of an advance, beside the pending bits.
    note: bool,
    /// Bit 5 is pending although its advance was counted.
    counted: bool,
    /// The descriptor at place D.
    shared: Option<CoherentBox<QueueTransferDescriptor>>,
    bring_up: Option<BringUp>,
    scan: Option<Scan>,
}

// ---- opening, and what is seen of a controller

impl Controller {
    /// A controller over fresh registers. No other may be there.
    pub fn open(settings: Settings, rows: &mut Rows) -> Self {
        let (d, e) = (settings.descriptors as usize, settings.endpoints as usize);
        let sharing = tags::repaired("N22");
        dma_api::lay_out([d + sharing as usize, e + 1, 1, e], settings.areas);
        let mut ehci = new_ehci(settings.ports);
        let shared = sharing.then(|| shared_descriptor(&ehci.kernel, d));
        let handler = ehci.event_handler.take().unwrap();
        let hub = Arc::new(Hub(UnsafeCell::new(ehci.root_hub.take().unwrap())));
        rows.pool[..d].fill([0; 13]);
        rows.heads[..=e].fill([0; 17]);
        rows.setups[..e].fill([0; 8]);
        tags::repaired("K1");
        let endpoints = (0..e).map(|_| None).collect();
        Self {
            settings,
            ehci,
            handler,
            hub,
            endpoints,
            toggles: vec![Toggle::default(); e],
            running: false,
            note: false,
            counted: false,
            shared,
            bring_up: None,
            scan: None,
        }
    }

    /// Puts what 000 has in its memory into the rows; the rest stays as it was.
    pub fn show(&self, rows: &mut Rows) {
        let schedule = &self.ehci.schedule;
        rows.heads[0] = head_words(&unsafe { schedule.inner.lock_raw() }.head);
        let frames = dma_api::bytes_at(Area::Frames, 0) as *const [u32; 1024];
        rows.frames = unsafe { *frames };
        if let Some(shared) = &self.shared {
            rows.pool[place_of(shared)] = descriptor_words(&shared.read_cpu());
        }
        for (slot, handle) in self.endpoints.iter().enumerate() {
            let Some(handle) = handle else { continue };
            handle.with_raw_mut::<EhciEndpoint, _>(|raw| {
                rows.heads[slot + 1] = head_words(&raw.qh);
                let Some(submitted) = &raw.inflight else { return };
                for qtd in &submitted.qtds {
                    rows.pool[place_of(qtd)] = descriptor_words(&qtd.read_cpu());
                }
                if let Some(packet) = &submitted._setup_packet {
                    rows.setups[slot] = packet.read_cpu();
                }
            });
        }
    }

    /// Running, flag, doorbell, note, unanswered, pending, masked, free, next address.
    pub fn registers(&self) -> String {
        let advance = &self.ehci.schedule.advance;
        let unanswered = advance.requested.load(Ordering::SeqCst) - advance.completed.load(Ordering::SeqCst);
        format!(
            "Q {} {} {} {} {unanswered} {:08x} {:08x} {} {}",
            self.running as u8,
            self.ehci.irq_state.is_enabled() as u8,
            advance.in_progress.load(Ordering::SeqCst) as u8,
            self.note as u8,
            self.handler.pending_irqs.load(Ordering::SeqCst),
            self.handler.masked_irqs.load(Ordering::SeqCst),
            dma_api::free_places(Area::Descriptors),
            self.ehci.next_addr,
        )
    }

    /// Port states by 01's numbers. P4: a port that is leaving is shown as it was.
    pub fn ports(&self) -> Vec<u8> {
        let mut states: Vec<u8> = self.hub.get().ports.iter().map(|state| *state as u8).collect();
        if let Some(port) = self.scan.as_ref().and_then(|scan| scan.leaving) {
            states[port as usize - 1] = PortState::Probed as u8;
        }
        states
    }

    pub fn kind(&self, slot: usize) -> Option<u8> {
        let kind = self.endpoints.get(slot)?.as_ref()?.info().transfer_type;
        KINDS.iter().position(|k| *k == kind).map(|k| k as u8)
    }

    /// The slot's toggle, as kept from the calls.
    pub fn toggle(&self, slot: usize) -> bool {
        self.toggles.get(slot).is_some_and(|toggle| toggle.on)
    }

    pub fn flight(&self, slot: usize) -> Option<Flight> {
        self.endpoints.get(slot)?.as_ref()?.with_raw_mut::<EhciEndpoint, _>(|raw| {
            raw.inflight.as_ref().map(|submitted| Flight {
                id: submitted.request_id.raw(),
                kind: KINDS.iter().position(|kind| *kind == raw.transfer_type).unwrap() as u8,
                places: submitted.qtds.iter().map(place_of).collect(),
                tokens: submitted.qtds.iter().map(|qtd| qtd.read_cpu().token).collect(),
                lengths: submitted.chunk_lengths.clone(),
                early: may_end_early(submitted),
                packed: submitted._setup_packet.is_none()
                    && submitted.qtds.len() > 1
                    && (submitted.chunk_lengths[0] as u64) < self.settings.limit,
                unlinking: submitted.unlink_boundary.is_some(),
            })
        })
    }

    pub fn awaits(&self) -> (Option<u32>, bool) {
        (self.bring_up.as_ref().map(|b| b.reads), self.scan.is_some())
    }

    pub fn is_running(&self) -> bool {
        self.running
    }

    pub fn doorbell(&self) -> bool {
        self.ehci.schedule.advance.in_progress.load(Ordering::SeqCst)
    }

    /// Advances asked for and counted, as 000 has them.
    pub fn advances(&self) -> (usize, usize) {
        let advance = &self.ehci.schedule.advance;
        (advance.requested.load(Ordering::SeqCst), advance.completed.load(Ordering::SeqCst))
    }

    fn busy(&self, slot: usize) -> bool {
        self.raw(slot, |raw| raw.inflight.is_some())
    }

    fn is_open(&self, slot: u8) -> bool {
        let open = self.endpoints.get(slot as usize).is_some_and(|endpoint| endpoint.is_some());
        if !open {
            tags::rule("01-slot");
        }
        open
    }

    fn handle(&self, slot: usize) -> &EndpointHandle {
        self.endpoints[slot].as_ref().unwrap()
    }

    fn raw<R>(&self, slot: usize, look: impl FnOnce(&mut EhciEndpoint) -> R) -> R {
        self.handle(slot).with_raw_mut(look)
    }
}

fn place_of(qtd: &CoherentBox<QueueTransferDescriptor>) -> usize {
    dma_api::place_of(Area::Descriptors, qtd.dma_addr().as_u64())
}

/// N22: a descriptor of 000's without bytes and not active takes place D before any request can, and keeps it.
fn shared_descriptor(kernel: &Kernel, place: usize) -> CoherentBox<QueueTransferDescriptor> {
    dma_api::want(Area::Descriptors, Some(place));
    let shared = new_qtd(kernel, QtdToken(0), 0, 0).ok().unwrap();
    dma_api::want(Area::Descriptors, None);
    shared
}

pub(super) fn descriptor_words(qtd: &QueueTransferDescriptor) -> [u32; 13] {
    let mut words = [0; 13];
    words[..3].copy_from_slice(&[qtd.next_qtd, qtd.alt_next_qtd, qtd.token]);
    words[3..8].copy_from_slice(&qtd.buffer);
    words[8..].copy_from_slice(&qtd.ext_buffer);
    words
}

/// A head's words in 01's order, by their names in 000.
pub(super) fn words_of_head(head: &QueueHead) -> [u32; 17] {
    let mut words = [0; 17];
    words[..4].copy_from_slice(&[head.horizontal_link, head.endpoint_chars, head.endpoint_caps, head.current_qtd]);
    words[4..].copy_from_slice(&descriptor_words(&head.overlay));
    words
}

/// K1: by name, or, left out, as they stand in memory. Then the gap before the overlay is shown as 0: it holds what the
/// compiler of this processor leaves there.
fn head_words(head: &CoherentBox<QueueHead>) -> [u32; 17] {
    if tags::stands("K1") {
        words_of_head(&head.read_cpu())
    } else {
        let mut words = unsafe { *(head.as_ptr().as_ptr() as *const [u32; 17]) };
        words[4..offset_of!(QueueHead, overlay) / 4].fill(0);
        words
    }
}

/// What a block shows of a trace: the writes. Reads must be of registers whose reading the call was given; N13: the read
/// after a ring is left out.
fn shown(trace: &[Access], given: &[u32]) -> Vec<Access> {
    let mut out = Vec::new();
    for (i, access) in trace.iter().enumerate() {
        match *access {
            Access::Write(..) => out.push(*access),
            Access::Read(regs::USBCMD, value) if i > 0 && trace[i - 1] == Access::Write(regs::USBCMD, value) => {
                if !tags::repaired("N13") {
                    out.push(*access);
                }
            }
            Access::Read(offset, _) => assert!(given.contains(&offset), "000 reads {offset:02x}: {trace:x?}"),
            Access::Wait(_) => panic!("000 waits: {trace:x?}"),
        }
    }
    out
}

/// K4: a USBCMD write that is no ring has no 0x40.
fn without_doorbell(accesses: &mut [Access]) {
    for access in accesses {
        if let Access::Write(regs::USBCMD, value) = access {
            if *value & DOORBELL != 0 && tags::repaired("K4") {
                *value &= !DOORBELL;
            }
        }
    }
}

fn number_of(error: &TransferError) -> u8 {
    match error {
        TransferError::InvalidEndpoint => ENDPOINT,
        TransferError::QueueFull => FULL,
        TransferError::NotSupported => UNSUPPORTED,
        TransferError::Cancelled => CANCELLED,
        TransferError::Timeout => TIMEOUT,
        TransferError::Other(text) if text.0.contains("allocation failed") && tags::repaired("N12") => MEMORY,
        _ => UNNAMED,
    }
}

// ---- endpoints

impl Controller {
    pub fn allocate_address(&mut self) -> Reply {
        match self.ehci.allocate_address() {
            Ok(address) => Reply::done(vec![address.to_string()], vec![]),
            Err(USBError::SlotLimitReached) => Reply::only(LIMIT),
            Err(_) => Reply::only(UNNAMED),
        }
    }

    pub fn open_endpoint(&mut self, kind: u8, address: u8, number: u8, packet: u16) -> Reply {
        if kind == 1 && tags::repaired("N15") {
            return Reply::only(UNSUPPORTED);
        }
        if address > 127 || number > 15 || !(1..=1024).contains(&packet) {
            tags::rule("01-range");
            return Reply::only(INVALID);
        }
        if self.above_limit(kind, packet as u64) {
            return Reply::only(INVALID).met(ABOVE);
        }
        let Some(slot) = self.endpoints.iter().position(|endpoint| endpoint.is_none()) else {
            tags::rule("01-slot");
            return Reply::only(LIMIT);
        };
        let info = EndpointInfo {
            address: EndpointAddress(number),
            transfer_type: KINDS[kind as usize],
            max_packet_size: packet,
        };
        dma_api::want(Area::Heads, Some(slot + 1));
        let (ehci, schedule) = (&self.ehci, self.ehci.schedule.clone());
        let mut raw = EhciEndpoint::new(ehci.regs, schedule, ehci.kernel.clone(), address, info).ok().unwrap();
        tags::repaired("K1");
        if packet < 8 && tags::repaired("N2") {
            raw.qh.modify_cpu(|qh| qh.endpoint_chars = qh.endpoint_chars & !(0x7ff << 16) | (packet as u32) << 16);
        }
        self.endpoints[slot] = Some(EndpointHandle::new(info, raw));
        self.toggles[slot] = Toggle::default();
        Reply::done(vec![slot.to_string()], vec![])
    }

    /// 01 zeroes a closed head.
    pub fn close(&mut self, slot: u8, rows: &mut Rows) -> Reply {
        if !self.is_open(slot) {
            return Reply::only(ENDPOINT);
        }
        if self.busy(slot as usize) && tags::repaired("N16") {
            return Reply::only(FULL);
        }
        tags::rule("01-close");
        self.endpoints[slot as usize] = None;
        if tags::repaired("N20") {
            rows.heads[slot as usize + 1] = [0; 17];
        }
        Reply::only(DONE)
    }

    pub fn set_address(&mut self, slot: u8, address: u8) -> Reply {
        if !self.is_open(slot) {
            return Reply::only(ENDPOINT);
        }
        if self.busy(slot as usize) && tags::repaired("N6") {
            return Reply::only(FULL);
        }
        if address > 127 && tags::repaired("N6") {
            return Reply::only(INVALID);
        }
        self.raw(slot as usize, |raw| raw.set_device_address(address));
        Reply::only(DONE)
    }

    pub fn set_packet_size(&mut self, slot: u8, size: u8) -> Reply {
        if !self.is_open(slot) {
            return Reply::only(ENDPOINT);
        }
        if self.busy(slot as usize) && tags::repaired("N6") {
            return Reply::only(FULL);
        }
        if self.above_limit(self.kind(slot as usize).unwrap(), size.max(8) as u64) {
            return Reply::only(INVALID).met(ABOVE);
        }
        self.raw(slot as usize, |raw| raw.set_max_packet_size(size));
        Reply::only(DONE)
    }

    /// 000 has no such call. Whether the slot is open and has a request is 000's own state.
    pub fn clear_halt(&mut self, slot: u8) -> Reply {
        if !self.is_open(slot) {
            return Reply::only(ENDPOINT);
        }
        tags::rule("02-halt");
        let slot = slot as usize;
        if self.busy(slot) {
            return Reply::only(FULL);
        }
        let mut also = Vec::new();
        if self.toggle(slot) {
            also.push(", toggle 1");
        }
        if self.kind(slot) == Some(0) {
            also.push(", control");
        }
        if !self.running {
            also.push(", not running");
        }
        self.toggles[slot] = Toggle { on: false, answer: DONE, cleared: self.toggle(slot) };
        Reply::only(DONE).also(also)
    }

    /// N25: a packet of this size has no room in a chunk. 000 does not ask. A control request has no chunks.
    fn above_limit(&self, kind: u8, packet: u64) -> bool {
        kind >= 2 && packet > self.settings.limit && tags::repaired("N25")
    }

    /// The packet size in the slot's head, where 000 has it.
    fn packet_size(&self, slot: usize) -> u64 {
        self.raw(slot, |raw| (raw.qh.read_cpu().endpoint_chars >> 16 & 0x7ff) as u64)
    }

    /// 02, order 4, for an open slot of kind bulk or interrupt.
    pub fn working_limit(&self, slot: usize) -> Option<u64> {
        let chunked = self.kind(slot).is_some_and(|kind| kind >= 2);
        chunked.then(|| whole_packets(self.settings.limit, self.packet_size(slot)))
    }
}

// ---- requests

/// The largest multiple of the packet size that is not above the limit. Of a packet that is longer there is none but 0 (N25):
/// the limit stays.
pub fn whole_packets(limit: u64, packet: u64) -> u64 {
    if packet > limit { limit } else { limit - limit % packet }
}

// What a run must meet of order 4.
const ABOVE: &str = ", size above the limit";
const WHOLE: &str = ", whole packets";

const TYPES: [RequestType; 4] = [RequestType::Standard, RequestType::Class, RequestType::Vendor, RequestType::Reserved];

/// A setup packet's first six bytes in 000's types, which have no direction bit.
pub(super) fn setup_of(bytes: [u8; 6]) -> ControlSetup {
    let recipient = match bytes[0] & 0x1f {
        0 => Recipient::Device,
        1 => Recipient::Interface,
        2 => Recipient::Endpoint,
        3 => Recipient::Other,
        more => {
            tags::rule("setup");
            Recipient::Reserved(more)
        }
    };
    ControlSetup {
        request_type: TYPES[(bytes[0] >> 5 & 3) as usize],
        recipient,
        request: Request::Other(bytes[1]),
        value: u16::from_le_bytes([bytes[2], bytes[3]]),
        index: u16::from_le_bytes([bytes[4], bytes[5]]),
    }
}

fn request_of(asked: &Asked) -> TransferRequest {
    let direction = if asked.incoming { Direction::In } else { Direction::Out };
    let buffer = (asked.length > 0).then_some(TransferBuffer { address: asked.address, len: asked.length as usize });
    match asked.kind {
        0 => TransferRequest::Control { setup: setup_of(asked.setup), direction, buffer },
        1 => TransferRequest::Isochronous { direction, buffer, packet_lengths: vec![] },
        2 => TransferRequest::Bulk { direction, buffer },
        _ => TransferRequest::Interrupt { direction, buffer },
    }
}

/// N11 and the ranges that 000 cannot be asked for.
fn out_of_range(asked: &Asked) -> bool {
    let past = asked.length > 0 && asked.address.checked_add(asked.length).is_none_or(|end| end > 1 << 32);
    let long = asked.kind == 0 && asked.length > 16384;
    if (past || long) && tags::repaired("N11") {
        return true;
    }
    let turned = asked.kind == 0 && (asked.setup[0] >> 7 == 1) != asked.incoming;
    if turned {
        tags::rule("01-range");
    }
    turned
}

/// `submit_request` of 000 with another limit: all is 000's but the split.
fn submit_split(
    raw: &mut EhciEndpoint,
    request: TransferRequest,
    limit: usize,
) -> core::result::Result<RequestId, TransferError> {
    let transfer = Transfer::from_request(&raw.kernel, request)?;
    let pid = match transfer.direction {
        Direction::In => QtdPid::In,
        Direction::Out => QtdPid::Out,
    };
    let (mut qtds, mut chunk_lengths, mut at) = (Vec::new(), Vec::new(), 0);
    while at < transfer.buffer_len() {
        let len = (transfer.buffer_len() - at).min(limit);
        let token = QtdToken::new(pid, len)
            .with_error_counter(3)
            .with_interrupt_on_complete(at + len == transfer.buffer_len())
            .with_active(true);
        let qtd = new_qtd(&raw.kernel, token, transfer.dma_addr() + at as u64, len);
        qtds.push(qtd.map_err(usb_to_transfer_error)?);
        chunk_lengths.push(len);
        at += len;
    }
    link_qtds(&mut qtds);
    let request_id = raw.allocate_request_id();
    let submitted = SubmittedTransfer {
        request_id,
        transfer: Some(transfer),
        qtds,
        chunk_lengths,
        _setup_packet: None,
        cancelled: false,
        unlink_boundary: None,
    };
    raw.start_transfer(&submitted).map_err(usb_to_transfer_error)?;
    raw.inflight = Some(submitted);
    Ok(request_id)
}

/// 02, order 1: an In request of more than one descriptor, but no control request.
fn may_end_early(submitted: &SubmittedTransfer) -> bool {
    let incoming = submitted.transfer.as_ref().is_some_and(|transfer| matches!(transfer.direction, Direction::In));
    incoming && submitted._setup_packet.is_none() && submitted.qtds.len() > 1
}

// Bits of a token. 000 has one name for bits 3 to 6.
const RETRIED: u32 = 1 << 3;
const HALTED: u32 = 1 << 6;

/// 02, order 7: an error is this bit alone.
fn halted(token: QtdToken) -> bool {
    token.raw() & HALTED != 0
}

/// A token as 000 must be given it, so that its error is 02's (N27): bits 3 to 5 are taken out where 6 is clear.
pub(super) fn without_retries(token: QtdToken) -> QtdToken {
    if halted(token) { token } else { QtdToken(token.raw() & !QtdToken::ERROR_MASK) }
}

/// Inactive, without error, and with bytes left, whatever was asked for.
fn is_short(token: QtdToken) -> bool {
    !token.active() && !halted(token) && token.total_bytes() > 0
}

impl Controller {
    pub fn submit(&mut self, slot: u8, asked: &Asked, command: u32) -> Reply {
        if !self.is_open(slot) {
            return Reply::only(ENDPOINT);
        }
        if !self.running && tags::repaired("N10") {
            return Reply::only(NOT_READY);
        }
        let slot = slot as usize;
        let other = self.kind(slot) != Some(asked.kind);
        // The endpoint asks busy and isochronous, its handle the kind: 01 wants the first two first.
        let of_endpoint = match self.busy(slot) || asked.kind == 1 {
            true => !other || tags::repaired("N4"),
            false => other && !tags::repaired("N3"),
        };
        if !(self.busy(slot) || asked.kind == 1 || other) && out_of_range(asked) {
            return Reply::only(INVALID);
        }
        regs::set(regs::USBCMD, command);
        dma_api::want(Area::Setups, Some(slot));
        let chunked = asked.kind >= 2 && !other && !self.busy(slot);
        let met = if chunked { self.packets_met(slot, asked.length) } else { ["", ""] };
        let limit = if chunked { self.chunk_limit(slot, asked.length) } else { self.settings.limit };
        let (handle, request) = (self.handle(slot), request_of(asked));
        let split = chunked && asked.length > limit && tags::repaired("C");
        let (result, trace) = regs::traced(|| match (split, of_endpoint) {
            (true, _) => self.raw(slot, |raw| submit_split(raw, request, limit as usize)),
            (_, true) => self.raw(slot, |raw| raw.submit_request(request)),
            _ => handle.submit(request),
        });
        let mut accesses = shown(&trace, &[regs::USBCMD]);
        without_doorbell(&mut accesses);
        if result.is_ok() {
            self.lead_to_shared(slot);
            self.go_on_with_toggle(slot);
        }
        match result {
            Ok(id) => {
                let toggle = self.toggles[slot].met(asked.kind, asked.incoming);
                Reply::done(vec![id.raw().to_string()], accesses).met(met[0]).also(toggle)
            }
            Err(error) => Reply::new(number_of(&error), vec![], accesses).met(met[1]),
        }
    }

    /// N24: 000 does not ask the packet size when it splits. Where that does not divide the limit, a request that is longer than
    /// the working limit is split by the working limit.
    fn chunk_limit(&self, slot: usize, length: u64) -> u64 {
        let (limit, whole) = (self.settings.limit, self.working_limit(slot).unwrap());
        if length > whole && whole < limit && tags::repaired("N24") { whole } else { limit }
    }

    /// What a run must meet of such a request, accepted and without room.
    fn packets_met(&self, slot: usize, length: u64) -> [&'static str; 2] {
        let (limit, whole) = (self.settings.limit, self.working_limit(slot).unwrap());
        if length <= whole || whole == limit {
            return ["", ""];
        }
        let set_later = self.packet_size(slot) != self.handle(slot).info().max_packet_size as u64;
        let accepted = match length <= limit {
            _ if set_later => ", whole packets of a size set later",
            true => ", whole packets, one chunk by the limit",
            false => WHOLE,
        };
        let room = length.div_ceil(limit) <= dma_api::free_places(Area::Descriptors) as u64;
        [accepted, if room { ", room by the limit" } else { "" }]
    }

    /// N22: all alternates of 000's end. Those of a request that may end early lead to place D, but the last one's.
    fn lead_to_shared(&self, slot: usize) {
        self.raw(slot, |raw| {
            let Some(submitted) = raw.inflight.as_mut().filter(|submitted| may_end_early(submitted)) else { return };
            if let (true, Some(shared)) = (tags::repaired("N22"), &self.shared) {
                let (_, others) = submitted.qtds.split_last_mut().unwrap();
                let at = shared.dma_addr().as_u64() as u32;
                others.iter_mut().for_each(|qtd| qtd.modify_cpu(|qtd| qtd.alt_next_qtd = at));
            }
        });
    }

    /// N26: 000 starts every request with an overlay token of 0. One of a bulk or interrupt slot goes on with the toggle that is
    /// kept from the calls.
    fn go_on_with_toggle(&self, slot: usize) {
        if self.toggle(slot) && self.kind(slot) != Some(0) && tags::repaired("N26") {
            self.raw(slot, |raw| raw.qh.modify_cpu(|qh| qh.overlay.token |= QtdToken::DATA_TOGGLE));
        }
    }

    /// The controller's own write of a token.
    pub fn writeback(&mut self, place: u64, token: u32) -> Reply {
        tags::rule("01-writeback");
        let met = if place == self.settings.descriptors { ", place D" } else { "" };
        for handle in self.endpoints.iter().flatten() {
            let written = handle.with_raw_mut::<EhciEndpoint, _>(|raw| {
                let qtds = raw.inflight.as_mut().map(|submitted| &mut submitted.qtds)?;
                let qtd = qtds.iter_mut().find(|qtd| place_of(qtd) as u64 == place)?;
                qtd.modify_cpu(|qtd| qtd.token = token);
                Some(())
            });
            if written.is_some() {
                return Reply::only(DONE).met(met);
            }
        }
        Reply::only(INVALID).met(met)
    }

    pub fn cancel(&mut self, slot: u8, id: u64, command: u32, frame: u32) -> Reply {
        if !self.is_open(slot) {
            return Reply::only(ENDPOINT);
        }
        let (result, accesses) =
            self.unlinking(slot as usize, command, frame, |handle| handle.cancel(RequestId::new(id)));
        let answer = result.map_or_else(|error| number_of(&error), |()| DONE);
        Reply::new(answer, vec![], accesses)
    }

    /// `overlay` is the head's overlay token as the controller left it. A log's controller does not write it into the head.
    pub fn collect(&mut self, slot: u8, id: u64, command: u32, frame: u32, overlay: u32, rows: &mut Rows) -> Reply {
        if !self.is_open(slot) {
            return Reply::only(ENDPOINT);
        }
        let before = self.flight(slot as usize);
        self.hide_after_short(slot as usize, id);
        self.hide_retries(slot as usize, id);
        let (result, accesses) =
            self.unlinking(slot as usize, command, frame, |handle| handle.reclaim(RequestId::new(id)));
        self.put_back(slot as usize, &before);
        if let Some(flight) = &before
            && !self.busy(slot as usize)
            && !tags::repaired("N20")
        {
            flight.places.iter().for_each(|place| rows.pool[*place] = [0; 13]);
        }
        let (answer, values) = match result {
            Ok(None) => (PENDING, vec![]),
            Ok(Some(completion)) => {
                // 000 has no count. These are the tokens of its memory, as they were before it looked.
                let retried = before.as_ref().unwrap().retried();
                if retried > 0 {
                    tags::rule("02-retried");
                }
                (DONE, vec![completion.actual_length.to_string(), retried.to_string()])
            }
            Err(TransferError::Other(text)) => match text.0.strip_prefix("EHCI qTD failed token=0x") {
                Some(token) => (FAILED, vec![format!("{token:0>8}")]),
                None => (UNNAMED, vec![]),
            },
            Err(error) => (number_of(&error), vec![]),
        };
        let unlinks = |flight: &Flight| !flight.unlinking && self.flight(slot as usize).is_some_and(|now| now.unlinking);
        let met = before.as_ref().map_or("", |flight| flight.met(answer, unlinks(flight)));
        let retries = before.as_ref().filter(|flight| flight.id == id).map_or(vec![], |flight| {
            if tags::stands("N27") && flight.otherwise(answer, unlinks(flight)) {
                tags::repaired("N27");
            }
            flight.retries_met(answer, unlinks(flight))
        });
        let given = overlay & QtdToken::DATA_TOGGLE != 0;
        let passed = before.is_some() && !self.busy(slot as usize);
        let other = !passed && given != self.toggle(slot as usize);
        if passed {
            self.toggles[slot as usize] = Toggle { on: given, answer, cleared: false };
        }
        let toggle = other.then_some(", another toggle");
        Reply::new(answer, values, accesses).met(met).also(toggle.into_iter().chain(retries).collect())
    }

    /// N23: while 000 looks at a request that may end early, the descriptors after the first short one are inactive, have
    /// no error and everything left.
    ///
    /// Why this is 02's rule. 000 asks the descriptors in order, and twice.
    /// - Before the unlink it stops at the first active one (not finished) or the first in error (finished); past the last it
    ///   is finished. Up to the short one nothing is altered here: an active one before it is met first, and 000 waits; one in
    ///   error before it is met first, and 000 is finished. If neither is, 000 passes the short one, meets no active one
    ///   behind it, and is finished, which is what the short one says.
    /// - At the collection it does not ask for active ones. It ends in the first error, or adds max(0, requested - left) of
    ///   each. Up to and with the short one nothing is altered here, so an error before it counts, and an active one before it
    ///   (written after the unlink began) adds what it says. Behind it no error is met, and each adds 0, because a chunk is
    ///   never longer than 32767 bytes.
    ///
    /// Where none is short, or the last is the first, nothing is altered.
    fn hide_after_short(&self, slot: usize, id: u64) {
        self.raw(slot, |raw| {
            let asked = |submitted: &&mut SubmittedTransfer| submitted.request_id.raw() == id && may_end_early(submitted);
            let qtds = &mut raw.inflight.as_mut().filter(asked)?.qtds;
            let first = qtds.iter().position(|qtd| is_short(qtd.read_cpu().token()))?;
            let after = &mut qtds[first + 1..];
            if !after.is_empty() && tags::repaired("N23") {
                after.iter_mut().for_each(|qtd| qtd.modify_cpu(|qtd| qtd.token = QtdToken::TOTAL_BYTES_MASK));
            }
            Some(())
        });
    }

    /// N27: while 000 looks at a request, bits 3 to 5 are clear in each token whose bit 6 is clear.
    ///
    /// Why this is 02's rule. 000 asks a token three things: active (bit 7), the bytes left (bits 16 to 30), and error, which
    /// is any of bits 3 to 6. The first two do not look at what is altered. The third says, of a token altered so, whether bit
    /// 6 is set. So 000's order, its sum and its first error stand, with 02's error in the place of 000's. A token with bit
    /// 6 is not altered, and 000 gives it as it is.
    fn hide_retries(&self, slot: usize, id: u64) {
        if !tags::stands("N27") {
            return;
        }
        self.raw(slot, |raw| {
            let Some(submitted) = raw.inflight.as_mut().filter(|submitted| submitted.request_id.raw() == id) else { return };
            for qtd in &mut submitted.qtds {
                qtd.modify_cpu(|qtd| qtd.token = without_retries(qtd.token()).raw());
            }
        });
    }

    /// The tokens of the slot's request as they were. After a collection there is none.
    fn put_back(&self, slot: usize, before: &Option<Flight>) {
        self.raw(slot, |raw| {
            let (Some(submitted), Some(flight)) = (&mut raw.inflight, before) else { return };
            for (qtd, token) in submitted.qtds.iter_mut().zip(&flight.tokens) {
                qtd.modify_cpu(|qtd| qtd.token = *token);
            }
        });
    }

    /// A call that may unlink the slot's head. N1: 000 asks for two advances then, and one is taken off.
    fn unlinking<R>(
        &mut self,
        slot: usize,
        command: u32,
        frame: u32,
        call: impl FnOnce(&EndpointHandle) -> R,
    ) -> (R, Vec<Access>) {
        let linked = self.flight(slot).is_some_and(|flight| !flight.unlinking);
        regs::set(regs::USBCMD, command);
        regs::set(regs::FRINDEX, frame);
        let (result, trace) = regs::traced(|| call(self.handle(slot)));
        let advance = &self.ehci.schedule.advance;
        self.raw(slot, |raw| {
            let Some(submitted) = &mut raw.inflight else { return };
            if let (true, Some(UnlinkBoundary::Async(boundary))) = (linked, submitted.unlink_boundary)
                && tags::repaired("N1")
            {
                submitted.unlink_boundary = Some(UnlinkBoundary::Async(boundary - 1));
                advance.requested.fetch_sub(1, Ordering::SeqCst);
            }
        });
        (result, shown(&trace, &[regs::USBCMD, regs::FRINDEX]))
    }
}

// ---- interrupts

impl Controller {
    pub fn acknowledge(&mut self, status: u32, interrupts: u32, first: bool, second: bool) -> Reply {
        regs::set(regs::USBSTS, status);
        regs::set(regs::USBINTR, interrupts);
        self.ehci.irq_state.script(&[first, second]);
        let (yes, trace) = regs::traced(|| self.handler.acknowledge_irq());
        self.ehci.irq_state.script(&[]);
        if status & USBSTS_INTERRUPT_ASYNC_ADVANCE != 0 && self.doorbell() {
            self.note = true;
        }
        Reply::done(vec![(yes as u8).to_string()], shown(&trace, &[regs::USBSTS, regs::USBINTR]))
    }

    pub fn drain(&mut self, command: u32) -> Reply {
        regs::set(regs::USBCMD, command);
        let pending = || self.handler.pending_irqs.load(Ordering::SeqCst) & USBSTS_INTERRUPT_ASYNC_ADVANCE != 0;
        let (before, bell) = (self.advances(), self.doorbell());
        let advanced = pending();
        let (event, trace) = regs::traced(|| self.handler.drain_event());
        let left = pending();
        let mut accesses = shown(&trace, &[regs::USBCMD]);
        if self.note {
            self.counted = left;
        } else {
            // 000 counts a pending bit 5; 01 counts a note.
            let differs = (self.advances(), self.doorbell()) != (before, bell) || !accesses.is_empty();
            if advanced && differs && tags::repaired(if self.counted { "K2" } else { "K3" }) {
                let advance = &self.ehci.schedule.advance;
                advance.completed.store(before.1, Ordering::SeqCst);
                advance.in_progress.store(bell, Ordering::SeqCst);
                accesses.clear();
            }
            self.counted &= left;
        }
        self.note = false;
        let (event, value) = match event {
            Event::Nothing => (0, 0),
            Event::PortChange { port } => (1, port as usize),
            Event::TransferActivity { count } => (2, count),
            Event::Stopped => (3, 0),
        };
        Reply::done(vec![event.to_string(), value.to_string()], accesses)
    }

    pub fn rearm(&mut self) -> Reply {
        let ((), trace) = regs::traced(|| self.handler.rearm_irq());
        Reply::done(vec![], shown(&trace, &[]))
    }

    pub fn enable(&mut self) -> Reply {
        let (_, trace) = regs::traced(|| self.ehci.enable_irq().is_ok());
        Reply::done(vec![], shown(&trace, &[]))
    }

    pub fn disable(&mut self) -> Reply {
        let (_, trace) = regs::traced(|| self.ehci.disable_irq().is_ok());
        Reply::done(vec![], shown(&trace, &[]))
    }
}

// ---- bring-up and ports: 000's functions, held at each register read

/// The register to read next, the wait and the writes of a stretch between two reads.
fn stretch<R>(now: &Now<R>, trace: &[Access]) -> (String, u32, Vec<Access>) {
    let next = match now {
        Now::Reads(offset) => format!("{offset:02x}"),
        Now::Done(_) => "-".to_string(),
    };
    let waits = trace.iter().map(|access| if let Access::Wait(ms) = access { *ms } else { 0 });
    let writes = trace.iter().filter(|access| matches!(access, Access::Write(..))).copied();
    (next, waits.sum(), writes.collect())
}

/// A step's trace begins with the read of its reading and has no other.
fn hold_to_reading(trace: &[Access], offset: u32, reading: u32) {
    assert_eq!(trace[0], Access::Read(offset, reading));
    assert!(trace[1..].iter().all(|access| !matches!(access, Access::Read(..))), "{trace:x?}");
}

impl Controller {
    /// 000's controller once more, over the same state: its bring-up stands at a read while other calls go on.
    fn twin(&self) -> Ehci {
        Ehci {
            regs: self.ehci.regs,
            kernel: self.ehci.kernel.clone(),
            schedule: self.ehci.schedule.clone(),
            root_hub: None,
            event_handler: None,
            next_addr: 1,
            irq_state: self.ehci.irq_state.clone(),
        }
    }

    pub fn start_bring_up(&mut self) -> Reply {
        let uncollected = (0..self.endpoints.len()).any(|slot| self.flight(slot).is_some());
        if uncollected && tags::repaired("N7") {
            return Reply::only(FULL);
        }
        if self.bring_up.take().is_some() {
            tags::rule("01-restart");
        }
        let mut twin = self.twin();
        let (run, now, trace) = Stepped::start(move || finished(twin.init_controller()).is_ok());
        let (next, wait, mut accesses) = stretch(&now, &trace);
        without_doorbell(&mut accesses);
        let Now::Reads(reads) = now else { panic!("a bring-up without a read") };
        self.bring_up = Some(BringUp { run, reads, waited: 0 });
        self.running = false;
        Reply::done(vec![next, wait.to_string(), "0".into(), "0".into()], accesses)
    }

    pub fn bring_up_step(&mut self, reading: u32) -> Reply {
        let Some(bring_up) = &mut self.bring_up else {
            tags::rule("01-step");
            return Reply::only(INVALID);
        };
        let (now, trace) = bring_up.run.step::<bool>(reading);
        hold_to_reading(&trace, bring_up.reads, reading);
        let (next, wait, mut accesses) = stretch(&now, &trace);
        without_doorbell(&mut accesses);
        match now {
            // 000 reads the same register once more and has done nothing: it waits.
            Now::Reads(offset) if offset == bring_up.reads && trace.len() == 1 => bring_up.waited += 1,
            Now::Reads(offset) => (bring_up.reads, bring_up.waited) = (offset, 0),
            Now::Done(ready) => {
                assert!(ready);
                self.bring_up = None;
                self.running = true;
            }
        }
        let late = self.bring_up.as_ref().is_some_and(|b| b.waited >= self.settings.wait);
        if late && tags::repaired("N5") {
            self.bring_up = None;
            return Reply::only(TIMEOUT);
        }
        Reply::done(vec![next, wait.to_string(), "0".into(), "0".into()], accesses)
    }

    pub fn start_scan(&mut self) -> Reply {
        self.give_up_scan();
        let hub = self.hub.clone();
        let (run, now, trace) = Stepped::start(move || finished(hub.get().changed_ports_inner()).ok().unwrap());
        let (next, wait, accesses) = stretch::<Vec<PortEvent>>(&now, &trace);
        self.scan = Some(Scan { run, leaving: None, events: Vec::new() });
        Reply::done(vec![next, wait.to_string(), "0".into(), "0".into()], accesses)
    }

    /// 000 cannot give a scan up: it goes on unseen, and its port states are put back. P4: a port that was leaving has not.
    fn give_up_scan(&mut self) {
        let states = self.ports();
        if self.scan.take().is_some() {
            tags::rule("01-restart");
            let names = [PortState::Uninit, PortState::Reseted, PortState::Probed];
            self.hub.get().ports = states.iter().map(|state| names[*state as usize]).collect();
        }
    }

    pub fn scan_step(&mut self, reading: u32) -> Reply {
        let before = self.ports();
        let Some(scan) = &mut self.scan else {
            tags::rule("01-step");
            return Reply::only(INVALID);
        };
        let (now, trace) = scan.run.step::<Vec<PortEvent>>(reading);
        let Access::Read(offset, _) = trace[0] else { panic!("{trace:x?}") };
        hold_to_reading(&trace, offset, reading);
        let (next, wait, accesses) = stretch(&now, &trace);
        let at = (offset as usize - PORTSC_BASE) / 4;
        let state = self.hub.get().ports[at];
        let left = before[at] == PortState::Probed as u8 && state == PortState::Uninit;
        scan.leaving = (left && scan.leaving.is_none() && tags::repaired("P4")).then_some(at as u8 + 1);
        let port_id = at as u8 + 1;
        let event = if left && scan.leaving.is_none() {
            Some((2, PortEvent::Disconnected { port_id }))
        } else if state == PortState::Probed && before[at] != PortState::Probed as u8 {
            let info = PortChangeInfo { root_port_id: port_id, port_id, port_speed: Speed::High };
            Some((1, PortEvent::Connected(info)))
        } else {
            None
        };
        let (number, port) = event.as_ref().map_or((0, 0), |(number, _)| (*number, port_id));
        scan.events.extend(event.map(|(_, event)| event));
        if let Now::Done(events) = now {
            assert_eq!(events, scan.events, "the events that 000 gives at the end are those shown");
            self.scan = None;
        }
        Reply::done(vec![next, wait.to_string(), number.to_string(), port.to_string()], accesses)
    }

    /// N8: 000 gives power to every port in one call; the other ports' writes are left out.
    pub fn port_power(&mut self, port: u8, reading: u32) -> Reply {
        if !(1..=self.settings.ports).contains(&port) {
            tags::rule("01-port");
            return Reply::only(INVALID);
        }
        let at = EhciRegisters::port_offset(port) as u32;
        let mut hub = EhciRootHub::new(self.ehci.regs, self.ehci.kernel.clone());
        regs::set(at, reading);
        let (_, trace) = regs::traced(|| finished(hub.init_ports(HubInfo { speed: Speed::Full })).is_ok());
        let (_, wait, mut accesses) = stretch(&Now::Done(()), &trace);
        if tags::repaired("N8") {
            accesses.retain(|access| matches!(access, Access::Write(offset, _) if *offset == at));
        }
        Reply::done(vec!["-".into(), wait.to_string(), "0".into(), "0".into()], accesses)
    }
}

impl Drop for Controller {
    /// The stepped functions end before the memory goes.
    fn drop(&mut self) {
        self.give_up_scan();
        if self.bring_up.take().is_some() {
            tags::rule("01-restart");
        }
    }
}
