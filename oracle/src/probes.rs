// What 000 does where no call of a log can show it. One line to a probe, for docs/DIFFERENCES.md.
use super::controller::{finished, new_ehci, new_endpoint, words_of_head};
use super::*;
use crate::regs::{self, Access, Now, Stepped};
use usb_if::endpoint::TransferBuffer;

fn controller(ports: u8) -> Ehci {
    dma_api::lay_out([4, 4, 1, 4], crate::generate::AREAS);
    new_ehci(ports)
}

fn endpoint(ehci: &Ehci, transfer_type: EndpointType) -> EndpointHandle {
    let (info, raw) = new_endpoint(ehci, transfer_type);
    EndpointHandle::new(info, raw)
}

fn some_bytes() -> Option<TransferBuffer> {
    Some(TransferBuffer { address: 0x1000_0000, len: 8 })
}

fn bulk() -> TransferRequest {
    TransferRequest::Bulk { direction: Direction::In, buffer: some_bytes() }
}

pub fn run() {
    layout();
    fields();
    waits();
    resets();
    polls();
    short_reply();
    packets();
    toggle();
    errors();
    lost_predecessor();
}

fn layout() {
    let (head, qtd) = (size_of::<QueueHead>(), size_of::<QueueTransferDescriptor>());
    let overlay = core::mem::offset_of!(QueueHead, overlay);
    println!("K1: a head has {head} bytes, its overlay begins at byte {overlay}; a descriptor has {qtd} bytes");
}

fn fields() {
    let head =
        |address, number, packet| words_of_head(&QueueHead::endpoint(address, number, EndpointType::Bulk, packet))[1];
    println!("L2: head for address 128, number 16, size 1025: {:08x}", head(128, 16, 1025));
    println!(
        "L2: head for size 2047: {:08x}, 2048: {:08x}, 2560: {:08x}",
        head(1, 2, 2047),
        head(1, 2, 2048),
        head(1, 2, 2560)
    );
    let polled = QueueHead::endpoint(127, 15, EndpointType::Interrupt, 1024);
    println!("L5: interrupt head for 127, 15, 1024: {:08x}", polled.endpoint_chars);
    println!(
        "L6: tokens for 20481, 32767 and 32768 bytes: {:08x} {:08x} {:08x}",
        QtdToken::new(QtdPid::Out, 20481).raw(),
        QtdToken::new(QtdPid::Out, 32767).raw(),
        QtdToken::new(QtdPid::Out, 32768).raw()
    );
    println!("L1: 5242881 bytes are {} chunks", split_bulk_lengths(5242881, Direction::In).len());
    let other = build_control_td_plan(&bulk());
    println!("L4: a control plan of a bulk request: {:?}", other.map(|_| ()));
    let speed = |raw| EhciPortStatus::from_raw(raw).speed();
    println!("speeds of the readings 00000401, 00000001, 00000005: {:?} {:?} {:?}", speed(0x401), speed(1), speed(5));
    let ports = controller(0).regs.ports();
    println!("N17: HCSPARAMS with 0 ports: {ports} port");
}

/// N5: how often a wait reads, and that it goes on at the read after 01's longest.
fn waits() {
    let mut ehci = controller(1);
    let (result, trace) = regs::traced(|| finished(ehci.init_controller()));
    let reads = trace.iter().filter(|access| matches!(access, Access::Read(regs::USBSTS, _))).count();
    println!("N5: never halted: {reads} reads of USBSTS, then {:?}", result.unwrap_err());
    let mut ehci = controller(1);
    let (run, _, _) = Stepped::start(move || finished(ehci.init_controller()).is_ok());
    let step = |reading| run.step::<bool>(reading).0;
    step(0);
    let late = (1..=65536).all(|_| matches!(step(0), Now::Reads(regs::USBSTS)));
    let goes_on = matches!(step(0x1000), Now::Reads(regs::USBCMD));
    println!("N5: waits for 65536 reads: {late}; halted at the next: goes on: {goes_on}");
}

fn resets() {
    let ehci = controller(1);
    let handle = endpoint(&ehci, EndpointType::Bulk);
    handle.with_raw_mut::<EhciEndpoint, _>(|raw| raw.qh.modify_cpu(|qh| qh.overlay.next_qtd = 0x100000));
    let idle = finished(handle.reset());
    let next = handle.with_raw_mut::<EhciEndpoint, _>(|raw| raw.qh.read_cpu().overlay.next_qtd);
    handle.submit(bulk()).unwrap();
    println!("N14: reset idle: {idle:?}, overlay next {next:08x}; in flight: {:?}", finished(handle.reset()));
    let isochronous = endpoint(&ehci, EndpointType::Isochronous).info().transfer_type;
    println!("N15: an endpoint of kind {isochronous:?} is made");
}

/// N18: one poll of the handle collects twice.
fn polls() {
    let handle = endpoint(&controller(1), EndpointType::Interrupt);
    let request = TransferRequest::Interrupt { direction: Direction::In, buffer: some_bytes() };
    let id = handle.submit(request).unwrap();
    handle.with_raw_mut::<EhciEndpoint, _>(|raw| {
        raw.inflight.as_mut().unwrap().qtds[0].modify_cpu(|qtd| qtd.token &= !0x80);
    });
    let poll = move || match handle.poll_request(id, &mut Context::from_waker(std::task::Waker::noop())) {
        Poll::Ready(result) => format!("ready, {:?} bytes", result.map(|completion| completion.actual_length)),
        Poll::Pending => "pending".to_string(),
    };
    let (run, _, _) = Stepped::start(poll);
    let (_, _) = run.step::<String>(100);
    let (Now::Done(result), _) = run.step::<String>(109) else { panic!("three reads in one poll") };
    println!("N18: one poll of the handle with FRINDEX 100, then 109: {result}");
}

/// N22 and N23: four descriptors by 000's own split, the first with 3000 of its 20480 bytes.
fn short_reply() {
    let handle = endpoint(&controller(1), EndpointType::Bulk);
    let buffer = Some(TransferBuffer { address: 0x1000_0000, len: 61441 });
    let id = handle.submit(TransferRequest::Bulk { direction: Direction::In, buffer }).unwrap();
    let alternates = handle.with_raw_mut::<EhciEndpoint, _>(|raw| {
        let qtds = &mut raw.inflight.as_mut().unwrap().qtds;
        qtds[0].modify_cpu(|qtd| qtd.token = 17480 << 16 | 0x0d00);
        qtds.iter().map(|qtd| format!(" {:08x}", qtd.read_cpu().alt_next_qtd)).collect::<String>()
    });
    println!("N22: the alternates of an In request of 61441 bytes:{alternates}");
    let waits = (0..1000).all(|_| matches!(handle.reclaim(id), Ok(None)));
    let linked = handle.with_raw_mut::<EhciEndpoint, _>(|raw| raw.inflight.as_ref().unwrap().unlink_boundary.is_none());
    println!("N23: its first descriptor ends with 17480 left: pending at 1000 looks: {waits}; still linked: {linked}");
}

/// N24: 000's own split, with packets of 100 bytes.
fn packets() {
    let handle = endpoint(&controller(1), EndpointType::Bulk);
    let buffer = Some(TransferBuffer { address: 0x1000_0000, len: 61441 });
    handle.with_raw_mut::<EhciEndpoint, _>(|raw| raw.set_max_packet_size(100));
    handle.submit(TransferRequest::Bulk { direction: Direction::Out, buffer }).unwrap();
    let chunks = handle.with_raw_mut::<EhciEndpoint, _>(|raw| raw.inflight.as_ref().unwrap().chunk_lengths.clone());
    let last = chunks[0] % 100;
    println!("N24: the chunks of 61441 bytes in packets of 100: {chunks:?}; the first ends in a packet of {last}");
}

/// N26: a controller leaves toggle 1 in the overlay of a request that is collected; another is submitted.
fn toggle() {
    let ehci = controller(1);
    let handle = endpoint(&ehci, EndpointType::Interrupt);
    let request = || TransferRequest::Interrupt { direction: Direction::In, buffer: some_bytes() };
    let id = handle.submit(request()).unwrap();
    let left = handle.with_raw_mut::<EhciEndpoint, _>(|raw| {
        raw.inflight.as_mut().unwrap().qtds[0].modify_cpu(|qtd| qtd.token &= !0x7fff_0080);
        let token = raw.inflight.as_ref().unwrap().qtds[0].read_cpu().token | QtdToken::DATA_TOGGLE;
        raw.qh.modify_cpu(|qh| qh.overlay.token = token);
        token
    });
    let overlay = || handle.with_raw_mut::<EhciEndpoint, _>(|raw| raw.qh.read_cpu().overlay.token);
    let collects = [0, 9].map(|frame| {
        regs::set(regs::FRINDEX, frame);
        handle.reclaim(id).unwrap().is_some()
    });
    assert_eq!(collects, [false, true]);
    let collected = overlay();
    handle.submit(request()).unwrap();
    println!(
        "N26: overlay token {left:08x} before a collection, {collected:08x} after it, {:08x} at the next submit",
        overlay()
    );
}

/// N27: which of the status bits are an error, alone and beside active.
fn errors() {
    let says = |more: u32| (0..8).map(|bit| QtdToken(1 << bit | more).has_error() as u8).collect::<Vec<_>>();
    println!("N27: error of a token with bit 0, 1, .. 7 alone: {:?}; and active: {:?}", says(0), says(0x80));
}

/// P1 and Q1: a head that its predecessor does not point to.
fn lost_predecessor() {
    let ehci = controller(1);
    let handle = endpoint(&ehci, EndpointType::Bulk);
    let id = handle.submit(bulk()).unwrap();
    let link = |value| {
        let mut inner = unsafe { ehci.schedule.inner.lock_raw() };
        let old = inner.head.read_cpu().horizontal_link;
        inner.head.modify_cpu(|head| head.horizontal_link = value);
        old
    };
    let right = link(0x0020_0002);
    let cancelled = handle.cancel(id);
    let marked = handle.with_raw_mut::<EhciEndpoint, _>(|raw| raw.inflight.as_ref().unwrap().cancelled);
    link(right);
    println!(
        "P1, Q1: cancel of a head that is not in the ring: {cancelled:?}; marked as cancelled all the same: {marked}"
    );
}
