//! Scripts written by hand: for each departure the fewest calls that show it, and 01's rules one by one. With short
//! scripts by chance they are the fixed list.
use blocks::record::{Record, call};

use crate::generate::{AREAS, Generator, READY, opening};
use crate::replica::Replica;
use crate::tags;

const CONTROL: u8 = 0;
const ISOCHRONOUS: u8 = 1;
const BULK: u8 = 2;
const INTERRUPT: u8 = 3;
const HIGH: u64 = 1 << 32;

type Calls = Vec<Record>;

// ---- calls in short

fn bare(number: u8) -> Record {
    Record::new(number, &[], &[])
}

fn open(d: u64, e: u8, ports: u8, limit: u64, wait: u64) -> Record {
    opening(d, e, ports, limit, wait, AREAS)
}

fn step(reading: u64) -> Record {
    Record::new(call::STEP, &[], &[reading])
}

fn brought_up() -> Calls {
    let mut calls = vec![bare(call::START)];
    calls.extend(READY.map(step));
    calls
}

fn started(d: u64, e: u8, limit: u64) -> Calls {
    let mut calls = vec![open(d, e, 2, limit, 2)];
    calls.extend(brought_up());
    calls
}

fn endpoint(kind: u8, address: u8, number: u8, packet: u64) -> Record {
    Record::new(call::ENDPOINT, &[kind, address, number], &[packet])
}

fn bulk() -> Record {
    bulk_of(512)
}

/// A bulk endpoint with packets of this size.
fn bulk_of(packet: u64) -> Record {
    endpoint(BULK, 5, 1, packet)
}

fn set_packet(slot: u8, size: u8) -> Record {
    Record::new(call::SET_PACKET, &[slot, size], &[])
}

fn on(number: u8, slot: u8) -> Record {
    Record::new(number, &[slot], &[])
}

fn submit(slot: u8, kind: u8, incoming: u8, address: u64, length: u64) -> Record {
    let setup = if kind == CONTROL { 0x0100_0600 | (incoming as u64) << 7 } else { 0 };
    Record::new(call::SUBMIT, &[slot, kind, incoming], &[setup, address, length, 0x80031])
}

/// A bulk request of one descriptor.
fn one(slot: u8) -> Record {
    submit(slot, BULK, 1, 0x1000_0000, 512)
}

/// An interrupt request of one descriptor.
fn poll(slot: u8) -> Record {
    submit(slot, INTERRUPT, 1, 0x1000_0000, 8)
}

fn writeback(place: u64, token: u64) -> Record {
    Record::new(call::WRITEBACK, &[], &[place, token])
}

fn cancel(slot: u8, id: u64, frame: u64) -> Record {
    Record::new(call::CANCEL, &[slot], &[id, 0x80031, frame])
}

fn collect(slot: u8, id: u64, frame: u64) -> Record {
    Record::new(call::COLLECT, &[slot], &[id, 0x80031, frame])
}

/// A collect that is given the head's overlay token.
fn collect_left(slot: u8, id: u64, frame: u64, overlay: u64) -> Record {
    Record::new(call::COLLECT, &[slot], &[id, 0x80031, frame, overlay])
}

fn clear_halt(slot: u8) -> Record {
    on(call::CLEAR_HALT, slot)
}

fn acknowledge(status: u64) -> Record {
    Record::new(call::ACKNOWLEDGE, &[1, 1], &[status, 0x27])
}

fn drain() -> Record {
    Record::new(call::DRAIN, &[], &[0x80031])
}

fn scan(readings: &[u64]) -> Calls {
    let mut calls = vec![bare(call::SCAN)];
    calls.extend(readings.iter().map(|reading| Record::new(call::SCAN_STEP, &[], &[*reading])));
    calls
}

fn power(port: u8) -> Record {
    Record::new(call::POWER, &[port], &[0x2b])
}

fn with(mut calls: Calls, more: &[Record]) -> Calls {
    calls.extend_from_slice(more);
    calls
}

// ---- one script for each departure

/// Two unlinks, one ring, and an advance that shares its drain with a port change.
fn shared_advance() -> Calls {
    let both = [bulk(), endpoint(BULK, 5, 2, 512), one(0), one(1), cancel(0, 1, 0), cancel(1, 1, 0)];
    with(with(started(4, 2, 16384), &both), &[acknowledge(0x24), drain()])
}

/// The incident.
pub fn double_count() -> Calls {
    with(shared_advance(), &[drain(), collect(0, 1, 0), collect(1, 1, 0)])
}

/// The incident with two more port changes: 000 counts the one advance as often as two unlinks want it.
pub fn double_count_published() -> Calls {
    let change = [acknowledge(0x04), drain()];
    with(with(with(shared_advance(), &change), &change), &[drain(), collect(0, 1, 0), collect(1, 1, 0)])
}

/// For each tag the fewest calls that show it.
pub fn departures() -> Vec<(&'static str, Calls)> {
    let running = || started(4, 2, 16384);
    let asked = || with(running(), &[bulk(), one(0)]);
    let rung = || with(asked(), &[cancel(0, 1, 0)]);
    let keeps_bell = Record::new(call::SUBMIT, &[0, BULK, 1], &[0, 0x1000_0000, 512, 0x71]);
    let bring_up_bell = with(vec![open(1, 1, 1, 1, 1), bare(call::START)], &[step(0x80b71)]);
    let unplugged = with(vec![open(1, 1, 1, 1, 1)], &scan(&[1, 1, 1, 5]));
    // 20000 bytes are asked for and 3000 come: 13384 of the first chunk's 16384 are left
    let short = || with(running(), &[bulk(), submit(0, BULK, 1, 0x1000_0000, 20000), writeback(0, 0x3448_0d00)]);
    let collected = [collect(0, 1, 0), acknowledge(0x20), drain(), collect(0, 1, 0)];
    let short_then = |second| with(with(short(), &[writeback(1, second)]), &collected);
    // 02's own: a limit of 1000 and packets of 512
    let lab = with(started(4, 2, 1000), &[bulk(), submit(0, BULK, 0, 0x1000_0000, 1500)]);
    // one packet is read, and then another
    let packet =
        [writeback(0, DONE), collect(0, 1, 0), acknowledge(0x20), drain(), collect_left(0, 1, 0, TOGGLE | DONE)];
    let polled = [endpoint(INTERRUPT, 5, 1, 8), poll(0), cancel(0, 1, 0), collect_left(0, 1, 9, TOGGLE), poll(0)];
    // a frame of 20000 bytes in two descriptors, a packet of the first retried
    let frame = with(running(), &[bulk(), submit(0, BULK, 1, 0x1000_0000, 20000), writeback(0, RETRIED | DONE)]);
    let whole = with(vec![writeback(1, 0x8d00)], &collected);
    let polled_again =
        [endpoint(INTERRUPT, 5, 1, 8), poll(0), writeback(0, 0x8d10), collect(0, 1, 0), collect(0, 1, 9)];
    vec![
        ("K1", vec![open(1, 1, 1, 512, 1), bulk()]),
        ("K2", with(rung(), &[bulk(), one(1), cancel(1, 1, 0), acknowledge(0x24), drain(), drain()])),
        ("K3", with(asked(), &[acknowledge(0x20), cancel(0, 1, 0), drain()])),
        ("K4", with(running(), &[bulk(), keeps_bell])),
        ("K4", bring_up_bell),
        ("N1", with(rung(), &[acknowledge(0x20), drain(), collect(0, 1, 0)])),
        ("N2", vec![open(1, 1, 1, 1, 1), endpoint(BULK, 5, 1, 1)]),
        ("N3", with(running(), &[bulk(), submit(0, CONTROL, 1, 0, 0)])),
        ("N4", with(running(), &[bulk(), submit(0, ISOCHRONOUS, 1, 0, 0)])),
        ("N4", with(asked(), &[submit(0, CONTROL, 1, 0, 0)])),
        ("N5", with(vec![open(1, 1, 1, 1, 1), bare(call::START)], &[step(0), step(0)])),
        ("N6", with(asked(), &[Record::new(call::SET_ADDRESS, &[0, 9], &[])])),
        ("N6", with(asked(), &[set_packet(0, 64)])),
        ("N6", vec![open(1, 1, 1, 512, 1), bulk(), Record::new(call::SET_ADDRESS, &[0, 200], &[])]),
        ("N7", with(asked(), &[bare(call::START)])),
        ("N7", with(rung(), &brought_up())),
        ("N8", vec![open(1, 1, 2, 1, 1), power(1)]),
        ("N10", vec![open(1, 1, 1, 16384, 1), bulk(), one(0)]),
        ("N11", with(running(), &[bulk(), submit(0, BULK, 1, HIGH - 1, 2)])),
        ("N11", with(running(), &[endpoint(CONTROL, 5, 0, 64), submit(0, CONTROL, 1, 0x1000_0000, 40000)])),
        ("N12", with(started(1, 1, 16384), &[endpoint(CONTROL, 5, 0, 64), submit(0, CONTROL, 1, 0, 0)])),
        ("N13", rung()),
        ("N15", vec![open(1, 1, 1, 1, 1), endpoint(ISOCHRONOUS, 5, 1, 512)]),
        ("N16", with(asked(), &[on(call::CLOSE, 0)])),
        ("N17", vec![open(1, 1, 0, 1, 1)]),
        ("N20", with(rung(), &[acknowledge(0x20), drain(), collect(0, 1, 0), on(call::CLOSE, 0)])),
        ("N22", vec![open(1, 1, 1, 1, 1)]),
        ("N22", with(running(), &[bulk(), submit(0, BULK, 1, 0x1000_0000, 16385)])),
        ("N23", with(short(), &collected)),
        ("N23", short_then(0x0000_8d00)),
        ("N23", short_then(0x0e20_8d40)),
        ("N24", with(running(), &[bulk_of(3), submit(0, BULK, 0, 0x1000_0000, 16384)])),
        ("N24", lab),
        ("N24", with(running(), &[bulk(), set_packet(0, 100), submit(0, BULK, 0, 0x1000_0000, 16384)])),
        ("N25", vec![open(1, 1, 1, 1, 1), bulk_of(2)]),
        ("N25", vec![open(1, 1, 1, 7, 1), bulk_of(7), set_packet(0, 1)]),
        ("N26", with(with(asked(), &packet), &[one(0)])),
        ("N26", with(running(), &polled)),
        ("N27", with(asked(), &with(vec![writeback(0, RETRIED | 0x8d00)], &collected))),
        ("N27", with(frame.clone(), &[collect(0, 1, 0)])),
        ("N27", with(frame.clone(), &whole)),
        ("N27", with(frame, &with(vec![writeback(1, 0x8d48)], &collected))),
        ("N27", with(running(), &polled_again)),
        ("C", with(running(), &[bulk(), submit(0, BULK, 1, 0x1000_0000, 16385)])),
        ("C", with(running(), &[bulk(), submit(0, BULK, 1, 0x1000_0fff, 20480)])),
        ("P4", with(unplugged, &scan(&[0, 0]))),
    ]
}

/// What each departure does: the calls, and for those that differ the block with the repair and without.
pub fn show_departures() {
    for (tag, calls) in departures() {
        tags::leave_out("");
        let right = blocks_of(&calls);
        tags::leave_out(tag);
        let left = blocks_of(&calls);
        println!("== {tag}");
        let first = (0..calls.len()).find(|i| right[*i] != left[*i]).expect("a departure that does not show");
        println!(
            "{} calls; the first that differs is call {first}, {}",
            calls.len(),
            call::NAMES[calls[first].number as usize]
        );
        for i in (first..calls.len()).filter(|i| right[*i] != left[*i]) {
            print!("01 and the port:\n{}000:\n{}", right[i], left[i]);
        }
    }
    tags::leave_out("");
}

/// The blocks of a script from a fresh program.
pub fn blocks_of(calls: &[Record]) -> Vec<String> {
    let mut replica = Replica::default();
    calls.iter().map(|record| replica.block(&record.bytes()).unwrap()).collect()
}

// ---- 01's rules one by one

fn openings() -> Vec<Calls> {
    let good = open(4, 4, 2, 16384, 2);
    let at = |areas| opening(4, 4, 2, 16384, 2, areas);
    let mut out: Vec<Calls> =
        vec![vec![good, open(256, 32, 15, 1, 65536), open(1, 1, 1, 16384, 1), open(256, 32, 15, 1, 1)]];
    for wrong in [
        open(0, 4, 2, 1, 1),
        open(257, 4, 2, 1, 1),
        open(1, 0, 2, 1, 1),
        open(1, 33, 2, 1, 1),
        open(1, 1, 0, 1, 1),
        open(1, 1, 16, 1, 1),
        open(1, 1, 1, 0, 1),
        open(1, 1, 1, 16385, 1),
        open(1, 1, 1, 1, 0),
        open(1, 1, 1, 1, 65537),
        at([0x100020, 0x200000, 0x300000, 0x400000]),
        at([0x100000, 0x200040, 0x300000, 0x400000]),
        at([0x100000, 0x200000, 0x300800, 0x400000]),
        at([0x100000, 0x200000, 0x300000, 0x400004]),
        at([HIGH - 192, 0x200000, 0x300000, 0x400000]),
        at([0x200200, 0x200000, 0x300000, 0x400000]),
        at([u64::MAX - 63, 0x200000, 0x300000, 0x400000]),
        // room for four descriptors and not for a fifth: before 2^32, before the heads, the frame list, the setup packets
        at([HIGH - 256, 0x200000, 0x300000, 0x400000]),
        at([0x100000, 0x100100, 0x300000, 0x400000]),
        at([0x2fff00, 0x200000, 0x300000, 0x400000]),
        at([0x100000, 0x200000, 0x300000, 0x100100]),
        at([0x100000, 0x200000, 0x300000, 0x100138]),
    ] {
        out.push(vec![good, bulk(), bare(call::ADDRESS), wrong, bare(call::ADDRESS), bulk()]);
    }
    // areas that touch each other and end at 2^32
    let touching = opening(3, 4, 2, 16384, 2, [HIGH - 256, HIGH - 896, 0x300000, 0x400000]);
    out.push(vec![touching, bulk(), at([0x100000, 0x200000, 0, 4096]), bulk()]);
    out.push(vec![
        at([HIGH - 320, 0x200000, 0x300000, 0x400000]),
        at([0x100000, 0x200000, 0x300000, 0x100140]),
        bulk(),
    ]);
    out
}

fn bring_ups() -> Vec<Calls> {
    let begun = || vec![open(1, 1, 1, 1, 2), bare(call::START)];
    vec![
        vec![open(1, 1, 1, 1, 2), step(0)],
        with(begun(), &[0x71, 0, 0x1000, 0x42, 2, 0, 0x40, 0x1000, 0, 0].map(step)),
        with(begun(), &[0xffff_ffff, 0, 0, 0x1000].map(step)),
        with(begun(), &[0, 0x1000, 0, 2, 2, 0].map(step)),
        with(begun(), &[0, 0x1000, 0, 0, 0, 0x1000, 0x1000, 0].map(step)),
        with(with(begun(), &[step(0), step(0x1000), bare(call::START)]), &[0, 0x1000, 0, 0, 0, 0].map(step)),
        with(started(1, 1, 512), &[bare(call::ENABLE), bare(call::START), bulk(), submit(0, BULK, 1, 0, 0)]),
    ]
}

fn endpoints() -> Vec<Calls> {
    let mut asked = started(4, 3, 16384);
    for (kind, address, number) in [(ISOCHRONOUS, 128, 16), (BULK, 128, 1), (BULK, 1, 16)] {
        asked.push(endpoint(kind, address, number, 8));
    }
    asked.extend([0, 1025].map(|packet| endpoint(BULK, 1, 1, packet)));
    asked.extend([endpoint(CONTROL, 0, 0, 8), endpoint(BULK, 127, 15, 1024), endpoint(INTERRUPT, 1, 2, 1)]);
    // no slot is closed any more
    asked.extend([endpoint(BULK, 1, 1, 8), endpoint(BULK, 128, 1, 8), endpoint(ISOCHRONOUS, 1, 1, 8)]);
    for slot in [0, 2, 3, 32, 255] {
        for value in [0, 7, 127, 128, 255] {
            asked.push(Record::new(call::SET_ADDRESS, &[slot, value], &[]));
            asked.push(set_packet(slot, value));
        }
    }
    asked.extend([1, 1, 3].map(|slot| on(call::CLOSE, slot)));
    asked.extend([endpoint(BULK, 3, 3, 64), on(call::CLOSE, 0), on(call::CLOSE, 1)]);
    let close = on(call::CLOSE, 0);
    let mut busy = with(started(4, 1, 16384), &[bulk(), one(0), close, cancel(0, 1, 0), close]);
    busy.push(Record::new(call::SET_ADDRESS, &[0, 200], &[]));
    busy.extend([acknowledge(0x20), drain(), collect(0, 1, 0), close, close]);
    vec![asked, busy, with(vec![open(1, 1, 1, 1, 1)], &[bare(call::ADDRESS); 129])]
}

/// A control, a bulk and an interrupt endpoint in slots 0 to 2.
fn three(d: u64) -> Calls {
    with(started(d, 3, 16384), &[endpoint(CONTROL, 5, 0, 64), bulk(), endpoint(INTERRUPT, 5, 2, 8)])
}

fn refused_submits() -> Vec<Calls> {
    let setup = |bits: u64, incoming| Record::new(call::SUBMIT, &[0, CONTROL, incoming], &[bits, 0x1000, 4, 0]);
    let kinds = [submit(1, ISOCHRONOUS, 1, 0, 0), submit(1, CONTROL, 1, HIGH, 1)];
    let busy = [one(1), submit(1, CONTROL, 1, 0, 0), submit(1, ISOCHRONOUS, 0, HIGH, 1)];
    let past =
        [submit(1, BULK, 1, HIGH - 1, 2), submit(0, CONTROL, 0, 0, 16385), submit(1, BULK, 1, u64::MAX, u64::MAX)];
    let empty = [submit(1, BULK, 1, u64::MAX, 0), submit(2, INTERRUPT, 0, HIGH, 0)];
    let room = [submit(1, BULK, 1, 0, 16385), submit(0, CONTROL, 1, 0, 1), submit(0, CONTROL, 1, 0, 0)];
    let none = [submit(2, INTERRUPT, 1, 0, 16385), submit(2, INTERRUPT, 1, 0, 16384), submit(0, CONTROL, 0, HIGH, 9)];
    vec![
        vec![open(4, 2, 1, 16384, 1), bulk(), one(0), one(1), one(255)],
        with(with(three(8), &[one(3)]), &kinds),
        with(three(8), &busy),
        with(with(three(8), &past), &empty),
        with(three(8), &[setup(0, 1), setup(0x80, 0), setup(0xffff_ffff_ffff, 1), setup(0x1f, 0)]),
        with(with(three(3), &room), &none),
    ]
}

fn submits() -> Vec<Calls> {
    let mut out = refused_submits();
    for limit in [1, 512, 4097, 16384] {
        for length in [0, 1, limit - 1, limit, limit + 1, 2 * limit, 3 * limit + 1, 4 * limit, 4 * limit + 1] {
            let packet = if limit == 4097 { 241 } else { limit.min(512) };
            let asked = [bulk_of(packet), submit(0, BULK, 0, 0x1000_0fff, length), submit(0, BULK, 0, 0, 1)];
            out.push(with(started(4, 1, limit), &asked));
        }
    }
    let edge = [1, 2, 16384].map(|length| (0x1000_0fff, length));
    let whole = [(0x1000_0000, 4096), (0x1000_0001, 4096), (0, 16384), (HIGH - 16384, 16384), (HIGH - 1, 1)];
    for (address, length) in edge.into_iter().chain(whole) {
        let each = |(slot, kind, incoming)| submit(slot, kind, incoming, address, length);
        out.push(with(three(8), &[(0, CONTROL, 1), (1, BULK, 0), (2, INTERRUPT, 1)].map(each)));
    }
    out
}

/// So many endpoints of a kind, each with a request.
fn linked(kind: u8, count: u8) -> Calls {
    let mut calls = started(count as u64, count, 16384);
    calls.extend((0..count).map(|k| endpoint(kind, k, 1, 64)));
    calls.extend((0..count).map(|k| submit(k, kind, 1, 0x1000_0000, 8)));
    calls
}

fn unlinks() -> Vec<Calls> {
    let names = [cancel(0, 2, 0), collect(0, 2, 0), cancel(1, 1, 0), collect(255, 1, 0)];
    let twice = [cancel(0, 1, 0), cancel(0, 1, 0), collect(0, 1, 0)];
    let idle = with(started(8, 1, 16384), &[bulk(), cancel(0, 1, 0), collect(0, 7, 0), one(0)]);
    // the starred distance: start 16380; 8 at 4, 9 at 5
    let near = [writeback(0, 0x0003_8d00), collect(0, 1, 16380), collect(0, 1, 4), collect(0, 1, 5), collect(0, 1, 5)];
    let far = [cancel(0, 1, 0xffff_7ffc), collect(0, 1, 0x8004), collect(0, 1, 0x4005)];
    let answered = [drain(), acknowledge(0x20), drain(), collect(1, 1, 0), collect(0, 1, 0)];
    let mut out =
        vec![with(with(idle, &names), &twice), with(linked(INTERRUPT, 1), &near), with(linked(INTERRUPT, 1), &far)];
    out.extend([double_count(), with(double_count(), &answered)]);
    out.push(unlinked((0..32).map(|k| 7 * k % 32)));
    for order in [[0, 1, 2], [0, 2, 1], [1, 0, 2], [1, 2, 0], [2, 0, 1], [2, 1, 0]] {
        out.push(with(unlinked(order.into_iter()), &[submit(1, BULK, 0, 0, 9)]));
        let mut polls = linked(INTERRUPT, 3);
        polls.extend(order.map(|k| cancel(k, 1, k as u64)));
        polls.extend(order.map(|k| collect(k, 1, k as u64 + 8)));
        polls.extend(order.map(|k| collect(k, 1, k as u64 + 9)));
        out.push(polls);
    }
    out
}

/// Bulk requests unlinked in this order, then answered and collected one by one.
fn unlinked(order: impl ExactSizeIterator<Item = u8> + Clone) -> Calls {
    let mut calls = linked(BULK, order.len() as u8);
    calls.extend(order.clone().map(|k| cancel(k, 1, 0)));
    calls.extend(order.flat_map(|k| [acknowledge(0x20), drain(), collect(k, 1, 0)]));
    calls
}

/// Every error bit, before and after an active token; bytes left; late writebacks.
fn tokens(incoming: u8) -> Vec<Calls> {
    let answered = [acknowledge(0x20), drain(), collect(0, 1, 0)];
    let asked = || with(started(4, 1, 64), &[bulk_of(64), submit(0, BULK, incoming, 0x1000, 100)]);
    let two = |first: u64, second: u64| {
        let left = [writeback(0, first), writeback(1, second), collect(0, 1, 0), collect(0, 1, 0)];
        with(with(asked(), &left), &answered)
    };
    let mut out: Vec<Calls> = (0..8).map(|bit| two(1 << bit, 0x80)).collect();
    out.extend((0..8).map(|bit| two(0x80, 1 << bit)));
    out.extend((0..8).map(|bit| two(0x0010_0000, 1 << bit)));
    out.extend([two(0x7fff_0000, 0x0005_0000), two(0x0040_0000, 0x0024_0000), two(0x48, 0x08), two(0x0008_0d88, 0)]);
    for first in [8, 0x40] {
        let late = [writeback(0, first), collect(0, 1, 0), writeback(0, 0), writeback(1, 0x80)];
        out.push(with(with(with(asked(), &late), &answered), &[writeback(0, 1)]));
    }
    out
}

/// Bytes left of a control request, and places without a request.
fn more_tokens() -> Vec<Calls> {
    let answered = [acknowledge(0x20), drain(), collect(0, 1, 0)];
    let control = with(started(4, 1, 64), &[endpoint(CONTROL, 1, 0, 8), submit(0, CONTROL, 1, 0x1000, 18)]);
    let stages = [writeback(0, 0x0008_0e00), writeback(1, 0x0002_0d00), writeback(2, 0x0c00), collect(0, 1, 0)];
    let control = with(with(with(control, &stages), &answered), &[submit(0, CONTROL, 0, 0, 0)]);
    let places = [writeback(0, 1), one(0), writeback(0, 1), writeback(1, 1), writeback(2, 1), writeback(u64::MAX, 1)];
    vec![control, with(with(started(2, 1, 512), &[bulk()]), &places)]
}

/// Three descriptors, of 64, 64 and 22 bytes, in places 0 to 2.
fn read_of_three(kind: u8, incoming: u8) -> Calls {
    with(started(4, 2, 64), &[endpoint(kind, 5, 1, 8), submit(0, kind, incoming, 0x1000, 150)])
}

const TOGGLE: u64 = 1 << 31;
const RETRIED: u64 = 1 << 3;
const DONE: u64 = 0x0d00;
const LEFT: u64 = 0x000a_0d00;
const AGAIN: u64 = 0x000a_0d80;
const HALTED: u64 = 0x000a_0d40;

/// Replies that end before their last descriptor (02, order 1).
fn short_replies() -> Vec<Calls> {
    let written =
        |tokens: &[(u64, u64)]| -> Calls { tokens.iter().map(|(at, token)| writeback(*at, *token)).collect() };
    let answered = [acknowledge(0x20), drain(), collect(0, 1, 0)];
    let reply = |tokens: &[(u64, u64)], late: &[(u64, u64)]| {
        let asked = with(with(read_of_three(BULK, 1), &written(tokens)), &[collect(0, 1, 0), collect(0, 1, 0)]);
        with(with(asked, &written(late)), &answered)
    };
    let mut out = vec![
        // each place, the others as they were
        reply(&[(0, LEFT)], &[]),
        reply(&[(0, DONE), (1, LEFT)], &[]),
        reply(&[(0, DONE), (1, DONE), (2, LEFT)], &[]),
        // an active one before it: not finished, until that one is done
        reply(&[(1, LEFT)], &[(0, DONE)]),
        with(reply(&[(1, LEFT), (0, DONE)], &[]), &answered),
        reply(&[(0, AGAIN), (1, LEFT), (2, LEFT)], &[]),
        // active again after the unlink: it adds what it says
        reply(&[(0, DONE), (1, LEFT)], &[(0, AGAIN)]),
        reply(&[(0, LEFT)], &[(0, AGAIN), (1, LEFT)]),
        reply(&[(0, LEFT)], &[(0, AGAIN), (1, AGAIN)]),
        // no longer short, or short earlier
        reply(&[(0, LEFT)], &[(0, DONE)]),
        reply(&[(0, DONE), (1, LEFT)], &[(0, LEFT)]),
        // errors before it, at it and after it
        reply(&[(0, HALTED), (1, LEFT)], &[]),
        reply(&[(0, DONE), (1, HALTED), (2, LEFT)], &[]),
        reply(&[(0, LEFT), (1, HALTED), (2, LEFT)], &[]),
        reply(&[(0, LEFT)], &[(2, HALTED)]),
        reply(&[(0, LEFT)], &[(0, 0x000a_0d88)]),
        reply(&[(0, DONE), (1, LEFT)], &[(0, HALTED)]),
    ];
    // one byte, all of them, more than were asked for
    out.extend([1, 63, 64, 65, 0x7fff, 0xffff].map(|left| reply(&[(0, left << 16)], &[])));
    // cancelled all the same
    out.push(with(with(read_of_three(BULK, 1), &[writeback(0, LEFT), cancel(0, 1, 0)]), &answered));
    out.push(with(with(read_of_three(BULK, 1), &[writeback(0, LEFT), collect(0, 1, 0), cancel(0, 1, 0)]), &answered));
    // what has no place D in it: Out, one descriptor
    let ends = [writeback(0, LEFT), collect(0, 1, 0), writeback(1, LEFT), writeback(2, LEFT), collect(0, 1, 0)];
    out.push(with(with(read_of_three(BULK, 0), &ends), &answered));
    let one = [bulk_of(64), submit(0, BULK, 1, 0x1000, 64), writeback(0, LEFT), collect(0, 1, 0)];
    out.push(with(with(started(4, 1, 64), &one), &answered));
    let polled = [writeback(0, LEFT), collect(0, 1, 100), collect(0, 1, 108), collect(0, 1, 109)];
    out.push(with(read_of_three(INTERRUPT, 1), &polled));
    out.push(with(read_of_three(INTERRUPT, 0), &polled));
    // place D is nobody's: two requests lead to it, none gets it, nothing is written to it
    let four = [endpoint(INTERRUPT, 5, 2, 8), submit(1, INTERRUPT, 1, 0x1000, 65), submit(1, INTERRUPT, 1, 0x1000, 64)];
    let fifth = [endpoint(BULK, 5, 3, 8), writeback(3, LEFT), writeback(4, LEFT), writeback(4, 0), writeback(5, LEFT)];
    out.push(with(with(with(read_of_three(BULK, 1), &four), &fifth), &[writeback(0, LEFT), collect(0, 1, 0)]));
    out.push(vec![open(4, 1, 1, 1, 1), open(2, 1, 1, 1, 1), open(3, 1, 1, 1, 1), open(256, 1, 1, 1, 1)]);
    out.push(megabyte());
    out
}

/// 02's own case: a megabyte is asked for, 3000 bytes come.
fn megabyte() -> Calls {
    let asked = [bulk(), submit(0, BULK, 1, 0x1000_0000, 1 << 20), writeback(0, 0x3448_0d00), collect(0, 1, 0)];
    with(with(started(64, 1, 16384), &asked), &[acknowledge(0x20), drain(), collect(0, 1, 0)])
}

/// Chunks of whole packets (02, order 4).
fn packets() -> Vec<Calls> {
    let mut out = Vec::new();
    // limits with sizes that do not divide them, then with sizes that do
    let uneven =
        [(1000, 512), (1000, 999), (1000, 501), (16384, 1000), (16384, 1023), (16384, 7), (9, 8), (8, 7), (3, 2)];
    for (limit, packet) in uneven.into_iter().chain([(1000, 1000), (1000, 500), (1024, 1024), (8, 8), (2, 1)]) {
        let whole = limit - limit % packet;
        for length in
            [whole - 1, whole, whole + 1, limit, limit + 1, 2 * whole, 2 * whole + 1, 4 * whole, 4 * whole + 1]
        {
            let asked = [bulk_of(packet), submit(0, BULK, 0, 0x1000_0fff, length), submit(0, BULK, 0, 0, 1)];
            out.push(with(started(4, 1, limit), &asked));
        }
    }
    out.extend(sizes_above());
    out.extend(sizes_set());
    // one chunk by the limit and two descriptors: a reply may end at the first
    let two = with(started(4, 1, 1000), &[bulk(), submit(0, BULK, 1, 0x1000, 1000)]);
    let ended = [collect(0, 1, 0), acknowledge(0x20), drain(), collect(0, 1, 0)];
    out.push(with(with(two.clone(), &[writeback(0, 0x01f4_0d00)]), &ended));
    out.push(with(with(two, &[writeback(0, DONE), writeback(1, 0x0001_8d00)]), &ended));
    // a control request has one data descriptor, whatever the limit and the size
    let control = [endpoint(CONTROL, 5, 0, 512), submit(0, CONTROL, 1, 0x1000_0fff, 16384)];
    out.push(with(started(4, 1, 64), &control));
    out.push(with(started(4, 1, 1), &[endpoint(CONTROL, 5, 0, 1000), set_packet(0, 255), submit(0, CONTROL, 0, 0, 9)]));
    out
}

/// About the limit and about the raise to 8, for each kind; after 5 and before 2, after 4.
fn sizes_above() -> Vec<Calls> {
    let mut out = Vec::new();
    for limit in [1, 7, 8, 9, 64, 255, 256, 1023, 1024] {
        let mut calls = started(4, 3, limit);
        for kind in [BULK, INTERRUPT] {
            calls.extend([limit + 1, 1024, 1025].map(|packet| endpoint(kind, 5, 1, packet)));
        }
        calls.extend([endpoint(CONTROL, 5, 0, 1024), bulk_of(limit.min(1024)), endpoint(INTERRUPT, 5, 2, 1)]);
        // no slot is closed any more
        calls.extend([
            bulk_of(1),
            bulk_of(limit + 1),
            endpoint(ISOCHRONOUS, 5, 1, limit + 1),
            endpoint(CONTROL, 1, 0, 9),
        ]);
        for slot in [0, 1, 2, 3] {
            let about = [0, 7, 8, 9, limit.min(255) as u8, (limit + 1).min(255) as u8, 255];
            calls.extend(about.map(|size| set_packet(slot, size)));
        }
        calls.extend([submit(1, BULK, 0, 0, limit), set_packet(1, 0), set_packet(1, 255), cancel(1, 1, 0)]);
        calls.extend([
            set_packet(1, 255),
            acknowledge(0x20),
            drain(),
            collect(1, 1, 0),
            set_packet(1, 255),
            set_packet(1, 8),
        ]);
        out.push(calls);
    }
    out
}

/// A size set between requests counts from the next one on; the one that is in flight keeps its chunks.
fn sizes_set() -> Vec<Calls> {
    let mut calls = with(started(8, 2, 1000), &[bulk_of(7), endpoint(INTERRUPT, 5, 2, 1000)]);
    for (turn, size) in [0, 9, 64, 100, 255, 8].into_iter().enumerate() {
        let id = turn as u64 + 1;
        for (slot, kind) in [(0, BULK), (1, INTERRUPT)] {
            calls.extend([submit(slot, kind, 1, 0x1000, 3000), set_packet(slot, size)]);
            calls.extend([writeback(0, DONE), writeback(1, 0x0064_0d00), collect(slot, id, 0)]);
            calls.extend([acknowledge(0x20), drain(), collect(slot, id, 9), set_packet(slot, size)]);
        }
    }
    vec![calls]
}

/// The tokens written before the unlink, by their places, and those written after it.
type Written<'a> = (&'a [(u64, u64)], &'a [(u64, u64)]);

/// Requests of slot 0 in turn, in the lowest places. One that is not finished by what is written is cancelled at last.
fn lives(kind: u8, incoming: u8, length: u64, replies: &[Written]) -> Calls {
    let mut calls = with(started(4, 2, 64), &[endpoint(kind, 5, 1, 8)]);
    let written = |tokens: &[(u64, u64)]| tokens.iter().map(|(at, token)| writeback(*at, *token)).collect::<Calls>();
    for (turn, (tokens, late)) in replies.iter().enumerate() {
        let id = turn as u64 + 1;
        calls.push(submit(0, kind, incoming, 0x1000, length));
        calls.extend(written(tokens));
        calls.extend([collect(0, id, 0), collect(0, id, 0)]);
        calls.extend(written(late));
        calls.extend([acknowledge(0x20), drain(), collect(0, id, 9), cancel(0, id, 9)]);
        calls.extend([acknowledge(0x20), drain(), collect(0, id, 18)]);
    }
    calls
}

/// Bits 3 to 5 with 6 clear are no error, and bit 3 is counted (02, order 7).
fn retries() -> Vec<Calls> {
    let mut out = Vec::new();
    // bits 3 to 6 in every mix, at one of three places; the others done, or the last active until a first look
    for (kind, incoming, length, places) in
        [(BULK, 1, 150, 0..3), (BULK, 0, 150, 1..2), (INTERRUPT, 1, 150, 1..2), (CONTROL, 1, 40, 0..3)]
    {
        for at in places {
            let done = |mix: u64| [0, 1, 2].map(|place| (place, if place == at { DONE | mix << 3 } else { DONE }));
            let mixes: Vec<_> = (0..16).map(done).collect();
            let whole: Vec<Written> = mixes.iter().map(|tokens| (&tokens[..], &[][..])).collect();
            out.push(lives(kind, incoming, length, &whole));
            if at == 1 {
                let parts: Vec<Written> = mixes.iter().map(|tokens| (&tokens[..2], &[(2, DONE)][..])).collect();
                out.push(lives(kind, incoming, length, &parts));
            }
        }
    }
    out.push(lives(BULK, 1, 150, &RETRIES));
    out.push(lives(BULK, 0, 150, &RETRIES));
    out.push(lives(INTERRUPT, 1, 150, &RETRIES));
    out.push(lives(CONTROL, 1, 40, &RETRIES));
    // one descriptor, without data too; a control request without data
    let one: [Written; 6] = [
        (&[(0, RETRIED | DONE)], &[]),
        (&[(0, RETRIED | LEFT)], &[]),
        (&[(0, RETRIED | HALTED)], &[]),
        (&[(0, 0x30 | DONE)], &[]),
        (&[(0, DONE)], &[(0, RETRIED | AGAIN)]),
        (&[(0, RETRIED | AGAIN)], &[]),
    ];
    out.extend([lives(BULK, 1, 64, &one), lives(BULK, 0, 0, &one), lives(INTERRUPT, 1, 8, &one)]);
    let stages = [(0, RETRIED | DONE), (1, RETRIED | DONE)];
    out.push(lives(CONTROL, 0, 0, &[(&stages, &[]), (&stages[..1], &[(1, DONE)]), (&stages[1..], &[(0, 0x0d48)])]));
    // cancelled: no count; before the unlink has begun and after
    let ended = [acknowledge(0x20), drain(), collect(0, 1, 0)];
    for calls in [vec![], vec![writeback(1, DONE), writeback(2, DONE), collect(0, 1, 0)]] {
        let calls = with(with(vec![writeback(0, RETRIED | DONE)], &calls), &[cancel(0, 1, 0)]);
        out.push(with(with(read_of_three(BULK, 1), &calls), &ended));
    }
    out.push(many_retried());
    out
}

/// Of three descriptors.
const RETRIES: [Written; 20] = [
    // in the middle, all of them, with more than bit 3
    (&[(0, DONE), (1, RETRIED | DONE), (2, DONE)], &[]),
    (&[(0, RETRIED | DONE), (1, RETRIED | DONE), (2, RETRIED | DONE)], &[]),
    (&[(0, 0x18 | DONE), (1, 0x28 | DONE), (2, 0x38 | DONE)], &[]),
    (&[(0, 0x10 | DONE), (1, 0x20 | DONE), (2, 0x30 | DONE)], &[]),
    // short: itself, one before it, those after it
    (&[(0, RETRIED | LEFT)], &[]),
    (&[(0, DONE), (1, RETRIED | LEFT)], &[]),
    (&[(0, RETRIED | DONE), (1, LEFT)], &[]),
    (&[(0, RETRIED | DONE), (1, 0x20 | LEFT), (2, RETRIED | DONE)], &[]),
    (&[(0, LEFT), (1, RETRIED | DONE), (2, RETRIED | LEFT)], &[]),
    (&[(0, LEFT), (1, RETRIED | AGAIN)], &[(2, RETRIED | HALTED)]),
    (&[(0, 0x30 | LEFT), (1, RETRIED | LEFT)], &[]),
    // active, before the unlink and after it
    (&[(0, RETRIED | AGAIN), (1, RETRIED | LEFT)], &[(0, RETRIED | DONE)]),
    (&[(0, DONE), (1, LEFT)], &[(0, RETRIED | AGAIN)]),
    (&[(0, DONE), (1, DONE), (2, DONE)], &[(0, RETRIED | AGAIN), (2, RETRIED | AGAIN)]),
    (&[(0, DONE), (1, DONE), (2, DONE)], &[(1, 0x30 | AGAIN)]),
    // retried after the unlink, and no longer
    (&[(0, DONE), (1, DONE), (2, DONE)], &[(1, RETRIED | DONE)]),
    (&[(0, RETRIED | DONE), (1, DONE), (2, DONE)], &[(0, DONE)]),
    // an error after it, with bit 3 and without; halted once the unlink has begun
    (&[(0, RETRIED | DONE), (1, HALTED)], &[]),
    (&[(0, 0x10 | DONE), (1, RETRIED | HALTED), (2, 0x30 | HALTED)], &[]),
    (&[(0, RETRIED | DONE), (1, RETRIED | DONE), (2, DONE)], &[(2, 0x78 | DONE), (0, 0xb8 | DONE)]),
];

/// 256 descriptors, in each a packet retried; then a reply that ends at the 200th.
fn many_retried() -> Calls {
    let mut calls = with(started(256, 1, 64), &[bulk_of(64)]);
    for (id, ends) in [(1, DONE), (2, LEFT)] {
        calls.push(submit(0, BULK, 1, 0x1000, 256 * 64));
        calls.extend((0..256).map(|i| writeback(i, RETRIED | if i == 199 { ends } else { DONE })));
        calls.extend([collect(0, id, 0), acknowledge(0x20), drain(), collect(0, id, 0)]);
    }
    calls
}

/// A request without data of a slot of `three`, and its end: 0 done, 10 cancelled, 11 in error. It gets the lowest places.
fn ended(slot: u8, incoming: u8, id: u64, answer: u8, overlay: u64) -> Calls {
    let mut calls = vec![submit(slot, [CONTROL, BULK, INTERRUPT][slot as usize], incoming, 0, 0)];
    match answer {
        10 => calls.push(cancel(slot, id, 0)),
        _ => {
            let token = if answer == 11 { 0x0d40 } else { DONE };
            calls.extend([writeback(0, token), writeback(1, token), collect_left(slot, id, 0, !overlay & 0xffff_ffff)]);
        }
    }
    if slot < 2 {
        calls.extend([acknowledge(0x20), drain()]);
    }
    with(calls, &[collect_left(slot, id, 9, overlay)])
}

/// A control, a bulk and an interrupt endpoint, each with toggle 1 after its first request.
fn toggled() -> Calls {
    let ends = [0, 1, 2].map(|slot| ended(slot, 1, 1, 10, TOGGLE | DONE));
    with(three(8), &ends.concat())
}

/// A request on each slot of `three`: what its overlay token is.
fn asked_again() -> [Record; 3] {
    [submit(0, CONTROL, 1, 0, 0), submit(1, BULK, 1, 0x1000, 512), submit(2, INTERRUPT, 0, 0x1000, 8)]
}

/// The toggle from one request to the next (02, order 6).
fn toggles() -> Vec<Calls> {
    let mut out = Vec::new();
    // kept at each answer, of each kind, In and Out; then a 0 is kept
    for answer in [0, 10, 11] {
        for slot in [0, 1, 2] {
            for incoming in [0, 1] {
                let lives = [(1, TOGGLE), (2, !TOGGLE & 0xffff_ffff), (3, 0xffff_ffff)];
                let lives = lives.map(|(id, overlay)| ended(slot, incoming, id, answer, overlay));
                out.push(with(with(three(8), &lives.concat()), &asked_again()));
            }
        }
    }
    // one bit alone, and all but one
    for slot in [1, 2] {
        let words = (0..32).flat_map(|bit| [1 << bit, !(1u64 << bit) & 0xffff_ffff]);
        let lives = words.enumerate().flat_map(|(turn, overlay)| ended(slot, 1, turn as u64 + 1, 10, overlay));
        out.push(with(with(three(8), &lives.collect::<Calls>()), &asked_again()));
    }
    // In and Out in turn, an odd and an even number of packets, more than one descriptor
    let mut turns = with(started(8, 1, 1000), &[bulk()]);
    for (turn, (incoming, length, overlay)) in
        [(1, 512, TOGGLE), (0, 1024, TOGGLE), (1, 1500, 0), (0, 1500, TOGGLE), (1, 0, TOGGLE)].into_iter().enumerate()
    {
        let id = turn as u64 + 1;
        turns.extend([submit(0, BULK, incoming, 0x1000, length), cancel(0, id, 0), acknowledge(0x20), drain()]);
        turns.push(collect_left(0, id, 0, overlay));
    }
    out.push(with(turns, &[one(0)]));
    out.extend(toggles_kept());
    out.extend(halts_cleared());
    out
}

/// Calls between two requests that leave the toggle, or forget it.
fn toggles_kept() -> Vec<Calls> {
    let set_address = |slot, address| Record::new(call::SET_ADDRESS, &[slot, address], &[]);
    let between = |calls: &[Record]| with(with(toggled(), calls), &asked_again());
    let each = |call: fn(u8) -> Record| [0, 1, 2].map(call);
    let mut out = vec![
        between(&[]),
        // a collect without a request looks at nothing, whatever its id
        between(&each(|slot| collect_left(slot, 1, 9, 0))),
        between(&each(|slot| collect_left(slot, 2, 0, 0x7fff_ffff))),
        with(with(three(8), &each(|slot| collect_left(slot, 1, 9, 0xffff_ffff))), &asked_again()),
        between(&[0, 1, 2].map(|slot| set_address(slot, 9))),
        between(&[0, 1, 2].map(|slot| set_address(slot, 200))),
        between(&each(|slot| set_packet(slot, 64))),
        between(&brought_up()),
        // a bring-up that does not halt in time, and another
        between(&with(vec![bare(call::START), step(0), step(0), step(0), one(1)], &brought_up())),
        between(&[cancel(1, 1, 0), cancel(2, 9, 0), acknowledge(0x3f), drain(), drain(), bare(call::REARM)]),
        between(&[bare(call::ENABLE), bare(call::DISABLE), bare(call::ADDRESS), bare(call::SCAN), power(1)]),
        // refused
        between(&[submit(1, CONTROL, 1, 0, 0), submit(1, BULK, 1, HIGH, 1), submit(1, BULK, 1, 0, 200_000)]),
        between(&[open(0, 3, 2, 16384, 2), endpoint(BULK, 5, 1, 512)]),
        // closed and opened: a bulk endpoint in each slot
        with(with(toggled(), &each(|slot| on(call::CLOSE, slot))), &[bulk(), bulk(), bulk(), one(0), one(1), one(2)]),
        between(&[on(call::CLOSE, 1), endpoint(BULK, 6, 2, 64)]),
        with(with(toggled(), &three(8)), &asked_again()),
    ];
    // while a request is in flight, before its unlink and before its boundary: what passes counts, and that alone
    for (before, last) in [(0xffff_ffff, 0), (0, TOGGLE)] {
        let looks = |slot| [collect_left(slot, 1, 0, before), collect_left(slot, 7, 0, before)];
        let mut calls = with(three(8), &[one(1), poll(2)]);
        calls.extend([looks(1), looks(2)].concat());
        calls.extend([writeback(0, DONE), writeback(1, DONE)]);
        calls.extend([looks(1), looks(1), looks(2), looks(2)].concat());
        calls.extend([collect_left(2, 1, 8, before), acknowledge(0x20), drain()]);
        calls.extend([collect_left(1, 1, 0, last), collect_left(2, 1, 9, last)]);
        out.push(with(with(calls, &[looks(1), looks(2)].concat()), &asked_again()));
    }
    out
}

/// Clear-halt (02, order 6).
fn halts_cleared() -> Vec<Calls> {
    let between = |calls: &[Record]| with(with(toggled(), calls), &asked_again());
    let every = [0, 1, 2].map(clear_halt);
    let asked = asked_again();
    let ends = |id| [0, 1, 2].map(|slot| ended(slot, 1, id, 10, TOGGLE).split_off(1)).concat();
    vec![
        between(&[clear_halt(0)]),
        between(&[clear_halt(1)]),
        between(&[clear_halt(2)]),
        between(&with(vec![clear_halt(1)], &every)),
        // not open, and no slot
        between(&[3, 31, 32, 255].map(clear_halt)),
        with(with(toggled(), &[on(call::CLOSE, 1)]), &[clear_halt(1), bulk(), clear_halt(1), one(1)]),
        // in flight, linked and unlinking: refused, and what is collected counts
        with(with(with(with(toggled(), &asked), &every), &ends(2)), &asked),
        with(with(with(toggled(), &asked), &[cancel(1, 2, 0), clear_halt(1), collect(1, 2, 0), clear_halt(1)]), &every),
        with(with(with(with(toggled(), &asked), &ends(2)), &every), &asked),
        // not running: before the first bring-up, and amid another
        with(with(vec![open(8, 3, 2, 16384, 2), bulk(), clear_halt(0)], &brought_up()), &[clear_halt(0), one(0)]),
        between(&with(vec![bare(call::START), clear_halt(1), step(0), clear_halt(2)], &brought_up())),
    ]
}

fn interrupts() -> Vec<Calls> {
    let flags = |first, second| Record::new(call::ACKNOWLEDGE, &[first, second], &[0x3f, 0xffff_ffff]);
    let mut out: Vec<Calls> = (0..14)
        .map(|bit| {
            vec![open(1, 1, 1, 1, 1), acknowledge(1 << bit), drain(), drain(), bare(call::REARM), bare(call::REARM)]
        })
        .collect();
    for (first, second) in [(0, 0), (0, 1), (1, 0), (1, 1)] {
        out.push(vec![
            open(1, 1, 1, 1, 1),
            bare(call::ENABLE),
            flags(first, second),
            drain(),
            drain(),
            drain(),
            drain(),
            bare(call::REARM),
        ]);
        out.push(vec![
            open(1, 1, 1, 1, 1),
            flags(first, second),
            bare(call::REARM),
            bare(call::DISABLE),
            drain(),
            flags(first, second),
        ]);
    }
    out
}

fn ports() -> Vec<Calls> {
    let fresh = |n| vec![open(1, 1, n, 1, 1)];
    let found = || with(fresh(1), &scan(&[1, 1, 0x101, 0x1005]));
    vec![
        with(fresh(1), &[Record::new(call::SCAN_STEP, &[], &[1]), power(0), power(1), power(2), power(255)]),
        with(found(), &scan(&[0x1001])),
        with(found(), &scan(&[0x102a, 0x102a])),
        with(with(found(), &scan(&[0])), &scan(&[0, 0])),
        with(fresh(1), &scan(&[0x1003, 0x102b, 0x112f, 0x1001, 0x1403])),
        with(with(fresh(1), &scan(&[1, 1, 1, 0])), &scan(&[1, 1, 1])),
        with(with(fresh(1), &scan(&[1, 1])), &scan(&[1, 1, 1, 5, 0])),
        with(fresh(3), &scan(&[0, 1, 0x1005, 0x1105, 5, 1, 1, 1, 1, 1])),
        with(with(fresh(3), &scan(&[1, 1, 1, 5, 1, 1, 1, 5, 1, 1, 1, 5])), &scan(&[5, 0, 0, 5])),
        with(fresh(15), &scan(&[0; 15])),
    ]
}

/// The scripts of the fixed list: those by hand, then short ones by chance.
fn fixed() -> Calls {
    let mut calls: Calls = vec![bare(call::START), bulk(), one(0), bare(call::SCAN), power(1), drain(), clear_halt(0)];
    let tokens = [tokens(1), tokens(0), more_tokens(), short_replies(), retries()].concat();
    let requests = [submits(), unlinks(), tokens, packets(), toggles()];
    let by_hand = [openings(), bring_ups(), endpoints(), requests.concat(), interrupts(), ports()];
    let scripts: Vec<Calls> =
        departures().into_iter().map(|(_, calls)| calls).chain(by_hand.into_iter().flatten()).collect();
    let written = scripts.len();
    calls.extend(scripts.into_iter().flatten());
    let mut replica = Replica::default();
    for script in 0..DRAWN {
        let mut generator = Generator::new(2026, script);
        let mut make = |record: Record, replica: &mut Replica| {
            replica.block(&record.bytes()).unwrap();
            calls.push(record);
        };
        make(generator.opening(), &mut replica);
        if script % 8 != 0 {
            brought_up().into_iter().for_each(|record| make(record, &mut replica));
        }
        for _ in 0..6 + script % 12 {
            let record = generator.next(replica.controller.as_ref().unwrap());
            make(record, &mut replica);
        }
    }
    eprintln!("{written} scripts by hand, {DRAWN} by chance, {} calls", calls.len());
    calls
}

const DRAWN: u64 = 150;

/// The fixed list as a log. Its last record is cut short.
pub fn fixed_log() -> Vec<u8> {
    let mut log: Vec<u8> = fixed().iter().flat_map(|record| record.bytes()).collect();
    log.extend_from_slice(&drain().bytes()[..63]);
    log
}

/// Requests of one to six chunks: limits, packet sizes, lengths about the working limit's multiples, offsets in a page, both
/// kinds, both directions.
pub fn chunk_edges() -> Calls {
    let mut calls = Vec::new();
    for limit in [1, 2, 3, 63, 64, 512, 1000, 4095, 4096, 4097, 8192, 12289, 16383, 16384] {
        for (bulk, polled) in [(512, 8), (1000, 7), (513, 1023), (100, 3)] {
            calls.extend(started(5, 2, limit));
            let packets = [bulk, polled].map(|packet: u64| packet.min(limit));
            calls.extend([bulk_of(packets[0]), endpoint(INTERRUPT, 5, 2, packets[1])]);
            calls.extend(edges_of(limit, packets));
        }
    }
    calls
}

/// On a bulk endpoint in slot 0 and an interrupt endpoint in slot 1, with these packet sizes and five descriptors.
fn edges_of(limit: u64, packets: [u64; 2]) -> Calls {
    let mut calls = Vec::new();
    let mut ids = [0, 0];
    for (turn, (k, over)) in (0..6).flat_map(|k| [-1, 0, 1].map(|over| (k, over))).enumerate() {
        for (other, offset) in [0, 1, 0x7ff, 0xffe, 0xfff].into_iter().enumerate() {
            let incoming = (turn + other) as u8 % 2;
            for (slot, kind) in [(0, BULK), (1, INTERRUPT)] {
                let whole = limit - limit % packets[slot];
                let length = (k * whole).saturating_add_signed(over);
                // more than five chunks find no room, and take no id
                ids[slot] += (length <= 5 * whole) as u64;
                let (at, id) = (slot as u8, ids[slot]);
                calls.extend([submit(at, kind, incoming, 0x1000_0000 + offset, length), cancel(at, id, 0)]);
                if kind == BULK {
                    calls.extend([acknowledge(0x20), drain()]);
                }
                calls.push(collect(at, id, 9));
            }
        }
    }
    calls
}

/// Three descriptors with every mix of ten tokens, once before the unlink and once at the collection, for those requests
/// that may end early and one that may not; then 256 descriptors, short at several places.
pub fn reply_edges() -> Calls {
    let mut calls = started(256, 2, 64);
    calls.extend([bulk_of(64), endpoint(INTERRUPT, 5, 2, 8)]);
    let mut ids = [0, 0];
    let kinds = [(BULK, 0, 1), (INTERRUPT, 1, 1), (BULK, 0, 0)];
    for (kind, slot, incoming) in kinds {
        for mix in 0..1000 {
            let plain = [0x0040_0d80, AGAIN, DONE, LEFT, HALTED, 0x000a_0dc0];
            let retried = [RETRIED | AGAIN, RETRIED | DONE, 0x38 | LEFT, 0x30 | DONE];
            let tokens = [&plain[..], &retried].concat();
            let mixed = [0, 1, 2].map(|at| writeback(at, tokens[mix / 10usize.pow(at as u32) % 10]));
            ids[slot as usize] += 1;
            let id = ids[slot as usize];
            calls.push(submit(slot, kind, incoming, 0x1000, 150));
            calls.extend(mixed);
            // an error unlinks what is not finished yet
            calls.extend([collect(slot, id, 0), writeback(0, HALTED), collect(slot, id, 0)]);
            calls.extend(mixed);
            calls.extend([acknowledge(0x20), drain(), collect(slot, id, 9)]);
        }
    }
    for (turn, at) in [0, 1, 63, 64, 127, 254, 255].into_iter().enumerate() {
        let id = ids[1] + 1 + turn as u64;
        calls.push(submit(1, INTERRUPT, 1, 0x1000, 256 * 64));
        calls.extend((0..at).map(|i| writeback(i, DONE | i % 2 * RETRIED)));
        calls.extend([writeback(256, LEFT), writeback(at, LEFT), collect(1, id, 0), collect(1, id, 9)]);
    }
    calls
}

/// The longest waits that 01 allows: ready at the 65,536th read, and not ready then.
pub fn long_waits() -> Calls {
    let mut calls = vec![open(1, 1, 1, 1, 65536), bare(call::START), step(0)];
    calls.extend(std::iter::repeat_n(step(0), 65535));
    calls.extend([step(0x1000), bare(call::START), step(0)]);
    calls.extend(std::iter::repeat_n(step(0), 65536));
    with(calls, &[step(0)])
}

pub fn log_of(calls: &[Record]) -> Vec<u8> {
    calls.iter().flat_map(|record| record.bytes()).collect()
}

#[cfg(test)]
mod tests {
    use super::*;

    /// Lines of the blocks of some calls, in order, worked out by hand from 02, orders 1, 4, 6 and 7.
    fn hold(calls: Calls, lines: &[(usize, &[&str])]) {
        let _alone = crate::ALONE.lock().unwrap();
        let blocks = blocks_of(&calls);
        for (call, wanted) in lines {
            let block: Vec<&str> = blocks[*call].lines().collect();
            assert_eq!(block, *wanted, "call {call} of {}", calls.len());
        }
    }

    const ZEROS: &str = "00000000 00000000 00000000 00000000 00000000 00000000 00000000 00000000";

    /// D 4 at 100000: place 4 is at 100100. 150 bytes at limit 64 are 64, 64 and 22, tokens 00400d80, 00400d80, 00168d80.
    /// The first is done and the second has 10 left: finished; the third is in error after the unlink, which nobody reads:
    /// 64 + 54.
    #[test]
    fn a_short_reply_ends_the_request() {
        let tokens = [writeback(0, 0x0d00), writeback(1, 0x000a_0d00), collect(0, 1, 0), writeback(2, 0x40)];
        let calls = with(with(read_of_three(BULK, 1), &tokens), &[acknowledge(0x20), drain(), collect(0, 1, 0)]);
        let place_d = format!("P 4 00000001 00000001 00000000 00000000 00000000 {ZEROS}");
        let parts = [
            "P 0 00100040 00100100 00400d80 00001000 00000000",
            "P 1 00100080 00100100 00400d80 00001040 00000000",
            "P 2 00000001 00000001 00168d80 00001080 00000000",
        ]
        .map(|words| format!("{words} {ZEROS}"));
        let opened = [
            "C 0 1 0",
            &place_d,
            "H 0 0 00200002",
            "H 0 1 00408000",
            "H 0 2 40000000",
            "H 0 4 00000001",
            "H 0 5 00000001",
            "F 0 1023 00000001",
            "U 1 0",
            "U 2 0",
            "Q 0 0 0 0 0 00000000 00000000 4 1",
            ".",
        ];
        let asked = [
            "C 9 9 0 1",
            &parts[0],
            &parts[1],
            &parts[2],
            "H 0 0 00200082",
            "H 1 0 00200002",
            "H 1 4 00100000",
            "Q 1 0 0 0 0 00000000 00000000 1 1",
            "W 00 00080031",
            ".",
        ];
        let unlinked = ["C 12 12 9", "H 0 0 00200002", "Q 1 0 1 0 1 00000000 00000000 1 1", "W 00 00080071", "."];
        let collected = ["C 16 12 0 118 0", "H 1 4 00000001", "Q 1 0 0 0 0 00000000 00000020 4 1", "."];
        hold(calls, &[(0, &opened), (9, &asked), (12, &unlinked), (16, &collected)]);
    }

    /// The second has 10 left while the first is active: not finished. The first done: finished. Then the first is active again,
    /// with 60 left: 4 + 54, and the third's 22 left are not read.
    #[test]
    fn an_active_one_before_it_waits_and_is_read() {
        let tokens = [writeback(1, 0x000a_0d00), collect(0, 1, 0), writeback(0, 0x0d00), collect(0, 1, 0)];
        let again = [writeback(0, 0x003c_0d80), acknowledge(0x20), drain(), collect(0, 1, 0)];
        let waits = ["C 11 12 9", "Q 1 0 0 0 0 00000000 00000000 1 1", "."];
        let unlinked = ["C 13 12 9", "H 0 0 00200002", "Q 1 0 1 0 1 00000000 00000000 1 1", "W 00 00080071", "."];
        let collected = ["C 17 12 0 58 0", "H 1 4 00000001", "Q 1 0 0 0 0 00000000 00000020 4 1", "."];
        let calls = with(with(read_of_three(BULK, 1), &tokens), &again);
        hold(calls, &[(11, &waits), (13, &unlinked), (17, &collected)]);
    }

    /// The same tokens of an Out request: it waits for all three, and adds up all three, 54 + 54 + 12. Its alternates are 1.
    #[test]
    fn out_requests_are_as_before() {
        let tokens =
            [writeback(0, 0x000a_0c00), collect(0, 1, 0), writeback(1, 0x000a_0c00), writeback(2, 0x000a_8c00)];
        let ends = [collect(0, 1, 0), acknowledge(0x20), drain(), collect(0, 1, 0)];
        let parts = [
            "P 0 00100040 00000001 00400c80 00001000 00000000",
            "P 1 00100080 00000001 00400c80 00001040 00000000",
            "P 2 00000001 00000001 00168c80 00001080 00000000",
        ]
        .map(|words| format!("{words} {ZEROS}"));
        let asked = [
            "C 9 9 0 1",
            &parts[0],
            &parts[1],
            &parts[2],
            "H 0 0 00200082",
            "H 1 0 00200002",
            "H 1 4 00100000",
            "Q 1 0 0 0 0 00000000 00000000 1 1",
            "W 00 00080031",
            ".",
        ];
        let waits = ["C 11 12 9", "Q 1 0 0 0 0 00000000 00000000 1 1", "."];
        let collected = ["C 17 12 0 120 0", "H 1 4 00000001", "Q 1 0 0 0 0 00000000 00000020 4 1", "."];
        hold(with(with(read_of_three(BULK, 0), &tokens), &ends), &[(9, &asked), (11, &waits), (17, &collected)]);
    }

    /// Four descriptors need 320 bytes: with 256 before 2^32 the opening is refused, with 320 it is not. Place 4 is nobody's.
    #[test]
    fn place_d_is_in_the_area_and_nobodys() {
        let at = |pool| opening(4, 1, 1, 64, 1, [pool, 0x200000, 0x300000, 0x400000]);
        let mut calls = vec![at(HIGH - 256), at(HIGH - 320)];
        calls.extend(brought_up());
        calls.extend([bulk_of(64), submit(0, BULK, 1, 0x1000, 256), writeback(4, 0), writeback(3, 0)]);
        let last = format!("P 3 00000001 00000001 00000000 000010c0 00000000 {ZEROS}");
        let fourth = format!("P 4 00000001 00000001 00000000 00000000 00000000 {ZEROS}");
        let opened = [
            "C 1 1 0",
            &fourth,
            "H 0 0 00200002",
            "H 0 1 00408000",
            "H 0 2 40000000",
            "H 0 4 00000001",
            "H 0 5 00000001",
            "F 0 1023 00000001",
            "U 1 0",
            "Q 0 0 0 0 0 00000000 00000000 4 1",
            ".",
        ];
        let refused = ["C 11 10 1", "Q 1 0 0 0 0 00000000 00000000 0 1", "."];
        let written = ["C 12 10 0", &last, "Q 1 0 0 0 0 00000000 00000000 0 1", "."];
        hold(calls, &[(0, &["C 0 1 1", "."]), (1, &opened), (11, &refused), (12, &written)]);
    }

    /// A limit of 1000 and packets of 512: 1500 bytes are 512, 512 and 476, tokens 02000d80, 02000d80, 01dc8d80. The second has
    /// 500 left: 512 + 12. Then packets of 100, which divide 1000: 1000 bytes are one chunk.
    #[test]
    fn a_chunk_ends_with_a_packet() {
        let tokens = [writeback(0, 0x0d00), writeback(1, 0x01f4_0d00), collect(0, 1, 0)];
        let ends = [acknowledge(0x20), drain(), collect(0, 1, 0), set_packet(0, 100), submit(0, BULK, 0, 0x1000, 1000)];
        let calls = with(started(4, 2, 1000), &[bulk(), submit(0, BULK, 1, 0x1000, 1500)]);
        let parts = [
            "P 0 00100040 00100100 02000d80 00001000 00000000",
            "P 1 00100080 00100100 02000d80 00001200 00000000",
            "P 2 00000001 00000001 01dc8d80 00001400 00000000",
            "P 0 00000001 00000001 03e88c80 00001000 00000000",
        ]
        .map(|words| format!("{words} {ZEROS}"));
        let asked = [
            "C 9 9 0 1",
            &parts[0],
            &parts[1],
            &parts[2],
            "H 0 0 00200082",
            "H 1 0 00200002",
            "H 1 4 00100000",
            "Q 1 0 0 0 0 00000000 00000000 1 1",
            "W 00 00080031",
            ".",
        ];
        let collected = ["C 15 12 0 524 0", "H 1 4 00000001", "Q 1 0 0 0 0 00000000 00000020 4 1", "."];
        let set = ["C 16 8 0", "H 1 1 f0642105", "Q 1 0 0 0 0 00000000 00000020 4 1", "."];
        let again = [
            "C 17 9 0 2",
            &parts[3],
            "H 0 0 00200082",
            "H 1 4 00100000",
            "Q 1 0 0 0 0 00000000 00000020 3 1",
            "W 00 00080031",
            ".",
        ];
        let calls = with(with(calls, &tokens), &ends);
        hold(calls, &[(9, &asked), (15, &collected), (16, &set), (17, &again)]);
    }

    /// A limit of 64 and two slots: 65 is refused and 64 is not, after 5 and before 2, whatever the kind but control; then the
    /// same of a size that is set. With a limit of 7 none can be set, because it is raised to 8.
    #[test]
    fn a_packet_longer_than_the_limit_is_refused() {
        let _alone = crate::ALONE.lock().unwrap();
        let opened = [bulk_of(65), endpoint(INTERRUPT, 5, 1, 1024), endpoint(ISOCHRONOUS, 5, 1, 65), bulk_of(64)];
        let full = [endpoint(CONTROL, 5, 0, 1024), bulk_of(65), bulk_of(64)];
        let set = [set_packet(0, 65), set_packet(0, 64), set_packet(1, 255), set_packet(2, 65)];
        let low = [open(1, 1, 1, 7, 1), bulk_of(8), bulk_of(7), set_packet(0, 0), set_packet(0, 7)];
        let calls = [&[open(4, 2, 1, 64, 1)], &opened[..], &full, &set, &low].concat();
        let answers: Vec<String> =
            blocks_of(&calls).iter().map(|block| block.split_whitespace().nth(3).unwrap().to_string()).collect();
        assert_eq!(answers.join(" "), "0 1 1 5 0 0 1 2 1 0 0 3 0 1 0 1 1");
    }

    /// Three packets of 512 are read, and the controller leaves 80008d00 in the overlay: the next submit writes 80000000. That
    /// one is cancelled, clear-halt waits for its collection, and after a clear-halt the third starts with 0.
    #[test]
    fn the_toggle_survives_a_transfer() {
        let calls = with(started(4, 2, 16384), &[bulk(), submit(0, BULK, 1, 0x1000, 1536), writeback(0, 0x8000_8d00)]);
        let first = [collect(0, 1, 0), acknowledge(0x20), drain(), collect_left(0, 1, 0, 0x8000_8d00)];
        let second = [submit(0, BULK, 1, 0x1000, 1536), cancel(0, 2, 0), clear_halt(0), acknowledge(0x20), drain()];
        let third = [collect_left(0, 2, 0, 0xffff_ffff), clear_halt(0), submit(0, BULK, 0, 0x1000, 512)];
        let parts = ["P 0 00000001 00000001 06008d80", "P 0 00000001 00000001 02008c80"];
        let parts = parts.map(|words| format!("{words} 00001000 00000000 {ZEROS}"));
        let collected = ["C 14 12 0 1536 0", "H 1 4 00000001", "Q 1 0 0 0 0 00000000 00000020 4 1", "."];
        let again = [
            "C 15 9 0 2",
            &parts[0],
            "H 0 0 00200082",
            "H 1 4 00100000",
            "H 1 6 80000000",
            "Q 1 0 0 0 0 00000000 00000020 3 1",
            "W 00 00080031",
            ".",
        ];
        let refused = ["C 17 21 4", "Q 1 0 1 0 1 00000000 00000020 3 1", "."];
        let cancelled = ["C 20 12 10", "H 1 4 00000001", "H 1 6 00000000", "Q 1 0 0 0 0 00000000 00000020 4 1", "."];
        let cleared = ["C 21 21 0", "Q 1 0 0 0 0 00000000 00000020 4 1", "."];
        let last = [
            "C 22 9 0 3",
            &parts[1],
            "H 0 0 00200082",
            "H 1 4 00100000",
            "Q 1 0 0 0 0 00000000 00000020 3 1",
            "W 00 00080031",
            ".",
        ];
        let blocks: [(usize, &[&str]); 6] =
            [(14, &collected), (15, &again), (17, &refused), (20, &cancelled), (21, &cleared), (22, &last)];
        hold([&calls[..], &first, &second, &third].concat(), &blocks);
    }

    /// Kept at 11, at 10 and at 0, bit 31 alone, per slot; not used for control; left by a collect without a request, by set
    /// address, set packet size and bring-up; forgotten at close. Of each submit the overlay token that it leaves, of each
    /// clear-halt the answer.
    #[test]
    fn what_keeps_a_toggle_and_what_clears_it() {
        let _alone = crate::ALONE.lock().unwrap();
        let bulks = [ended(1, 1, 1, 11, TOGGLE), ended(1, 0, 2, 10, 0x7fff_ffff), ended(1, 1, 3, 0, 0xffff_ffff)];
        let others = [ended(2, 0, 1, 0, TOGGLE), ended(0, 1, 1, 0, TOGGLE), ended(0, 0, 2, 10, TOGGLE)];
        let left = [collect_left(1, 3, 0, 0), Record::new(call::SET_ADDRESS, &[1, 9], &[]), set_packet(1, 64)];
        let asked = [clear_halt(3), clear_halt(0), one(1), clear_halt(1), poll(2), cancel(1, 4, 0)];
        let closed = [acknowledge(0x20), drain(), collect_left(1, 4, 0, TOGGLE), on(call::CLOSE, 1), bulk(), one(1)];
        let halted = [cancel(1, 1, 0), cancel(2, 2, 0), acknowledge(0x20), drain(), collect(1, 1, 0), collect(2, 2, 9)];
        let stopped = [bare(call::START), clear_halt(0), clear_halt(1), clear_halt(2), clear_halt(255)];
        let lives = [three(8), bulks.concat(), others.concat(), left.to_vec(), brought_up()].concat();
        let calls = [&lives[..], &asked, &closed, &halted, &stopped].concat();
        let (mut rows, mut seen) = (blocks::rows::Rows::BLANK, Vec::new());
        for (record, block) in calls.iter().zip(blocks_of(&calls)) {
            rows.read(&block);
            match record.number {
                call::SUBMIT => seen.push(format!("{:x}", rows.heads[record.b[0] as usize + 1][6])),
                call::CLEAR_HALT => seen.push(block.split_whitespace().nth(3).unwrap().to_string()),
                _ => {}
            }
        }
        assert_eq!(seen.join(" "), "0 80000000 0 0 0 0 3 0 80000000 4 80000000 0 0 0 0 3");
    }

    /// 150 bytes at limit 64 are 64, 64 and 22. A packet of the first was retried and the others are active: not finished, and
    /// the token stays as the controller wrote it. The others done, one of them with bits 4 and 5: finished, 150 bytes, one
    /// retried. The same with bit 6 beside bit 3 in the last: failed with that token, and no count.
    #[test]
    fn a_retried_packet_is_no_failure() {
        let tokens =
            [writeback(0, 0x0d08), collect(0, 1, 0), writeback(1, 0x0d30), writeback(2, 0x8d00), collect(0, 1, 0)];
        let again = [submit(0, BULK, 1, 0x1000, 150), writeback(0, 0x0d08), writeback(1, 0x0d30), writeback(2, 0x8d48)];
        let ended = |id| [acknowledge(0x20), drain(), collect(0, id, 0)];
        let first = with(with(read_of_three(BULK, 1), &tokens), &ended(1));
        let second = with(with(again.to_vec(), &[collect(0, 2, 0)]), &ended(2));
        let written = format!("P 0 00100040 00100100 00000d08 00001000 00000000 {ZEROS}");
        let retried = ["C 10 10 0", &written, "Q 1 0 0 0 0 00000000 00000000 1 1", "."];
        let waits = ["C 11 12 9", "Q 1 0 0 0 0 00000000 00000000 1 1", "."];
        let unlinked = ["C 14 12 9", "H 0 0 00200002", "Q 1 0 1 0 1 00000000 00000000 1 1", "W 00 00080071", "."];
        let collected = ["C 17 12 0 150 1", "H 1 4 00000001", "Q 1 0 0 0 0 00000000 00000020 4 1", "."];
        let failed = ["C 25 12 11 00008d48", "H 1 4 00000001", "Q 1 0 0 0 0 00000000 00000020 4 1", "."];
        let blocks: [(usize, &[&str]); 5] =
            [(10, &retried), (11, &waits), (14, &unlinked), (17, &collected), (25, &failed)];
        hold(with(first, &second), &blocks);
    }

    /// What the collections answer that pass: two retried; a short one retried, 64 - 10; one after the short one, which is not
    /// read, 64 + 54; bits 4 and 5; an error behind a retried one, with bit 3 itself; a retried one that is active again with 10
    /// left, 54 + 54; one that is not finished, cancelled. Then a control request whose setup and status stages were retried, of
    /// 40 bytes 10 left.
    #[test]
    fn what_is_counted_as_retried() {
        let _alone = crate::ALONE.lock().unwrap();
        let bulks: [Written; 7] = [
            (&[(0, 0x0d08), (1, 0x0d08), (2, 0x0d00)], &[]),
            (&[(0, 0x000a_0d08)], &[]),
            (&[(0, 0x0d00), (1, 0x000a_0d00)], &[(2, 0x08)]),
            (&[(0, 0x0d10), (1, 0x0d20), (2, 0x0d30)], &[]),
            (&[(0, 0x0d08), (1, 0x000a_0d48)], &[]),
            (&[(0, 0x0d08), (1, 0x000a_0d00)], &[(0, 0x000a_0d88)]),
            (&[(0, 0x0d08)], &[]),
        ];
        let control: [Written; 1] = [(&[(0, 0x0e08), (1, 0x000a_0d00), (2, 0x0c08)], &[])];
        let calls = with(lives(BULK, 1, 150, &bulks), &lives(CONTROL, 1, 40, &control));
        let passed = |(record, block): (&Record, String)| {
            let words: Vec<&str> = block.lines().next().unwrap().split(' ').skip(3).collect();
            (record.number == call::COLLECT && words[0] != "9").then(|| words.join(" "))
        };
        let answers: Vec<String> = calls.iter().zip(blocks_of(&calls)).filter_map(passed).collect();
        assert_eq!(answers.join(", "), "0 150 2, 0 54 1, 0 118 0, 0 150 0, 11 000a0d48, 0 108 1, 10, 0 30 2");
    }

    /// An overlay token has 32 bits; clear-halt has a slot and nothing else; there is no call after it.
    #[test]
    fn the_records_of_order_6() {
        let good = |record: Record| Record::read(&record.bytes()).is_some();
        assert!(good(collect_left(255, u64::MAX, 0xffff_ffff, 0xffff_ffff)) && good(clear_halt(255)));
        assert!(!good(collect_left(0, 1, 0, 1 << 32)) && !good(Record::new(call::COLLECT, &[0], &[1, 0, 0, 0, 1])));
        assert!(!good(Record::new(21, &[0, 1], &[])) && !good(Record::new(21, &[0], &[1])) && !good(on(22, 0)));
        assert!(!good(Record::new(call::CANCEL, &[0], &[1, 0, 0, 1])));
    }
}
