//! Call scripts by chance, drawn with the controller at hand so that every kind and answer is met.
use std::collections::VecDeque;

use blocks::record::{Record, call};

use crate::backend::kmod::ehci::controller::{Controller, Flight, whole_packets};

const KIB16: u64 = 16384;

/// Four areas far apart: those of 01's sheet.
pub const AREAS: [u64; 4] = [0x100000, 0x200000, 0x300000, 0x400000];

struct Draw(u64);

impl Draw {
    fn next(&mut self) -> u64 {
        self.0 ^= self.0 << 13;
        self.0 ^= self.0 >> 7;
        self.0 ^= self.0 << 17;
        self.0.wrapping_mul(0x2545_F491_4F6C_DD1D) >> 11
    }

    fn below(&mut self, count: u64) -> u64 {
        self.next() % count
    }

    fn one_in(&mut self, count: u64) -> bool {
        self.below(count) == 0
    }

    fn of<T: Copy>(&mut self, items: &[T]) -> T {
        items[self.below(items.len() as u64) as usize]
    }

    fn word(&mut self) -> u64 {
        self.next() & 0xffff_ffff
    }

    fn command(&mut self) -> u64 {
        match self.below(6) {
            0 => self.word(),
            _ => self.of(&[0, 0x31, 0x71, 0x40, 0x80031, 0x80071, 0xffff_ffff]),
        }
    }

    /// An overlay token: as a controller might leave it with either toggle, the toggle alone, all else, any word.
    fn overlay(&mut self) -> u64 {
        match self.below(8) {
            0 | 1 => self.word(),
            2 => self.of(&[0x7fff_ffff, 0xffff_ffff]),
            _ => self.of(&[0, 0x8000_0000, 0x0000_8d00, 0x8000_8d00, 0x8010_0d48]),
        }
    }

    /// Bits 3 to 6 of a token, one of them at least: retried, the two beside it, halted, mixed.
    fn status(&mut self) -> u32 {
        match self.below(8) {
            0..3 => 8,
            3 => self.of(&[0x10, 0x20, 0x30]),
            4 => self.of(&[0x18, 0x28, 0x38]),
            5 | 6 => 0x40,
            _ => 0x40 | (self.below(8) as u32) << 3,
        }
    }

    /// Bits 3 to 5 alone, or none.
    fn retried(&mut self) -> u32 {
        self.of(&[0, 0, 8, 8, 8, 0x10, 0x20, 0x38])
    }

    fn frame(&mut self) -> u64 {
        match self.below(4) {
            0 => self.word(),
            1 => 16376 + self.below(20),
            _ => self.below(24),
        }
    }
}

/// The readings of a bring-up that is ready at once.
pub const READY: [u64; 6] = [0x80001, 0x1000, 0x80000, 0x80000, 0x80000, 0];

pub struct Generator {
    draw: Draw,
    /// Calls that belong together; others may come between them.
    plan: VecDeque<Record>,
}

impl Generator {
    pub fn new(seed: u64, script: u64) -> Self {
        let mut draw = Draw((seed << 32 | (script + 1)).wrapping_mul(0x9E37_79B9_7F4A_7C15));
        for _ in 0..8 {
            draw.next();
        }
        // the first script allots every address
        let plan = if script == 0 { vec![Record::new(call::ADDRESS, &[], &[]); 128] } else { vec![] };
        Self { draw, plan: plan.into() }
    }

    /// Whether this script ends in a bad record.
    pub fn ends_badly(&mut self) -> bool {
        self.draw.one_in(8)
    }

    /// A record that no program may take, some of them cut short.
    pub fn bad(&mut self) -> Vec<u8> {
        let record = plain(1 + self.draw.below(call::LAST as u64) as u8, 0);
        match self.draw.below(6) {
            0 => record.bytes()[..1 + self.draw.below(63) as usize].to_vec(),
            _ => self.draw.of(&record.spoilings()).bytes().to_vec(),
        }
    }

    // ---- opening

    pub fn opening(&mut self) -> Record {
        let draw = &mut self.draw;
        let d = draw.of(&[1, 2, 3, 4, 5, 8, 16, 64, 256]);
        let e = draw.of(&[1, 2, 3, 4, 8, 32]);
        let ports = 1 + if draw.one_in(2) { draw.below(3) } else { draw.below(15) };
        let limit = draw.of(&[1, 2, 64, 511, 512, 1000, 4096, 4097, 16383, KIB16, KIB16, KIB16]);
        let wait = draw.of(&[1, 2, 3, 5, 40]);
        let areas = self.areas(d, e);
        opening(d, e as u8, ports as u8, limit, wait, areas)
    }

    /// Areas far apart, or touching each other from 0 on or up to 2^32, in some order.
    fn areas(&mut self, d: u64, e: u64) -> [u64; 4] {
        if self.draw.one_in(2) {
            return AREAS;
        }
        let sizes = [64 * (d + 1), 128 * (e + 1), 4096, 8 * e];
        let by = [64, 128, 4096, 8];
        let (mut areas, mut at) = ([0; 4], 0u64);
        let first = self.draw.below(4) as usize;
        let down = self.draw.one_in(2);
        if down {
            at = 1 << 32;
        }
        for i in (0..4).map(|i| (first + i) % 4) {
            if down {
                at = (at - sizes[i]) / by[i] * by[i];
                areas[i] = at;
            } else {
                areas[i] = at.next_multiple_of(by[i]);
                at = areas[i] + sizes[i];
            }
        }
        areas
    }

    /// An opening with one thing wrong, or good after all.
    fn wrong_opening(&mut self) -> Record {
        let mut record = self.opening();
        let huge = self.draw.of(&[1 << 32, u64::MAX]);
        match self.draw.below(16) {
            0 => record.n[0] = self.draw.of(&[0, 257, huge]),
            1 => record.b[0] = self.draw.of(&[0, 33, 255]),
            2 | 3 => record.b[1] = 0,
            4 => record.b[1] = self.draw.of(&[16, 255]),
            5 => record.n[1] = self.draw.of(&[0, KIB16 + 1, huge]),
            6 => record.n[2] = self.draw.of(&[0, 65537, huge]),
            7 => record.n[3] = record.n[3].wrapping_add(self.draw.of(&[1, 32, huge - 63])),
            8 => record.n[4] = record.n[4].wrapping_add(self.draw.of(&[1, 64, huge - 127])),
            9 => record.n[5] = record.n[5].wrapping_add(self.draw.of(&[1, 2048, huge - 4095])),
            10 => record.n[6] = record.n[6].wrapping_add(self.draw.of(&[1, 4, huge - 7])),
            11 => record.n[3] = record.n[5],
            12 => record.n[4] = record.n[3] / 128 * 128,
            // room for D descriptors and not for the one at place D
            13 => record.n[3] = (1 << 32) - 64 * record.n[0],
            14 => record.n[6] = record.n[3] + 64 * record.n[0],
            _ => record.n[6] = record.n[4],
        }
        record
    }

    // ---- the next call

    pub fn next(&mut self, c: &Controller) -> Record {
        if !self.plan.is_empty() && !self.draw.one_in(5) {
            return self.plan.pop_front().unwrap();
        }
        let (bring_up, scan) = c.awaits();
        if let Some(register) = bring_up
            && !self.draw.one_in(8)
        {
            return self.bring_up_step(register);
        }
        if scan && !self.draw.one_in(3) {
            return self.scan_step();
        }
        if !c.is_running() && bring_up.is_none() && self.draw.one_in(3) {
            return Record::new(call::START, &[], &[]);
        }
        self.chosen(c)
    }

    fn bring_up_step(&mut self, register: u32) -> Record {
        let ready = self.draw.of(&[0u64, 0x1000, 0x1000, 0x80000, 0x40, 2]);
        let reading = if self.draw.one_in(3) { self.draw.word() } else { ready };
        // a wait for the reset is seldom long
        let mask = if register == 0 && !self.draw.one_in(3) { 0xffff_fffd } else { 0xffff_ffff };
        Record::new(call::STEP, &[], &[reading & mask])
    }

    fn scan_step(&mut self) -> Record {
        let usual = self.draw.of(&[0x1001, 0x1005, 0x1000, 0x1003, 0x3402, 0x1005, 0x102f]);
        let reading = if self.draw.one_in(4) { self.draw.word() } else { usual };
        Record::new(call::SCAN_STEP, &[], &[reading])
    }

    fn slot(&mut self, c: &Controller) -> u8 {
        let count = c.settings.endpoints as u64;
        match self.draw.below(40) {
            0 => self.draw.of(&[count as u8, 31, 32, 255]),
            1..8 => self.draw.below(count) as u8,
            _ => self.draw.below(count.min(6)) as u8,
        }
    }

    fn chosen(&mut self, c: &Controller) -> Record {
        let slot = self.slot(c);
        let kind = c.kind(slot as usize);
        let flight = c.flight(slot as usize);
        let id = match &flight {
            Some(flight) if !self.draw.one_in(12) => flight.id,
            _ => self.draw.of(&[0, 1, 2, 3, u64::MAX]),
        };
        match self.draw.below(1008) {
            0..60 => self.endpoint(c),
            60..500 if kind.is_none() && !self.draw.one_in(5) => self.endpoint(c),
            60..360 => match flight {
                Some(flight) if !self.draw.one_in(4) => self.onward(slot, &flight),
                _ => self.submit(c, slot, kind),
            },
            360..440 => self.writeback(c, &flight),
            440..560 => match flight {
                Some(flight) => self.onward(slot, &flight),
                _ => self.collect(slot, id),
            },
            560..680 => self.collect(slot, id),
            680..730 => {
                let (command, frame) = (self.draw.command(), self.draw.frame());
                Record::new(call::CANCEL, &[slot], &[id, command, frame])
            }
            730..820 => self.acknowledge(),
            820..900 => Record::new(call::DRAIN, &[], &[self.draw.command()]),
            900..930 => Record::new(self.draw.of(&[call::REARM, call::REARM, call::ENABLE, call::DISABLE]), &[], &[]),
            930..945 => Record::new(call::CLOSE, &[slot], &[]),
            945..953 => Record::new(call::SET_ADDRESS, &[slot, self.draw.below(160) as u8], &[]),
            953..961 => self.set_packet(slot).1,
            961..973 => Record::new(call::SCAN, &[], &[]),
            973..978 => self.draw_step(c),
            978..984 => Record::new(call::POWER, &[self.draw.below(18) as u8], &[self.draw.word()]),
            984..990 => Record::new(call::START, &[], &[]),
            990..994 => self.wrong_opening(),
            994..1000 => self.addresses(),
            _ => Record::new(call::CLEAR_HALT, &[slot], &[]),
        }
    }

    /// Mostly one, seldom more than there are.
    fn addresses(&mut self) -> Record {
        let address = Record::new(call::ADDRESS, &[], &[]);
        if self.draw.one_in(24) {
            self.plan.extend([address; 128]);
        }
        address
    }

    fn draw_step(&mut self, c: &Controller) -> Record {
        match c.awaits() {
            (None, _) if self.draw.one_in(2) => Record::new(call::STEP, &[], &[0x1000]),
            _ => self.scan_step(),
        }
    }

    fn endpoint(&mut self, c: &Controller) -> Record {
        let kind = if self.draw.one_in(12) { 1 } else { self.draw.of(&[0, 2, 2, 3]) };
        let address = if self.draw.one_in(10) { self.draw.of(&[128, 255]) } else { self.draw.below(128) as u8 };
        let number = if self.draw.one_in(10) { self.draw.of(&[16, 255]) } else { self.draw.below(16) as u8 };
        let packet = self.packet(c.settings.limit, kind);
        Record::new(call::ENDPOINT, &[kind, address, number], &[packet])
    }

    /// A packet size, mostly one that this kind may have: powers of two and others, the most, just over its half.
    fn packet(&mut self, limit: u64, kind: u8) -> u64 {
        let most = if kind < 2 { 1024 } else { limit.min(1024) };
        let packet = match self.draw.below(16) {
            0 => return self.draw.of(&[0, 1025, 65535]),
            1 => return 1 + self.draw.below(1024),
            2 => return limit + 1,
            3 | 4 => 1 + self.draw.below(most),
            5 => most,
            6 => most / 2 + 1,
            7..11 => self.draw.of(&[3, 7, 9, 100, 513, 1000, 1023]),
            _ => self.draw.of(&[1, 8, 64, 512, 1024]),
        };
        packet.min(most)
    }

    /// A size to be set, after the raise, and the call.
    fn set_packet(&mut self, slot: u8) -> (u64, Record) {
        let size: u8 = match self.draw.below(4) {
            0 => self.draw.below(256) as u8,
            _ => self.draw.of(&[0, 7, 8, 9, 24, 64, 100, 255]),
        };
        (size.max(8) as u64, Record::new(call::SET_PACKET, &[slot, size], &[]))
    }

    // ---- requests

    /// About the multiples of the working limit, seldom of the limit itself.
    fn length(&mut self, c: &Controller, kind: u8, whole: u64) -> u64 {
        let room = c.settings.descriptors;
        let limit = if self.draw.one_in(4) { c.settings.limit } else { whole };
        match self.draw.below(13) {
            0 | 1 => 0,
            2 | 3 => self.draw.below(64),
            4 => self.draw.of(&[4095, 4096, 4097, 16383, KIB16, KIB16 + 1]),
            5 | 6 => limit * self.draw.below(4) + self.draw.below(3),
            7 => limit * room.min(40) + self.draw.below(2),
            8 if kind != 0 => self.draw.of(&[20479, 20480, 20481, 61441, 100_000, limit * room, limit * room + 1]),
            // two to six chunks
            10 | 11 if kind != 0 && room > 1 => {
                limit * (1 + self.draw.below(room.min(6) - 1)) + 1 + self.draw.below(limit)
            }
            // more than one by the working limit, one by the limit
            12 => whole + self.draw.below(c.settings.limit - whole + 1),
            9 if self.draw.one_in(8) => self.draw.of(&[65536, 0xffff_ffff, 1 << 32, u64::MAX]),
            _ => self.draw.below(KIB16 + 1),
        }
    }

    fn submit(&mut self, c: &Controller, slot: u8, own: Option<u8>) -> Record {
        let kind = match own {
            Some(own) if !self.draw.one_in(10) => own,
            _ => self.draw.below(4) as u8,
        };
        let whole = c.working_limit(slot as usize).unwrap_or(c.settings.limit);
        if c.toggle(slot as usize) && self.draw.one_in(3) {
            return self.submit_over_toggle(c, slot, kind, whole);
        }
        if own.is_some_and(|own| own >= 2) && self.draw.one_in(10) {
            return self.submit_after_set(c, slot, kind);
        }
        self.request(c, slot, kind, whole)
    }

    /// A packet size is set, and a request follows whose length is about the new working limit.
    fn submit_after_set(&mut self, c: &Controller, slot: u8, kind: u8) -> Record {
        let (packet, set) = self.set_packet(slot);
        let request = self.request(c, slot, kind, whole_packets(c.settings.limit, packet));
        self.plan.extend([set, request]);
        self.plan.pop_front().unwrap()
    }

    /// A request after a call that clears the slot's toggle, or that must leave it: clear-halt here and on another slot, an
    /// endpoint closed and another opened, address and packet size, a collect without a request, a bring-up, and clear-halt
    /// amid it.
    fn submit_over_toggle(&mut self, c: &Controller, slot: u8, kind: u8, whole: u64) -> Record {
        let clear = |slot| Record::new(call::CLEAR_HALT, &[slot], &[]);
        let idle = (0..c.settings.endpoints as usize).all(|slot| c.flight(slot).is_none());
        match self.draw.below(10) {
            0..3 => self.plan.push_back(clear(slot)),
            3 => self.plan.push_back(clear((slot + 1) % c.settings.endpoints)),
            4 => {
                let opened = self.endpoint(c);
                self.plan.extend([Record::new(call::CLOSE, &[slot], &[]), opened]);
            }
            5 => self.plan.push_back(Record::new(call::SET_ADDRESS, &[slot, self.draw.below(128) as u8], &[])),
            6 => {
                let set = self.set_packet(slot).1;
                self.plan.push_back(set);
            }
            7 | 8 if idle => {
                self.plan.push_back(Record::new(call::START, &[], &[]));
                let amid = self.draw.one_in(3).then(|| clear(slot));
                self.plan.extend(amid);
                self.plan.extend(READY.map(|reading| Record::new(call::STEP, &[], &[reading])));
            }
            _ => {
                let collect = self.collect(slot, 1);
                self.plan.push_back(collect);
            }
        }
        let request = self.request(c, slot, kind, whole);
        self.plan.push_back(request);
        self.plan.pop_front().unwrap()
    }

    fn request(&mut self, c: &Controller, slot: u8, kind: u8, whole: u64) -> Record {
        let length = self.length(c, kind, whole);
        let address = match self.draw.below(12) {
            0 | 1 => (1u64 << 32).saturating_sub(length),
            2 => (1u64 << 32).saturating_sub(length) + 1,
            3 => self.draw.of(&[1 << 32, 1 << 40, u64::MAX]),
            _ => self.draw.of(&[0, 1, 0xfff, 0x1000, 0x1000_0fff, 0x7fff_f001]) + 0x1000 * self.draw.below(5),
        };
        let incoming = if kind == 0 { self.draw.below(2) } else { !self.draw.one_in(3) as u64 };
        let recipient = if self.draw.one_in(20) { self.draw.below(32) } else { self.draw.below(4) };
        let bit = if self.draw.one_in(15) { 1 - incoming } else { incoming };
        let setup = match kind {
            0 => self.draw.next() & 0xffff_ffff_ff60 | bit << 7 | recipient,
            _ => 0,
        };
        let command = self.draw.command();
        Record::new(call::SUBMIT, &[slot, kind, incoming as u8], &[setup, address, length, command])
    }

    /// A token as a controller might leave it, or any word.
    fn token(&mut self, old: u32) -> u64 {
        let left = (self.draw.below(64) as u32) << 16;
        let token = match self.draw.below(10) {
            0 => self.draw.word() as u32,
            1 => old & !0x80 | self.draw.status(),
            2 => old | self.draw.status(),
            3 => old & !0x7fff_0080 | left,
            4 => old & !0x80,
            // retried, done or with bytes left
            5 => old & !0x7fff_00f8 | self.draw.retried(),
            6 => old & !0x7fff_00f8 | self.draw.retried() | left,
            _ => old & !0x7fff_0080,
        };
        token as u64
    }

    fn writeback(&mut self, c: &Controller, flight: &Option<Flight>) -> Record {
        match flight {
            Some(flight) if !self.draw.one_in(20) => {
                let i = self.draw.below(flight.places.len() as u64) as usize;
                let token = self.token(flight.tokens[i]);
                Record::new(call::WRITEBACK, &[], &[flight.places[i] as u64, token])
            }
            _ => {
                let d = c.settings.descriptors;
                let place = match self.draw.below(10) {
                    0 => u64::MAX,
                    1 | 2 => d,
                    _ => self.draw.below(d + 2),
                };
                Record::new(call::WRITEBACK, &[], &[place, self.draw.word()])
            }
        }
    }

    /// A request brought further.
    fn onward(&mut self, slot: u8, flight: &Flight) -> Record {
        if flight.unlinking { self.collect(slot, flight.id) } else { self.finish(slot, flight) }
    }

    /// A request to its end: its descriptors written back, the unlink, its answer, the collection.
    fn finish(&mut self, slot: u8, flight: &Flight) -> Record {
        if flight.places.len() > 1 && self.draw.below(10) < if flight.early { 7 } else { 1 } {
            return self.finish_short(slot, flight);
        }
        let whole = flight.places.len() <= 8 || self.draw.one_in(10);
        let (clean, retried) = (!self.draw.one_in(4), self.draw.one_in(3));
        for (place, token) in flight.places.iter().zip(&flight.tokens).take(if whole { 256 } else { 3 }) {
            let token = match clean {
                true if retried => (token & !0x7fff_00f8 | self.draw.retried()) as u64 | self.draw.below(3) << 16,
                true => (token & !0x7fff_0080) as u64 | self.draw.below(9) << 16,
                false => self.token(*token),
            };
            self.plan.push_back(Record::new(call::WRITEBACK, &[], &[*place as u64, token]));
        }
        let late = if retried { self.late(flight) } else { None };
        self.collection(slot, flight.id, if whole { call::COLLECT } else { call::CANCEL }, late)
    }

    /// After the unlink one of the descriptors is written once more: active and retried, halted, or retried alone.
    fn late(&mut self, flight: &Flight) -> Option<Record> {
        let i = self.draw.below(flight.places.len() as u64) as usize;
        let done = flight.tokens[i] & !0x7fff_00f8;
        let token = match self.draw.below(6) {
            0 => done | 0x80 | self.draw.retried(),
            1 => done | self.draw.status(),
            2 => done | self.draw.retried(),
            _ => return None,
        };
        Some(Record::new(call::WRITEBACK, &[], &[flight.places[i] as u64, token as u64]))
    }

    /// The same, but one of the descriptors has bytes left: those before it are done, those after it as they were, but for one.
    /// Until the collection the controller may still write: one before it active again, one after it in error, itself done.
    fn finish_short(&mut self, slot: u8, flight: &Flight) -> Record {
        let count = flight.places.len() as u64;
        let at = if self.draw.one_in(10) { self.draw.below(count) } else { self.draw.below(count.min(8)) };
        let write = |i: u64, token| Record::new(call::WRITEBACK, &[], &[flight.places[i as usize] as u64, token]);
        let done = |i: u64| (flight.tokens[i as usize] & !0x7fff_00f8) as u64;
        let retried = self.draw.one_in(3);
        let bits = |draw: &mut Draw| if retried { draw.retried() as u64 } else { 0 };
        for i in 0..at {
            let bits = bits(&mut self.draw);
            self.plan.push_back(write(i, done(i) | bits));
        }
        let left = self.left(flight.lengths[at as usize]) | bits(&mut self.draw);
        self.plan.push_back(write(at, done(at) | left));
        let after = |draw: &mut Draw| at + 1 + draw.below(count - at - 1);
        if at + 1 < count && self.draw.one_in(3) {
            let i = after(&mut self.draw);
            let token = self.token(flight.tokens[i as usize]);
            self.plan.push_back(write(i, token));
        }
        let late = match self.draw.below(6) {
            0 | 1 if at > 0 => {
                let i = self.draw.below(at);
                Some(write(i, done(i) | 0x80 | self.left(flight.lengths[i as usize]) | bits(&mut self.draw)))
            }
            2 | 3 if at + 1 < count => {
                let i = after(&mut self.draw);
                Some(write(i, done(i) | self.draw.of(&[8, 0x10, 0x20, 0x40, 0xc0])))
            }
            4 => Some(write(at, done(at))),
            _ => None,
        };
        self.collection(slot, flight.id, call::COLLECT, late)
    }

    /// Bytes left of so many: some, all, more than there were. As they stand in a token.
    fn left(&mut self, length: usize) -> u64 {
        let length = length as u64;
        let left = match self.draw.below(6) {
            0 => 1,
            1 => length,
            2 => length + 1,
            3 => 0x7fff,
            _ => self.draw.below(length + 1),
        };
        left.clamp(1, 0x7fff) << 16
    }

    /// The unlink by this call, what is written after it, its answer, the collection.
    fn collection(&mut self, slot: u8, id: u64, number: u8, late: Option<Record>) -> Record {
        let (command, frame) = (self.draw.command(), self.draw.frame());
        let first = match number {
            call::COLLECT => Record::new(number, &[slot], &[id, command, frame, self.draw.overlay()]),
            _ => Record::new(number, &[slot], &[id, command, frame]),
        };
        self.plan.push_back(first);
        self.plan.extend(late);
        let status = self.draw.of(&[0x20, 0x24, 0x21, 0x37]);
        self.plan.push_back(Record::new(call::ACKNOWLEDGE, &[1, 1], &[status, 0x27]));
        for _ in 0..1 + self.draw.below(3) {
            self.plan.push_back(Record::new(call::DRAIN, &[], &[self.draw.command()]));
        }
        let later = (frame + self.draw.of(&[0, 8, 9, 9, 10, 16383])) & 0xffff_ffff;
        let (command, overlay) = (self.draw.command(), self.draw.overlay());
        self.plan.push_back(Record::new(call::COLLECT, &[slot], &[id, command, later, overlay]));
        self.plan.pop_front().unwrap()
    }

    fn collect(&mut self, slot: u8, id: u64) -> Record {
        let (command, frame, overlay) = (self.draw.command(), self.draw.frame(), self.draw.overlay());
        Record::new(call::COLLECT, &[slot], &[id, command, frame, overlay])
    }

    fn acknowledge(&mut self) -> Record {
        let status = match self.draw.below(6) {
            0 => self.draw.word(),
            1 => 0x24,
            2 | 3 => 0x20,
            4 => 1 << self.draw.below(14),
            _ => self.draw.below(64),
        };
        let interrupts = self.draw.of(&[0, 0x27, 0x3f, 0xffff_ffff, 0x22]);
        let flags = if self.draw.one_in(3) { [self.draw.below(2) as u8, self.draw.below(2) as u8] } else { [1, 1] };
        Record::new(call::ACKNOWLEDGE, &flags, &[status, interrupts])
    }
}

pub fn opening(d: u64, e: u8, ports: u8, limit: u64, wait: u64, areas: [u64; 4]) -> Record {
    Record::new(call::OPEN, &[e, ports], &[d, limit, wait, areas[0], areas[1], areas[2], areas[3]])
}

/// A good record of this call, with small parameters.
pub fn plain(number: u8, slot: u8) -> Record {
    match number {
        call::OPEN => opening(4, 4, 2, KIB16, 1, AREAS),
        call::ENDPOINT => Record::new(number, &[2, 1, 1], &[64]),
        call::SUBMIT => Record::new(number, &[slot, 2, 1], &[0, 0x1000, 64, 0]),
        call::CLOSE | call::SET_ADDRESS | call::SET_PACKET | call::POWER | call::CLEAR_HALT => {
            Record::new(number, &[slot], &[])
        }
        call::CANCEL | call::COLLECT => Record::new(number, &[slot], &[1, 0, 0]),
        call::ACKNOWLEDGE => Record::new(number, &[1, 1], &[0x24, 0x27]),
        _ => Record::new(number, &[], &[]),
    }
}
