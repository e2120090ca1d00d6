//! A job sheet's listing from 000 (01, "Examples", last part). Reading the sheet and the order of its lines are the
//! driver's; answers, ids and descriptors are those of the calls on 000.
use blocks::record::{Record, call};

use crate::backend::kmod::ehci::controller::answer;
use crate::generate::{AREAS, opening};
use crate::replica::Replica;

struct Endpoint {
    kind: u8,
    address: u8,
    number: u8,
    packet: u64,
}

struct Request {
    record: usize,
    direction: u8,
    setup: u64,
    address: u64,
    length: u64,
}

/// The next bytes of a sheet, as a number.
struct Bytes<'a>(&'a [u8]);

impl Bytes<'_> {
    fn take(&mut self, count: usize) -> Option<u64> {
        let (taken, rest) = self.0.split_at_checked(count)?;
        self.0 = rest;
        Some(taken.iter().rev().fold(0, |number, byte| number << 8 | *byte as u64))
    }

    fn endpoint(&mut self) -> Option<Endpoint> {
        let [kind, address, number, zero] = [(); 4].map(|()| self.take(1));
        let endpoint =
            Endpoint { kind: kind? as u8, address: address? as u8, number: number? as u8, packet: self.take(2)? };
        (endpoint.kind <= 3 && zero? == 0).then_some(endpoint)
    }

    fn request(&mut self, endpoints: &[Endpoint]) -> Option<Request> {
        let (record, direction, setup) = (self.take(1)? as usize, self.take(1)? as u8, self.take(6)?);
        let request = Request { record, direction, setup, address: self.take(8)?, length: self.take(4)? };
        let control = endpoints.get(record).is_some_and(|endpoint| endpoint.kind == 0);
        (direction <= 1 && (control || setup == 0)).then_some(request)
    }
}

fn read(sheet: &[u8]) -> Option<(Vec<Endpoint>, Vec<Request>)> {
    let mut bytes = Bytes(sheet);
    let count = bytes.take(2).filter(|count| *count <= 8)?;
    let endpoints: Vec<Endpoint> = (0..count).map(|_| bytes.endpoint()).collect::<Option<_>>()?;
    let count = bytes.take(2).filter(|count| *count <= 64)?;
    let requests = (0..count).map(|_| bytes.request(&endpoints)).collect::<Option<_>>()?;
    bytes.0.is_empty().then_some((endpoints, requests))
}

/// The answer and the value after it of one call.
fn call_on(replica: &mut Replica, record: Record) -> (u8, u64) {
    let block = replica.block(&record.bytes()).unwrap();
    let words: Vec<u64> =
        block.lines().next().unwrap().split(' ').skip(3).map_while(|word| word.parse().ok()).collect();
    (words[0] as u8, words.get(1).copied().unwrap_or(0))
}

pub fn listing(sheet: &[u8]) -> String {
    let Some((endpoints, requests)) = read(sheet) else { return "bad sheet\n".into() };
    let mut replica = Replica::default();
    call_on(&mut replica, opening(16, 8, 1, 16384, 1, AREAS));
    call_on(&mut replica, Record::new(call::START, &[], &[]));
    for reading in [0, 0x1000, 0, 0, 0, 0] {
        call_on(&mut replica, Record::new(call::STEP, &[], &[reading]));
    }
    let (mut out, mut slots) = (String::new(), Vec::new());
    for (i, e) in endpoints.iter().enumerate() {
        let asked = Record::new(call::ENDPOINT, &[e.kind, e.address, e.number], &[e.packet]);
        let (number, slot) = call_on(&mut replica, asked);
        slots.push((number == answer::DONE).then_some(slot as u8));
        out += &format!("E {i} {number}\n");
    }
    for (i, r) in requests.iter().enumerate() {
        // a record that is not there is a slot that is not open
        let slot = slots.get(r.record).copied().flatten().unwrap_or(255);
        let kind = endpoints.get(r.record).map_or(0, |endpoint| endpoint.kind);
        let asked = Record::new(call::SUBMIT, &[slot, kind, r.direction], &[r.setup, r.address, r.length, 0]);
        let (number, id) = call_on(&mut replica, asked);
        out += &format!("R {i} {number} {id}\n");
        if number == answer::DONE {
            let flight = replica.controller.as_ref().unwrap().flight(slot as usize).unwrap();
            for place in flight.places {
                let w = replica.rows.pool[place];
                out += &format!("D {place} {:08x} {:08x}", w[2], w[0]);
                w[3..8].iter().for_each(|slot| out += &format!(" {slot:08x}"));
                out.push('\n');
            }
        }
    }
    out
}
