//! A log on 000: for each record the block that `replay` would write.
use std::collections::BTreeMap;
use std::fmt::Write;

use blocks::record::{Record, call};
use blocks::rows::Rows;

use crate::backend::kmod::ehci::controller::{Asked, Controller, Reply, Settings, answer};
use crate::regs::Access;
use crate::tags;

pub struct Replica {
    pub controller: Option<Controller>,
    pub rows: Rows,
    /// The rows as the lines printed so far say.
    told: Rows,
    ports: Vec<u8>,
    records: u64,
    /// Calls by kind and answer.
    pub met: BTreeMap<String, u64>,
}

impl Default for Replica {
    fn default() -> Self {
        Self {
            controller: None,
            rows: Rows::BLANK,
            told: Rows::BLANK,
            ports: Vec::new(),
            records: 0,
            met: BTreeMap::new(),
        }
    }
}

impl Replica {
    /// The block of a record, or the line for a bad one.
    pub fn block(&mut self, bytes: &[u8]) -> Result<String, String> {
        let Some(record) = Record::read(bytes) else {
            *self.met.entry("bad record".into()).or_default() += 1;
            return Err(format!("bad record {}\n", self.records));
        };
        let before = self.rows.clone();
        let opened = self.controller.is_some();
        let reply = self.call(&record);
        self.note(&record, &reply, opened);
        let opening = record.number == call::OPEN && reply.answer == answer::DONE;
        let mut out = format!("C {} {} {}", self.records, record.number, reply.answer);
        reply.values.iter().for_each(|value| write!(out, " {value}").unwrap());
        out.push('\n');
        if let Some(controller) = &self.controller {
            controller.show(&mut self.rows);
            self.rows.changes(&before, &mut out);
            self.told.read(&out);
            assert!(self.told == self.rows, "what was printed is not what 000 has in its memory");
            let ports = controller.ports();
            for (i, state) in ports.iter().enumerate() {
                if opening || *state != self.ports[i] {
                    writeln!(out, "U {} {state}", i + 1).unwrap();
                }
            }
            self.ports = ports;
            out += &controller.registers();
            out.push('\n');
        }
        for access in reply.accesses {
            match access {
                Access::Write(offset, value) => writeln!(out, "W {offset:02x} {value:08x}").unwrap(),
                Access::Read(offset, value) => writeln!(out, "R {offset:02x} {value:08x}").unwrap(),
                Access::Wait(_) => unreachable!(),
            }
        }
        out.push_str(".\n");
        self.records += 1;
        Ok(out)
    }

    /// The lines so far are forgotten and the next record is number 0, as in a program that is started anew.
    pub fn restart(&mut self) {
        self.controller = None;
        self.rows = Rows::BLANK;
        self.told = Rows::BLANK;
        self.ports.clear();
        self.records = 0;
    }

    fn open(&mut self, settings: Settings) -> Reply {
        if !settings.good() {
            tags::rule("01-range");
            let met = if settings.lacks_place() { ", no place D" } else { "" };
            return Reply::only(answer::INVALID).met(met);
        }
        if settings.ports == 0 && tags::repaired("N17") {
            return Reply::only(answer::INVALID);
        }
        self.controller = None;
        self.controller = Some(Controller::open(settings, &mut self.rows));
        Reply::only(answer::DONE)
    }

    fn call(&mut self, record: &Record) -> Reply {
        let Record { number, b, n } = *record;
        if number == call::OPEN {
            let areas = [n[3], n[4], n[5], n[6]];
            return self.open(Settings {
                descriptors: n[0],
                endpoints: b[0],
                ports: b[1],
                limit: n[1],
                wait: n[2],
                areas,
            });
        }
        let rows = &mut self.rows;
        let Some(c) = &mut self.controller else {
            tags::rule("01-before");
            return Reply::only(answer::INVALID);
        };
        match number {
            call::START => c.start_bring_up(),
            call::STEP => c.bring_up_step(n[0] as u32),
            call::ADDRESS => c.allocate_address(),
            call::ENDPOINT => c.open_endpoint(b[0], b[1], b[2], n[0] as u16),
            call::CLOSE => c.close(b[0], rows),
            call::SET_ADDRESS => c.set_address(b[0], b[1]),
            call::SET_PACKET => c.set_packet_size(b[0], b[1]),
            call::SUBMIT => {
                let setup = n[0].to_le_bytes()[..6].try_into().unwrap();
                let asked = Asked { kind: b[1], incoming: b[2] == 1, setup, address: n[1], length: n[2] };
                c.submit(b[0], &asked, n[3] as u32)
            }
            call::WRITEBACK => c.writeback(n[0], n[1] as u32),
            call::CANCEL => c.cancel(b[0], n[0], n[1] as u32, n[2] as u32),
            call::COLLECT => c.collect(b[0], n[0], n[1] as u32, n[2] as u32, n[3] as u32, rows),
            call::ACKNOWLEDGE => c.acknowledge(n[0] as u32, n[1] as u32, b[0] == 1, b[1] == 1),
            call::DRAIN => c.drain(n[0] as u32),
            call::REARM => c.rearm(),
            call::ENABLE => c.enable(),
            call::DISABLE => c.disable(),
            call::SCAN => c.start_scan(),
            call::SCAN_STEP => c.scan_step(n[0] as u32),
            call::POWER => c.port_power(b[0], n[0] as u32),
            _ => c.clear_halt(b[0]),
        }
    }

    fn note(&mut self, record: &Record, reply: &Reply, opened: bool) {
        let mut label = format!("{} -> {}", call::NAMES[record.number as usize], reply.answer);
        let value = |i: usize| reply.values[i].as_str();
        if !opened && record.number != call::OPEN {
            label += ", nothing opened";
        } else if reply.answer == answer::DONE {
            label += match record.number {
                call::ACKNOWLEDGE => ["", ", yes"][(value(0) == "1") as usize],
                call::DRAIN => {
                    [", Nothing", ", PortChange", ", TransferActivity", ", Stopped"][value(0).parse::<usize>().unwrap()]
                }
                call::SCAN_STEP => ["", ", Connected", ", Disconnected"][value(2).parse::<usize>().unwrap()],
                _ => "",
            };
        }
        for more in &reply.also {
            *self.met.entry(format!("{label}{more}")).or_default() += 1;
        }
        *self.met.entry(label + reply.met).or_default() += 1;
    }
}
