//! Call scripts through 000 and through the port, compared after every call.
use std::io::{BufRead, BufReader, IsTerminal, Write, stderr};
use std::process::{Child, ChildStdin, ChildStdout, Command, Stdio};
use std::time::{Duration, Instant};

use blocks::record::{Record, call};

use crate::generate::{Generator, plain};
use crate::replica::Replica;
use crate::tags::{self, Sort};

pub struct Options {
    pub seed: u64,
    pub scripts: u64,
    pub steps: u64,
    /// The port's program and its words.
    pub port: Vec<String>,
    /// Where a log that ends in a mismatch is left.
    pub keep: String,
}

pub enum Outcome {
    Equal,
    Differs,
    /// Some kind and answer, or some departure, was never met.
    Poor,
}

/// Every kind and answer that a run must meet.
const KINDS: [&str; 120] = [
    "open -> 0",
    "open -> 1",
    "open -> 1, no place D",
    "start bring-up -> 0",
    "start bring-up -> 4",
    "bring-up step -> 0",
    "bring-up step -> 1",
    "bring-up step -> 7",
    "allocate address -> 0",
    "allocate address -> 2",
    "open endpoint -> 0",
    "open endpoint -> 1",
    "open endpoint -> 1, size above the limit",
    "open endpoint -> 2",
    "open endpoint -> 5",
    "close -> 0",
    "close -> 3",
    "close -> 4",
    "set address -> 0",
    "set address -> 1",
    "set address -> 3",
    "set address -> 4",
    "set packet size -> 0",
    "set packet size -> 1, size above the limit",
    "set packet size -> 3",
    "set packet size -> 4",
    "submit -> 0",
    "submit -> 0, whole packets",
    "submit -> 0, whole packets, one chunk by the limit",
    "submit -> 0, whole packets of a size set later",
    "submit -> 0, toggle 1, bulk In",
    "submit -> 0, toggle 1, bulk Out",
    "submit -> 0, toggle 1, interrupt",
    "submit -> 0, toggle 1 of a cancelled request",
    "submit -> 0, toggle 1 of a failed request",
    "submit -> 0, toggle 1 and control",
    "submit -> 0, toggle cleared",
    "submit -> 1",
    "submit -> 3",
    "submit -> 4",
    "submit -> 5",
    "submit -> 6",
    "submit -> 6, room by the limit",
    "submit -> 8",
    "writeback -> 0",
    "writeback -> 1",
    "writeback -> 1, place D",
    "cancel -> 0",
    "cancel -> 3",
    "collect -> 0",
    "collect -> 0, whole packets",
    "collect -> 0, short at once",
    "collect -> 0, short within",
    "collect -> 0, short after an active one",
    "collect -> 0, error after the short one",
    "collect -> 0, one retried",
    "collect -> 0, some retried",
    "collect -> 0, bits 4 and 5 alone",
    "collect -> 0, retried, control",
    "collect -> 0, retried, bulk",
    "collect -> 0, retried, interrupt",
    "collect -> 0, retried setup stage",
    "collect -> 0, retried status stage",
    "collect -> 0, retried and active",
    "collect -> 0, retried and short",
    "collect -> 0, retried after the short one",
    "collect -> 3",
    "collect -> 3, another toggle",
    "collect -> 9",
    "collect -> 9, another toggle",
    "collect -> 9, short",
    "collect -> 9, no unlink for an error of 000's",
    "collect -> 10",
    "collect -> 10, retried",
    "collect -> 11",
    "collect -> 11, after an error of 000's",
    "collect -> 11, retried too",
    "acknowledge -> 0",
    "acknowledge -> 0, yes",
    "drain -> 0, Nothing",
    "drain -> 0, PortChange",
    "drain -> 0, TransferActivity",
    "drain -> 0, Stopped",
    "rearm -> 0",
    "enable -> 0",
    "disable -> 0",
    "start scan -> 0",
    "scan step -> 0",
    "scan step -> 0, Connected",
    "scan step -> 0, Disconnected",
    "scan step -> 1",
    "port power -> 0",
    "port power -> 1",
    "clear-halt -> 0",
    "clear-halt -> 0, toggle 1",
    "clear-halt -> 0, control",
    "clear-halt -> 0, not running",
    "clear-halt -> 3",
    "clear-halt -> 4",
    "bad record",
    "start bring-up -> 1, nothing opened",
    "bring-up step -> 1, nothing opened",
    "allocate address -> 1, nothing opened",
    "open endpoint -> 1, nothing opened",
    "close -> 1, nothing opened",
    "set address -> 1, nothing opened",
    "set packet size -> 1, nothing opened",
    "submit -> 1, nothing opened",
    "writeback -> 1, nothing opened",
    "cancel -> 1, nothing opened",
    "collect -> 1, nothing opened",
    "acknowledge -> 1, nothing opened",
    "drain -> 1, nothing opened",
    "rearm -> 1, nothing opened",
    "enable -> 1, nothing opened",
    "disable -> 1, nothing opened",
    "start scan -> 1, nothing opened",
    "scan step -> 1, nothing opened",
    "port power -> 1, nothing opened",
    "clear-halt -> 1, nothing opened",
];

/// The port's program, one block for each record.
struct Port {
    child: Child,
    input: ChildStdin,
    output: BufReader<ChildStdout>,
}

impl Port {
    fn start(words: &[String]) -> Self {
        let mut command = Command::new(&words[0]);
        command.args(&words[1..]).stdin(Stdio::piped()).stdout(Stdio::piped());
        let mut child = command.spawn().unwrap_or_else(|error| {
            eprintln!("oracle: the port's program {} does not start: {error}", words[0]);
            std::process::exit(2);
        });
        let (input, output) = (child.stdin.take().unwrap(), BufReader::new(child.stdout.take().unwrap()));
        Self { child, input, output }
    }

    fn send(&mut self, bytes: &[u8]) {
        let _ = self.input.write_all(bytes).and_then(|()| self.input.flush());
    }

    /// The lines up to the end of a block, or all there are.
    fn block(&mut self) -> String {
        let mut text = String::new();
        loop {
            let start = text.len();
            if self.output.read_line(&mut text).unwrap_or(0) == 0 || &text[start..] == ".\n" {
                return text;
            }
        }
    }

    /// Everything after its input has ended.
    fn rest(mut self) -> String {
        drop(self.input);
        let mut text = String::new();
        while self.output.read_line(&mut text).unwrap_or(0) > 0 {}
        let _ = self.child.wait();
        text
    }
}

struct Run {
    options: Options,
    replica: Replica,
    port: Option<Port>,
    /// The log since the port was started.
    log: Vec<u8>,
    calls: u64,
    shown: Instant,
}

pub fn run(options: Options) -> Outcome {
    let (began, scripts) = (Instant::now(), options.scripts);
    let mut run =
        Run { options, replica: Replica::default(), port: None, log: Vec::new(), calls: 0, shown: Instant::now() };
    for script in 0..scripts {
        if !run.script(script) {
            return Outcome::Differs;
        }
        run.progress(script + 1);
    }
    if stderr().is_terminal() {
        eprintln!();
    }
    if !run.every_bad_record() {
        return Outcome::Differs;
    }
    run.summary(began)
}

impl Run {
    fn progress(&mut self, script: u64) {
        let due = self.shown.elapsed() > Duration::from_millis(250) || script == self.options.scripts;
        if due && stderr().is_terminal() {
            eprint!("\r{script} of {} scripts, {} calls, no difference", self.options.scripts, self.calls);
            self.shown = Instant::now();
        }
    }

    /// Both sides from the beginning.
    fn restart(&mut self) {
        self.replica.restart();
        self.log.clear();
        self.port = Some(Port::start(&self.options.port));
    }

    /// One opening and the calls after it. False: a difference was printed.
    fn script(&mut self, script: u64) -> bool {
        let mut generator = Generator::new(self.options.seed, script);
        if self.port.is_none() {
            self.restart();
            if !(call::START..=call::LAST).all(|number| self.same(&plain(number, 0).bytes())) {
                return false;
            }
        }
        if !self.same(&generator.opening().bytes()) {
            return false;
        }
        for _ in 0..self.options.steps {
            let record = generator.next(self.replica.controller.as_ref().unwrap());
            if !self.same(&record.bytes()) {
                return false;
            }
        }
        !generator.ends_badly() || self.ends(&generator.bad())
    }

    /// Every call's record wrong in every way, and cut short.
    fn every_bad_record(&mut self) -> bool {
        for record in (1..=call::LAST).map(|number| plain(number, 0)) {
            let wrong = record.spoilings().into_iter().map(|wrong| wrong.bytes().to_vec());
            let cut = [1, 8, 63].map(|length| record.bytes()[..length].to_vec());
            for bytes in wrong.chain(cut) {
                self.restart();
                if !self.ends(&bytes) {
                    return false;
                }
            }
        }
        true
    }

    /// One call on both sides.
    fn same(&mut self, bytes: &[u8]) -> bool {
        self.log.extend_from_slice(bytes);
        let port = self.port.as_mut().unwrap();
        port.send(bytes);
        let Ok(expected) = self.replica.block(bytes) else { panic!("a bad record was drawn: {bytes:x?}") };
        let got = port.block();
        self.calls += 1;
        got == expected || self.differs(&expected, &got)
    }

    /// A bad record on both sides: the line for it and nothing after it, although more was sent.
    fn ends(&mut self, bytes: &[u8]) -> bool {
        self.log.extend_from_slice(bytes);
        let mut port = self.port.take().unwrap();
        port.send(bytes);
        if bytes.len() == blocks::record::SIZE {
            port.send(&Record::new(call::REARM, &[], &[]).bytes());
        }
        let Err(expected) = self.replica.block(bytes) else { panic!("a good record was drawn: {bytes:x?}") };
        let got = port.rest();
        self.calls += 1;
        got == expected || self.differs(&expected, &got)
    }

    fn differs(&self, expected: &str, got: &str) -> bool {
        println!("\nMISMATCH at call {} of this log; the calls up to it:", self.log.len().div_ceil(64) - 1);
        let records: Vec<&[u8]> = self.log.chunks(64).collect();
        for (i, bytes) in records.iter().enumerate().skip(records.len().saturating_sub(12)) {
            println!("  {i:>5} {}", said(bytes));
        }
        print!("000, repaired:\n{expected}port:\n{got}");
        match std::fs::write(&self.options.keep, &self.log) {
            Ok(()) => println!("the log is in {}", self.options.keep),
            Err(error) => println!("the log could not be written to {}: {error}", self.options.keep),
        }
        false
    }

    fn summary(&self, began: Instant) -> Outcome {
        let Options { seed, scripts, steps, .. } = self.options;
        println!(
            "seed {seed}, {scripts} scripts of {steps} steps, {} calls, {:.1?}: no difference",
            self.calls,
            began.elapsed()
        );
        println!("calls by kind and answer:");
        for (label, count) in &self.replica.met {
            println!("  {count:>9}  {label}");
        }
        println!("{} calls answered by 01's rules alone, without 000", tags::without_original());
        print!("{}", tags::report());
        let mut poor = false;
        for kind in KINDS.iter().filter(|kind| !self.replica.met.contains_key(**kind)) {
            println!("never met: {kind}");
            poor = true;
        }
        for (tag, sort, _) in tags::TAGS {
            if sort == Sort::Departure && tags::count(tag) == 0 {
                println!("never met: {tag}");
                poor = true;
            }
        }
        if poor { Outcome::Poor } else { Outcome::Equal }
    }
}

/// A record in words.
fn said(bytes: &[u8]) -> String {
    match Record::read(bytes) {
        Some(r) => format!("{:<16} {:02x?} {:x?}", call::NAMES[r.number as usize], r.b, r.n),
        None => format!("bad record {bytes:02x?}"),
    }
}
