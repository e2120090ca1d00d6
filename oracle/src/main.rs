//! 000 as an oracle. See README.md.
extern crate alloc;
#[macro_use]
extern crate anyhow;
#[macro_use]
extern crate log;

mod backend;
mod compare;
mod err;
mod generate;
mod regs;
mod replica;
mod scripts;
mod sheet;
mod tags;

use std::io::{Read, Write};
use std::ptr::NonNull;

pub use backend::kmod::osal;
use replica::Replica;

/// Names of the crate's root that 000 uses.
pub type Mmio = NonNull<u8>;

pub struct DeviceAddressInfo {
    pub port_speed: usb_if::host::hub::Speed,
}

/// One test at a time has 000's memory and registers.
#[cfg(test)]
static ALONE: std::sync::Mutex<()> = std::sync::Mutex::new(());

const USAGE: &str = "usage: oracle < LOG, or oracle and one of
  compare SEED SCRIPTS STEPS KEPT-LOG PORT..   call scripts on both sides, compared after every call
  chunks                                       requests of one to six chunks, as a log
  departures                                   each listed departure: its fewest calls, repaired and as 000 does them
  fixed                                        the fixed list, as a log
  incident                                     the double count, as a log
  incident published                           the same with two more port changes
  leaves                                       000's leaves against 01's formulas
  leaves RECORDS LINES                         what the port's leaf_checks read and printed against 000's leaves
  probes                                       what 000 does where no call shows it
  replies                                      replies of three descriptors with every mix of tokens, as a log
  sheet < SHEET                                the listing of a job sheet
  tags                                         the repairs that can be left out
  waits                                        the longest waits that 01 allows, as a log
NOREPAIR=TAG,.. leaves repairs out; ORIGINAL, at build time, is where the published files are.";

fn main() {
    // A function of 000 may run on a thread of its own; a panic anywhere ends the program.
    let usual = std::panic::take_hook();
    std::panic::set_hook(Box::new(move |info| {
        usual(info);
        std::process::exit(101);
    }));
    if let Ok(tag) = std::env::var("NOREPAIR") {
        tags::leave_out(&tag);
    }
    let words: Vec<String> = std::env::args().skip(1).collect();
    match words.iter().map(|word| word.as_str()).collect::<Vec<_>>()[..] {
        [] => replay(),
        ["compare", seed, scripts, steps, keep, ref port @ ..] => compare(seed, scripts, steps, keep, port),
        ["fixed"] => std::io::stdout().write_all(&scripts::fixed_log()).unwrap(),
        ["incident"] => write_log(scripts::double_count()),
        ["incident", "published"] => write_log(scripts::double_count_published()),
        ["chunks"] => write_log(scripts::chunk_edges()),
        ["replies"] => write_log(scripts::reply_edges()),
        ["waits"] => write_log(scripts::long_waits()),
        ["departures"] => scripts::show_departures(),
        ["probes"] => backend::kmod::ehci::probes::run(),
        ["tags"] => tags::repairs().iter().for_each(|tag| println!("{tag}")),
        ["leaves"] => backend::kmod::ehci::leaves::run(),
        ["leaves", records, lines] => hold(records, lines),
        ["sheet"] => list(),
        _ => {
            eprintln!("{USAGE}");
            std::process::exit(2);
        }
    }
}

fn write_log(calls: Vec<blocks::record::Record>) {
    std::io::stdout().write_all(&scripts::log_of(&calls)).unwrap();
}

/// A log on standard input, its blocks on standard output, the tags on standard error.
fn replay() {
    let (mut input, mut output) = (std::io::stdin().lock(), std::io::stdout().lock());
    let mut replica = Replica::default();
    loop {
        let mut record = Vec::new();
        input.by_ref().take(blocks::record::SIZE as u64).read_to_end(&mut record).unwrap();
        if record.is_empty() {
            break;
        }
        let block = replica.block(&record);
        let (Ok(text) | Err(text)) = &block;
        output.write_all(text.as_bytes()).unwrap();
        output.flush().unwrap();
        if block.is_err() {
            break;
        }
    }
    eprint!("{}", tags::report());
}

fn number(word: &str) -> u64 {
    word.parse().unwrap_or_else(|_| {
        eprintln!("oracle: {word} is no number");
        std::process::exit(2);
    })
}

/// 0: equal; 1: a difference; 3: equal, but some kind and answer was never met.
fn compare(seed: &str, scripts: &str, steps: &str, keep: &str, port: &[&str]) {
    let outcome = compare::run(compare::Options {
        seed: number(seed),
        scripts: number(scripts),
        steps: number(steps),
        port: port.iter().map(|word| word.to_string()).collect(),
        keep: keep.to_string(),
    });
    std::process::exit(match outcome {
        compare::Outcome::Equal => 0,
        compare::Outcome::Differs => 1,
        compare::Outcome::Poor => 3,
    });
}

/// 0: equal; 1: a difference, or nothing that is held; 2: a file that cannot be read.
fn hold(records: &str, lines: &str) {
    let read = |name: &str| {
        std::fs::read(name).unwrap_or_else(|error| {
            eprintln!("oracle: {name} cannot be read: {error}");
            std::process::exit(2);
        })
    };
    if !backend::kmod::ehci::leaves::hold(&read(records), &String::from_utf8_lossy(&read(lines))) {
        std::process::exit(1);
    }
}

fn list() {
    let mut sheet = Vec::new();
    std::io::stdin().read_to_end(&mut sheet).unwrap();
    print!("{}", sheet::listing(&sheet));
    eprint!("{}", tags::report());
}
