//! Every place where 000 and document 01 part, by the tag of docs/DIFFERENCES.md, and how often each was met.
use std::collections::BTreeMap;
use std::sync::Mutex;

#[derive(Clone, Copy, PartialEq, Eq)]
pub enum Sort {
    /// 000 does something else, and it is repaired on 000's side.
    Departure,
    /// 000 has no such call, check or state: the driver says what 01 says.
    Rule,
    /// The call is outside the domain on which 01 wants the two to be equal.
    Outside,
}

use Sort::{Departure, Outside, Rule};

pub const TAGS: [(&str, Sort, &str); 39] = [
    ("K1", Departure, "a head's overlay stands at byte 32: its words are read by name"),
    ("K2", Departure, "an advance counted again after a port change: not counted, ring dropped"),
    ("K3", Departure, "an advance counted that was acknowledged before the ring: not counted, ring dropped"),
    ("K4", Departure, "a USBCMD write that is no ring keeps 0x40: taken out"),
    ("N1", Departure, "an unlink waits for two advances: one is taken off"),
    ("N2", Departure, "a packet size below 8 raised at opening: the one asked for is put into the head"),
    ("N3", Departure, "the endpoint takes a request of another kind: its handle is asked"),
    ("N4", Departure, "the handle asks the kind before busy and isochronous: the endpoint is asked"),
    ("N5", Departure, "a wait has 1,000,000 reads: it ends at the W-th"),
    ("N6", Departure, "set address or packet size in flight, or an address above 127: refused"),
    ("N7", Departure, "bring-up with a request in flight: refused"),
    ("N8", Departure, "port power goes to every port: the others' writes are dropped"),
    ("N10", Departure, "submit before bring-up: refused"),
    ("N12", Departure, "no room is an error without a number: 6"),
    ("N13", Departure, "USBCMD is read after a ring: left out"),
    ("N15", Departure, "an isochronous endpoint can be made: refused"),
    ("N16", Departure, "an endpoint can be dropped in flight: refused"),
    ("N20", Departure, "memory is gone after freeing: its words are kept, a closed head is zeroed"),
    ("N22", Departure, "every alternate ends: an In request's lead to a descriptor put at place D"),
    ("N23", Departure, "a short reply waits for the descriptors after it: they are hidden while 000 looks"),
    ("N24", Departure, "a chunk may end inside a packet: the working limit is taken for the limit"),
    ("N26", Departure, "the overlay token restarts at 0: the toggle that the last collect was given is put into it"),
    ("N27", Departure, "any of bits 3 to 6 is an error: 3 to 5 are taken out while 000 looks, where 6 is clear"),
    ("C", Departure, "more than one chunk at a limit other than 20480: the split is replaced"),
    ("P4", Departure, "an unplugged port is Uninit with its first reading: shown with the second"),
    ("N11", Outside, "a buffer past 2^32, or a control request above 16384 bytes: refused"),
    ("N17", Outside, "a controller without ports: refused"),
    ("N25", Outside, "a bulk or interrupt packet size above the limit: refused"),
    ("setup", Outside, "a recipient above 3, which only the stand-in's type holds"),
    ("01-range", Outside, "a value outside 01's other ranges: opening, open endpoint, the setup's direction bit"),
    ("01-before", Rule, "a call before a first accepted opening"),
    ("01-slot", Rule, "a slot that is not open, or no closed slot"),
    ("01-close", Rule, "close"),
    ("01-writeback", Rule, "writeback, which is the controller's own write"),
    ("01-step", Rule, "a step with none begun"),
    ("01-restart", Rule, "a start over one already begun, or an opening over it"),
    ("01-port", Rule, "a port that is not there"),
    ("02-halt", Rule, "clear-halt on an open slot"),
    ("02-retried", Rule, "how many descriptors have bit 3, where that is not 0"),
];

struct Met {
    off: Vec<&'static str>,
    counts: BTreeMap<&'static str, u64>,
}

static MET: Mutex<Met> = Mutex::new(Met { off: Vec::new(), counts: BTreeMap::new() });

fn name_of(tag: &str) -> &'static str {
    let Some((name, ..)) = TAGS.iter().find(|(name, ..)| *name == tag) else {
        eprintln!("oracle: there is no tag {tag}");
        std::process::exit(2);
    };
    name
}

/// Leaves these repairs out, names by commas, and no other.
pub fn leave_out(tags: &str) {
    let names = tags.split(',').filter(|tag| !tag.is_empty()).map(name_of);
    MET.lock().unwrap().off = names.collect();
}

/// The repairs that can be left out.
pub fn repairs() -> Vec<&'static str> {
    let repair =
        |(tag, sort, _): &(&'static str, Sort, &str)| *sort == Departure || matches!(*tag, "N11" | "N17" | "N25");
    TAGS.iter().filter(|entry| repair(entry)).map(|(tag, ..)| *tag).collect()
}

/// Counts a departure, and says whether it is to be repaired.
pub fn repaired(tag: &'static str) -> bool {
    let mut met = MET.lock().unwrap();
    *met.counts.entry(name_of(tag)).or_default() += 1;
    !met.off.contains(&tag)
}

/// Whether this repair is made, without counting.
pub fn stands(tag: &str) -> bool {
    !MET.lock().unwrap().off.contains(&tag)
}

/// Counts a rule that is 01's alone.
pub fn rule(tag: &'static str) {
    repaired(tag);
}

pub fn count(tag: &str) -> u64 {
    MET.lock().unwrap().counts.get(tag).copied().unwrap_or(0)
}

/// How many calls were answered without 000: it has no such call, check or state.
pub fn without_original() -> u64 {
    let tags = [
        "N6",
        "N7",
        "N10",
        "N11",
        "N15",
        "N16",
        "N17",
        "N25",
        "01-range",
        "01-before",
        "01-slot",
        "01-writeback",
        "01-step",
        "01-port",
        "02-halt",
    ];
    tags.into_iter().map(count).sum()
}

/// The tags that were met, one to a line.
pub fn report() -> String {
    let mut out = String::new();
    for (sort, title) in [
        (Departure, "departures of 000, repaired on its side"),
        (Outside, "outside the domain of the runs"),
        (Rule, "said by 01 and 02 alone, 000 has nothing like it"),
    ] {
        out += &format!("{title}:\n");
        for (tag, of, text) in TAGS {
            if of == sort && count(tag) > 0 {
                out += &format!("  {:>9}  {tag:<12} {text}\n", count(tag));
            }
        }
    }
    out
}
