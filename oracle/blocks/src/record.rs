//! A record of 64 bytes: the call's number, seven small parameters, seven 64-bit numbers, little-endian.

pub const SIZE: usize = 64;

pub mod call {
    pub const OPEN: u8 = 1;
    pub const START: u8 = 2;
    pub const STEP: u8 = 3;
    pub const ADDRESS: u8 = 4;
    pub const ENDPOINT: u8 = 5;
    pub const CLOSE: u8 = 6;
    pub const SET_ADDRESS: u8 = 7;
    pub const SET_PACKET: u8 = 8;
    pub const SUBMIT: u8 = 9;
    pub const WRITEBACK: u8 = 10;
    pub const CANCEL: u8 = 11;
    pub const COLLECT: u8 = 12;
    pub const ACKNOWLEDGE: u8 = 13;
    pub const DRAIN: u8 = 14;
    pub const REARM: u8 = 15;
    pub const ENABLE: u8 = 16;
    pub const DISABLE: u8 = 17;
    pub const SCAN: u8 = 18;
    pub const SCAN_STEP: u8 = 19;
    pub const POWER: u8 = 20;
    pub const CLEAR_HALT: u8 = 21;
    pub const LAST: u8 = 21;

    pub const NAMES: [&str; 22] = [
        "",
        "open",
        "start bring-up",
        "bring-up step",
        "allocate address",
        "open endpoint",
        "close",
        "set address",
        "set packet size",
        "submit",
        "writeback",
        "cancel",
        "collect",
        "acknowledge",
        "drain",
        "rearm",
        "enable",
        "disable",
        "start scan",
        "scan step",
        "port power",
        "clear-halt",
    ];
}

#[derive(Clone, Copy, PartialEq, Eq)]
pub struct Record {
    pub number: u8,
    pub b: [u8; 7],
    pub n: [u64; 7],
}

/// For each call the small parameters that it uses, each with the most that it may be, and its numbers' bits.
const SHAPES: [(&[u8], &[u32]); 22] = [
    (&[], &[]),
    (&[255, 255], &[64, 64, 64, 64, 64, 64, 64]),
    (&[], &[]),
    (&[], &[32]),
    (&[], &[]),
    (&[3, 255, 255], &[16]),
    (&[255], &[]),
    (&[255, 255], &[]),
    (&[255, 255], &[]),
    (&[255, 3, 1], &[48, 64, 64, 32]),
    (&[], &[64, 32]),
    (&[255], &[64, 32, 32]),
    (&[255], &[64, 32, 32, 32]),
    (&[1, 1], &[32, 32]),
    (&[], &[32]),
    (&[], &[]),
    (&[], &[]),
    (&[], &[]),
    (&[], &[]),
    (&[], &[32]),
    (&[255], &[32]),
    (&[255], &[]),
];

impl Record {
    pub fn new(number: u8, b: &[u8], n: &[u64]) -> Self {
        let mut record = Self { number, b: [0; 7], n: [0; 7] };
        record.b[..b.len()].copy_from_slice(b);
        record.n[..n.len()].copy_from_slice(n);
        record
    }

    /// A record as it stands in the log, or `None` for a bad one.
    pub fn read(bytes: &[u8]) -> Option<Self> {
        if bytes.len() != SIZE || !(1..=call::LAST).contains(&bytes[0]) {
            return None;
        }
        let number = |i: usize| u64::from_le_bytes(bytes[8 + 8 * i..16 + 8 * i].try_into().unwrap());
        let record = Self { number: bytes[0], b: bytes[1..8].try_into().unwrap(), n: std::array::from_fn(number) };
        record.fits().then_some(record)
    }

    fn fits(&self) -> bool {
        let (most, bits) = SHAPES[self.number as usize];
        let small = |i: usize| self.b[i] <= most.get(i).copied().unwrap_or(0);
        let number = |i: usize| match bits.get(i) {
            None => self.n[i] == 0,
            Some(64) => true,
            Some(bits) => self.n[i] >> bits == 0,
        };
        (0..7).all(|i| small(i) && number(i))
    }

    pub fn bytes(&self) -> [u8; SIZE] {
        let mut bytes = [0; SIZE];
        bytes[0] = self.number;
        bytes[1..8].copy_from_slice(&self.b);
        for (i, n) in self.n.iter().enumerate() {
            bytes[8 + 8 * i..16 + 8 * i].copy_from_slice(&n.to_le_bytes());
        }
        bytes
    }

    /// This record with one thing wrong, in each way that there is for its call.
    pub fn spoilings(&self) -> Vec<Self> {
        let (most, bits) = SHAPES[self.number as usize];
        let mut out = [0, call::LAST + 1, 255].map(|number| Self { number, ..*self }).to_vec();
        for i in 0..7 {
            let mut record = *self;
            match most.get(i) {
                Some(255) => {}
                limit => {
                    record.b[i] = limit.map_or(1, |most| most + 1);
                    out.push(record);
                }
            }
            let mut record = *self;
            match bits.get(i) {
                Some(64) => {}
                limit => {
                    record.n[i] = 1 << limit.unwrap_or(&0);
                    out.push(record);
                }
            }
        }
        out
    }
}
