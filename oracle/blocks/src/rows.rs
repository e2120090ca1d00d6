//! The words that a log's program keeps, and the lines for those that a call changed.
use std::fmt::Write;

#[derive(Clone, PartialEq, Eq)]
pub struct Rows {
    /// 256 descriptors at most, and the shared one after the last.
    pub pool: [[u32; 13]; 257],
    pub heads: [[u32; 17]; 33],
    pub frames: [u32; 1024],
    pub setups: [[u8; 8]; 32],
}

impl Rows {
    pub const BLANK: Self =
        Self { pool: [[0; 13]; 257], heads: [[0; 17]; 33], frames: [0; 1024], setups: [[0; 8]; 32] };

    /// Lines P, H, F and S for what differs from `before`.
    pub fn changes(&self, before: &Self, out: &mut String) {
        for (place, words) in self.pool.iter().enumerate() {
            if *words != before.pool[place] {
                write!(out, "P {place}").unwrap();
                words.iter().for_each(|word| write!(out, " {word:08x}").unwrap());
                out.push('\n');
            }
        }
        for (place, words) in self.heads.iter().enumerate() {
            for (i, word) in words.iter().enumerate() {
                if *word != before.heads[place][i] {
                    writeln!(out, "H {place} {i} {word:08x}").unwrap();
                }
            }
        }
        self.runs(before, out);
        for (slot, bytes) in self.setups.iter().enumerate() {
            if *bytes != before.setups[slot] {
                write!(out, "S {slot} ").unwrap();
                bytes.iter().for_each(|byte| write!(out, "{byte:02x}").unwrap());
                out.push('\n');
            }
        }
    }

    /// The longest runs of changed frame entries with one value.
    fn runs(&self, before: &Self, out: &mut String) {
        let changed = |i: usize| self.frames[i] != before.frames[i];
        let mut first = 0;
        while first < 1024 {
            let value = self.frames[first];
            let mut after = first + 1;
            if changed(first) {
                while after < 1024 && changed(after) && self.frames[after] == value {
                    after += 1;
                }
                writeln!(out, "F {first} {} {value:08x}", after - 1).unwrap();
            }
            first = after;
        }
    }

    /// Takes the lines of a block over: what a reader of the block knows.
    pub fn read(&mut self, block: &str) {
        for line in block.lines() {
            let words: Vec<&str> = line.split(' ').collect();
            let place = |i: usize| words[i].parse::<usize>().unwrap();
            let value = |i: usize| u32::from_str_radix(words[i], 16).unwrap();
            match words[0] {
                "P" => self.pool[place(1)] = std::array::from_fn(|i| value(2 + i)),
                "H" => self.heads[place(1)][place(2)] = value(3),
                "F" => self.frames[place(1)..=place(2)].fill(value(3)),
                "S" => {
                    let byte = |i: usize| u8::from_str_radix(&words[2][2 * i..2 * i + 2], 16).unwrap();
                    self.setups[place(1)] = std::array::from_fn(byte);
                }
                _ => {}
            }
        }
    }
}
