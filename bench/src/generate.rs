//! Traces by a generator that always starts alike, and both ways to write them.

use crate::record::Record;
use std::iter;

/// Numbers that look random: xorshift of 64 bits.
pub struct Random {
    state: u64,
}

/// How large the fields of a trace are.
#[derive(Clone, Copy, Debug)]
pub enum Sizes {
    /// at most 100, but for one of sixteen
    Small,
    /// each count of bits, and the field's maximum, as often as any other
    All,
}

impl Random {
    /// Any state but 0, which would stay 0.
    pub fn new(state: u64) -> Random {
        Random { state }
    }

    fn bits(&mut self) -> u64 {
        self.state ^= self.state << 13;
        self.state ^= self.state >> 7;
        self.state ^= self.state << 17;
        // The low bits alone are weak.
        self.state.wrapping_mul(0x2545_f491_4f6c_dd1d) >> 24
    }

    /// A number below `end`.
    pub fn below(&mut self, end: usize) -> usize {
        (self.bits() % end as u64) as usize
    }

    /// One of the choices.
    pub fn choose<T: Copy>(&mut self, choices: &[T]) -> T {
        choices[self.below(choices.len())]
    }

    /// A field from `least` to `most`.
    fn field(&mut self, sizes: Sizes, least: u32, most: u32) -> u32 {
        match sizes {
            Sizes::Small if self.below(16) > 0 => least + self.below(100.min(most as usize)) as u32,
            _ => self.of_any_size(least, most),
        }
    }

    fn of_any_size(&mut self, least: u32, most: u32) -> u32 {
        let width = most.ilog2() + 1;
        let bits = self.below(width as usize + 2) as u32;
        if bits > width {
            return most;
        }
        let number = self.below(1 << bits) as u32;
        number.clamp(least, most)
    }

    pub fn record(&mut self, sizes: Sizes) -> Record {
        match self.below(20) {
            0..8 => Record::Call {
                function: self.field(sizes, 1, 65_535) as u16,
            },
            8..14 => Record::Return,
            14 => Record::Unwind {
                count: self.field(sizes, 1, 4_095) as u16,
            },
            _ => Record::Sample {
                step: self.field(sizes, 0, u32::MAX),
                weight: self.field(sizes, 1, u32::MAX),
                site: self.field(sizes, 0, 65_535) as u16,
                region: self.field(sizes, 0, 63) as u8,
            },
        }
    }

    pub fn records(&mut self, sizes: Sizes, count: usize) -> Vec<Record> {
        (0..count).map(|_| self.record(sizes)).collect()
    }
}

/// A trace as bytes. Each number has `spare` groups more than it needs, as far as five groups allow.
pub fn as_bytes(records: &[Record], spare: usize) -> Vec<u8> {
    let mut bytes = Vec::new();
    for record in records {
        bytes.push(match record {
            Record::Call { .. } => 1,
            Record::Return => 2,
            Record::Unwind { .. } => 3,
            Record::Sample { .. } => 4,
        });
        for field in fields(record) {
            push_number(&mut bytes, field, spare);
        }
    }
    bytes
}

fn push_number(bytes: &mut Vec<u8>, number: u32, spare: usize) {
    let needed = (number | 1).ilog2() as usize / 7 + 1;
    let count = 5.min(needed + spare);
    for group in 0..count {
        let followed = if group + 1 < count { 128 } else { 0 };
        bytes.push((number >> (7 * group)) as u8 & 127 | followed);
    }
}

/// A trace as text. Each number has `spare` zeros in front, as far as ten digits allow, and each line as many empty ones behind it.
pub fn as_text(records: &[Record], spare: usize) -> Vec<u8> {
    let mut text = Vec::new();
    for record in records {
        text.extend_from_slice(match record {
            Record::Call { .. } => b"call",
            Record::Return => b"back",
            Record::Unwind { .. } => b"unwind",
            Record::Sample { .. } => b"sample",
        });
        for field in fields(record) {
            text.push(b' ');
            push_digits(&mut text, field, spare);
        }
        text.extend(iter::repeat_n(b'\n', spare + 1));
    }
    text
}

fn push_digits(text: &mut Vec<u8>, number: u32, spare: usize) {
    let digits = number.to_string();
    let zeros = spare.min(10 - digits.len());
    text.extend(iter::repeat_n(b'0', zeros));
    text.extend_from_slice(digits.as_bytes());
}

fn fields(record: &Record) -> Vec<u32> {
    match *record {
        Record::Call { function } => vec![function.into()],
        Record::Return => vec![],
        Record::Unwind { count } => vec![count.into()],
        Record::Sample {
            step,
            weight,
            site,
            region,
        } => vec![step, weight, site.into(), region.into()],
    }
}
