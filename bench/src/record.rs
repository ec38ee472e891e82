//! Records, faults, and the digest of what a reader reads.

/// One event of a trace.
#[derive(Clone, Copy, Debug, PartialEq, Eq)]
pub enum Record {
    Call {
        function: u16,
    },
    Return,
    Unwind {
        count: u16,
    },
    Sample {
        step: u32,
        weight: u32,
        site: u16,
        region: u8,
    },
}

/// What is wrong with a trace, by its number.
#[derive(Clone, Copy, Debug, PartialEq, Eq)]
pub enum Cause {
    CutShort = 1,
    TooLarge = 2,
    UnknownKind = 3,
    OutOfRange = 4,
    BadField = 5,
}

/// How many causes there are.
pub const CAUSES: usize = 5;

/// Why a trace cannot be read on, and where its record or line begins.
#[derive(Clone, Copy, Debug, PartialEq, Eq)]
pub struct Fault {
    pub cause: Cause,
    pub place: usize,
}

/// Whatever reads the records of a trace, one after the other.
pub trait Reader {
    fn next(&mut self) -> Result<Option<Record>, Fault>;
}

// The fields are checked where a record is made, so that every format has the same ranges.
impl Record {
    pub fn call(function: u32) -> Result<Record, Cause> {
        match u16::try_from(function) {
            Ok(function) if function >= 1 => Ok(Record::Call { function }),
            _ => Err(Cause::OutOfRange),
        }
    }

    pub fn unwind(count: u32) -> Result<Record, Cause> {
        match u16::try_from(count) {
            Ok(count @ 1..=4095) => Ok(Record::Unwind { count }),
            _ => Err(Cause::OutOfRange),
        }
    }

    pub fn sample(step: u32, weight: u32, site: u32, region: u32) -> Result<Record, Cause> {
        match (u16::try_from(site), u8::try_from(region)) {
            (Ok(site), Ok(region @ 0..=63)) if weight >= 1 => Ok(Record::Sample {
                step,
                weight,
                site,
                region,
            }),
            _ => Err(Cause::OutOfRange),
        }
    }

    /// The record as one number, to which each field adds by a factor of its own.
    fn value(self) -> u64 {
        match self {
            Record::Call { function } => 1 + 8 * u64::from(function),
            Record::Return => 2,
            Record::Unwind { count } => 3 + 8 * u64::from(count),
            Record::Sample {
                step,
                weight,
                site,
                region,
            } => {
                4 + 8 * u64::from(step)
                    + 4_099 * u64::from(weight)
                    + 2_097_169 * u64::from(site)
                    + 1_073_741_827 * u64::from(region)
            }
        }
    }
}

/// A sum with one more part. What was there is turned by a factor, so that the order of the parts counts.
fn mixed(sum: u64, part: u64) -> u64 {
    sum.wrapping_mul(31).wrapping_add(part)
}

/// What was read: the digest of all of it, and the fault that ended it.
pub struct Digest {
    pub sum: u64,
    pub fault: Option<Fault>,
}

/// The digest of all that the reader reads.
pub fn digest(mut reader: impl Reader) -> Digest {
    let mut sum = 0;
    loop {
        match reader.next() {
            Ok(Some(record)) => sum = mixed(sum, record.value()),
            Ok(None) => return Digest { sum, fault: None },
            Err(fault) => {
                return Digest {
                    sum: mixed(mixed(sum, fault.cause as u64), fault.place as u64),
                    fault: Some(fault),
                };
            }
        }
    }
}
