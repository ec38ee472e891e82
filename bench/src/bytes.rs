//! A plain reader of traces written as bytes.

use crate::record::{Cause, Fault, Reader, Record};

/// The records of some bytes.
pub struct ByteReader<'a> {
    bytes: &'a [u8],
    /// where the next record begins
    at: usize,
}

/// The bytes that a record has not taken yet.
struct Fields<'a> {
    rest: &'a [u8],
}

impl<'a> ByteReader<'a> {
    pub fn new(bytes: &'a [u8]) -> ByteReader<'a> {
        ByteReader { bytes, at: 0 }
    }
}

impl Reader for ByteReader<'_> {
    fn next(&mut self) -> Result<Option<Record>, Fault> {
        let Some((&kind, rest)) = self.bytes[self.at..].split_first() else {
            return Ok(None);
        };
        let mut fields = Fields { rest };
        match fields.record(kind) {
            Ok(record) => {
                self.at = self.bytes.len() - fields.rest.len();
                Ok(Some(record))
            }
            Err(cause) => Err(Fault {
                cause,
                place: self.at,
            }),
        }
    }
}

impl Fields<'_> {
    fn record(&mut self, kind: u8) -> Result<Record, Cause> {
        match kind {
            1 => Record::call(self.number()?),
            2 => Ok(Record::Return),
            3 => Record::unwind(self.number()?),
            4 => Record::sample(
                self.number()?,
                self.number()?,
                self.number()?,
                self.number()?,
            ),
            _ => Err(Cause::UnknownKind),
        }
    }

    /// A number in groups of seven bits, the lowest first; a fifth group has the upper four of 32 bits.
    fn number(&mut self) -> Result<u32, Cause> {
        let mut value = 0;
        for shift in [0, 7, 14, 21] {
            let byte = self.byte()?;
            value |= u32::from(byte & 127) << shift;
            if byte < 128 {
                return Ok(value);
            }
        }
        match self.byte()? {
            last @ 0..=15 => Ok(value | u32::from(last) << 28),
            _ => Err(Cause::TooLarge),
        }
    }

    fn byte(&mut self) -> Result<u8, Cause> {
        let (&byte, rest) = self.rest.split_first().ok_or(Cause::CutShort)?;
        self.rest = rest;
        Ok(byte)
    }
}
