//! A plain reader of traces written as text.

use crate::record::{Cause, Fault, Reader, Record};

/// The records of a text.
pub struct TextReader<'a> {
    text: &'a [u8],
    /// where the next line begins; past the text where none is left
    at: usize,
}

impl<'a> TextReader<'a> {
    pub fn new(text: &'a [u8]) -> TextReader<'a> {
        TextReader { text, at: 0 }
    }
}

impl Reader for TextReader<'_> {
    fn next(&mut self) -> Result<Option<Record>, Fault> {
        while let Some(rest) = self.text.get(self.at..) {
            let length = rest
                .iter()
                .position(|&byte| byte == b'\n')
                .unwrap_or(rest.len());
            if length > 0 {
                let record = record(&rest[..length]).map_err(|cause| Fault {
                    cause,
                    place: self.at,
                })?;
                self.at += length + 1;
                return Ok(Some(record));
            }
            self.at += 1;
        }
        Ok(None)
    }
}

/// The record of a line that is not empty.
fn record(line: &[u8]) -> Result<Record, Cause> {
    let mut words = line.split(|&byte| byte == b' ');
    match words.next() {
        Some(b"call") => {
            let [function] = fields(words)?;
            Record::call(function)
        }
        Some(b"back") => {
            let [] = fields(words)?;
            Ok(Record::Return)
        }
        Some(b"unwind") => {
            let [count] = fields(words)?;
            Record::unwind(count)
        }
        Some(b"sample") => {
            let [step, weight, site, region] = fields(words)?;
            Record::sample(step, weight, site, region)
        }
        _ => Err(Cause::UnknownKind),
    }
}

/// The words as `N` fields, from the left, and no word more.
fn fields<'a, const N: usize>(
    mut words: impl Iterator<Item = &'a [u8]>,
) -> Result<[u32; N], Cause> {
    let mut fields = [0; N];
    for field in &mut fields {
        *field = number(words.next().ok_or(Cause::CutShort)?)?;
    }
    match words.next() {
        None => Ok(fields),
        Some(_) => Err(Cause::BadField),
    }
}

/// A number of at most ten digits and 32 bits. That all are digits is looked at first.
fn number(word: &[u8]) -> Result<u32, Cause> {
    if word.is_empty() || !word.iter().all(u8::is_ascii_digit) {
        return Err(Cause::BadField);
    }
    if word.len() > 10 {
        return Err(Cause::TooLarge);
    }
    let value = word
        .iter()
        .fold(0, |value, digit| 10 * value + u64::from(digit - b'0'));
    u32::try_from(value).map_err(|_| Cause::TooLarge)
}
