//! The proved readers of traces side by side with plain ones: first that both answer the same, then how long they take.

mod agree;
mod bytes;
mod generate;
mod proved;
mod record;
mod text;
mod timing;

use bytes::ByteReader;
use generate::{as_bytes, as_text};
use record::{Digest, Record, digest};
use std::process::ExitCode;
use text::TextReader;

/// A format with its two readers.
struct Format {
    name: &'static str,
    proved: fn(&[u8]) -> u64,
    plain: fn(&[u8]) -> Digest,
    /// writes a trace, with so much more than is needed as the format allows
    write: fn(&[Record], usize) -> Vec<u8>,
}

const FORMATS: [Format; 2] = [
    Format {
        name: "bytes",
        proved: proved::read_bytes,
        plain: |bytes| digest(ByteReader::new(bytes)),
        write: as_bytes,
    },
    Format {
        name: "text",
        proved: proved::read_text,
        plain: |text| digest(TextReader::new(text)),
        write: as_text,
    },
];

fn main() -> ExitCode {
    for format in &FORMATS {
        match agree::check(format) {
            Ok(seen) => seen.print(format),
            Err(difference) => {
                difference.print(format);
                return ExitCode::FAILURE;
            }
        }
    }
    println!();
    timing::print(&FORMATS)
}
