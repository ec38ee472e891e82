//! Both readers of a format over whole and damaged traces: they have to answer the same.

use crate::Format;
use crate::generate::{Random, Sizes};
use crate::record::CAUSES;

const TRACES: usize = 4_000;
const MOST_RECORDS: usize = 12;
const CHANGES: usize = 4;

/// Bytes that mean something in one of the formats, or stand next to one that does.
const TELLING: &[u8] = b"\x00\x01\x02\x03\x04\x05\x0f\x10\x7f\x80\xff\n\r\t /09:abcklsuw";

/// How many inputs were read to their end, and how many ended in each cause.
#[derive(Default)]
pub struct Seen {
    whole: usize,
    faults: [usize; CAUSES],
}

impl Seen {
    pub fn total(&self) -> usize {
        self.whole + self.faults.iter().sum::<usize>()
    }

    pub fn print(&self, format: &Format) {
        let [cut, large, kind, range, field] = self.faults;
        println!(
            "{}: both readers agree on {} inputs: {} read to the end, and by cause 1 to 5: {cut}, {large}, {kind}, {range}, {field}",
            format.name,
            self.total(),
            self.whole
        );
    }
}

/// What two readers answered differently.
pub struct Difference {
    input: Vec<u8>,
    proved: u64,
    plain: u64,
}

impl Difference {
    pub fn print(&self, format: &Format) {
        println!(
            "{}: the proved reader answers {}, the plain one {}, on",
            format.name, self.proved, self.plain
        );
        println!("  {:?}", self.input);
        println!("  \"{}\"", self.input.escape_ascii());
    }
}

/// Reads many short traces by both readers: whole ones, and each with one byte changed, one byte doubled, or its end cut off.
pub fn check(format: &Format) -> Result<Seen, Difference> {
    let mut random = Random::new(0x5eed_0001);
    let mut seen = Seen::default();
    for _ in 0..TRACES {
        let input = short_trace(format, &mut random);
        compare(format, &input, &mut seen)?;
        for _ in 0..CHANGES {
            compare(format, &changed(&input, &mut random), &mut seen)?;
            compare(format, &doubled(&input, &mut random), &mut seen)?;
            compare(format, &cut(&input, &mut random), &mut seen)?;
        }
    }
    Ok(seen)
}

fn short_trace(format: &Format, random: &mut Random) -> Vec<u8> {
    let sizes = random.choose(&[Sizes::Small, Sizes::All]);
    let count = random.below(MOST_RECORDS + 1);
    let records = random.records(sizes, count);
    let spare = random.choose(&[0, 0, 0, 1, 4]);
    (format.write)(&records, spare)
}

fn changed(input: &[u8], random: &mut Random) -> Vec<u8> {
    let mut changed = input.to_vec();
    if !changed.is_empty() {
        let place = random.below(changed.len());
        let any = random.below(256) as u8;
        let telling = random.choose(TELLING);
        changed[place] = random.choose(&[any, telling]);
    }
    changed
}

/// A digit or a group doubled makes numbers that are too large, which a changed byte seldom does.
fn doubled(input: &[u8], random: &mut Random) -> Vec<u8> {
    let mut doubled = input.to_vec();
    if !doubled.is_empty() {
        let place = random.below(doubled.len());
        doubled.insert(place, doubled[place]);
    }
    doubled
}

fn cut(input: &[u8], random: &mut Random) -> Vec<u8> {
    input[..random.below(input.len() + 1)].to_vec()
}

fn compare(format: &Format, input: &[u8], seen: &mut Seen) -> Result<(), Difference> {
    let proved = (format.proved)(input);
    let plain = (format.plain)(input);
    if proved != plain.sum {
        return Err(Difference {
            input: input.to_vec(),
            proved,
            plain: plain.sum,
        });
    }
    match plain.fault {
        None => seen.whole += 1,
        Some(fault) => seen.faults[fault.cause as usize - 1] += 1,
    }
    Ok(())
}
