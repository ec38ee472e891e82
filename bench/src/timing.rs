//! How long both readers of a format take over the same long trace.

use crate::Format;
use crate::generate::{Random, Sizes};
use std::hint::black_box;
use std::process::ExitCode;
use std::time::{Duration, Instant};

const RECORDS: usize = 2_000_000;
const ROUNDS: usize = 15;

/// The best time of each reader.
struct Best {
    proved: Duration,
    plain: Duration,
}

/// Prints a line of a table for each format and each choice of sizes.
pub fn print(formats: &[Format]) -> ExitCode {
    println!(
        "| input | MB | Rattle ns/record | Rust ns/record | Rattle MB/s | Rust MB/s | Rattle / Rust |"
    );
    println!("|---|---|---|---|---|---|---|");
    for format in formats {
        for (sizes, name) in [(Sizes::Small, "small numbers"), (Sizes::All, "all numbers")] {
            let records = Random::new(0x5eed_0002).records(sizes, RECORDS);
            let input = (format.write)(&records, 0);
            let Some(best) = measure(format, &input) else {
                println!("the readers differ on a long trace");
                return ExitCode::FAILURE;
            };
            print_line(&format!("{}, {name}", format.name), input.len(), &best);
        }
    }
    ExitCode::SUCCESS
}

/// The readers take turns, so that what else the machine does meets both. The best round is the one least disturbed. None where they differ.
fn measure(format: &Format, input: &[u8]) -> Option<Best> {
    let mut best = Best {
        proved: Duration::MAX,
        plain: Duration::MAX,
    };
    for _ in 0..ROUNDS {
        let (proved, took) = timed(|| (format.proved)(black_box(input)));
        best.proved = best.proved.min(took);
        let (plain, took) = timed(|| (format.plain)(black_box(input)).sum);
        best.plain = best.plain.min(took);
        if proved != plain {
            return None;
        }
    }
    Some(best)
}

fn timed(read: impl FnOnce() -> u64) -> (u64, Duration) {
    let start = Instant::now();
    let sum = read();
    (sum, start.elapsed())
}

fn print_line(name: &str, length: usize, best: &Best) {
    let per_record = |time: Duration| time.as_secs_f64() * 1e9 / RECORDS as f64;
    let speed = |time: Duration| length as f64 / 1e6 / time.as_secs_f64();
    println!(
        "| {name} | {:.1} | {:.1} | {:.1} | {:.0} | {:.0} | {:.2} |",
        length as f64 / 1e6,
        per_record(best.proved),
        per_record(best.plain),
        speed(best.proved),
        speed(best.plain),
        best.proved.as_secs_f64() / best.plain.as_secs_f64()
    );
}
