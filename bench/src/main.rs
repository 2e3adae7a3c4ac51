//! Times the proved run beside the plain one, in one process, on the same schedules, and the calls in place.
//!
//!     bench FILE..         nanoseconds a record of each, and their ratio
//!     bench calls FILE..   nanoseconds a call in place, of the plain pool and of the proved library from Rust and from C
//!     bench < FILE         the plain version's report, as the program replay writes it: for the comparison with other programs
//!
//! Each figure is the median of many rounds, of calls in place the least; the versions take turns within each round, so that a change of the
//! machine's speed meets all.

mod in_place;
mod plain;

use std::io::{Read, Write};
use std::time::Instant;

const REPORT_SPACE: usize = 49_152;
const ROUNDS: usize = 301;
/// Runs in one measurement, so that a clock's tick does not matter.
const RUNS: usize = 5;

extern "C" {
    /// `crates/exported`: a slice is a pointer and a length.
    fn replay_run(
        schedule: *const u8,
        schedule_len: usize,
        report: *mut u8,
        report_len: usize,
        records: *mut u64,
        refusal: *mut u8,
    ) -> usize;
}

/// The proved run.
fn proved(schedule: &[u8], report: &mut [u8]) -> plain::Ended {
    let (mut records, mut refusal) = (0u64, 0u8);
    // The function reads and writes within the two slices and writes the two numbers: that is what it is proved to do.
    let bytes = unsafe {
        replay_run(schedule.as_ptr(), schedule.len(), report.as_mut_ptr(), report.len(), &mut records, &mut refusal)
    };
    plain::Ended { records: records as u32, bytes, refusal }
}

/// The same value, of which the compiler knows nothing: so that it plays every round anew.
pub fn opaque<T: Copy>(value: T) -> T {
    // SAFETY: It is a read of the value itself.
    unsafe { std::ptr::read_volatile(&value) }
}

type Run = fn(&[u8], &mut [u8]) -> plain::Ended;

fn nanoseconds(run: Run, schedule: &[u8], report: &mut [u8]) -> f64 {
    let started = Instant::now();
    for _ in 0..RUNS {
        opaque(run(opaque(schedule), report));
    }
    started.elapsed().as_nanos() as f64 / RUNS as f64
}

fn median(mut times: Vec<f64>) -> f64 {
    times.sort_by(f64::total_cmp);
    times[times.len() / 2]
}

/// Both versions on one schedule: whether they agree, and their times.
fn compare(name: &str, schedule: &[u8]) -> bool {
    let (mut ours, mut theirs) = (vec![0u8; REPORT_SPACE], vec![0u8; REPORT_SPACE]);
    let ended = proved(schedule, &mut ours);
    if ended != plain::run(schedule, &mut theirs) || ours != theirs {
        println!("{name}: the two reports differ");
        return false;
    }
    let (mut proved_times, mut plain_times) = (Vec::new(), Vec::new());
    for _ in 0..ROUNDS {
        proved_times.push(nanoseconds(proved, schedule, &mut ours));
        plain_times.push(nanoseconds(plain::run, schedule, &mut theirs));
    }
    let records = f64::from(ended.records.max(1));
    let (a, b) = (median(proved_times) / records, median(plain_times) / records);
    println!("{name}: {} records, proved {a:.1} ns a record, plain {b:.1} ns a record, ratio {:.2}", ended.records, a / b);
    true
}

fn main() {
    let arguments: Vec<String> = std::env::args().skip(1).collect();
    if arguments.is_empty() {
        // as the program replay: a schedule on standard input, the report on standard output
        let (mut schedule, mut report) = (Vec::new(), vec![0u8; REPORT_SPACE]);
        std::io::stdin().read_to_end(&mut schedule).expect("standard input can be read");
        let ended = plain::run(&schedule, &mut report);
        std::io::stdout().write_all(&report[..ended.bytes]).expect("standard output can be written");
        return;
    }
    let (calls, names) = match arguments.split_first() {
        Some((word, names)) if word == "calls" => (true, names),
        _ => (false, arguments.as_slice()),
    };
    let mut agreed = true;
    for name in names {
        let schedule = std::fs::read(name).unwrap_or_else(|error| {
            eprintln!("{name}: {error}");
            std::process::exit(2);
        });
        if calls {
            in_place::time(name, &schedule);
        } else {
            agreed &= compare(name, &schedule);
        }
    }
    std::process::exit(if agreed { 0 } else { 1 });
}
