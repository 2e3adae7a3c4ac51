//! Times calls in place, one at a time: those of the plain pool beside those of the proved library, from Rust and
//! from C.
//!
//! The calls of a schedule are played as a list, without reading a file and without a report; then the same with a
//! store; then with a write to each page that is granted, so that pages go back to the store; then reads and writes
//! alone.

use crate::opaque;
use crate::plain::{self, number};
use foqheran::{Answer, Pool, Refusal, MOST_PAGES, PAGE_BYTES};
use std::time::Instant;

const ROUNDS: usize = 401;
/// How many reads or writes are played on their own.
const USES: u32 = 2048;

/// A call, as the player in C reads it.
#[repr(C)]
#[derive(Clone, Copy)]
struct Call {
    page: u32,
    offset: u32,
    kind: u8,
    client: u8,
    byte: u8,
}

const BEGIN: u8 = 1;
const STEP: u8 = 2;
const RELEASE: u8 = 3;
const READ: u8 = 4;
const WRITE: u8 = 5;

impl Call {
    fn of(kind: u8, client: u8, page: u32) -> Call {
        Call { page, offset: 0, kind, client, byte: 0 }
    }
}

/// A pool's setup, calls that are not timed, and those that are.
struct Work {
    setup: (u8, u8, u8, u32),
    store: Vec<u8>,
    before: Vec<Call>,
    calls: Vec<Call>,
}

/// Whoever plays a list of calls and returns the sum of all answers, each as code * 2^32 + value.
trait Player {
    fn play(&mut self, calls: &[Call]) -> u64;
}

fn sum_of(code: u32, value: u32) -> u64 {
    u64::from(code) << 32 | u64::from(value)
}

// ---- the plain pool

/// Not inlined: a library's call is not either.
#[inline(never)]
fn plain_call(pool: &mut plain::Pool, call: &Call) -> plain::Answer {
    pool.call(call.kind, call.client, call.page)
}

impl Player for plain::Pool {
    fn play(&mut self, calls: &[Call]) -> u64 {
        calls.iter().fold(0, |sum, call| {
            let (code, value) = plain::coded(plain_call(self, call));
            sum.wrapping_add(sum_of(code, value))
        })
    }
}

// ---- the proved one, from Rust

fn coded(answer: Result<u32, Refusal>) -> u64 {
    match answer {
        Ok(value) => sum_of(0, value),
        Err(refusal) => sum_of(refusal.code(), 0),
    }
}

impl Player for Pool {
    fn play(&mut self, calls: &[Call]) -> u64 {
        calls.iter().fold(0, |sum: u64, &Call { page, offset, kind, client, byte }| {
            sum.wrapping_add(match kind {
                BEGIN => coded(self.begin(client, page).map(|()| page)),
                STEP => match self.step(client).map(|step| step.answer) {
                    Ok(Answer::Working(stage)) => sum_of(1, stage.into()),
                    Ok(Answer::Granted(frame)) => sum_of(2, frame.into()),
                    Err(refusal) => sum_of(refusal.code(), 0),
                },
                RELEASE => coded(self.release(client, page).map(|()| page)),
                READ => coded(self.read(client, page, offset).map(u32::from)),
                _ => coded(self.write(client, page, offset, byte).map(|()| page)),
            })
        })
    }
}

// ---- the proved one, from C

/// The struct of the header.
enum PoolInC {}

extern "C" {
    fn in_place_bytes() -> usize;
    fn in_place_setup(
        pool: *mut PoolInC,
        slots: u8,
        clients: u8,
        cap: u8,
        hand: u32,
        store: *const u8,
        length: usize,
    ) -> u64;
    fn in_place_play(pool: *mut PoolInC, calls: *const Call, count: usize, store: *mut u8, length: usize) -> u64;
}

struct FromC {
    /// Room for the pool, aligned for its numbers.
    room: Vec<u64>,
    store: Vec<u8>,
}

impl FromC {
    fn new(work: &Work) -> FromC {
        let (slots, clients, cap, hand) = work.setup;
        // SAFETY: It reads nothing.
        let mut room = vec![0; unsafe { in_place_bytes() } / 8 + 1];
        let store = work.store.clone();
        // SAFETY: There is room for the pool, and the store is as long as is said.
        unsafe { in_place_setup(room.as_mut_ptr().cast(), slots, clients, cap, hand, store.as_ptr(), store.len()) };
        FromC { room, store }
    }
}

impl Player for FromC {
    fn play(&mut self, calls: &[Call]) -> u64 {
        let pool = self.room.as_mut_ptr().cast();
        // SAFETY: The pool was set up in its room; list and store are as long as is said.
        unsafe { in_place_play(pool, calls.as_ptr(), calls.len(), self.store.as_mut_ptr(), self.store.len()) }
    }
}

// ---- the lists

impl Work {
    /// The calls of a schedule whose records are all right.
    fn of(schedule: &[u8]) -> Work {
        let call = |record: &[u8]| Call::of(record[2], record[3], number(&record[4..]));
        Work {
            setup: (schedule[3], schedule[4], schedule[5], number(&schedule[6..])),
            store: Vec::new(),
            before: Vec::new(),
            calls: schedule[10..].chunks_exact(8).map(call).collect(),
        }
    }

    fn pool(&self) -> Pool {
        let (slots, clients, cap, hand) = self.setup;
        Pool::with_store(slots, clients, cap, hand, self.store.clone()).expect("the setup is in range")
    }

    fn with_store(&self) -> Work {
        Work {
            setup: self.setup,
            store: vec![1; MOST_PAGES * PAGE_BYTES],
            before: Vec::new(),
            calls: self.calls.clone(),
        }
    }

    /// The same, with a write after each grant.
    fn with_writes(&self) -> Work {
        let mut work = self.with_store();
        let (mut pool, mut wanted) = (work.pool(), [0; 256]);
        let mut calls = Vec::new();
        for call in &work.calls {
            calls.push(*call);
            let code = pool.play(std::slice::from_ref(call)) >> 32;
            match call.kind {
                BEGIN if code == 0 => wanted[usize::from(call.client)] = call.page,
                STEP if code == 2 => {
                    let page = wanted[usize::from(call.client)];
                    calls.push(Call { offset: page % 64, byte: 7, ..Call::of(WRITE, call.client, page) });
                    pool.play(&calls[calls.len() - 1..]);
                }
                _ => {}
            }
        }
        work.calls = calls;
        work
    }

    /// Reads or writes of four pages that one client holds.
    fn of_uses(&self, kind: u8) -> Work {
        let mut work = self.with_store();
        let mut pool = work.pool();
        for page in 0..4 {
            work.before.push(Call::of(BEGIN, 0, page));
            pool.play(&work.before[work.before.len() - 1..]);
            while pool.holdings(0).map_or(0, |rows| rows.len()) <= page as usize {
                work.before.push(Call::of(STEP, 0, 0));
                pool.play(&work.before[work.before.len() - 1..]);
            }
        }
        let used = |i: u32| Call { offset: i / 4 % 64, byte: i as u8, ..Call::of(kind, 0, i % 4) };
        work.calls = (0..USES).map(used).collect();
        work
    }
}

// ---- the times

/// Who plays.
#[derive(Clone, Copy)]
enum Who {
    Plain,
    Rust,
    C,
}

impl Who {
    fn set_up(self, work: &Work) -> Box<dyn Player> {
        let (slots, clients, cap, hand) = work.setup;
        match self {
            Who::Plain => Box::new(plain::Pool::new(slots.into(), clients.into(), cap, hand)),
            Who::Rust => Box::new(work.pool()),
            Who::C => Box::new(FromC::new(work)),
        }
    }
}

/// Nanoseconds of a call, and the sum of the answers.
fn play(who: Who, work: &Work) -> (f64, u64) {
    let mut player = who.set_up(work);
    player.play(&work.before);
    let started = Instant::now();
    let sum = opaque(player.play(opaque(&work.calls)));
    (started.elapsed().as_nanos() as f64 / work.calls.len() as f64, sum)
}

/// The least time of a call, for each of these. All of them take turns; what is played on one list must have one sum.
fn least<const N: usize>(timed: [(&Work, Who); N]) -> [f64; N] {
    let mut times = [f64::INFINITY; N];
    for _ in 0..ROUNDS {
        let mut last: Option<(&Work, u64)> = None;
        for ((work, who), least) in timed.into_iter().zip(&mut times) {
            let (time, sum) = play(who, work);
            *least = least.min(time);
            if let Some((list, expected)) = last {
                assert!(!std::ptr::eq(list, work) || sum == expected, "the answers differ");
            }
            last = Some((work, sum));
        }
    }
    times
}

/// Prints what the calls of a schedule take.
pub fn time(name: &str, schedule: &[u8]) {
    let bare = &Work::of(schedule);
    let (stored, written, reads, writes) =
        (&bare.with_store(), &bare.with_writes(), &bare.of_uses(READ), &bare.of_uses(WRITE));
    let [plain, rust, c, rust_stored, c_stored, rust_written, c_written, rust_read, c_read, rust_write, c_write] =
        least([
            (bare, Who::Plain),
            (bare, Who::Rust),
            (bare, Who::C),
            (stored, Who::Rust),
            (stored, Who::C),
            (written, Who::Rust),
            (written, Who::C),
            (reads, Who::Rust),
            (reads, Who::C),
            (writes, Who::Rust),
            (writes, Who::C),
        ]);
    println!("{name}: {} calls in place, ns a call, the least of {ROUNDS} rounds", bare.calls.len());
    println!("    the plain pool                         {plain:6.1}");
    for (what, rust, c, of, base) in [
        ("the proved one, without a store", rust, c, "plain", [plain, plain]),
        ("with a store", rust_stored, c_stored, "without", [rust, c]),
        ("and a write to each page granted", rust_written, c_written, "without", [rust, c]),
    ] {
        let [by_rust, by_c] = base;
        println!("    {what:<34} Rust {rust:5.1}, C {c:5.1}: {:.2} and {:.2} of {of}", rust / by_rust, c / by_c);
    }
    println!("    {:<34} Rust {rust_read:5.1}, C {c_read:5.1}", "a read");
    println!("    {:<34} Rust {rust_write:5.1}, C {c_write:5.1}", "a write");
}
