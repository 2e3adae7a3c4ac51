//! A small stock server. Benches tick off packing lists, several at one list at the same time, while a stock counter
//! walks all of them; they share one pool, which has fewer slots than they would like to have.
//!
//! The store is a file's content. Each flight case has its packing list on a page of 64 bytes, and the bytes 0 to 5
//! say how often each of its six lines was ticked off. A bench is a thread and a client of the pool: it makes each
//! call under the lock and lets go of it between two calls, so that the requests of all benches go on at the same
//! time, one action here and one there. There is no index: the first four lists, which have the numbers of index
//! pages, just stay longer than the others.
//!
//! The program watches itself: whether a page is ever held in two frames, whether a byte that is read is the one that
//! was written last, and whether every tick is in the file at the end. If not, it says so and ends with status 1.

mod watch;

use foqheran::{Answer, Pool, Refusal, PAGE_BYTES};
use std::path::Path;
use std::sync::atomic::{AtomicBool, Ordering};
use std::sync::Mutex;
use watch::{fail, lock, wait_a_little, Grants};

const SLOTS: u8 = 8;
const BENCHES: u8 = 8;
/// The client after the benches.
const COUNTER: u8 = BENCHES;
const CASES: u32 = 100;
const LINES: usize = 6;
/// How often a bench ticks off each line of each case.
const ROUNDS: u8 = 30;
/// A bench's next case is so many after the last. None shares a factor with CASES, so that every case comes up.
const STRIDES: [u32; BENCHES as usize] = [1, 3, 7, 9, 11, 13, 17, 19];

/// What is behind the lock.
struct Floor {
    pool: Pool,
    grants: Grants,
    /// For each page, what was written to its lines last.
    written: Vec<[u8; LINES]>,
}

impl Floor {
    /// The ticks of a line, of a page that the client holds.
    fn ticks(&mut self, client: u8, page: u32, line: usize) -> u8 {
        let ticks = self.pool.read(client, page, line as u32).unwrap_or_else(fail);
        let last = self.written[page as usize][line];
        if ticks != last {
            fail(format!("line {line} of page {page} was read as {ticks}, but {last} was written there last"))
        }
        ticks
    }
}

/// Gets a page for a client, one action at a time; whether there was room for it.
fn open(shared: &Mutex<Floor>, client: u8, page: u32) -> bool {
    lock(shared).pool.begin(client, page).unwrap_or_else(fail);
    loop {
        std::thread::yield_now(); // whoever waits may act first
        let mut floor = lock(shared);
        match floor.pool.step(client).map(|step| step.answer) {
            Ok(Answer::Working(_)) => {}
            Ok(Answer::Granted(frame)) => {
                floor.grants.granted(page, frame);
                return true;
            }
            Err(Refusal::AllBusy) => return false,
            Err(refusal) => fail(refusal),
        }
    }
}

fn close(shared: &Mutex<Floor>, client: u8, page: u32) {
    let mut floor = lock(shared);
    floor.pool.release(client, page).unwrap_or_else(fail);
    floor.grants.released(page);
}

/// Gets two pages. Where there is no room for the second, the first is given back before the next try: if all benches
/// kept what they have and waited for more, nobody would ever get it.
fn open_both(shared: &Mutex<Floor>, client: u8, first: u32, second: u32) {
    for tries in 0.. {
        if open(shared, client, first) {
            if open(shared, client, second) {
                return;
            }
            close(shared, client, first);
        }
        wait_a_little(client, tries);
    }
}

/// Ticks a line off. The read and the write are under one lock: that they belong together is nothing that the pool
/// knows, and two benches that both read 4 would both write 5.
fn tick(shared: &Mutex<Floor>, client: u8, page: u32, line: usize) {
    let mut floor = lock(shared);
    let ticks = floor.ticks(client, page, line) + 1;
    floor.pool.write(client, page, line as u32, ticks).unwrap_or_else(fail);
    floor.written[page as usize][line] = ticks;
}

/// A bench goes through all cases in an order of its own, two at a time, again and again.
fn bench(shared: &Mutex<Floor>, client: u8) {
    for _ in 0..ROUNDS {
        for turn in (0..CASES).step_by(2) {
            let cases = [turn, turn + 1].map(|turn| turn * STRIDES[usize::from(client)] % CASES);
            open_both(shared, client, cases[0], cases[1]);
            for page in cases {
                for line in 0..LINES {
                    tick(shared, client, page, line);
                }
            }
            for page in cases {
                close(shared, client, page);
            }
        }
    }
}

/// The stock counter walks all cases as long as somebody packs; how many lists it has read. A tick that it has seen
/// must not be gone when it comes by again.
fn counter(shared: &Mutex<Floor>, packing: &AtomicBool) -> u32 {
    let mut seen = vec![[0; LINES]; CASES as usize];
    let mut lists = 0;
    while packing.load(Ordering::Relaxed) {
        for page in 0..CASES {
            if !open(shared, COUNTER, page) {
                continue; // it comes by again
            }
            for (line, before) in seen[page as usize].iter_mut().enumerate() {
                let ticks = lock(shared).ticks(COUNTER, page, line);
                if ticks < *before {
                    fail(format!("line {line} of page {page} had {before} ticks and now has {ticks}"))
                }
                *before = ticks;
            }
            close(shared, COUNTER, page);
            lists += 1;
        }
    }
    lists
}

/// All benches and the counter, up to the last tick; the lists that the counter has read.
fn work(shared: &Mutex<Floor>) -> u32 {
    let packing = AtomicBool::new(true);
    std::thread::scope(|threads| {
        let counting = threads.spawn(|| counter(shared, &packing));
        let benches: Vec<_> = (0..BENCHES).map(|client| threads.spawn(move || bench(shared, client))).collect();
        for bench in benches {
            bench.join().expect("a bench ends the program rather than panic");
        }
        packing.store(false, Ordering::Relaxed);
        counting.join().expect("so does the counter")
    })
}

fn run(file: &Path) -> std::io::Result<()> {
    std::fs::write(file, vec![0; CASES as usize * PAGE_BYTES])?; // all lists, nothing ticked off yet

    let pool = Pool::with_store(SLOTS, BENCHES + 1, 3, 0, std::fs::read(file)?).unwrap_or_else(fail);
    let (grants, written) = (Grants::none(CASES), vec![[0; LINES]; CASES as usize]);
    let shared = Mutex::new(Floor { pool, grants, written });
    let counted = work(&shared);
    let pool = shared.into_inner().unwrap_or_else(fail).pool;
    let tally = pool.tally();
    std::fs::write(file, pool.into_store())?;

    let mut list = [0; PAGE_BYTES];
    list[..LINES].fill(BENCHES * ROUNDS);
    for (page, found) in std::fs::read(file)?.chunks(PAGE_BYTES).enumerate() {
        if found != list {
            fail(format!("at the end page {page} of the file is {found:?}"))
        }
    }
    let ticks = usize::from(BENCHES * ROUNDS) * CASES as usize * LINES;
    println!("{BENCHES} benches ticked off {CASES} packing lists on {SLOTS} slots: {ticks} ticks, all in the file");
    println!("a stock counter read {counted} lists meanwhile, and no tick was gone");
    println!("no page was ever held in two frames; {tally}");
    Ok(())
}

fn main() {
    let file = std::env::temp_dir().join(format!("foqheran-stock-{}", std::process::id()));
    run(&file).unwrap_or_else(fail);
    let _ = std::fs::remove_file(&file);
}
