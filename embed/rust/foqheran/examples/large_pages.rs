//! A stock server whose pages are larger than the pool's own: 4,096 bytes, in buffers that it keeps itself, loaded
//! from a file and written back to it.
//!
//! The pool says which frame a page is in, and at which action a buffer's content has to go: a step may leave a duty,
//! which is carried out before the pool's lock is let go. There is one buffer for each of the S + 2T frames. A client
//! works on a page that it holds under the buffer's own lock, while others step the pool. There is no index: pages 0 to
//! 3, which to the pool are index pages, just stay longer.
//!
//! The program watches itself: whether a page is ever held in two frames, whether a buffer has another page's bytes,
//! whether a count that is read is the one that was written last, and whether all of them are in the file at the end.
//! If not, it says so and ends with status 1.

mod watch;

use foqheran::{Answer, Duty, Pool, Refusal};
use std::fs::File;
use std::io;
use std::os::unix::fs::FileExt;
use std::path::Path;
use std::sync::atomic::{AtomicU32, Ordering};
use std::sync::{Mutex, MutexGuard};
use watch::{fail, lock, wait_a_little, Grants};

const PAGE: usize = 4096;
const PAGES: u32 = 48;
const SLOTS: u8 = 5;
const CLIENTS: u8 = 16;
/// A page has so many counts of four bytes.
const COUNTS: usize = 8;
/// How often a client raises each count of each page by one.
const ROUNDS: u32 = 60;
/// The client's next page is so many after the last. None shares a factor with PAGES, so that every page comes up.
const STRIDES: [u32; CLIENTS as usize] = [1, 5, 7, 11, 13, 17, 19, 23, 25, 29, 31, 35, 37, 41, 43, 47];

/// Room for a page.
struct Buffer {
    bytes: Box<[u8; PAGE]>,
    /// The page whose bytes these are, if any.
    loaded: Option<u32>,
    /// Whether they were changed since they were loaded or saved.
    dirty: bool,
}

struct Server {
    pool: Mutex<(Pool, Grants)>,
    buffers: Vec<Mutex<Buffer>>,
    file: File,
    /// For each page, what was written to its counts last. Each is changed under the lock of its page's buffer.
    written: Vec<[AtomicU32; COUNTS]>,
}

impl Server {
    fn new(file: File) -> Server {
        let pool = Pool::new(SLOTS, CLIENTS, 3, 0).unwrap_or_else(fail);
        let empty = || Buffer { bytes: Box::new([0; PAGE]), loaded: None, dirty: false };
        let buffers = (0..pool.frames()).map(|_| Mutex::new(empty())).collect();
        let written = (0..PAGES).map(|_| Default::default()).collect();
        Server { pool: Mutex::new((pool, Grants::none(PAGES))), buffers, file, written }
    }

    fn buffer(&self, frame: u8) -> MutexGuard<'_, Buffer> {
        lock(&self.buffers[usize::from(frame)])
    }

    fn save(&self, buffer: &mut Buffer, page: u32) -> io::Result<()> {
        if buffer.dirty {
            self.file.write_all_at(&*buffer.bytes, place(page))?;
            buffer.dirty = false;
        }
        Ok(())
    }

    /// What a step leaves to be done; the pool's lock is held. Nobody holds a page in these frames, so the buffers'
    /// locks are free.
    fn carry_out(&self, duty: Duty) {
        match duty {
            Duty::WriteBack { frame, page } => {
                let mut buffer = self.buffer(frame);
                self.save(&mut buffer, page).unwrap_or_else(fail);
                buffer.loaded = None;
            }
            Duty::Move { frame, target } => {
                // the target's buffer holds nothing: after a swap it is the other that holds nothing
                std::mem::swap(&mut *self.buffer(frame), &mut *self.buffer(target));
            }
        }
    }

    /// Gets a page for a client, one action at a time: its frame. Refused by 15 it tries again: it holds nothing, so
    /// it is in nobody's way.
    fn open(&self, client: u8, page: u32) -> u8 {
        let mut tries = 0;
        loop {
            lock(&self.pool).0.begin(client, page).unwrap_or_else(fail);
            loop {
                std::thread::yield_now(); // whoever waits may act first
                let (pool, grants) = &mut *lock(&self.pool);
                let step = match pool.step(client) {
                    Ok(step) => step,
                    Err(Refusal::AllBusy) => break,
                    Err(refusal) => fail(refusal),
                };
                if let Some(duty) = step.duty {
                    self.carry_out(duty);
                }
                if let Answer::Granted(frame) = step.answer {
                    grants.granted(page, frame);
                    return frame;
                }
            }
            wait_a_little(client, tries);
            tries += 1;
        }
    }

    fn close(&self, client: u8, page: u32) {
        let (pool, grants) = &mut *lock(&self.pool);
        pool.release(client, page).unwrap_or_else(fail);
        grants.released(page);
    }

    /// The buffer of a page that is held in this frame, with the page's bytes. Who comes first loads them, and the
    /// others wait at the buffer's lock.
    fn content(&self, frame: u8, page: u32) -> MutexGuard<'_, Buffer> {
        let mut buffer = self.buffer(frame);
        match buffer.loaded {
            None => self.file.read_exact_at(&mut *buffer.bytes, place(page)).unwrap_or_else(fail),
            Some(other) if other != page => fail(format!("frame {frame} has page {other} and not {page}")),
            Some(_) => {}
        }
        buffer.loaded = Some(page);
        buffer
    }

    /// A count of a page; it has to be the one that was written last.
    fn count(&self, buffer: &Buffer, page: u32, i: usize) -> u32 {
        let (count, last) = (count_in(&*buffer.bytes, i), self.written[page as usize][i].load(Ordering::Relaxed));
        if count != last {
            fail(format!("count {i} of page {page} was read as {count}, but {last} was written there last"))
        }
        count
    }

    /// A client raises all counts of all pages, in an order of its own, again and again.
    fn work(&self, client: u8) {
        for turn in 0..ROUNDS * PAGES {
            let page = turn * STRIDES[usize::from(client)] % PAGES;
            let frame = self.open(client, page);
            for i in 0..COUNTS {
                let mut buffer = self.content(frame, page);
                let count = self.count(&buffer, page, i) + 1;
                buffer.bytes[count_place(i)..][..4].copy_from_slice(&count.to_le_bytes());
                buffer.dirty = true;
                self.written[page as usize][i].store(count, Ordering::Relaxed);
            }
            self.close(client, page);
        }
    }

    /// At the end one client looks at all pages once more, then what is still in buffers goes to the file.
    fn end(&self) -> io::Result<()> {
        let (pool, _) = &mut *lock(&self.pool);
        for page in 0..PAGES {
            let frame = pool.request_with(0, page, |duty| self.carry_out(duty)).unwrap_or_else(fail);
            let buffer = self.content(frame, page);
            for i in 0..COUNTS {
                self.count(&buffer, page, i);
            }
            pool.release(0, page).unwrap_or_else(fail);
        }
        for mut buffer in self.buffers.iter().map(lock) {
            if let Some(page) = buffer.loaded {
                self.save(&mut buffer, page)?;
            }
        }
        Ok(())
    }
}

/// Where a page stands in the file.
fn place(page: u32) -> u64 {
    u64::from(page) * PAGE as u64
}

/// Where a count stands in its page: they are spread over all of it.
fn count_place(i: usize) -> usize {
    (PAGE - 4) / (COUNTS - 1) * i
}

fn count_in(page: &[u8], i: usize) -> u32 {
    let at = count_place(i);
    u32::from_le_bytes([page[at], page[at + 1], page[at + 2], page[at + 3]])
}

fn run(path: &Path) -> io::Result<()> {
    std::fs::write(path, vec![0; PAGES as usize * PAGE])?;

    let server = Server::new(File::options().read(true).write(true).open(path)?);
    std::thread::scope(|threads| {
        for client in 0..CLIENTS {
            let server = &server;
            threads.spawn(move || server.work(client));
        }
    });
    server.end()?;

    let expected = u32::from(CLIENTS) * ROUNDS;
    for (page, bytes) in std::fs::read(path)?.chunks(PAGE).enumerate() {
        let counts = [0, 1, 2, 3, 4, 5, 6, 7].map(|i| count_in(bytes, i));
        if counts != [expected; COUNTS] {
            fail(format!("at the end page {page} of the file has the counts {counts:?}"))
        }
    }
    let (tally, buffers) = (lock(&server.pool).0.tally(), server.buffers.len());
    println!("{CLIENTS} clients raised {COUNTS} counts on each of {PAGES} pages of {PAGE} bytes to {expected}");
    println!("they shared {SLOTS} slots and {buffers} buffers, and every count is in the file");
    println!("no page was ever held in two frames; {tally}");
    Ok(())
}

fn main() {
    let file = std::env::temp_dir().join(format!("foqheran-large-pages-{}", std::process::id()));
    run(&file).unwrap_or_else(fail);
    let _ = std::fs::remove_file(&file);
}
