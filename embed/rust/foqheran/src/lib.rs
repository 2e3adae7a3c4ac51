//! A page buffer pool whose every answer is proved.
//!
//! Up to 16 clients share up to 64 slots for pages. A client asks for a page ([`Pool::begin`]), is moved on by one
//! action at a time ([`Pool::step`]) until it is granted a frame or refused, and gives the page back
//! ([`Pool::release`]). In whatever order the clients are stepped, two clients that hold one page hold it in one
//! frame, and a held page stays. A pool with a store keeps the pages' bytes too: whoever reads a byte reads what was
//! written there last, by whichever client.
//!
//! The calls are those of a library that is proved to do what the project's `docs/SPECIFICATION.md` says, for all
//! input. `docs/GUARANTEE.md` tells what that gives of every run, and `docs/SERVER.md` what a server has to do.
//!
//! ```
//! use foqheran::Pool;
//!
//! # fn main() -> Result<(), foqheran::Refusal> {
//! let mut pool = Pool::with_store(8, 4, 3, 0, vec![0; 40 * 64])?; // 8 slots, 4 clients, 40 pages
//! pool.request(0, 12)?; // client 0 gets page 12
//! pool.write(0, 12, 5, 1)?; // its byte 5 is 1 now
//! pool.request(1, 12)?; // client 1 gets the same page
//! assert_eq!(pool.read(1, 12, 5)?, 1);
//! # Ok(())
//! # }
//! ```
//!
//! # Sharing a pool
//!
//! Calls are made one at a time, and what overlaps are the clients' requests. So a [`Pool`] can be sent to another
//! thread but not shared between threads as it is: put it behind a [`Mutex`](std::sync::Mutex), and let go of the
//! lock between two steps.
//!
//! ```
//! use foqheran::{Answer, Pool, Refusal};
//! use std::sync::Mutex;
//!
//! /// One client's request: between any two of its steps the others get on.
//! fn fetch(pool: &Mutex<Pool>, client: u8, page: u32) -> Result<u8, Refusal> {
//!     pool.lock().unwrap().begin(client, page)?;
//!     loop {
//!         if let Answer::Granted(frame) = pool.lock().unwrap().step(client)?.answer {
//!             return Ok(frame);
//!         }
//!     }
//! }
//!
//! let pool = Mutex::new(Pool::new(2, 4, 3, 0).unwrap());
//! let shared = &pool;
//! let frames: Vec<u8> = std::thread::scope(|threads| {
//!     let fetching: Vec<_> = (0..4).map(|client| threads.spawn(move || fetch(shared, client, 9))).collect();
//!     fetching.into_iter().map(|one| one.join().unwrap().unwrap()).collect()
//! });
//! assert!(frames.iter().all(|&frame| frame == frames[0])); // one page, one copy
//! ```
//!
//! Without the lock this does not compile:
//!
//! ```compile_fail,E0277
//! let pool = foqheran::Pool::new(2, 4, 3, 0).unwrap();
//! std::thread::scope(|threads| {
//!     threads.spawn(|| pool.tally());
//! });
//! ```

#![deny(missing_docs, unsafe_code)]

mod answers;
#[allow(unsafe_code)]
mod raw;

pub use answers::{Answer, Duty, NotSetUp, Refusal, Row, Step, Tally};

use std::cell::Cell;
use std::fmt;
use std::marker::PhantomData;

/// The most slots of a pool.
pub const MOST_SLOTS: u8 = 64;
/// The most clients of a pool.
pub const MOST_CLIENTS: u8 = 16;
/// The most that a pool's count cap may be.
pub const MOST_CAP: u8 = 100;
/// The most grants of one client at one time.
pub const MOST_GRANTS: usize = 8;
/// The most pages of a store.
pub const MOST_PAGES: usize = 256;
/// The bytes of a page.
pub const PAGE_BYTES: usize = 64;
/// How many pages, from page 0 on, are index pages, which stay longer than others: see [`Pool::new`].
pub const INDEX_PAGES: u32 = 4;
/// The reference count that an index page comes in with, where the cap is not lower.
pub const INDEX_COUNT: u8 = 3;

/// A page buffer pool, with a store of its own or without one.
///
/// It takes 8.4 KB on the heap, whatever its size, and its store besides. The value itself is a few words, so it is
/// cheaply moved. No call but [`new`](Pool::new), [`with_store`](Pool::with_store), [`holdings`](Pool::holdings) and
/// [`into_store`](Pool::into_store) allocates.
///
/// Its content comes from a setup and from its own calls alone. That is what the proof of its answers asks for, and why
/// nothing hands out a part of it to be changed.
pub struct Pool {
    parts: Box<raw::Parts>,
    tally: [u32; 6],
    store: Vec<u8>,
    /// A `Cell` may be sent and not shared. So a pool is not `Sync`, whatever its fields are one day: two threads at
    /// one pool need a lock, and a lock that lets several readers in is not enough, since a read may fill a frame.
    not_shared: PhantomData<Cell<()>>,
}

impl Pool {
    /// A new pool that has no bytes: of so many slots, 1 to 64, and clients, 1 to 16, all of them at rest.
    ///
    /// `cap` is the most that a page's reference count can be, 1 to 100: the higher it is, the longer a page that is
    /// asked for often outlives the others. A page comes in with the count 1, and an index page, 0 to 3, with 3, or
    /// with `cap` if that is below 3. Each further request for it adds one, up to `cap`. Each time that a sweep comes
    /// by and finds it unused, it takes one off, and evicts the page where that leaves 0; a sweep may come by several
    /// times. `hand` says where the first search for a slot starts, and may be any number.
    ///
    /// Pages may have any numbers, and [`read`](Pool::read) and [`write`](Pool::write) are refused by 16. What the
    /// frames hold is the caller's: see [`step`](Pool::step).
    ///
    /// # Errors
    /// [`Refusal::OutOfRange`] if one of the first three numbers is.
    ///
    /// ```
    /// use foqheran::{Pool, Refusal};
    /// assert!(Pool::new(64, 16, 100, 0).is_ok());
    /// assert_eq!(Pool::new(65, 16, 100, 0).unwrap_err(), Refusal::OutOfRange);
    /// ```
    pub fn new(slots: u8, clients: u8, cap: u8, hand: u32) -> Result<Pool, Refusal> {
        Ok(Pool::with_store(slots, clients, cap, hand, Vec::new())?)
    }

    /// A new pool as by [`new`](Pool::new), with a store that it owns: the bytes of all pages, 64 a page, page 0 first,
    /// 1 to 256 pages. An empty store is none.
    ///
    /// The pool loads pages from its store and writes those that were changed back to it.
    ///
    /// # Errors
    /// [`Refusal::OutOfRange`] if a number or the store's length is, together with the store.
    ///
    /// ```
    /// use foqheran::Pool;
    /// assert!(Pool::with_store(8, 4, 3, 0, vec![0; 40 * 64]).is_ok());
    /// let refused = Pool::with_store(8, 4, 3, 0, vec![7; 40 * 64 + 1]).unwrap_err();
    /// assert_eq!(refused.into_store(), vec![7; 40 * 64 + 1]);
    /// ```
    pub fn with_store(slots: u8, clients: u8, cap: u8, hand: u32, store: Vec<u8>) -> Result<Pool, NotSetUp> {
        let mut parts = Box::new(raw::Parts::none());
        match answers::done(parts.setup(slots, clients, cap, hand, &store)) {
            Ok(_) => Ok(Pool { parts, tally: [0; 6], store, not_shared: PhantomData }),
            Err(refusal) => Err(NotSetUp { refusal, store }),
        }
    }

    /// How many slots the pool has: so many pages can be in it.
    pub fn slots(&self) -> u8 {
        self.parts.size
    }

    /// How many clients the pool has, numbered from 0.
    pub fn clients(&self) -> u8 {
        self.parts.client_count
    }

    /// How many frames the pool has, numbered from 0: one for each slot and two for each client. Who keeps the pages'
    /// bytes in buffers needs that many of them.
    ///
    /// ```
    /// assert_eq!(foqheran::Pool::new(8, 4, 3, 0)?.frames(), 16);
    /// # Ok::<(), foqheran::Refusal>(())
    /// ```
    pub fn frames(&self) -> usize {
        usize::from(self.slots()) + 2 * usize::from(self.clients())
    }

    /// The client, so far at rest, wants a page. [`step`](Pool::step) does the rest.
    ///
    /// # Errors
    /// [`NoSuchClient`](Refusal::NoSuchClient), [`AtWork`](Refusal::AtWork), [`HasEight`](Refusal::HasEight), with a
    /// store [`OutsideStore`](Refusal::OutsideStore), and [`HeldAlready`](Refusal::HeldAlready). Nothing has changed
    /// then.
    ///
    /// ```
    /// use foqheran::{Pool, Refusal};
    /// let mut pool = Pool::new(1, 2, 3, 0)?;
    /// pool.request(0, 9)?;
    /// assert_eq!(pool.begin(0, 9), Err(Refusal::HeldAlready));
    /// pool.begin(1, 9)?; // another client may
    /// assert_eq!(pool.begin(1, 5), Err(Refusal::AtWork));
    /// # Ok::<(), Refusal>(())
    /// ```
    #[inline]
    pub fn begin(&mut self, client: u8, page: u32) -> Result<(), Refusal> {
        answers::done(self.parts.begin(client, page)).map(drop)
    }

    /// The client does the one action that its request has come to.
    ///
    /// A program that keeps the pages' bytes in buffers of its own, one for each [frame](Pool::frames), carries out
    /// the [`Duty`] of the step before any other call on the pool, under the same lock. If the pool has a store, or
    /// if nobody keeps bytes, there is nothing to do.
    ///
    /// # Errors
    /// [`NoSuchClient`](Refusal::NoSuchClient) and [`AtRest`](Refusal::AtRest), and nothing has changed; or
    /// [`AllBusy`](Refusal::AllBusy), which ends the request: the client is at rest and holds what it held.
    ///
    /// ```
    /// use foqheran::{Answer, Pool};
    /// let mut pool = Pool::new(1, 1, 3, 0)?;
    /// pool.begin(0, 9)?;
    /// assert_eq!(pool.step(0)?.answer, Answer::Working(4)); // not in the pool: it will take a frame
    /// let frame = loop {
    ///     if let Answer::Granted(frame) = pool.step(0)?.answer {
    ///         break frame;
    ///     }
    /// };
    /// assert_eq!(frame, 0);
    /// # Ok::<(), foqheran::Refusal>(())
    /// ```
    #[inline]
    pub fn step(&mut self, client: u8) -> Result<Step, Refusal> {
        let mut duty = 0;
        let answer = self.parts.step(client, &mut self.tally, &mut duty, &mut self.store);
        answers::stepped(answer, duty)
    }

    /// A begin, and steps up to its answer: the frame. For programs that keep no bytes or whose pages are in the store.
    ///
    /// No other client is stepped meanwhile. There is an answer in the end: as is proved, after at most
    /// `4 (C + T) (S + T)^2` steps (claim 24 of `docs/GUARANTEE.md` has a smaller number), and mostly after far fewer.
    ///
    /// # Errors
    /// As by [`begin`](Pool::begin), or [`AllBusy`](Refusal::AllBusy).
    ///
    /// ```
    /// use foqheran::{Pool, Refusal};
    /// let mut pool = Pool::new(1, 2, 3, 0)?;
    /// let frame = pool.request(0, 9)?;
    /// assert_eq!(pool.request(1, 9)?, frame);
    /// assert_eq!(pool.request(1, 5), Err(Refusal::AllBusy)); // the one slot has page 9, which is held
    /// # Ok::<(), Refusal>(())
    /// ```
    pub fn request(&mut self, client: u8, page: u32) -> Result<u8, Refusal> {
        self.request_with(client, page, drop)
    }

    /// As [`request`](Pool::request), for programs with buffers of their own: each duty of a step is handed to
    /// `carry_out` before the next step.
    ///
    /// ```
    /// use foqheran::{Duty, Pool};
    /// let mut pool = Pool::new(1, 1, 3, 0)?;
    /// let first = pool.request(0, 9)?;
    /// pool.release(0, 9)?;
    /// let mut duties = Vec::new();
    /// pool.request_with(0, 5, |duty| duties.push(duty))?; // the one slot is needed, so page 9 has to go
    /// assert_eq!(duties, [Duty::WriteBack { frame: first, page: 9 }]);
    /// # Ok::<(), foqheran::Refusal>(())
    /// ```
    ///
    /// # Errors
    /// As by [`request`](Pool::request).
    pub fn request_with<F: FnMut(Duty)>(&mut self, client: u8, page: u32, mut carry_out: F) -> Result<u8, Refusal> {
        self.begin(client, page)?;
        loop {
            let step = self.step(client)?;
            if let Some(duty) = step.duty {
                carry_out(duty);
            }
            if let Answer::Granted(frame) = step.answer {
                return Ok(frame);
            }
        }
    }

    /// The client's grant of a page ends.
    ///
    /// # Errors
    /// [`NoSuchClient`](Refusal::NoSuchClient), [`AtWork`](Refusal::AtWork) and [`NotHeld`](Refusal::NotHeld). Nothing
    /// has changed then.
    ///
    /// ```
    /// use foqheran::{Pool, Refusal};
    /// let mut pool = Pool::new(1, 1, 3, 0)?;
    /// pool.request(0, 9)?;
    /// pool.release(0, 9)?;
    /// assert_eq!(pool.release(0, 9), Err(Refusal::NotHeld));
    /// # Ok::<(), Refusal>(())
    /// ```
    #[inline]
    pub fn release(&mut self, client: u8, page: u32) -> Result<(), Refusal> {
        answers::done(self.parts.release(client, page)).map(drop)
    }

    /// The byte at an offset, 0 to 63, of a page that the client holds while it is at rest.
    ///
    /// # Errors
    /// [`NoSuchClient`](Refusal::NoSuchClient), [`AtWork`](Refusal::AtWork), [`NotHeld`](Refusal::NotHeld),
    /// [`OutsideStore`](Refusal::OutsideStore) in a pool without a store, and [`OutsidePage`](Refusal::OutsidePage).
    ///
    /// ```
    /// use foqheran::{Pool, Refusal};
    /// let mut pool = Pool::with_store(2, 1, 3, 0, (0..128).collect())?; // two pages
    /// pool.request(0, 1)?;
    /// assert_eq!(pool.read(0, 1, 63), Ok(127));
    /// assert_eq!(pool.read(0, 0, 63), Err(Refusal::NotHeld));
    /// # Ok::<(), Refusal>(())
    /// ```
    #[inline]
    pub fn read(&mut self, client: u8, page: u32, offset: u32) -> Result<u8, Refusal> {
        answers::done(self.parts.read(client, page, offset, &self.store)).map(|byte| byte as u8)
    }

    /// All bytes of a page that the client holds while it is at rest: 64 reads.
    ///
    /// # Errors
    /// As by [`read`](Pool::read).
    ///
    /// ```
    /// use foqheran::Pool;
    /// let mut pool = Pool::with_store(2, 1, 3, 0, vec![7; 128])?;
    /// pool.request(0, 1)?;
    /// assert_eq!(pool.read_page(0, 1)?, [7; 64]);
    /// # Ok::<(), foqheran::Refusal>(())
    /// ```
    pub fn read_page(&mut self, client: u8, page: u32) -> Result<[u8; PAGE_BYTES], Refusal> {
        let mut bytes = [0; PAGE_BYTES];
        for (offset, byte) in (0..).zip(&mut bytes) {
            *byte = self.read(client, page, offset)?;
        }
        Ok(bytes)
    }

    /// Puts a byte at an offset, 0 to 63, of a page that the client holds while it is at rest.
    ///
    /// It goes to the page's frame, and to the store when the page is dropped.
    ///
    /// # Errors
    /// As by [`read`](Pool::read).
    ///
    /// ```
    /// use foqheran::Pool;
    /// let mut pool = Pool::with_store(1, 1, 3, 0, vec![0; 128])?;
    /// pool.request(0, 1)?;
    /// pool.write(0, 1, 5, 7)?;
    /// assert_eq!(pool.read(0, 1, 5)?, 7);
    /// assert_eq!(pool.store()[64 + 5], 0); // not yet
    /// # Ok::<(), foqheran::Refusal>(())
    /// ```
    #[inline]
    pub fn write(&mut self, client: u8, page: u32, offset: u32, byte: u8) -> Result<(), Refusal> {
        answers::done(self.parts.write(client, page, offset, byte, &self.store)).map(drop)
    }

    /// The pages that a client holds, at rest or at work, by rising page number: a row for each grant.
    ///
    /// # Errors
    /// [`NoSuchClient`](Refusal::NoSuchClient).
    ///
    /// ```
    /// use foqheran::{Pool, Row};
    /// let mut pool = Pool::new(2, 1, 3, 0)?;
    /// for page in [9, 5] {
    ///     pool.request(0, page)?;
    /// }
    /// assert_eq!(pool.holdings(0)?, [Row { page: 5, times: 1 }, Row { page: 9, times: 1 }]);
    /// # Ok::<(), foqheran::Refusal>(())
    /// ```
    pub fn holdings(&self, client: u8) -> Result<Vec<Row>, Refusal> {
        let mut rows = [Row::default(); MOST_GRANTS];
        let listed = self.holdings_into(client, &mut rows)?;
        Ok(rows[..listed].to_vec())
    }

    /// Lists the pages that a client holds, as [`holdings`](Pool::holdings) does, on the first of these rows, and says
    /// how many it lists. Other rows stay as they were. Eight are always enough.
    ///
    /// # Errors
    /// [`NoSuchClient`](Refusal::NoSuchClient) and [`FewRows`](Refusal::FewRows), and all rows stay as they were.
    pub fn holdings_into(&self, client: u8, rows: &mut [Row]) -> Result<usize, Refusal> {
        let mut numbers = [[0; 2]; MOST_GRANTS];
        let room = rows.len().min(MOST_GRANTS);
        let listed = answers::done(self.parts.holdings(client, &mut numbers[..room]))? as usize;
        for (row, [page, times]) in rows.iter_mut().zip(numbers).take(listed) {
            *row = Row { page, times };
        }
        Ok(listed)
    }

    /// What the pool's steps came to so far.
    ///
    /// ```
    /// let mut pool = foqheran::Pool::new(2, 2, 3, 0)?;
    /// pool.request(0, 9)?;
    /// pool.request(1, 9)?;
    /// assert_eq!((pool.tally().admitted, pool.tally().hits), (1, 1));
    /// # Ok::<(), foqheran::Refusal>(())
    /// ```
    pub fn tally(&self) -> Tally {
        Tally::of(self.tally)
    }

    /// The store's bytes as they are there now.
    ///
    /// A page that was changed and is still in its frame has its old bytes here. To read a page,
    /// [request](Pool::request) it; for all of them at the end see [`into_store`](Pool::into_store).
    pub fn store(&self) -> &[u8] {
        &self.store
    }

    /// Ends the pool and gives its store back, each page with what was written to it last.
    ///
    /// All requests are brought to their answers and all grants released first. Then each page is requested and read,
    /// so that these are the bytes that a client would have got.
    ///
    /// ```
    /// use foqheran::Pool;
    /// let mut pool = Pool::with_store(1, 1, 3, 0, vec![0; 128])?;
    /// pool.request(0, 1)?;
    /// pool.write(0, 1, 5, 7)?;
    /// assert_eq!(pool.into_store()[64 + 5], 7);
    /// # Ok::<(), foqheran::Refusal>(())
    /// ```
    pub fn into_store(mut self) -> Vec<u8> {
        for client in 0..self.clients() {
            while matches!(self.step(client), Ok(Step { answer: Answer::Working(_), .. })) {}
            for row in self.holdings(client).unwrap_or_default() {
                let _ = self.release(client, row.page);
            }
        }
        let mut bytes = Vec::with_capacity(self.store.len());
        for page in 0..(self.store.len() / PAGE_BYTES) as u32 {
            bytes.extend(self.borrowed(page).expect("nothing is held, so no request is refused"));
        }
        bytes
    }

    /// The bytes of a page, requested and released by client 0.
    fn borrowed(&mut self, page: u32) -> Result<[u8; PAGE_BYTES], Refusal> {
        self.request(0, page)?;
        let bytes = self.read_page(0, page)?;
        self.release(0, page)?;
        Ok(bytes)
    }

    /// Whether all numbers of the pool are in their ranges, for tests: a pool that calls have made always passes.
    ///
    /// # Errors
    /// [`Refusal::OutOfRange`]: something else has written into the pool's memory.
    pub fn check(&self) -> Result<(), Refusal> {
        answers::done(self.parts.check(&self.store)).map(drop)
    }
}

impl fmt::Debug for Pool {
    fn fmt(&self, f: &mut fmt::Formatter<'_>) -> fmt::Result {
        f.debug_struct("Pool")
            .field("slots", &self.slots())
            .field("clients", &self.clients())
            .field("store_pages", &(self.store.len() / PAGE_BYTES))
            .field("tally", &self.tally())
            .finish_non_exhaustive()
    }
}
