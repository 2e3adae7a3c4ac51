//! The functions of the proved library, on the parts of a pool where they lie: the crate's only `unsafe` code.
//!
//! Each function is proved to end with an answer whatever numbers it is lent, and to change nothing but what it is
//! lent. So nothing is tested here; what is left to see to is that what is lent is there, and the types do that.

const SLOTS: usize = 64;
const CLIENTS: usize = 16;
/// One for each slot and two for each client.
const FRAMES: usize = SLOTS + 2 * CLIENTS;
const GRANTS: usize = 8 * CLIENTS;

type Bytes = [u8; 64 * FRAMES];
type Marks = [u8; FRAMES];

/// A pool, in arrays that are long enough for the largest.
pub(crate) struct Parts {
    pub(crate) size: u8,
    pub(crate) client_count: u8,
    cap: u8,
    store_pages: u16,
    hand: u32,
    free: u8,
    last: u8,
    slots: [u8; SLOTS],
    pages: [u32; FRAMES],
    pins: [u8; FRAMES],
    counts: [u8; FRAMES],
    table_pages: [u32; FRAMES],
    table_frames: [u8; FRAMES],
    client_bytes: [u8; 8 * CLIENTS],
    client_words: [u32; 2 * CLIENTS],
    grant_pages: [u32; GRANTS],
    grant_frames: [u8; GRANTS],
    pub(crate) bytes: Bytes,
    pub(crate) filled: Marks,
    pub(crate) changed: Marks,
}

/// Declares functions that take the arrays of a pool, to change them, where their list of arguments says so.
macro_rules! functions {
    ($(fn $name:ident($($before:ident: $first:ty),*; arrays; $($after:ident: $last:ty),*);)*) => {
        extern "C" {
            $(fn $name(
                $($before: $first,)*
                slots: &mut [u8; SLOTS],
                pages: &mut [u32; FRAMES],
                pins: &mut [u8; FRAMES],
                counts: &mut [u8; FRAMES],
                table_pages: &mut [u32; FRAMES],
                table_frames: &mut [u8; FRAMES],
                client_bytes: &mut [u8; 8 * CLIENTS],
                client_words: &mut [u32; 2 * CLIENTS],
                grant_pages: &mut [u32; GRANTS],
                grant_frames: &mut [u8; GRANTS],
                $($after: $last),*
            ) -> u64;)*
        }
    };
}

functions! {
    fn foqheran_parts_setup(
        s: u8, t: u8, c: u8, h: u32, store: *const u8, store_len: usize, size: &mut u8, client_count: &mut u8,
        cap: &mut u8, store_pages: &mut u16, hand: &mut u32, free: &mut u8, last: &mut u8; arrays;
        bytes: &mut Bytes, filled: &mut Marks, changed: &mut Marks
    );
    fn foqheran_parts_begin(
        client: u8, page: u32, store_pages: u16,
        size: u8, client_count: u8, cap: u8, hand: &mut u32, free: &mut u8, last: &mut u8; arrays;
    );
    fn foqheran_parts_release(
        client: u8, page: u32,
        size: u8, client_count: u8, cap: u8, hand: &mut u32, free: &mut u8, last: &mut u8; arrays;
    );
    fn foqheran_parts_step(
        client: u8, tally: &mut [u32; 6], duty: &mut u64, store: *mut u8, store_len: usize, store_pages: u16,
        bytes: &mut Bytes, filled: &mut Marks, changed: &mut Marks,
        size: u8, client_count: u8, cap: u8, hand: &mut u32, free: &mut u8, last: &mut u8; arrays;
    );
}

#[rustfmt::skip]
extern "C" {
    fn foqheran_parts_read(
        client: u8, page: u32, offset: u32, store: *const u8, store_len: usize, store_pages: u16,
        bytes: &mut Bytes, filled: &mut Marks, client_count: u8, client_bytes: &[u8; 8 * CLIENTS],
        client_words: &[u32; 2 * CLIENTS], grant_pages: &[u32; GRANTS], grant_frames: &[u8; GRANTS],
    ) -> u64;
    fn foqheran_parts_write(
        client: u8, page: u32, offset: u32, byte: u8, store: *const u8, store_len: usize, store_pages: u16,
        bytes: &mut Bytes, filled: &mut Marks, changed: &mut Marks, client_count: u8, client_bytes: &[u8; 8 * CLIENTS],
        client_words: &[u32; 2 * CLIENTS], grant_pages: &[u32; GRANTS], grant_frames: &[u8; GRANTS],
    ) -> u64;
    fn foqheran_parts_holdings(
        client: u8, rows: *mut u32, numbers: usize, client_count: u8, client_bytes: &[u8; 8 * CLIENTS],
        client_words: &[u32; 2 * CLIENTS], grant_pages: &[u32; GRANTS],
    ) -> u64;
    fn foqheran_parts_check(
        store: *const u8, store_len: usize, store_pages: u16, filled: &Marks, changed: &Marks,
        size: u8, client_count: u8, cap: u8, free: u8, last: u8, slots: &[u8; SLOTS],
        pages: &[u32; FRAMES], pins: &[u8; FRAMES], counts: &[u8; FRAMES], table_pages: &[u32; FRAMES],
        table_frames: &[u8; FRAMES], client_bytes: &[u8; 8 * CLIENTS], client_words: &[u32; 2 * CLIENTS],
        grant_pages: &[u32; GRANTS], grant_frames: &[u8; GRANTS],
    ) -> u64;
}

/// Calls a function of the library. `arrays of pool` lends the pool's arrays at this place, `parts of pool` all of it
/// but its bytes and marks.
macro_rules! call {
    ($name:ident($($argument:expr),*)) => {
        // SAFETY: A function reads and writes what it is lent, ends, and keeps no pointer. References are not null,
        // have the length that their type says, and two that are lent to one call do not overlap. The pointers are
        // those of slices, which are not null either and go with their lengths. The declarations above are the
        // library's own: every test of this crate plays calls through them.
        unsafe { $name($($argument),*) }
    };
    ($name:ident($($before:expr),*; arrays of $pool:ident; $($after:expr),*)) => {
        call!($name(
            $($before,)*
            &mut $pool.slots,
            &mut $pool.pages,
            &mut $pool.pins,
            &mut $pool.counts,
            &mut $pool.table_pages,
            &mut $pool.table_frames,
            &mut $pool.client_bytes,
            &mut $pool.client_words,
            &mut $pool.grant_pages,
            &mut $pool.grant_frames
            $(, $after)*
        ))
    };
    ($name:ident($($before:expr),*; parts of $pool:ident)) => {
        call!($name(
            $($before,)* $pool.size, $pool.client_count, $pool.cap, &mut $pool.hand, &mut $pool.free, &mut $pool.last;
            arrays of $pool;
        ))
    };
}

impl Parts {
    /// No pool yet: one without clients, which refuses every call.
    pub(crate) fn none() -> Parts {
        Parts {
            size: 0,
            client_count: 0,
            cap: 0,
            store_pages: 0,
            hand: 0,
            free: 0,
            last: 0,
            slots: [0; SLOTS],
            pages: [0; FRAMES],
            pins: [0; FRAMES],
            counts: [0; FRAMES],
            table_pages: [0; FRAMES],
            table_frames: [0; FRAMES],
            client_bytes: [0; 8 * CLIENTS],
            client_words: [0; 2 * CLIENTS],
            grant_pages: [0; GRANTS],
            grant_frames: [0; GRANTS],
            bytes: [0; 64 * FRAMES],
            filled: [0; FRAMES],
            changed: [0; FRAMES],
        }
    }

    pub(crate) fn setup(&mut self, slots: u8, clients: u8, cap: u8, hand: u32, store: &[u8]) -> u64 {
        call!(foqheran_parts_setup(
            slots, clients, cap, hand, store.as_ptr(), store.len(), &mut self.size, &mut self.client_count,
            &mut self.cap, &mut self.store_pages, &mut self.hand, &mut self.free, &mut self.last; arrays of self;
            &mut self.bytes, &mut self.filled, &mut self.changed
        ))
    }

    #[inline]
    pub(crate) fn begin(&mut self, client: u8, page: u32) -> u64 {
        call!(foqheran_parts_begin(client, page, self.store_pages; parts of self))
    }

    #[inline]
    pub(crate) fn step(&mut self, client: u8, tally: &mut [u32; 6], duty: &mut u64, store: &mut [u8]) -> u64 {
        call!(foqheran_parts_step(
            client, tally, duty, store.as_mut_ptr(), store.len(), self.store_pages,
            &mut self.bytes, &mut self.filled, &mut self.changed; parts of self
        ))
    }

    #[inline]
    pub(crate) fn release(&mut self, client: u8, page: u32) -> u64 {
        call!(foqheran_parts_release(client, page; parts of self))
    }

    #[inline]
    #[rustfmt::skip]
    pub(crate) fn read(&mut self, client: u8, page: u32, offset: u32, store: &[u8]) -> u64 {
        call!(foqheran_parts_read(
            client, page, offset, store.as_ptr(), store.len(), self.store_pages, &mut self.bytes, &mut self.filled,
            self.client_count, &self.client_bytes, &self.client_words, &self.grant_pages, &self.grant_frames
        ))
    }

    #[inline]
    #[rustfmt::skip]
    pub(crate) fn write(&mut self, client: u8, page: u32, offset: u32, byte: u8, store: &[u8]) -> u64 {
        call!(foqheran_parts_write(
            client, page, offset, byte, store.as_ptr(), store.len(), self.store_pages, &mut self.bytes,
            &mut self.filled, &mut self.changed, self.client_count, &self.client_bytes, &self.client_words,
            &self.grant_pages, &self.grant_frames
        ))
    }

    /// A row is a page and 1, the number of grants of it.
    #[rustfmt::skip]
    pub(crate) fn holdings(&self, client: u8, rows: &mut [[u32; 2]]) -> u64 {
        call!(foqheran_parts_holdings(
            client, rows.as_mut_ptr().cast(), 2 * rows.len(), self.client_count, &self.client_bytes,
            &self.client_words, &self.grant_pages
        ))
    }

    #[rustfmt::skip]
    pub(crate) fn check(&self, store: &[u8]) -> u64 {
        call!(foqheran_parts_check(
            store.as_ptr(), store.len(), self.store_pages, &self.filled, &self.changed, self.size, self.client_count,
            self.cap, self.free, self.last, &self.slots, &self.pages, &self.pins, &self.counts, &self.table_pages,
            &self.table_frames, &self.client_bytes, &self.client_words, &self.grant_pages, &self.grant_frames
        ))
    }
}
