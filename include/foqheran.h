// Foqheran, for C and C++: a page buffer pool whose every answer is proved.
//
// Up to 16 clients share up to 64 slots for pages. A client asks for a page (foqheran_begin), is moved on by one action
// at a time (foqheran_step) until it is granted a frame or is refused, and gives the page back (foqheran_release). In
// whatever order the clients are stepped, two clients that hold one page hold it in one frame, and a held page stays
// where it is. The pool also keeps the pages' bytes, 64 a page, if it is lent a store of them: whoever reads a byte
// reads what was written there last. docs/SPECIFICATION.md says what each call does, docs/GUARANTEE.md what is proved
// of all runs, docs/SERVER.md what a server has to do.
//
//     static struct foqheran_pool pool;
//     static uint8_t store[256 * FOQHERAN_PAGE_BYTES];
//
//     foqheran_setup(&pool, 8, 4, 3, 0, store, sizeof store);                           // 8 slots, 4 clients
//     foqheran_answer answer = foqheran_request(&pool, 0, 17, NULL, store, sizeof store); // client 0 wants page 17
//     if (foqheran_is_granted(answer)) {
//         foqheran_write(&pool, 0, 17, 5, 1, store, sizeof store);                      // byte 5 of the page is 1 now
//         foqheran_release(&pool, 0, 17);
//     } else {
//         puts(foqheran_refusal_text(answer));
//     }
//
// Who owns what. All memory is the caller's: the pool, the store, a tally, a list of rows. No call allocates, keeps a
// pointer or leaves anything to be cleaned up. What one call is given must not overlap: no store, tally, duty or list
// inside the pool or inside one another.
//
// One call at a time. No call takes a lock. Threads that share a pool put a lock of their own around each call, and
// around whatever belongs to the same action (a duty, see foqheran_step). Between two steps of a request the lock is
// free for others, and no more order is needed. Calls on different pools may run at the same time.
//
// Copies. A pool is a plain struct without pointers. Copied while no call runs, together with its store, it is a
// snapshot that can be put back later. It must not be used as a second pool on the same store: two copies know nothing
// of each other.
//
// What is promised. Every call can be made on every memory: it answers, and changes nothing but what it was lent. Where
// one of its few tests fails it answers 8 and changes nothing. That the answers are the ones of docs/SPECIFICATION.md
// is proved of pools that were made by foqheran_setup and changed by these calls alone. For a pool from elsewhere, such
// as a file, see foqheran_check.

#ifndef FOQHERAN_H
#define FOQHERAN_H

#include <assert.h>
#include <stddef.h>
#include <stdint.h>

// ---- limits

enum {
    FOQHERAN_MOST_SLOTS = 64,
    FOQHERAN_MOST_CLIENTS = 16,
    FOQHERAN_MOST_CAP = 100,
    FOQHERAN_MOST_GRANTS = 8, // of one client at one time
    FOQHERAN_MOST_PAGES = 256, // of a store
    FOQHERAN_PAGE_BYTES = 64,
    FOQHERAN_MOST_FRAMES = FOQHERAN_MOST_SLOTS + 2 * FOQHERAN_MOST_CLIENTS
};

// How many pages, from page 0 on, are index pages, which stay longer than others; and the reference count that such a
// page comes in with, where the cap is not lower: see foqheran_setup.
enum { FOQHERAN_INDEX_PAGES = 4, FOQHERAN_INDEX_COUNT = 3 };

// How many frames a pool of so many slots and clients has: they are numbered from 0. A program that keeps the pages'
// bytes in buffers of its own needs one buffer a frame, which is more than one a slot.
#define FOQHERAN_FRAMES(slots, clients) ((slots) + 2 * (clients))

// ---- answers

// What a call answers: a code and a value.
//
//     done       the page; of setup and check the number of slots, of holdings that of rows, of read the byte
//     working    the stage where the client stands now, 1 to 23
//     granted    the frame
//     refused    0; the code is 100 and the number of the refusal
typedef uint64_t foqheran_answer;

enum { FOQHERAN_DONE = 0, FOQHERAN_WORKING = 1, FOQHERAN_GRANTED = 2, FOQHERAN_REFUSED = 100 };

// The refusals. All but 15 leave everything as it was; after 15 the client is at rest and holds what it held. (A step
// sets its duty in any case: to nothing if it is refused.)
enum {
    FOQHERAN_OUT_OF_RANGE = 8, // a number of the setup, of the pool, or the length of the store
    FOQHERAN_NO_SUCH_CLIENT = 9,
    FOQHERAN_AT_WORK = 10, // its request has to be answered first
    FOQHERAN_AT_REST = 11, // it has no request to be moved on
    FOQHERAN_HAS_EIGHT = 12, // it has to release a page before it begins another
    FOQHERAN_NOT_HELD = 13,
    FOQHERAN_FEW_ROWS = 14,
    FOQHERAN_ALL_BUSY = 15, // every slot was in use when the client came by: to be tried again after some release
    FOQHERAN_OUTSIDE_STORE = 16,
    FOQHERAN_OUTSIDE_PAGE = 17, // the offset is
    FOQHERAN_HELD_ALREADY = 18 // the page can be used as it is, and is to be released once
};

static inline uint32_t foqheran_code(foqheran_answer answer)
{
    return (uint32_t)(answer >> 32);
}

static inline uint32_t foqheran_value(foqheran_answer answer)
{
    return (uint32_t)(answer & 0xffffffffu);
}

static inline int foqheran_is_done(foqheran_answer answer)
{
    return foqheran_code(answer) == FOQHERAN_DONE;
}

static inline int foqheran_is_working(foqheran_answer answer)
{
    return foqheran_code(answer) == FOQHERAN_WORKING;
}

static inline int foqheran_is_granted(foqheran_answer answer)
{
    return foqheran_code(answer) == FOQHERAN_GRANTED;
}

static inline int foqheran_is_refused(foqheran_answer answer)
{
    return foqheran_code(answer) > FOQHERAN_REFUSED;
}

// The number of the refusal, 8 to 18; 0 where nothing was refused.
static inline uint32_t foqheran_refusal(foqheran_answer answer)
{
    return foqheran_is_refused(answer) ? foqheran_code(answer) - FOQHERAN_REFUSED : 0;
}

// Why an answer is a refusal, in words.
static inline const char *foqheran_refusal_text(foqheran_answer answer)
{
    switch (foqheran_refusal(answer)) {
    case 0:
        return "not refused";
    case FOQHERAN_OUT_OF_RANGE:
        return "a number of the setup or of the pool is out of range";
    case FOQHERAN_NO_SUCH_CLIENT:
        return "there is no such client";
    case FOQHERAN_AT_WORK:
        return "the client is at work";
    case FOQHERAN_AT_REST:
        return "the client is at rest";
    case FOQHERAN_HAS_EIGHT:
        return "the client has 8 grants already";
    case FOQHERAN_NOT_HELD:
        return "the client does not hold this page";
    case FOQHERAN_FEW_ROWS:
        return "the list has too few rows";
    case FOQHERAN_ALL_BUSY:
        return "its sweep met only busy slots";
    case FOQHERAN_OUTSIDE_STORE:
        return "the page is outside the store";
    case FOQHERAN_OUTSIDE_PAGE:
        return "the offset is 64 or more";
    case FOQHERAN_HELD_ALREADY:
        return "the client holds this page already";
    default:
        return "no such refusal";
    }
}

// ---- the pool, and what is lent to its calls

// A pool. Its fields are nobody's business: use the calls. Until it is set up it should be all zeros, and then every
// call is refused.
struct foqheran_pool {
    uint32_t hand;
    uint32_t pages[FOQHERAN_MOST_FRAMES];
    uint32_t table_pages[FOQHERAN_MOST_FRAMES];
    uint32_t client_words[2 * FOQHERAN_MOST_CLIENTS];
    uint32_t grant_pages[FOQHERAN_MOST_GRANTS * FOQHERAN_MOST_CLIENTS];
    uint16_t store_pages;
    uint8_t size;
    uint8_t client_count;
    uint8_t cap;
    uint8_t free;
    uint8_t last;
    uint8_t slots[FOQHERAN_MOST_SLOTS];
    uint8_t pins[FOQHERAN_MOST_FRAMES];
    uint8_t counts[FOQHERAN_MOST_FRAMES];
    uint8_t table_frames[FOQHERAN_MOST_FRAMES];
    uint8_t client_bytes[8 * FOQHERAN_MOST_CLIENTS];
    uint8_t grant_frames[FOQHERAN_MOST_GRANTS * FOQHERAN_MOST_CLIENTS];
    uint8_t filled[FOQHERAN_MOST_FRAMES];
    uint8_t changed[FOQHERAN_MOST_FRAMES];
    uint8_t bytes[FOQHERAN_PAGE_BYTES * FOQHERAN_MOST_FRAMES];
    uint8_t unused; // up to a multiple of four bytes
};

// Snapshots in files, and programs of several compilers, rely on there being no gaps. The library is for little-endian
// processors, x86-64.
static_assert(offsetof(struct foqheran_pool, pages) == 4 && offsetof(struct foqheran_pool, client_words) == 772 &&
                  offsetof(struct foqheran_pool, store_pages) == 1412 &&
                  offsetof(struct foqheran_pool, slots) == 1419 &&
                  offsetof(struct foqheran_pool, client_bytes) == 1771 &&
                  offsetof(struct foqheran_pool, filled) == 2027 && offsetof(struct foqheran_pool, bytes) == 2219 &&
                  sizeof(struct foqheran_pool) == 8364,
              "the pool has to be laid out without gaps");

// What steps came to. It starts with zeros, and whoever wants the counts of a pool lends the same one to every step. A
// count that is as large as it can be stays so; while neither admitted nor drops is, admitted less drops is how many
// pages are in the pool. The names below are places: tally.counts[FOQHERAN_HITS].
enum {
    FOQHERAN_HITS, // grants of a page that was there
    FOQHERAN_JOINS, // grants of a page that another client brought in or revived meanwhile
    FOQHERAN_ADMITTED, // grants of a page that this client brought in
    FOQHERAN_REVIVED, // grants of a page that was evicted and had not left yet: it is kept, in another frame
    FOQHERAN_DROPS, // pages that left the pool; a page that is evicted and then revived never left
    FOQHERAN_REFUSALS, // requests refused by 15
    FOQHERAN_COUNTS
};

struct foqheran_tally {
    uint32_t counts[FOQHERAN_COUNTS];
};

// A row of a holdings list: a page that the client holds, and 1: it has one grant of it. (On memory that the check
// below refuses it may have more, and the row still says 1.)
struct foqheran_row {
    uint32_t page;
    uint32_t times;
};

// What a step leaves to be done with buffers, by a program that has its own: see foqheran_step.
typedef uint64_t foqheran_duty;

enum {
    FOQHERAN_NOTHING = 0,
    FOQHERAN_WRITE_BACK = 1, // write the frame's content back as the page, if it was changed: the page leaves the pool
    FOQHERAN_MOVE = 2 // move the frame's content to the target: from now on the page is there
};

static inline uint32_t foqheran_duty_kind(foqheran_duty duty)
{
    return (uint32_t)(duty >> 40);
}

// The frame whose content it is about.
static inline uint8_t foqheran_duty_frame(foqheran_duty duty)
{
    return (uint8_t)(duty >> 32 & 0xff);
}

// The page to write back.
static inline uint32_t foqheran_duty_page(foqheran_duty duty)
{
    return (uint32_t)(duty & 0xffffffffu);
}

// The frame to move to.
static inline uint8_t foqheran_duty_target(foqheran_duty duty)
{
    return (uint8_t)(duty & 0xff);
}

// ---- the proved functions, which the calls below are made of

// The parts of a pool, as they are declared and as they are lent.
#define FOQHERAN_ARRAYS \
    uint8_t *slots, uint32_t *pages, uint8_t *pins, uint8_t *counts, uint32_t *table_pages, uint8_t *table_frames, \
        uint8_t *client_bytes, uint32_t *client_words, uint32_t *grant_pages, uint8_t *grant_frames
#define FOQHERAN_PARTS \
    uint8_t size, uint8_t client_count, uint8_t cap, uint32_t *hand, uint8_t *free, uint8_t *last, FOQHERAN_ARRAYS
#define FOQHERAN_LEND_ARRAYS(pool) \
    (pool)->slots, (pool)->pages, (pool)->pins, (pool)->counts, (pool)->table_pages, (pool)->table_frames, \
        (pool)->client_bytes, (pool)->client_words, (pool)->grant_pages, (pool)->grant_frames
#define FOQHERAN_LEND(pool) \
    (pool)->size, (pool)->client_count, (pool)->cap, &(pool)->hand, &(pool)->free, &(pool)->last, \
        FOQHERAN_LEND_ARRAYS(pool)

#ifdef __cplusplus
extern "C" {
#endif

uint64_t foqheran_parts_setup(uint8_t s, uint8_t t, uint8_t c, uint32_t h, const uint8_t *store, size_t store_len,
                              uint8_t *size, uint8_t *client_count, uint8_t *cap, uint16_t *store_pages, uint32_t *hand,
                              uint8_t *free, uint8_t *last, FOQHERAN_ARRAYS, uint8_t *bytes, uint8_t *filled,
                              uint8_t *changed);
uint64_t foqheran_parts_begin(uint8_t client, uint32_t page, uint16_t store_pages, FOQHERAN_PARTS);
uint64_t foqheran_parts_release(uint8_t client, uint32_t page, FOQHERAN_PARTS);
uint64_t foqheran_parts_step(uint8_t client, uint32_t *tally, uint64_t *duty, uint8_t *store, size_t store_len,
                             uint16_t store_pages, uint8_t *bytes, uint8_t *filled, uint8_t *changed, FOQHERAN_PARTS);
uint64_t foqheran_parts_read(uint8_t client, uint32_t page, uint32_t offset, const uint8_t *store, size_t store_len,
                             uint16_t store_pages, uint8_t *bytes, uint8_t *filled, uint8_t client_count,
                             const uint8_t *client_bytes, const uint32_t *client_words, const uint32_t *grant_pages,
                             const uint8_t *grant_frames);
uint64_t foqheran_parts_write(uint8_t client, uint32_t page, uint32_t offset, uint8_t byte, const uint8_t *store,
                              size_t store_len, uint16_t store_pages, uint8_t *bytes, uint8_t *filled, uint8_t *changed,
                              uint8_t client_count, const uint8_t *client_bytes, const uint32_t *client_words,
                              const uint32_t *grant_pages, const uint8_t *grant_frames);
uint64_t foqheran_parts_holdings(uint8_t client, uint32_t *rows, size_t numbers, uint8_t client_count,
                                 const uint8_t *client_bytes, const uint32_t *client_words,
                                 const uint32_t *grant_pages);
uint64_t foqheran_parts_check(const uint8_t *store, size_t store_len, uint16_t store_pages, const uint8_t *filled,
                              const uint8_t *changed, uint8_t size, uint8_t client_count, uint8_t cap, uint8_t free,
                              uint8_t last, const uint8_t *slots, const uint32_t *pages, const uint8_t *pins,
                              const uint8_t *counts, const uint32_t *table_pages, const uint8_t *table_frames,
                              const uint8_t *client_bytes, const uint32_t *client_words, const uint32_t *grant_pages,
                              const uint8_t *grant_frames);

#ifdef __cplusplus
}
#endif

// The functions take no null pointer, so what is not there is lent as a byte of our own. NULL with a length is a store
// that the program failed to get: it is lent as one byte, a length that no store has, and every call answers 8.
static inline size_t foqheran_lent_length(const uint8_t *store, size_t length)
{
    return store != NULL ? length : length != 0;
}

// ---- the calls
//
// `store` and `length`: the bytes of all pages, page g's at 64 g and on, 1 to 256 pages. Every call gets the same store
// that the setup got, as the call before left it; only a step changes it, where it drops a page that was written to. A
// pool that was set up without a store gets NULL and 0.

// Makes a new pool of 1 to 64 slots and 1 to 16 clients, all at rest. `cap` is the most that a page's reference count
// can be, 1 to 100: the higher, the longer a page that is asked for often outlives the others. A page comes in with the
// count 1, and an index page, 0 to 3, with 3, or with `cap` if that is below 3. Each further request for it adds one,
// up to `cap`. Each time that a sweep comes by and finds it unused, it takes one off, and evicts the page where that
// leaves 0; a sweep may come by several times. `hand` is where the first search for a slot starts: any number. Without
// a store pages may have any numbers of 32 bits, and reads and writes are refused by 16.
//
// Done with the number of slots, or refused by 8: then the pool is as it was, set up or not.
static inline foqheran_answer foqheran_setup(struct foqheran_pool *pool, uint8_t slots, uint8_t clients, uint8_t cap,
                                             uint32_t hand, const uint8_t *store, size_t length)
{
    const uint8_t none = 0;
    return foqheran_parts_setup(slots, clients, cap, hand, store != NULL ? store : &none,
                                foqheran_lent_length(store, length), &pool->size, &pool->client_count, &pool->cap,
                                &pool->store_pages, &pool->hand, &pool->free, &pool->last, FOQHERAN_LEND_ARRAYS(pool),
                                pool->bytes, pool->filled, pool->changed);
}

// How many slots, clients and frames a pool has.
static inline uint8_t foqheran_slots(const struct foqheran_pool *pool)
{
    return pool->size;
}

static inline uint8_t foqheran_clients(const struct foqheran_pool *pool)
{
    return pool->client_count;
}

static inline size_t foqheran_frames(const struct foqheran_pool *pool)
{
    return FOQHERAN_FRAMES((size_t)pool->size, (size_t)pool->client_count);
}

// The client, so far at rest, wants a page. Steps do the rest. Done with the page, or refused by 8, 9, 10, 12, 16 or
// 18.
static inline foqheran_answer foqheran_begin(struct foqheran_pool *pool, uint8_t client, uint32_t page)
{
    return foqheran_parts_begin(client, page, pool->store_pages, FOQHERAN_LEND(pool));
}

// The client does the one action that its request has come to. Working with the stage where it stands now, or granted
// with the frame, or refused by 8, 9, 11 or 15.
//
// `tally` is brought up to date, and `duty` is set in any case; each may be NULL. A program whose pages are in the
// store has no use for the duty: what it says is done already. One with buffers of its own (and no store) carries it
// out in the same action, before anybody makes another call on the pool: a client that is stepped next may be granted
// the target of a move, or load the page that was to be written back.
static inline foqheran_answer foqheran_step(struct foqheran_pool *pool, uint8_t client, struct foqheran_tally *tally,
                                            foqheran_duty *duty, uint8_t *store, size_t length)
{
    uint8_t none = 0;
    foqheran_duty unwanted_duty = 0;
    struct foqheran_tally unwanted_tally = {{0, 0, 0, 0, 0, 0}};
    return foqheran_parts_step(client, tally != NULL ? tally->counts : unwanted_tally.counts,
                               duty != NULL ? duty : &unwanted_duty, store != NULL ? store : &none,
                               foqheran_lent_length(store, length), pool->store_pages, pool->bytes, pool->filled,
                               pool->changed, FOQHERAN_LEND(pool));
}

// The client's grant of a page ends. Done with the page, or refused by 8, 9, 10 or 13.
static inline foqheran_answer foqheran_release(struct foqheran_pool *pool, uint8_t client, uint32_t page)
{
    return foqheran_parts_release(client, page, FOQHERAN_LEND(pool));
}

// A begin, and steps until they are answered: granted with the frame, or refused by the first number that refuses: 8,
// 9, 10, 12, 15, 16 or 18. A store of another length than at setup is refused by 8 before the begin. Nobody else can be
// stepped meanwhile. It carries out no duty: it is for programs whose pages are in the store. On a pool that was set up
// by these calls there is an answer in the end: as is proved, after at most 4 (C + T) (S + T)^2 steps (claim 24 of
// docs/GUARANTEE.md has a smaller number), and mostly after far fewer. On a pool from elsewhere it may step for ever.
static inline foqheran_answer foqheran_request(struct foqheran_pool *pool, uint8_t client, uint32_t page,
                                               struct foqheran_tally *tally, uint8_t *store, size_t length)
{
    if (foqheran_lent_length(store, length) != (size_t)FOQHERAN_PAGE_BYTES * pool->store_pages) {
        return ((foqheran_answer)FOQHERAN_REFUSED + FOQHERAN_OUT_OF_RANGE) << 32;
    }
    foqheran_answer answer = foqheran_begin(pool, client, page);
    if (foqheran_is_refused(answer)) {
        return answer;
    }
    do {
        answer = foqheran_step(pool, client, tally, NULL, store, length);
    } while (foqheran_is_working(answer));
    return answer;
}

// The byte at an offset, 0 to 63, of a page that the client holds while it is at rest. Done with the byte, or refused
// by 8, 9, 10, 13, 16 or 17.
static inline foqheran_answer foqheran_read(struct foqheran_pool *pool, uint8_t client, uint32_t page, uint32_t offset,
                                            const uint8_t *store, size_t length)
{
    const uint8_t none = 0;
    return foqheran_parts_read(client, page, offset, store != NULL ? store : &none, foqheran_lent_length(store, length),
                               pool->store_pages, pool->bytes, pool->filled, pool->client_count, pool->client_bytes,
                               pool->client_words, pool->grant_pages, pool->grant_frames);
}

// Puts a byte there. Done with the page, or refused as a read is. It goes to the page's frame, and to the store when
// the page is dropped.
static inline foqheran_answer foqheran_write(struct foqheran_pool *pool, uint8_t client, uint32_t page, uint32_t offset,
                                             uint8_t byte, const uint8_t *store, size_t length)
{
    const uint8_t none = 0;
    return foqheran_parts_write(client, page, offset, byte, store != NULL ? store : &none,
                                foqheran_lent_length(store, length), pool->store_pages, pool->bytes, pool->filled,
                                pool->changed, pool->client_count, pool->client_bytes, pool->client_words,
                                pool->grant_pages, pool->grant_frames);
}

// The pages that a client holds, at rest or at work: one row for each, by rising page number, into the first of `count`
// rows. Done with the number of rows, or refused by 8, 9 or 14; other rows stay as they were, and after a refusal all
// do. Eight rows are always enough; NULL is a list of none.
static inline foqheran_answer foqheran_holdings(const struct foqheran_pool *pool, uint8_t client,
                                                struct foqheran_row *rows, size_t count)
{
    uint32_t numbers[2 * FOQHERAN_MOST_GRANTS] = {0};
    size_t lent = rows != NULL ? count : 0;
    size_t room = lent < FOQHERAN_MOST_GRANTS ? lent : (size_t)FOQHERAN_MOST_GRANTS;
    foqheran_answer answer = foqheran_parts_holdings(client, numbers, 2 * room, pool->client_count, pool->client_bytes,
                                                     pool->client_words, pool->grant_pages);
    if (foqheran_is_done(answer)) {
        for (size_t i = 0; i < foqheran_value(answer); i++) {
            rows[i].page = numbers[2 * i];
            rows[i].times = numbers[2 * i + 1];
        }
    }
    return answer;
}

// Whether all numbers of the pool are in their ranges and the store fits: for a pool that comes from elsewhere, a file
// for instance, before it is used. Done with the number of slots, or refused by 8. It cannot tell whether such a pool
// ever came of calls, so that what is proved of those is not promised of it; it is much slower than the other calls,
// which make only a few tests of their own.
static inline foqheran_answer foqheran_check(const struct foqheran_pool *pool, const uint8_t *store, size_t length)
{
    const uint8_t none = 0;
    return foqheran_parts_check(store != NULL ? store : &none, foqheran_lent_length(store, length), pool->store_pages,
                                pool->filled, pool->changed, pool->size, pool->client_count, pool->cap, pool->free,
                                pool->last, FOQHERAN_LEND_ARRAYS(pool));
}

#undef FOQHERAN_ARRAYS
#undef FOQHERAN_PARTS
#undef FOQHERAN_LEND_ARRAYS
#undef FOQHERAN_LEND

#endif
