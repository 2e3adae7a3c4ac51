// Tries what include/foqheran.h says besides the answers of each call: helpers, what NULL means, refused setups, whole
// requests, snapshots, index pages, and its example. A test program, in C and in C++: it prints nothing if all is well.

#include "foqheran.h"
#include <stdio.h>
#include <stdlib.h>
#include <string.h>

static struct foqheran_pool pool, kept;
static uint8_t store[4 * FOQHERAN_PAGE_BYTES], kept_store[sizeof store];

#define MUST(what) must(what, #what, __LINE__)

static void must(int holds, const char *what, int line)
{
    if (!holds) {
        fprintf(stderr, "header.c, line %d: not so: %s\n", line, what);
        exit(1);
    }
}

static uint32_t refusal(foqheran_answer answer)
{
    return foqheran_refusal(answer);
}

static foqheran_answer refused_by(uint32_t number)
{
    return (foqheran_answer)(FOQHERAN_REFUSED + number) << 32;
}

static void helpers(void)
{
    foqheran_answer working = (uint64_t)FOQHERAN_WORKING << 32 | 18, refused = (uint64_t)115 << 32;
    MUST(foqheran_is_working(working) && foqheran_value(working) == 18 && foqheran_refusal(working) == 0);
    MUST(!foqheran_is_done(working) && !foqheran_is_granted(working) && !foqheran_is_refused(working));
    MUST(foqheran_is_refused(refused) && foqheran_refusal(refused) == FOQHERAN_ALL_BUSY);
    MUST(!foqheran_is_done(refused) && !foqheran_is_granted(refused) && !foqheran_is_working(refused));
    MUST(foqheran_is_done(9) && foqheran_value(9) == 9 && foqheran_is_granted((uint64_t)FOQHERAN_GRANTED << 32));
    for (uint32_t i = 8; i <= 18; i++) {
        for (uint32_t j = 0; j < i; j++) {
            MUST(strcmp(foqheran_refusal_text(refused_by(i)), foqheran_refusal_text(refused_by(j))) != 0);
        }
    }
    foqheran_duty back = (uint64_t)1 << 40 | (uint64_t)95 << 32 | 0xfffffffe,
                  move = (uint64_t)2 << 40 | (uint64_t)7 << 32 | 95;
    MUST(foqheran_duty_kind(back) == FOQHERAN_WRITE_BACK && foqheran_duty_frame(back) == 95);
    MUST(foqheran_duty_page(back) == 0xfffffffe && foqheran_duty_kind(0) == FOQHERAN_NOTHING);
    MUST(foqheran_duty_kind(move) == FOQHERAN_MOVE && foqheran_duty_frame(move) == 7 &&
         foqheran_duty_target(move) == 95);
    MUST(FOQHERAN_FRAMES(64, 16) == FOQHERAN_MOST_FRAMES && FOQHERAN_FRAMES(2, 3) == 8);
}

static void not_set_up(void)
{
    struct foqheran_row row;
    MUST(foqheran_is_refused(foqheran_begin(&pool, 0, 0)));
    MUST(foqheran_is_refused(foqheran_step(&pool, 0, NULL, NULL, NULL, 0)));
    MUST(foqheran_is_refused(foqheran_release(&pool, 0, 0)));
    MUST(foqheran_is_refused(foqheran_request(&pool, 0, 0, NULL, NULL, 0)));
    MUST(foqheran_is_refused(foqheran_holdings(&pool, 0, &row, 1)));
    MUST(foqheran_is_refused(foqheran_read(&pool, 0, 0, 0, NULL, 0)));
    MUST(foqheran_is_refused(foqheran_write(&pool, 0, 0, 0, 0, NULL, 0)));
    MUST(refusal(foqheran_check(&pool, NULL, 0)) == FOQHERAN_OUT_OF_RANGE);
}

static void setups(void)
{
    memset(&pool, 0x5a, sizeof pool);
    kept = pool;
    MUST(refusal(foqheran_setup(&pool, 0, 1, 1, 0, NULL, 0)) == 8 &&
         refusal(foqheran_setup(&pool, 1, 17, 1, 0, NULL, 0)) == 8);
    MUST(refusal(foqheran_setup(&pool, 1, 1, 101, 0, NULL, 0)) == 8 &&
         refusal(foqheran_setup(&pool, 1, 1, 1, 0, store, 63)) == 8);
    MUST(refusal(foqheran_setup(&pool, 1, 1, 1, 0, NULL, 64)) == 8); // no memory for the store
    MUST(memcmp(&pool, &kept, sizeof pool) == 0);
    foqheran_answer answer = foqheran_setup(&pool, 64, 16, 100, 0xffffffff, store, sizeof store);
    MUST(foqheran_is_done(answer) && foqheran_value(answer) == 64);
    MUST(foqheran_value(foqheran_check(&pool, store, sizeof store)) == 64);
    MUST(refusal(foqheran_check(&pool, NULL, 0)) == 8 && refusal(foqheran_check(&pool, NULL, sizeof store)) == 8);
}

// Two slots, two clients, pages 0 to 3.
static void requests(void)
{
    struct foqheran_tally tally;
    struct foqheran_row rows[2] = {{77, 77}, {77, 77}};
    memset(&tally, 0, sizeof tally);
    MUST(foqheran_is_done(foqheran_setup(&pool, 2, 2, 3, 0, store, sizeof store)));
    MUST(foqheran_slots(&pool) == 2 && foqheran_clients(&pool) == 2 && foqheran_frames(&pool) == 6);
    MUST(refusal(foqheran_request(&pool, 2, 0, &tally, store, sizeof store)) == FOQHERAN_NO_SUCH_CLIENT);
    MUST(refusal(foqheran_request(&pool, 0, 4, &tally, store, sizeof store)) == FOQHERAN_OUTSIDE_STORE);
    MUST(refusal(foqheran_request(&pool, 0, 3, &tally, NULL, sizeof store)) == 8); // and the client is still at rest
    MUST(refusal(foqheran_request(&pool, 0, 3, &tally, store, sizeof store - 64)) == 8);
    MUST(foqheran_is_granted(foqheran_request(&pool, 0, 3, &tally, store, sizeof store)));
    MUST(foqheran_is_granted(foqheran_request(&pool, 0, 1, &tally, store, sizeof store)));
    MUST(refusal(foqheran_request(&pool, 1, 2, &tally, store, sizeof store)) == FOQHERAN_ALL_BUSY);
    MUST(foqheran_is_granted(foqheran_request(&pool, 1, 3, NULL, store, sizeof store))); // a tally of its own
    MUST(tally.counts[FOQHERAN_ADMITTED] == 2 && tally.counts[FOQHERAN_REFUSALS] == 1 &&
         tally.counts[FOQHERAN_HITS] == 0);
    MUST(refusal(foqheran_holdings(&pool, 0, rows, 1)) == FOQHERAN_FEW_ROWS && rows[0].page == 77);
    MUST(refusal(foqheran_holdings(&pool, 0, NULL, 0)) == FOQHERAN_FEW_ROWS);
    MUST(refusal(foqheran_holdings(&pool, 0, NULL, 8)) == FOQHERAN_FEW_ROWS);
    MUST(foqheran_value(foqheran_holdings(&pool, 0, rows, 1000000)) == 2);
    MUST(rows[0].page == 1 && rows[0].times == 1 && rows[1].page == 3 && rows[1].times == 1);
    MUST(foqheran_is_done(foqheran_begin(&pool, 1, 0)));
    MUST(refusal(foqheran_request(&pool, 1, 2, &tally, store, sizeof store)) == FOQHERAN_AT_WORK);
    MUST(refusal(foqheran_step(&pool, 1, NULL, NULL, NULL, sizeof store)) == 8); // no memory for the store
    MUST(foqheran_is_working(foqheran_step(&pool, 1, NULL, NULL, store, sizeof store)));
    MUST(refusal(foqheran_request(&pool, 0, 1, &tally, store, sizeof store)) == FOQHERAN_HELD_ALREADY);
    MUST(foqheran_value(foqheran_holdings(&pool, 0, rows, 2)) == 2 && rows[0].times == 1);
}

// A copy that is put back goes on as the pool did.
static void snapshots(void)
{
    uint64_t answers[2] = {0, 0};
    kept = pool;
    memcpy(kept_store, store, sizeof store);
    for (int time = 0; time < 2; time++) {
        for (int i = 0; i < 30; i++) {
            answers[time] = answers[time] * 31 + foqheran_step(&pool, 1, NULL, NULL, store, sizeof store);
            answers[time] = answers[time] * 31 + foqheran_write(&pool, 0, 1, 5, (uint8_t)i, store, sizeof store);
        }
        pool = kept;
        memcpy(store, kept_store, sizeof store);
    }
    MUST(answers[0] == answers[1]);
}

// The ninth grant is refused by 12, also of a page that the client holds.
static void eight_grants(void)
{
    struct foqheran_row rows[FOQHERAN_MOST_GRANTS];
    MUST(foqheran_is_done(foqheran_setup(&pool, 8, 1, 1, 0, NULL, 0)));
    for (uint32_t page = 0; page < FOQHERAN_MOST_GRANTS; page++) {
        MUST(foqheran_is_granted(foqheran_request(&pool, 0, page, NULL, NULL, 0)));
    }
    MUST(refusal(foqheran_begin(&pool, 0, 8)) == FOQHERAN_HAS_EIGHT);
    MUST(refusal(foqheran_begin(&pool, 0, 7)) == FOQHERAN_HAS_EIGHT);
    MUST(foqheran_value(foqheran_holdings(&pool, 0, rows, FOQHERAN_MOST_GRANTS)) == FOQHERAN_MOST_GRANTS);
    MUST(rows[7].page == 7 && rows[7].times == 1);
}

// A page that was granted once has the count that it came in with.
static void index_pages(void)
{
    for (uint8_t cap = 1; cap <= 2 * FOQHERAN_INDEX_COUNT; cap++) {
        for (uint32_t page = 0; page < 2 * FOQHERAN_INDEX_PAGES; page++) {
            uint8_t most = cap < FOQHERAN_INDEX_COUNT ? cap : (uint8_t)FOQHERAN_INDEX_COUNT;
            MUST(foqheran_is_done(foqheran_setup(&pool, 1, 1, cap, 0, NULL, 0)));
            foqheran_answer answer = foqheran_request(&pool, 0, page, NULL, NULL, 0);
            MUST(foqheran_is_granted(answer));
            MUST(pool.counts[foqheran_value(answer)] == (page < FOQHERAN_INDEX_PAGES ? most : 1));
        }
    }
}

// Memory from elsewhere, where a client holds pages 1 and 2, and then page 1 twice: the check refuses it. What the calls
// do with it is SPECIFICATION 14.10.
static void held_twice(void)
{
    struct foqheran_row rows[2] = {{77, 77}, {77, 77}};
    MUST(foqheran_is_done(foqheran_setup(&pool, 2, 1, 1, 0, store, sizeof store)));
    for (uint32_t page = 1; page <= 2; page++) {
        MUST(foqheran_is_granted(foqheran_request(&pool, 0, page, NULL, store, sizeof store)));
    }
    MUST(foqheran_is_done(foqheran_check(&pool, store, sizeof store)));
    pool.grant_pages[1] = 1;
    MUST(refusal(foqheran_check(&pool, store, sizeof store)) == FOQHERAN_OUT_OF_RANGE);
    MUST(refusal(foqheran_begin(&pool, 0, 1)) == FOQHERAN_HELD_ALREADY);
    MUST(foqheran_value(foqheran_holdings(&pool, 0, rows, 1)) == 1 && rows[0].page == 1 && rows[0].times == 1);
    MUST(foqheran_is_done(foqheran_release(&pool, 0, 1)) && pool.grant_frames[0] == 1);
    MUST(foqheran_is_done(foqheran_release(&pool, 0, 1)));
    MUST(refusal(foqheran_release(&pool, 0, 1)) == FOQHERAN_NOT_HELD);
    // a grant of a page outside the store: 16 comes before 18
    MUST(foqheran_is_granted(foqheran_request(&pool, 0, 1, NULL, store, sizeof store)));
    pool.grant_pages[0] = 4;
    MUST(refusal(foqheran_begin(&pool, 0, 4)) == FOQHERAN_OUTSIDE_STORE);
}

// What the header begins with.
static void example(void)
{
    static uint8_t large[FOQHERAN_MOST_PAGES * FOQHERAN_PAGE_BYTES];
    MUST(foqheran_is_done(foqheran_setup(&pool, 8, 4, 3, 0, large, sizeof large)));
    MUST(foqheran_is_granted(foqheran_request(&pool, 0, 17, NULL, large, sizeof large)));
    MUST(foqheran_is_done(foqheran_write(&pool, 0, 17, 5, 1, large, sizeof large)));
    MUST(foqheran_read(&pool, 0, 17, 5, large, sizeof large) == 1);
    MUST(foqheran_value(foqheran_release(&pool, 0, 17)) == 17);
    for (uint32_t page = 0; page < 200; page++) { // until page 17 is dropped
        MUST(foqheran_is_granted(foqheran_request(&pool, 1, page, NULL, large, sizeof large)));
        MUST(foqheran_is_done(foqheran_release(&pool, 1, page)));
    }
    MUST(large[17 * FOQHERAN_PAGE_BYTES + 5] == 1);
}

int main(void)
{
    helpers();
    not_set_up();
    setups();
    requests();
    snapshots();
    eight_grants();
    index_pages();
    held_twice();
    example();
    return 0;
}
