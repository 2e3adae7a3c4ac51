// Plays a file through the calls of foqheran.h, one call at a time, and prints what came of it. A test program:
// tests/embed.py compares what it prints with the second programs' reports, and does the same with the player in Rust,
// embed/rust/foqheran/examples/play.rs, which takes the same arguments:
//
//     play schedule FILE    a schedule file (docs/SPECIFICATION.md, section 9); prints its report
//     play script FILE      the records of crates/test_bytes; prints what that program prints for them
//
// Either reads the file whole. The exit status is 0 however a run ended, and 2 if the file cannot be read.

#include "foqheran.h"
#include <stdio.h>
#include <stdlib.h>
#include <string.h>

enum { LONGEST_SCHEDULE = 16384, SPACE = 16512, RECORD = 12 };

static uint8_t file[1 << 20];
static size_t file_length;
static struct foqheran_pool pool;

static uint32_t number_at(size_t at)
{
    return (uint32_t)file[at] | (uint32_t)file[at + 1] << 8 | (uint32_t)file[at + 2] << 16 |
           (uint32_t)file[at + 3] << 24;
}

// ---- what is tested besides the answers

static void must(int holds, const char *what)
{
    if (!holds) {
        fprintf(stderr, "play: %s\n", what);
        exit(1);
    }
}

// What the table's places tell of a step: an entry that is gone is a page to write back, one with another frame a move.
static foqheran_duty duty_told(const uint8_t *frames_before)
{
    for (size_t i = 0; i < FOQHERAN_MOST_FRAMES; i++) {
        uint64_t from = frames_before[i], to = pool.table_frames[i];
        if (from != to && from != 255) {
            return to == 255 ? (uint64_t)FOQHERAN_WRITE_BACK << 40 | from << 32 | pool.table_pages[i]
                             : (uint64_t)FOQHERAN_MOVE << 40 | from << 32 | to;
        }
    }
    return FOQHERAN_NOTHING;
}

static foqheran_answer stepped(uint8_t client, struct foqheran_tally *tally, uint8_t *store, size_t length)
{
    uint8_t frames_before[FOQHERAN_MOST_FRAMES];
    foqheran_duty duty = 1;
    memcpy(frames_before, pool.table_frames, sizeof frames_before);
    foqheran_answer answer = foqheran_step(&pool, client, tally, &duty, store, length);
    must(duty == duty_told(frames_before), "a step tells of another duty than it left");
    return answer;
}

// Check 8 passes on every pool of a run, as long as the store is as long as it was.
static void check(const uint8_t *store, size_t length)
{
    foqheran_answer answer = foqheran_check(&pool, store, length);
    int fits = length == (size_t)FOQHERAN_PAGE_BYTES * pool.store_pages;
    must(fits ? foqheran_is_done(answer) && foqheran_value(answer) == pool.size : foqheran_refusal(answer) == 8,
         "the check is answered wrong");
}

// ---- a schedule

enum { SETUP, BEGIN, STEP, RELEASE };

// What is wrong with the record at a place, in the order of the specification's checks 3 to 7; 0 if nothing is.
static uint32_t unreadable(size_t at)
{
    size_t left = file_length - at;
    if (left < 8 || (left < 10 && file[at + 2] == SETUP)) {
        return 3;
    }
    if (file[at] != 0x46 || file[at + 1] != 0x43) {
        return 4;
    }
    if (file[at + 2] > RELEASE) {
        return 5;
    }
    if ((file[at + 2] == SETUP) != (at == 0)) {
        return 6;
    }
    if (file[at + 2] == STEP && number_at(at + 4) != 0) {
        return 7;
    }
    return 0;
}

static foqheran_answer called(size_t at)
{
    uint8_t client = file[at + 3];
    switch (file[at + 2]) {
    case SETUP:
        return foqheran_setup(&pool, file[at + 3], file[at + 4], file[at + 5], number_at(at + 6), NULL, 0);
    case BEGIN:
        return foqheran_begin(&pool, client, number_at(at + 4));
    case STEP:
        return stepped(client, NULL, NULL, 0);
    default:
        return foqheran_release(&pool, client, number_at(at + 4));
    }
}

static void play_schedule(void)
{
    size_t at = 0;
    if (file_length > LONGEST_SCHEDULE) {
        return;
    }
    for (unsigned record = 0; record == 0 || at < file_length; record++) {
        uint32_t wrong = unreadable(at);
        foqheran_answer answer = wrong != 0 ? (uint64_t)(FOQHERAN_REFUSED + wrong) << 32 : called(at);
        int ends = foqheran_is_refused(answer) && foqheran_refusal(answer) <= FOQHERAN_OUT_OF_RANGE;
        unsigned client = ends || at == 0 ? 0 : file[at + 3];
        printf("%u %u %u %u\n", record, client, foqheran_code(answer), foqheran_value(answer));
        if (ends) {
            return;
        }
        check(NULL, 0);
        at += at == 0 ? 10 : 8;
    }
}

// ---- a script

// A record of a script, as crates/test_bytes has it.
struct line {
    uint8_t kind, client, byte, more;
    uint32_t page, offset;
};

enum { READ = RELEASE + 1, WRITE, LEND, DUMP, TALLY };

static uint8_t space[SPACE];
static size_t lent;
static struct foqheran_tally tally;

static void print_bytes(const uint8_t *bytes)
{
    putchar(' ');
    for (size_t i = 0; i < FOQHERAN_PAGE_BYTES; i++) {
        printf("%02x", bytes[i]);
    }
    putchar('\n');
}

static const struct foqheran_row untouched = {77, 77}; // nothing is held 77 times

// The client's holdings on the first so many of eight rows; how many it has.
static uint32_t print_list(uint8_t client, size_t room)
{
    struct foqheran_row rows[FOQHERAN_MOST_GRANTS];
    for (size_t i = 0; i < FOQHERAN_MOST_GRANTS; i++) {
        rows[i] = untouched;
    }
    foqheran_answer answer = foqheran_holdings(&pool, client, rows, room);
    printf("holds %u %zu %u %u", client, room, foqheran_code(answer), foqheran_value(answer));
    for (size_t i = 0; i < FOQHERAN_MOST_GRANTS; i++) {
        if (rows[i].page == untouched.page && rows[i].times == untouched.times) {
            printf(" .");
        } else {
            printf(" %ux%u", rows[i].page, rows[i].times);
        }
    }
    putchar('\n');
    return foqheran_value(answer);
}

// No call tells of bytes and marks as they stand, so a test has to look at the pool's fields.
static void dump(void)
{
    for (size_t f = 0; f < foqheran_frames(&pool); f++) {
        printf("%zu %d %d", f, pool.filled[f] != 0, pool.changed[f] != 0);
        print_bytes(pool.bytes + FOQHERAN_PAGE_BYTES * f);
    }
    for (size_t page = 0; page == 0 || page < pool.store_pages; page++) {
        putchar('-');
        print_bytes(space + FOQHERAN_PAGE_BYTES * page);
    }
    printf("tally");
    for (size_t i = 0; i < FOQHERAN_COUNTS; i++) {
        printf(" %u", tally.counts[i]);
    }
    putchar('\n');
    for (uint8_t client = 0; client <= pool.client_count; client++) {
        uint32_t needed = print_list(client, FOQHERAN_MOST_GRANTS);
        print_list(client, needed);
        if (needed > 0) {
            print_list(client, needed - 1);
        }
    }
}

static void print_answer(foqheran_answer answer)
{
    printf("%u %u\n", foqheran_code(answer), foqheran_value(answer));
}

static void lend(size_t length)
{
    if (length > SPACE) {
        fprintf(stderr, "play: a store of %zu bytes is longer than the space\n", length);
        exit(2);
    }
    lent = length;
}

static void play_line(struct line line)
{
    switch (line.kind) {
    case BEGIN:
        print_answer(foqheran_begin(&pool, line.client, line.page));
        break;
    case STEP:
        print_answer(stepped(line.client, &tally, space, lent));
        break;
    case RELEASE:
        print_answer(foqheran_release(&pool, line.client, line.page));
        break;
    case READ:
        print_answer(foqheran_read(&pool, line.client, line.page, line.offset, space, lent));
        break;
    case WRITE:
        print_answer(foqheran_write(&pool, line.client, line.page, line.offset, line.byte, space, lent));
        break;
    case LEND:
        lend(line.page);
        break;
    case DUMP:
        check(space, lent);
        dump();
        break;
    case TALLY:
        for (size_t i = 0; i < FOQHERAN_COUNTS; i++) {
            tally.counts[i] = line.page;
        }
        break;
    default:
        fprintf(stderr, "play: there is no record of kind %u\n", line.kind);
        exit(2);
    }
}

static struct line line_at(size_t at)
{
    struct line line = {file[at], file[at + 1], file[at + 2], file[at + 3], number_at(at + 4), number_at(at + 8)};
    return line;
}

static void play_script(void)
{
    for (size_t i = 0; i < SPACE; i++) {
        space[i] = (uint8_t)(7 * i + 13 * (i / FOQHERAN_PAGE_BYTES) + 5);
    }
    if (file_length < RECORD) {
        return;
    }
    struct line setup = line_at(0);
    lend(setup.offset);
    foqheran_answer answer = foqheran_setup(&pool, setup.client, setup.byte, setup.more, setup.page, space, lent);
    print_answer(answer);
    if (foqheran_is_done(answer)) {
        for (size_t at = RECORD; at + RECORD <= file_length; at += RECORD) {
            play_line(line_at(at));
        }
    }
}

int main(int count, char **words)
{
    FILE *in = count == 3 ? fopen(words[2], "rb") : NULL;
    int schedule = count == 3 && strcmp(words[1], "schedule") == 0;
    if (in == NULL || (!schedule && strcmp(words[1], "script") != 0)) {
        fprintf(stderr, "usage: play schedule FILE, or play script FILE, with a file that can be read\n");
        return 2;
    }
    file_length = fread(file, 1, sizeof file, in);
    fclose(in);
    if (file_length == sizeof file) {
        fprintf(stderr, "play: the file is too long\n");
        return 2;
    }
    memset(&pool, 0xaa, sizeof pool); // the setup has to set every part
    if (schedule) {
        play_schedule();
    } else {
        play_script();
    }
    return 0;
}
