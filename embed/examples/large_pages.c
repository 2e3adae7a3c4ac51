// Pages of 4,096 bytes in a program's own buffers, kept in a file.
//
//     large_pages [CLIENTS [PAGES [TICKS [FILE]]]]
//
// The pool is set up without a store: it says which page is in which frame, and the bytes are the program's. It has one
// buffer for each frame, with two marks, loaded and dirty. What it owes the pool:
//
//   - A step may tell of a duty. It is carried out before anybody else makes a call: a page that leaves the pool is
//     written to the file, and a page that is kept in another frame has its bytes moved there.
//   - A client that is granted a page whose buffer is not loaded loads it from the file; clients that are granted the
//     same frame meanwhile wait until it has. It holds the page, so that no duty comes for this buffer.
//   - Whoever writes to a page that it holds marks the buffer dirty, and does so before it releases the page.
//
// Clients are threads that share the pool behind one lock, each moving its request on by one action whenever it gets
// in. A page is a list of counts with its own number and their sum; a tick adds one to a count and to the sum. The
// program keeps books of which frame each held page is in and of each page's sum, which no second copy of a page could
// agree with, and compares them at each grant and each tick, and in the end with the file. FILE is made anew; without
// it, it is a temporary one. There is no index: pages 0 to 3, which to the pool are index pages, just stay longer.

#define _POSIX_C_SOURCE 200809L

#include "foqheran.h"
#include <pthread.h>
#include <sched.h>
#include <stdio.h>
#include <stdlib.h>
#include <time.h>
#include <unistd.h>

enum { PAGE_BYTES = 4096, ITEMS = PAGE_BYTES / 4 - 2, MOST_PAGES = 1000, CAP = 3, TICKS_A_VISIT = 4, MOST_HELD = 2 };

struct page {
    uint32_t number;
    uint32_t sum;
    uint32_t counts[ITEMS];
};

struct buffer {
    struct page page;
    int loaded, dirty;
};

static_assert(sizeof(struct page) == PAGE_BYTES, "a page in a buffer is a page in the file");

static uint8_t client_count = 6;
static uint32_t page_count = 40;
static unsigned long ticks_of_each = 20000;
static int file;

// What the threads share, and the lock for it. A buffer is its holders', under the page's latch, as long as the page is
// held, and the lock's when it is not.
static pthread_mutex_t lock = PTHREAD_MUTEX_INITIALIZER;
static struct foqheran_pool pool;
static struct foqheran_tally tally;
static struct buffer *buffers; // one a frame: slots + 2 * clients of them

static struct {
    pthread_mutex_t latch; // for the page's buffer and its sum: clients that hold one page write to one buffer
    uint32_t sum;
    unsigned holders; // under the lock, as the frame is
    uint32_t frame;
} books[MOST_PAGES];
static unsigned long actions, turns; // how many actions there were, and how many of them came after another client's
static uint8_t last_client;

static _Noreturn void fail(const char *what, uint32_t page)
{
    fprintf(stderr, "large_pages: page %u: %s\n", page, what);
    exit(1);
}

static void expect_done(foqheran_answer answer, uint32_t page)
{
    if (!foqheran_is_done(answer)) {
        fail(foqheran_refusal_text(answer), page);
    }
}

// ---- the file

static void load(uint32_t number, struct page *page)
{
    if (pread(file, page, PAGE_BYTES, (off_t)number * PAGE_BYTES) != PAGE_BYTES) {
        fail("cannot be read", number);
    }
}

static void save(uint32_t number, const struct page *page)
{
    if (pwrite(file, page, PAGE_BYTES, (off_t)number * PAGE_BYTES) != PAGE_BYTES) {
        fail("cannot be written", number);
    }
}

static void check_page(const struct page *page, uint32_t number)
{
    uint32_t sum = 0;
    for (size_t i = 0; i < ITEMS; i++) {
        sum += page->counts[i];
    }
    if (page->number != number) {
        fail("has another page's bytes", number);
    }
    if (page->sum != books[number].sum || sum != books[number].sum) {
        fail("a tick is missing", number);
    }
}

// ---- one action each, under the lock

// It is done with the step, so that nobody can load the page before it is in the file, or be granted the frame before
// it has the bytes.
static void carry_out(foqheran_duty duty)
{
    struct buffer *from = &buffers[foqheran_duty_frame(duty)];
    switch (foqheran_duty_kind(duty)) {
    case FOQHERAN_WRITE_BACK:
        if (from->loaded && from->dirty) {
            save(foqheran_duty_page(duty), &from->page);
        }
        from->loaded = from->dirty = 0;
        break;
    case FOQHERAN_MOVE:
        buffers[foqheran_duty_target(duty)] = *from;
        from->loaded = from->dirty = 0;
        break;
    default:
        break;
    }
}

static void note_grant(uint32_t page, uint32_t frame)
{
    if (books[page].holders > 0 && books[page].frame != frame) {
        fail("held in two copies", page);
    }
    for (uint32_t other = 0; other < page_count; other++) {
        if (other != page && books[other].holders > 0 && books[other].frame == frame) {
            fail("granted in another page's frame", page);
        }
    }
    books[page].holders++;
    books[page].frame = frame;
}

static foqheran_answer begin(uint8_t client, uint32_t page)
{
    pthread_mutex_lock(&lock);
    foqheran_answer answer = foqheran_begin(&pool, client, page);
    pthread_mutex_unlock(&lock);
    return answer;
}

static foqheran_answer step(uint8_t client, uint32_t page)
{
    foqheran_duty duty;
    pthread_mutex_lock(&lock);
    foqheran_answer answer = foqheran_step(&pool, client, &tally, &duty, NULL, 0);
    carry_out(duty);
    if (foqheran_is_granted(answer)) {
        note_grant(page, foqheran_value(answer));
    }
    actions++;
    turns += client != last_client;
    last_client = client;
    pthread_mutex_unlock(&lock);
    return answer;
}

static void release(uint8_t client, uint32_t page)
{
    pthread_mutex_lock(&lock);
    expect_done(foqheran_release(&pool, client, page), page);
    books[page].holders--;
    pthread_mutex_unlock(&lock);
}

// ---- a page that is held

// Whoever comes first reads the file, without the pool's lock, so that others go on meanwhile; who wants the same page
// waits at its latch.
static void load_buffer(struct buffer *buffer, uint32_t page)
{
    pthread_mutex_lock(&books[page].latch);
    if (!buffer->loaded) {
        load(page, &buffer->page);
        buffer->loaded = 1;
    }
    pthread_mutex_unlock(&books[page].latch);
}

static void tick(struct buffer *buffer, uint32_t page, uint32_t item)
{
    pthread_mutex_lock(&books[page].latch);
    check_page(&buffer->page, page);
    buffer->page.counts[item]++;
    buffer->page.sum++;
    buffer->dirty = 1;
    books[page].sum++;
    pthread_mutex_unlock(&books[page].latch);
}

// ---- a client

struct client {
    pthread_t thread;
    uint8_t number;
    uint64_t chance;
    unsigned held;
    struct {
        uint32_t page;
        struct buffer *buffer;
    } holds[MOST_HELD];
};

static uint32_t below(struct client *client, uint32_t bound)
{
    client->chance ^= client->chance << 13;
    client->chance ^= client->chance >> 7;
    client->chance ^= client->chance << 17;
    return (uint32_t)(client->chance >> 33) % bound;
}

// The buffer of a page that the client holds.
static struct buffer *held_buffer(const struct client *client, uint32_t page)
{
    for (unsigned i = 0; i < client->held; i++) {
        if (client->holds[i].page == page) {
            return client->holds[i].buffer;
        }
    }
    fail("said to be held, and is not", page);
}

// The buffer with the page, or NULL where every slot is in use. Between two actions others may have their turn.
static struct buffer *get(struct client *client, uint32_t page)
{
    foqheran_answer answer = begin(client->number, page);
    if (foqheran_refusal(answer) == FOQHERAN_HELD_ALREADY) {
        return held_buffer(client, page);
    }
    expect_done(answer, page);
    answer = step(client->number, page);
    while (foqheran_is_working(answer)) {
        sched_yield();
        answer = step(client->number, page);
    }
    if (foqheran_refusal(answer) == FOQHERAN_ALL_BUSY) {
        return NULL;
    }
    if (!foqheran_is_granted(answer)) {
        fail(foqheran_refusal_text(answer), page);
    }
    struct buffer *buffer = &buffers[foqheran_value(answer)];
    load_buffer(buffer, page);
    client->holds[client->held].page = page;
    client->holds[client->held++].buffer = buffer;
    return buffer;
}

static void give_all_back(struct client *client)
{
    while (client->held > 0) {
        release(client->number, client->holds[--client->held].page);
    }
}

// After a refusal by 15. Clients that all came back at once would all be refused again: each waits for another time,
// and longer from try to try, up to some two milliseconds.
static void wait_a_little(const struct client *client, unsigned tries)
{
    long microseconds = (20 + 5 * (long)client->number) << (tries < 5 ? tries : 5);
    nanosleep(&(struct timespec){.tv_nsec = 1000 * microseconds}, NULL);
}

// Where every slot is in use, the client gives back what it holds before it tries again: if all clients kept theirs and
// waited for more, none would ever get it.
static void *work(void *given)
{
    struct client *client = given;
    for (unsigned long ticks = 0; ticks < ticks_of_each;) {
        uint32_t page = below(client, below(client, 2) == 0 ? page_count : 1 + page_count / 4); // some are in demand
        struct buffer *buffer;
        for (unsigned tries = 0; (buffer = get(client, page)) == NULL; tries++) {
            give_all_back(client);
            wait_a_little(client, tries);
        }
        for (int i = 0; i < TICKS_A_VISIT && ticks < ticks_of_each; i++, ticks++) {
            tick(buffer, page, below(client, ITEMS));
        }
        if (client->held == MOST_HELD || below(client, 2) == 0) {
            give_all_back(client);
        }
    }
    give_all_back(client);
    return NULL;
}

static void run_clients(void)
{
    static struct client clients[FOQHERAN_MOST_CLIENTS];
    for (uint8_t c = 0; c < client_count; c++) {
        clients[c].number = c;
        clients[c].chance = 0x9e3779b97f4a7c15u + c;
        if (pthread_create(&clients[c].thread, NULL, work, &clients[c]) != 0) {
            fprintf(stderr, "large_pages: no thread for client %u\n", c);
            exit(1);
        }
    }
    for (uint8_t c = 0; c < client_count; c++) {
        pthread_join(clients[c].thread, NULL);
    }
}

// ---- the beginning and the end

static void make_file(void)
{
    static struct page empty;
    for (uint32_t page = 0; page < page_count; page++) {
        pthread_mutex_init(&books[page].latch, NULL);
        empty.number = page;
        save(page, &empty);
    }
}

// All clients rest, so that no page is on its way from one frame to another: what is loaded and dirty is all there is.
static void save_buffers(size_t buffer_count)
{
    for (size_t f = 0; f < buffer_count; f++) {
        if (buffers[f].loaded && buffers[f].dirty) {
            save(buffers[f].page.number, &buffers[f].page);
        }
    }
}

static void check_file(void)
{
    static struct page found;
    for (uint32_t page = 0; page < page_count; page++) {
        load(page, &found);
        check_page(&found, page);
    }
}

static int open_file(const char *path)
{
    FILE *opened = path != NULL ? fopen(path, "w+b") : tmpfile();
    if (opened == NULL) {
        perror(path != NULL ? path : "a temporary file");
        exit(1);
    }
    return fileno(opened);
}

static unsigned long number(const char *word, unsigned long most)
{
    char *end;
    unsigned long found = strtoul(word, &end, 10);
    if (*end != '\0' || found < 1 || found > most) {
        fprintf(stderr, "usage: large_pages [CLIENTS [PAGES [TICKS [FILE]]]], with 1 to 16 clients and 1 to %d pages\n",
                MOST_PAGES);
        exit(1);
    }
    return found;
}

int main(int count, char **words)
{
    if (count > 1) {
        client_count = (uint8_t)number(words[1], FOQHERAN_MOST_CLIENTS);
    }
    if (count > 2) {
        page_count = (uint32_t)number(words[2], MOST_PAGES);
    }
    if (count > 3) {
        ticks_of_each = number(words[3], 1000000);
    }
    file = open_file(count > 4 ? words[4] : NULL);
    make_file();
    expect_done(foqheran_setup(&pool, client_count, client_count, CAP, 0, NULL, 0), 0);
    size_t buffer_count = foqheran_frames(&pool);
    buffers = calloc(buffer_count, sizeof *buffers);
    if (buffers == NULL) {
        fprintf(stderr, "large_pages: no memory for %zu buffers\n", buffer_count);
        return 1;
    }
    run_clients();
    save_buffers(buffer_count);
    check_file();
    free(buffers);
    printf("clients %u, slots %u, buffers %zu, pages %u, ticks of each client %lu\n", client_count, client_count,
           buffer_count, page_count, ticks_of_each);
    printf("%lu actions, %lu of them after another client's; pages were there %u times, brought in %u, dropped %u, "
           "kept after all %u; %u requests met only busy slots\n",
           actions, turns, tally.counts[FOQHERAN_HITS] + tally.counts[FOQHERAN_JOINS], tally.counts[FOQHERAN_ADMITTED],
           tally.counts[FOQHERAN_DROPS], tally.counts[FOQHERAN_REVIVED], tally.counts[FOQHERAN_REFUSALS]);
    printf("no page was held in two copies, and every tick is in the file\n");
    return 0;
}
