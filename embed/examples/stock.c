// A small stock server: packing lists in a file, ticked off by several clients at once.
//
//     stock [CLIENTS [LISTS [TICKS [FILE]]]]
//
// Each client is a thread. All of them share one pool, behind one lock, and the pool is lent the file's content as its
// store: a list is a page, with one byte an item, which counts how often the item was packed. A client asks for a list,
// moves its request on by one action whenever it gets the lock, ticks off some items, and gives the list back; now and
// then it holds two. The pool has a slot for each client, so that lists are dropped and come back all the time. There
// is no index: lists 0 to 3, which have the numbers of index pages, just stay longer than the others.
//
// A tick is a read of the byte and a write of one more. If two clients ever had two copies of a list, a tick of one
// would be missing in the other's, and the count wrong from then on. The program notices that itself: it keeps books of
// which frame each held list is in and of every tick, compares them at each grant and each read, and in the end with
// the file. FILE is made anew; without it, it is a temporary one.

#define _POSIX_C_SOURCE 200809L

#include "foqheran.h"
#include <pthread.h>
#include <sched.h>
#include <stdio.h>
#include <stdlib.h>
#include <time.h>

enum { ITEMS = FOQHERAN_PAGE_BYTES, CAP = 3, TICKS_A_VISIT = 4, MOST_HELD = 2 };

static uint8_t client_count = 6;
static uint32_t list_count = 24;
static unsigned long ticks_of_each = 40000;

// What the threads share, and the lock for it.
static pthread_mutex_t lock = PTHREAD_MUTEX_INITIALIZER;
static struct foqheran_pool pool;
static struct foqheran_tally tally;
static uint8_t store[FOQHERAN_MOST_PAGES * ITEMS];
static size_t store_length;

// The books. They are changed under the same lock, each together with the call that it is about.
static struct {
    unsigned holders; // grants of the list that are open
    uint32_t frame; // where it is, as long as there are any
    uint8_t packed[ITEMS];
} books[FOQHERAN_MOST_PAGES];
static unsigned long actions, turns; // how many actions there were, and how many of them came after another client's
static uint8_t last_client;

static _Noreturn void fail(const char *what, uint32_t list)
{
    fprintf(stderr, "stock: list %u: %s\n", list, what);
    exit(1);
}

static foqheran_answer expect_done(foqheran_answer answer, uint32_t list)
{
    if (!foqheran_is_done(answer)) {
        fail(foqheran_refusal_text(answer), list);
    }
    return answer;
}

// ---- one action each, under the lock

static void note_grant(uint32_t list, uint32_t frame)
{
    if (books[list].holders > 0 && books[list].frame != frame) {
        fail("held in two copies", list);
    }
    for (uint32_t other = 0; other < list_count; other++) {
        if (other != list && books[other].holders > 0 && books[other].frame == frame) {
            fail("granted in another list's frame", list);
        }
    }
    books[list].holders++;
    books[list].frame = frame;
}

static foqheran_answer begin(uint8_t client, uint32_t list)
{
    pthread_mutex_lock(&lock);
    foqheran_answer answer = foqheran_begin(&pool, client, list);
    pthread_mutex_unlock(&lock);
    return answer;
}

static foqheran_answer step(uint8_t client, uint32_t list)
{
    pthread_mutex_lock(&lock);
    foqheran_answer answer = foqheran_step(&pool, client, &tally, NULL, store, store_length);
    if (foqheran_is_granted(answer)) {
        note_grant(list, foqheran_value(answer));
    }
    actions++;
    turns += client != last_client;
    last_client = client;
    pthread_mutex_unlock(&lock);
    return answer;
}

// The read and the write are under one lock: the pool sees to it that a reader gets the last byte written, and the lock
// that nobody writes between.
static void tick(uint8_t client, uint32_t list, uint32_t item)
{
    pthread_mutex_lock(&lock);
    foqheran_answer answer = expect_done(foqheran_read(&pool, client, list, item, store, store_length), list);
    uint8_t packed = (uint8_t)foqheran_value(answer);
    if (packed != books[list].packed[item]) {
        fail("a tick is missing", list);
    }
    expect_done(foqheran_write(&pool, client, list, item, (uint8_t)(packed + 1), store, store_length), list);
    books[list].packed[item]++; // and not what was written: two clients that both read 4 would both write 5
    pthread_mutex_unlock(&lock);
}

static void release(uint8_t client, uint32_t list)
{
    pthread_mutex_lock(&lock);
    expect_done(foqheran_release(&pool, client, list), list);
    books[list].holders--;
    pthread_mutex_unlock(&lock);
}

// ---- a client

struct client {
    pthread_t thread;
    uint8_t number;
    uint64_t chance;
    unsigned held;
    uint32_t lists[MOST_HELD];
};

static uint32_t below(struct client *client, uint32_t bound)
{
    client->chance ^= client->chance << 13;
    client->chance ^= client->chance >> 7;
    client->chance ^= client->chance << 17;
    return (uint32_t)(client->chance >> 33) % bound;
}

// Whether the client has the list now. Between two actions others may have their turn.
static int get(struct client *client, uint32_t list)
{
    foqheran_answer answer = begin(client->number, list);
    if (foqheran_refusal(answer) == FOQHERAN_HELD_ALREADY) {
        return 1;
    }
    expect_done(answer, list);
    answer = step(client->number, list);
    while (foqheran_is_working(answer)) {
        sched_yield();
        answer = step(client->number, list);
    }
    if (foqheran_is_granted(answer)) {
        client->lists[client->held++] = list;
        return 1;
    }
    if (foqheran_refusal(answer) != FOQHERAN_ALL_BUSY) {
        fail(foqheran_refusal_text(answer), list);
    }
    return 0;
}

static void give_all_back(struct client *client)
{
    while (client->held > 0) {
        release(client->number, client->lists[--client->held]);
    }
}

// After a refusal by 15. Clients that all came back at once would all be refused again: each waits for another time,
// and longer from try to try, up to some two milliseconds.
static void wait_a_little(const struct client *client, unsigned tries)
{
    long microseconds = (20 + 5 * (long)client->number) << (tries < 5 ? tries : 5);
    nanosleep(&(struct timespec){.tv_nsec = 1000 * microseconds}, NULL);
}

// Where every slot is in use, the client gives back what it holds before it tries again: if all clients kept theirs and
// waited for more, none would ever get it.
static void *work(void *given)
{
    struct client *client = given;
    for (unsigned long ticks = 0; ticks < ticks_of_each;) {
        uint32_t list = below(client, below(client, 2) == 0 ? list_count : 1 + list_count / 4); // some are in demand
        for (unsigned tries = 0; !get(client, list); tries++) {
            give_all_back(client);
            wait_a_little(client, tries);
        }
        for (int i = 0; i < TICKS_A_VISIT && ticks < ticks_of_each; i++, ticks++) {
            tick(client->number, list, below(client, ITEMS));
        }
        if (client->held == MOST_HELD || below(client, 2) == 0) {
            give_all_back(client);
        }
    }
    give_all_back(client);
    return NULL;
}

static void run_clients(void)
{
    static struct client clients[FOQHERAN_MOST_CLIENTS];
    for (uint8_t c = 0; c < client_count; c++) {
        clients[c].number = c;
        clients[c].chance = 0x9e3779b97f4a7c15u + c;
        if (pthread_create(&clients[c].thread, NULL, work, &clients[c]) != 0) {
            fprintf(stderr, "stock: no thread for client %u\n", c);
            exit(1);
        }
    }
    for (uint8_t c = 0; c < client_count; c++) {
        pthread_join(clients[c].thread, NULL);
    }
}

// ---- the file

static FILE *open_file(const char *path)
{
    FILE *file = path != NULL ? fopen(path, "w+b") : tmpfile();
    if (file == NULL) {
        perror(path != NULL ? path : "a temporary file");
        exit(1);
    }
    return file;
}

static void write_file(FILE *file, const uint8_t *bytes)
{
    rewind(file);
    if (fwrite(bytes, 1, store_length, file) != store_length || fflush(file) != 0) {
        perror("the file cannot be written");
        exit(1);
    }
}

static void read_file(FILE *file, uint8_t *bytes)
{
    rewind(file);
    if (fread(bytes, 1, store_length, file) != store_length) {
        perror("the file cannot be read");
        exit(1);
    }
}

// A day begins with lists that are packed in part, each in another way.
static void make_lists(FILE *file)
{
    static uint8_t lists[sizeof store];
    for (size_t i = 0; i < store_length; i++) {
        lists[i] = (uint8_t)(i * 7 + i / ITEMS);
        books[i / ITEMS].packed[i % ITEMS] = lists[i];
    }
    write_file(file, lists);
}

// At the end of the day the store is not up to date: a list that was ticked off goes there when it is dropped, and some
// are still in frames. No call puts them all back. But whoever asks for a list and reads it gets every byte that was
// written last, wherever it is, so one client does this with all lists in turn, and what it read goes to the file. The
// store is left alone: it is the pool's, as long as the pool is used.
static void save_lists(FILE *file)
{
    static uint8_t lists[sizeof store];
    for (uint32_t list = 0; list < list_count; list++) {
        if (!foqheran_is_granted(foqheran_request(&pool, 0, list, NULL, store, store_length))) {
            fail("not granted at the end of the day", list);
        }
        for (uint32_t item = 0; item < ITEMS; item++) {
            foqheran_answer answer = foqheran_read(&pool, 0, list, item, store, store_length);
            lists[list * ITEMS + item] = (uint8_t)foqheran_value(expect_done(answer, list));
        }
        expect_done(foqheran_release(&pool, 0, list), list);
    }
    write_file(file, lists);
}

static void check_file(FILE *file)
{
    static uint8_t lists[sizeof store];
    read_file(file, lists);
    for (size_t i = 0; i < store_length; i++) {
        if (lists[i] != books[i / ITEMS].packed[i % ITEMS]) {
            fail("a tick is missing in the file", (uint32_t)(i / ITEMS));
        }
    }
}

// ---- the program

static unsigned long number(const char *word, unsigned long most)
{
    char *end;
    unsigned long found = strtoul(word, &end, 10);
    if (*end != '\0' || found < 1 || found > most) {
        fprintf(stderr, "usage: stock [CLIENTS [LISTS [TICKS [FILE]]]], with 1 to 16 clients and 1 to 256 lists\n");
        exit(1);
    }
    return found;
}

int main(int count, char **words)
{
    if (count > 1) {
        client_count = (uint8_t)number(words[1], FOQHERAN_MOST_CLIENTS);
    }
    if (count > 2) {
        list_count = (uint32_t)number(words[2], FOQHERAN_MOST_PAGES);
    }
    if (count > 3) {
        ticks_of_each = number(words[3], 1000000);
    }
    store_length = (size_t)list_count * ITEMS;
    FILE *file = open_file(count > 4 ? words[4] : NULL);
    make_lists(file);
    read_file(file, store);
    expect_done(foqheran_setup(&pool, client_count, client_count, CAP, 0, store, store_length), 0);
    run_clients();
    save_lists(file);
    check_file(file);
    fclose(file);
    printf("clients %u, slots %u, lists %u, ticks of each client %lu\n", client_count, client_count, list_count,
           ticks_of_each);
    printf("%lu actions, %lu of them after another client's; lists were there %u times, brought in %u, dropped %u, "
           "kept after all %u; %u requests met only busy slots\n",
           actions, turns, tally.counts[FOQHERAN_HITS] + tally.counts[FOQHERAN_JOINS], tally.counts[FOQHERAN_ADMITTED],
           tally.counts[FOQHERAN_DROPS], tally.counts[FOQHERAN_REVIVED], tally.counts[FOQHERAN_REFUSALS]);
    printf("no list was held in two copies, and every tick is in the file\n");
    return 0;
}
