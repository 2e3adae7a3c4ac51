// Calls the proved functions on memory of all kinds: random numbers, numbers in their ranges that no run would leave,
// and pools that calls made, in which numbers are then spoilt. Every call has to answer what it may answer, and to
// change nothing but what its answer allows: not the guard bytes around each part, not another client's numbers, and
// nothing at all where it refuses (15 excepted, which puts its client to rest). A test program.
//
// usage: memory CALLS SEED

#include "foqheran.h"
#include <stdarg.h>
#include <stdio.h>
#include <stdlib.h>
#include <string.h>

enum { GUARD = 256, STORE_PAGES = 40, ROW_NUMBERS = 2 * FOQHERAN_MOST_GRANTS };

// Everything that is lent, as X(type, name, how many). Wider types come first, so that there are no gaps.
#define PARTS(X) \
    X(uint64_t, duty, 1) \
    X(uint32_t, hand, 1) \
    X(uint32_t, pages, 96) \
    X(uint32_t, table_pages, 96) \
    X(uint32_t, client_words, 32) \
    X(uint32_t, grant_pages, 128) \
    X(uint32_t, tally, 6) \
    X(uint32_t, rows, ROW_NUMBERS) \
    X(uint16_t, store_pages, 1) \
    X(uint8_t, size, 1) \
    X(uint8_t, client_count, 1) \
    X(uint8_t, cap, 1) \
    X(uint8_t, free, 1) \
    X(uint8_t, last, 1) \
    X(uint8_t, slots, 64) \
    X(uint8_t, pins, 96) \
    X(uint8_t, counts, 96) \
    X(uint8_t, table_frames, 96) \
    X(uint8_t, client_bytes, 128) \
    X(uint8_t, grant_frames, 128) \
    X(uint8_t, filled, 96) \
    X(uint8_t, changed, 96) \
    X(uint8_t, bytes, 6144) \
    X(uint8_t, store, STORE_PAGES *FOQHERAN_PAGE_BYTES)

#define GUARDED(type, name, count) \
    uint8_t guard_of_##name[GUARD]; \
    type name[count];

struct memory {
    PARTS(GUARDED)
    uint8_t last_guard[GUARD];
};

static struct memory now, before; // the same between two calls

struct part {
    const char *name;
    size_t at, length, each;
};

#define LISTED(type, name, count) {#name, offsetof(struct memory, name), sizeof now.name, sizeof(type)},

static const struct part parts[] = {PARTS(LISTED)};

enum { PART_COUNT = sizeof parts / sizeof *parts };

// ---- random numbers

static uint64_t state;

static uint64_t random_number(void)
{
    state ^= state << 13;
    state ^= state >> 7;
    state ^= state << 17;
    return state;
}

static uint32_t below(uint32_t bound)
{
    return (uint32_t)((random_number() >> 32) % bound);
}

static int once_in(uint32_t times)
{
    return below(times) == 0;
}

// A number below the bound, or, once in a while, any number up to the largest.
static uint32_t mostly_below(uint32_t bound, uint32_t largest)
{
    return once_in(24) ? (uint32_t)(random_number() % ((uint64_t)largest + 1)) : below(bound);
}

// ---- memory to be called on

// A guard byte is an empty slot, an evicted frame, a frame without pins, or anything: what a call that goes astray
// might go on with.
static void set_guards(void)
{
    static const uint8_t tempting[] = {255, 0, 1};
    for (size_t i = 0; i < sizeof now; i++) {
        ((uint8_t *)&now)[i] = once_in(4) ? (uint8_t)random_number() : tempting[below(sizeof tempting)];
    }
}

static void randomize(void *to, size_t length)
{
    uint8_t *bytes = to;
    for (size_t i = 0; i < length; i += 8) {
        uint64_t number = random_number();
        memcpy(bytes + i, &number, length - i < 8 ? length - i : 8);
    }
}

static void any_numbers(void)
{
    for (size_t i = 0; i < PART_COUNT; i++) {
        randomize((uint8_t *)&now + parts[i].at, parts[i].length);
    }
    now.size[0] = (uint8_t)mostly_below(70, 255);
    now.client_count[0] = (uint8_t)mostly_below(18, 255);
    now.store_pages[0] = (uint16_t)mostly_below(STORE_PAGES + 2, 65535);
}

static uint8_t frame_or_none(uint32_t frames)
{
    return (uint8_t)(once_in(4) ? 255 : below(frames));
}

// Numbers that pass most tests. Which frame is where is left to chance, so no run would leave such a pool.
static void numbers_in_range(void)
{
    any_numbers();
    uint32_t slots = 1 + below(64), clients = 1 + below(16), frames = slots + 2 * clients;
    uint32_t page_bound = once_in(2) ? 4 : 60;
    now.size[0] = (uint8_t)slots;
    now.client_count[0] = (uint8_t)clients;
    now.cap[0] = (uint8_t)(1 + below(100));
    now.free[0] = (uint8_t)below(slots + 1);
    now.last[0] = frame_or_none(frames);
    now.store_pages[0] = (uint16_t)(once_in(3) ? 0 : 1 + below(STORE_PAGES));
    for (size_t i = 0; i < 64; i++) {
        now.slots[i] = frame_or_none(frames);
    }
    for (size_t i = 0; i < 96; i++) {
        now.pages[i] = below(page_bound);
        now.pins[i] = (uint8_t)(once_in(8) ? below(130) : below(3));
        now.counts[i] = (uint8_t)below(3);
        now.table_pages[i] = (uint32_t)i * 31 % page_bound;
        now.table_frames[i] = frame_or_none(frames);
    }
    for (size_t c = 0; c < 16; c++) {
        uint8_t *client = now.client_bytes + 8 * c;
        client[0] = (uint8_t)below(24);
        for (size_t i = 1; i <= 3; i++) {
            client[i] = (uint8_t)below(frames);
        }
        client[4] = once_in(2) ? now.free[0] : (uint8_t)below(slots + 1);
        client[5] = (uint8_t)below(slots);
        client[6] = (uint8_t)below(slots);
        client[7] = (uint8_t)below(9);
        now.client_words[2 * c] = below(page_bound);
    }
    for (size_t i = 0; i < 128; i++) {
        now.grant_pages[i] = below(page_bound);
        now.grant_frames[i] = (uint8_t)below(frames);
    }
}

// One number becomes another, or the same as the one before it.
static void spoil(void)
{
    const struct part *part = &parts[below(PART_COUNT)];
    size_t i = part->each * below((uint32_t)(part->length / part->each));
    uint8_t *at = (uint8_t *)&now + part->at + i;
    if (i > 0 && once_in(3)) {
        memmove(at, at - part->each, part->each);
    } else {
        randomize(at, part->each);
    }
    memcpy((uint8_t *)&before + part->at, (uint8_t *)&now + part->at, part->length);
}

// ---- what went wrong

static const char *const kinds[] = {"setup", "begin", "step", "release", "read", "write", "holdings", "check"};

enum { SETUP, BEGIN, STEP, RELEASE, READ, WRITE, HOLDINGS, CHECK, KIND_COUNT };

struct call {
    unsigned kind;
    uint8_t client;
    uint32_t page;
    size_t numbers; // that holdings are lent
    foqheran_answer answer;
};

static unsigned long made;

static _Noreturn void wrong(const struct call *call, const char *what, ...)
{
    va_list rest;
    va_start(rest, what);
    printf("call %lu, a %s, answered %u %u: ", made, kinds[call->kind], foqheran_code(call->answer),
           foqheran_value(call->answer));
    vprintf(what, rest);
    putchar('\n');
    va_end(rest);
    exit(1);
}

static _Noreturn void name_the_change(const struct call *call)
{
    size_t at = 0;
    while (((uint8_t *)&now)[at] == ((uint8_t *)&before)[at]) {
        at++;
    }
    for (size_t i = 0; i < PART_COUNT; i++) {
        if (at < parts[i].at) {
            wrong(call, "it changed the guard bytes before %s", parts[i].name);
        }
        if (at < parts[i].at + parts[i].length) {
            wrong(call, "it changed %s[%zu]", parts[i].name, (at - parts[i].at) / parts[i].each);
        }
    }
    wrong(call, "it changed the guard bytes after the store");
}

// ---- what a call may answer and change

static int may_refuse(unsigned kind, uint32_t number)
{
    static const uint8_t numbers[KIND_COUNT][7] = {{8},
                                                   {8, 9, 10, 12, 16, 18},
                                                   {8, 9, 11, 15},
                                                   {8, 9, 10, 13},
                                                   {8, 9, 10, 13, 16, 17},
                                                   {8, 9, 10, 13, 16, 17},
                                                   {8, 9, 14},
                                                   {8}};
    return number != 0 && memchr(numbers[kind], (int)number, sizeof numbers[kind]) != NULL;
}

static int may_answer(const struct call *call)
{
    uint32_t value = foqheran_value(call->answer);
    if (foqheran_is_refused(call->answer)) {
        return value == 0 && may_refuse(call->kind, foqheran_refusal(call->answer));
    }
    switch (call->kind) {
    case SETUP:
    case CHECK:
        return foqheran_is_done(call->answer) && value == now.size[0];
    case STEP:
        return foqheran_is_working(call->answer) ? value == now.client_bytes[8 * call->client] && value <= 23
                                                 : foqheran_is_granted(call->answer) && value <= 255;
    case READ:
        return foqheran_is_done(call->answer) && value <= 255;
    case HOLDINGS:
        return foqheran_is_done(call->answer) && 2 * value <= call->numbers;
    default:
        return foqheran_is_done(call->answer) && value == call->page;
    }
}

// What a call has changed here is no surprise.
static void allow(void *from, size_t length)
{
    size_t at = (size_t)((uint8_t *)from - (uint8_t *)&now);
    memcpy((uint8_t *)&before + at, from, length);
}

#define ALLOW(part) allow(now.part, sizeof now.part)

static void allow_client(uint8_t client)
{
    allow(now.client_bytes + 8 * client, 8);
    allow(now.client_words + 2 * client, 8);
}

static void allow_grants(uint8_t client)
{
    allow(now.grant_pages + 8 * client, 32);
    allow(now.grant_frames + 8 * client, 8);
}

static void allow_step(const struct call *call, size_t store_length)
{
    allow_client(call->client);
    ALLOW(tally);
    if (!foqheran_is_refused(call->answer)) {
        allow_grants(call->client);
        ALLOW(hand);
        ALLOW(free);
        ALLOW(last);
        ALLOW(slots);
        ALLOW(pages);
        ALLOW(pins);
        ALLOW(counts);
        ALLOW(table_pages);
        ALLOW(table_frames);
        ALLOW(bytes);
        ALLOW(filled);
        ALLOW(changed);
        allow(now.store, store_length);
    }
}

static void allow_all_but_lent(void)
{
    for (size_t i = 0; i < PART_COUNT; i++) {
        void *part = (uint8_t *)&now + parts[i].at;
        if (part != now.store && part != now.tally && part != now.rows && part != now.duty) {
            allow(part, parts[i].length);
        }
    }
}

static void allow_answered(const struct call *call, size_t store_length)
{
    int refused = foqheran_is_refused(call->answer);
    if (call->kind == STEP) {
        ALLOW(duty);
        if (refused && now.duty[0] != 0) {
            wrong(call, "it leaves a duty");
        }
        if (!refused || foqheran_refusal(call->answer) == FOQHERAN_ALL_BUSY) {
            allow_step(call, store_length);
        }
    } else if (!refused) {
        switch (call->kind) {
        case SETUP:
            allow_all_but_lent();
            break;
        case BEGIN:
            allow_client(call->client);
            break;
        case RELEASE:
            allow_client(call->client);
            allow_grants(call->client);
            ALLOW(pins);
            break;
        case WRITE:
            ALLOW(changed);
            ALLOW(bytes);
            ALLOW(filled);
            break;
        case READ:
            ALLOW(bytes);
            ALLOW(filled);
            break;
        case HOLDINGS:
            allow(now.rows, 8 * foqheran_value(call->answer));
            break;
        default:
            break;
        }
    }
}

// ---- the calls

#define ARRAYS \
    now.slots, now.pages, now.pins, now.counts, now.table_pages, now.table_frames, now.client_bytes, now.client_words, \
        now.grant_pages, now.grant_frames
#define LENT now.size[0], now.client_count[0], now.cap[0], now.hand, now.free, now.last, ARRAYS

// Of a client that may not be there; all these have their numbers somewhere in the arrays.
static const uint8_t *bytes_of(uint8_t client)
{
    return now.client_bytes + 8 * (client % 16);
}

// A page that the client holds, or another: mostly one that such a call is not refused for.
static uint32_t some_page(unsigned kind, uint8_t client)
{
    uint8_t held = bytes_of(client)[7];
    int another = kind == BEGIN ? !once_in(3) : once_in(3);
    return held == 0 || another ? mostly_below(once_in(2) ? 6 : 60, UINT32_MAX)
                                : now.grant_pages[8 * (client % 16) + below(held % 9u + 1) % 8];
}

static size_t some_length(void)
{
    size_t right = (size_t)FOQHERAN_PAGE_BYTES * now.store_pages[0];
    return right <= sizeof now.store && !once_in(24) ? right : below(sizeof now.store + 1);
}

static foqheran_answer answered(const struct call *call, size_t length, uint32_t offset)
{
    uint8_t client = call->client;
    uint32_t page = call->page;
    uint16_t pages = now.store_pages[0];
    uint8_t clients = now.client_count[0];
    switch (call->kind) {
    case SETUP:
        return foqheran_parts_setup(
            (uint8_t)mostly_below(once_in(2) ? 6 : 66, 255), (uint8_t)mostly_below(once_in(2) ? 4 : 18, 255),
            (uint8_t)mostly_below(102, 255), (uint32_t)random_number(), now.store, length, now.size, now.client_count,
            now.cap, now.store_pages, now.hand, now.free, now.last, ARRAYS, now.bytes, now.filled, now.changed);
    case BEGIN:
        return foqheran_parts_begin(client, page, pages, LENT);
    case STEP:
        now.duty[0] = random_number();
        return foqheran_parts_step(client, now.tally, now.duty, now.store, length, pages, now.bytes, now.filled,
                                   now.changed, LENT);
    case RELEASE:
        return foqheran_parts_release(client, page, LENT);
    case READ:
        return foqheran_parts_read(client, page, offset, now.store, length, pages, now.bytes, now.filled, clients,
                                   now.client_bytes, now.client_words, now.grant_pages, now.grant_frames);
    case WRITE:
        return foqheran_parts_write(client, page, offset, (uint8_t)random_number(), now.store, length, pages, now.bytes,
                                    now.filled, now.changed, clients, now.client_bytes, now.client_words,
                                    now.grant_pages, now.grant_frames);
    case HOLDINGS:
        return foqheran_parts_holdings(client, now.rows, call->numbers, clients, now.client_bytes,
                                       now.client_words, now.grant_pages);
    default:
        return foqheran_parts_check(now.store, length, pages, now.filled, now.changed, now.size[0], clients, now.cap[0],
                                    now.free[0], now.last[0], ARRAYS);
    }
}

static unsigned long by_8[KIND_COUNT], otherwise_refused[KIND_COUNT], accepted[KIND_COUNT], at_stage[24];

static void count(const struct call *call, uint8_t stage)
{
    if (foqheran_refusal(call->answer) == FOQHERAN_OUT_OF_RANGE) {
        by_8[call->kind]++;
    } else if (foqheran_is_refused(call->answer)) {
        otherwise_refused[call->kind]++;
    } else {
        accepted[call->kind]++;
        if (call->kind == STEP) {
            at_stage[stage]++;
        }
    }
}

static void make(struct call call)
{
    uint8_t stage = bytes_of(call.client)[0];
    size_t length = call.kind == SETUP ? below(STORE_PAGES + 1) * (once_in(8) ? 63u : 64u) : some_length();
    call.answer = answered(&call, length, mostly_below(66, UINT32_MAX));
    made++;
    if (!may_answer(&call)) {
        wrong(&call, "no such call is answered so");
    }
    allow_answered(&call, length);
    if (memcmp(&now, &before, sizeof now) != 0) {
        name_the_change(&call);
    }
    count(&call, stage);
}

// Most calls are such as the client may make.
static unsigned some_kind(uint8_t client)
{
    static const uint8_t at_rest[] = {BEGIN, BEGIN, BEGIN, RELEASE, READ, WRITE};
    if (once_in(8)) {
        return once_in(20) ? SETUP : 1 + below(KIND_COUNT - 1);
    }
    return bytes_of(client)[0] != 0 ? STEP : at_rest[below(sizeof at_rest)];
}

static void make_a_call(void)
{
    uint8_t client = (uint8_t)mostly_below(now.client_count[0] == 0 ? 1 : now.client_count[0], 255);
    unsigned kind = some_kind(client);
    struct call call = {kind, client, some_page(kind, client), below(ROW_NUMBERS + 1), 0};
    make(call);
}

static void start_anew(void)
{
    if (once_in(2)) {
        any_numbers();
    } else {
        numbers_in_range();
    }
    memcpy(&before, &now, sizeof now);
    if (once_in(2)) {
        struct call setup = {SETUP, 0, 0, 0, 0};
        make(setup);
    }
}

static void print_counts(void)
{
    unsigned long least = at_stage[1];
    for (size_t stage = 1; stage <= 23; stage++) {
        least = at_stage[stage] < least ? at_stage[stage] : least;
    }
    for (size_t kind = 0; kind < KIND_COUNT; kind++) {
        printf("%-9s %7lu accepted %7lu refused by 8 %7lu refused otherwise\n", kinds[kind], accepted[kind], by_8[kind],
               otherwise_refused[kind]);
        least = accepted[kind] < least ? accepted[kind] : least;
    }
    printf("each kind of call, and each stage, was accepted %lu times or more\n", least);
    if (least == 0) {
        exit(1);
    }
}

int main(int argument_count, char **arguments)
{
    if (argument_count != 3) {
        fprintf(stderr, "usage: memory CALLS SEED\n");
        return 2;
    }
    unsigned long calls = strtoul(arguments[1], NULL, 10);
    state = strtoul(arguments[2], NULL, 10) * 2 + 88172645463325253u; // not 0
    set_guards();
    while (made < calls) {
        start_anew();
        for (uint32_t more = 8 + below(120); more > 0; more--) {
            make_a_call();
            if (once_in(32)) {
                spoil();
            }
        }
    }
    print_counts();
    return 0;
}
