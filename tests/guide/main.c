// Calls the functions of docs/SERVER.md.
#include <stdio.h>
#include <stdlib.h>
#include <string.h>

static uint8_t on_disk[10]; // by page: how often it was written

void write_page(uint32_t page, const uint8_t *bytes)
{
    on_disk[page] = (uint8_t)(on_disk[page] + bytes[0]);
}

static void expect(int holds, const char *what)
{
    if (!holds) {
        fprintf(stderr, "not so: %s\n", what);
        exit(1);
    }
}

static uint8_t grant_in_a_buffer(uint8_t client, uint32_t page)
{
    expect(foqheran_is_done(foqheran_begin(&pool, client, page)), "the begin is done");
    foqheran_answer answer;
    do {
        answer = step_and_carry_out(client);
    } while (foqheran_is_working(answer));
    expect(foqheran_is_granted(answer), "the page is granted in a buffer");
    return (uint8_t)foqheran_value(answer);
}

int main(void)
{
    static uint8_t saved[sizeof store];
    expect(set_up(), "the setup is done");
    foqheran_answer first = fetch(0, 12);
    expect(foqheran_is_granted(first) && fetch(1, 12) == first, "one page has one frame");
    expect(foqheran_is_done(tick(0, 12, 5)) && foqheran_is_done(tick(1, 12, 5)), "both tick");
    expect(save(3, saved) && saved[12 * 64 + 5] == 2 && saved[12 * 64 + 6] == 0, "both ticks are saved");
    expect(usable(&pool, store, sizeof store), "the pool passes its check");
    pool.cap = 101;
    expect(!usable(&pool, store, sizeof store), "a pool with a wrong number does not");

    // more pages than slots, each changed in its buffer: two of them have to be written back
    expect(foqheran_is_done(foqheran_setup(&pool, 8, 4, 1, 0, NULL, 0)), "the setup without a store is done");
    for (uint32_t page = 0; page < 10; page++) {
        struct buffer *buffer = &buffers[grant_in_a_buffer(0, page)];
        expect(!buffer->loaded && !buffer->dirty, "the buffer has nothing yet");
        memset(buffer->bytes, 1, sizeof buffer->bytes);
        buffer->loaded = buffer->dirty = 1;
        foqheran_release(&pool, 0, page);
    }
    int written = 0;
    for (size_t page = 0; page < sizeof on_disk; page++) {
        written += on_disk[page];
    }
    expect(written == 2, "two pages are written back");

    expect(part_of(7) == part_of(7 + POOLS) && part_of(7) != part_of(8), "pages are split by number");
    return 0;
}
