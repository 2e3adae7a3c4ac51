// Plays a list of calls on a pool in place, from C: what in_place.rs times beside the same list from Rust.
#include "foqheran.h"

struct call {
    uint32_t page;
    uint32_t offset;
    uint8_t kind;
    uint8_t client;
    uint8_t byte;
};

// What a caller has to provide room for.
size_t in_place_bytes(void)
{
    return sizeof(struct foqheran_pool);
}

uint64_t in_place_setup(struct foqheran_pool *pool, uint8_t slots, uint8_t clients, uint8_t cap, uint32_t hand,
                        const uint8_t *store, size_t length)
{
    return foqheran_setup(pool, slots, clients, cap, hand, store, length);
}

// The sum of all answers.
uint64_t in_place_play(struct foqheran_pool *pool, const struct call *calls, size_t count, uint8_t *store,
                       size_t length)
{
    struct foqheran_tally tally = {{0}};
    uint64_t sum = 0;
    for (size_t i = 0; i < count; i++) {
        const struct call call = calls[i];
        switch (call.kind) {
        case 1:
            sum += foqheran_begin(pool, call.client, call.page);
            break;
        case 2:
            sum += foqheran_step(pool, call.client, &tally, NULL, store, length);
            break;
        case 3:
            sum += foqheran_release(pool, call.client, call.page);
            break;
        case 4:
            sum += foqheran_read(pool, call.client, call.page, call.offset, store, length);
            break;
        default:
            sum += foqheran_write(pool, call.client, call.page, call.offset, call.byte, store, length);
        }
    }
    return sum;
}
