/* What the C programs of this folder share: the tagged FNV hash, and a turn of Maglev's population (Maglev, section 3.4). */
#include <stddef.h>
#include <stdint.h>

static inline uint64_t fnv(uint8_t tag, const void *text, size_t len) {
    const uint8_t *bytes = text;
    uint64_t state = (0xcbf29ce484222325u ^ tag) * 0x100000001b3u;
    for (size_t i = 0; i < len; i++) state = (state ^ bytes[i]) * 0x100000001b3u;
    return state;
}

/* The first free slot of a list from this one on becomes the list's. The slot at which it goes on is the answer. */
static inline uint32_t take_turn(int32_t *owner, uint32_t slots, uint32_t slot, uint32_t skip, uint32_t who) {
    while (owner[slot] >= 0) {
        slot += skip;
        if (slot >= slots) slot -= slots;
    }
    owner[slot] = (int32_t)who;
    slot += skip;
    return slot >= slots ? slot - slots : slot;
}
