/* Maglev's lookup tables, proved to be what their definition says. Link with -lmaglev.
 *
 * No function here keeps anything between calls or prints. Each may be called from several threads at once, but not from a
 * signal handler, nor in a forked child of a process with threads. A pointer must not be NULL, also where its length is 0. It
 * must lead to as many values as its length says, and `slots` must not overlap what else is passed.
 *
 * Every number here is fixed: a later version gives no other meaning to it. */
#ifndef MAGLEV_H
#define MAGLEV_H

#include <stddef.h>
#include <stdint.h>

#ifdef __cplusplus
extern "C" {
#endif

/* What maglev_table and maglev_slots answer. The first reason that holds is the answer, in this order. MAGLEV_MEMORY may come
 * in place of any from MAGLEV_BAD_NAME on, and of MAGLEV_OK; maglev_slots takes no memory and answers at most MAGLEV_BAD_ROOM. */
enum {
    MAGLEV_OK = 0,
    MAGLEV_BAD_SIZE = 1,    /* not 7, 13, 251, 1021, 8191 or 65537 */
    MAGLEV_BAD_HASH = 2,    /* none of MAGLEV_FNV, MAGLEV_SHA256, MAGLEV_SUM */
    MAGLEV_BAD_ROOM = 3,    /* slots_len isn't the size, or not the number of flows */
    MAGLEV_BAD_NAME = 4,    /* a line isn't 1 to 32 letters, digits, '-' and '.', the first a letter or digit; an empty text */
    MAGLEV_TOO_MANY = 5,    /* more names than slots */
    MAGLEV_BAD_WEIGHT = 6,  /* neither no weights nor one from 1 to 16 for each name */
    MAGLEV_DOUBLE_NAME = 7, /* a name is there twice */
    MAGLEV_MEMORY = 8       /* malloc or realloc refused */
};

/* The hashes. Each is of a tag byte and what stands behind it: of a name 'o' and 'k', of a flow 'f' and 13 bytes. */
enum {
    MAGLEV_FNV = 0,    /* FNV-1a of 64 bits */
    MAGLEV_SHA256 = 1, /* the first 8 bytes of SHA-256, as a big-endian number */
    MAGLEV_SUM = 2     /* the sum of the bytes: for examples */
};

/* One direction of a TCP or UDP conversation. Addresses and ports are numbers of this machine's order: 10.0.0.1 is 0x0a000001. */
struct maglev_flow {
    uint32_t src, dst;
    uint16_t sport, dport;
    uint8_t proto; /* 6 TCP, 17 UDP */
};

/* Fills slots[0 .. size-1]: slots[s] is the place, counted from 0, of the name that slot s falls to, among the names as they
 * are given. `names` are joined by '\n', with none behind the last. `weights` has one from 1 to 16 for each name in the same
 * order, or weights_len is 0 and all weigh alike. Which name a slot falls to doesn't depend on the order of the names.
 * After any answer but MAGLEV_OK the slots are as they were. */
uint32_t maglev_table(uint32_t size, uint32_t hash, const uint8_t *names, size_t names_len, const uint8_t *weights,
                      size_t weights_len, uint32_t *slots, size_t slots_len);

/* The slot of a flow: below the size, or UINT32_MAX where the size or the hash isn't listed. */
uint32_t maglev_slot(uint32_t size, uint32_t hash, uint32_t src, uint32_t dst, uint16_t sport, uint16_t dport, uint8_t proto);

/* The slots of many flows: slots[k] is that of flows[k]. After any answer but MAGLEV_OK the slots are as they were. */
uint32_t maglev_slots(uint32_t size, uint32_t hash, const struct maglev_flow *flows, size_t flows_len, uint32_t *slots,
                      size_t slots_len);

/* At how many slots two tables differ, SIZE_MAX where their lengths differ. */
size_t maglev_differing(const uint32_t *old_slots, size_t old_len, const uint32_t *new_slots, size_t new_len);

#ifdef __cplusplus
}
#endif
#endif
