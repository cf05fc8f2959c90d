/* The common algorithm of Maglev's population (Maglev, section 3.4), N names at 65537 slots, again and again: what
   bench/populate.sh runs beside crates/bench_populate. A third argument 1 gives the names weights from 1 to 16. Prints the sum
   over the slots of slot times owner. */
#include "population.h"

#include <stdio.h>
#include <stdlib.h>
#include <string.h>

enum { SLOTS = 65537 };

static void populate(int32_t *owner, uint32_t *next, const uint32_t *offset, const uint32_t *skip, const uint8_t *weight,
                     uint32_t lists) {
    memcpy(next, offset, lists * sizeof *next);
    memset(owner, 0xff, SLOTS * sizeof *owner);
    uint8_t most = 1;
    for (uint32_t who = 0; who < lists; who++)
        if (weight[who] > most) most = weight[who];
    for (uint32_t taken = 0, pass = 1;; pass = pass < most ? pass + 1 : 1)
        for (uint32_t who = 0; who < lists; who++) {
            if (weight[who] < pass) continue;
            next[who] = take_turn(owner, SLOTS, next[who], skip[who], who);
            if (++taken == SLOTS) return;
        }
}

int main(int argc, char **argv) {
    uint32_t lists = argc > 1 ? (uint32_t)atoi(argv[1]) : 3, times = argc > 2 ? (uint32_t)atoi(argv[2]) : 1;
    int weighed = argc > 3 && atoi(argv[3]) == 1;
    uint32_t *offset = malloc(4 * lists), *skip = malloc(4 * lists), *next = malloc(4 * lists);
    uint8_t *weight = malloc(lists);
    for (uint32_t i = 0; i < lists; i++) {
        char name[16];
        snprintf(name, sizeof name, "b%u", i + 1);
        offset[i] = (uint32_t)(fnv('o', name, strlen(name)) % SLOTS);
        skip[i] = (uint32_t)(fnv('k', name, strlen(name)) % (SLOTS - 1) + 1);
        weight[i] = weighed ? (uint8_t)(fnv('f', name, strlen(name)) % 16 + 1) : 1;
    }
    uint64_t sum = 0;
    for (uint32_t t = 0; t < times; t++) {
        int32_t *owner = malloc(SLOTS * sizeof *owner);
        populate(owner, next, offset, skip, weight, lists);
        sum = 0;
        for (uint64_t slot = 0; slot < SLOTS; slot++) sum += slot * (uint64_t)owner[slot];
        free(owner);
    }
    printf("%llu\n", (unsigned long long)sum);
    return 0;
}
