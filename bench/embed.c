/* embed NAMES: times `maglev_table` of b1 .. bNAMES at 65537 slots beside the common algorithm in C over the same text, which both
 * split, sort and hash each time; and `maglev_slots` of a million flows beside C. Of 25 rounds, in turns, it prints the least times,
 * and the median of the rounds' ratios. */
#include "maglev.h"
#include "population.h"

#include <stdio.h>
#include <stdlib.h>
#include <string.h>
#include <time.h>

enum { SLOTS = 65537, FLOWS = 1000000, ROUNDS = 25 };

struct entrant {
    const char *name;
    uint32_t len, place;
};

static double now(void) {
    struct timespec t;
    clock_gettime(CLOCK_MONOTONIC, &t);
    return (double)t.tv_sec * 1e3 + (double)t.tv_nsec / 1e6;
}

static int by_name(const void *one, const void *other) {
    const struct entrant *a = one, *b = other;
    int found = memcmp(a->name, b->name, a->len < b->len ? a->len : b->len);
    return found ? found : (a->len > b->len) - (a->len < b->len);
}

/* The names of a text in ascending order. */
static void sorted(const char *text, size_t len, struct entrant *names, uint32_t count) {
    size_t at = 0;
    for (uint32_t i = 0; i < count; i++) {
        const char *end = memchr(text + at, '\n', len - at);
        size_t name_len = end ? (size_t)(end - text) - at : len - at;
        names[i] = (struct entrant){text + at, (uint32_t)name_len, i};
        at += name_len + 1;
    }
    qsort(names, count, sizeof *names, by_name);
}

static void populate(int32_t *owner, uint32_t *next, const uint32_t *skip, uint32_t count) {
    memset(owner, 0xff, SLOTS * sizeof *owner);
    for (uint32_t taken = 0;;)
        for (uint32_t who = 0; who < count; who++) {
            next[who] = take_turn(owner, SLOTS, next[who], skip[who], who);
            if (++taken == SLOTS) return;
        }
}

/* What maglev_table does, in C. */
static void table(const char *text, size_t len, uint32_t count, uint32_t *slots) {
    struct entrant *names = malloc(count * sizeof *names);
    uint32_t *next = malloc(4 * count), *skip = malloc(4 * count);
    int32_t *owner = malloc(4 * SLOTS);
    if (!names || !next || !skip || !owner) exit(1);
    sorted(text, len, names, count);
    for (uint32_t i = 0; i < count; i++) {
        next[i] = (uint32_t)(fnv('o', names[i].name, names[i].len) % SLOTS);
        skip[i] = (uint32_t)(fnv('k', names[i].name, names[i].len) % (SLOTS - 1) + 1);
    }
    populate(owner, next, skip, count);
    for (uint32_t s = 0; s < SLOTS; s++) slots[s] = names[owner[s]].place;
    free(names);
    free(next);
    free(skip);
    free(owner);
}

/* What maglev_slots does, in C. */
__attribute__((noinline)) static void slots_of(uint32_t size, const struct maglev_flow *flows, size_t count, uint32_t *slots) {
    for (size_t k = 0; k < count; k++) {
        const struct maglev_flow *x = &flows[k];
        uint8_t bytes[13] = {(uint8_t)(x->src >> 24), (uint8_t)(x->src >> 16), (uint8_t)(x->src >> 8), (uint8_t)x->src,
                             (uint8_t)(x->dst >> 24), (uint8_t)(x->dst >> 16), (uint8_t)(x->dst >> 8), (uint8_t)x->dst,
                             (uint8_t)(x->sport >> 8), (uint8_t)x->sport, (uint8_t)(x->dport >> 8), (uint8_t)x->dport, x->proto};
        slots[k] = (uint32_t)(fnv('f', bytes, 13) % size);
    }
}

static uint32_t ours[SLOTS], theirs[SLOTS], found[FLOWS], wanted[FLOWS];
static struct maglev_flow flows[FLOWS];

/* What the rounds gave: the least seconds of either, and the ratio of each round. */
struct timed {
    double library, peer, ratios[ROUNDS];
};

static int by_size(const void *a, const void *b) {
    double one = *(const double *)a, other = *(const double *)b;
    return (one > other) - (one < other);
}

/* Both halves of a round follow one another, so that what slows the machine slows both. */
static void keep(struct timed *timed, int round, double begun, double between, double ended) {
    double library = between - begun, peer = ended - between;
    if (round == 0 || library < timed->library) timed->library = library;
    if (round == 0 || peer < timed->peer) timed->peer = peer;
    timed->ratios[round] = library / peer;
}

static double median(struct timed *timed) {
    qsort(timed->ratios, ROUNDS, sizeof *timed->ratios, by_size);
    return timed->ratios[ROUNDS / 2];
}

static void time_tables(const char *text, size_t len, uint32_t count) {
    struct timed timed;
    for (int round = 0; round < ROUNDS; round++) {
        double begun = now();
        for (int i = 0; i < 20; i++)
            if (maglev_table(SLOTS, MAGLEV_FNV, (const uint8_t *)text, len, (const uint8_t *)"", 0, ours, SLOTS)) exit(1);
        double between = now();
        for (int i = 0; i < 20; i++) table(text, len, count, theirs);
        keep(&timed, round, begun, between, now());
    }
    const char *same = memcmp(ours, theirs, sizeof ours) ? "DIFFERENT" : "equal";
    printf("maglev_table 65537 x %u: libmaglev %.3f ms, C %.3f ms, ratio %.2f, tables %s\n", count, timed.library / 20, timed.peer / 20, median(&timed), same);
}

static void time_slots(void) {
    struct timed timed;
    for (uint32_t i = 0; i < FLOWS; i++) flows[i] = (struct maglev_flow){i * 2654435761u, 0xc0000201, (uint16_t)(i * 40503u), 80, 6};
    for (int round = 0; round < ROUNDS; round++) {
        double begun = now();
        if (maglev_slots(SLOTS, MAGLEV_FNV, flows, FLOWS, found, FLOWS)) exit(1);
        double between = now();
        slots_of(SLOTS, flows, FLOWS, wanted);
        keep(&timed, round, begun, between, now());
    }
    const char *same = memcmp(found, wanted, sizeof found) ? "DIFFERENT" : "equal";
    printf("maglev_slots: libmaglev %.1f ns a flow, C %.1f ns, ratio %.2f, slots %s\n", timed.library, timed.peer, median(&timed), same);
}

int main(int argc, char **argv) {
    uint32_t count = argc > 1 ? (uint32_t)strtoul(argv[1], NULL, 10) : 3;
    size_t len = 0;
    char *text = malloc(12 * (size_t)count);
    if (!text) return 1;
    for (uint32_t i = 0; i < count; i++) len += (size_t)sprintf(text + len, "%sb%u", i ? "\n" : "", i + 1);
    time_tables(text, len, count);
    if (count == 3) time_slots();
    free(text);
    return 0;
}
