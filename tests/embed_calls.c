/* Calls libmaglev as tests/embed.py has it: each allocation refused in turn, the numbers that maglev.h fixes, and calls from
 * threads. Linked with --wrap for malloc, realloc and free. Prints `calls N wrong M`, where N counts what was compared. */
#include "maglev.h"

#include <pthread.h>
#include <stddef.h>
#include <stdio.h>
#include <string.h>

_Static_assert(MAGLEV_OK == 0 && MAGLEV_BAD_SIZE == 1 && MAGLEV_BAD_HASH == 2 && MAGLEV_BAD_ROOM == 3 && MAGLEV_BAD_NAME == 4, "");
_Static_assert(MAGLEV_TOO_MANY == 5 && MAGLEV_BAD_WEIGHT == 6 && MAGLEV_DOUBLE_NAME == 7 && MAGLEV_MEMORY == 8, "");
_Static_assert(MAGLEV_FNV == 0 && MAGLEV_SHA256 == 1 && MAGLEV_SUM == 2, "");
_Static_assert(sizeof(struct maglev_flow) == 16 && offsetof(struct maglev_flow, dst) == 4 && offsetof(struct maglev_flow, sport) == 8, "");
_Static_assert(offsetof(struct maglev_flow, dport) == 10 && offsetof(struct maglev_flow, proto) == 12, "");

enum { NAMES = 200, SLOTS = 251, THREADS = 4, ENOUGH = 1 << 30 };

static long left = ENOUGH, taken, calls, wrong;

void *__real_malloc(size_t);
void *__real_realloc(void *, size_t);
void __real_free(void *);

void *__wrap_malloc(size_t bytes) {
    if (left == 0) return NULL;
    if (left < ENOUGH) left--, taken++;
    return __real_malloc(bytes);
}

void *__wrap_realloc(void *at, size_t bytes) {
    if (left == 0) return NULL;
    if (left < ENOUGH) left--, taken += at == NULL;
    return __real_realloc(at, bytes);
}

void __wrap_free(void *at) {
    if (left < ENOUGH && at) taken--;
    __real_free(at);
}

static void wants(int holds, const char *what) {
    calls++;
    wrong += !holds;
    if (!holds) fprintf(stderr, "FAILED %s\n", what);
}

static const uint8_t *bytes(const char *text) { return (const uint8_t *)text; }

static int are_untouched(const uint32_t *slots, size_t count) {
    for (size_t s = 0; s < count; s++)
        if (slots[s] != 0x07070707) return 0;
    return 1;
}

/* One call of maglev_table of 7 slots, of which only some places are passed. */
static void answers(uint32_t wanted, uint32_t size, uint32_t hash, const char *names, const char *weights, size_t room) {
    uint32_t slots[16];
    memset(slots, 7, sizeof slots);
    uint32_t answer = maglev_table(size, hash, bytes(names), strlen(names), bytes(weights), strlen(weights), slots, room);
    wants(answer == wanted, names);
    wants(are_untouched(slots, 16), "slots after a fault");
}

static void faults(void) {
    answers(MAGLEV_BAD_SIZE, 8, 9, "", "\1\1", 6);
    answers(MAGLEV_BAD_SIZE, 0, MAGLEV_SUM, "A", "", 0);
    answers(MAGLEV_BAD_HASH, 7, 3, "", "\1\1", 6);
    answers(MAGLEV_BAD_ROOM, 7, MAGLEV_SUM, "", "\1\1", 6);
    answers(MAGLEV_BAD_ROOM, 7, MAGLEV_SUM, "A", "", 8);
    answers(MAGLEV_BAD_NAME, 7, MAGLEV_SUM, "", "", 7);
    answers(MAGLEV_BAD_NAME, 7, MAGLEV_SUM, "A\n", "", 7);
    answers(MAGLEV_BAD_NAME, 7, MAGLEV_SUM, "A\nA\n-\nC\nD\nE\nF\nG", "\1", 7);
    answers(MAGLEV_TOO_MANY, 7, MAGLEV_SUM, "A\nA\nB\nC\nD\nE\nF\nG", "\1", 7);
    answers(MAGLEV_BAD_WEIGHT, 7, MAGLEV_SUM, "A\nA", "\1", 7);
    answers(MAGLEV_BAD_WEIGHT, 7, MAGLEV_SUM, "A\nB", "\1\21", 7);
    answers(MAGLEV_DOUBLE_NAME, 7, MAGLEV_SUM, "A\nB\nA", "", 7);
    uint32_t slots[2] = {0x07070707, 0x07070707};
    struct maglev_flow flows[2] = {{0x0a000001, 0xc0000201, 1000, 80, 6}, {0x0a000001, 0xc0000201, 1006, 80, 6}};
    wants(maglev_slots(8, 9, flows, 2, slots, 1) == MAGLEV_BAD_SIZE, "many slots of a bad size");
    wants(maglev_slots(7, 9, flows, 2, slots, 1) == MAGLEV_BAD_HASH, "many slots by a bad hash");
    wants(maglev_slots(7, MAGLEV_SUM, flows, 2, slots, 1) == MAGLEV_BAD_ROOM, "many slots without room");
    wants(are_untouched(slots, 2), "slots after a fault");
    wants(maglev_slots(7, MAGLEV_SUM, flows, 2, slots, 2) == MAGLEV_OK && slots[0] == 6 && slots[1] == 5, "many slots");
    wants(maglev_slots(7, MAGLEV_SUM, flows, 0, slots, 0) == MAGLEV_OK && slots[0] == 6, "no slots");
    wants(maglev_slot(7, MAGLEV_SUM, 0x0a000001, 0xc0000201, 1000, 80, 6) == 6, "one slot");
    wants(maglev_slot(8, MAGLEV_SUM, 0, 0, 0, 0, 6) == UINT32_MAX && maglev_slot(7, 3, 0, 0, 0, 0, 6) == UINT32_MAX, "no slot");
    wants(maglev_differing(slots, 2, (uint32_t[]){6, 6}, 2) == 1 && maglev_differing(slots, 2, slots, 1) == SIZE_MAX, "slots that differ");
}

static char text[NAMES * 8];
static size_t text_len;
static uint32_t wanted[SLOTS];

/* Refuses each allocation in turn: the answer is Memory, the slots stay, and all that was taken is given back. */
static void refusals(void) {
    uint32_t slots[SLOTS], answer;
    long refused = 0;
    int held = 1;
    do {
        memset(slots, 7, sizeof slots);
        left = refused++, taken = 0;
        answer = maglev_table(SLOTS, MAGLEV_FNV, bytes(text), text_len, bytes(""), 0, slots, SLOTS);
        left = ENOUGH;
        held &= taken == 0 && (answer == MAGLEV_OK || (answer == MAGLEV_MEMORY && are_untouched(slots, SLOTS)));
    } while (answer != MAGLEV_OK && refused < 1000);
    wants(held, "a refused allocation is told, and all is given back");
    wants(refused > 5 && answer == MAGLEV_OK, "several allocations");
}

static void *fill_often(void *none) {
    uint32_t slots[SLOTS];
    for (int time = 0; time < 200; time++)
        if (maglev_table(SLOTS, MAGLEV_FNV, bytes(text), text_len, bytes(""), 0, slots, SLOTS) || memcmp(slots, wanted, sizeof slots)) return text;
    return none;
}

static void threads(void) {
    pthread_t ids[THREADS];
    void *found;
    for (int i = 0; i < THREADS; i++) wants(pthread_create(&ids[i], NULL, fill_often, NULL) == 0, "a thread starts");
    for (int i = 0; i < THREADS; i++) wants(pthread_join(ids[i], &found) == 0 && !found, "tables from several threads");
}

int main(void) {
    for (int i = 0; i < NAMES; i++) text_len += (size_t)sprintf(text + text_len, "%sb%d", i ? "\n" : "", i);
    faults();
    refusals();
    wants(maglev_table(SLOTS, MAGLEV_FNV, bytes(text), text_len, bytes(""), 0, wanted, SLOTS) == MAGLEV_OK, "a table");
    threads();
    printf("calls %ld wrong %ld\n", calls, wrong);
    return wrong != 0;
}
