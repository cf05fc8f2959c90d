/* What `maglev table --size SLOTS --hash fnv NAME..` prints, as one writes it in C: a mark a slot and a running position a name.
   What bench/table.sh runs beside the program. */
#include "population.h"

#include <stdio.h>
#include <stdlib.h>
#include <string.h>

static int by_name(const void *one, const void *other) { return strcmp(*(char *const *)one, *(char *const *)other); }

int main(int words, char **word) {
    uint32_t slots = strtoul(word[1], 0, 10), count = words - 2;
    char **names = word + 2;
    qsort(names, count, sizeof *names, by_name);
    uint32_t *next = malloc(count * sizeof *next), *skip = malloc(count * sizeof *skip), *share = calloc(count, sizeof *share);
    uint32_t *owner = malloc(slots * sizeof *owner);
    uint8_t *taken = calloc(slots, 1);
    for (uint32_t who = 0; who < count; who++) {
        next[who] = fnv('o', names[who], strlen(names[who])) % slots;
        skip[who] = fnv('k', names[who], strlen(names[who])) % (slots - 1) + 1;
    }
    for (uint32_t done = 0, who = 0; done < slots; done++, who = who + 1 == count ? 0 : who + 1) {
        while (taken[next[who]]) {
            next[who] += skip[who];
            if (next[who] >= slots) next[who] -= slots;
        }
        taken[next[who]] = 1;
        owner[next[who]] = who;
        share[who]++;
    }
    printf("size %u backends %u\n", slots, count);
    for (uint32_t slot = 0; slot < slots; slot++) printf("%u %s\n", slot, names[owner[slot]]);
    for (uint32_t who = 0; who < count; who++) printf("count %s %u\n", names[who], share[who]);
}
