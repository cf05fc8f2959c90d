/* Words of a command line, each NAME or NAME*W, as maglev_table takes them. */
#include "maglev.h"

#include <stdio.h>
#include <stdlib.h>
#include <string.h>

struct names {
    size_t count, text_len;
    char *text;       /* the names, joined by newlines */
    uint8_t *weights; /* one for each */
};

/* Puts the words together. What isn't a weight is weight 0, which maglev_table refuses. */
static int names_of(char **words, size_t count, struct names *names) {
    size_t room = 1;
    for (size_t i = 0; i < count; i++) room += strlen(words[i]) + 1;
    *names = (struct names){count, 0, malloc(room), malloc(count + 1)};
    if (!names->text || !names->weights) return 0;
    for (size_t i = 0; i < count; i++) {
        size_t name_len = strcspn(words[i], "*");
        unsigned long weight = words[i][name_len] ? strtoul(words[i] + name_len + 1, NULL, 10) : 1;
        if (i) names->text[names->text_len++] = '\n';
        memcpy(names->text + names->text_len, words[i], name_len);
        names->text_len += name_len;
        names->weights[i] = weight <= 16 ? (uint8_t)weight : 0;
    }
    return 1;
}

static const char *const faults[] = {"", "BadSize", "BadHash", "BadRoom", "BadName", "TooMany", "BadWeight", "DoubleName", "Memory"};

/* The number of a hash's word. What is no word has a number that maglev_table refuses. */
static uint32_t hash_of(const char *word) {
    return !strcmp(word, "fnv") ? MAGLEV_FNV : !strcmp(word, "sha256") ? MAGLEV_SHA256 : !strcmp(word, "sum") ? MAGLEV_SUM : 99;
}

/* The slots of the table of some words, NULL where it can't be filled: then the fault is told. */
static uint32_t *table_of(uint32_t size, uint32_t hash, const struct names *names) {
    uint32_t *slots = calloc(size ? size : 1, sizeof *slots);
    uint32_t fault = slots ? maglev_table(size, hash, (const uint8_t *)names->text, names->text_len, names->weights, names->count, slots, size)
                           : (uint32_t)MAGLEV_MEMORY;
    if (!fault) return slots;
    fprintf(stderr, "fault: %s\n", faults[fault]);
    free(slots);
    return NULL;
}
