/* table SIZE HASH NAME..: prints what `maglev table --size SIZE --hash HASH NAME..` prints, by libmaglev.
 *
 *     cc table.c -lmaglev -o table
 */
#include "names.h"

static char **sorted_by;

/* The order of two names, by the bytes before the star. */
static int by_name(const void *one, const void *other) {
    const char *a = sorted_by[*(const uint32_t *)one], *b = sorted_by[*(const uint32_t *)other];
    size_t m = strcspn(a, "*"), n = strcspn(b, "*");
    int found = memcmp(a, b, m < n ? m : n);
    return found ? found : (m > n) - (m < n);
}

static void print_counts(char **words, size_t count, const uint32_t *slots, uint32_t size) {
    uint32_t *order = malloc(count * sizeof *order), *counts = calloc(count, sizeof *counts);
    if (order && counts) {
        for (uint32_t i = 0; i < count; i++) order[i] = i;
        for (uint32_t s = 0; s < size; s++) counts[slots[s]]++;
        sorted_by = words;
        qsort(order, count, sizeof *order, by_name);
        for (size_t i = 0; i < count; i++) printf("count %.*s %u\n", (int)strcspn(words[order[i]], "*"), words[order[i]], counts[order[i]]);
    }
    free(order);
    free(counts);
}

int main(int argc, char **argv) {
    if (argc < 4) return fprintf(stderr, "usage: table SIZE HASH NAME..\n"), 2;
    uint32_t size = (uint32_t)strtoul(argv[1], NULL, 10);
    char **words = argv + 3;
    size_t count = (size_t)argc - 3;
    struct names names;
    uint32_t *slots = names_of(words, count, &names) ? table_of(size, hash_of(argv[2]), &names) : NULL;
    if (slots) {
        printf("size %u backends %zu\n", size, count);
        for (uint32_t s = 0; s < size; s++) printf("%u %.*s\n", s, (int)strcspn(words[slots[s]], "*"), words[slots[s]]);
        print_counts(words, count, slots, size);
    }
    free(slots);
    free(names.text);
    free(names.weights);
    return slots == NULL;
}
