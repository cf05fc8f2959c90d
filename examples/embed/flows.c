/* flows SIZE HASH NAME..: reads flows, a line of five numbers each (source and destination address, source and destination
 * port, protocol), and prints the slot and the server of each. A data plane does so: it fills a table once, and then finds the
 * slots of a burst of packets in one call.
 *
 *     cc flows.c -lmaglev -o flows
 */
#include "names.h"

enum { BURST = 32 };

/* Reads up to a burst of flows. */
static size_t read_burst(struct maglev_flow *flows) {
    size_t count = 0;
    unsigned src, dst, sport, dport, proto;
    while (count < BURST && scanf("%u %u %u %u %u", &src, &dst, &sport, &dport, &proto) == 5)
        flows[count++] = (struct maglev_flow){src, dst, (uint16_t)sport, (uint16_t)dport, (uint8_t)proto};
    return count;
}

/* Prints the server of each flow of a burst. */
static int pick_burst(uint32_t size, uint32_t hash, const uint32_t *table, char **words, const struct maglev_flow *flows, size_t count) {
    uint32_t found[BURST];
    if (maglev_slots(size, hash, flows, count, found, count)) return 0;
    for (size_t k = 0; k < count; k++) {
        const char *word = words[table[found[k]]];
        printf("slot %u backend %.*s\n", found[k], (int)strcspn(word, "*"), word);
    }
    return 1;
}

int main(int argc, char **argv) {
    if (argc < 4) return fprintf(stderr, "usage: flows SIZE HASH NAME..\n"), 2;
    uint32_t size = (uint32_t)strtoul(argv[1], NULL, 10), hash = hash_of(argv[2]);
    struct names names;
    struct maglev_flow flows[BURST];
    uint32_t *table = names_of(argv + 3, (size_t)argc - 3, &names) ? table_of(size, hash, &names) : NULL;
    int done = table != NULL;
    for (size_t count; done && (count = read_burst(flows)) > 0;) done = pick_burst(size, hash, table, argv + 3, flows, count);
    free(table);
    free(names.text);
    free(names.weights);
    return !done;
}
