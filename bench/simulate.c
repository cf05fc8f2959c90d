/* What `maglev simulate` does for one balancer before one service 192.0.2.1 tcp 80, with FNV and Maglev's tables, as one
   writes it by hand in C: buffered files, a chained map of flows, and the flows in the order of their last use. What
   bench/simulate.sh runs beside the program; what both write is compared byte for byte.
   simulate SLOTS ENTRIES INPUT OUTPUT NAME ADDRESS NAME ADDRESS .. (names in ascending order, Ethernet in a little-endian capture) */
#include "population.h"

#include <arpa/inet.h>
#include <stdio.h>
#include <stdlib.h>
#include <string.h>

enum { FLOW = 13, LONGEST = 262144, BUFFER = 1 << 20 };

static const uint8_t HEAD[24] = {0xd4, 0xc3, 0xb2, 0xa1, 2, 0, 4, 0, 0, 0, 0, 0, 0, 0, 0, 0, 0xff, 0xff, 0, 0, 101, 0, 0, 0};

static uint16_t word(const uint8_t *at) { return (uint16_t)(at[0] << 8 | at[1]); }

static uint16_t folded_sum(const uint8_t *bytes, size_t count) {
    uint32_t sum = 0;
    for (size_t at = 0; at + 1 < count; at += 2) sum += word(bytes + at);
    if (count & 1) sum += (uint32_t)bytes[count - 1] << 8;
    while (sum >> 16) sum = (sum & 0xffff) + (sum >> 16);
    return (uint16_t)sum;
}

/* The table: the address of each slot's server. */
static uint32_t slots, *owner;

static void populate(uint32_t servers, char **words) {
    uint32_t *next = malloc(servers * sizeof *next), *skip = malloc(servers * sizeof *skip);
    uint8_t *taken = calloc(slots, 1);
    owner = malloc(slots * sizeof *owner);
    for (uint32_t who = 0; who < servers; who++) {
        const uint8_t *name = (const uint8_t *)words[2 * who];
        size_t length = strlen(words[2 * who]);
        next[who] = fnv('o', name, length) % slots;
        skip[who] = fnv('k', name, length) % (slots - 1) + 1;
    }
    for (uint32_t done = 0, who = 0; done < slots; done++, who = who + 1 == servers ? 0 : who + 1) {
        while (taken[next[who]]) {
            next[who] += skip[who];
            if (next[who] >= slots) next[who] -= slots;
        }
        taken[next[who]] = 1;
        owner[next[who]] = ntohl(inet_addr(words[2 * who + 1]));
    }
    free(next), free(skip), free(taken);
}

/* The flows that were used last, from 1 on; 0 is none. */
struct entry {
    uint8_t flow[FLOW];
    uint32_t server, next, newer, older;
};
static struct entry *entries;
static uint32_t *buckets, mask, newest, oldest, used, most;

static uint32_t *bucket_of(uint64_t hash) { return &buckets[(hash ^ hash >> 32) & mask]; }

static void detach(uint32_t at) {
    struct entry *one = &entries[at];
    if (one->newer) entries[one->newer].older = one->older; else newest = one->older;
    if (one->older) entries[one->older].newer = one->newer; else oldest = one->newer;
}

static void attach(uint32_t at) {
    entries[at].newer = 0;
    entries[at].older = newest;
    if (newest) entries[newest].newer = at; else oldest = at;
    newest = at;
}

/* Takes out the entry that was used longest ago. */
static uint32_t evict(void) {
    uint32_t at = oldest, *link = bucket_of(fnv('f', entries[at].flow, FLOW));
    detach(at);
    while (*link != at) link = &entries[*link].next;
    *link = entries[at].next;
    return at;
}

static uint32_t serve(const uint8_t *flow) {
    uint64_t hash = fnv('f', flow, FLOW);
    uint32_t *bucket = bucket_of(hash);
    for (uint32_t at = *bucket; at; at = entries[at].next)
        if (!memcmp(entries[at].flow, flow, FLOW)) {
            if (newest != at) detach(at), attach(at);
            return entries[at].server;
        }
    uint32_t at = used < most ? ++used : evict();
    memcpy(entries[at].flow, flow, FLOW);
    entries[at].server = owner[hash % slots];
    entries[at].next = *bucket;
    *bucket = at;
    attach(at);
    return entries[at].server;
}

/* The datagram of a frame where it is a TCP datagram to the service, with its length and its flow; else none. */
static const uint8_t *read_datagram(const uint8_t *frame, size_t captured, uint16_t *total, uint8_t *flow) {
    if (captured < 34 || word(frame + 12) != 0x800) return 0;
    const uint8_t *datagram = frame + 14;
    size_t length = captured - 14, header = (datagram[0] & 15) * 4;
    *total = word(datagram + 2);
    if (datagram[0] >> 4 != 4 || length < header || length < *total || header < 20 || *total < header) return 0;
    if (folded_sum(datagram, header) != 0xffff || word(datagram + 6) & 0x3fff || datagram[9] != 6) return 0;
    const uint8_t *segment = datagram + header;
    size_t payload = *total - header;
    if (payload < 20 || segment[12] >> 4 < 5 || payload < (size_t)(segment[12] >> 4) * 4) return 0;
    memcpy(flow, datagram + 12, 8);
    memcpy(flow + 8, segment, 4);
    flow[12] = 6;
    return memcmp(flow + 4, "\xc0\0\2\1", 4) || word(flow + 10) != 80 ? 0 : datagram;
}

static void send_on(FILE *output, const uint8_t *time, const uint8_t *datagram, uint16_t total, uint32_t server) {
    uint32_t whole = total + 24u;
    uint8_t head[16], outer[24] = {0x45, 0, whole >> 8, whole, 0, 0, 0x40, 0, 64, 47, 0, 0, 10, 9, 0, 1, server >> 24, server >> 16, server >> 8, server, 0, 0, 8, 0};
    uint16_t sum = 0xffff - folded_sum(outer, 20);
    outer[10] = sum >> 8, outer[11] = sum;
    memcpy(head, time, 8), memcpy(head + 8, &whole, 4), memcpy(head + 12, &whole, 4);
    fwrite(head, 1, 16, output), fwrite(outer, 1, 24, output), fwrite(datagram, 1, total, output);
}

int main(int count, char **words) {
    slots = atoi(words[1]), most = atoi(words[2]);
    populate((count - 5) / 2, words + 5);
    entries = calloc(most + 1, sizeof *entries);
    for (mask = 1; mask < most * 2; mask <<= 1) {}
    buckets = calloc(mask--, sizeof *buckets);
    FILE *input = fopen(words[3], "rb"), *output = fopen(words[4], "wb");
    if (!input || !output) return 1;
    setvbuf(input, 0, _IOFBF, BUFFER), setvbuf(output, 0, _IOFBF, BUFFER);
    static uint8_t head[24], record[16], frame[LONGEST];
    if (fread(head, 1, 24, input) != 24) return 1;
    fwrite(HEAD, 1, 24, output);
    for (uint32_t captured; fread(record, 1, 16, input) == 16;) {
        memcpy(&captured, record + 8, 4);
        if (captured > LONGEST || fread(frame, 1, captured, input) != captured) break;
        uint8_t flow[FLOW];
        uint16_t total;
        const uint8_t *datagram = read_datagram(frame, captured, &total, flow);
        if (datagram) send_on(output, record, datagram, total, serve(flow));
    }
    return fclose(output) != 0;
}
