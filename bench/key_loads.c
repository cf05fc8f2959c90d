/* key_loads KEYS: how evenly 65,536 flows are spread by a drawn key over 8,192 groups, which a map or a connection table of so
 * many flows has. So are random flows, and flows that follow a pattern or were chosen for the key that everybody knows: of each
 * kind the fullest group under any of so many keys, and how many others a flow shares its group with on an average, at most. */
#include <stdio.h>
#include <stdlib.h>
#include <string.h>
#include "flow_hash.h"

#define FLOWS 65536
#define GROUPS 8192

static struct { uint32_t client; uint16_t port; } flows[FLOWS];
static FILE *source;

static uint64_t drawn(void) {
    uint64_t number;
    if (fread(&number, sizeof number, 1, source) != 1) exit(1);
    return number;
}

static void judge(const char *kind, int keys) {
    static uint32_t loads[GROUPS];
    uint32_t fullest = 0;
    double shared = 0;
    for (int key = 0; key < keys; key++) {
        uint64_t secret = drawn(), state = drawn();
        double squares = 0;
        memset(loads, 0, sizeof loads);
        for (int i = 0; i < FLOWS; i++) loads[index_of(secret, state, flows[i].client, flows[i].port) % GROUPS]++;
        for (int i = 0; i < GROUPS; i++) {
            if (loads[i] > fullest) fullest = loads[i];
            squares += (double)loads[i] * loads[i];
        }
        if (squares / FLOWS - 1 > shared) shared = squares / FLOWS - 1;
    }
    printf("%-32s fullest group %u, shared with %.1f others\n", kind, fullest, shared);
}

static void set(uint32_t i, uint32_t client, uint32_t port) {
    flows[i].client = client;
    flows[i].port = (uint16_t)port;
}

int main(int count, char **words) {
    int keys = count > 1 ? atoi(words[1]) : 200;
    source = fopen("/dev/urandom", "rb");
    if (!source) return 1;
    for (uint32_t i = 0; i < FLOWS; i++) set(i, (uint32_t)drawn(), (uint32_t)drawn());
    judge("drawn", keys);
    for (uint32_t i = 0; i < FLOWS; i++) set(i, 0x0a000000 + i, 1234);
    judge("consecutive addresses", keys);
    for (uint32_t i = 0; i < FLOWS; i++) set(i, i << 16 | 1, 1234);
    judge("one host of each /16", keys);
    for (uint32_t i = 0; i < FLOWS; i++) set(i, 0x0a000001, i);
    judge("ports of one address", keys);
    for (uint32_t i = 0; i < FLOWS; i++) set(i, 0x0a000001 + (i >> 8), i & 255);
    judge("256 addresses of 256 ports", keys);
    for (uint32_t i = 0, at = 0; i < FLOWS; at++)
        if (index_of(KNOWN_SECRET, KNOWN_STATE, 0x0a000001 + (at >> 16), (uint16_t)at) % GROUPS == 0) {
            set(i, 0x0a000001 + (at >> 16), at);
            i++;
        }
    judge("chosen, of many ports", keys);
    for (uint32_t i = 0, at = 0; i < FLOWS; at++)
        if (index_of(KNOWN_SECRET, KNOWN_STATE, at, 1234) % GROUPS == 0) set(i++, at, 1234);
    judge("chosen, of one port", keys);
    return 0;
}
