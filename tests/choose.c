/* Chooses flows that a map by the fixed key would keep in one group. */
#include "../bench/flow_hash.h"

/* So many clients of 192.0.2.1:80 over TCP whose flows' hashes by the fixed key end in so many zero bits. */
void choose(uint32_t wanted, uint32_t bits, uint32_t *clients, uint16_t *ports) {
    uint32_t mask = (1u << bits) - 1;
    for (uint32_t client = 0x0a000001; wanted > 0; client++) {
        for (uint32_t port = 1024; port < 65536 && wanted > 0; port++) {
            if ((index_of(KNOWN_SECRET, KNOWN_STATE, client, (uint16_t)port) & mask) != 0) continue;
            wanted--;
            clients[wanted] = client;
            ports[wanted] = (uint16_t)port;
        }
    }
}
