/* chosen_flows COUNT BITS: prints clients of 192.0.2.1:80 over TCP, an address and a port a line, that were chosen so that a
 * map by the key that everybody knows would keep all their flows in one group: the low BITS bits of their hashes are 0. */
#include <stdio.h>
#include <stdlib.h>
#include "flow_hash.h"

int main(int count, char **words) {
    if (count != 3) return 2;
    uint32_t wanted = (uint32_t)atoi(words[1]), mask = (1u << atoi(words[2])) - 1;
    for (uint32_t client = 0x0a000001; wanted > 0; client++) {
        for (uint32_t port = 1024; port < 65536 && wanted > 0; port++) {
            if ((index_of(KNOWN_SECRET, KNOWN_STATE, client, (uint16_t)port) & mask) != 0) continue;
            printf("%u.%u.%u.%u %u\n", client >> 24, client >> 16 & 255, client >> 8 & 255, client & 255, port);
            wanted--;
        }
    }
    return 0;
}
