/* Where a connection table, and a map by its key, look for a flow to 192.0.2.1:80 over TCP: the hash of 16 bytes by a key of two
 * words. */
#include <stdint.h>

#define KNOWN_SECRET 0x13198a2e03707344u
#define KNOWN_STATE 0x243f6a8885a308d3u
#define MULTIPLIER 0x9e3779b97f4a7c15u

static uint64_t folded(uint64_t a, uint64_t b) {
    unsigned __int128 product = (unsigned __int128)a * b;
    return (uint64_t)product ^ (uint64_t)(product >> 64);
}

static uint64_t swapped(uint16_t number) {
    return (uint16_t)(number >> 8 | number << 8);
}

/* Addresses and ports stand in a flow's bytes with the most significant byte first, then the protocol and three zeros. The bytes
 * are two words of the least significant byte first. */
static uint32_t index_of(uint64_t secret, uint64_t state, uint32_t client, uint16_t port) {
    uint64_t addresses = __builtin_bswap32(client) | (uint64_t)__builtin_bswap32(0xc0000201) << 32;
    uint64_t ports = swapped(port) | swapped(80) << 16 | (uint64_t)6 << 32;
    uint64_t hash = folded(addresses ^ state, ports ^ secret) * MULTIPLIER;
    return (uint32_t)(hash ^ hash >> 32);
}
