/* SHA-1 of a few bytes and of a long piece behind them, as a ring's entry is sealed. */
#include <stdint.h>
#include <string.h>

struct sha1 {
    uint32_t state[5];
    uint64_t count;
    uint8_t block[64];
};

static uint32_t turn(uint32_t word, int by) { return word << by | word >> (32 - by); }

static void sha1_block(uint32_t *state, const uint8_t *block) {
    uint32_t w[80], a = state[0], b = state[1], c = state[2], d = state[3], e = state[4];
    for (int i = 0; i < 16; i++) {
        uint32_t word;
        memcpy(&word, block + 4 * i, 4);
        w[i] = __builtin_bswap32(word);
    }
    for (int i = 16; i < 80; i++) w[i] = turn(w[i - 3] ^ w[i - 8] ^ w[i - 14] ^ w[i - 16], 1);
    for (int i = 0; i < 80; i++) {
        uint32_t f, k;
        if (i < 20) f = (b & c) | (~b & d), k = 0x5a827999;
        else if (i < 40) f = b ^ c ^ d, k = 0x6ed9eba1;
        else if (i < 60) f = (b & c) | (b & d) | (c & d), k = 0x8f1bbcdc;
        else f = b ^ c ^ d, k = 0xca62c1d6;
        uint32_t next = turn(a, 5) + f + e + k + w[i];
        e = d, d = c, c = turn(b, 30), b = a, a = next;
    }
    state[0] += a, state[1] += b, state[2] += c, state[3] += d, state[4] += e;
}

static void sha1_add(struct sha1 *sha, const void *bytes, size_t count) {
    const uint8_t *from = bytes;
    while (count > 0) {
        size_t at = sha->count % 64, room = 64 - at, part = count < room ? count : room;
        memcpy(sha->block + at, from, part);
        sha->count += part, from += part, count -= part;
        if (sha->count % 64 == 0) sha1_block(sha->state, sha->block);
    }
}

/* The digest of both pieces. */
static void sha1_two(const void *front, size_t front_count, const void *rest, size_t count, uint8_t out[20]) {
    struct sha1 sha = {{0x67452301, 0xefcdab89, 0x98badcfe, 0x10325476, 0xc3d2e1f0}, 0, {0}};
    sha1_add(&sha, front, front_count);
    sha1_add(&sha, rest, count);
    uint64_t bits = sha.count * 8;
    static const uint8_t pad[64] = {0x80};
    sha1_add(&sha, pad, 1 + (119 - sha.count % 64) % 64);
    uint64_t length = __builtin_bswap64(bits);
    sha1_add(&sha, &length, 8);
    for (int i = 0; i < 5; i++) {
        uint32_t word = __builtin_bswap32(sha.state[i]);
        memcpy(out + 4 * i, &word, 4);
    }
}
