/* The writes and reads of a ring's benchmark without a ring: 10,000 pieces of 8,192 bytes behind the first 8,192 bytes
   of a file, synced once per 100 of them. Of each piece 44 bytes and 4,000 others are hashed, as an entry is sealed.
   Words: `append FILE`, `read FILE`. */
#include <fcntl.h>
#include <stdio.h>
#include <string.h>
#include <unistd.h>
#include "sha1.h"

enum { ENTRIES = 10000, GROUP = 100, PIECE = 8192, FRONT = 44, PAYLOAD = 4000 };

static char piece[PIECE];

static void hash(uint8_t *digest) { sha1_two(piece, FRONT, piece + 64, PAYLOAD, digest); }

static int append(int file) {
    memset(piece, 0x5a, sizeof piece);
    for (off_t number = 0; number < ENTRIES; number++) {
        memcpy(piece + 24, &number, sizeof number);
        hash((uint8_t *)piece + FRONT);
        if (pwrite(file, piece, PIECE, PIECE * (number + 1)) != PIECE) return 1;
        if ((number + 1) % GROUP == 0 && fdatasync(file) != 0) return 1;
    }
    return 0;
}

static int read_back(int file) {
    uint8_t digest[20];
    for (off_t number = 0; number < ENTRIES; number++) {
        if (pread(file, piece, PIECE, PIECE * (number + 1)) != PIECE) return 1;
        hash(digest);
        if (memcmp(digest, piece + FRONT, sizeof digest) != 0) return 1;
    }
    return 0;
}

int main(int count, char **words) {
    if (count != 3) return 1;
    int file = open(words[2], O_RDWR);
    if (file < 0) return 1;
    if (strcmp(words[1], "append") == 0) return append(file);
    if (strcmp(words[1], "read") == 0) return read_back(file);
    return 1;
}
