/* The writes of a journal's benchmark without a journal: blocks of 4,096 bytes behind the first 8,192 bytes of a file,
   synced once per 100 of them. Words: FILE COUNT. */
#include <fcntl.h>
#include <stdlib.h>
#include <string.h>
#include <unistd.h>

enum { GROUP = 100, BLOCK = 4096 };

static char block[BLOCK];

int main(int count, char **words) {
    if (count != 3) return 1;
    int file = open(words[1], O_RDWR);
    if (file < 0) return 1;
    long blocks = atol(words[2]);
    memset(block, 0x5a, sizeof block);
    for (long number = 0; number < blocks; number++) {
        if (pwrite(file, block, BLOCK, 8192 + BLOCK * (off_t)number) != BLOCK) return 1;
        if ((number + 1) % GROUP == 0 && fdatasync(file) != 0) return 1;
    }
    return 0;
}
