/* Makes system calls on files that a list says, and nothing else: what a program costs that does no more than these calls.

   usage: replay CALLS

   Each line of CALLS is a letter and its numbers; a path is its bytes in hexadecimal. Descriptors are slots of a table; 0 and 1
   are standard input and output. What is written to 1 is spelled as digits first. All lines are read first; the calls are then
   timed, and the seconds told on standard error. */
#define _GNU_SOURCE
#include <dirent.h>
#include <fcntl.h>
#include <stdio.h>
#include <stdlib.h>
#include <string.h>
#include <sys/stat.h>
#include <sys/syscall.h>
#include <time.h>
#include <unistd.h>

struct call {
    char kind;
    long a, b, c;
    char *from, *to;
};

static int slots[65536] = {0, 1, 2};
static char buffer[1 << 26], digits[1 << 26];

/* The digits of the bytes that were read last. */
static void spell(long length)
{
    for (long i = 0; i + 1 < length; i += 2) {
        unsigned char byte = (unsigned char)buffer[i / 2];
        digits[i] = "0123456789abcdef"[byte >> 4];
        digits[i + 1] = "0123456789abcdef"[byte & 15];
    }
}

static char *path_of(const char *hex)
{
    size_t length = strlen(hex) / 2;
    char *path = malloc(length + 1);
    for (size_t i = 0; i < length; i++)
        sscanf(hex + 2 * i, "%2hhx", (unsigned char *)path + i);
    path[length] = 0;
    return path;
}

static void make(struct call *x)
{
    struct stat stat_buffer;
    struct statx statx_buffer;
    switch (x->kind) {
    case 'o': slots[x->a] = open(x->from, (int)x->b, (mode_t)x->c); break;
    case 'c': close(slots[x->a]); break;
    case 'r': if (read(slots[x->a], buffer, x->b) < 0) {} break;
    case 'w':
        if (x->a == 1)
            spell(x->b);
        if (write(slots[x->a], x->a == 1 ? digits : buffer, x->b) < 0) {}
        break;
    case 'p': if (pread(slots[x->a], buffer, x->b, x->c) < 0) {} break;
    case 'P': if (pwrite(slots[x->a], buffer, x->b, x->c) < 0) {} break;
    case 's': fsync(slots[x->a]); break;
    case 'd': fdatasync(slots[x->a]); break;
    case 't': if (ftruncate(slots[x->a], x->b)) {} break;
    case 'k': lseek(slots[x->a], x->b, (int)x->c); break;
    case 'f': fstat(slots[x->a], &stat_buffer); break;
    case 'g': syscall(SYS_getdents64, slots[x->a], buffer, x->b); break;
    case 'S': if (x->b) { if (lstat(x->from, &stat_buffer)) {} } else if (stat(x->from, &stat_buffer)) {} break;
    case 'x': if (statx(AT_FDCWD, x->from, x->b ? AT_SYMLINK_NOFOLLOW : 0, STATX_ALL, &statx_buffer)) {} break;
    case 'm': mkdir(x->from, (mode_t)x->b); break;
    case 'u': unlink(x->from); break;
    case 'e': rmdir(x->from); break;
    case 'R': rename(x->from, x->to); break;
    case 'L': if (link(x->from, x->to)) {} break;
    }
}

int main(int argc, char **argv)
{
    static char line[65536], one[32768], two[32768];
    size_t count = 0, room = 1024;
    struct call *calls = malloc(room * sizeof *calls);
    struct timespec begin, end;
    FILE *list = argc == 2 ? fopen(argv[1], "r") : NULL;
    if (!list)
        return 1;
    while (fgets(line, sizeof line, list)) {
        struct call x = {0};
        one[0] = two[0] = 0;
        sscanf(line, "%c %ld %ld %ld %32767s %32767s", &x.kind, &x.a, &x.b, &x.c, one, two);
        x.from = path_of(one);
        x.to = path_of(two);
        if (count == room)
            calls = realloc(calls, (room *= 2) * sizeof *calls);
        calls[count++] = x;
    }
    clock_gettime(CLOCK_MONOTONIC, &begin);
    for (size_t i = 0; i < count; i++)
        make(&calls[i]);
    clock_gettime(CLOCK_MONOTONIC, &end);
    fprintf(stderr, "%.6f\n", (double)(end.tv_sec - begin.tv_sec) + (double)(end.tv_nsec - begin.tv_nsec) / 1e9);
    return 0;
}
