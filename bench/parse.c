/* What a script costs to take apart, without a store: finds the lines of standard input and their words, and decodes each word
   of hexadecimal digits into memory of its own. Prints how many lines, words and bytes there were. */
#include <stdio.h>
#include <stdlib.h>
#include <string.h>
#include <unistd.h>

static unsigned char value[256];

static size_t decode(const char *digits, size_t count) {
    unsigned char *bytes = malloc(count / 2 + 1);
    if (bytes == NULL) exit(1);
    size_t length = count / 2;
    for (size_t i = 0; i < length; i++)
        bytes[i] = (unsigned char)(value[(unsigned char)digits[2 * i]] * 16 + value[(unsigned char)digits[2 * i + 1]]);
    size_t sum = length == 0 ? 0 : length + (bytes[length - 1] == 0);
    free(bytes);
    return sum;
}

int main(void) {
    for (int c = '0'; c <= '9'; c++) value[c] = (unsigned char)(c - '0');
    for (int c = 'a'; c <= 'f'; c++) value[c] = (unsigned char)(c - 'a' + 10);
    size_t room = 1 << 16, size = 0;
    char *text = malloc(room);
    for (;;) {
        if (size == room) text = realloc(text, room *= 2);
        if (text == NULL) return 1;
        ssize_t got = read(0, text + size, room - size);
        if (got < 0) return 1;
        if (got == 0) break;
        size += (size_t)got;
    }
    size_t lines = 0, words = 0, bytes = 0;
    for (const char *line = text, *end = text + size; line < end;) {
        const char *stop = memchr(line, '\n', (size_t)(end - line));
        if (stop == NULL) stop = end;
        lines++;
        for (const char *word = line; word <= stop;) {
            const char *blank = memchr(word, ' ', (size_t)(stop - word));
            if (blank == NULL) blank = stop;
            words++;
            if (blank > word && *word == 'x') bytes += decode(word + 1, (size_t)(blank - word - 1));
            word = blank + 1;
        }
        line = stop + 1;
    }
    printf("%zu %zu %zu\n", lines, words, bytes);
    return 0;
}
