// Runs a program input after input in one process, and tells of each whether it reached code that none before had reached, or not as often.
//
// It is linked with the program's object, whose main, read and write have other names there, and whose code counts its edges. Each input comes
// behind its number of bytes, three bytes with the largest first; each reply is one byte, 1 for news, the number of bytes written, likewise, and
// the bytes.
#include <stdint.h>
#include <stdio.h>
#include <string.h>

enum { MOST = 1 << 24 };

int program_main(int count, char **words);

static uint8_t input[MOST], written[MOST];
static size_t input_length, input_read, written_length;
static uint8_t *counters, *counters_end;
static uint8_t reached[1 << 20];  // for each edge, the kinds of count that it has had

void __sanitizer_cov_8bit_counters_init(uint8_t *start, uint8_t *end) {
    counters = start;
    counters_end = end;
}

ssize_t program_read(int file, void *to, size_t most) {
    size_t left = input_length - input_read, count = left < most ? left : most;
    (void)file;
    memcpy(to, input + input_read, count);
    input_read += count;
    return count;
}

ssize_t program_write(int file, const void *from, size_t count) {
    if (file != 1) return count;
    if (count > MOST - 1 - written_length) return -1;
    memcpy(written + written_length, from, count);
    written_length += count;
    return count;
}

// 1, 2, 3, 4 to 7, 8 to 15, 16 to 31, 32 to 127 and more: a bit each.
static uint8_t kind(uint8_t count) {
    uint8_t bit = 0;
    static const uint8_t ends[] = {1, 2, 3, 7, 15, 31, 127};
    while (bit < 7 && count > ends[bit]) bit++;
    return 1 << bit;
}

static int is_news(void) {
    int news = 0;
    for (size_t edge = 0; edge < (size_t)(counters_end - counters); edge++) {
        if (counters[edge] == 0 || reached[edge] & kind(counters[edge])) continue;
        reached[edge] |= kind(counters[edge]);
        news = 1;
    }
    return news;
}

static int next_input(void) {
    uint8_t head[3];
    if (fread(head, 1, 3, stdin) < 3) return 0;
    input_length = (size_t)head[0] << 16 | head[1] << 8 | head[2];
    return fread(input, 1, input_length, stdin) == input_length;
}

static void answer(void) {
    input_read = written_length = 0;
    memset(counters, 0, counters_end - counters);
    program_main(1, (char *[]){"program", NULL});
    uint8_t head[4] = {is_news(), written_length >> 16, written_length >> 8, written_length};
    fwrite(head, 1, 4, stdout);
    fwrite(written, 1, written_length, stdout);
    fflush(stdout);
}

int main(void) {
    if ((size_t)(counters_end - counters) > sizeof reached) return 2;
    while (next_input()) answer();
    return 0;
}
