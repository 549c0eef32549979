/* Reads each line of the input as a text and writes again what it read: where every line is a message, the output is the input,
   byte for byte.  Where one is refused, by the reader or by the writer, the number stands in its place. */
#include <stdio.h>
#include <string.h>

#include "ends.h"
#include "../include/pamiqsun.h"

/* END chooses whose reader and writer they are: those of the library, by its checked calls, or with link.c those of ref. */
#ifndef END
#define END pamiqsun_checked
#endif

enum { LONGEST_INPUT = 200000 };

/* The number of the first call that refuses, or 0 with the text in out. */
static int rewrite(const uint8_t *text, size_t text_len, uint8_t *out, size_t room, size_t *length)
{
    uint8_t record[PAMIQSUN_RECORD];
    size_t place, hyphens;
    int number = (int)FUNCTION(END, read)(text, text_len, record, sizeof record, &place, &hyphens);
    if (number != 0) return number;
    return (int)FUNCTION(END, write)(text, text_len, record, sizeof record, out, room, length);
}

static void rewrite_line(const uint8_t *line, size_t n)
{
    uint8_t out[PAMIQSUN_LONGEST];
    size_t length;
    int number = rewrite(line, n, out, sizeof out, &length);
    if (number == 0)
        fwrite(out, 1, length, stdout);
    else
        printf("refused %d", number);
    putchar('\n');
}

int main(void)
{
    static uint8_t input[LONGEST_INPUT];
    size_t at = 0, n = fread(input, 1, sizeof input, stdin);
    if (n == sizeof input) {
        fprintf(stderr, "the input is too long\n");
        return 2;
    }
    while (at < n) {
        const uint8_t *line = input + at, *line_feed = memchr(line, '\n', n - at);
        size_t line_len = line_feed ? (size_t)(line_feed - line) : n - at;
        rewrite_line(line, line_len);
        at += line_len + 1;
    }
    return 0;
}
