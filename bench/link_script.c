/* Runs a script of calls on two ends and prints what each call gave, so that the printout can be compared with that of another
   implementation of the same rules.

   A line of the script is the end (A or B), a letter and the rest: u sets up (two names), s sends (the content of a text), r
   receives (a text), n resends (a number), p passes on: the other end receives the text that this one gave last, and the
   answer comes back.  A capital letter makes the same call with the answers one byte short.  o sets the room that is lent for
   texts from now on, x turns a byte of the memory over (which table, and five digits for where).  An empty line, and the end
   of the script, print both ends. */
#include <stdio.h>
#include <stdlib.h>
#include <string.h>

#include "ends.h"

/* END chooses whose functions answer: ref, or with proved.c and the library proved. */
#ifndef END
#define END ref
#endif
static const struct implementation end_in_use = IMPLEMENTATION(END);


enum { LONGEST_LINE = 4096, ROOM = 2000 };

struct station {
    char name;
    size_t sent_len, received_len, room;
    uint8_t head[REF_HEAD], sent[REF_FLIGHT * REF_FLIGHTS], received[REF_FLIGHT * REF_FLIGHTS];
    uint8_t waiting[REF_WAITING * REF_WAITINGS], answers[REF_ANSWERS];
    uint8_t out[ROOM], last[ROOM];
    size_t last_len;
};

static struct station stations[2] = {
    { .name = 'A', .sent_len = 3 * REF_FLIGHT, .received_len = 16 * REF_FLIGHT, .room = 1100 },
    { .name = 'B', .sent_len = 17 * REF_FLIGHT, .received_len = 3 * REF_FLIGHT, .room = 1100 },
};

#define MEMORY(s, short_by) (s)->head, REF_HEAD, (s)->sent, (s)->sent_len, (s)->received, (s)->received_len, (s)->waiting, \
    sizeof (s)->waiting, (s)->answers, (size_t)REF_ANSWERS - (short_by)

static void print_text(const uint8_t *text, size_t n) { fwrite(text, 1, n, stdout); }

/* Prints what a call gave; a text that it gave is kept. */
static void say(struct station *s, int number, uint64_t length)
{
    printf("%c %d", s->name, number);
    if (number == 0) {
        memcpy(s->last, s->out, length);
        s->last_len = length;
        if (length > 0) putchar(' ');
        print_text(s->out, length);
    }
    putchar('\n');
}

static void set_up(struct station *s, const uint8_t *rest, size_t n, size_t short_by)
{
    const uint8_t *blank = memchr(rest, ' ', n);
    size_t first = blank ? (size_t)(blank - rest) : n, second = blank ? n - first - 1 : 0;
    say(s, end_in_use.set_up(rest, first, blank ? blank + 1 : rest, second, MEMORY(s, short_by)), 0);
}

/* The content of a text that is not read is an empty record. */
static void send(struct station *s, const uint8_t *text, size_t n, size_t short_by)
{
    uint8_t record[REF_RECORD] = { 0 };
    uint64_t place, hyphens, length;
    int number;
    end_in_use.read(text, n, record, sizeof record, &place, &hyphens);
    number = end_in_use.send(text, n, record, sizeof record, MEMORY(s, short_by), s->out, s->room, &length);
    say(s, number, length);
}

static void receive(struct station *s, const uint8_t *text, size_t n, size_t short_by)
{
    uint64_t length, place, hyphens;
    int number = end_in_use.receive(text, n, MEMORY(s, short_by), s->out, s->room, &length, &place, &hyphens);
    if (number == REF_NOT_READ)
        printf("%c 1 %lu %lu\n", s->name, (unsigned long)place, (unsigned long)hyphens);
    else
        say(s, number, length);
}

static void resend(struct station *s, const char *rest, size_t short_by)
{
    uint64_t length;
    int number = end_in_use.resend(strtoul(rest, NULL, 10), MEMORY(s, short_by), s->out, s->room, &length);
    say(s, number, length);
}

static void pass_on(struct station *s, struct station *other)
{
    receive(other, s->last, s->last_len, 0);
    receive(s, other->last, other->last_len, 0);
}

static void turn_over(struct station *s, const char *rest)
{
    uint8_t *tables[4] = { s->sent, s->received, s->waiting, s->answers };
    tables[rest[0] - '0'][strtoul(rest + 1, NULL, 10)] ^= 255;
}

/* ---------------------------------------------------------------- the printout of an end */

static void print_flight(const uint8_t *f)
{
    static const int begins[] = { 6, 13, 17, 21, 25, 29, 31, 39, 100, 127, 141, 441 };
    static const int widths[] = { 7, 4, 4, 4, 4, 2, 8, 61, 27, 14, 300, 300 };
    size_t i;
    for (i = 0; i < 6; i++) printf("%03d ", f[i]);
    putchar('\n');
    if (f[0] == 0) return;
    for (i = 0; i < 12; i++) {
        putchar('|');
        print_text(f + begins[i], (size_t)widths[i]);
        puts("|");
    }
    puts("zero");
}

static void print_flights(const uint8_t *table, size_t n)
{
    size_t i;
    for (i = 0; i < n; i += REF_FLIGHT) print_flight(table + i);
}

static void print_station(const struct station *s)
{
    size_t i;
    printf("next %03d highest %03d\n", s->head[8] << 8 | s->head[9], s->head[10] << 8 | s->head[11]);
    print_flights(s->sent, s->sent_len);
    print_flights(s->received, s->received_len);
    for (i = 0; i < REF_WAITINGS; i++) {
        const uint8_t *w = s->waiting + i * REF_WAITING;
        if (!w[0]) continue;
        printf("%03d ", w[1] << 8 | w[2]);
        print_text(w + 5, (size_t)(w[3] << 8 | w[4]));
        putchar('\n');
    }
    for (i = 0; i < REF_ANSWERS; i++)
        if (s->answers[i]) printf("%03d %03d\n", (int)i, s->answers[i]);
}

static void print_both(void)
{
    print_station(&stations[0]);
    print_station(&stations[1]);
}

/* ---------------------------------------------------------------- the script */

static void run(char *line)
{
    struct station *s = &stations[line[0] == 'B'], *other = &stations[line[0] != 'B'];
    char *rest = line + 2;
    size_t n = strlen(rest), short_by = line[1] >= 'A' && line[1] <= 'Z';
    switch (line[1] | 32) {                     /* as a small letter */
    case 'u': set_up(s, (uint8_t *)rest, n, short_by); break;
    case 's': send(s, (uint8_t *)rest, n, short_by); break;
    case 'r': receive(s, (uint8_t *)rest, n, short_by); break;
    case 'n': resend(s, rest, short_by); break;
    case 'p': pass_on(s, other); break;
    case 'o': s->room = strtoul(rest, NULL, 10); break;
    case 'x': turn_over(s, rest); break;
    default: fprintf(stderr, "no such call: %s\n", line); exit(2);
    }
}

int main(void)
{
    static char line[LONGEST_LINE];
    while (fgets(line, sizeof line, stdin)) {
        line[strcspn(line, "\n")] = 0;
        if (line[0] == 0)
            print_both();
        else
            run(line);
    }
    print_both();
    return 0;
}
