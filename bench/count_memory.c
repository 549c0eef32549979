/* Checks the memory of one link, in FILE; bench/count_memory counts its instructions.

       count_memory FILE compare          the changes on standard input: both versions must agree on each
       count_memory FILE ROUNDS WHAT      one of the words below, or "nothing"

   "places" has each place of the flights sent as a table by itself, so that none is compared with another. */
#include <stdio.h>
#include <stdlib.h>
#include <string.h>

#include "memory.h"

size_t measured_memory(const unsigned char *names, size_t names_size, size_t next, size_t highest,
                       const unsigned char *sent, size_t sent_size, const unsigned char *received, size_t received_size,
                       const unsigned char *waiting, size_t waiting_size, const unsigned char *answers, size_t answers_size);
size_t measured_flights(const unsigned char *table, size_t n);
size_t measured_unanswered(const unsigned char *table, size_t n, const unsigned char *ours, size_t ours_size,
                           const unsigned char *partners, size_t partners_size);
size_t measured_answers(const unsigned char *answers, size_t n);

enum { PARTS = 5, TABLE = PQ_FLIGHT * PQ_FLIGHTS, WAITINGS = PQ_WAITING * PQ_WAITINGS };
enum { WHOLE = PQ_HEAD + 2 * TABLE + WAITINGS + PQ_ANSWERS };

static const size_t sizes[PARTS] = { PQ_HEAD, TABLE, TABLE, WAITINGS, PQ_ANSWERS };

enum { OURS, C, FLIGHTS, PLACES, UNANSWERED, ANSWERS, C_FLIGHTS, C_UNANSWERED, C_ANSWERS, NOTHING };
static const char *const words[NOTHING] = {
    "ours", "c", "flights", "places", "unanswered", "answers", "cflights", "cunanswered", "canswers"
};

/* Each part stands by itself, so that a tool sees what is read outside of it. */
static unsigned char *part[PARTS];
static size_t size[PARTS];

static size_t ours(void)
{
    unsigned char *h = part[0];
    if (size[0] != PQ_HEAD) return 0;
    return measured_memory(h, 8, (size_t)(h[8] << 8 | h[9]), (size_t)(h[10] << 8 | h[11]), part[1], size[1], part[2], size[2],
                           part[3], size[3], part[4], size[4]);
}

static size_t theirs(void)
{
    return (size_t)pq_memory(part[0], size[0], part[1], size[1], part[2], size[2], part[3], size[3], part[4], size[4]);
}

static void set(const unsigned char *whole)
{
    int i;
    for (i = 0; i < PARTS; whole += sizes[i], i++) {
        memcpy(part[i], whole, sizes[i]);
        size[i] = sizes[i];
    }
}

static int compare(const unsigned char *whole)
{
    static char line[100000];
    unsigned char *changed = malloc(WHOLE);
    long same[2] = { 0, 0 }, differ = 0, changes = 0;
    if (!changed || ours() != 1 || theirs() != 1) { puts("the memory itself is not taken by both"); return 1; }
    while (fgets(line, sizeof line, stdin)) {
        size_t a, b, of[PARTS];
        char *p = line, *end;
        int i;
        memcpy(changed, whole, WHOLE);
        memcpy(of, sizes, sizeof of);
        while (*p != '\n' && *p) {
            size_t at = strtoul(p, &end, 10);
            p = end + 1;
            if (*end == '=') {
                if (at < PARTS) of[at] = strtoul(p, &end, 10);
                p = end;
            } else
                for (; p[0] > ' ' && p[1] > ' ' && at < WHOLE; p += 2) {
                    char two[3] = { p[0], p[1], 0 };
                    changed[at++] = (unsigned char)strtoul(two, NULL, 16);
                }
            if (*p == ' ') p++;
        }
        set(changed);
        /* One that is taken short is put at the end of what was allocated. */
        for (i = 0; i < PARTS; i++)
            if (of[i] < sizes[i]) {
                part[i] += sizes[i] - of[i];
                memmove(part[i], part[i] - (sizes[i] - of[i]), of[i]);
                size[i] = of[i];
            }
        a = ours();
        b = theirs();
        for (i = 0; i < PARTS; i++)
            if (of[i] < sizes[i]) part[i] -= sizes[i] - of[i];
        changes++;
        if (a == b) same[a]++;
        else { differ++; printf("ours %lu, C %lu: %s", (unsigned long)a, (unsigned long)b, line); }
    }
    printf("%ld changes: %ld refused by both, %ld taken by both, %ld differ\n", changes, same[0], same[1], differ);
    return differ != 0;
}

int main(int argc, char **argv)
{
    unsigned char *whole = malloc(WHOLE);
    size_t sum = 0;
    long rounds, r;
    FILE *f;
    int i, what;
    if (argc < 3 || !whole || !(f = fopen(argv[1], "rb")) || fread(whole, 1, WHOLE, f) != WHOLE) return 2;
    for (i = 0; i < PARTS; i++)
        if (!(part[i] = malloc(sizes[i]))) return 2;
    set(whole);
    if (argc == 3) return compare(whole);
    rounds = atol(argv[2]);
    for (what = 0; what < NOTHING && strcmp(argv[3], words[what]) != 0; what++)
        ;
    for (r = 0; r < rounds; r++)
        switch (what) {
        case OURS: sum += ours(); break;
        case C: sum += theirs(); break;
        case FLIGHTS: sum += measured_flights(part[1], size[1]); break;
        case PLACES:
            for (i = 0; i < PQ_FLIGHTS; i++) sum += measured_flights(part[1] + i * PQ_FLIGHT, PQ_FLIGHT);
            break;
        case UNANSWERED: sum += measured_unanswered(part[3], size[3], part[0], 4, part[0] + 4, 4); break;
        case ANSWERS: sum += measured_answers(part[4], size[4]); break;
        case C_FLIGHTS: sum += (size_t)pq_flights(part[1], size[1]); break;
        case C_UNANSWERED: sum += (size_t)pq_waiting(part[3], size[3], part[0]); break;
        case C_ANSWERS: sum += (size_t)pq_answers(part[4], size[4]); break;
        default: sum += part[0][0];
        }
    printf("%lu\n", (unsigned long)sum);
    return 0;
}
