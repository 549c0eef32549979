/* Makes the calls on one end of a link whose memory is in FILE, with the texts in TEXTS; bench/count_calls counts instructions.

       count_calls FILE TEXTS ROUNDS WHAT      one of the words below, "show" or "nothing"

   "show" prints what each call gives. */
#include <stdio.h>
#include <stdlib.h>
#include <string.h>

#include "memory.h"

typedef unsigned char byte;

size_t measured_memory(const byte *names, size_t names_size, size_t next, size_t highest, const byte *sent, size_t sent_size,
                       const byte *received, size_t received_size, const byte *waiting, size_t waiting_size, const byte *answers,
                       size_t answers_size);
size_t measured_read(const byte *text, size_t n);
size_t measured_send(const byte *names, size_t names_size, size_t next, size_t highest, const byte *text, size_t n,
                     const byte *sent, size_t sent_size, byte *received, size_t received_size, byte *waiting, size_t waiting_size,
                     const byte *answers, size_t answers_size, byte *out, size_t out_size);
size_t measured_receive(const byte *names, size_t names_size, size_t next, size_t highest, const byte *text, size_t n, byte *sent,
                        size_t sent_size, byte *received, size_t received_size, byte *waiting, size_t waiting_size,
                        byte *answers, size_t answers_size, byte *out, size_t out_size);
size_t measured_resend(const byte *names, size_t names_size, size_t next, size_t highest, size_t n, const byte *sent,
                       size_t sent_size, const byte *received, size_t received_size, const byte *waiting, size_t waiting_size,
                       const byte *answers, size_t answers_size, byte *out, size_t out_size);

enum { TABLE = PQ_FLIGHT * PQ_FLIGHTS, WAITINGS = PQ_WAITING * PQ_WAITINGS, OUT = 1077, TEXTS = 6 };
enum { WHOLE = PQ_HEAD + 2 * TABLE + WAITINGS + PQ_ANSWERS };
enum { SEND, FPL, FIRST, AGAIN, ANSWER, RESEND, MEMORY, DRAFT, FPL_DRAFT, NOTHING };
static const char *const words[NOTHING] = {
    "send", "fpl", "first", "again", "answer", "resend", "memory", "draft", "fpldraft"
};

static byte whole[WHOLE], now[WHOLE], out[OUT];
static char text[TEXTS][2 * OUT];

static size_t call(int what)
{
    byte *h = now, *sent = now + PQ_HEAD, *received = sent + TABLE, *waiting = received + TABLE, *answers = waiting + WAITINGS;
    size_t next = (size_t)(h[8] << 8 | h[9]), highest = (size_t)(h[10] << 8 | h[11]);
    switch (what) {
    case SEND:
    case FPL:
        return measured_send(h, 8, next, highest, (byte *)text[what], strlen(text[what]), sent, TABLE, received, TABLE, waiting,
                             WAITINGS, answers, PQ_ANSWERS, out, OUT);
    case FIRST:
    case AGAIN:
    case ANSWER:
        return measured_receive(h, 8, next, highest, (byte *)text[what], strlen(text[what]), sent, TABLE, received, TABLE,
                                waiting, WAITINGS, answers, PQ_ANSWERS, out, OUT);
    case RESEND:
        return measured_resend(h, 8, next, highest, (size_t)atol(text[RESEND]), sent, TABLE, received, TABLE, waiting, WAITINGS,
                               answers, PQ_ANSWERS, out, OUT);
    case MEMORY:
        return measured_memory(h, 8, next, highest, sent, TABLE, received, TABLE, waiting, WAITINGS, answers, PQ_ANSWERS);
    case DRAFT: return measured_read((byte *)text[SEND], strlen(text[SEND]));
    case FPL_DRAFT: return measured_read((byte *)text[FPL], strlen(text[FPL]));
    default: return 0;
    }
}

static unsigned long changed(void)
{
    unsigned long n = 0;
    size_t i;
    for (i = 0; i < WHOLE; i++) n += now[i] != whole[i];
    return n;
}

int main(int argc, char **argv)
{
    size_t sum = 0;
    long rounds, r;
    FILE *f;
    int i, what;
    if (argc != 5 || !(f = fopen(argv[1], "rb")) || fread(whole, 1, WHOLE, f) != WHOLE) return 2;
    fclose(f);
    if (!(f = fopen(argv[2], "r"))) return 2;
    for (i = 0; i < TEXTS; i++) {
        if (!fgets(text[i], sizeof text[i], f)) return 2;
        text[i][strcspn(text[i], "\n")] = 0;
    }
    if (strcmp(argv[4], "show") == 0) {
        for (i = 0; i <= MEMORY; i++) {
            size_t n;
            memcpy(now, whole, WHOLE);
            n = call(i);
            if (n > OUT) printf("%s: refused, %lu bytes of the memory changed\n", words[i], changed());
            else if (i < MEMORY)
                printf("%s: %.*s, %lu bytes of the memory changed\n", words[i], (int)n, (char *)out, changed());
        }
        return 0;
    }
    rounds = atol(argv[3]);
    for (what = 0; what < NOTHING && strcmp(argv[4], words[what]) != 0; what++)
        ;
    for (r = 0; r < rounds; r++) {
        memcpy(now, whole, WHOLE);
        sum += call(what);
    }
    printf("%lu\n", (unsigned long)sum);
    return 0;
}
