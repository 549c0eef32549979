/* The checked calls of pamiqsun.h refuse wrong buffers by 12, before anything is written. */
#include <stdio.h>
#include <stdlib.h>
#include <string.h>

#include "../include/pamiqsun.h"

static unsigned long checks;

static void must(int holds, const char *what)
{
    checks++;
    if (!holds) {
        printf("wrong: %s\n", what);
        exit(1);
    }
}

/* All that is lent lies in one stretch, so that each buffer can be moved over its neighbour. */
enum { TABLE = 2 * PAMIQSUN_FLIGHT, SPARE = 64 };
static uint8_t memory[PAMIQSUN_HEAD + 2 * TABLE + PAMIQSUN_UNANSWERED + PAMIQSUN_ANSWERS + PAMIQSUN_LONGEST + 6 * SPARE], was[sizeof memory];

struct lent {
    uint8_t *head, *sent, *received, *unanswered, *answers, *out;
};

static struct lent apart(void)
{
    struct lent l;
    l.head = memory;
    l.sent = l.head + PAMIQSUN_HEAD + SPARE;
    l.received = l.sent + TABLE + SPARE;
    l.unanswered = l.received + TABLE + SPARE;
    l.answers = l.unanswered + PAMIQSUN_UNANSWERED + SPARE;
    l.out = l.answers + PAMIQSUN_ANSWERS + SPARE;
    return l;
}

static size_t receive(const struct lent *l, const uint8_t *text, size_t text_len, size_t *length)
{
    size_t place = 7, hyphens = 7;
    return pamiqsun_checked_receive(text, text_len, l->head, PAMIQSUN_HEAD, l->sent, TABLE, l->received, TABLE, l->unanswered,
                                    PAMIQSUN_UNANSWERED, l->answers, PAMIQSUN_ANSWERS, l->out, PAMIQSUN_LONGEST, length, &place,
                                    &hyphens);
}

/* Each buffer in turn is null, or lies over another by one byte. */
static void wrong_buffers(void)
{
    static const uint8_t text[] = "(LAMCZWG/KZMP000KZMP/CZWG000)";
    size_t k, length;
    for (k = 0; k < 12; k++) {
        struct lent l = apart();
        uint8_t **which[6];
        which[0] = &l.head, which[1] = &l.sent, which[2] = &l.received, which[3] = &l.unanswered, which[4] = &l.answers, which[5] = &l.out;
        if (k < 6)
            *which[k] = NULL;
        else
            *which[k - 6] = k == 6 ? l.sent - PAMIQSUN_HEAD + 1 : *which[k - 6] - SPARE - 1;
        memcpy(was, memory, sizeof memory);
        length = 7;
        must(receive(&l, text, sizeof text - 1, &length) == PAMIQSUN_NOT_FORMED, "a wrong buffer is refused by 12");
        must(length == 0, "the length is 0");
        must(memcmp(was, memory, sizeof memory) == 0, "nothing has changed");
    }
}

/* A fresh end is well formed in each part; a damaged part is told, and a null pointer is refused. */
static void checks_of_parts(const struct lent *l)
{
    must(pamiqsun_checked_is_formed(l->head, PAMIQSUN_HEAD, l->sent, TABLE, l->received, TABLE, l->unanswered, PAMIQSUN_UNANSWERED,
                                    l->answers, PAMIQSUN_ANSWERS) == PAMIQSUN_DONE, "all is well formed");
    must(pamiqsun_checked_is_formed(l->head, PAMIQSUN_HEAD, NULL, TABLE, l->received, TABLE, l->unanswered, PAMIQSUN_UNANSWERED,
                                    l->answers, PAMIQSUN_ANSWERS) == PAMIQSUN_NOT_FORMED, "no table is refused");
    must(pamiqsun_checked_is_flight(l->sent, PAMIQSUN_FLIGHT) == PAMIQSUN_DONE, "a free record is well formed");
    must(pamiqsun_checked_is_flight(NULL, PAMIQSUN_FLIGHT) == PAMIQSUN_NOT_FORMED, "no record is refused");
    must(pamiqsun_checked_is_table(l->sent, TABLE) == PAMIQSUN_DONE, "a table is well formed");
    must(pamiqsun_checked_is_table(l->sent, TABLE - 1) == PAMIQSUN_NOT_FORMED, "a table of another size is not");
    must(pamiqsun_checked_is_table(NULL, TABLE) == PAMIQSUN_NOT_FORMED, "no table is refused");
    must(pamiqsun_checked_is_unanswered(l->head, PAMIQSUN_HEAD, l->unanswered, PAMIQSUN_UNANSWERED) == PAMIQSUN_DONE,
         "nothing unanswered is well formed");
    must(pamiqsun_checked_is_unanswered(l->head, PAMIQSUN_HEAD - 1, l->unanswered, PAMIQSUN_UNANSWERED) == PAMIQSUN_NOT_FORMED,
         "a head of another size is refused");
    must(pamiqsun_checked_is_unanswered(NULL, PAMIQSUN_HEAD, l->unanswered, PAMIQSUN_UNANSWERED) == PAMIQSUN_NOT_FORMED,
         "no head is refused");
    must(pamiqsun_checked_is_answers(l->answers, PAMIQSUN_ANSWERS) == PAMIQSUN_DONE, "no answers are well formed");
    l->answers[3] = 58;
    must(pamiqsun_checked_is_answers(l->answers, PAMIQSUN_ANSWERS) == PAMIQSUN_NOT_FORMED, "58 is no answer");
    l->answers[3] = 0;
    must(pamiqsun_checked_is_answers(NULL, PAMIQSUN_ANSWERS) == PAMIQSUN_NOT_FORMED, "nothing for the answers is refused");
}

/* Where words stand: in the text, or 0 and 0; a number over the text is refused. */
static void words(const struct lent *l)
{
    static const char text[] = "(FPLKZMP/CZWG000-N10-IS-B738/M-S/C-KSEA0930-N0450F350 J20 SEA-CYOW0430-DOF/121115)";
    const uint8_t *t = (const uint8_t *)text;
    size_t start = 7, length = 7;
    must(pamiqsun_checked_route(t, sizeof text - 1, &start, &length) == PAMIQSUN_DONE && length == 7 && memcmp(t + start, "J20 SEA", 7) == 0,
         "the words of field 15");
    must(pamiqsun_checked_other(t, sizeof text - 1, &start, &length) == PAMIQSUN_DONE && length == 6 && memcmp(t + start, "121115", 6) == 0,
         "the words of field 18");
    must(pamiqsun_checked_route(t, 10, &start, &length) == PAMIQSUN_NOT_READ && start == 0 && length == 0, "no message has none");
    must(pamiqsun_checked_route(NULL, 1, &start, &length) == PAMIQSUN_NOT_FORMED, "no text is refused");
    must(pamiqsun_checked_other(l->out, 20, (size_t *)(void *)l->out, &length) == PAMIQSUN_NOT_FORMED, "a number over the text is refused");
    must(pamiqsun_checked_other(t, sizeof text - 1, &start, &start) == PAMIQSUN_NOT_FORMED, "two numbers in one place are refused");
}

int main(void)
{
    struct lent l = apart();
    size_t length = 7;
    static const uint8_t text[] = "(LAMCZWG/KZMP000KZMP/CZWG000)";
    must(pamiqsun_checked_set_up((const uint8_t *)"KZMP", 4, (const uint8_t *)"CZWG", 4, l.head, PAMIQSUN_HEAD, l.sent, TABLE, l.received,
                                 TABLE, l.unanswered, PAMIQSUN_UNANSWERED, l.answers, PAMIQSUN_ANSWERS) == PAMIQSUN_DONE,
         "a fresh end is set up");
    must(pamiqsun_is_formed(l.head, PAMIQSUN_HEAD, l.sent, TABLE, l.received, TABLE, l.unanswered, PAMIQSUN_UNANSWERED, l.answers,
                            PAMIQSUN_ANSWERS) == PAMIQSUN_DONE, "and is well formed");
    checks_of_parts(&l);
    words(&l);
    must(receive(&l, text, sizeof text - 1, &length) == PAMIQSUN_NOTHING_UNANSWERED, "an answer to nothing is refused by 5");
    must(length == 0, "with length 0");
    wrong_buffers();
    memcpy(was, memory, sizeof memory);
    must(receive(&l, l.out, 20, &length) == PAMIQSUN_NOT_FORMED, "a text in the buffer for the answer is refused");
    must(pamiqsun_checked_resend(0, l.head, PAMIQSUN_HEAD, l.sent, TABLE, l.received, TABLE, l.unanswered, PAMIQSUN_UNANSWERED,
                                 l.answers, PAMIQSUN_ANSWERS, l.out, PAMIQSUN_LONGEST, NULL) == PAMIQSUN_NOT_FORMED,
         "no place for the length is refused");
    must(pamiqsun_checked_resend(0, l.head, PAMIQSUN_HEAD, l.sent, TABLE, l.sent, TABLE, l.unanswered, PAMIQSUN_UNANSWERED,
                                 l.answers, PAMIQSUN_ANSWERS, l.out, PAMIQSUN_LONGEST, &length) == PAMIQSUN_NOTHING_UNANSWERED,
         "what is read only may lie over what is read only");
    must(pamiqsun_checked_read(text, sizeof text - 1, l.out, PAMIQSUN_RECORD, (size_t *)(void *)l.out, &length) == PAMIQSUN_NOT_FORMED,
         "a number within a buffer is refused");
    must(memcmp(was, memory, sizeof memory) == 0, "and nothing has changed");
    must(pamiqsun_checked_write(NULL, 0, was, PAMIQSUN_RECORD - 1, l.out, 0, &length) == PAMIQSUN_NOT_FORMED, "a record of another size is refused");
    printf("%lu checks of the guards, all as they should be\n", checks);
    return 0;
}
