/*
 * One call, made again and again over the same memory, so that its instructions can be counted:
 *
 *     costs ROUNDS CALL SIZE
 *
 * read and write: a text of SIZE bytes. receive and send, with full tables of 32 places: an FPL comes, or a CHG is sent, where SIZE flights are
 * sent and received. receive_u and send_u: the same with 32 flights, of which SIZE have an unanswered message. Before a CALL, "no_"
 * makes all but the call itself. END chooses whose functions are called: ref or proved.
 */
#include <stdio.h>
#include <stdlib.h>
#include <string.h>

#include "ends.h"

#ifndef END
#define END ref
#endif
static const struct implementation end_in_use = IMPLEMENTATION(END);

enum { PLACES = 32, TEXT = 2000 };

struct side {
    uint8_t head[REF_HEAD], sent[PLACES * REF_FLIGHT], received[PLACES * REF_FLIGHT], unanswered[REF_WAITING * REF_WAITINGS], answers[REF_ANSWERS];
};
#define LENT(s) (s)->head, sizeof (s)->head, (s)->sent, sizeof (s)->sent, (s)->received, sizeof (s)->received, (s)->unanswered, \
                sizeof (s)->unanswered, (s)->answers, sizeof (s)->answers

static void must(int number, const char *what)
{
    if (number != 0) {
        fprintf(stderr, "%s refused %d\n", what, number);
        exit(1);
    }
}

static struct side ours, theirs;

/* What is sent under the next number: the other end takes it, and its answer comes back if it is wanted. */
static void exchange(struct side *from, struct side *to, const char *draft, int answered)
{
    uint8_t record[REF_RECORD], text[TEXT], answer[TEXT];
    uint64_t place, hyphens, n, m, none;
    must(ref_read((const uint8_t *)draft, strlen(draft), record, sizeof record, &place, &hyphens), "reading a draft");
    must(ref_send((const uint8_t *)draft, strlen(draft), record, sizeof record, LENT(from), text, sizeof text, &n), "sending");
    must(ref_receive(text, n, LENT(to), answer, sizeof answer, &m, &place, &hyphens), "receiving");
    if (answered)
        must(ref_receive(answer, m, LENT(from), text, sizeof text, &none, &place, &hyphens), "an answer");
}

static void plan(char *draft, const char *units, unsigned flight)
{
    sprintf(draft, "(FPL%s000-N%u/A1234-IS-B738/M-SDE3/LB1-KSEA0930-N0450F350 J20 SEA-CYOW0430 CYUL-DOF/121115)", units, 10 + flight);
}

static void change(char *draft, const char *units, unsigned flight, unsigned first)
{
    sprintf(draft, "(CHG%s000%s%03u-N%u-KSEA-CYOW-09/A320/M-18/0)", units, units, first, 10 + flight);
}

/* Both ends have `flights` flights sent, and ours `waiting` unanswered changes of them. */
static void prepare(unsigned flights, unsigned waiting)
{
    static const char *const names[2] = { "KZMP", "CZWG" };
    char draft[TEXT];
    unsigned i;
    must(ref_set_up((const uint8_t *)names[0], 4, (const uint8_t *)names[1], 4, LENT(&ours)), "set-up");
    must(ref_set_up((const uint8_t *)names[1], 4, (const uint8_t *)names[0], 4, LENT(&theirs)), "set-up");
    for (i = 0; i < flights; i++) {
        plan(draft, "KZMP/CZWG", i);
        exchange(&ours, &theirs, draft, 1);
        plan(draft, "CZWG/KZMP", i);
        exchange(&theirs, &ours, draft, 1);
    }
    for (i = 0; i < waiting; i++) {
        change(draft, "KZMP/CZWG", i, i);
        exchange(&ours, &theirs, draft, 0);
    }
}

/* Words of a letter, until the text has n bytes or there are so many of them. */
static size_t words(char *to, size_t have, size_t n, size_t most, char letter)
{
    size_t i;
    for (i = 0; i == 0 || (have + 1 < n && i < most); i++, have++) to[have] = i % 9 == 8 ? ' ' : letter;
    if (to[have - 1] == ' ') to[have - 1] = letter;
    return have;
}

/* A text of about n bytes: a LAM, an FPL with the words of its fields 15 and 18, or a CHG with a field 18 of its own and both, which
   has 1,077 bytes with every field as long as it may be: none is longer. */
static size_t text_of(char *to, size_t n)
{
    enum { IN_15 = 290, IN_18 = 296 };
    size_t have;
    if (n < 90) return (size_t)sprintf(to, "(LAMCZWG/KZMP000KZMP/CZWG000)");
    if (n < 640) {
        have = (size_t)sprintf(to, "(FPLKZMP/CZWG000-N10-I-B738/M-S/C-KSEA0930-N0450F350 ");
        have = words(to, have, n - 30, IN_15, 'A');
        have += (size_t)sprintf(to + have, "-CYOW-DOF/");
    } else {
        have = (size_t)sprintf(to, "(CHGKZMP/CZWG000KZMP/CZWG000-N123456-KSEA0930-CYOW-DOF/");
        have = words(to, have, n, IN_18, 'A');
        have += (size_t)sprintf(to + have, "-08/IS-09/99B738/M-10/SDE1FGHIJ1234567890123456789012345678901/ABCDEFGHIJ1234567890"
                                           "-13/KSEA0930-15/N0450F350 ");
        have = words(to, have, n, IN_15, 'B');
        have += (size_t)sprintf(to + have, "-16/CYOW0430 CYUL CYYZ-18/DOF/");
    }
    have = words(to, have, n, IN_18, 'C');
    to[have++] = ')';
    return have;
}

int main(int argc, char **argv)
{
    static char text[TEXT];
    static struct side copy;
    uint8_t record[REF_RECORD], out[TEXT];
    uint64_t place, hyphens, length;
    unsigned rounds = argc > 3 ? (unsigned)atoi(argv[1]) : 0, size = argc > 3 ? (unsigned)atoi(argv[3]) : 0, i;
    const char *call = argc > 3 ? argv[2] : "";
    int idle = strncmp(call, "no_", 3) == 0, number = 0;
    size_t n = 0;
    if (idle) call += 3;
    if (strcmp(call, "read") == 0 || strcmp(call, "write") == 0) {
        n = text_of(text, size);
        must(ref_read((uint8_t *)text, n, record, sizeof record, &place, &hyphens), "the text");
    } else {
        int waits = strchr(call, '_') != NULL;
        prepare(waits ? 31 : size, waits ? size : 0);
        if (call[0] == 'r') {
            uint8_t again[REF_RECORD];
            char draft[TEXT];
            plan(draft, "CZWG/KZMP", 900);
            must(ref_read((uint8_t *)draft, strlen(draft), again, sizeof again, &place, &hyphens), "a draft");
            if (ref_send((uint8_t *)draft, strlen(draft), again, sizeof again, LENT(&theirs), (uint8_t *)text, sizeof text, &length) != 0) {
                change(draft, "CZWG/KZMP", 0, 0);
                must(ref_read((uint8_t *)draft, strlen(draft), again, sizeof again, &place, &hyphens), "a draft");
                must(ref_send((uint8_t *)draft, strlen(draft), again, sizeof again, LENT(&theirs), (uint8_t *)text, sizeof text, &length), "sending");
            }
            n = length;
        } else {
            change(text, "KZMP/CZWG", waits ? 30 : size - 1, waits ? 30 : size - 1);
            n = strlen(text);
            must(ref_read((uint8_t *)text, n, record, sizeof record, &place, &hyphens), "a draft");
        }
    }
    for (i = 0; i < rounds; i++) {
        copy = ours;
        if (idle) continue;
        if (strcmp(call, "read") == 0)
            number |= end_in_use.read((uint8_t *)text, n, record, sizeof record, &place, &hyphens);
        else if (strcmp(call, "write") == 0)
            number |= end_in_use.write((uint8_t *)text, n, record, sizeof record, out, sizeof out, &length);
        else if (call[0] == 'r')
            number |= end_in_use.receive((uint8_t *)text, n, LENT(&copy), out, sizeof out, &length, &place, &hyphens);
        else
            number |= end_in_use.send((uint8_t *)text, n, record, sizeof record, LENT(&copy), out, sizeof out, &length);
    }
    must(number, "the call");
    printf("%zu\n", n);
    return 0;
}
