/*
 * Pamiqsun for hosts in C: the reader, the writer and one end of a link.
 *
 * Document 01 has the rules. Every function gives its number: 0 where the call is done, 1 to 14 where it refuses. A refusal leaves
 * every lent byte as it was, the head's 12 included, and gives length 0; place and hyphens are 0 but for 1. On success a lent
 * text buffer keeps its bytes past the length that is given.
 *
 * A slice is two parameters, a pointer and a length in bytes. The functions of the library take any lengths and any bytes; that
 * the pointers are good for their lengths and that no lent buffer lies over another that is written is for the caller to see to.
 * The functions with `checked` in their names refuse by 12 where a pointer is null and its length is not 0, and where a buffer
 * that may be written overlaps another: call these unless you know better.
 *
 * Sizes: a head has 12 bytes, a packed record 246, a table of flights 768 for each of 1 to 32 places, the unanswered messages
 * 20,480, the given answers 1,000. No text is longer than 1,077 bytes.
 */
#ifndef PAMIQSUN_H
#define PAMIQSUN_H

#include <stddef.h>
#include <stdint.h>

#ifdef __cplusplus
extern "C" {
#endif

/* Document 01's numbers. */
enum {
    PAMIQSUN_DONE = 0,
    PAMIQSUN_NOT_READ = 1,            /* text not derived by the rules; with place and hyphens */
    PAMIQSUN_NO_ROOM = 2,             /* text or answer longer than the lent buffer */
    PAMIQSUN_WRONG_UNITS = 3,         /* the units of number or reference; an answer's two numbers differ */
    PAMIQSUN_STALE = 4,               /* stale number, or an old number answered RLA on a text that is no RTI */
    PAMIQSUN_NOTHING_UNANSWERED = 5,  /* answer or resend names nothing unanswered */
    PAMIQSUN_WRONG_ANSWER = 6,        /* LAM to an RTI, RLA to another, LRM to an acceptance */
    PAMIQSUN_NAMED_ALREADY = 7,       /* an unanswered message names this flight */
    PAMIQSUN_TOO_MANY_UNANSWERED = 8, /* 16 unanswered */
    PAMIQSUN_TOO_FAR_BACK = 9,        /* an unanswered message is 400 or more numbers back from the next */
    PAMIQSUN_CONDITION_FAILS = 10,    /* applying condition fails at the sender */
    PAMIQSUN_TABLE_FULL = 11,         /* FPL or CPL, when flights sent plus unanswered FPL and CPL fill the table */
    PAMIQSUN_NOT_FORMED = 12,         /* lent memory of wrong size or not well formed */
    PAMIQSUN_BREAKS_RULE = 13,        /* content breaks a field rule, or content to send is an answer */
    PAMIQSUN_BAD_NAMES = 14           /* set-up with units equal or not four letters */
};

enum {
    PAMIQSUN_HEAD = 12,
    PAMIQSUN_RECORD = 246,
    PAMIQSUN_FLIGHT = 768,
    PAMIQSUN_UNANSWERED = 20480,
    PAMIQSUN_ANSWERS = 1000,
    PAMIQSUN_LONGEST = 1077
};

/*
 * A packed record is 123 numbers of two bytes, the high byte first. These are their places, in numbers: number k stands in the
 * bytes 2 * k and 2 * k + 1. A part is two numbers, where it stands in the text and how long it is; length 0 says that it is
 * absent. PAMIQSUN_OWN and PAMIQSUN_CHANGES begin the 20 parts of fields 07 to 18, the message's own and those of the fields 22
 * of a CHG: add twice a PAMIQSUN_IN name to them.
 */
enum {
    PAMIQSUN_KIND = 0, /* 1 FPL, 2 CPL, 3 EST, 4 CHG, 5 CNL, 6 RTI, 7 RTA, 8 RLA, 9 LAM, 10 LRM */
    PAMIQSUN_SENDER = 1,
    PAMIQSUN_RECEIVER = 3,
    PAMIQSUN_DIGITS = 5,
    PAMIQSUN_REFERENCE_SENDER = 7,
    PAMIQSUN_REFERENCE_RECEIVER = 9,
    PAMIQSUN_REFERENCE_DIGITS = 11,
    PAMIQSUN_OWN = 13,
    PAMIQSUN_POINT = 53,
    PAMIQSUN_OVER = 55,
    PAMIQSUN_CROSSING = 57,
    PAMIQSUN_SECOND = 59,
    PAMIQSUN_SENSE = 61,
    PAMIQSUN_CHANGES = 63,
    PAMIQSUN_FIELD_31 = 103,
    PAMIQSUN_FIELD_32 = 105,
    PAMIQSUN_REASON = 107,
    PAMIQSUN_NUMBER = 109,
    PAMIQSUN_REFERENCE = 110,
    PAMIQSUN_OWN_COUNT = 111,
    PAMIQSUN_OWN_LEVEL_KIND = 112, /* 0 absent, 1 F, 2 A, 3 S, 4 M, 5 VFR */
    PAMIQSUN_OWN_LEVEL = 113,
    PAMIQSUN_POINT_FORM = 114, /* 0 no point, 1 name, 2 bearing and distance, 3 degrees, 4 degrees and minutes */
    PAMIQSUN_CROSSING_KIND = 115,
    PAMIQSUN_CROSSING_LEVEL = 116,
    PAMIQSUN_SECOND_KIND = 117,
    PAMIQSUN_SECOND_LEVEL = 118,
    PAMIQSUN_CHANGED_COUNT = 119,
    PAMIQSUN_CHANGED_LEVEL_KIND = 120,
    PAMIQSUN_CHANGED_LEVEL = 121,
    PAMIQSUN_REASON_NUMBER = 122
};

enum {
    PAMIQSUN_IN_AIRCRAFT, PAMIQSUN_IN_CODE, PAMIQSUN_IN_RULES, PAMIQSUN_IN_FLIGHT, PAMIQSUN_IN_COUNT, PAMIQSUN_IN_MODEL,
    PAMIQSUN_IN_WAKE, PAMIQSUN_IN_EQUIPMENT, PAMIQSUN_IN_SURVEILLANCE, PAMIQSUN_IN_DEPARTURE, PAMIQSUN_IN_TIME,
    PAMIQSUN_IN_SPEED, PAMIQSUN_IN_LEVEL, PAMIQSUN_IN_ROUTE, PAMIQSUN_IN_DESTINATION, PAMIQSUN_IN_ELAPSED,
    PAMIQSUN_IN_ALTERNATE, PAMIQSUN_IN_ALTERNATE_2, PAMIQSUN_IN_INDICATOR, PAMIQSUN_IN_OTHER
};

/* READING: the packed record of a text. 1 with place and hyphens where it is no message; 12 where record_len is not 246. */
size_t pamiqsun_read(const uint8_t *text, size_t text_len, uint8_t *record, size_t record_len, size_t *place, size_t *hyphens);

/* WRITING: the one text that reads back as a packed record, whose parts lie in the bytes d. 13, 2; 12 where record_len is not 246. */
size_t pamiqsun_write(const uint8_t *d, size_t d_len, const uint8_t *record, size_t record_len, uint8_t *out, size_t out_len,
                      size_t *length);

/* THE WORDS of field 15 and of field 18: where they stand in the text, 0 and 0 where there are none. 1 where it is no message. */
size_t pamiqsun_route(const uint8_t *text, size_t text_len, size_t *start, size_t *length);
size_t pamiqsun_other(const uint8_t *text, size_t text_len, size_t *start, size_t *length);

/* SET-UP: a fresh end over memory of the right sizes, whatever stands in it; its head is written. 12, 14. */
size_t pamiqsun_set_up(const uint8_t *ours, size_t ours_len, const uint8_t *partners, size_t partners_len, uint8_t *head,
                       size_t head_len, uint8_t *sent, size_t sent_len, uint8_t *received, size_t received_len,
                       uint8_t *unanswered, size_t unanswered_len, uint8_t *answers, size_t answers_len);

/* THE CHECKS: 0 where what is lent is well formed, else 12. All of it: */
size_t pamiqsun_is_formed(const uint8_t *head, size_t head_len, const uint8_t *sent, size_t sent_len, const uint8_t *received,
                          size_t received_len, const uint8_t *unanswered, size_t unanswered_len, const uint8_t *answers,
                          size_t answers_len);
/* and by itself one record of a flight, one table of flights, the unanswered messages beside the head whose names they have, and
   the answers, to tell which of them is damaged. */
size_t pamiqsun_is_flight(const uint8_t *flight, size_t flight_len);
size_t pamiqsun_is_table(const uint8_t *table, size_t table_len);
size_t pamiqsun_is_unanswered(const uint8_t *head, size_t head_len, const uint8_t *unanswered, size_t unanswered_len);
size_t pamiqsun_is_answers(const uint8_t *answers, size_t answers_len);

/* SENDING what a packed record says, whose parts lie in the bytes d, under the next number; its own number is not looked at.
   The text to send comes in out. 12, 13, 8, 9, 7, 10, 11, 2. */
size_t pamiqsun_send(const uint8_t *d, size_t d_len, const uint8_t *record, size_t record_len, uint8_t *head, size_t head_len,
                     const uint8_t *sent, size_t sent_len, uint8_t *received, size_t received_len, uint8_t *unanswered,
                     size_t unanswered_len, const uint8_t *answers, size_t answers_len, uint8_t *out, size_t out_len,
                     size_t *length);

/* RECEIVING a text from the partner. The answer to send back comes in out; an answer gets none, and gives length 0.
   12, 1, 3, then 5, 6 or 4, then 2. */
size_t pamiqsun_receive(const uint8_t *text, size_t text_len, uint8_t *head, size_t head_len, uint8_t *sent, size_t sent_len,
                        uint8_t *received, size_t received_len, uint8_t *unanswered, size_t unanswered_len, uint8_t *answers,
                        size_t answers_len, uint8_t *out, size_t out_len, size_t *length, size_t *place, size_t *hyphens);

/* RESENDING: the kept text of an unanswered number comes in out, and nothing else changes. 12, 5, 2. */
size_t pamiqsun_resend(size_t number, const uint8_t *head, size_t head_len, const uint8_t *sent, size_t sent_len,
                       const uint8_t *received, size_t received_len, const uint8_t *unanswered, size_t unanswered_len,
                       const uint8_t *answers, size_t answers_len, uint8_t *out, size_t out_len, size_t *length);

#ifdef __cplusplus
}
#endif

/* THE CHECKED CALLS */

/* What is lent to a call: `written` says that the call may write it. */
struct pamiqsun_lent {
    const void *at;
    size_t length;
    int written;
};

/* Whether the k-th is no null pointer with a length, and lies over no other where one of the two may be written. */
static inline int pamiqsun_is_apart(const struct pamiqsun_lent *lent, size_t count, size_t k)
{
    size_t i;
    if (lent[k].at == NULL && lent[k].length != 0)
        return 0;
    for (i = 0; i < count; i++) {
        uintptr_t a = (uintptr_t)lent[k].at, b = (uintptr_t)lent[i].at;
        if (i == k || lent[k].length == 0 || lent[i].length == 0 || !(lent[k].written || lent[i].written))
            continue;
        if (a < b ? b - a < lent[k].length : a - b < lent[i].length)
            return 0;
    }
    return 1;
}

static inline int pamiqsun_are_apart(const struct pamiqsun_lent *lent, size_t count)
{
    size_t k;
    for (k = 0; k < count; k++)
        if (!pamiqsun_is_apart(lent, count, k))
            return 0;
    return 1;
}

/* Refuses by 12. The last `numbers` of what is lent are numbers: those that lie over nothing else become 0. */
static inline size_t pamiqsun_refuse(const struct pamiqsun_lent *lent, size_t count, size_t numbers)
{
    size_t k;
    for (k = count - numbers; k < count; k++)
        if (pamiqsun_is_apart(lent, count, k))
            *(size_t *)(uintptr_t)lent[k].at = 0;
    return PAMIQSUN_NOT_FORMED;
}

#define PAMIQSUN_COUNT(lent) (sizeof(lent) / sizeof *(lent))

static inline size_t pamiqsun_checked_read(const uint8_t *text, size_t text_len, uint8_t *record, size_t record_len,
                                           size_t *place, size_t *hyphens)
{
    const struct pamiqsun_lent lent[] = {
        {text, text_len, 0}, {record, record_len, 1}, {place, sizeof *place, 1}, {hyphens, sizeof *hyphens, 1}};
    if (!pamiqsun_are_apart(lent, PAMIQSUN_COUNT(lent)))
        return pamiqsun_refuse(lent, PAMIQSUN_COUNT(lent), 2);
    return pamiqsun_read(text, text_len, record, record_len, place, hyphens);
}

static inline size_t pamiqsun_checked_write(const uint8_t *d, size_t d_len, const uint8_t *record, size_t record_len, uint8_t *out,
                                            size_t out_len, size_t *length)
{
    const struct pamiqsun_lent lent[] = {{d, d_len, 0}, {record, record_len, 0}, {out, out_len, 1}, {length, sizeof *length, 1}};
    if (!pamiqsun_are_apart(lent, PAMIQSUN_COUNT(lent)))
        return pamiqsun_refuse(lent, PAMIQSUN_COUNT(lent), 1);
    return pamiqsun_write(d, d_len, record, record_len, out, out_len, length);
}

static inline size_t pamiqsun_checked_route(const uint8_t *text, size_t text_len, size_t *start, size_t *length)
{
    const struct pamiqsun_lent lent[] = {{text, text_len, 0}, {start, sizeof *start, 1}, {length, sizeof *length, 1}};
    if (!pamiqsun_are_apart(lent, PAMIQSUN_COUNT(lent)))
        return pamiqsun_refuse(lent, PAMIQSUN_COUNT(lent), 2);
    return pamiqsun_route(text, text_len, start, length);
}

static inline size_t pamiqsun_checked_other(const uint8_t *text, size_t text_len, size_t *start, size_t *length)
{
    const struct pamiqsun_lent lent[] = {{text, text_len, 0}, {start, sizeof *start, 1}, {length, sizeof *length, 1}};
    if (!pamiqsun_are_apart(lent, PAMIQSUN_COUNT(lent)))
        return pamiqsun_refuse(lent, PAMIQSUN_COUNT(lent), 2);
    return pamiqsun_other(text, text_len, start, length);
}

/* The checks read only, so that null pointers are all that can be wrong. */
static inline size_t pamiqsun_checked_is_formed(const uint8_t *head, size_t head_len, const uint8_t *sent, size_t sent_len,
                                                const uint8_t *received, size_t received_len, const uint8_t *unanswered,
                                                size_t unanswered_len, const uint8_t *answers, size_t answers_len)
{
    const struct pamiqsun_lent lent[] = {{head, head_len, 0}, {sent, sent_len, 0}, {received, received_len, 0}, {unanswered, unanswered_len, 0},
                                         {answers, answers_len, 0}};
    if (!pamiqsun_are_apart(lent, PAMIQSUN_COUNT(lent)))
        return PAMIQSUN_NOT_FORMED;
    return pamiqsun_is_formed(head, head_len, sent, sent_len, received, received_len, unanswered, unanswered_len, answers, answers_len);
}

static inline size_t pamiqsun_checked_is_flight(const uint8_t *flight, size_t flight_len)
{
    return flight == NULL && flight_len != 0 ? (size_t)PAMIQSUN_NOT_FORMED : pamiqsun_is_flight(flight, flight_len);
}

static inline size_t pamiqsun_checked_is_table(const uint8_t *table, size_t table_len)
{
    return table == NULL && table_len != 0 ? (size_t)PAMIQSUN_NOT_FORMED : pamiqsun_is_table(table, table_len);
}

static inline size_t pamiqsun_checked_is_unanswered(const uint8_t *head, size_t head_len, const uint8_t *unanswered,
                                                    size_t unanswered_len)
{
    const struct pamiqsun_lent lent[] = {{head, head_len, 0}, {unanswered, unanswered_len, 0}};
    if (!pamiqsun_are_apart(lent, PAMIQSUN_COUNT(lent)))
        return PAMIQSUN_NOT_FORMED;
    return pamiqsun_is_unanswered(head, head_len, unanswered, unanswered_len);
}

static inline size_t pamiqsun_checked_is_answers(const uint8_t *answers, size_t answers_len)
{
    return answers == NULL && answers_len != 0 ? (size_t)PAMIQSUN_NOT_FORMED : pamiqsun_is_answers(answers, answers_len);
}

static inline size_t pamiqsun_checked_set_up(const uint8_t *ours, size_t ours_len, const uint8_t *partners, size_t partners_len,
                                             uint8_t *head, size_t head_len, uint8_t *sent, size_t sent_len, uint8_t *received,
                                             size_t received_len, uint8_t *unanswered, size_t unanswered_len, uint8_t *answers,
                                             size_t answers_len)
{
    const struct pamiqsun_lent lent[] = {{ours, ours_len, 0},         {partners, partners_len, 0},     {head, head_len, 1},
                                         {sent, sent_len, 1},         {received, received_len, 1},     {unanswered, unanswered_len, 1},
                                         {answers, answers_len, 1}};
    if (!pamiqsun_are_apart(lent, PAMIQSUN_COUNT(lent)))
        return PAMIQSUN_NOT_FORMED;
    return pamiqsun_set_up(ours, ours_len, partners, partners_len, head, head_len, sent, sent_len, received, received_len,
                           unanswered, unanswered_len, answers, answers_len);
}

static inline size_t pamiqsun_checked_send(const uint8_t *d, size_t d_len, const uint8_t *record, size_t record_len, uint8_t *head,
                                           size_t head_len, const uint8_t *sent, size_t sent_len, uint8_t *received,
                                           size_t received_len, uint8_t *unanswered, size_t unanswered_len,
                                           const uint8_t *answers, size_t answers_len, uint8_t *out, size_t out_len,
                                           size_t *length)
{
    const struct pamiqsun_lent lent[] = {
        {d, d_len, 0},         {record, record_len, 0},         {head, head_len, 1},       {sent, sent_len, 0}, {received, received_len, 1},
        {unanswered, unanswered_len, 1}, {answers, answers_len, 0}, {out, out_len, 1},   {length, sizeof *length, 1}};
    if (!pamiqsun_are_apart(lent, PAMIQSUN_COUNT(lent)))
        return pamiqsun_refuse(lent, PAMIQSUN_COUNT(lent), 1);
    return pamiqsun_send(d, d_len, record, record_len, head, head_len, sent, sent_len, received, received_len, unanswered,
                         unanswered_len, answers, answers_len, out, out_len, length);
}

static inline size_t pamiqsun_checked_receive(const uint8_t *text, size_t text_len, uint8_t *head, size_t head_len, uint8_t *sent,
                                              size_t sent_len, uint8_t *received, size_t received_len, uint8_t *unanswered,
                                              size_t unanswered_len, uint8_t *answers, size_t answers_len, uint8_t *out,
                                              size_t out_len, size_t *length, size_t *place, size_t *hyphens)
{
    const struct pamiqsun_lent lent[] = {
        {text, text_len, 0},       {head, head_len, 1}, {sent, sent_len, 1},           {received, received_len, 1}, {unanswered, unanswered_len, 1},
        {answers, answers_len, 1}, {out, out_len, 1},   {length, sizeof *length, 1}, {place, sizeof *place, 1},   {hyphens, sizeof *hyphens, 1}};
    if (!pamiqsun_are_apart(lent, PAMIQSUN_COUNT(lent)))
        return pamiqsun_refuse(lent, PAMIQSUN_COUNT(lent), 3);
    return pamiqsun_receive(text, text_len, head, head_len, sent, sent_len, received, received_len, unanswered, unanswered_len,
                            answers, answers_len, out, out_len, length, place, hyphens);
}

static inline size_t pamiqsun_checked_resend(size_t number, const uint8_t *head, size_t head_len, const uint8_t *sent,
                                             size_t sent_len, const uint8_t *received, size_t received_len,
                                             const uint8_t *unanswered, size_t unanswered_len, const uint8_t *answers,
                                             size_t answers_len, uint8_t *out, size_t out_len, size_t *length)
{
    const struct pamiqsun_lent lent[] = {{head, head_len, 0}, {sent, sent_len, 0}, {received, received_len, 0}, {unanswered, unanswered_len, 0},
                                         {answers, answers_len, 0}, {out, out_len, 1}, {length, sizeof *length, 1}};
    if (!pamiqsun_are_apart(lent, PAMIQSUN_COUNT(lent)))
        return pamiqsun_refuse(lent, PAMIQSUN_COUNT(lent), 1);
    return pamiqsun_resend(number, head, head_len, sent, sent_len, received, received_len, unanswered, unanswered_len, answers,
                           answers_len, out, out_len, length);
}

#endif
