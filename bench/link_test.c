/* Tests of link.c, worked out from document 01.  Prints each check that fails, and at the end how many there were.

   Every call goes through a function here that also checks what holds of all calls: after a refusal every lent byte is what it
   was, length, place and hyphens are 0 unless the number says otherwise; after a success the lent text buffer keeps its bytes
   past the length returned, and the memory is well formed. */
#include <stdarg.h>
#include <stdio.h>
#include <stdlib.h>
#include <string.h>

#include "link.h"
#include "memory.h"

enum { PLACES = 3, ROOM = 1100, FILLER = 0xA5, TEXT = 1400 };

/* The lent memory of one end, without gaps so that it can be compared at once. */
struct memory {
    uint8_t head[REF_HEAD], sent[REF_FLIGHT * PLACES], received[REF_FLIGHT * PLACES];
    uint8_t waiting[REF_WAITING * REF_WAITINGS], answers[REF_ANSWERS];
};

struct station {
    struct memory m;
    size_t room;
    char last[TEXT];                            /* the text that was given last */
};

static struct station a, b;
static uint8_t out[ROOM];
static unsigned checks, failures;

static void check(int holds, int line, const char *what)
{
    checks++;
    if (holds) return;
    failures++;
    printf("line %d: %s\n", line, what);
}

static void check_equal(long got, long wanted, int line, const char *what)
{
    checks++;
    if (got == wanted) return;
    failures++;
    printf("line %d: %s: %ld, not %ld\n", line, what, got, wanted);
}

static void check_text(const char *got, const char *wanted, int line)
{
    checks++;
    if (strcmp(got, wanted) == 0) return;
    failures++;
    printf("line %d: %s\n     not %s\n", line, got, wanted);
}

#define CHECK(x) check((x), __LINE__, #x)
#define IS(x, number) check_equal((long)(x), number, __LINE__, #x)
#define GAVE(s, text) check_text((s).last, text, __LINE__)
#define ALWAYS(x) check((x), __LINE__, "of every call: " #x)

#define LENT(m) (m)->head, REF_HEAD, (m)->sent, sizeof (m)->sent, (m)->received, sizeof (m)->received, (m)->waiting, \
    sizeof (m)->waiting, (m)->answers, sizeof (m)->answers

/* A text with numbers put in; a few at a time stay valid. */
static const char *text(const char *format, ...)
{
    static char kept[16][TEXT];
    static unsigned turn;
    char *it = kept[turn++ % 16];
    va_list values;
    va_start(values, format);
    vsnprintf(it, TEXT, format, values);
    va_end(values);
    return it;
}

/* ---------------------------------------------------------------- the calls */

static struct memory before;

static void begin_call(const struct station *s)
{
    before = s->m;
    memset(out, FILLER, sizeof out);
}

static int filler_from(size_t n)
{
    for (; n < sizeof out; n++)
        if (out[n] != FILLER) return 0;
    return 1;
}

/* What holds after every call.  The text given is kept. */
static int end_call(struct station *s, int number, uint64_t length)
{
    if (number != 0) {
        ALWAYS(length == 0);
        ALWAYS(memcmp(&before, &s->m, sizeof before) == 0);
        ALWAYS(filler_from(0));
        return number;
    }
    ALWAYS(length <= s->room);
    ALWAYS(filler_from(length));
    ALWAYS(pq_memory(LENT(&s->m)));
    memcpy(s->last, out, length);
    s->last[length] = 0;
    return 0;
}

static int sends_record(struct station *s, const char *bytes, size_t n, const uint8_t *record, size_t record_len)
{
    uint64_t length = 77;
    int number;
    begin_call(s);
    number = ref_send((const uint8_t *)bytes, n, record, record_len, LENT(&s->m), out, s->room, &length);
    ALWAYS(memcmp(before.sent, s->m.sent, sizeof before.sent) == 0);    /* own flights change when the answer comes */
    return end_call(s, number, length);
}

static void record_of(const char *draft, uint8_t *record)
{
    uint64_t place, hyphens;
    memset(record, 0, REF_RECORD);
    (void)ref_read((const uint8_t *)draft, strlen(draft), record, REF_RECORD, &place, &hyphens);
}

/* Sends the content of a text, whatever its own number is. */
static int sends(struct station *s, const char *draft)
{
    uint8_t record[REF_RECORD];
    record_of(draft, record);
    return sends_record(s, draft, strlen(draft), record, sizeof record);
}

static uint64_t refused_place, refused_hyphens;

static int receives(struct station *s, const char *t)
{
    uint64_t length = 77;
    int number;
    refused_place = refused_hyphens = 77;
    begin_call(s);
    number = ref_receive((const uint8_t *)t, strlen(t), LENT(&s->m), out, s->room, &length, &refused_place, &refused_hyphens);
    ALWAYS(number == 1 || (refused_place == 0 && refused_hyphens == 0));
    return end_call(s, number, length);
}

static int resends(struct station *s, uint64_t n)
{
    uint64_t length = 77;
    int number;
    begin_call(s);
    number = ref_resend(n, LENT(&s->m), out, s->room, &length);
    ALWAYS(memcmp(&before, &s->m, sizeof before) == 0);
    return end_call(s, number, length);
}

static void fresh(void)
{
    memset(&a, 0, sizeof a);
    memset(&b, 0, sizeof b);
    a.room = b.room = ROOM;
    ref_set_up((const uint8_t *)"AAAA", 4, (const uint8_t *)"BBBB", 4, LENT(&a.m));
    ref_set_up((const uint8_t *)"BBBB", 4, (const uint8_t *)"AAAA", 4, LENT(&b.m));
}

/* ---------------------------------------------------------------- what an end holds */

static unsigned number_in(const uint8_t *p) { return (unsigned)p[0] << 8 | p[1]; }
static void set_number(uint8_t *p, unsigned x) { p[0] = (uint8_t)(x >> 8); p[1] = (uint8_t)x; }

static unsigned next_of(const struct station *s) { return number_in(s->m.head + 8); }
static unsigned highest_of(const struct station *s) { return number_in(s->m.head + 10); }
static uint8_t *waiting_at(struct station *s, size_t i) { return s->m.waiting + i * REF_WAITING; }

static int unanswered(const struct station *s)
{
    int i, count = 0;
    for (i = 0; i < REF_WAITINGS; i++) count += s->m.waiting[i * REF_WAITING];
    return count;
}

static int all_zero(const uint8_t *p, size_t n)
{
    while (n > 0)
        if (p[--n] != 0) return 0;
    return 1;
}

static int same_flights(void)
{
    return memcmp(a.m.sent, b.m.received, sizeof a.m.sent) == 0 && memcmp(a.m.received, b.m.sent, sizeof a.m.sent) == 0;
}

/* The text that the one gave last arrives at the other, and the answer comes back. */
static void pass(struct station *from, struct station *to, int line)
{
    check_equal(receives(to, from->last), 0, line, "passing a message on");
    check_equal(receives(from, to->last), 0, line, "passing its answer back");
    check(same_flights(), line, "the same flights at both ends");
}
#define PASS(from, to) pass(&(from), &(to), __LINE__)

#define SEND_AND_PASS(from, to, draft) do { IS(sends(&(from), draft), 0); PASS(from, to); } while (0)

struct flight {
    int status, handoff;
    unsigned first, offer;
    const char *aircraft, *code, *departure, *time, *destination, *field08, *field09, *field10, *field14, *rest16, *field15,
        *field18;
};

static void put(uint8_t *to, size_t width, const char *t)
{
    memset(to, ' ', width);
    memcpy(to, t, strlen(t));
}

static void flight_bytes(uint8_t *to, const struct flight *f)
{
    memset(to, 0, REF_FLIGHT);
    to[0] = (uint8_t)f->status;
    to[1] = (uint8_t)f->handoff;
    set_number(to + 2, f->first);
    set_number(to + 4, f->offer);
    put(to + 6, 7, f->aircraft);
    put(to + 13, 4, f->code);
    put(to + 17, 4, f->departure);
    put(to + 21, 4, f->time);
    put(to + 25, 4, f->destination);
    put(to + 29, 2, f->field08);
    put(to + 31, 8, f->field09);
    put(to + 39, 61, f->field10);
    put(to + 100, 27, f->field14);
    put(to + 127, 14, f->rest16);
    put(to + 141, 300, f->field15);
    put(to + 441, 300, f->field18);
}

/* Whether a place of a table has exactly the bytes of the flight, or is free where there is none. */
static void holds(const uint8_t *table, size_t place, const struct flight *f, int line)
{
    uint8_t wanted[REF_FLIGHT] = { 0 };
    if (f) flight_bytes(wanted, f);
    check(memcmp(table + place * REF_FLIGHT, wanted, REF_FLIGHT) == 0, line, "the bytes of a flight");
}
#define HOLDS(table, place, flight) holds(table, place, flight, __LINE__)

/* ---------------------------------------------------------------- drafts */

#define DRAFT "XXXX/YYYY999"
#define OWN "AAAA/BBBB%03d"

static const char *fpl(const char *aircraft)
{
    return text("(FPL" DRAFT "-%s/A1234-IS-2B738/M-SDE3/LB1-KSEA2359-N0450F350 J20 SEA-CYOW0430 CYUL CYYZ-DOF/1)", aircraft);
}

static const char *cpl(const char *aircraft)
{
    return text("(CPL" DRAFT "-%s-VN-C172/L-S/C-KSEA-HML/2042F350-K0200A055 DCT-CYOW-0)", aircraft);
}

/* Messages on an aircraft from KSEA to CYOW; the reference is to the unit and number given. */
static const char *chg(const char *aircraft, const char *units, unsigned first, const char *changes)
{
    return text("(CHG" DRAFT "%s%03u-%s-KSEA-CYOW-%s)", units, first, aircraft, changes);
}
static const char *est(const char *field07, const char *units, unsigned first)
{
    return text("(EST" DRAFT "%s%03u-%s-KSEA-46N078W/2042F350F370B-CYOW)", units, first, field07);
}
static const char *cnl(const char *aircraft, const char *units, unsigned first)
{
    return text("(CNL" DRAFT "%s%03u-%s-KSEA-CYOW-0)", units, first, aircraft);
}
static const char *rti(const char *field07, const char *units, unsigned first)
{
    return text("(RTI" DRAFT "%s%03u-%s-KSEA-CYOW-SECTOR 31-TRACK 32)", units, first, field07);
}
static const char *rta(const char *aircraft, const char *units, unsigned offer)
{
    return text("(RTA" DRAFT "%s%03u-%s-KSEA-CYOW-S)", units, offer, aircraft);
}
#define AB "AAAA/BBBB"
#define BA "BBBB/AAAA"

/* A draft as it would arrive: with this number instead of its own. */
static const char *numbered(const char *draft, const char *units, unsigned number)
{
    return text("%.4s%s%03u%s", draft, units, number, draft + 16);
}

static const char *lam(const char *units, const char *reference, unsigned n)
{
    return text("(LAM%s%03u%s%03u)", units, n, reference, n);
}

static const struct flight aal72 = {
    1, 0, 0, 0, "AAL72", "1234", "KSEA", "2359", "CYOW", "IS", "2B738/M", "SDE3/LB1", "", "0430 CYUL CYYZ",
    "N0450F350 J20 SEA", "DOF/1"
};
static const struct flight ual1 = {
    2, 0, 0, 0, "UAL1", "", "KSEA", "", "CYOW", "VN", "C172/L", "S/C", "HML/2042F350", "", "K0200A055 DCT", "0"
};

/* ---------------------------------------------------------------- reader and writer */

static const char *const samples[] = {
    "(FPLAAAA/BBBB000-AAL72/A1234-IS-2B738/M-SDE3/LB1-KSEA2359-N0450F350 J20 SEA-CYOW0430 CYUL CYYZ-DOF/1)",
    "(FPLAAAA/BBBB000-AA-V-B7/H-S/C-KSEA0000-M082VFR DCT-CYOW-0)",
    "(FPLAAAA/BBBB000-AA-V-B7/H-S/C-KSEA0000-N0450S0350 DCT-CYOW CYUL-RMK/A B)",
    "(CPLAAAA/BBBB007-UAL1021-VN-C172/L-S/C-KFAR-HML/2042F350-K0200M0055 DCT-CYWG-0)",
    "(CPLAAAA/BBBB007-UAL1021/A0000-Z-99C172/L-S/C-KFAR-4620N07805W/2042S0350M0400A-K0200A055 DCT-CYWG-TALT/X)",
    "(ESTKZMP/CZWG992KZMP/CZWG991-DAL122/A4322-KFAR-HML/2042F350-CYOW)",
    "(ESTKZMP/CZWG992KZMP/CZWG991-DAL122-KFAR-HML090015/2042F350A100B-CYOW)",
    "(CHGKZMP/CZWG776KZMP/CZWG603-AAL72-KSEA-CYOW-07/AAL73)",
    "(CHGKZMP/CZWG776KZMP/CZWG603-AAL72-KSEA2359-CYOW-0-07/AAL73/A7777)",
    ("(CHGKZMP/CZWG776KZMP/CZWG603-AAL72-KSEA-CYOW-RMK/OWN-08/V-09/12B739/H-10/S/C-13/KPDX0010-15/M082VFR D"
     "-16/CYVR9959 CYUL-18/STS/X)"),
    "(CNLKZHU/MMZT776KZHU/MMZT603-UAL1021-KIAD0859-MMEX-0)",
    "(CNLKZHU/MMZT776KZHU/MMZT603-UAL1021-KIAD-MMEX-DOF/121115)",
    "(RTIAAAA/BBBB006AAAA/BBBB000-AAL73/A1234-KPDX-CYVR-SECTOR 31-TRACK 32)",
    "(RTABBBB/AAAA000AAAA/BBBB006-AAL73-KPDX-CYVR-S)",
    "(RLABBBB/AAAA006AAAA/BBBB006-SECTOR 31)",
    "(LAMBBBB/AAAA006AAAA/BBBB006)",
    "(LRMBBBB/AAAA006AAAA/BBBB006-RMK/57)",
};
enum { SAMPLES = sizeof samples / sizeof *samples };

static void read_is(const char *t, int number, unsigned place, unsigned hyphens, int line)
{
    uint8_t record[REF_RECORD], filled[REF_RECORD];
    uint64_t p = 77, h = 77;
    memset(record, FILLER, sizeof record);
    memset(filled, FILLER, sizeof filled);
    check_equal(ref_read((const uint8_t *)t, strlen(t), record, sizeof record, &p, &h), number, line, "reading");
    check_equal((long)p, place, line, "place");
    check_equal((long)h, hyphens, line, "hyphens");
    check((memcmp(record, filled, sizeof record) == 0) == (number != 0), line, "the record is written exactly if read");
}
#define READ(t) read_is(t, 0, 0, 0, __LINE__)
#define REFUSED(t, place, hyphens) read_is(t, 1, place, hyphens, __LINE__)

static void examples_of_document_01(void)
{
    uint8_t record[REF_RECORD + 1];
    uint64_t p, h;
    READ("(CHGKZMP/CZWG776KZMP/CZWG603-AAL72-KSEA-CYOW-07/AAL73)");                         /* P1 */
    REFUSED("", 0, 0);                                                                      /* P2 */
    READ("(CNLKZHU/MMZT776KZHU/MMZT603-UAL1021-KIAD2359-MMEX-0)");                          /* P3 */
    REFUSED("(CNLKZHU/MMZT776KZHU/MMZT603-UAL1021-KIAD2360-MMEX-0)", 43, 2);                /* P4 */
    READ("(CHGKZMP/CZWG776KZMP/CZWG603-AAL72-KSEA-CYOW-09/99B738/H)");                      /* P5 */
    REFUSED("(CHGKZMP/CZWG776KZMP/CZWG603-AAL72-KSEA-CYOW-09/1B738/H)", 49, 4);             /* P6 */
    READ("(ESTKZMP/CZWG992KZMP/CZWG991-DAL122/A4322-KFAR-HML/2042F350-CYOW)");
    REFUSED("(CNLKZHU/MMZT776KZHU/MMZT603-UAL1021-KIAD0860-MMEX-0)", 43, 2);
    IS(ref_read((const uint8_t *)"", 0, record, REF_RECORD - 1, &p, &h), 12);
    IS(ref_read((const uint8_t *)"", 0, record, REF_RECORD + 1, &p, &h), 12);
    IS(p + h, 0);
}

static int writes(const uint8_t *bytes, size_t n, const uint8_t *record, size_t room, uint64_t *length)
{
    int number;
    *length = 77;
    memset(out, FILLER, sizeof out);
    number = ref_write(bytes, n, record, REF_RECORD, out, room, length);
    ALWAYS(number == 0 ? filler_from(*length) : filler_from(0) && *length == 0);
    return number;
}

static void writing_gives_the_text_back(void)
{
    uint8_t record[REF_RECORD];
    uint64_t length;
    size_t i;
    for (i = 0; i < SAMPLES; i++) {
        const uint8_t *t = (const uint8_t *)samples[i];
        size_t n = strlen(samples[i]);
        READ(samples[i]);
        record_of(samples[i], record);
        IS(writes(t, n, record, n, &length), 0);
        CHECK(length == n && memcmp(out, t, n) == 0);
        IS(writes(t, n, record, n - 1, &length), 2);
        IS(writes(t, n, record, 0, &length), 2);
        IS(ref_write(t, n, record, REF_RECORD - 1, out, ROOM, &length), 12);
        IS(ref_write(t, n, record, REF_RECORD + 1, out, ROOM, &length), 12);
        /* Without its last byte but one, the last part lies outside. */
        if (strstr(samples[i], "-")) IS(writes(t, n - 2, record, ROOM, &length), 13);
    }
    IS(writes(NULL, 0, memset(record, 0, sizeof record), ROOM, &length), 13);
}

/* Whether two records with their bytes say the same: kind, the bytes of each part, the figures. */
static int say_the_same(const uint8_t *r, const uint8_t *r_bytes, const uint8_t *s, const uint8_t *s_bytes)
{
    size_t i;
    if (memcmp(r, s, 2) != 0) return 0;
    for (i = 1; i < 109; i += 2) {
        size_t r_at = number_in(r + 2 * i), s_at = number_in(s + 2 * i), n = number_in(r + 2 * i + 2);
        if (n != number_in(s + 2 * i + 2) || memcmp(r_bytes + r_at, s_bytes + s_at, n) != 0) return 0;
    }
    return memcmp(r + 2 * 109, s + 2 * 109, REF_RECORD - 2 * 109) == 0;
}

/* Each number of each sample's record is replaced by others.  What is then written has to read back as the record. */
static void writing_a_changed_record(void)
{
    static const unsigned values[] = { 0, 1, 2, 3, 4, 5, 6, 7, 8, 9, 10, 11, 31, 40, 1000, 65535 };
    uint8_t record[REF_RECORD], again[REF_RECORD];
    uint64_t length, place, hyphens;
    unsigned written = 0;
    size_t i, k, v;
    for (i = 0; i < SAMPLES; i++)
        for (k = 0; k < REF_NUMBERS; k++)
            for (v = 0; v < sizeof values / sizeof *values; v++) {
                size_t n = strlen(samples[i]);
                int absent_beginning;
                record_of(samples[i], record);
                absent_beginning = k > 0 && k < 109 && k % 2 == 1 && number_in(record + 2 * k + 2) == 0;
                set_number(record + 2 * k, values[v]);
                if (writes((const uint8_t *)samples[i], n, record, ROOM, &length) != 0) {
                    CHECK(!absent_beginning);
                    continue;
                }
                written++;
                CHECK(ref_read(out, length, again, REF_RECORD, &place, &hyphens) == 0);
                if (absent_beginning) {
                    CHECK(length == n && memcmp(out, samples[i], n) == 0);
                    set_number(record + 2 * k, 0);      /* say_the_same takes no bytes from outside */
                }
                CHECK(say_the_same(record, (const uint8_t *)samples[i], again, out));
            }
    CHECK(written > 1000);
}

/* Each part as long as a part can be said to be. */
static void writing_what_is_far_too_long(void)
{
    static uint8_t bytes[65535];
    uint8_t record[REF_RECORD];
    uint64_t length;
    unsigned kind, i;
    memset(bytes, 'A', sizeof bytes);
    for (kind = 0; kind <= 11; kind++) {
        memset(record, 0, sizeof record);
        set_number(record, kind);
        for (i = 2; i < 109; i += 2) set_number(record + 2 * i, 65535);
        IS(writes(bytes, sizeof bytes, record, ROOM, &length), 13);
        for (i = 2; i < 109; i += 2) set_number(record + 2 * i, 100);
        IS(writes(bytes, sizeof bytes, record, ROOM, &length), 13);
    }
}

static void limits_of_fields(void)
{
    char words[302];
    memset(words, 'A', 301);
    words[301] = 0;
    memcpy(words, "RMK/", 4);
    words[300] = 0;
    READ(text("(CNLKZHU/MMZT776KZHU/MMZT603-UAL1021-KIAD-MMEX-%s)", words));
    words[300] = 'A';
    REFUSED(text("(CNLKZHU/MMZT776KZHU/MMZT603-UAL1021-KIAD-MMEX-%s)", words), 47 + 300, 4);
}

/* ---------------------------------------------------------------- set-up */

static int set_up(const char *ours, const char *partners)
{
    int number;
    begin_call(&a);
    number = ref_set_up((const uint8_t *)ours, strlen(ours), (const uint8_t *)partners, strlen(partners), LENT(&a.m));
    ALWAYS(number == 0 || memcmp(&before, &a.m, sizeof before) == 0);
    return number;
}

static void setting_up(void)
{
    static const uint8_t head[REF_HEAD] = "KZMPCZWG\0\0\3\347";     /* next 000, highest 999 */
    struct memory *m = &a.m;
    const uint8_t *unit = (const uint8_t *)"AAAA", *other = (const uint8_t *)"AAAA";
    memset(&a, FILLER, sizeof a);
    IS(set_up("AAAA", "AAAA"), 14);
    IS(set_up("AAA", "BBBB"), 14);
    IS(set_up("AAAA", "BBBBB"), 14);
    IS(set_up("", ""), 14);
    IS(set_up("AAAA", "BBBa"), 14);
    IS(set_up("AAA1", "BBBB"), 14);
    IS(set_up("AA@A", "BBBB"), 14);
    IS(set_up("AAAA", "BB[B"), 14);
    /* Sizes come before names, and are all that is looked at. */
#define SIZES(head_len, sent_len, received_len, waiting_len, answers_len) ref_set_up(unit, 4, other, 4, m->head, head_len, \
        m->sent, sent_len, m->received, received_len, m->waiting, waiting_len, m->answers, answers_len)
    IS(SIZES(12, 768, 768, 20480, 1000), 14);
    IS(SIZES(12, 32 * 768, 32 * 768, 20480, 1000), 14);
    IS(SIZES(11, 768, 768, 20480, 1000), 12);
    IS(SIZES(13, 768, 768, 20480, 1000), 12);
    IS(SIZES(12, 0, 768, 20480, 1000), 12);
    IS(SIZES(12, 33 * 768, 768, 20480, 1000), 12);
    IS(SIZES(12, 767, 768, 20480, 1000), 12);
    IS(SIZES(12, 768, 0, 20480, 1000), 12);
    IS(SIZES(12, 768, 769, 20480, 1000), 12);
    IS(SIZES(12, 768, 33 * 768, 20480, 1000), 12);
    IS(SIZES(12, 768, 768, 20479, 1000), 12);
    IS(SIZES(12, 768, 768, 19200, 1000), 12);
    IS(SIZES(12, 768, 768, 20480, 999), 12);
    IS(SIZES(12, 768, 768, 20480, 1001), 12);
    CHECK(!all_zero(m->sent, 1));
    IS(set_up("KZMP", "CZWG"), 0);
    CHECK(memcmp(m->head, head, REF_HEAD) == 0);
    CHECK(all_zero(m->sent, sizeof *m - REF_HEAD));
}

/* ---------------------------------------------------------------- the exchange of each type */

static void filing_and_changing(void)
{
    struct flight f = aal72;
    fresh();
    IS(sends(&a, fpl("AAL72")), 0);
    GAVE(a, "(FPLAAAA/BBBB000-AAL72/A1234-IS-2B738/M-SDE3/LB1-KSEA2359-N0450F350 J20 SEA-CYOW0430 CYUL CYYZ-DOF/1)");
    CHECK(all_zero(a.m.sent, sizeof a.m.sent));         /* nothing is applied before the answer */
    IS(next_of(&a), 1);
    IS(receives(&b, a.last), 0);
    GAVE(b, "(LAMBBBB/AAAA000AAAA/BBBB000)");
    IS(highest_of(&b), 0);
    IS(b.m.answers[0], 1);
    HOLDS(b.m.received, 0, &f);
    IS(receives(&a, b.last), 0);
    GAVE(a, "");
    HOLDS(a.m.sent, 0, &f);
    IS(unanswered(&a), 0);
    CHECK(same_flights());

    SEND_AND_PASS(a, b, chg("AAL72", AB, 0, "RMK/OWN-08/V-09/B739/H-10/S/C-13/KPDX0010-15/M082VFR DCT-16/CYVR-18/0"));
    f.departure = "KPDX"; f.time = "0010"; f.destination = "CYVR"; f.rest16 = "";
    f.field08 = "V"; f.field09 = "B739/H"; f.field10 = "S/C"; f.field15 = "M082VFR DCT"; f.field18 = "0";
    HOLDS(b.m.received, 0, &f);

    SEND_AND_PASS(a, b, text("(CHG" DRAFT OWN "-AAL72-KPDX1111-CYVR-07/BBL1/A7777)", 0));
    f.aircraft = "BBL1"; f.code = "7777";
    HOLDS(a.m.sent, 0, &f);
    SEND_AND_PASS(a, b, text("(CHG" DRAFT OWN "-BBL1-KPDX-CYVR-07/C2)", 0));
    f.aircraft = "C2"; f.code = "";                     /* a 07 without code leaves none */
    HOLDS(b.m.received, 0, &f);
    SEND_AND_PASS(a, b, text("(CHG" DRAFT OWN "-C2-KPDX-CYVR-16/CYVR CYUL)", 0));
    f.rest16 = " CYUL";
    HOLDS(b.m.received, 0, &f);

    SEND_AND_PASS(a, b, text("(EST" DRAFT OWN "-C2-KPDX-4620N07805W/2042S0350M0400A-CYVR)", 0));
    f.status = 2; f.field14 = "4620N07805W/2042S0350M0400A";
    HOLDS(b.m.received, 0, &f);
    SEND_AND_PASS(a, b, text("(CNL" DRAFT OWN "-C2-KPDX-CYVR-0)", 0));
    HOLDS(a.m.sent, 0, NULL);
    HOLDS(b.m.received, 0, NULL);
}

static void handing_off(void)
{
    struct flight f = ual1;
    fresh();
    SEND_AND_PASS(a, b, cpl("UAL1"));
    HOLDS(b.m.received, 0, &f);
    IS(sends(&a, rti("UAL1", AB, 0)), 0);
    HOLDS(a.m.sent, 0, &f);
    IS(receives(&b, a.last), 0);
    GAVE(b, "(RLABBBB/AAAA001AAAA/BBBB001-SECTOR 31)");
    IS(b.m.answers[1], 2);
    f.handoff = 1; f.offer = 1;
    HOLDS(b.m.received, 0, &f);
    IS(receives(&a, b.last), 0);
    HOLDS(a.m.sent, 0, &f);

    SEND_AND_PASS(a, b, rta("UAL1", AB, 1));            /* retract: the number stays */
    f.handoff = 0;
    HOLDS(a.m.sent, 0, &f);

    SEND_AND_PASS(a, b, rti("UAL1", AB, 0));
    f.handoff = 1; f.offer = 3;
    HOLDS(b.m.received, 0, &f);
    IS(sends(&b, rta("UAL1", AB, 3)), 0);
    GAVE(b, "(RTABBBB/AAAA000AAAA/BBBB003-UAL1-KSEA-CYOW-S)");
    f.handoff = 2;
    HOLDS(b.m.received, 0, &f);                         /* an acceptance is applied on sending */
    IS(unanswered(&b), 1);
    PASS(b, a);
    HOLDS(a.m.sent, 0, &f);
    IS(unanswered(&b), 0);
    SEND_AND_PASS(a, b, cnl("UAL1", AB, 0));
    HOLDS(b.m.received, 0, NULL);
}

/* The same key in the two tables means two flights. */
static void two_flights_of_one_key(void)
{
    fresh();
    SEND_AND_PASS(a, b, fpl("AAL72"));
    SEND_AND_PASS(b, a, cpl("AAL72"));
    IS(a.m.sent[0], 1);
    IS(a.m.received[0], 2);
    SEND_AND_PASS(b, a, rti("AAL72", BA, 0));
    IS(sends(&a, chg("AAL72", AB, 0, "08/V")), 0);
    IS(sends(&a, rta("AAL72", BA, 1)), 0);              /* names the partner's flight, so no 7 */
    PASS(a, b);
    IS(a.m.received[1], 2);
    IS(a.m.sent[1], 0);
}

/* Both are offered under one number.  The answer to an acceptance applies nothing: it was applied when sent. */
static void two_offers_of_one_key(void)
{
    fresh();
    SEND_AND_PASS(a, b, cpl("C1"));
    SEND_AND_PASS(b, a, cpl("C1"));
    SEND_AND_PASS(a, b, rti("C1", AB, 0));
    SEND_AND_PASS(b, a, rti("C1", BA, 0));
    SEND_AND_PASS(a, b, rta("C1", BA, 1));
    IS(a.m.received[1], 2);
    IS(a.m.sent[1], 1);
    SEND_AND_PASS(a, b, rta("C1", AB, 1));
    IS(a.m.received[1], 2);
    IS(a.m.sent[1], 0);
}

static void lowest_places(void)
{
    fresh();
    SEND_AND_PASS(a, b, fpl("A0"));
    SEND_AND_PASS(a, b, fpl("A1"));
    SEND_AND_PASS(a, b, fpl("A2"));
    SEND_AND_PASS(a, b, cnl("A1", AB, 1));
    HOLDS(a.m.sent, 1, NULL);
    SEND_AND_PASS(a, b, cnl("A0", AB, 0));
    SEND_AND_PASS(a, b, fpl("A3"));
    CHECK(memcmp(a.m.sent + 6, "A3     ", 7) == 0);
    HOLDS(b.m.received, 1, NULL);
    SEND_AND_PASS(a, b, fpl("A4"));
    CHECK(memcmp(b.m.received + REF_FLIGHT + 6, "A4     ", 7) == 0);
}

static void bytes_of_an_unanswered_message(void)
{
    uint8_t wanted[REF_WAITING] = { 0 };
    fresh();
    set_number(a.m.head + 8, 300);
    set_number(b.m.head + 10, 299);
    SEND_AND_PASS(a, b, cpl("A0"));
    SEND_AND_PASS(a, b, cpl("A1"));
    IS(sends(&a, cnl("A0", AB, 300)), 0);
    IS(sends(&a, cnl("A1", AB, 301)), 0);
    IS(sends(&a, cpl("A2")), 0);
    wanted[0] = 1;
    set_number(wanted + 1, 303);
    memcpy(wanted + 5, "(CNLAAAA/BBBB303AAAA/BBBB301-A1-KSEA-CYOW-0)", 44);
    set_number(wanted + 3, 44);
    CHECK(memcmp(waiting_at(&a, 1), wanted, REF_WAITING) == 0);
    IS(receives(&a, lam(BA, AB, 303)), 0);
    CHECK(all_zero(waiting_at(&a, 1), REF_WAITING));
    IS(waiting_at(&a, 2)[0], 1);
    IS(sends(&a, rti("A1", AB, 301)), 10);
    IS(receives(&a, lam(BA, AB, 302)), 0);
    IS(sends(&a, cpl("A3")), 0);                        /* takes the lowest free place */
    IS(number_in(waiting_at(&a, 0) + 1), 305);
    IS(waiting_at(&a, 1)[0], 0);
}

/* ---------------------------------------------------------------- answers */

static void answers_that_do_not_fit(void)
{
    fresh();
    SEND_AND_PASS(a, b, cpl("A1"));
    IS(sends(&a, cpl("A2")), 0);
    IS(receives(&b, a.last), 0);
    IS(receives(&a, text("(RLABBBB/AAAA001AAAA/BBBB001-S)")), 6);
    IS(receives(&a, lam(BA, AB, 2)), 5);
    IS(receives(&a, text("(RLABBBB/AAAA002AAAA/BBBB002-S)")), 5);
    IS(receives(&a, lam(BA, AB, 1)), 0);
    IS(receives(&a, lam(BA, AB, 1)), 5);
    IS(sends(&a, rti("A1", AB, 0)), 0);
    IS(receives(&a, lam(BA, AB, 2)), 6);                /* P12 */
    IS(unanswered(&a), 1);
    IS(receives(&b, a.last), 0);
    IS(receives(&a, "(RLABBBB/AAAA002AAAA/BBBB002-ANYTHING ELSE)"), 0);
    IS(a.m.sent[1], 1);
    IS(sends(&b, rta("A1", AB, 2)), 0);
    IS(receives(&b, "(LRMAAAA/BBBB000BBBB/AAAA000-RMK/57)"), 6);
    IS(receives(&b, "(RLAAAAA/BBBB000BBBB/AAAA000-S)"), 6);
    IS(unanswered(&b), 1);
    PASS(b, a);
}

static void a_rejected_message_leaves_nothing(void)
{
    fresh();
    IS(sends(&a, fpl("AAL72")), 0);
    IS(receives(&a, "(LRMBBBB/AAAA000AAAA/BBBB000-RMK/00)"), 0);
    GAVE(a, "");
    CHECK(all_zero(a.m.sent, sizeof a.m.sent + sizeof a.m.received + sizeof a.m.waiting));
    SEND_AND_PASS(a, b, fpl("AAL72"));
    IS(sends(&a, chg("AAL72", AB, 1, "08/V")), 0);
    IS(receives(&a, "(LRMBBBB/AAAA002AAAA/BBBB002-RMK/99)"), 0);
    IS(unanswered(&a), 0);
    IS(a.m.sent[29], 'I');
    SEND_AND_PASS(a, b, est("AAL72", AB, 1));
    IS(sends(&a, rti("AAL72", AB, 1)), 0);
    IS(receives(&a, "(LRMBBBB/AAAA004AAAA/BBBB004-RMK/57)"), 0);
    IS(a.m.sent[1], 0);
}

/* An answer needs no room. */
static void answers_without_room(void)
{
    fresh();
    IS(sends(&a, fpl("AAL72")), 0);
    IS(receives(&b, a.last), 0);
    a.room = 0;
    IS(receives(&a, b.last), 0);
    IS(a.m.sent[0], 1);
}

/* The condition is looked at again when LAM or RLA comes. */
static void dropped_when_the_answer_comes(void)
{
    struct memory kept;
    fresh();
    SEND_AND_PASS(a, b, fpl("AAL72"));
    IS(sends(&a, chg("AAL72", AB, 0, "08/V")), 0);
    a.m.sent[3] = 9;                                    /* another first number */
    kept = a.m;
    IS(receives(&a, lam(BA, AB, 1)), 0);
    IS(unanswered(&a), 0);
    CHECK(memcmp(kept.sent, a.m.sent, sizeof kept.sent) == 0);
    fresh();
    IS(sends(&a, fpl("A1")), 0);
    SEND_AND_PASS(a, b, fpl("A2"));
    memcpy(a.m.sent + REF_FLIGHT, a.m.sent, REF_FLIGHT);
    memcpy(a.m.sent + 2 * REF_FLIGHT, a.m.sent, REF_FLIGHT);
    a.m.sent[REF_FLIGHT + 6] = 'B';
    a.m.sent[2 * REF_FLIGHT + 6] = 'C';                 /* no place is free */
    kept = a.m;
    IS(receives(&a, lam(BA, AB, 0)), 0);
    IS(unanswered(&a), 0);
    CHECK(memcmp(kept.sent, a.m.sent, sizeof kept.sent) == 0);
}

/* ---------------------------------------------------------------- refusals of receiving */

static void units_that_do_not_go_together(void)
{
    static const char *const kinds[] = { "CHG", "EST", "CNL", "RTI" };
    static const char *const tails[] = {
        "-A1-KSEA-CYOW-08/V", "-A1-KSEA-HML/2042F350-CYOW", "-A1-KSEA-CYOW-0", "-A1-KSEA-CYOW-S-T"
    };
    size_t i;
    fresh();
    IS(receives(&b, numbered(fpl("A1"), "CCCC/BBBB", 0)), 3);
    IS(receives(&b, numbered(fpl("A1"), "AAAA/CCCC", 0)), 3);
    IS(receives(&b, numbered(fpl("A1"), BA, 0)), 3);
    IS(receives(&b, numbered(fpl("A1"), AB, 0)), 0);
    for (i = 0; i < 4; i++) {
        IS(receives(&b, text("(%sAAAA/BBBB001BBBB/AAAA000%s)", kinds[i], tails[i])), 3);
        IS(receives(&b, text("(%sAAAA/BBBB001AAAA/CCCC000%s)", kinds[i], tails[i])), 3);
        IS(receives(&b, text("(%sAAAA/BBBB001CCCC/BBBB000%s)", kinds[i], tails[i])), 3);
        IS(receives(&b, text("(%sBBBB/AAAA001AAAA/BBBB000%s)", kinds[i], tails[i])), 3);
    }
    IS(receives(&b, numbered(rta("A1", "AAAA/CCCC", 0), AB, 1)), 3);
    IS(receives(&b, numbered(rta("A1", "CCCC/AAAA", 0), AB, 1)), 3);
    IS(receives(&b, numbered(rta("A1", "BBBB/CCCC", 0), AB, 1)), 3);
    IS(receives(&b, numbered(rta("A1", AB, 0), AB, 1)), 0);
    GAVE(b, "(LRMBBBB/AAAA001AAAA/BBBB001-RMK/57)");
    IS(receives(&b, numbered(rta("A1", BA, 0), AB, 2)), 0);
    IS(receives(&b, "(LAMAAAA/BBBB000BBBB/AAAA001)"), 3);
    IS(receives(&b, "(LAMAAAA/BBBB000AAAA/BBBB000)"), 3);
    IS(receives(&b, "(LAMBBBB/AAAA000BBBB/AAAA000)"), 3);
    IS(receives(&b, "(LRMAAAA/BBBB000BBBB/CCCC000-RMK/57)"), 3);
    IS(receives(&b, "(RLAAAAA/BBBB000CCCC/AAAA000-S)"), 3);
    IS(receives(&b, "(LAMAAAA/BBBB000BBBB/AAAA000)"), 5);
}

static int arrives(unsigned highest, unsigned number)
{
    fresh();
    set_number(b.m.head + 10, highest);
    return receives(&b, numbered(fpl("A1"), AB, number));
}

static void new_old_and_stale(void)
{
    IS(arrives(5, 405), 0); IS(highest_of(&b), 405);    /* P7 */
    IS(arrives(5, 406), 4);                             /* P8 */
    IS(arrives(5, 605), 4);                             /* P9 */
    IS(arrives(5, 606), 0); IS(highest_of(&b), 5);      /* P10 */
    IS(arrives(999, 0), 0); IS(highest_of(&b), 0);      /* P11 */
    IS(arrives(999, 999), 0); IS(highest_of(&b), 999);
    IS(b.m.answers[999], 1);                            /* an old one never answered is handled as a first arrival */
    IS(b.m.received[0], 1);
    IS(arrives(5, 6), 0); IS(highest_of(&b), 6);
    IS(arrives(5, 4), 0); IS(highest_of(&b), 5);
    IS(arrives(700, 100), 0); IS(highest_of(&b), 100);
    IS(arrives(700, 101), 4);
    IS(arrives(700, 300), 4);
    IS(arrives(700, 301), 0); IS(highest_of(&b), 700);
}

static void forgetting(void)
{
    unsigned i;
    fresh();
    memset(b.m.answers, 1, REF_ANSWERS);
    set_number(b.m.head + 10, 800);
    IS(receives(&b, numbered(cnl("A1", AB, 0), AB, 200)), 0);
    for (i = 0; i < 1000; i++) IS(b.m.answers[i], i == 200 ? 57 : i < 200 || i > 800 ? 0 : 1);
    fresh();
    memset(b.m.answers, 1, REF_ANSWERS);
    set_number(b.m.head + 10, 5);
    IS(receives(&b, numbered(fpl("A1"), AB, 6)), 0);
    for (i = 0; i < 1000; i++) IS(b.m.answers[i], 1);
    IS(b.m.received[0], 1);                             /* the answer kept for 6 was of the round before */
}

static void repeats(void)
{
    const char *first, *second;
    struct memory kept;
    fresh();
    SEND_AND_PASS(a, b, fpl("AAL72"));
    IS(sends(&a, chg("AAL72", AB, 0, "08/V")), 0);
    first = text("%s", a.last);
    PASS(a, b);
    IS(sends(&a, chg("AAL72", AB, 0, "08/Y")), 0);
    second = text("%s", a.last);
    PASS(a, b);
    kept = b.m;
    IS(receives(&b, first), 0);                         /* a repeated CHG after a later one */
    GAVE(b, "(LAMBBBB/AAAA001AAAA/BBBB001)");
    IS(receives(&b, second), 0);
    CHECK(memcmp(&kept, &b.m, sizeof kept) == 0);
    IS(receives(&a, b.last), 5);

    SEND_AND_PASS(a, b, est("AAL72", AB, 0));
    IS(receives(&b, numbered(est("AAL72", AB, 9), AB, 4)), 0);
    GAVE(b, "(LRMBBBB/AAAA004AAAA/BBBB004-RMK/57)");
    IS(b.m.answers[4], 57);
    IS(receives(&b, numbered(rti("AAL72", AB, 0), AB, 4)), 0);  /* the kept answer, whatever the text now says */
    GAVE(b, "(LRMBBBB/AAAA004AAAA/BBBB004-RMK/57)");
    IS(b.m.received[1], 0);
    IS(receives(&b, numbered(rti("AAL72", AB, 0), AB, 3)), 0);  /* a kept LAM on an RTI too */
    GAVE(b, "(LAMBBBB/AAAA003AAAA/BBBB003)");

    IS(receives(&b, numbered(rti("AAL72", AB, 0), AB, 5)), 0);
    kept = b.m;
    IS(receives(&b, "(RTIAAAA/BBBB005AAAA/BBBB000-AAL72-KSEA-CYOW-OTHER SECTOR-T)"), 0);
    GAVE(b, "(RLABBBB/AAAA005AAAA/BBBB005-OTHER SECTOR)");
    IS(receives(&b, numbered(cnl("AAL72", AB, 0), AB, 5)), 4);
    IS(receives(&b, numbered(rta("AAL72", AB, 0), AB, 5)), 4);
    b.room = 43;                                        /* one byte less than the RLA needs */
    IS(receives(&b, "(RTIAAAA/BBBB005AAAA/BBBB000-AAL72-KSEA-CYOW-OTHER SECTOR X-T)"), 2);
    b.room = 44;
    IS(receives(&b, "(RTIAAAA/BBBB005AAAA/BBBB000-AAL72-KSEA-CYOW-OTHER SECTOR X-T)"), 0);
    CHECK(memcmp(&kept, &b.m, sizeof kept) == 0);
}

static void answers_57_and_62(void)
{
    fresh();
    SEND_AND_PASS(a, b, fpl("A0"));
    SEND_AND_PASS(a, b, fpl("A1"));
    SEND_AND_PASS(a, b, cpl("A2"));
    IS(receives(&b, numbered(fpl("A3"), AB, 3)), 0);
    GAVE(b, "(LRMBBBB/AAAA003AAAA/BBBB003-RMK/62)");
    IS(b.m.answers[3], 62);
    IS(highest_of(&b), 3);
    IS(receives(&b, numbered(cpl("A3"), AB, 4)), 0);
    GAVE(b, "(LRMBBBB/AAAA004AAAA/BBBB004-RMK/62)");
    IS(receives(&b, numbered(fpl("A1"), AB, 5)), 0);    /* 57 comes first */
    GAVE(b, "(LRMBBBB/AAAA005AAAA/BBBB005-RMK/57)");
    CHECK(same_flights());
    SEND_AND_PASS(a, b, cnl("A1", AB, 1));              /* numbered 003, which was answered 62 */
    GAVE(b, "(LRMBBBB/AAAA003AAAA/BBBB003-RMK/62)");
}

/* ---------------------------------------------------------------- conditions, at the sender (10) and at the receiver (57) */

static unsigned arrival;

/* The draft is refused 10 by the sender, and answered LRM 57 by the receiver of such a text. */
static void condition_fails(const char *draft, int line)
{
    struct memory kept = b.m;
    check_equal(sends(&a, draft), 10, line, "sending where the condition fails");
    check_equal(receives(&b, numbered(draft, AB, arrival)), 0, line, "receiving where the condition fails");
    check_text(b.last, text("(LRMBBBB/AAAA%03uAAAA/BBBB%03u-RMK/57)", arrival, arrival), line);
    check(memcmp(b.m.received, kept.received, sizeof kept.received) == 0, line, "no flight changes");
    b.m = kept;                                         /* so that the two stay partners */
}
#define FAILS(draft) condition_fails(draft, __LINE__)

static void conditions(void)
{
    fresh();
    arrival = 100;
    SEND_AND_PASS(a, b, fpl("F1"));                     /* 0: filed */
    SEND_AND_PASS(a, b, cpl("C1"));                     /* 1: active, no code */
    FAILS(fpl("F1"));
    FAILS(cpl("F1"));
    FAILS(fpl("C1"));
    FAILS(chg("F2", AB, 0, "08/V"));                    /* no such flight */
    FAILS(chg("F1", AB, 1, "08/V"));                    /* not its first number */
    FAILS(chg("C1", AB, 1, "08/V"));                    /* active */
    FAILS(chg("F1", AB, 0, "07/C1"));                   /* a key that is used */
    FAILS(est("F1", AB, 1));
    FAILS(est("F1/A1235", AB, 0));
    FAILS(est("C1", AB, 1));
    FAILS(cnl("F1", AB, 1));
    FAILS(cnl("F0", AB, 0));
    FAILS(rti("F1", AB, 0));                            /* filed */
    FAILS(rti("C1", AB, 0));
    FAILS(rti("C1/A1234", AB, 1));                      /* none is held */
    FAILS(rta("C1", AB, 0));                            /* not offered; the offer number is 0 */
    SEND_AND_PASS(a, b, chg("F1", AB, 0, "07/F1"));     /* its own key is no other's; the code goes */
    FAILS(est("F1/A1234", AB, 0));
    SEND_AND_PASS(a, b, chg("F1", AB, 0, "07/F1/A0707"));
    SEND_AND_PASS(a, b, est("F1/A0707", AB, 0));
    SEND_AND_PASS(a, b, rti("F1/A0707", AB, 0));
    arrival = next_of(&a);
    FAILS(rti("F1", AB, 0));                            /* offered */
    FAILS(cnl("F1", AB, 0));
    FAILS(chg("F1", AB, 0, "08/V"));
    FAILS(rta("F1", AB, 0));                            /* the first number is not the offer's */
    IS(sends(&b, rta("F1", AB, 4)), 10);
    IS(sends(&b, rta("C1", AB, 5)), 10);
    SEND_AND_PASS(b, a, rta("F1", AB, 5));
    FAILS(rta("F1", AB, 5));                            /* accepted */
    FAILS(rti("F1", AB, 0));
    IS(sends(&b, rta("F1", AB, 5)), 10);
    /* A reference with other units: 10 at the sender. */
    IS(sends(&a, cnl("F1", BA, 0)), 10);
    IS(sends(&a, cnl("F1", "AAAA/CCCC", 0)), 10);
    IS(sends(&a, cnl("F1", "CCCC/BBBB", 0)), 10);
    IS(sends(&a, rta("F1", "CCCC/DDDD", 5)), 10);
    SEND_AND_PASS(a, b, cnl("F1", AB, 0));
    IS(sends(&a, est("C1", AB, 1)), 10);
}

/* The flight is not found by reference number alone. */
static void number_and_key(void)
{
    fresh();
    SEND_AND_PASS(a, b, fpl("F1"));
    IS(sends(&a, text("(CNL" DRAFT "AAAA/BBBB000-F1-KSEA-CYVR-0)")), 10);
    IS(sends(&a, text("(CNL" DRAFT "AAAA/BBBB000-F1-KPDX-CYOW-0)")), 10);
    IS(sends(&a, text("(CNL" DRAFT "AAAA/BBBB000-F1-KSEA0001-CYOW-0)")), 0);    /* the time is not compared */
    PASS(a, b);
}

/* ---------------------------------------------------------------- refusals of sending */

static void content_that_is_refused(void)
{
    uint8_t record[REF_RECORD], wrong[REF_RECORD + 2];
    const char *draft = fpl("F1");
    size_t n = strlen(draft);
    fresh();
    record_of(draft, record);
    IS(sends_record(&a, draft, n, record, REF_RECORD - 1), 12);
    IS(sends_record(&a, draft, n, wrong, REF_RECORD + 1), 12);
    IS(sends(&a, "(LAMAAAA/BBBB000BBBB/AAAA000)"), 13);
    IS(sends(&a, "(LRMAAAA/BBBB000BBBB/AAAA000-RMK/57)"), 13);
    IS(sends(&a, "(RLAAAAA/BBBB000BBBB/AAAA000-S)"), 13);
    IS(sends(&a, "no message"), 13);
    set_number(record, 11);
    IS(sends_record(&a, draft, n, record, REF_RECORD), 13);
    record_of(draft, record);
    IS(sends_record(&a, draft, n - 2, record, REF_RECORD), 13);         /* field 18 lies outside */
    memcpy(record + 2 * 7, record + 2 * 1, 12);                         /* a reference for an FPL */
    IS(sends_record(&a, draft, n, record, REF_RECORD), 13);
    record_of(draft, record);
    set_number(record + 2 * 16, 3);                                     /* a code of three digits */
    IS(sends_record(&a, draft, n, record, REF_RECORD), 13);
    record_of(draft, record);
    set_number(record + 2 * 111, 3);                                    /* the count is 2 */
    IS(sends_record(&a, draft, n, record, REF_RECORD), 13);
    record_of(draft, record);
    memset(record + 2 * 1, 255, 12);                                    /* its own number is not looked at */
    set_number(record + 2 * 109, 65535);
    IS(sends_record(&a, draft, n, record, REF_RECORD), 0);
    IS(next_of(&a), 1);
}

static void named_by_an_unanswered_message(void)
{
    fresh();
    SEND_AND_PASS(a, b, fpl("F1"));
    SEND_AND_PASS(a, b, fpl("F2"));
    IS(sends(&a, chg("F1", AB, 0, "07/F3")), 0);
    IS(sends(&a, chg("F1", AB, 0, "08/V")), 7);         /* by its old key */
    IS(sends(&a, fpl("F3")), 7);                        /* by its new key */
    IS(sends(&a, chg("F2", AB, 1, "07/F1")), 7);        /* its new one by the old key */
    IS(sends(&a, chg("F2", AB, 1, "07/F3")), 7);        /* its new one by the new key */
    IS(sends(&a, chg("F1", AB, 0, "07/F4")), 7);        /* its old one by the old key alone */
    IS(sends(&a, chg("F3", AB, 0, "07/F4")), 7);        /* its old one by the new key alone */
    IS(sends(&a, cnl("F9", AB, 0)), 10);
    IS(sends(&a, rta("F1", "CCCC/DDDD", 0)), 7);        /* an RTA with other units names the sender's own flight */
    IS(sends(&a, rta("F1", BA, 0)), 10);                /* an acceptance the partner's */
    IS(sends(&a, chg("F2", AB, 1, "08/V")), 0);
    fresh();
    IS(sends(&a, fpl("F1")), 0);
    IS(sends(&a, fpl("F1")), 7);
    IS(sends(&a, chg("F1", AB, 0, "08/V")), 7);
    fresh();
    SEND_AND_PASS(b, a, cpl("F1"));
    SEND_AND_PASS(b, a, rti("F1", BA, 0));
    IS(sends(&a, rta("F1", BA, 1)), 0);
    IS(sends(&a, rta("F1", BA, 1)), 7);
    IS(sends(&a, fpl("F1")), 0);
}

static void sixteen_unanswered(void)
{
    unsigned i;
    fresh();
    SEND_AND_PASS(a, b, cpl("C1"));
    SEND_AND_PASS(a, b, cpl("C2"));
    for (i = 0; i < 16; i++) {                          /* acceptances, put there by hand */
        uint8_t *w = waiting_at(&a, i);
        const char *t = numbered(rta(text("X%02u", i), BA, 0), AB, 900 + i);
        if (i == 9) continue;
        w[0] = 1;
        set_number(w + 1, 900 + i);
        set_number(w + 3, (unsigned)strlen(t));
        memcpy(w + 5, t, strlen(t));
    }
    IS(sends(&a, rti("C1", AB, 0)), 0);                 /* the 16th is taken */
    IS(number_in(waiting_at(&a, 9) + 1), 2);
    IS(unanswered(&a), 16);
    IS(sends(&a, rti("C2", AB, 1)), 8);                 /* the 17th is not */
    IS(sends(&a, "none"), 13);                          /* 13 before 8 */
    IS(sends(&a, rti("C1", AB, 0)), 8);                 /* 8 before 7 */
    set_number(a.m.head + 8, 310);
    IS(sends(&a, rti("C2", AB, 1)), 8);                 /* 8 before 9 */
    memset(waiting_at(&a, 0), 0, REF_WAITING);
    IS(sends(&a, rti("C1", AB, 0)), 9);                 /* 9 before 7 */
    for (i = 1; i < 16; i++)
        if (i != 9) memset(waiting_at(&a, i), 0, REF_WAITING);
    IS(sends(&a, rti("C1", AB, 0)), 7);
}

static int send_with_one_at(unsigned next, unsigned unanswered_number)
{
    fresh();
    set_number(a.m.head + 8, unanswered_number);
    IS(sends(&a, fpl("F1")), 0);
    set_number(a.m.head + 8, next);
    return sends(&a, fpl("F2"));
}

static void too_far_back(void)
{
    IS(send_with_one_at(400, 1), 0);
    IS(send_with_one_at(401, 1), 9);
    IS(send_with_one_at(398, 999), 0);
    IS(send_with_one_at(399, 999), 9);
    IS(send_with_one_at(500, 501), 9);                  /* 999 back */
    IS(send_with_one_at(500, 500), 9);                  /* 1000 back */
    IS(send_with_one_at(500, 499), 0);
}

static void table_full_at_the_sender(void)
{
    fresh();
    SEND_AND_PASS(a, b, fpl("F1"));
    IS(sends(&a, cpl("F2")), 0);
    IS(sends(&a, fpl("F3")), 0);
    IS(sends(&a, fpl("F4")), 11);
    IS(sends(&a, cpl("F4")), 11);
    IS(sends(&a, fpl("F1")), 10);                       /* 10 before 11 */
    IS(sends(&a, fpl("F2")), 7);                        /* 7 before 10 */
    a.room = 0;
    IS(sends(&a, fpl("F4")), 11);                       /* 11 before 2 */
    IS(sends(&a, cnl("F1", AB, 0)), 2);
    a.room = ROOM;
    IS(sends(&a, cnl("F1", AB, 0)), 0);                 /* only FPL and CPL */
    IS(sends(&a, fpl("F4")), 11);
    PASS(a, b);
    IS(sends(&a, fpl("F4")), 0);
}

static void too_little_room(void)
{
    size_t n = strlen(fpl("AAL72"));
    fresh();
    a.room = n - 1;
    IS(sends(&a, fpl("AAL72")), 2);
    a.room = n;
    IS(sends(&a, fpl("AAL72")), 0);
    a.room = n - 1;
    IS(resends(&a, 0), 2);
    IS(resends(&a, 1), 5);
    IS(resends(&a, 1000), 5);
    IS(resends(&a, (uint64_t)1 << 32), 5);
    IS(resends(&a, UINT64_MAX), 5);
    a.room = n;
    IS(resends(&a, 0), 0);
    b.room = 28;
    IS(receives(&b, a.last), 2);
    IS(highest_of(&b), 999);
    b.room = 29;
    IS(receives(&b, a.last), 0);
    IS(receives(&b, a.last), 0);
    b.room = 28;
    IS(receives(&b, a.last), 2);
    b.room = 35;                                        /* an LRM has 36 bytes */
    IS(receives(&b, numbered(cnl("F9", AB, 0), AB, 1)), 2);
    b.room = 36;
    IS(receives(&b, numbered(cnl("F9", AB, 0), AB, 1)), 0);
    IS(highest_of(&b), 1);
}

/* ---------------------------------------------------------------- crossings */

static void offer_flight(void)
{
    fresh();
    SEND_AND_PASS(a, b, cpl("C1"));
    SEND_AND_PASS(a, b, rti("C1", AB, 0));
}

/* Retract and acceptance cross: the acceptance is taken and the retract gets LRM 57. */
static void retract_and_acceptance(void)
{
    const char *retract;
    offer_flight();
    IS(sends(&a, rta("C1", AB, 1)), 0);
    retract = text("%s", a.last);
    IS(sends(&b, rta("C1", AB, 1)), 0);
    IS(receives(&a, b.last), 0);
    GAVE(a, "(LAMAAAA/BBBB000BBBB/AAAA000)");
    IS(unanswered(&a), 1);                              /* the retract stays unanswered */
    IS(a.m.sent[1], 2);
    IS(receives(&b, a.last), 0);
    IS(receives(&b, retract), 0);
    GAVE(b, "(LRMBBBB/AAAA002AAAA/BBBB002-RMK/57)");
    IS(receives(&a, b.last), 0);
    IS(unanswered(&a) + unanswered(&b), 0);
    CHECK(same_flights());
    /* The retract comes first: then nothing can be accepted. */
    offer_flight();
    IS(sends(&a, rta("C1", AB, 1)), 0);
    IS(receives(&b, a.last), 0);
    IS(sends(&b, rta("C1", AB, 1)), 10);
    /* The retract arrives at an end that has sent its acceptance, before that arrives. */
    offer_flight();
    IS(sends(&b, rta("C1", AB, 1)), 0);
    IS(sends(&a, rta("C1", AB, 1)), 0);
    IS(receives(&b, a.last), 0);
    IS(receives(&a, "(LRMBBBB/AAAA002AAAA/BBBB002-RMK/57)"), 0);
    IS(a.m.sent[1], 1);
    IS(receives(&a, b.last), 5);                        /* the LRM once more */
    IS(resends(&b, 0), 0);
    PASS(b, a);
    IS(a.m.sent[1], 2);
}

/* An acceptance of an offer still unanswered retires it first. */
static void acceptance_retires_an_offer(void)
{
    const char *answer;
    struct flight f = ual1;
    fresh();
    SEND_AND_PASS(a, b, cpl("UAL1"));
    IS(sends(&a, rti("UAL1", AB, 0)), 0);
    IS(receives(&b, a.last), 0);
    answer = text("%s", b.last);
    IS(sends(&b, rta("UAL1", AB, 1)), 0);
    a.room = 28;
    IS(receives(&a, b.last), 2);                        /* undoes all of it */
    IS(unanswered(&a), 1);
    a.room = 29;
    IS(receives(&a, b.last), 0);
    GAVE(a, "(LAMAAAA/BBBB000BBBB/AAAA000)");
    IS(unanswered(&a), 0);
    f.handoff = 2; f.offer = 1;
    HOLDS(a.m.sent, 0, &f);
    IS(receives(&a, answer), 5);
    IS(receives(&b, a.last), 0);
    CHECK(same_flights());
    IS(receives(&a, numbered(rta("UAL1", AB, 1), BA, 0)), 0);   /* a repeat */
    HOLDS(a.m.sent, 0, &f);
}

static void offers_that_are_not_retired(void)
{
    fresh();
    SEND_AND_PASS(a, b, cpl("C1"));
    SEND_AND_PASS(a, b, cpl("C2"));
    IS(sends(&a, rti("C1", AB, 0)), 0);
    IS(receives(&a, numbered(rta("C2", AB, 2), BA, 0)), 0);     /* the number, another key */
    GAVE(a, "(LRMAAAA/BBBB000BBBB/AAAA000-RMK/57)");
    IS(receives(&a, numbered(rta("C1", AB, 1), BA, 1)), 0);     /* the key, another number */
    GAVE(a, "(LRMAAAA/BBBB001BBBB/AAAA001-RMK/57)");
    IS(receives(&a, numbered(rta("C1", BA, 2), BA, 2)), 0);     /* their retract */
    GAVE(a, "(LRMAAAA/BBBB002BBBB/AAAA002-RMK/57)");
    IS(unanswered(&a), 1);
    IS(sends(&a, cnl("C2", AB, 1)), 0);
    IS(receives(&a, numbered(rta("C2", AB, 3), BA, 3)), 0);     /* number and key of what is no offer */
    GAVE(a, "(LRMAAAA/BBBB003BBBB/AAAA003-RMK/57)");
    IS(unanswered(&a), 2);
    IS(receives(&a, "(LRMBBBB/AAAA003AAAA/BBBB003-RMK/57)"), 0);
    IS(receives(&a, numbered(rta("C1", AB, 2), BA, 1)), 0);     /* answered 57 before: a repeat retires nothing */
    IS(unanswered(&a), 1);
    /* An old acceptance that was never answered does retire it. */
    IS(receives(&a, numbered(rta("C9", AB, 2), BA, 5)), 0);
    IS(receives(&a, numbered(rta("C1", AB, 2), BA, 4)), 0);
    GAVE(a, "(LAMAAAA/BBBB004BBBB/AAAA004)");
    IS(unanswered(&a), 0);
    IS(highest_of(&a), 5);
    IS(a.m.sent[1], 2);
}

/* The offer's own condition fails when it is retired: it is dropped, and the acceptance gets LRM 57. */
static void offer_dropped_by_an_acceptance(void)
{
    fresh();
    SEND_AND_PASS(a, b, cpl("C1"));
    IS(sends(&a, rti("C1", AB, 0)), 0);
    a.m.sent[3] = 7;                                    /* another first number */
    IS(receives(&a, numbered(rta("C1", AB, 1), BA, 0)), 0);
    GAVE(a, "(LRMAAAA/BBBB000BBBB/AAAA000-RMK/57)");
    IS(unanswered(&a), 0);
    IS(a.m.sent[1], 0);
    /* The flight is offered under that number already: the offer is dropped, the acceptance taken. */
    fresh();
    SEND_AND_PASS(a, b, cpl("C1"));
    IS(sends(&a, rti("C1", AB, 0)), 0);
    a.m.sent[1] = 1;
    a.m.sent[5] = 1;
    IS(receives(&a, numbered(rta("C1", AB, 1), BA, 0)), 0);
    GAVE(a, "(LAMAAAA/BBBB000BBBB/AAAA000)");
    IS(unanswered(&a), 0);
    IS(a.m.sent[1], 2);
    /* There is no such flight any more. */
    fresh();
    SEND_AND_PASS(a, b, cpl("C1"));
    IS(sends(&a, rti("C1", AB, 0)), 0);
    memset(a.m.sent, 0, REF_FLIGHT);
    IS(receives(&a, numbered(rta("C1", AB, 1), BA, 0)), 0);
    GAVE(a, "(LRMAAAA/BBBB000BBBB/AAAA000-RMK/57)");
    IS(unanswered(&a), 0);
}

/* An RTA with other units, as an unanswered text that was lent, is no acceptance. */
static void lent_rta_with_other_units(void)
{
    const char *t = "(RTAAAAA/BBBB005CCCC/DDDD001-C1-KSEA-CYOW-S)";
    uint8_t *w;
    int lrm;
    for (lrm = 0; lrm < 2; lrm++) {
        offer_flight();
        w = waiting_at(&a, 3);
        w[0] = 1;
        set_number(w + 1, 5);
        set_number(w + 3, (unsigned)strlen(t));
        memcpy(w + 5, t, strlen(t));
        IS(receives(&a, lrm ? "(LRMBBBB/AAAA005AAAA/BBBB005-RMK/57)" : lam(BA, AB, 5)), 0);
        IS(unanswered(&a), 0);
        IS(a.m.sent[1], 1);
    }
}

/* ---------------------------------------------------------------- lent memory */

/* Each call on memory of wrong size; the names and the rest do not matter. */
static void wrong_sizes(void)
{
    static const size_t right[5] = {
        REF_HEAD, REF_FLIGHT * PLACES, REF_FLIGHT * PLACES, REF_WAITING * REF_WAITINGS, REF_ANSWERS
    };
    static const int by[] = { -1, 1, -REF_FLIGHT, -REF_WAITING };
    const char *draft = fpl("F1");
    uint8_t record[REF_RECORD];
    size_t i, k;
    record_of(draft, record);
    for (i = 0; i < 5; i++)
        for (k = 0; k < 4; k++) {
            size_t n[5];
            uint64_t length, place, hyphens;
            memcpy(n, right, sizeof n);
            if (by[k] < 0 && n[i] < (size_t)-by[k]) continue;
            if ((i == 1 || i == 2) && by[k] == -REF_FLIGHT) continue;   /* a smaller table is right */
            n[i] += (size_t)by[k];
            fresh();
#define SIZED a.m.head, n[0], a.m.sent, n[1], a.m.received, n[2], a.m.waiting, n[3], a.m.answers, n[4]
            begin_call(&a);
            IS(ref_send((const uint8_t *)draft, strlen(draft), record, REF_RECORD, SIZED, out, ROOM, &length), 12);
            end_call(&a, 12, length);
            IS(ref_receive((const uint8_t *)"", 0, SIZED, out, ROOM, &length, &place, &hyphens), 12);
            end_call(&a, 12, length);
            IS(ref_resend(1000, SIZED, out, ROOM, &length), 12);
            end_call(&a, 12, length);
        }
}

static void each_call_refuses_12(int line)
{
    check_equal(sends(&a, "none"), 12, line, "sending with bad memory");        /* 12 before 13 */
    check_equal(receives(&a, "none"), 12, line, "receiving with bad memory");   /* 12 before 1 */
    check_equal(resends(&a, 1000), 12, line, "resending with bad memory");      /* 12 before 5 */
}

/* A byte of the memory made another, and back. */
static void damage(uint8_t *at, int value, int line)
{
    uint8_t kept = *at;
    *at = (uint8_t)value;
    each_call_refuses_12(line);
    *at = kept;
}
#define BAD(place, value) damage(&a.m.place, value, __LINE__)

static void damaged_memory(void)
{
    uint8_t kept[REF_FLIGHT];
    fresh();
    SEND_AND_PASS(a, b, fpl("F1"));
    SEND_AND_PASS(a, b, cpl("C1"));
    SEND_AND_PASS(b, a, cpl("C1"));
    IS(sends(&a, cnl("F1", AB, 0)), 0);
    IS(sends(&a, rti("C1", AB, 1)), 0);
    BAD(head[0], 'a'); BAD(head[7], '1'); BAD(head[8], 4); BAD(head[10], 4); BAD(head[3], 'B');
    memcpy(kept, a.m.head, 4);
    memcpy(a.m.head, "BBBB", 4);
    each_call_refuses_12(__LINE__);
    memcpy(a.m.head, kept, 4);
    BAD(sent[0], 0); BAD(sent[0], 2); BAD(sent[0], 3); BAD(sent[1], 1); BAD(sent[2], 4); BAD(sent[5], 1); BAD(sent[6], ' ');
    BAD(sent[8], 'X' + 32); BAD(sent[13], ' '); BAD(sent[13], '8'); BAD(sent[20], '1'); BAD(sent[21], '3'); BAD(sent[28], ' ');
    BAD(sent[29], 'A'); BAD(sent[30], 'A'); BAD(sent[31], '1'); BAD(sent[39], ' '); BAD(sent[100], 'A');
    BAD(sent[130], '0' - 1); BAD(sent[141], 'X'); BAD(sent[440], 'X'); BAD(sent[441], '1');
    BAD(sent[740], 'X'); BAD(sent[741], ' '); BAD(sent[767], 1);
    BAD(sent[REF_FLIGHT], 1); BAD(sent[REF_FLIGHT + 1], 3); BAD(sent[REF_FLIGHT + 4], 4); BAD(sent[REF_FLIGHT + 100], ' ');
    BAD(sent[2 * REF_FLIGHT], 1); BAD(sent[3 * REF_FLIGHT - 1], 1);
    BAD(received[0], 0); BAD(received[21], '1'); BAD(received[767], 1); BAD(received[REF_FLIGHT + 5], 1);
    BAD(waiting[0], 0); BAD(waiting[0], 2); BAD(waiting[1], 4); BAD(waiting[2], 1); BAD(waiting[4], 1); BAD(waiting[5], ')');
    BAD(waiting[9], 'C'); BAD(waiting[14], 'C'); BAD(waiting[20], '9'); BAD(waiting[1279], 1);
    BAD(waiting[2 * REF_WAITING + 7], 1);
    BAD(answers[0], 3); BAD(answers[999], 58); BAD(answers[500], 63); BAD(answers[500], 255);
    /* Two flights of one key, two unanswered of one number. */
    memcpy(a.m.sent + 2 * REF_FLIGHT, a.m.sent, REF_FLIGHT);
    each_call_refuses_12(__LINE__);
    memset(a.m.sent + 2 * REF_FLIGHT, 0, REF_FLIGHT);
    memcpy(waiting_at(&a, 5), waiting_at(&a, 0), REF_WAITING);
    each_call_refuses_12(__LINE__);
    memset(waiting_at(&a, 5), 0, REF_WAITING);
    IS(resends(&a, 2), 0);
    IS(receives(&a, "none"), 1);
    IS(refused_place, 0);
    IS(receives(&a, "(LAMBBBB/AAAA002AAAA/BBBB00A)"), 1);
    IS(refused_place, 27);
    IS(receives(&a, "(CNLAAAA/BBBB002AAAA/BBBB000-A-KSEA-CYOW-0)"), 1);
    IS(refused_place, 30);
    IS(refused_hyphens, 1);
}

static void order_of_receiving(void)
{
    offer_flight();
    b.room = 0;
    IS(receives(&b, "(LAMCCCC/BBBB000BBBB/AAAA001)"), 3);               /* 3 before 5 */
    IS(receives(&b, numbered(rti("C1", BA, 0), AB, 500)), 3);           /* 3 before 4 */
    IS(receives(&b, numbered(rti("C1", AB, 0), AB, 500)), 4);           /* 4 before 2 */
    IS(receives(&b, numbered(cnl("C1", AB, 0), AB, 1)), 4);
    IS(receives(&b, numbered(rti("C1", AB, 0), AB, 1)), 2);
    IS(receives(&b, numbered(rti("C1", AB, 0), AB, 2)), 2);
    IS(highest_of(&b), 1);
}

/* ---------------------------------------------------------------- many messages */

static unsigned seed = 1;
static unsigned chance(unsigned of)
{
    seed = seed * 1103515245u + 12345u;
    return (seed >> 16) % of;
}

/* Numbers come round twice.  Answers are lost, copies repeated and late; each message is settled before the next. */
static void numbers_come_round(void)
{
    static char late[50][TEXT];                         /* copies of earlier messages */
    unsigned i, k;
    fresh();
    SEND_AND_PASS(a, b, fpl("F1"));
    memset(late, 0, sizeof late);
    for (i = 1; i < 2100; i++) {
        struct memory kept;
        IS(sends(&a, chg("F1", AB, 0, chance(2) ? "08/V" : "08/I")), 0);
        strcpy(late[i % 50], a.last);
        if (chance(4) == 0) IS(receives(&b, a.last), 0);        /* the answer is lost */
        if (chance(4) == 0) IS(resends(&a, i % 1000), 0);
        IS(waiting_at(&a, 0)[0], 1);
        PASS(a, b);
        IS(highest_of(&b), i % 1000);
        kept = b.m;
        k = chance(50);
        if (late[k][0]) IS(receives(&b, late[k]), 0);           /* a late copy changes nothing */
        CHECK(memcmp(&kept, &b.m, sizeof kept) == 0);
    }
    IS(next_of(&a), 100);
    IS(b.m.answers[99], 1);
}

/* A message overtaken by later ones is taken when it comes at last, 399 numbers late; its place in the numbers is kept. */
static void overtaken(void)
{
    unsigned i;
    fresh();
    SEND_AND_PASS(a, b, fpl("F1"));
    IS(sends(&a, cpl("C1")), 0);                        /* 001 */
    for (i = 0; i < 399; i++) SEND_AND_PASS(a, b, chg("F1", AB, 0, "08/V"));
    IS(sends(&a, chg("F1", AB, 0, "08/V")), 9);
    IS(highest_of(&b), 400);
    IS(resends(&a, 1), 0);
    IS(receives(&b, a.last), 0);
    IS(highest_of(&b), 400);
    IS(b.m.answers[1], 1);
    IS(receives(&a, b.last), 0);
    CHECK(same_flights());
    IS(sends(&a, chg("F1", AB, 0, "08/V")), 0);
}

int main(void)
{
    examples_of_document_01();
    limits_of_fields();
    writing_gives_the_text_back();
    writing_a_changed_record();
    writing_what_is_far_too_long();
    setting_up();
    filing_and_changing();
    handing_off();
    two_flights_of_one_key();
    two_offers_of_one_key();
    lowest_places();
    bytes_of_an_unanswered_message();
    answers_that_do_not_fit();
    a_rejected_message_leaves_nothing();
    answers_without_room();
    dropped_when_the_answer_comes();
    units_that_do_not_go_together();
    new_old_and_stale();
    forgetting();
    repeats();
    answers_57_and_62();
    conditions();
    number_and_key();
    content_that_is_refused();
    named_by_an_unanswered_message();
    sixteen_unanswered();
    too_far_back();
    table_full_at_the_sender();
    too_little_room();
    retract_and_acceptance();
    acceptance_retires_an_offer();
    offers_that_are_not_retired();
    offer_dropped_by_an_acceptance();
    lent_rta_with_other_units();
    wrong_sizes();
    damaged_memory();
    order_of_receiving();
    numbers_come_round();
    overtaken();
    printf("%u checks, %u failed\n", checks, failures);
    return failures != 0;
}
