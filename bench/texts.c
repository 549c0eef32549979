#include "texts.h"

#include <string.h>

#include "drafts.h"
#include "link.h"

#define LETTERS "ABCDEFGHIJKLMNOPQRSTUVWXYZ"
#define DIGITS "0123456789"
#define SIGNS "/.,'+:?"

static void put(struct making *m, int byte)
{
    if (m->n < TEXT_ROOM) m->text[m->n++] = (uint8_t)byte;
}

static void literal(struct making *m, const char *s)
{
    while (*s) put(m, *s++);
}

static int odd(const struct making *m) { return m->odd != 0 && once_in(m->odd); }

/* One of the bytes; now and then one that is none of them. */
static void one(struct making *m, const char *bytes)
{
    if (odd(m))
        put(m, once_in(2) ? (int)chance(256) : LETTERS DIGITS SIGNS " -()"[chance(47)]);
    else
        put(m, bytes[chance((unsigned)strlen(bytes))]);
}

static void some(struct making *m, const char *bytes, unsigned n)
{
    if (odd(m)) n += once_in(2) ? 1 : (unsigned)-1;
    for (; n > 0 && n < TEXT_ROOM; n--) one(m, bytes);
}

/* The ends of a range are as likely as all between. */
static unsigned length_in(const struct making *m, unsigned low, unsigned high)
{
    if (odd(m)) return once_in(2) ? high + 1 : low - 1;
    if (m->full || once_in(8)) return high;
    if (once_in(8)) return low;
    return low + chance(high - low + 1);
}

static void letters(struct making *m, unsigned n) { some(m, LETTERS, n); }
static void digits(struct making *m, unsigned n) { some(m, DIGITS, n); }
static void letters_or_digits(struct making *m, unsigned low, unsigned high)
{
    some(m, LETTERS DIGITS, length_in(m, low, high));
}

/* A number with leading zeros, at most the highest. */
static void number_upto(struct making *m, unsigned width, unsigned highest)
{
    unsigned x = once_in(6) ? highest : chance(highest + 1), divisor = 1, i;
    if (odd(m)) x = highest + 1;
    for (i = 1; i < width; i++) divisor *= 10;
    for (; divisor > 0; divisor /= 10) put(m, '0' + (int)(x / divisor % 10));
}

static void words(struct making *m, unsigned most)
{
    unsigned usual = most < 30 || once_in(4) ? most : 30, i;
    unsigned n = m->full || once_in(12) ? length_in(m, most - 2, most) : length_in(m, 1, usual);
    int blank = 1;                              /* none at the beginning, none twice */
    for (i = 0; i < n; i++) {
        int may = !blank && i + 1 < n;
        blank = may && once_in(6);
        if (blank)
            put(m, ' ');
        else
            one(m, LETTERS DIGITS SIGNS);
    }
    if (odd(m)) literal(m, once_in(2) ? " " : "  A");
}

static void time_of_day(struct making *m)
{
    number_upto(m, 2, 23);
    number_upto(m, 2, 59);
}

static void level(struct making *m)
{
    if (once_in(2)) {
        one(m, "FA");
        digits(m, 3);
    } else {
        one(m, "SM");
        digits(m, 4);
    }
}

/* ---------------------------------------------------------------- fields */

static void field07a(struct making *m) { letters_or_digits(m, 2, 7); }

static void code(struct making *m) { some(m, "01234567", 4); }

static void field07(struct making *m)
{
    field07a(m);
    if (once_in(2)) return;
    literal(m, "/A");
    code(m);
}

static void field08(struct making *m)
{
    one(m, "IVYZ");
    if (once_in(2)) one(m, "SNGMX");
}

static void field09(struct making *m)
{
    switch (chance(3)) {
    case 0: one(m, "23456789"); break;
    case 1: one(m, "123456789"); one(m, DIGITS); break;
    }
    one(m, LETTERS);
    letters_or_digits(m, 1, 3);
    put(m, '/');
    one(m, "LMH");
}

static void field10(struct making *m)
{
    letters_or_digits(m, 1, 40);
    put(m, '/');
    letters_or_digits(m, 1, 20);
}

static void field13(struct making *m)
{
    letters(m, 4);
    time_of_day(m);
}

static void degrees(struct making *m, unsigned width, unsigned highest, const char *sides, int minutes)
{
    int pole = once_in(8);
    if (pole)
        number_upto(m, width, highest);
    else
        number_upto(m, width, highest - 1);
    /* the last degree has no minutes */
    if (minutes) number_upto(m, 2, pole && !odd(m) ? 0 : 59);
    one(m, sides);
}

static void point(struct making *m)
{
    int minutes;
    switch (chance(4)) {
    case 0:
        letters_or_digits(m, 2, 5);
        break;
    case 1:
        letters_or_digits(m, 2, 5);
        number_upto(m, 3, 360);
        digits(m, 3);
        break;
    default:
        minutes = once_in(2);
        degrees(m, 2, 90, "NS", minutes);
        degrees(m, 3, 180, "EW", minutes);
    }
}

static void field14(struct making *m)
{
    point(m);
    put(m, '/');
    time_of_day(m);
    level(m);
    if (once_in(2)) return;
    level(m);
    if (!odd(m)) one(m, "AB");
}

static void field15(struct making *m)
{
    size_t from = m->n;
    if (once_in(3)) {
        put(m, 'M');
        digits(m, 3);
    } else {
        one(m, "KN");
        digits(m, 4);
    }
    if (once_in(4))
        literal(m, "VFR");
    else
        level(m);
    put(m, ' ');
    words(m, 300 - (unsigned)(m->n - from));
}

static void rest16(struct making *m)
{
    unsigned alternates = chance(3) + (unsigned)odd(m);
    if (once_in(2)) {
        number_upto(m, 2, 99);
        number_upto(m, 2, 59);
    }
    for (; alternates > 0; alternates--) {
        put(m, ' ');
        letters(m, 4);
    }
}

static void field16(struct making *m)
{
    letters(m, 4);
    rest16(m);
}

static void field18(struct making *m)
{
    size_t from = m->n;
    if (once_in(3)) {
        put(m, '0');
        return;
    }
    letters(m, 3 + chance(2));
    put(m, '/');
    words(m, 300 - (unsigned)(m->n - from));
}

/* ---------------------------------------------------------------- messages */

static void changes(struct making *m)
{
    static const struct { const char *number; void (*make)(struct making *); } fields[] = {
        { "08/", field08 }, { "09/", field09 }, { "10/", field10 }, { "13/", field13 }, { "15/", field15 }, { "16/", field16 },
        { "18/", field18 }
    };
    unsigned wanted = m->full ? 127 : 1 + chance(127), i;
    if (!m->full && once_in(4)) {
        literal(m, "-07/");
        field07(m);
        if (!odd(m)) return;
    }
    for (i = 0; i < 7; i++) {
        if (!(wanted >> i & 1) && !odd(m)) continue;
        put(m, '-');
        literal(m, fields[odd(m) ? chance(7) : i].number);
        fields[i].make(m);
    }
}

static void number(struct making *m, const char *given)
{
    if (given) {
        literal(m, given);
        return;
    }
    letters(m, 4);
    put(m, '/');
    letters(m, 4);
    digits(m, 3);
}

/* Departure with no time, with one, or as chance has it; destination alone. */
static void short13(struct making *m, int time)
{
    put(m, '-');
    letters(m, 4);
    if (time || odd(m)) time_of_day(m);
    put(m, '-');
}

static void plan(struct making *m, unsigned kind)
{
    put(m, '-'); field07(m);
    put(m, '-'); field08(m);
    put(m, '-'); field09(m);
    put(m, '-'); field10(m);
    if (kind == FPL) {
        put(m, '-'); field13(m);
    } else {
        short13(m, 0);
        field14(m);
    }
    put(m, '-'); field15(m);
    put(m, '-');
    if (kind == FPL)
        field16(m);
    else
        letters(m, 4);
    put(m, '-'); field18(m);
}

static void fields_of(struct making *m, unsigned kind)
{
    if (kind <= CPL) {
        plan(m, kind);
        return;
    }
    if (kind >= RLA) {
        if (kind == RLA) { put(m, '-'); words(m, 20); }
        if (kind == LRM) { literal(m, "-RMK/"); digits(m, 2); }
        return;
    }
    put(m, '-');
    if (kind == EST || kind == RTI)
        field07(m);
    else
        field07a(m);
    short13(m, (kind == CHG || kind == CNL) && once_in(2));
    if (kind == EST) { field14(m); put(m, '-'); }
    letters(m, 4);
    if (kind == CNL || (kind == CHG && once_in(2))) { put(m, '-'); field18(m); }
    if (kind == CHG) changes(m);
    if (kind == RTI || kind == RTA) { put(m, '-'); words(m, 20); }
    if (kind == RTI) { put(m, '-'); words(m, 60); }
}

static const char *const types[KINDS] = { "", "FPL", "CPL", "EST", "CHG", "CNL", "RTI", "RTA", "RLA", "LAM", "LRM" };

void make_message(struct making *m, unsigned kind, const char *given, const char *reference)
{
    m->n = 0;
    put(m, '(');
    literal(m, types[odd(m) ? 1 + chance(KINDS - 1) : kind]);
    number(m, given);
    if (kind > CPL) number(m, reference);
    fields_of(m, kind);
    if (!odd(m)) put(m, ')');
    if (odd(m)) one(m, ")\r\n A");
}

void make_rubbish(struct making *m)
{
    static const char *const pieces[] = {
        "(", "(FPL", "(CHG", "(LAM", "(RTA", "(LRM", "AAAA/BBBB000", "BBBB/AAAA999", "-", "-", "-AAL72/A1234", "-IS",
        "-2B738/M", "-S/C", "-KSEA", "2359", "-46N078W/2042F350", "-N0450F350 DCT", "-CYOW", "-0",
        "-07/AAL73", "-18/RMK/X", "-RMK/57", ")"
    };
    unsigned n = chance(40), i;
    int sort = (int)chance(3);
    m->n = 0;
    if (sort == 0)
        for (i = 0; i < n; i++) put(m, (int)chance(256));
    else if (sort == 1)
        for (i = 0; i < 5 * n; i++) put(m, (LETTERS DIGITS SIGNS " -()")[chance(47)]);
    else
        for (i = 0; i < n / 2; i++) literal(m, one_of(pieces, sizeof pieces / sizeof *pieces));
}

/* ---------------------------------------------------------------- flights */

/* What is too long for its place is cut off. */
static void padded(uint8_t *to, size_t width, void (*make)(struct making *), unsigned odd)
{
    static struct making m;
    m.n = 0;
    m.odd = odd;
    m.full = once_in(10);
    if (make) make(&m);
    memset(to, ' ', width);
    memcpy(to, m.text, m.n < width ? m.n : width);
}

static void place(struct making *m) { letters(m, 4); }

static void number16(uint8_t *to, unsigned x)
{
    to[0] = (uint8_t)(x >> 8);
    to[1] = (uint8_t)x;
}

static void key_into(uint8_t *flight, const struct named *key)
{
    memset(flight + 6, ' ', 7);
    memcpy(flight + 6, key->aircraft, strlen(key->aircraft));
    memcpy(flight + 17, key->departure, 4);
    memcpy(flight + 25, key->destination, 4);
}

void make_flight(uint8_t *flight, const struct named *key, unsigned odd)
{
    int active = once_in(2);
    const struct { size_t at, width; void (*make)(struct making *); } fields[] = {
        { 6, 7, field07a }, { 13, 4, once_in(2) ? code : NULL }, { 17, 4, place },
        { 21, 4, !active || once_in(2) ? time_of_day : NULL }, { 25, 4, place }, { 29, 2, field08 }, { 31, 8, field09 },
        { 39, 61, field10 }, { 100, 27, active ? field14 : NULL }, { 127, 14, rest16 }, { 141, 300, field15 },
        { 441, 300, field18 }
    };
    unsigned odd_one = chance(12), i;                   /* one field alone is odd, so that nothing else hides it */
    memset(flight, 0, REF_FLIGHT);
    flight[0] = active ? 2 : 1;
    number16(flight + 2, chance(1000));
    if (active) {
        flight[1] = (uint8_t)chance(3);
        number16(flight + 4, chance(1000));
    }
    for (i = 0; i < 12; i++) padded(flight + fields[i].at, fields[i].width, fields[i].make, i == odd_one ? odd : 0);
    if (key) key_into(flight, key);
}
