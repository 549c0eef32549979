#include "reader.h"

#include <string.h>

/* How it works.

   A text that may be a message is 29 to 1,077 bytes long and ends with ')'.  No other part of a
   message has a ')', so going on byte by byte always stops there and needs no test for the end;
   only where several bytes are taken at once is their presence tested.  A text that is not so is
   refused, and read from a copy with zeros behind it to find out where (see pq_read).

   Every function that reads a part takes its beginning and returns its end, or hands back NULL
   after setting `place`.  Fixed parts are tested 4 or 8 bytes at a time against the lowest and the
   highest byte for each position; the place is looked for only if that fails. */

typedef const unsigned char *text;

enum { SHORTEST = 29, LONGEST = 1077 };

struct reading {
    text s, end;
    text last4, last8;          /* the last places from which 4 and 8 bytes can be taken */
    text place;                 /* of the refusal */
    struct pq_record *out;
};

/* ---------------------------------------------------------------- classes of bytes */

enum { RUN = 1, ALNUM = 2, LETTER = 4, DIGIT = 8, RULES = 16, FLIGHT = 32, WAKE = 64 };

#define S RUN
#define D (RUN | ALNUM | DIGIT)
#define L (RUN | ALNUM | LETTER)
#define R (L | RULES)
#define F (L | FLIGHT)
#define W (L | WAKE)
static const unsigned char class_of[256] = {
    0, 0, 0, 0, 0, 0, 0, 0, 0, 0, 0, 0, 0, 0, 0, 0,
    0, 0, 0, 0, 0, 0, 0, 0, 0, 0, 0, 0, 0, 0, 0, 0,
/*     !  "  #  $  %  &  '  (  )  *  +  ,  -  .  /  */
    0, 0, 0, 0, 0, 0, 0, S, 0, 0, 0, S, S, 0, S, S,
/*  0  1  2  3  4  5  6  7  8  9  :  ;  <  =  >  ?  */
    D, D, D, D, D, D, D, D, D, D, S, 0, 0, 0, 0, S,
/*  @  A  B  C  D  E  F  G  H  I  J  K  L  M  N  O  */
    0, L, L, L, L, L, L, F, W, R, L, L, W, F | W, F, L,
/*  P  Q  R  S  T  U  V  W  X  Y  Z  */
    L, L, L, F, L, L, R, L, F, R, R
};
#undef S
#undef D
#undef L
#undef R
#undef F
#undef W

#define IS(byte, class) (class_of[byte] & (class))

/* The end of the bytes of a class from p on. */
static inline text past(text p, int class)
{
    for (;; p += 4) {
        if (!IS(p[0], class)) return p;
        if (!IS(p[1], class)) return p + 1;
        if (!IS(p[2], class)) return p + 2;
        if (!IS(p[3], class)) return p + 3;
    }
}

/* ---------------------------------------------------------------- small things */

static inline struct pq_span span(const struct reading *r, text from, text to)
{
    struct pq_span it;
    it.at = (uint16_t)(from - r->s);
    it.len = (uint16_t)(to - from);
    return it;
}

static inline unsigned digit(text p) { return *p - '0'; }
static inline unsigned two(text p) { return digit(p) * 10 + digit(p + 1); }
static inline unsigned three(text p) { return two(p) * 10 + digit(p + 2); }
static inline unsigned four(text p) { return three(p) * 10 + digit(p + 3); }

/* In pieces that compilers do without a call or a string instruction. */
static inline void clear(struct pq_record *out)
{
    memset(out, 0, offsetof(struct pq_record, own));
    memset(&out->own, 0, sizeof out->own);
    memset(&out->field14, 0, sizeof out->field14);
    memset(&out->changed, 0, sizeof out->changed);
    memset(&out->field31, 0, sizeof *out - offsetof(struct pq_record, field31));
}

static text refuse(struct reading *r, text place)
{
    r->place = place;
    return NULL;
}

/* ---------------------------------------------------------------- fixed shapes

   Are all bytes of x within the bytes of lo and hi, each in its position?  With all of them below
   128 nothing carries from one byte to the next, and the top bits of x + (128 - lo) and of
   (128 + hi) - x say x >= lo and x <= hi.  The first byte of 128 or more that there is, counted
   from the low end, gets no carry either and never has both top bits. */

static inline uint64_t load8(const void *p) { uint64_t x; memcpy(&x, p, 8); return x; }
static inline uint32_t load4(const void *p) { uint32_t x; memcpy(&x, p, 4); return x; }

static inline int within8(text p, const char *lo, const char *hi)
{
    const uint64_t top = 0x8080808080808080u;
    uint64_t x = load8(p);
    return ((x + (top - load8(lo))) & ((top + load8(hi)) - x) & top) == top;
}

static inline int within4(text p, const char *lo, const char *hi)
{
    const uint32_t top = 0x80808080u;
    uint32_t x = load4(p);
    return ((x + (top - load4(lo))) & ((top + load4(hi)) - x) & top) == top;
}

static inline int shape8(const struct reading *r, text p, const char *lo, const char *hi)
{
    return p <= r->last8 && within8(p, lo, hi);
}

static inline int shape4(const struct reading *r, text p, const char *lo, const char *hi)
{
    return p <= r->last4 && within4(p, lo, hi);
}

/* The first place, from p on, that does not fit the shape; its end if all does. */
static text misfit(text p, const char *lo, const char *hi)
{
    for (; *lo && *p >= (unsigned char)*lo && *p <= (unsigned char)*hi; lo++, hi++)
        p++;
    return p;
}

static text refuse_shape(struct reading *r, text p, const char *lo, const char *hi)
{
    return refuse(r, misfit(p, lo, hi));
}

static inline text letters4(struct reading *r, text p, struct pq_span *to)
{
    if (!shape4(r, p, "AAAA", "ZZZZ"))
        return refuse_shape(r, p, "AAAA", "ZZZZ");
    *to = span(r, p, p + 4);
    return p + 4;
}

/* ---------------------------------------------------------------- times and levels */

static text refuse_time(struct reading *r, text p)
{
    return refuse_shape(r, p, "0000", *p == '2' ? "2359" : "2959");
}

static inline int too_late(text p) { return p[0] == '2' && p[1] > '3'; }

static inline text time_of_day(struct reading *r, text p, struct pq_span *to)
{
    if (!shape4(r, p, "0000", "2959") || too_late(p))
        return refuse_time(r, p);
    *to = span(r, p, p + 4);
    return p + 4;
}

static inline text level(struct reading *r, text p, struct pq_span *to, struct pq_level *value)
{
    text q;
    switch (*p) {
    case 'F': case 'A':
        if (!shape4(r, p, "A000", "F999"))
            return refuse_shape(r, p, "A000", "F999");
        value->kind = *p == 'F' ? PQ_F : PQ_A;
        value->figure = (uint16_t)three(p + 1);
        q = p + 4;
        break;
    case 'S': case 'M':
        if (!shape4(r, p + 1, "0000", "9999"))
            return refuse_shape(r, p + 1, "0000", "9999");
        value->kind = *p == 'S' ? PQ_S : PQ_M;
        value->figure = (uint16_t)four(p + 1);
        q = p + 5;
        break;
    default:
        return refuse(r, p);
    }
    *to = span(r, p, q);
    return q;
}

/* ---------------------------------------------------------------- words */

/* The end of runs and single blanks between them from p on; just after a blank if no run follows. */
#if defined PQ_SSE2 && defined __SSE2__
#include <emmintrin.h>

/* A bit for each of 16 bytes at which words cannot go on; *blanks has one for each blank. */
static inline unsigned stops_in(text p, unsigned blank_before, unsigned *blanks)
{
    __m128i x = _mm_loadu_si128((const __m128i *)p);
#define EQUAL(c) _mm_cmpeq_epi8(x, _mm_set1_epi8(c))
#define RANGE(lo, hi) _mm_cmpeq_epi8(_mm_min_epu8(_mm_sub_epi8(x, _mm_set1_epi8(lo)), \
    _mm_set1_epi8((hi) - (lo))), _mm_sub_epi8(x, _mm_set1_epi8(lo)))
    __m128i blank = EQUAL(' ');
    __m128i run = _mm_or_si128(_mm_or_si128(RANGE('A', 'Z'), _mm_andnot_si128(EQUAL('-'), RANGE('+', ':'))),
                               _mm_or_si128(EQUAL('\''), EQUAL('?')));
#undef EQUAL
#undef RANGE
    unsigned b = (unsigned)_mm_movemask_epi8(blank);
    *blanks = b;
    return ((unsigned)_mm_movemask_epi8(_mm_or_si128(run, blank)) ^ 0xffff) | (b & (b << 1 | blank_before));
}

static inline text words_end(const struct reading *r, text p)
{
    text last16 = r->end - 16;
    unsigned blanks = 0, stops;
    for (; p <= last16; p += 16) {
        stops = stops_in(p, blanks >> 15, &blanks);
        if (stops) return p + __builtin_ctz(stops);
    }
    /* Fewer than 16 are left: the last 16 of the text, and the bits of those seen before dropped. */
    stops = stops_in(last16, 0, &blanks) >> (p - last16);
    return stops ? p + __builtin_ctz(stops) : r->end;
}
#else
static inline text words_end(const struct reading *r, text p)
{
    (void)r;
#define STEP(k) \
    if (!IS(p[k], RUN)) { \
        if (p[k] != ' ') return p + (k); \
        if (!IS(p[(k) + 1], RUN)) return p + (k) + 1; \
        p += (k) + 2; \
        continue; \
    }
    for (;;) {
        STEP(0) STEP(1) STEP(2) STEP(3) STEP(4) STEP(5) STEP(6) STEP(7)
        p += 8;
    }
#undef STEP
}
#endif

static text refuse_words(struct reading *r, text p, text q, size_t most)
{
    size_t len = (size_t)(q - p);
    if (len >= most)                            /* a blank is never the last byte */
        return refuse(r, p + most - (p[most - 1] == ' '));
    return refuse(r, q);
}

/* Words of at most so many bytes. */
static inline text words(struct reading *r, text p, size_t most, struct pq_span *to)
{
    text q = IS(*p, RUN) ? words_end(r, p) : p;
    if (q == p || q[-1] == ' ' || (size_t)(q - p) > most)
        return refuse_words(r, p, q, most);
    *to = span(r, p, q);
    return q;
}

/* ---------------------------------------------------------------- the fields */

static inline text field07a(struct reading *r, text p, struct pq_fields *f)
{
    text q = past(p, ALNUM);
    if (q - p < 2) return refuse(r, q);
    if (q - p > 7) return refuse(r, p + 7);
    f->aircraft = span(r, p, q);
    return q;
}

static text field07(struct reading *r, text p, struct pq_fields *f)
{
    p = field07a(r, p, f);
    if (!p || *p != '/') return p;
    if (p[1] != 'A') return refuse(r, p + 1);
    p += 2;
    if (!shape4(r, p, "0000", "7777")) return refuse_shape(r, p, "0000", "7777");
    f->code = span(r, p, p + 4);
    return p + 4;
}

static inline text field08(struct reading *r, text p, struct pq_fields *f)
{
    if (!IS(*p, RULES)) return refuse(r, p);
    f->rules = span(r, p, p + 1);
    p++;
    if (IS(*p, FLIGHT)) {
        f->flight = span(r, p, p + 1);
        p++;
    }
    return p;
}

static inline text field09(struct reading *r, text p, struct pq_fields *f, struct pq_figures *v)
{
    text q = p;
    if (IS(*p, DIGIT)) {
        unsigned count = digit(p);
        if (count == 0) return refuse(r, p);
        q++;
        if (IS(*q, DIGIT))
            count = count * 10 + digit(q++);
        else if (count == 1)
            return refuse(r, q);
        v->count = (uint16_t)count;
        f->count = span(r, p, q);
        p = q;
    }
    if (!IS(*p, LETTER)) return refuse(r, p);
    q = past(p + 1, ALNUM);
    if (q - p < 2) return refuse(r, q);
    if (q - p > 4) return refuse(r, p + 4);
    if (*q != '/') return refuse(r, q);
    if (!IS(q[1], WAKE)) return refuse(r, q + 1);
    f->model = span(r, p, q);
    f->wake = span(r, q + 1, q + 2);
    return q + 2;
}

static inline text field10(struct reading *r, text p, struct pq_fields *f)
{
    text q = past(p, ALNUM);
    if (q == p) return refuse(r, p);
    if (q - p > 40) return refuse(r, p + 40);
    if (*q != '/') return refuse(r, q);
    f->equipment = span(r, p, q);
    p = q + 1;
    q = past(p, ALNUM);
    if (q == p) return refuse(r, p);
    if (q - p > 20) return refuse(r, p + 20);
    f->surveillance = span(r, p, q);
    return q;
}

static inline text field13s(struct reading *r, text p, struct pq_fields *f)
{
    return letters4(r, p, &f->departure);
}

static inline text field13(struct reading *r, text p, struct pq_fields *f)
{
    if (!shape8(r, p, "AAAA0000", "ZZZZ2959") || too_late(p + 4)) {
        p = letters4(r, p, &f->departure);
        return p ? refuse_time(r, p) : NULL;
    }
    f->departure = span(r, p, p + 4);
    f->time = span(r, p + 4, p + 8);
    return p + 8;
}

static inline text field13o(struct reading *r, text p, struct pq_fields *f)
{
    p = letters4(r, p, &f->departure);
    return p && IS(*p, DIGIT) ? time_of_day(r, p, &f->time) : p;
}

/* -- 14: a beginning goes on as long as any of the forms of a point does. */

/* The longest beginning of a number of as many digits as `most`, and not above it. */
static text number_upto(text p, const char *most)
{
    int equal = 1;
    for (; *most; most++, p++) {
        unsigned char highest = equal ? (unsigned char)*most : '9';
        if (*p < '0' || *p > highest) break;
        equal = *p == highest && equal;
    }
    return p;
}

static text name_with_bearing(text p, int name)
{
    text at = p, q;
    while (at - p < name && IS(*at, ALNUM)) at++;
    if (at - p < name) return at;
    q = number_upto(at, "360");
    return q - at < 3 ? q : number_upto(q, "999");
}

/* One of latitude and longitude: degrees, minutes if wanted, and one of two letters. */
static text angle(text p, const char *most, int minutes, const char *sides, int *whole)
{
    size_t width = strlen(most);
    text q = number_upto(p, most), m;
    *whole = 0;
    if ((size_t)(q - p) < width) return q;
    if (minutes) {
        m = number_upto(q, memcmp(p, most, width) == 0 ? "00" : "59");
        if (m - q < 2) return m;
        q = m;
    }
    if (*q != (unsigned char)sides[0] && *q != (unsigned char)sides[1]) return q;
    *whole = 1;
    return q + 1;
}

static text position(text p, int minutes)
{
    int whole;
    text q = angle(p, "90", minutes, "NS", &whole);
    return whole ? angle(q, "180", minutes, "EW", &whole) : q;
}

static text refuse_point(struct reading *r, text p)
{
    text best = p, q;
    int name;
    while (best - p < 5 && IS(*best, ALNUM)) best++;
    for (name = 2; name <= 5; name++)
        if ((q = name_with_bearing(p, name)) > best) best = q;
    if ((q = position(p, 0)) > best) best = q;
    if ((q = position(p, 1)) > best) best = q;
    return refuse(r, best);
}

/* The form of the point from p to the '/' at q, all of it letters and digits. */
static inline unsigned point_form(text p, text q)
{
    switch (q - p) {
    case 2: case 3: case 4: case 5:
        return PQ_NAME;
    case 7:                                     /* 46N078W */
        return within8(p, "00N000E/", "99S199W/")
            && (p[2] == 'N' || p[2] == 'S') && (p[6] == 'E' || p[6] == 'W')
            && two(p) <= 90 && three(p + 3) <= 180 ? PQ_DEGREES : PQ_NO_POINT;
    case 11:                                    /* 4620N07805W, else a name of 5 with bearing */
        if (!IS(q[-1], DIGIT)) {
            if (within8(p, "0000N000", "9959S199") && within4(p + 8, "00E/", "59W/")
                && (p[4] == 'N' || p[4] == 'S') && (p[10] == 'E' || p[10] == 'W')
                && four(p) <= 9000 && three(p + 5) * 100 + two(p + 8) <= 18000)
                return PQ_MINUTES;
            return PQ_NO_POINT;
        }
        /* fall through */
    case 8: case 9: case 10:
        return within8(q - 7, "0000000/", "Z999999/") && three(q - 6) <= 360 ? PQ_BEARING : PQ_NO_POINT;
    default:
        return PQ_NO_POINT;
    }
}

static text field14(struct reading *r, text p)
{
    struct pq_record *out = r->out;
    text q = past(p, ALNUM);
    if (*q != '/') return refuse_point(r, p);
    out->point_form = (uint16_t)point_form(p, q);
    if (out->point_form == PQ_NO_POINT) return refuse_point(r, p);
    out->field14.point = span(r, p, q);
    if (!(p = time_of_day(r, q + 1, &out->field14.over))) return NULL;
    if (!(p = level(r, p, &out->field14.crossing, &out->crossing_level))) return NULL;
    if (!IS(*p, LETTER)) return p;
    if (!(p = level(r, p, &out->field14.second, &out->second_level))) return NULL;
    if (*p != 'A' && *p != 'B') return refuse(r, p);
    out->field14.sense = span(r, p, p + 1);
    return p + 1;
}

static text field15(struct reading *r, text p, struct pq_fields *f, struct pq_figures *v)
{
    text start = p, q;
    switch (*p) {
    case 'K': case 'N':
        if (!shape4(r, p + 1, "0000", "9999")) return refuse_shape(r, p + 1, "0000", "9999");
        q = p + 5;
        break;
    case 'M':
        if (!shape4(r, p, "M000", "M999")) return refuse_shape(r, p, "M000", "M999");
        q = p + 4;
        break;
    default:
        return refuse(r, p);
    }
    f->speed = span(r, p, q);
    if (*q == 'V') {
        if (q[1] != 'F') return refuse(r, q + 1);
        if (q[2] != 'R') return refuse(r, q + 2);
        v->level.kind = PQ_VFR;
        f->level = span(r, q, q + 3);
        q += 3;
    } else if (!(q = level(r, q, &f->level, &v->level)))
        return NULL;
    if (*q != ' ') return refuse(r, q);
    q++;
    return words(r, q, 300 - (size_t)(q - start), &f->route);
}

static inline text field16s(struct reading *r, text p, struct pq_fields *f)
{
    return letters4(r, p, &f->destination);
}

static text field16(struct reading *r, text p, struct pq_fields *f)
{
    if (!(p = field16s(r, p, f))) return NULL;
    if (IS(*p, DIGIT)) {
        if (!shape4(r, p, "0000", "9959")) return refuse_shape(r, p, "0000", "9959");
        f->elapsed = span(r, p, p + 4);
        p += 4;
    }
    if (*p != ' ') return p;
    if (!(p = letters4(r, p + 1, &f->alternate))) return NULL;
    if (*p != ' ') return p;
    return letters4(r, p + 1, &f->alternate2);
}

static text field18(struct reading *r, text p, struct pq_fields *f)
{
    text q;
    if (*p == '0') {
        f->indicator = span(r, p, p + 1);
        return p + 1;
    }
    if (shape4(r, p, "AAA/", "ZZZ/"))
        q = p + 3;
    else if (shape4(r, p, "AAAA", "ZZZZ") && p[4] == '/')
        q = p + 4;
    else {
        q = misfit(p, "AAA", "ZZZ");
        return refuse(r, q - p == 3 ? misfit(q, "A/", "Z/") : q);
    }
    f->indicator = span(r, p, q);
    q++;
    return words(r, q, 300 - (size_t)(q - p), &f->other);
}

/* ---------------------------------------------------------------- the messages */

/* What is put before each field: its hyphen. */
#define AFTER_HYPHEN(field) do { \
        if (*p != '-') return refuse(r, p); \
        p++; \
        if (!(p = (field))) return NULL; \
    } while (0)

/* One or more fields 22, the first at p, its hyphen behind us. */
static text fields22(struct reading *r, text p)
{
    struct pq_fields *f = &r->out->changed;
    struct pq_figures *v = &r->out->changed_figures;
    int last = 0;                               /* the number before */
    for (;;) {
        int number;
        if (*p == '0' ? last >= 9 : *p != '1') return refuse(r, p);
        number = (*p == '1' ? 10 : 0) + (p[1] - '0');
        if (number <= last || (number == 7 && last != 0)) return refuse(r, p + 1);
        switch (number) {
        case 7: case 8: case 9: case 10: case 13: case 15: case 16: case 18:
            break;
        default:
            return refuse(r, p + 1);
        }
        if (!IS(p[1], DIGIT)) return refuse(r, p + 1);
        if (p[2] != '/') return refuse(r, p + 2);
        p += 3;
        switch (number) {
        case 7: return field07(r, p, f);
        case 8: p = field08(r, p, f); break;
        case 9: p = field09(r, p, f, v); break;
        case 10: p = field10(r, p, f); break;
        case 13: p = field13(r, p, f); break;
        case 15: p = field15(r, p, f, v); break;
        case 16: p = field16(r, p, f); break;
        default: return field18(r, p, f);
        }
        if (!p || *p != '-') return p;
        last = number;
        p++;
    }
}

/* After the reference of a CHG. */
static text change(struct reading *r, text p)
{
    struct pq_fields *f = &r->out->own;
    AFTER_HYPHEN(field07a(r, p, f));
    AFTER_HYPHEN(field13o(r, p, f));
    AFTER_HYPHEN(field16s(r, p, f));
    if (*p != '-') return refuse(r, p);
    p++;
    /* An own field 18 is "0" or begins with a letter; "0" is also the beginning of 07, 08 and 09. */
    if (*p == '0' ? p[1] == '-' : *p != '1') {
        if (!(p = field18(r, p, f))) return NULL;
        if (*p != '-') return refuse(r, p);
        p++;
    }
    return fields22(r, p);
}

#define NUMBER_LOW "AAAA/AAAA000"
#define NUMBER_HIGH "ZZZZ/ZZZZ999"

static inline text number(struct reading *r, text p, struct pq_number *to, uint16_t *value)
{
    if (!within8(p, NUMBER_LOW, NUMBER_HIGH) || !within8(p + 4, &NUMBER_LOW[4], &NUMBER_HIGH[4]))
        return refuse_shape(r, p, NUMBER_LOW, NUMBER_HIGH);
    to->sender = span(r, p, p + 4);
    to->receiver = span(r, p + 5, p + 9);
    to->digits = span(r, p + 9, p + 12);
    *value = (uint16_t)three(p + 9);
    return p + 12;
}

static text refuse_type(struct reading *r)
{
    static const char types[10][5] = {
        "(FPL", "(CPL", "(EST", "(CHG", "(CNL", "(RTI", "(RTA", "(RLA", "(LAM", "(LRM"
    };
    text best = r->s, q;
    int i;
    for (i = 0; i < 10; i++)
        if ((q = misfit(r->s, types[i], types[i])) > best) best = q;
    return refuse(r, best);
}

static inline uint32_t letters(int a, int b, int c, int d)
{
    return (uint32_t)a << 24 | (uint32_t)b << 16 | (uint32_t)c << 8 | (uint32_t)d;
}
#define TYPE(a, b, c) ((uint32_t)'(' << 24 | (uint32_t)(a) << 16 | (uint32_t)(b) << 8 | (uint32_t)(c))

/* The end of the message's last field.  There are at least SHORTEST bytes. */
static inline text message(struct reading *r)
{
    struct pq_record *out = r->out;
    struct pq_fields *f = &out->own;
    struct pq_figures *v = &out->own_figures;
    text p = r->s;

    switch (letters(p[0], p[1], p[2], p[3])) {
    case TYPE('F', 'P', 'L'): out->kind = PQ_FPL; break;
    case TYPE('C', 'P', 'L'): out->kind = PQ_CPL; break;
    case TYPE('E', 'S', 'T'): out->kind = PQ_EST; break;
    case TYPE('C', 'H', 'G'): out->kind = PQ_CHG; break;
    case TYPE('C', 'N', 'L'): out->kind = PQ_CNL; break;
    case TYPE('R', 'T', 'I'): out->kind = PQ_RTI; break;
    case TYPE('R', 'T', 'A'): out->kind = PQ_RTA; break;
    case TYPE('R', 'L', 'A'): out->kind = PQ_RLA; break;
    case TYPE('L', 'A', 'M'): out->kind = PQ_LAM; break;
    case TYPE('L', 'R', 'M'): out->kind = PQ_LRM; break;
    default: return refuse_type(r);
    }
    if (!(p = number(r, p + 4, &out->number, &out->message_number))) return NULL;
    if (out->kind > PQ_CPL && !(p = number(r, p, &out->reference, &out->reference_number))) return NULL;

    switch (out->kind) {
    case PQ_FPL:
    case PQ_CPL:
        AFTER_HYPHEN(field07(r, p, f));
        AFTER_HYPHEN(field08(r, p, f));
        AFTER_HYPHEN(field09(r, p, f, v));
        AFTER_HYPHEN(field10(r, p, f));
        if (out->kind == PQ_FPL) {
            AFTER_HYPHEN(field13(r, p, f));
            AFTER_HYPHEN(field15(r, p, f, v));
            AFTER_HYPHEN(field16(r, p, f));
        } else {
            AFTER_HYPHEN(field13s(r, p, f));
            AFTER_HYPHEN(field14(r, p));
            AFTER_HYPHEN(field15(r, p, f, v));
            AFTER_HYPHEN(field16s(r, p, f));
        }
        AFTER_HYPHEN(field18(r, p, f));
        return p;
    case PQ_EST:
        AFTER_HYPHEN(field07(r, p, f));
        AFTER_HYPHEN(field13s(r, p, f));
        AFTER_HYPHEN(field14(r, p));
        AFTER_HYPHEN(field16s(r, p, f));
        return p;
    case PQ_CHG:
        return change(r, p);
    case PQ_CNL:
        AFTER_HYPHEN(field07a(r, p, f));
        AFTER_HYPHEN(field13o(r, p, f));
        AFTER_HYPHEN(field16s(r, p, f));
        AFTER_HYPHEN(field18(r, p, f));
        return p;
    case PQ_RTI:
        AFTER_HYPHEN(field07(r, p, f));
        AFTER_HYPHEN(field13s(r, p, f));
        AFTER_HYPHEN(field16s(r, p, f));
        AFTER_HYPHEN(words(r, p, 20, &out->field31));
        AFTER_HYPHEN(words(r, p, 60, &out->field32));
        return p;
    case PQ_RTA:
        AFTER_HYPHEN(field07a(r, p, f));
        AFTER_HYPHEN(field13s(r, p, f));
        AFTER_HYPHEN(field16s(r, p, f));
        AFTER_HYPHEN(words(r, p, 20, &out->field31));
        return p;
    case PQ_RLA:
        AFTER_HYPHEN(words(r, p, 20, &out->field31));
        return p;
    case PQ_LAM:
        return p;
    default:                                    /* LRM */
        if (!shape8(r, p, "-RMK/00)", "-RMK/99)"))
            return refuse_shape(r, p, "-RMK/00)", "-RMK/99)");
        out->lrm = span(r, p + 5, p + 7);
        out->lrm_code = (uint16_t)two(p + 5);
        return p + 7;
    }
}

/* Whether the text is a message.  If not, its place. */
static inline int whole(struct reading *r, text s, size_t n, struct pq_record *out)
{
    text p;
    clear(out);
    r->s = s;
    r->end = s + n;
    r->last4 = r->end - 4;
    r->last8 = r->end - 8;
    r->out = out;
    if (!(p = message(r))) return 0;
    if (*p == ')' && ++p == r->end) return 1;
    r->place = p;
    return 0;
}

/* A text that cannot be a message, for its length or its end: only the place is wanted.  It is the
   same in a copy of its first LONGEST + 1 bytes. */
static size_t place_of(text s, size_t n, struct pq_record *out)
{
    unsigned char copy[LONGEST + 1 + SHORTEST];
    struct reading r;
    if (n > LONGEST + 1) n = LONGEST + 1;
    if (n > 0) memcpy(copy, s, n);
    memset(copy + n, 0, SHORTEST);
    whole(&r, copy, n < SHORTEST ? SHORTEST : n, out);
    return (size_t)(r.place - copy);
}

/* The number of '-' in n bytes that all are below 128. */
static size_t hyphens_in(text s, size_t n)
{
    const uint64_t ones = 0x0101010101010101u;
    size_t count = 0;
    for (; n >= 8; n -= 8, s += 8) {
        uint64_t other = ((load8(s) ^ ones * '-') + ones * 127) >> 7 & ones;    /* 1 for a byte that is none */
        count += 8 - (other * ones >> 56);
    }
    for (; n > 0; n--, s++)
        count += *s == '-';
    return count;
}

static int refused(text s, size_t at, struct pq_record *out, size_t *place, size_t *hyphens)
{
    clear(out);
    *place = at;
    *hyphens = hyphens_in(s, at);
    return 1;
}

int pq_read(const unsigned char *s, size_t n, struct pq_record *out, size_t *place, size_t *hyphens)
{
    struct reading r;
    if (n < SHORTEST || n > LONGEST || s[n - 1] != ')')
        return refused(s, place_of(s, n, out), out, place, hyphens);
    if (!whole(&r, s, n, out))
        return refused(s, (size_t)(r.place - s), out, place, hyphens);
    return 0;
}
