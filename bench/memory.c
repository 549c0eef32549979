#include "memory.h"
#include "reader.c"

/* How it works.

   The fields of a record are read from left to right; behind each text only blanks may follow up to the next field.  The
   zeros from byte 741 on are tested first.  Nothing that reads a field goes past a zero, so all of them stay within the
   record even where a text runs on into the next field; what is past its field is cut off or refused.  Keys are compared by
   way of a small table of places, numbers by one bit each. */

enum { HIGHEST = 999 };

static inline unsigned number16(text p) { return (unsigned)p[0] << 8 | p[1]; }

/* ---------------------------------------------------------------- bytes all the same */

/* Whether the n bytes at p are those of x, which has eight times the same. */
static inline int all(text p, size_t n, uint64_t x)
{
    uint64_t other = 0;
    if (n < 8) {
        for (; n > 0; n--)
            other |= *p++ ^ (x & 255);
        return other == 0;
    }
    for (; n >= 32; n -= 32, p += 32)
        if (((load8(p) ^ x) | (load8(p + 8) ^ x) | (load8(p + 16) ^ x) | (load8(p + 24) ^ x)) != 0) return 0;
    for (; n >= 8; n -= 8, p += 8)
        other |= load8(p) ^ x;
    if (n > 0) other |= load8(p + n - 8) ^ x;            /* some of the eight are seen again */
    return other == 0;
}

static inline int zero(text p, size_t n) { return all(p, n, 0); }

/* Whether a text that ends at p is padded up to the end of its field. */
static inline int padded(text p, text end)
{
    return p <= end && all(p, (size_t)(end - p), 0x2020202020202020u);
}

static inline int blank4(text p) { return load4(p) == 0x20202020u; }
static inline int four_letters(text p) { return within4(p, "AAAA", "ZZZZ"); }
static inline int is_time(text p) { return within4(p, "0000", "2959") && !too_late(p); }

/* ---------------------------------------------------------------- the texts of a flight */

static inline int aircraft_sound(text p)
{
    text end = p + 7, q = p;
    while (q < end && IS(*q, ALNUM)) q++;                /* the code may follow with no blank between */
    return q - p >= 2 && padded(q, end);
}

static inline int field10_sound(text p)
{
    text end = p + 61, q = past(p, ALNUM), s;
    if (q == p || q - p > 40 || *q != '/') return 0;
    s = past(q + 1, ALNUM);
    if (s > end) s = end;                               /* field 14 may, too */
    return s > q + 1 && s - q <= 21 && padded(s, end);
}

/* What follows the destination: 14 bytes. */
static inline int rest16_sound(text p)
{
    text end = p + 14;
    int alternates;
    if (IS(*p, DIGIT)) {
        if (!within4(p, "0000", "9959")) return 0;
        p += 4;
    }
    for (alternates = 0; alternates < 2 && p[0] == ' ' && p[1] != ' ' && end - p >= 5; alternates++, p += 5)
        if (!four_letters(p + 1)) return 0;
    return padded(p, end);
}

/* Words and nothing but blanks behind them, in a field that is not at its end. */
static inline int words_sound(struct reading *r, text p, text end)
{
    text q;
    if (!IS(*p, RUN)) return 0;
    r->end = end;
    q = words_end(r, p);
    return q >= end || padded(q, end);
}

static inline int field15_sound(struct reading *r, text p)
{
    text end = p + 300, q;
    switch (*p) {
    case 'K': case 'N':
        if (!within4(p + 1, "0000", "9999")) return 0;
        q = p + 5;
        break;
    case 'M':
        if (!within4(p, "M000", "M999")) return 0;
        q = p + 4;
        break;
    default:
        return 0;
    }
    switch (*q) {
    case 'F': case 'A':
        if (!within4(q, "A000", "F999")) return 0;
        q += 4;
        break;
    case 'S': case 'M':
        if (!within4(q + 1, "0000", "9999")) return 0;
        q += 5;
        break;
    case 'V':
        if (q[1] != 'F' || q[2] != 'R') return 0;
        q += 3;
        break;
    default:
        return 0;
    }
    return *q == ' ' && words_sound(r, q + 1, end);
}

static inline int field18_sound(struct reading *r, text p)
{
    text end = p + 300;
    if (*p == '0') return padded(p + 1, end);
    if (within4(p, "AAA/", "ZZZ/")) return words_sound(r, p + 4, end);
    return four_letters(p) && p[4] == '/' && words_sound(r, p + 5, end);
}

/* ---------------------------------------------------------------- flights */

static int flight_sound(struct reading *r, text b)
{
    struct pq_fields *f = &r->out->own;
    text p;
    if (number16(b + 2) > HIGHEST || !zero(b + 741, PQ_FLIGHT - 741)) return 0;
    r->s = b;
    r->last4 = b + PQ_FLIGHT - 4;
    r->last8 = b + PQ_FLIGHT - 8;
    if (b[0] == 1) {
        if (b[1] != 0 || number16(b + 4) != 0 || !is_time(b + 21) || !padded(b + 100, b + 127)) return 0;
    } else if (b[0] == 2) {
        if (b[1] > 2 || number16(b + 4) > HIGHEST || !(blank4(b + 21) || is_time(b + 21))) return 0;
        if (!(p = field14(r, b + 100)) || !padded(p, b + 127)) return 0;
    } else
        return 0;
    if (!aircraft_sound(b + 6) || !(blank4(b + 13) || within4(b + 13, "0000", "7777"))) return 0;
    if (!four_letters(b + 17) || !four_letters(b + 25)) return 0;
    if (!IS(b[29], RULES) || !(b[30] == ' ' || IS(b[30], FLIGHT))) return 0;
    if (!(p = field09(r, b + 31, f, &r->out->own_figures)) || !padded(p, b + 39)) return 0;
    return field10_sound(b + 39) && rest16_sound(b + 127) && field15_sound(r, b + 141)
        && field18_sound(r, b + 441);
}

/* 15 bytes: the aircraft, then departure and destination. */
struct key { uint64_t aircraft, places; };

static inline struct key key_of(text b)
{
    struct key k;
    k.aircraft = load8(b + 6);
    ((unsigned char *)&k.aircraft)[7] = 0;               /* the eighth is of the code */
    k.places = (uint64_t)load4(b + 17) << 32 | load4(b + 25);
    return k;
}

int pq_flights(text t, size_t n)
{
    enum { SLOTS = 64 };                                /* twice as many as there are places */
    unsigned char slot[SLOTS];                          /* 0, or one more than a place */
    struct key keys[PQ_FLIGHTS];
    struct pq_record scratch;
    struct reading r;
    size_t places = n / PQ_FLIGHT, i;
    if (places < 1 || places > PQ_FLIGHTS || n % PQ_FLIGHT != 0) return 0;
    memset(slot, 0, sizeof slot);
    r.out = &scratch;
    for (i = 0; i < places; i++, t += PQ_FLIGHT) {
        unsigned at;
        struct key k;
        if (t[0] == 0) {
            if (!zero(t, PQ_FLIGHT)) return 0;
            continue;
        }
        if (!flight_sound(&r, t)) return 0;
        k = key_of(t);
        at = (unsigned)((k.aircraft * 0x9e3779b97f4a7c15u + k.places) * 0xbf58476d1ce4e5b9u >> 58);
        for (; slot[at] != 0; at = (at + 1) % SLOTS)
            if (keys[slot[at] - 1].aircraft == k.aircraft && keys[slot[at] - 1].places == k.places) return 0;
        keys[i] = k;
        slot[at] = (unsigned char)(i + 1);
    }
    return 1;
}

/* ---------------------------------------------------------------- unanswered messages, answers, the head */

int pq_waiting(text t, size_t n, text head)
{
    uint64_t seen[(HIGHEST + 64) / 64] = { 0 };
    struct pq_record record;
    size_t i, place, hyphens;
    if (n != (size_t)PQ_WAITING * PQ_WAITINGS) return 0;
    for (i = 0; i < PQ_WAITINGS; i++, t += PQ_WAITING) {
        unsigned number = number16(t + 1), length = number16(t + 3);
        if (t[0] == 0) {
            if (!zero(t, PQ_WAITING)) return 0;
            continue;
        }
        if (t[0] != 1 || number > HIGHEST || length > LONGEST) return 0;
        if (seen[number / 64] >> number % 64 & 1) return 0;
        seen[number / 64] |= (uint64_t)1 << number % 64;
        if (!zero(t + 5 + length, PQ_WAITING - 5 - length)) return 0;
        if (pq_read(t + 5, length, &record, &place, &hyphens) != 0) return 0;
        if (record.kind >= PQ_RLA || record.message_number != number) return 0;
        /* "(FPLAAAA/BBBB123" */
        if (load4(t + 9) != load4(head) || load4(t + 14) != load4(head + 4)) return 0;
    }
    return 1;
}

/* Eight bytes at once.  Below 128 nothing carries from one byte to the next: the top bits say 3 or more, not 57, not 62. */
int pq_answers(text a, size_t n)
{
    const uint64_t ones = 0x0101010101010101u, top = ones * 128;
    uint64_t bad = 0;
    size_t i;
    if (n != PQ_ANSWERS) return 0;
    for (i = 0; i < PQ_ANSWERS; i += 8) {
        uint64_t x = load8(a + i);
        bad |= ((x + ones * 125) & ((x ^ ones * 57) + ones * 127) & ((x ^ ones * 62) + ones * 127)) | x;
    }
    return (bad & top) == 0;
}

static int head_sound(text h, size_t n)
{
    return n == PQ_HEAD && four_letters(h) && four_letters(h + 4) && load4(h) != load4(h + 4)
        && number16(h + 8) <= HIGHEST && number16(h + 10) <= HIGHEST;
}

int pq_memory(const unsigned char *head, size_t head_size, const unsigned char *sent, size_t sent_size,
              const unsigned char *received, size_t received_size, const unsigned char *waiting, size_t waiting_size,
              const unsigned char *answers, size_t answers_size)
{
    return head_sound(head, head_size) && pq_flights(sent, sent_size) && pq_flights(received, received_size)
        && pq_waiting(waiting, waiting_size, head) && pq_answers(answers, answers_size);
}
