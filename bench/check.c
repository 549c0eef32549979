/* Compares pq_read with given answers.

       check vectors FILE             lines "EXPECTED<TAB>TEXT", EXPECTED a type or "PLACE HYPHENS"
       check answers TEXTS ANSWERS    lines of texts; lines "read TYPE" or "refused PLACE HYPHENS"
       check dump TEXTS               prints what is read, for comparison with record.py

   Each text is read twice, once ending right before a page that cannot be read and once beginning
   right after one, from memory that cannot be written; the two results must be equal to the byte.
   The record is given full of rubbish and stands between guards.  Of a text that is read, every
   part is put back into a text by the rules of document 01, which must be the text. */
#define _DEFAULT_SOURCE
#include "reader.h"

#include <stdio.h>
#include <stdlib.h>
#include <string.h>
#include <sys/mman.h>
#include <unistd.h>

static const char *const types[11] = {
    "none", "FPL", "CPL", "EST", "CHG", "CNL", "RTI", "RTA", "RLA", "LAM", "LRM"
};

static unsigned char *area;             /* forbidden page, room, forbidden page */
static size_t page, room;

static void make_area(size_t longest)
{
    page = (size_t)sysconf(_SC_PAGESIZE);
    room = (longest + page) / page * page;
    area = mmap(NULL, room + 2 * page, PROT_READ | PROT_WRITE, MAP_PRIVATE | MAP_ANONYMOUS, -1, 0);
    if (area == MAP_FAILED) { perror("mmap"); exit(2); }
    if (mprotect(area, page, PROT_NONE) || mprotect(area + page + room, page, PROT_NONE)) {
        perror("mprotect"); exit(2);
    }
}

struct answer {
    unsigned char before[64];
    struct pq_record record;
    unsigned char after[64];
    size_t place, hyphens;
    int result;
};

static void ask(const unsigned char *s, size_t n, struct answer *a, int rubbish)
{
    size_t i;
    memset(a, rubbish, sizeof *a);
    a->result = pq_read(s, n, &a->record, &a->place, &a->hyphens);
    for (i = 0; i < 64; i++)
        if (a->before[i] != rubbish || a->after[i] != rubbish) { puts("wrote outside the record"); exit(1); }
}

/* Padding within the record is the C compiler's; there must be none for memcmp to mean anything. */
static void no_padding(void)
{
    if (sizeof(struct pq_record) != 4 + 54 * 4 + 14 * 2) { puts("padding in the record"); exit(2); }
}

/* ------------------------------------------------ the text again from the parts */

static char again[4096];
static size_t again_n;
static const unsigned char *source;
static int odd;                         /* a part not as it must be */

static void lit(const char *t) { memcpy(again + again_n, t, strlen(t)); again_n += strlen(t); }

static void part(struct pq_span v, size_t low, size_t high)
{
    if (v.len < low || v.len > high || (v.len == 0 && v.at != 0)) odd = 1;
    if (again_n != v.at && v.len) odd = 1;
    memcpy(again + again_n, source + v.at, v.len);
    again_n += v.len;
}

static int all(struct pq_span v, const char *set)
{
    size_t i;
    for (i = 0; i < v.len; i++)
        if (!source[v.at + i] || !strchr(set, source[v.at + i])) return 0;
    return 1;
}
#define DIGITS "0123456789"
#define LETTERS "ABCDEFGHIJKLMNOPQRSTUVWXYZ"
static void must(int holds) { if (!holds) odd = 1; }

static unsigned value(struct pq_span v)
{
    unsigned x = 0, i;
    for (i = 0; i < v.len; i++)
        if (source[v.at + i] >= '0' && source[v.at + i] <= '9') x = x * 10 + source[v.at + i] - '0';
    return x;
}

static void level_is(struct pq_span v, struct pq_level l)
{
    static const char kinds[] = "FASMV";
    if (v.len == 0) { must(l.kind == 0 && l.figure == 0); return; }
    must(l.kind >= 1 && l.kind <= 5 && source[v.at] == (unsigned char)kinds[l.kind - 1]);
    must(l.figure == value(v));
    must(v.len == (l.kind == 5 ? 3 : l.kind <= 2 ? 4 : 5));
}

static void number_again(const struct pq_number *x, unsigned v)
{
    part(x->sender, 4, 4); lit("/"); part(x->receiver, 4, 4); part(x->digits, 3, 3);
    must(all(x->digits, DIGITS) && v == value(x->digits));
}

static void f07(const struct pq_fields *f)
{
    part(f->aircraft, 2, 7);
    if (f->code.len) { lit("/A"); part(f->code, 4, 4); must(all(f->code, "01234567")); }
}
static void f08(const struct pq_fields *f) { part(f->rules, 1, 1); part(f->flight, 0, 1); }
static void f09(const struct pq_fields *f, const struct pq_figures *v)
{
    part(f->count, 0, 2); must(all(f->count, DIGITS) && value(f->count) == v->count);
    part(f->model, 2, 4); must(strchr(LETTERS, source[f->model.at]) != NULL);
    lit("/"); part(f->wake, 1, 1);
}
static void f10(const struct pq_fields *f)
{
    part(f->equipment, 1, 40); lit("/"); part(f->surveillance, 1, 20);
    must(all(f->equipment, LETTERS DIGITS) && all(f->surveillance, LETTERS DIGITS));
}
static void f13(const struct pq_fields *f, size_t low, size_t high)
{
    part(f->departure, 4, 4); part(f->time, low, high); must(f->time.len == 0 || f->time.len == 4);
    must(all(f->departure, LETTERS) && all(f->time, DIGITS));
}
static void f15(const struct pq_fields *f, const struct pq_figures *v)
{
    part(f->speed, 4, 5); must(f->speed.len == (source[f->speed.at] == 'M' ? 4 : 5));
    part(f->level, 3, 5); level_is(f->level, v->level);
    lit(" "); part(f->route, 1, 300);
}
static void f16(const struct pq_fields *f, int plain)
{
    part(f->destination, 4, 4); must(all(f->destination, LETTERS));
    part(f->elapsed, 0, 4); must(all(f->elapsed, DIGITS));
    if (f->alternate.len) { lit(" "); part(f->alternate, 4, 4); }
    if (f->alternate2.len) { must(f->alternate.len); lit(" "); part(f->alternate2, 4, 4); }
    if (plain) must(!f->elapsed.len && !f->alternate.len && !f->alternate2.len);
}
static void f18(const struct pq_fields *f)
{
    part(f->indicator, 1, 4);
    if (f->indicator.len == 1) { must(source[f->indicator.at] == '0' && !f->other.len); return; }
    must(all(f->indicator, LETTERS) && f->indicator.len >= 3);
    lit("/"); part(f->other, 1, 296);
}
static void f14(const struct pq_record *x)
{
    static const char *const first[5] = { "", LETTERS DIGITS, LETTERS DIGITS, "0123456789NSEW", "0123456789NSEW" };
    size_t n = x->field14.point.len;
    unsigned char last = source[x->field14.point.at + n - 1];
    part(x->field14.point, 2, 11);
    must(all(x->field14.point, first[x->point_form]));
    must(x->point_form == (n <= 5 ? 1u : last <= '9' ? 2u : n == 7 ? 3u : 4u));
    lit("/"); part(x->field14.over, 4, 4);
    part(x->field14.crossing, 4, 5); level_is(x->field14.crossing, x->crossing_level);
    part(x->field14.second, 0, 5); level_is(x->field14.second, x->second_level);
    part(x->field14.sense, 0, 1); must(!x->field14.sense.len == !x->field14.second.len);
}

/* Whether the record is that of the text, as far as its bytes can show it: every part present is
   counted once, in order. */
static int right_record(const unsigned char *s, size_t n, const struct pq_record *x)
{
    const struct pq_fields *o = &x->own, *c = &x->changed;
    static const struct pq_fields none;
    static const struct pq_crossing none14;
    static const struct pq_figures nil;
    struct pq_fields only;
    source = s; again_n = 0; odd = 0;
    if (x->kind < 1 || x->kind > 10) return 0;
    lit("("); lit(types[x->kind]);
    number_again(&x->number, x->message_number);
    if (x->kind > 2) number_again(&x->reference, x->reference_number);
    else must(!x->reference.sender.len && !x->reference.receiver.len && !x->reference.digits.len && !x->reference_number);
    memset(&only, 0, sizeof only);              /* the own fields that this type has */
    if (x->kind <= 7) { lit("-"); f07(o); only.aircraft = o->aircraft; if (x->kind <= 3 || x->kind == 6) only.code = o->code; }
    if (x->kind <= 2) {
        lit("-"); f08(o); lit("-"); f09(o, &x->own_figures); lit("-"); f10(o);
        only.rules = o->rules; only.flight = o->flight; only.count = o->count; only.model = o->model;
        only.wake = o->wake; only.equipment = o->equipment; only.surveillance = o->surveillance;
    }
    if (x->kind <= 7) {
        lit("-"); f13(o, x->kind == 1 ? 4 : 0, x->kind == 1 || x->kind == 4 || x->kind == 5 ? 4 : 0);
        only.departure = o->departure; only.time = o->time;
    }
    if (x->kind == 2 || x->kind == 3) { lit("-"); f14(x); }
    else must(!memcmp(&x->field14, &none14, sizeof none14) && !x->point_form && !x->crossing_level.kind
              && !x->crossing_level.figure && !x->second_level.kind && !x->second_level.figure);
    if (x->kind <= 2) { lit("-"); f15(o, &x->own_figures); only.speed = o->speed; only.level = o->level; only.route = o->route; }
    else must(!memcmp(&x->own_figures, &nil, sizeof nil));
    if (x->kind <= 7) {
        lit("-"); f16(o, x->kind != 1);
        only.destination = o->destination; only.elapsed = o->elapsed;
        only.alternate = o->alternate; only.alternate2 = o->alternate2;
    }
    if (x->kind <= 2 || x->kind == 5 || (x->kind == 4 && o->indicator.len)) {
        lit("-"); f18(o); only.indicator = o->indicator; only.other = o->other;
    }
    must(!memcmp(&only, o, sizeof only));
    if (x->kind == 4) {
        must(memcmp(c, &none, sizeof none));
        if (c->aircraft.len) { lit("-07/"); f07(c); }
        if (c->rules.len) { lit("-08/"); f08(c); } else must(!c->flight.len);
        if (c->model.len) { lit("-09/"); f09(c, &x->changed_figures); } else must(!c->count.len && !c->wake.len && !x->changed_figures.count);
        if (c->equipment.len) { lit("-10/"); f10(c); } else must(!c->surveillance.len);
        if (c->departure.len) { lit("-13/"); f13(c, 4, 4); } else must(!c->time.len);
        if (c->speed.len) { lit("-15/"); f15(c, &x->changed_figures); }
        else must(!c->level.len && !c->route.len && !x->changed_figures.level.kind && !x->changed_figures.level.figure);
        if (c->destination.len) { lit("-16/"); f16(c, 0); } else must(!c->elapsed.len && !c->alternate.len && !c->alternate2.len);
        if (c->indicator.len) { lit("-18/"); f18(c); } else must(!c->other.len);
    } else must(!memcmp(c, &none, sizeof none) && !memcmp(&x->changed_figures, &nil, sizeof nil));
    if (x->kind >= 6 && x->kind <= 8) { lit("-"); part(x->field31, 1, 20); } else part(x->field31, 0, 0);
    if (x->kind == 6) { lit("-"); part(x->field32, 1, 60); } else part(x->field32, 0, 0);
    if (x->kind == 10) { lit("-RMK/"); part(x->lrm, 2, 2); must(x->lrm_code == value(x->lrm)); }
    else { part(x->lrm, 0, 0); must(!x->lrm_code); }
    lit(")");
    return !odd && again_n == n && !memcmp(again, s, n);
}

/* ------------------------------------------------ one text */

static unsigned long texts, read_texts, wrong;

static int same(const struct answer *a, const struct answer *b)
{
    return a->result == b->result && !memcmp(&a->record, &b->record, sizeof a->record)
        && (a->result == 0 || (a->place == b->place && a->hyphens == b->hyphens));
}

static void try(const unsigned char *t, size_t n, struct answer *a)
{
    struct answer b;
    static const struct pq_record zero;
    unsigned char *end = area + page + room - n, *start = area + page;
    memcpy(end, t, n);
    mprotect(area + page, room, PROT_READ);
    ask(end, n, a, 0xA5);
    mprotect(area + page, room, PROT_READ | PROT_WRITE);
    memcpy(start, t, n);
    memset(start + n, ')', room - n < 40 ? room - n : 40);      /* more of what a message has */
    mprotect(area + page, room, PROT_READ);
    ask(start, n, &b, 0x5A);
    mprotect(area + page, room, PROT_READ | PROT_WRITE);
    if (!same(a, &b)) { printf("text %lu: two answers\n", texts + 1); wrong++; }
    if (a->result == 1 && memcmp(&a->record, &zero, sizeof zero)) { printf("text %lu: record of a refusal\n", texts + 1); wrong++; }
    if (a->result == 0 && !right_record(t, n, &a->record)) { printf("text %lu: record: %.*s\n", texts + 1, (int)n, t); wrong++; }
    texts++;
    read_texts += a->result == 0;
}

static void compare(const struct answer *a, const char *want, const unsigned char *t, size_t n)
{
    char got[64];
    if (a->result == 0) snprintf(got, sizeof got, "%s", types[a->record.kind <= 10 ? a->record.kind : 0]);
    else snprintf(got, sizeof got, "%zu %zu", a->place, a->hyphens);
    if (strcmp(got, want)) {
        if (wrong++ < 20) printf("text %lu: %s, wanted %s: %.*s\n", texts, got, want, (int)(n > 400 ? 400 : n), t);
    }
}

/* ------------------------------------------------ files */

static unsigned char *load(const char *name, size_t *n)
{
    FILE *f = fopen(name, "rb");
    unsigned char *b;
    long size;
    if (!f) { perror(name); exit(2); }
    fseek(f, 0, SEEK_END); size = ftell(f); rewind(f);
    b = malloc((size_t)size + 1);
    *n = fread(b, 1, (size_t)size, f);
    fclose(f);
    return b;
}

static unsigned char *line(unsigned char **p, unsigned char *end, size_t *n)
{
    unsigned char *at = *p, *q;
    if (at == end) return NULL;
    q = memchr(at, 10, (size_t)(end - at));
    if (!q) q = end;
    *n = (size_t)(q - at);
    *p = q < end ? q + 1 : end;
    return at;
}

static void dump(const struct answer *a)
{
    const uint16_t *x = (const uint16_t *)(const void *)((const unsigned char *)&a->record + 4);
    size_t i;
    if (a->result) { printf("refused %zu %zu\n", a->place, a->hyphens); return; }
    printf("%s", types[a->record.kind]);
    for (i = 0; i < 54; i++) printf(" %u:%u", x[2 * i], x[2 * i + 1]);
    for (i = 108; i < 122; i++) printf(" %u", x[i]);
    printf("\n");
}

int main(int argc, char **argv)
{
    size_t size, size2 = 0, n, m, longest = 0;
    unsigned char *t, *end, *l, *b = NULL, *end2 = NULL, *w, *texts_file, *answers_file = NULL;
    struct answer a;
    char want[64];
    no_padding();
    if (argc < 3) return 2;
    t = texts_file = load(argv[2], &size);
    end = t + size;
    if (!strcmp(argv[1], "answers")) {
        if (argc < 4) return 2;
        b = answers_file = load(argv[3], &size2);
        end2 = b + size2;
    }
    while ((l = line(&t, end, &n))) if (n > longest) longest = n;
    t = texts_file;
    make_area(longest);
    while ((l = line(&t, end, &n))) {
        if (!strcmp(argv[1], "vectors")) {
            unsigned char *tab = memchr(l, 9, n);
            memcpy(want, l, (size_t)(tab - l)); want[tab - l] = 0;
            n -= (size_t)(tab + 1 - l); l = tab + 1;
            try(l, n, &a);
            compare(&a, want, l, n);
        } else if (!strcmp(argv[1], "answers")) {
            w = line(&b, end2, &m);
            if (!w) { puts("too few answers"); return 2; }
            memcpy(want, w, m); want[m] = 0;
            try(l, n, &a);
            compare(&a, strchr(want, ' ') + 1, l, n);
        } else {
            try(l, n, &a);
            dump(&a);
        }
    }
    if (b && line(&b, end2, &m)) { puts("too many answers"); return 2; }
    free(texts_file);
    free(answers_file);
    if (strcmp(argv[1], "dump")) printf("texts %lu read %lu refused %lu wrong %lu\n", texts, read_texts, texts - read_texts, wrong);
    return wrong != 0;
}
