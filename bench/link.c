#include "link.h"

#include <string.h>

#include "memory.h"
#include "reader.h"

/* How it works.

   Writing lays the parts of a record out, reads that and compares: a text is given exactly where one reads back as the record.
   Receiving and sending first find out all that would happen, then whether there is room, and only then write anything.  One
   message changes at most one flight, so what would happen to it is made in a copy of that flight. */

enum { THOUSAND = 1000, NAME = 4, NUMBER = 12 };

/* Where things stand in the head, in a flight and in an unanswered message. */
enum { OURS = 0, PARTNERS = 4, NEXT = 8, HIGHEST = 10 };
enum {
    STATUS = 0, HANDOFF = 1, FIRST = 2, OFFER = 4, AIRCRAFT = 6, CODE = 13, DEPARTURE = 17, TIME = 21, DESTINATION = 25,
    FIELD08 = 29, FIELD09 = 31, FIELD10 = 39, FIELD14 = 100, REST16 = 127, FIELD15 = 141, FIELD18 = 441, FLIGHT_TEXTS_END = 741
};
enum { IN_USE = 0, WAITING_NUMBER = 1, WAITING_LENGTH = 3, WAITING_TEXT = 5 };

enum { FREE = 0, FILED = 1, ACTIVE = 2 };
enum { NOT_OFFERED = 0, OFFERED = 1, ACCEPTED = 2 };

/* The answers that are kept. */
enum { NO_ANSWER = 0, LAM = 1, RLA = 2, LRM_57 = 57, LRM_62 = 62 };

static unsigned get16(const uint8_t *p) { return (unsigned)p[0] << 8 | p[1]; }

static void put16(uint8_t *p, unsigned x)
{
    p[0] = (uint8_t)(x >> 8);
    p[1] = (uint8_t)x;
}

static void copy(uint8_t *to, const uint8_t *from, size_t n)
{
    if (n > 0) memcpy(to, from, n);             /* memcpy takes no null pointer, for no bytes either */
}

static int same(const uint8_t *a, const uint8_t *b, size_t n) { return n == 0 || memcmp(a, b, n) == 0; }

/* ---------------------------------------------------------------- records as bytes */

enum { PARTS = 54, FIGURES = 14, FIRST_FIGURE = 1 + 2 * PARTS, OWN_NUMBER_PARTS = 3 };

/* Behind its kind the struct is nothing but numbers of 16 bits, in the order of the bytes. */
typedef char no_padding[sizeof(struct pq_record) == offsetof(struct pq_record, number) + 2 * (REF_NUMBERS - 1) ? 1 : -1];
typedef char all_counted[REF_NUMBERS == FIRST_FIGURE + FIGURES ? 1 : -1];

static unsigned number_at(const struct pq_record *r, size_t index)
{
    uint16_t x;
    if (index == 0) return r->kind;
    memcpy(&x, (const char *)r + offsetof(struct pq_record, number) + 2 * (index - 1), 2);
    return x;
}

static struct pq_span part_at(const struct pq_record *r, size_t part)
{
    struct pq_span s;
    s.at = (uint16_t)number_at(r, 1 + 2 * part);
    s.len = (uint16_t)number_at(r, 2 + 2 * part);
    return s;
}

static void record_to_bytes(const struct pq_record *r, uint8_t *bytes)
{
    size_t i;
    for (i = 0; i < REF_NUMBERS; i++) put16(bytes + 2 * i, number_at(r, i));
}

static void record_from_bytes(struct pq_record *r, const uint8_t *bytes)
{
    size_t i;
    r->kind = get16(bytes);
    for (i = 1; i < REF_NUMBERS; i++) {
        uint16_t x = (uint16_t)get16(bytes + 2 * i);
        memcpy((char *)r + offsetof(struct pq_record, number) + 2 * (i - 1), &x, 2);
    }
}

int ref_read(const uint8_t *text, size_t text_len, uint8_t *record, size_t record_len, uint64_t *place, uint64_t *hyphens)
{
    struct pq_record r;
    size_t p = 0, h = 0;
    int number;
    *place = *hyphens = 0;
    if (record_len != REF_RECORD) return REF_MEMORY;
    number = pq_read(text, text_len, &r, &p, &h);
    if (number != 0) {
        *place = p;
        *hyphens = h;
        return REF_NOT_READ;
    }
    record_to_bytes(&r, record);
    return REF_DONE;
}

/* ---------------------------------------------------------------- laying a text out */

/* What is to be written: a record, and the bytes that its parts are parts of. */
struct content {
    const uint8_t *bytes;
    size_t size;
    struct pq_record r;
};

/* A text in the making. */
struct draft {
    uint8_t text[REF_LONGEST];
    size_t length;
    int impossible;                             /* a part lies outside the bytes, or all is too long for any message */
};

static int lies_within(const struct content *c, struct pq_span part)
{
    return part.len == 0 || (size_t)part.at + part.len <= c->size;
}

static void lay_bytes(struct draft *d, const uint8_t *bytes, size_t n)
{
    if (n > REF_LONGEST - d->length) {
        d->impossible = 1;
        return;
    }
    copy(d->text + d->length, bytes, n);
    d->length += n;
}

static void lay(struct draft *d, const char *literal) { lay_bytes(d, (const uint8_t *)literal, strlen(literal)); }

static void lay_part(struct draft *d, const struct content *c, struct pq_span part)
{
    if (!lies_within(c, part))
        d->impossible = 1;
    else if (part.len > 0)
        lay_bytes(d, c->bytes + part.at, part.len);
}

/* A separator and a part, or nothing where the part is absent. */
static void lay_optional(struct draft *d, const struct content *c, const char *separator, struct pq_span part)
{
    if (part.len == 0) return;
    lay(d, separator);
    lay_part(d, c, part);
}

static void lay_number(struct draft *d, const struct content *c, const struct pq_number *n)
{
    lay_part(d, c, n->sender);
    lay(d, "/");
    lay_part(d, c, n->receiver);
    lay_part(d, c, n->digits);
}

static void lay_field07(struct draft *d, const struct content *c, const struct pq_fields *f)
{
    lay_part(d, c, f->aircraft);
    lay_optional(d, c, "/A", f->code);
}

static void lay_field08(struct draft *d, const struct content *c, const struct pq_fields *f)
{
    lay_part(d, c, f->rules);
    lay_part(d, c, f->flight);
}

static void lay_field09(struct draft *d, const struct content *c, const struct pq_fields *f)
{
    lay_part(d, c, f->count);
    lay_part(d, c, f->model);
    lay(d, "/");
    lay_part(d, c, f->wake);
}

static void lay_field10(struct draft *d, const struct content *c, const struct pq_fields *f)
{
    lay_part(d, c, f->equipment);
    lay(d, "/");
    lay_part(d, c, f->surveillance);
}

static void lay_field13(struct draft *d, const struct content *c, const struct pq_fields *f)
{
    lay_part(d, c, f->departure);
    lay_part(d, c, f->time);
}

static void lay_field14(struct draft *d, const struct content *c)
{
    const struct pq_crossing *f = &c->r.field14;
    lay_part(d, c, f->point);
    lay(d, "/");
    lay_part(d, c, f->over);
    lay_part(d, c, f->crossing);
    lay_part(d, c, f->second);
    lay_part(d, c, f->sense);
}

static void lay_field15(struct draft *d, const struct content *c, const struct pq_fields *f)
{
    lay_part(d, c, f->speed);
    lay_part(d, c, f->level);
    lay(d, " ");
    lay_part(d, c, f->route);
}

static void lay_field16(struct draft *d, const struct content *c, const struct pq_fields *f)
{
    lay_part(d, c, f->destination);
    lay_part(d, c, f->elapsed);
    lay_optional(d, c, " ", f->alternate);
    lay_optional(d, c, " ", f->alternate2);
}

static void lay_field18(struct draft *d, const struct content *c, const struct pq_fields *f)
{
    lay_part(d, c, f->indicator);
    lay_optional(d, c, "/", f->other);
}

typedef void lay_field(struct draft *, const struct content *, const struct pq_fields *);

static void lay_own(struct draft *d, const struct content *c, lay_field *field)
{
    lay(d, "-");
    field(d, c, &c->r.own);
}

static void lay_own14(struct draft *d, const struct content *c)
{
    lay(d, "-");
    lay_field14(d, c);
}

/* The fields by which a flight is named.  Those that a message's type has shorter have no more parts in its record. */
static void lay_key(struct draft *d, const struct content *c)
{
    lay_own(d, c, lay_field07);
    lay_own(d, c, lay_field13);
    lay_own(d, c, lay_field16);
}

static void lay_plan(struct draft *d, const struct content *c)
{
    lay_own(d, c, lay_field07);
    lay_own(d, c, lay_field08);
    lay_own(d, c, lay_field09);
    lay_own(d, c, lay_field10);
    lay_own(d, c, lay_field13);
    if (c->r.kind == PQ_CPL) lay_own14(d, c);
    lay_own(d, c, lay_field15);
    lay_own(d, c, lay_field16);
    lay_own(d, c, lay_field18);
}

/* A field 22, if any part of that field is there. */
static void lay_change(struct draft *d, const struct content *c, const char *number, lay_field *field, unsigned parts)
{
    if (parts == 0) return;
    lay(d, "-");
    lay(d, number);
    lay(d, "/");
    field(d, c, &c->r.changed);
}

static void lay_changes(struct draft *d, const struct content *c)
{
    const struct pq_fields *f = &c->r.changed;
    lay_change(d, c, "07", lay_field07, f->aircraft.len | f->code.len);
    lay_change(d, c, "08", lay_field08, f->rules.len | f->flight.len);
    lay_change(d, c, "09", lay_field09, f->count.len | f->model.len | f->wake.len);
    lay_change(d, c, "10", lay_field10, f->equipment.len | f->surveillance.len);
    lay_change(d, c, "13", lay_field13, f->departure.len | f->time.len);
    lay_change(d, c, "15", lay_field15, f->speed.len | f->level.len | f->route.len);
    lay_change(d, c, "16", lay_field16, f->destination.len | f->elapsed.len | f->alternate.len | f->alternate2.len);
    lay_change(d, c, "18", lay_field18, f->indicator.len | f->other.len);
}

/* All fields of a message, and its end. */
static void lay_fields(struct draft *d, const struct content *c)
{
    const struct pq_record *r = &c->r;
    switch (r->kind) {
    case PQ_FPL: case PQ_CPL:
        lay_plan(d, c);
        break;
    case PQ_EST:
        lay_own(d, c, lay_field07);
        lay_own(d, c, lay_field13);
        lay_own14(d, c);
        lay_own(d, c, lay_field16);
        break;
    case PQ_CHG:
        lay_key(d, c);
        if (r->own.indicator.len | r->own.other.len) lay_own(d, c, lay_field18);
        lay_changes(d, c);
        break;
    case PQ_CNL:
        lay_key(d, c);
        lay_own(d, c, lay_field18);
        break;
    case PQ_RTI:
        lay_key(d, c);
        lay_optional(d, c, "-", r->field31);
        lay_optional(d, c, "-", r->field32);
        break;
    case PQ_RTA:
        lay_key(d, c);
        lay_optional(d, c, "-", r->field31);
        break;
    case PQ_RLA:
        lay_optional(d, c, "-", r->field31);
        break;
    case PQ_LRM:
        lay_optional(d, c, "-RMK/", r->lrm);
        break;
    default:                                    /* LAM has none */
        break;
    }
    lay(d, ")");
}

/* The number is that of the content, or the 12 bytes given. */
static void lay_message(struct draft *d, const struct content *c, const uint8_t *number)
{
    static const char begins[][5] = {
        "", "(FPL", "(CPL", "(EST", "(CHG", "(CNL", "(RTI", "(RTA", "(RLA", "(LAM", "(LRM"
    };
    d->length = 0;
    d->impossible = c->r.kind == PQ_NONE || c->r.kind > PQ_LRM;
    if (d->impossible) return;
    lay(d, begins[c->r.kind]);
    if (number)
        lay_bytes(d, number, NUMBER);
    else
        lay_number(d, c, &c->r.number);
    if (c->r.kind > PQ_CPL) lay_number(d, c, &c->r.reference);
    lay_fields(d, c);
}

/* Whether a read text says what was to be written, its own number aside if that was given. */
static int says(const uint8_t *text, const struct pq_record *read, const struct content *c, int number_given)
{
    size_t i;
    if (read->kind != c->r.kind) return 0;
    for (i = number_given ? OWN_NUMBER_PARTS : 0; i < PARTS; i++) {
        struct pq_span wanted = part_at(&c->r, i), got = part_at(read, i);
        if (wanted.len != got.len || !lies_within(c, wanted)) return 0;
        if (wanted.len > 0 && !same(c->bytes + wanted.at, text + got.at, got.len)) return 0;
    }
    /* The first figure is the message's number. */
    for (i = FIRST_FIGURE + (number_given ? 1 : 0); i < REF_NUMBERS; i++)
        if (number_at(&c->r, i) != number_at(read, i)) return 0;
    return 1;
}

/* Whether there is a text that reads back as the content.  It is then in the draft, and its record in *read. */
static int compose(struct draft *d, struct pq_record *read, const struct content *c, const uint8_t *number)
{
    size_t place, hyphens;
    lay_message(d, c, number);
    if (d->impossible || pq_read(d->text, d->length, read, &place, &hyphens) != 0) return 0;
    return says(d->text, read, c, number != NULL);
}

static void content_of(struct content *c, const uint8_t *bytes, size_t size, const uint8_t *record)
{
    c->bytes = bytes;
    c->size = size;
    record_from_bytes(&c->r, record);
}

/* Hands a text out, or not. */
static int give(const uint8_t *text, size_t n, uint8_t *out, size_t out_len, uint64_t *length)
{
    if (n > out_len) return REF_NO_ROOM;
    copy(out, text, n);
    *length = n;
    return REF_DONE;
}

int ref_write(const uint8_t *bytes, size_t bytes_len, const uint8_t *record, size_t record_len, uint8_t *out, size_t out_len,
              uint64_t *length)
{
    struct content c;
    struct draft d;
    struct pq_record read;
    *length = 0;
    if (record_len != REF_RECORD) return REF_MEMORY;
    content_of(&c, bytes, bytes_len, record);
    if (!compose(&d, &read, &c, NULL)) return REF_CONTENT;
    return give(d.text, d.length, out, out_len, length);
}

/* ---------------------------------------------------------------- messages and what they name */

/* A message that was read: its text, and where its parts are. */
struct message {
    const uint8_t *text;
    struct pq_record r;
};

static const uint8_t *part_of(const struct message *m, struct pq_span part) { return m->text + part.at; }

static int is_answer(const struct message *m) { return m->r.kind >= PQ_RLA; }
static int makes_a_flight(const struct message *m) { return m->r.kind == PQ_FPL || m->r.kind == PQ_CPL; }

/* Whether number or reference begins with these two units. */
static int has_units(const struct message *m, const struct pq_number *n, const uint8_t *sender, const uint8_t *receiver)
{
    return same(part_of(m, n->sender), sender, NAME) && same(part_of(m, n->receiver), receiver, NAME);
}

/* Whether the reference is to a message of this one's sender, or to one of its receiver. */
static int refers_to_own(const struct message *m)
{
    return has_units(m, &m->r.reference, part_of(m, m->r.number.sender), part_of(m, m->r.number.receiver));
}

static int refers_to_others(const struct message *m)
{
    return has_units(m, &m->r.reference, part_of(m, m->r.number.receiver), part_of(m, m->r.number.sender));
}

static int is_acceptance(const struct message *m) { return m->r.kind == PQ_RTA && refers_to_others(m); }

/* Aircraft, departure and destination as they stand in a flight. */
struct key { uint8_t aircraft[CODE - AIRCRAFT], departure[NAME], destination[NAME]; };
typedef char key_of_15_bytes[sizeof(struct key) == 15 ? 1 : -1];

static void put_padded(uint8_t *to, size_t width, const uint8_t *from, size_t n)
{
    memcpy(to, from, n);
    memset(to + n, ' ', width - n);
}

static void put_part(uint8_t *to, size_t width, const struct message *m, struct pq_span part)
{
    put_padded(to, width, part_of(m, part), part.len);
}

static void key_of_flight(struct key *k, const uint8_t *flight)
{
    memcpy(k->aircraft, flight + AIRCRAFT, sizeof k->aircraft);
    memcpy(k->departure, flight + DEPARTURE, NAME);
    memcpy(k->destination, flight + DESTINATION, NAME);
}

static void key_of_message(struct key *k, const struct message *m)
{
    put_part(k->aircraft, sizeof k->aircraft, m, m->r.own.aircraft);
    put_part(k->departure, NAME, m, m->r.own.departure);
    put_part(k->destination, NAME, m, m->r.own.destination);
}

/* The key that the flight has after the message; its own but for a CHG. */
static void key_after_message(struct key *k, const struct message *m)
{
    const struct pq_fields *f = &m->r.changed;
    key_of_message(k, m);
    if (f->aircraft.len) put_part(k->aircraft, sizeof k->aircraft, m, f->aircraft);
    if (f->departure.len) put_part(k->departure, NAME, m, f->departure);
    if (f->destination.len) put_part(k->destination, NAME, m, f->destination);
}

static int same_key(const struct key *a, const struct key *b) { return memcmp(a, b, sizeof *a) == 0; }

/* Whether two messages of one sender name a flight in common.  An acceptance names one of the other's flights, so never the
   flight of another message. */
static int name_in_common(const struct message *a, const struct message *b)
{
    struct key a_old, a_new, b_old, b_new;
    if (is_acceptance(a) != is_acceptance(b)) return 0;
    key_of_message(&a_old, a);
    key_after_message(&a_new, a);
    key_of_message(&b_old, b);
    key_after_message(&b_new, b);
    return same_key(&a_old, &b_old) || same_key(&a_old, &b_new) || same_key(&a_new, &b_old) || same_key(&a_new, &b_new);
}

/* ---------------------------------------------------------------- flights */

struct flights {
    uint8_t *first;
    size_t places;
};

static uint8_t *flight_at(struct flights t, size_t i) { return t.first + i * REF_FLIGHT; }

/* The flight with the key, or NULL. */
static uint8_t *flight_with(struct flights t, const struct key *k)
{
    struct key held;
    size_t i;
    for (i = 0; i < t.places; i++) {
        if (flight_at(t, i)[STATUS] == FREE) continue;
        key_of_flight(&held, flight_at(t, i));
        if (same_key(&held, k)) return flight_at(t, i);
    }
    return NULL;
}

/* The flight that a message names by its own fields, or NULL. */
static uint8_t *flight_named(struct flights t, const struct message *m)
{
    struct key k;
    key_of_message(&k, m);
    return flight_with(t, &k);
}

static uint8_t *lowest_free(struct flights t)
{
    size_t i;
    for (i = 0; i < t.places; i++)
        if (flight_at(t, i)[STATUS] == FREE) return flight_at(t, i);
    return NULL;
}

static size_t flights_used(struct flights t)
{
    size_t i, used = 0;
    for (i = 0; i < t.places; i++) used += flight_at(t, i)[STATUS] != FREE;
    return used;
}

/* ---------------------------------------------------------------- when a message may be applied */

static int refers_to_first(const struct message *m, const uint8_t *flight)
{
    return refers_to_own(m) && m->r.reference_number == get16(flight + FIRST);
}

/* A code that is not given always agrees, a code where none is held never does. */
static int code_agrees(const struct message *m, const uint8_t *flight)
{
    return m->r.own.code.len == 0 || same(part_of(m, m->r.own.code), flight + CODE, 4);
}

/* The condition on the flight named, for all types but FPL and CPL. */
static int flight_allows(const uint8_t *flight, const struct message *m)
{
    switch (m->r.kind) {
    case PQ_CHG:
        return flight[STATUS] == FILED && refers_to_first(m, flight);
    case PQ_EST:
        return flight[STATUS] == FILED && refers_to_first(m, flight) && code_agrees(m, flight);
    case PQ_CNL:
        return flight[HANDOFF] != OFFERED && refers_to_first(m, flight);
    case PQ_RTI:
        return flight[STATUS] == ACTIVE && flight[HANDOFF] == NOT_OFFERED && refers_to_first(m, flight)
            && code_agrees(m, flight);
    case PQ_RTA:
        return (refers_to_own(m) || refers_to_others(m)) && flight[HANDOFF] == OFFERED
            && m->r.reference_number == get16(flight + OFFER);
    default:
        return 0;
    }
}

/* Whether the key that a message leaves is its flight's own, or nobody's. */
static int new_key_is_free(struct flights t, const struct message *m)
{
    struct key before, after;
    key_of_message(&before, m);
    key_after_message(&after, m);
    return same_key(&before, &after) || flight_with(t, &after) == NULL;
}

/* The condition for applying a message to its sender's flights; room for a new one is no part of it. */
static int condition_holds(struct flights t, const struct message *m)
{
    const uint8_t *flight = flight_named(t, m);
    if (makes_a_flight(m)) return flight == NULL;
    return flight != NULL && flight_allows(flight, m) && new_key_is_free(t, m);
}

/* ---------------------------------------------------------------- what a message makes of a flight */

/* A whole field, from its first part up to the end of its last one that is there. */
static void put_field(uint8_t *to, size_t width, const struct message *m, size_t from, struct pq_span last)
{
    put_padded(to, width, m->text + from, last.at + last.len - from);
}

static struct pq_span either(struct pq_span wanted, struct pq_span otherwise) { return wanted.len ? wanted : otherwise; }

static void put_field07(uint8_t *flight, const struct message *m, const struct pq_fields *f)
{
    put_part(flight + AIRCRAFT, CODE - AIRCRAFT, m, f->aircraft);
    put_part(flight + CODE, DEPARTURE - CODE, m, f->code);
}

static void put_field08(uint8_t *flight, const struct message *m, const struct pq_fields *f)
{
    put_field(flight + FIELD08, FIELD09 - FIELD08, m, f->rules.at, either(f->flight, f->rules));
}

static void put_field09(uint8_t *flight, const struct message *m, const struct pq_fields *f)
{
    put_field(flight + FIELD09, FIELD10 - FIELD09, m, either(f->count, f->model).at, f->wake);
}

static void put_field10(uint8_t *flight, const struct message *m, const struct pq_fields *f)
{
    put_field(flight + FIELD10, FIELD14 - FIELD10, m, f->equipment.at, f->surveillance);
}

static void put_field13(uint8_t *flight, const struct message *m, const struct pq_fields *f)
{
    put_part(flight + DEPARTURE, TIME - DEPARTURE, m, f->departure);
    put_part(flight + TIME, DESTINATION - TIME, m, f->time);
}

static void put_field14(uint8_t *flight, const struct message *m)
{
    const struct pq_crossing *f = &m->r.field14;
    put_field(flight + FIELD14, REST16 - FIELD14, m, f->point.at, either(f->sense, f->crossing));
}

static void put_field15(uint8_t *flight, const struct message *m, const struct pq_fields *f)
{
    put_field(flight + FIELD15, FIELD18 - FIELD15, m, f->speed.at, f->route);
}

static void put_field16(uint8_t *flight, const struct message *m, const struct pq_fields *f)
{
    struct pq_span last = either(f->alternate2, either(f->alternate, either(f->elapsed, f->destination)));
    put_part(flight + DESTINATION, FIELD08 - DESTINATION, m, f->destination);
    put_field(flight + REST16, FIELD15 - REST16, m, (size_t)f->destination.at + f->destination.len, last);
}

static void put_field18(uint8_t *flight, const struct message *m, const struct pq_fields *f)
{
    put_field(flight + FIELD18, FLIGHT_TEXTS_END - FIELD18, m, f->indicator.at, either(f->other, f->indicator));
}

static void make_flight(uint8_t *flight, const struct message *m)
{
    const struct pq_fields *f = &m->r.own;
    memset(flight, 0, REF_FLIGHT);
    flight[STATUS] = m->r.kind == PQ_FPL ? FILED : ACTIVE;
    put16(flight + FIRST, m->r.message_number);
    put_field07(flight, m, f);
    put_field08(flight, m, f);
    put_field09(flight, m, f);
    put_field10(flight, m, f);
    put_field13(flight, m, f);
    memset(flight + FIELD14, ' ', REST16 - FIELD14);
    if (m->r.kind == PQ_CPL) put_field14(flight, m);
    put_field15(flight, m, f);
    put_field16(flight, m, f);
    put_field18(flight, m, f);
}

static void change_flight(uint8_t *flight, const struct message *m)
{
    const struct pq_fields *f = &m->r.changed;
    if (f->aircraft.len) put_field07(flight, m, f);
    if (f->rules.len) put_field08(flight, m, f);
    if (f->model.len) put_field09(flight, m, f);
    if (f->equipment.len) put_field10(flight, m, f);
    if (f->departure.len) put_field13(flight, m, f);
    if (f->speed.len) put_field15(flight, m, f);
    if (f->destination.len) put_field16(flight, m, f);
    if (f->indicator.len) put_field18(flight, m, f);
}

/* Applies a message whose condition holds to its flight, or to the place of a new one. */
static void apply_to(uint8_t *flight, const struct message *m)
{
    switch (m->r.kind) {
    case PQ_FPL: case PQ_CPL:
        make_flight(flight, m);
        break;
    case PQ_CHG:
        change_flight(flight, m);
        break;
    case PQ_EST:
        flight[STATUS] = ACTIVE;
        put_field14(flight, m);
        break;
    case PQ_CNL:
        memset(flight, 0, REF_FLIGHT);
        break;
    case PQ_RTI:
        flight[HANDOFF] = OFFERED;
        put16(flight + OFFER, m->r.message_number);
        break;
    case PQ_RTA:
        flight[HANDOFF] = is_acceptance(m) ? ACCEPTED : NOT_OFFERED;
        break;
    default:
        break;
    }
}

/* Where a message is applied, its condition holding: its flight, or the place of a new one; NULL where none is free. */
static uint8_t *place_for(struct flights t, const struct message *m)
{
    return makes_a_flight(m) ? lowest_free(t) : flight_named(t, m);
}

/* ---------------------------------------------------------------- the lent memory of an end */

struct end {
    uint8_t *head;
    struct flights sent, received;
    uint8_t *waiting;                           /* the unanswered messages */
    uint8_t *answers;
};

static struct flights flights_in(uint8_t *table, size_t size)
{
    struct flights t;
    t.first = table;
    t.places = size / REF_FLIGHT;
    return t;
}

static struct end end_of(uint8_t *head, uint8_t *sent, size_t sent_len, uint8_t *received, size_t received_len,
                         uint8_t *unanswered, uint8_t *answers)
{
    struct end e;
    e.head = head;
    e.sent = flights_in(sent, sent_len);
    e.received = flights_in(received, received_len);
    e.waiting = unanswered;
    e.answers = answers;
    return e;
}

static uint8_t *waiting_at(const struct end *e, size_t i) { return e->waiting + i * REF_WAITING; }

/* The unanswered message with a number, or NULL. */
static uint8_t *waiting_with(const struct end *e, uint64_t number)
{
    size_t i;
    for (i = 0; i < REF_WAITINGS; i++) {
        uint8_t *w = waiting_at(e, i);
        if (w[IN_USE] && get16(w + WAITING_NUMBER) == number) return w;
    }
    return NULL;
}

static uint8_t *free_waiting(const struct end *e)
{
    size_t i;
    for (i = 0; i < REF_WAITINGS; i++)
        if (!waiting_at(e, i)[IN_USE]) return waiting_at(e, i);
    return NULL;
}

/* Reads an unanswered message; in well-formed memory each is one that is read. */
static void read_waiting(struct message *m, const uint8_t *w)
{
    size_t place, hyphens;
    m->text = w + WAITING_TEXT;
    (void)pq_read(m->text, get16(w + WAITING_LENGTH), &m->r, &place, &hyphens);
}

static void keep_waiting(uint8_t *w, const struct message *m, size_t length)
{
    memset(w, 0, REF_WAITING);
    w[IN_USE] = 1;
    put16(w + WAITING_NUMBER, m->r.message_number);
    put16(w + WAITING_LENGTH, (unsigned)length);
    memcpy(w + WAITING_TEXT, m->text, length);
}

static void free_it(uint8_t *w) { memset(w, 0, REF_WAITING); }

/* ---------------------------------------------------------------- set-up */

static int flights_size_right(size_t n) { return n > 0 && n % REF_FLIGHT == 0 && n / REF_FLIGHT <= REF_FLIGHTS; }

static int is_unit(const uint8_t *name, size_t n)
{
    size_t i;
    if (n != NAME) return 0;
    for (i = 0; i < NAME; i++)
        if (name[i] < 'A' || name[i] > 'Z') return 0;
    return 1;
}

int ref_set_up(const uint8_t *ours, size_t ours_len, const uint8_t *partners, size_t partners_len, uint8_t *head,
               size_t head_len, uint8_t *sent, size_t sent_len, uint8_t *received, size_t received_len, uint8_t *unanswered,
               size_t unanswered_len, uint8_t *answers, size_t answers_len)
{
    if (head_len != REF_HEAD || !flights_size_right(sent_len) || !flights_size_right(received_len)
        || unanswered_len != (size_t)REF_WAITING * REF_WAITINGS || answers_len != REF_ANSWERS)
        return REF_MEMORY;
    if (!is_unit(ours, ours_len) || !is_unit(partners, partners_len) || same(ours, partners, NAME)) return REF_NAMES;
    memcpy(head + OURS, ours, NAME);
    memcpy(head + PARTNERS, partners, NAME);
    put16(head + NEXT, 0);
    put16(head + HIGHEST, THOUSAND - 1);
    memset(sent, 0, sent_len);
    memset(received, 0, received_len);
    memset(unanswered, 0, unanswered_len);
    memset(answers, 0, answers_len);
    return REF_DONE;
}

/* ---------------------------------------------------------------- sending */

static void three_digits(uint8_t *to, unsigned number)
{
    to[0] = (uint8_t)('0' + number / 100);
    to[1] = (uint8_t)('0' + number / 10 % 10);
    to[2] = (uint8_t)('0' + number % 10);
}

/* "AAAA/BBBB123" */
static void number_text(uint8_t *to, const uint8_t *sender, const uint8_t *receiver, unsigned number)
{
    memcpy(to, sender, NAME);
    to[NAME] = '/';
    memcpy(to + NAME + 1, receiver, NAME);
    three_digits(to + 2 * NAME + 1, number);
}

/* How many numbers an unanswered one lies back from the next: 1 to 1000, since the next number itself was given a round ago. */
static unsigned numbers_back(const struct end *e, const uint8_t *w)
{
    unsigned back = (get16(e->head + NEXT) + THOUSAND - get16(w + WAITING_NUMBER)) % THOUSAND;
    return back == 0 ? THOUSAND : back;
}

static int one_is_too_far_back(const struct end *e)
{
    size_t i;
    for (i = 0; i < REF_WAITINGS; i++)
        if (waiting_at(e, i)[IN_USE] && numbers_back(e, waiting_at(e, i)) >= 400) return 1;
    return 0;
}

static int one_names_the_same(const struct end *e, const struct message *m)
{
    struct message other;
    size_t i;
    for (i = 0; i < REF_WAITINGS; i++) {
        if (!waiting_at(e, i)[IN_USE]) continue;
        read_waiting(&other, waiting_at(e, i));
        if (name_in_common(m, &other)) return 1;
    }
    return 0;
}

static size_t waiting_to_make_flights(const struct end *e)
{
    struct message other;
    size_t i, count = 0;
    for (i = 0; i < REF_WAITINGS; i++) {
        if (!waiting_at(e, i)[IN_USE]) continue;
        read_waiting(&other, waiting_at(e, i));
        count += (size_t)makes_a_flight(&other);
    }
    return count;
}

/* The checks on a message that could be sent, in document 01's order; room is looked at later. */
static int check_sending(const struct end *e, const struct message *m)
{
    if (!free_waiting(e)) return REF_SIXTEEN;
    if (one_is_too_far_back(e)) return REF_TOO_FAR;
    if (one_names_the_same(e, m)) return REF_NAMED;
    if (!condition_holds(is_acceptance(m) ? e->received : e->sent, m)) return REF_CONDITION;
    if (makes_a_flight(m) && flights_used(e->sent) + waiting_to_make_flights(e) >= e->sent.places) return REF_FULL;
    return REF_DONE;
}

static int send_it(const struct end *e, const struct content *c, uint8_t *out, size_t out_len, uint64_t *length)
{
    uint8_t own[NUMBER];
    struct draft d;
    struct message m;
    int number;
    number_text(own, e->head + OURS, e->head + PARTNERS, get16(e->head + NEXT));
    if (c->r.kind >= PQ_RLA || !compose(&d, &m.r, c, own)) return REF_CONTENT;
    m.text = d.text;
    if ((number = check_sending(e, &m)) != REF_DONE) return number;
    if ((number = give(d.text, d.length, out, out_len, length)) != REF_DONE) return number;
    if (is_acceptance(&m)) apply_to(flight_named(e->received, &m), &m);
    keep_waiting(free_waiting(e), &m, d.length);
    put16(e->head + NEXT, (get16(e->head + NEXT) + 1) % THOUSAND);
    return REF_DONE;
}

int ref_send(const uint8_t *bytes, size_t bytes_len, const uint8_t *record, size_t record_len, uint8_t *head, size_t head_len,
             uint8_t *sent, size_t sent_len, uint8_t *received, size_t received_len, uint8_t *unanswered,
             size_t unanswered_len, uint8_t *answers, size_t answers_len, uint8_t *out, size_t out_len, uint64_t *length)
{
    struct content c;
    struct end e;
    *length = 0;
    if (record_len != REF_RECORD
        || !pq_memory(head, head_len, sent, sent_len, received, received_len, unanswered, unanswered_len, answers, answers_len))
        return REF_MEMORY;
    content_of(&c, bytes, bytes_len, record);
    e = end_of(head, sent, sent_len, received, received_len, unanswered, answers);
    return send_it(&e, &c, out, out_len, length);
}

/* ---------------------------------------------------------------- receiving an answer */

static int answer_fits(const struct message *answer, const struct message *asked)
{
    switch (answer->r.kind) {
    case PQ_LAM: return asked->r.kind != PQ_RTI;
    case PQ_RLA: return asked->r.kind == PQ_RTI;
    default: return !is_acceptance(asked);      /* LRM */
    }
}

/* Applies one of our own messages, if that may still be done. */
static void apply_if_possible(const struct end *e, const struct message *m)
{
    uint8_t *place;
    if (!condition_holds(e->sent, m)) return;
    place = place_for(e->sent, m);
    if (place) apply_to(place, m);
}

static int receive_answer(const struct end *e, const struct message *answer)
{
    uint8_t *w = waiting_with(e, answer->r.message_number);
    struct message asked;
    if (!w) return REF_NOT_WAITING;
    read_waiting(&asked, w);
    if (!answer_fits(answer, &asked)) return REF_WRONG_ANSWER;
    /* An acceptance was applied when it was sent. */
    if (answer->r.kind != PQ_LRM && !is_acceptance(&asked)) apply_if_possible(e, &asked);
    free_it(w);
    return REF_DONE;
}

/* ---------------------------------------------------------------- receiving a message */

enum age { NEW, OLD, STALE };

static enum age age_of(unsigned number, unsigned highest)
{
    unsigned ahead = (number + THOUSAND - highest) % THOUSAND;
    if (ahead >= 1 && ahead <= 400) return NEW;
    return ahead >= 401 && ahead <= 600 ? STALE : OLD;
}

/* What the first arrival of a message will do. */
struct effect {
    int answer;
    uint8_t *flight;                            /* the one that will change, or NULL */
    uint8_t becomes[REF_FLIGHT];
    uint8_t *retired;                           /* the unanswered offer that will be freed, or NULL */
};

/* The unanswered offer that an acceptance names by number and key, or NULL. */
static uint8_t *offer_named(const struct end *e, const struct message *acceptance, struct message *offer)
{
    uint8_t *w = waiting_with(e, acceptance->r.reference_number);
    struct key offered, accepted;
    if (!w) return NULL;
    read_waiting(offer, w);
    if (offer->r.kind != PQ_RTI) return NULL;
    key_of_message(&offered, offer);
    key_of_message(&accepted, acceptance);
    return same_key(&offered, &accepted) ? w : NULL;
}

/* Does to the copy of the flight what the message does, if the flight allows it. */
static int try_on_copy(struct effect *it, const struct message *m)
{
    if (!flight_allows(it->becomes, m)) return 0;
    apply_to(it->becomes, m);
    return 1;
}

/* Offer and acceptance name the same flight of ours. */
static void accept_effect(struct effect *it, const struct end *e, const struct message *m)
{
    struct message offer;
    it->retired = offer_named(e, m, &offer);
    it->flight = flight_named(e->sent, m);
    it->answer = LRM_57;
    if (!it->flight) return;
    memcpy(it->becomes, it->flight, REF_FLIGHT);
    if (it->retired) (void)try_on_copy(it, &offer);
    if (try_on_copy(it, m)) it->answer = LAM;
}

static void first_arrival(struct effect *it, const struct end *e, const struct message *m)
{
    it->flight = it->retired = NULL;
    if (is_acceptance(m)) {
        accept_effect(it, e, m);
        return;
    }
    it->answer = LRM_57;
    if (!condition_holds(e->received, m)) return;
    it->answer = LRM_62;
    if (!(it->flight = place_for(e->received, m))) return;
    it->answer = m->r.kind == PQ_RTI ? RLA : LAM;
    memcpy(it->becomes, it->flight, REF_FLIGHT);
    apply_to(it->becomes, m);
}

static void bring_about(const struct effect *it)
{
    if (it->flight) memcpy(it->flight, it->becomes, REF_FLIGHT);
    if (it->retired) free_it(it->retired);
}

/* "(LAM", two numbers, then field 31 or the code of an LRM, ")". */
static int give_answer(const struct end *e, const struct message *m, int answer, uint8_t *out, size_t out_len,
                       uint64_t *length)
{
    const uint8_t *ours = e->head + OURS, *partners = e->head + PARTNERS;
    uint8_t number[NUMBER];
    struct draft d;
    d.length = 0;
    d.impossible = 0;                           /* no answer is too long */
    lay(&d, answer == LAM ? "(LAM" : answer == RLA ? "(RLA" : "(LRM");
    number_text(number, ours, partners, m->r.message_number);
    lay_bytes(&d, number, NUMBER);
    number_text(number, partners, ours, m->r.message_number);
    lay_bytes(&d, number, NUMBER);
    if (answer == RLA) {
        lay(&d, "-");
        lay_bytes(&d, part_of(m, m->r.field31), m->r.field31.len);
    } else if (answer != LAM)
        lay(&d, answer == LRM_57 ? "-RMK/57" : "-RMK/62");
    lay(&d, ")");
    return give(d.text, d.length, out, out_len, length);
}

/* The answers kept for the numbers after the highest up to and including the new one go. */
static void advance(const struct end *e, unsigned number)
{
    unsigned forgotten = get16(e->head + HIGHEST);
    do {
        forgotten = (forgotten + 1) % THOUSAND;
        e->answers[forgotten] = NO_ANSWER;
    } while (forgotten != number);
    put16(e->head + HIGHEST, number);
}

static int receive_message(const struct end *e, const struct message *m, uint8_t *out, size_t out_len, uint64_t *length)
{
    unsigned number = m->r.message_number;
    enum age age = age_of(number, get16(e->head + HIGHEST));
    int kept = e->answers[number], refusal;
    struct effect it;
    if (age == STALE) return REF_STALE;
    if (age == OLD && kept != NO_ANSWER) {
        if (kept == RLA && m->r.kind != PQ_RTI) return REF_STALE;
        return give_answer(e, m, kept, out, out_len, length);
    }
    first_arrival(&it, e, m);
    if ((refusal = give_answer(e, m, it.answer, out, out_len, length)) != REF_DONE) return refusal;
    bring_about(&it);
    if (age == NEW) advance(e, number);
    e->answers[number] = (uint8_t)it.answer;
    return REF_DONE;
}

/* ---------------------------------------------------------------- receiving */

static int units_fit(const struct end *e, const struct message *m)
{
    const uint8_t *ours = e->head + OURS, *partners = e->head + PARTNERS;
    const struct pq_record *r = &m->r;
    if (!has_units(m, &r->number, partners, ours)) return 0;
    switch (r->kind) {
    case PQ_FPL: case PQ_CPL:
        return 1;
    case PQ_RTA:
        return has_units(m, &r->reference, partners, ours) || has_units(m, &r->reference, ours, partners);
    case PQ_RLA: case PQ_LAM: case PQ_LRM:
        return has_units(m, &r->reference, ours, partners) && r->message_number == r->reference_number;
    default:
        return has_units(m, &r->reference, partners, ours);
    }
}

int ref_receive(const uint8_t *text, size_t text_len, uint8_t *head, size_t head_len, uint8_t *sent, size_t sent_len,
                uint8_t *received, size_t received_len, uint8_t *unanswered, size_t unanswered_len, uint8_t *answers,
                size_t answers_len, uint8_t *out, size_t out_len, uint64_t *length, uint64_t *place, uint64_t *hyphens)
{
    struct message m;
    struct end e;
    size_t p = 0, h = 0;
    *length = *place = *hyphens = 0;
    if (!pq_memory(head, head_len, sent, sent_len, received, received_len, unanswered, unanswered_len, answers, answers_len))
        return REF_MEMORY;
    m.text = text;
    if (pq_read(text, text_len, &m.r, &p, &h) != 0) {
        *place = p;
        *hyphens = h;
        return REF_NOT_READ;
    }
    e = end_of(head, sent, sent_len, received, received_len, unanswered, answers);
    if (!units_fit(&e, &m)) return REF_UNITS;
    return is_answer(&m) ? receive_answer(&e, &m) : receive_message(&e, &m, out, out_len, length);
}

/* ---------------------------------------------------------------- resending */

int ref_resend(uint64_t number, uint8_t *head, size_t head_len, uint8_t *sent, size_t sent_len, uint8_t *received,
               size_t received_len, uint8_t *unanswered, size_t unanswered_len, uint8_t *answers, size_t answers_len,
               uint8_t *out, size_t out_len, uint64_t *length)
{
    struct end e;
    const uint8_t *w;
    *length = 0;
    if (!pq_memory(head, head_len, sent, sent_len, received, received_len, unanswered, unanswered_len, answers, answers_len))
        return REF_MEMORY;
    e = end_of(head, sent, sent_len, received, received_len, unanswered, answers);
    w = waiting_with(&e, number);
    if (!w) return REF_NOT_WAITING;
    return give(w + WAITING_TEXT, get16(w + WAITING_LENGTH), out, out_len, length);
}
