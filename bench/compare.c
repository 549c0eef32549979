/* Compares two implementations of reader, writer and link: A is ref (link.c), B is proved; and the library's checks of lent
   memory with those of memory.c.

       compare [SEED [TEXTS [CALLS]]]

   Both get the same texts, contents and lent memory.  Every number, length, place and every lent byte has to be the same
   afterwards, and after a refusal what it was before.  Every lent buffer stands right before a page that cannot be touched,
   and in every other round right behind one; on its other side a few bytes are looked at. */
#define _DEFAULT_SOURCE
#include <stdio.h>
#include <stdlib.h>
#include <string.h>
#include <sys/mman.h>
#include <unistd.h>

#include "../include/pamiqsun.h"
#include "drafts.h"
#include "ends.h"
#include "memory.h"
#include "texts.h"

enum { A, B };
static const struct implementation implementations[2] = { IMPLEMENTATION(ref), IMPLEMENTATION(proved) };

/* ---------------------------------------------------------------- lent buffers */

enum { MARGIN = 64, FILLER = 0xA5, MOST_FLIGHTS = 34 * REF_FLIGHT };

struct buffer {
    uint8_t *room, *at;
    size_t room_len, len;
};

enum { HEAD, SENT, RECEIVED, WAITING, ANSWERS, MEMORIES, OUT = MEMORIES, RECORD, LENT };
static const size_t most[LENT] = {
    64, MOST_FLIGHTS, MOST_FLIGHTS, REF_WAITING * REF_WAITINGS + 2000, REF_ANSWERS + 100, 2000, 300
};
static const char *const buffer_names[LENT] = { "head", "sent", "received", "unanswered", "answers", "out", "record" };

static struct buffer lent[2][LENT];             /* those that may be changed, for each implementation */
static struct buffer text_in, record_in, ours_in, partners_in;
static int at_end;                              /* the page is right behind each buffer */

static void make_buffer(struct buffer *b, size_t longest)
{
    size_t page = (size_t)sysconf(_SC_PAGESIZE);
    uint8_t *area;
    b->room_len = (longest + MARGIN + page - 1) / page * page;
    area = mmap(NULL, b->room_len + 2 * page, PROT_NONE, MAP_PRIVATE | MAP_ANONYMOUS, -1, 0);
    if (area == MAP_FAILED || mprotect(area + page, b->room_len, PROT_READ | PROT_WRITE) != 0) {
        perror("compare");
        exit(2);
    }
    b->room = b->at = area + page;
    b->len = 0;
}

/* Puts a buffer of so many bytes beside its page; its other side is filled. */
static void place(struct buffer *b, size_t len)
{
    b->len = len;
    b->at = at_end ? b->room + b->room_len - len : b->room;
    memset(at_end ? b->at - MARGIN : b->at + len, FILLER, MARGIN);
}

static void place_bytes(struct buffer *b, const uint8_t *bytes, size_t len)
{
    place(b, len);
    if (len > 0) memcpy(b->at, bytes, len);
}

static int all_filler(const uint8_t *p, size_t n)
{
    size_t i;
    for (i = 0; i < n; i++)
        if (p[i] != FILLER) return 0;
    return 1;
}

static int margin_kept(const struct buffer *b) { return all_filler(at_end ? b->at - MARGIN : b->at + b->len, MARGIN); }

/* ---------------------------------------------------------------- outcomes */

enum call { READ, WRITE, SET_UP, SEND, RECEIVE, RESEND, CALLS };
static const char *const call_names[CALLS] = { "read", "write", "set_up", "send", "receive", "resend" };
static unsigned long counts[CALLS][16];
static unsigned long texts_compared;

struct outcome {
    int number;
    uint64_t length, place, hyphens;
};
static struct outcome outcomes[2];

static void print_bytes(const uint8_t *p, size_t n)
{
    size_t i;
    for (i = 0; i < n; i++)
        if (p[i] >= ' ' && p[i] < 127)
            putchar(p[i]);
        else
            printf("\\x%02x", p[i]);
    putchar('\n');
}

static void differ(enum call call, const char *what, size_t at)
{
    int i;
    printf("%s: %s (byte %lu), text %lu\n", call_names[call], what, (unsigned long)at, texts_compared);
    for (i = A; i <= B; i++)
        printf("  %s: %d, length %lu, place %lu, hyphens %lu\n", implementations[i].name, outcomes[i].number,
               (unsigned long)outcomes[i].length, (unsigned long)outcomes[i].place, (unsigned long)outcomes[i].hyphens);
    printf("  lent sizes:");
    for (i = 0; i < LENT; i++) printf(" %s %lu", buffer_names[i], (unsigned long)lent[A][i].len);
    printf("\n  input: ");
    print_bytes(text_in.at, text_in.len);
    exit(1);
}

/* The same bytes, and the margin untouched. */
static void compare_buffer(enum call call, int which)
{
    const struct buffer *a = &lent[A][which], *b = &lent[B][which];
    size_t i;
    if (!margin_kept(a) || !margin_kept(b)) differ(call, "a byte beside a lent buffer has changed", 0);
    if (a->len == 0 || memcmp(a->at, b->at, a->len) == 0) return;
    for (i = 0; a->at[i] == b->at[i];) i++;
    differ(call, buffer_names[which], i);
}

static void compare_numbers(enum call call)
{
    const struct outcome *a = &outcomes[A], *b = &outcomes[B];
    if (a->number != b->number) differ(call, "the numbers differ", 0);
    if (a->length != b->length) differ(call, "the lengths differ", 0);
    if (a->place != b->place || a->hyphens != b->hyphens) differ(call, "place or hyphens differ", 0);
    if (a->number < 0 || a->number > 14) differ(call, "no such number", 0);
    if (a->number != 0 && a->length != 0) differ(call, "a refusal has a length", 0);
    if (a->number != 1 && (a->place != 0 || a->hyphens != 0)) differ(call, "a place without refusal 1", 0);
    counts[call][a->number]++;
}

/* The lent text buffer is filled before each call, and keeps that past the length returned. */
static void compare_out(enum call call)
{
    const struct buffer *out = &lent[A][OUT];
    compare_buffer(call, OUT);
    if (outcomes[A].length > out->len) differ(call, "longer than the buffer", 0);
    if (!all_filler(out->at + outcomes[A].length, out->len - outcomes[A].length)) differ(call, "out past the length", 0);
}

/* Before a call: the text buffer, and numbers that the call has to set.  Those that it does not have are 0. */
static void begin_call(size_t room, int has_length, int has_place)
{
    int i;
    for (i = A; i <= B; i++) {
        place(&lent[i][OUT], room);
        memset(lent[i][OUT].at, FILLER, room);
        outcomes[i].number = -1;
        outcomes[i].length = has_length ? 7777 : 0;
        outcomes[i].place = outcomes[i].hyphens = has_place ? 7777 : 0;
    }
}

/* ---------------------------------------------------------------- reader and writer */

static void number16(uint8_t *to, unsigned x)
{
    to[0] = (uint8_t)(x >> 8);
    to[1] = (uint8_t)x;
}
static unsigned number_in(const uint8_t *p) { return (unsigned)p[0] << 8 | p[1]; }

/* What is lent for a text: mostly enough; or nearly what it needs; or little. */
static size_t some_room(size_t needed)
{
    if (once_in(3)) return REF_LONGEST;
    if (once_in(2)) return needed > 0 && once_in(2) ? needed - 1 : needed;
    return once_in(2) ? chance(50) : chance(1200);
}

static void compare_write(const uint8_t *record, size_t record_len)
{
    int i;
    place_bytes(&record_in, record, record_len);
    begin_call(some_room(text_in.len), 1, 0);
    for (i = A; i <= B; i++)
        outcomes[i].number = implementations[i].write(text_in.at, text_in.len, record_in.at, record_len, lent[i][OUT].at,
                                                      lent[i][OUT].len, &outcomes[i].length);
    compare_numbers(WRITE);
    compare_out(WRITE);
    if (record_len > 0 && memcmp(record_in.at, record, record_len) != 0) differ(WRITE, "the record", 0);
}

/* A number of the record becomes another one: a small one, one near it, one of the same record, any. */
static void change_record(uint8_t *record)
{
    uint8_t *at = record + 2 * chance(REF_NUMBERS);
    switch (chance(5)) {
    case 0: number16(at, chance(12)); break;
    case 1: number16(at, number_in(at) + 1); break;
    case 2: number16(at, number_in(at) - 1); break;
    case 3: number16(at, number_in(record + 2 * chance(REF_NUMBERS))); break;
    default: number16(at, chance(65536)); break;
    }
}

static void compare_writes(const uint8_t *read)
{
    uint8_t record[REF_RECORD + 1];
    unsigned i;
    memcpy(record, read, REF_RECORD);
    compare_write(record, once_in(100) ? REF_RECORD - 1 + 2 * chance(2) : REF_RECORD);
    for (i = chance(4); i > 0; i--) {
        change_record(record);
        compare_write(record, REF_RECORD);
    }
    if (once_in(20)) {                                  /* the parts in fewer bytes */
        text_in.len -= 1 + chance((unsigned)text_in.len);
        compare_write(read, REF_RECORD);
    }
}

static void compare_text(const uint8_t *text, size_t n)
{
    static uint8_t read[REF_RECORD];
    size_t record_len = once_in(300) ? chance(300) : REF_RECORD;
    int i;
    texts_compared++;
    place_bytes(&text_in, text, n);
    begin_call(0, 0, 1);
    for (i = A; i <= B; i++) {
        struct buffer *r = &lent[i][RECORD];
        place(r, record_len);
        memset(r->at, FILLER, record_len);
        outcomes[i].number = implementations[i].read(text_in.at, n, r->at, record_len, &outcomes[i].place,
                                                     &outcomes[i].hyphens);
    }
    compare_numbers(READ);
    compare_buffer(READ, RECORD);
    if (n > 0 && memcmp(text_in.at, text, n) != 0) differ(READ, "the text", 0);
    if (outcomes[A].number != 0) {
        if (!all_filler(lent[A][RECORD].at, record_len)) differ(READ, "a refused text's record", 0);
        return;
    }
    memcpy(read, lent[A][RECORD].at, REF_RECORD);
    compare_writes(read);
}

static int interesting_byte(void)
{
    static const char bytes[] = "AZ09/- ().,'+:?@[a`;_NSEWFMKVIBH123456780000000";
    return once_in(8) ? (int)chance(256) : (unsigned char)bytes[chance(sizeof bytes - 1)];
}

/* The text with the byte at one place changed, left out, doubled, put in, or all from there on left out. */
static void compare_damaged(const struct making *m, size_t at)
{
    static struct making d;
    unsigned how = chance(6);
    size_t rest = m->n - at;
    memcpy(d.text, m->text, m->n);
    d.n = m->n;
    if (rest == 0 || how == 0) {
        memmove(d.text + at + 1, d.text + at, rest);
        d.text[at] = (uint8_t)interesting_byte();
        d.n++;
    } else if (how == 1) {
        memmove(d.text + at, d.text + at + 1, rest - 1);
        d.n--;
    } else if (how == 2)
        d.n = at;
    else
        d.text[at] = (uint8_t)interesting_byte();
    compare_text(d.text, d.n);
}

/* A text that the rules derive, so one that is read. */
static void compare_right_text(struct making *m)
{
    unsigned long refused = counts[READ][REF_NOT_READ];
    m->odd = 0;
    make_message(m, 1 + chance(KINDS - 1), NULL, NULL);
    compare_text(m->text, m->n);
    if (counts[READ][REF_NOT_READ] != refused) differ(READ, "a text made by the rules is not read", 0);
}

/* Much too long: a run of one byte put in somewhere. */
static void compare_long(struct making *m)
{
    size_t at, n = 700 + chance(1500);
    m->odd = 0;
    m->full = 0;
    make_message(m, 1 + chance(KINDS - 1), NULL, NULL);
    at = chance((unsigned)m->n + 1);
    memmove(m->text + at + n, m->text + at, m->n - at);
    memset(m->text + at, interesting_byte(), n);
    m->n += n;
    compare_text(m->text, m->n);
}

static void compare_round(void)
{
    static struct making m;
    unsigned i;
    size_t at;
    for (i = 0; i < 100; i++) {
        m.full = once_in(20);
        compare_right_text(&m);
        m.odd = 15 + chance(200);
        make_message(&m, 1 + chance(KINDS - 1), NULL, NULL);
        compare_text(m.text, m.n);
    }
    for (i = 0; i < 15; i++) {
        make_rubbish(&m);
        compare_text(m.text, m.n);
    }
    compare_long(&m);
    for (i = 0; i < 2; i++) {
        m.odd = 0;
        m.full = once_in(10);
        make_message(&m, 1 + chance(KINDS - 1), NULL, NULL);
        for (at = 0; at <= m.n; at++) compare_damaged(&m, at);
    }
}

static void compare_texts(unsigned long wanted)
{
    unsigned long round;
    for (round = 0; texts_compared < wanted; round++) {
        at_end = round % 2 == 0;
        compare_round();
    }
}

/* ---------------------------------------------------------------- the memory of an end */

struct memory {
    uint8_t bytes[MEMORIES][MOST_FLIGHTS];
    size_t len[MEMORIES];
};

/* The end as it is, and as it is lent in a call. */
static struct memory now, given;

static uint8_t *head(void) { return now.bytes[HEAD]; }
static uint8_t *waiting_at(struct memory *m, size_t i) { return m->bytes[WAITING] + i * REF_WAITING; }
static uint8_t *some_flight(int table)
{
    return now.bytes[table] + chance((unsigned)(now.len[table] / REF_FLIGHT)) * REF_FLIGHT;
}

static void copy_memory(struct memory *to, const struct memory *from)
{
    int i;
    for (i = 0; i < MEMORIES; i++) {
        to->len[i] = from->len[i];
        memcpy(to->bytes[i], from->bytes[i], from->len[i]);
    }
}

static size_t some_places(void) { return once_in(15) ? 1 + chance(REF_FLIGHTS) : 1 + chance(5); }

static int same_name(const struct named *a, const struct named *b)
{
    return strcmp(a->aircraft, b->aircraft) == 0 && strcmp(a->departure, b->departure) == 0
        && strcmp(a->destination, b->destination) == 0;
}

/* Flights with different keys, made up; some places free. */
static void make_flights(int table)
{
    size_t places = now.len[table] / REF_FLIGHT, i, k;
    unsigned free_once_in = 1 + chance(4);
    for (i = 0; i < places; i++) {
        uint8_t *flight = now.bytes[table] + i * REF_FLIGHT;
        struct named key = some_name();
        int taken = once_in(free_once_in);
        for (k = 0; k < i; k++) {
            struct named other = name_of(flight - (k + 1) * REF_FLIGHT);
            if (flight[-(ptrdiff_t)(k + 1) * REF_FLIGHT] && same_name(&key, &other)) taken = 1;
        }
        memset(flight, 0, REF_FLIGHT);
        if (!taken) make_flight(flight, &key, 0);
    }
}

static const char *number_text(const uint8_t *sender, const uint8_t *receiver, unsigned number)
{
    static char texts[4][16];
    static unsigned turn;
    char *it = texts[turn++ % 4];
    sprintf(it, "%.4s/%.4s%03u", (const char *)sender, (const char *)receiver, number % 1000);
    return it;
}

static const char *own_number(unsigned n) { return number_text(head(), head() + 4, n); }
static const char *partners_number(unsigned n) { return number_text(head() + 4, head(), n); }

/* ---------------------------------------------------------------- drafts for an end in its state */

/* A reference as the rules want it, or not. */
static const char *some_reference(int ours, unsigned number)
{
    static const uint8_t stranger[] = "CCCC";
    if (once_in(40)) return number_text(stranger, once_in(2) ? head() : stranger, number);
    if (once_in(40)) return number_text(head() + (once_in(2) ? 4 : 0), stranger, number);
    return ours ? own_number(number) : partners_number(number);
}

/* About a flight in a table: what may be done to it, or anything. */
static void draft_of_flight(char *to, const uint8_t *flight, int ours)
{
    struct named n = flight[0] && !once_in(10) ? name_of(flight) : some_name();
    unsigned kind = flight[0] && !once_in(6) ? kind_for(flight) : EST + chance(5);
    unsigned number = number_in(flight + (kind == RTA ? 4 : 2));
    if (once_in(25)) number = chance(1000);
    if (kind == RTA && once_in(3)) ours = !ours;
    draft_about(to, kind, some_reference(ours, number), &n, once_in(6) ? some_code() : flight[0] ? code_of(flight) : "");
}

/* A message of the table's owner: a new flight, or about one. */
static void draft_for_table(char *to, int table)
{
    const uint8_t *flight = some_flight(table);
    struct named n = flight[0] && once_in(6) ? name_of(flight) : some_name();
    if (!flight[0] || once_in(5))
        draft_plan(to, &n);
    else
        draft_of_flight(to, flight, table == SENT);
}

/* The other end's acceptance of an offered flight of the table. */
static void draft_acceptance(char *to, int table)
{
    const uint8_t *flight = some_flight(table);
    struct named n = flight[0] ? name_of(flight) : some_name();
    unsigned number = once_in(12) ? chance(1000) : number_in(flight + 4);
    draft_about(to, RTA, table == SENT ? own_number(number) : partners_number(number), &n, "");
}

static void with_number(struct making *m, const char *draft, const char *number)
{
    m->n = strlen(draft);
    memcpy(m->text, draft, m->n);
    memcpy(m->text + 4, number, 12);
}

/* ---------------------------------------------------------------- an end made up */

/* A number that an unanswered message may have: fewer than 400 back, or now and then not. */
static unsigned some_waiting_number(int far)
{
    static const unsigned far_backs[] = { 0, 399, 400, 401, 700, 999 };
    unsigned back = far && once_in(8) ? far_backs[chance(6)] : 1 + chance(once_in(2) ? 20 : 399);
    return (number_in(head() + 8) + 1000 - back) % 1000;
}

static void make_waiting(uint8_t *w, unsigned number)
{
    static struct making m;
    char draft[TEXT_ROOM];
    m.odd = 0;
    if (once_in(12))
        make_message(&m, FPL + chance(7), own_number(number), once_in(2) ? own_number(chance(1000)) : NULL);
    else {
        if (once_in(6))
            draft_acceptance(draft, RECEIVED);
        else
            draft_for_table(draft, SENT);
        with_number(&m, draft, own_number(number));
    }
    w[0] = 1;
    number16(w + 1, number);
    number16(w + 3, (unsigned)m.n);
    memcpy(w + 5, m.text, m.n);
}

static void make_waitings(void)
{
    static uint8_t used[1000];
    unsigned free_once_in = once_in(5) ? 1000 : 1 + chance(3), number, i;
    int far = once_in(4);
    memset(used, 0, sizeof used);
    memset(now.bytes[WAITING], 0, now.len[WAITING]);
    for (i = 0; i < REF_WAITINGS; i++) {
        number = some_waiting_number(far);
        if (once_in(free_once_in) || used[number]) continue;
        used[number] = 1;
        make_waiting(waiting_at(&now, i), number);
    }
}

static void make_answers(void)
{
    static const uint8_t values[] = { 0, 1, 2, 57, 62 };
    size_t i;
    for (i = 0; i < REF_ANSWERS; i++) now.bytes[ANSWERS][i] = once_in(3) ? values[chance(5)] : 0;
}

/* Resending a number that is none says whether memory is well formed. */
static void must_be_well_formed(void)
{
    uint64_t length;
    int number = ref_resend(1000, now.bytes[HEAD], now.len[HEAD], now.bytes[SENT], now.len[SENT], now.bytes[RECEIVED],
                            now.len[RECEIVED], now.bytes[WAITING], now.len[WAITING], now.bytes[ANSWERS], now.len[ANSWERS],
                            NULL, 0, &length);
    if (number == REF_NOT_WAITING) return;
    printf("the memory made up is not well formed\n");
    exit(2);
}

/* Any well-formed memory, whether or not a run leads to it. */
static void make_end(void)
{
    now.len[HEAD] = REF_HEAD;
    now.len[SENT] = some_places() * REF_FLIGHT;
    now.len[RECEIVED] = some_places() * REF_FLIGHT;
    now.len[WAITING] = REF_WAITING * REF_WAITINGS;
    now.len[ANSWERS] = REF_ANSWERS;
    aircraft_in_use = 1 + chance(8);                    /* few, so that keys meet */
    memcpy(head(), once_in(2) ? "AAAABBBB" : "BBBBAAAA", 8);
    number16(head() + 8, once_in(3) ? 1000 - 1 - chance(2) : chance(1000));
    number16(head() + 10, once_in(3) ? 1000 - 1 - chance(2) : chance(1000));
    make_flights(SENT);
    make_flights(RECEIVED);
    make_waitings();
    make_answers();
    must_be_well_formed();
}

/* ---------------------------------------------------------------- what stands unanswered */

static const uint8_t *some_waiting(void)
{
    size_t from = chance(REF_WAITINGS), i;
    for (i = 0; i < REF_WAITINGS; i++) {
        const uint8_t *w = waiting_at(&now, (from + i) % REF_WAITINGS);
        if (w[0]) return w;
    }
    return NULL;
}

static void part_to_text(char *to, const uint8_t *text, const uint8_t *record, size_t index)
{
    size_t at = number_in(record + 2 * index), n = number_in(record + 2 * index + 2);
    if (n == 0) return;
    memcpy(to, text + at, n);
    to[n] = 0;
}

/* The key that an unanswered message names: its flight's own, or the one that a CHG gives it. */
static struct named name_of_waiting(const uint8_t *w, int after)
{
    enum { AIRCRAFT = 13, DEPARTURE = 31, DESTINATION = 41, CHANGED = 50 };
    uint8_t record[REF_RECORD];
    uint64_t place, hyphens;
    struct named n = some_name();
    size_t by;
    if (ref_read(w + 5, number_in(w + 3), record, sizeof record, &place, &hyphens) != 0) return n;
    for (by = 0; by <= (after ? CHANGED : 0); by += CHANGED) {
        part_to_text(n.aircraft, w + 5, record, AIRCRAFT + by);
        part_to_text(n.departure, w + 5, record, DEPARTURE + by);
        part_to_text(n.destination, w + 5, record, DESTINATION + by);
    }
    return n;
}

/* A CHG of a key, from or to one that an unanswered message names.  Probably no flight has it. */
static int draft_near_waiting(char *to)
{
    const uint8_t *w = some_waiting(), *flight = some_flight(SENT);
    struct named near, old, new;
    if (!w) return 0;
    near = name_of_waiting(w, once_in(2));
    old = new = flight[0] ? name_of(flight) : some_name();
    if (once_in(2)) {
        old = near;
        new = some_name();
    } else
        new = near;
    if (strcmp(old.departure, new.departure) == 0 && strcmp(old.destination, new.destination) == 0)
        sprintf(to, "(CHGXXXX/YYYY000%s-%s-%s-%s-07/%s)", own_number(number_in(flight + 2)), old.aircraft, old.departure,
                old.destination, new.aircraft);
    else
        sprintf(to, "(CHGXXXX/YYYY000%s-%s-%s-%s-13/%s1200-16/%s)", own_number(number_in(flight + 2)), old.aircraft,
                old.departure, old.destination, new.departure, new.destination);
    return 1;
}

/* ---------------------------------------------------------------- memory that is refused */

static void damage_a_byte(void)
{
    int which = (int)chance(MEMORIES);
    size_t at = chance((unsigned)given.len[which]);
    uint8_t *byte = &given.bytes[which][at];
    if (which == WAITING && once_in(2)) byte = given.bytes[which] + chance(REF_WAITINGS) * REF_WAITING + chance(120);
    if (once_in(4))
        *byte ^= (uint8_t)(1 << chance(8));
    else if (once_in(2))
        *byte = (uint8_t)interesting_byte();
    else
        *byte = (uint8_t)chance(256);
}

static uint8_t *given_flight(void)
{
    int table = once_in(2) ? SENT : RECEIVED;
    return given.bytes[table] + chance((unsigned)(given.len[table] / REF_FLIGHT)) * REF_FLIGHT;
}

static uint8_t *given_waiting(void) { return waiting_at(&given, chance(REF_WAITINGS)); }

/* An answer, or a message with units that are not ours first, stands unanswered; all else is right. */
static void unanswered_of_wrong_sort(void)
{
    static struct making m;
    uint8_t *w = given_waiting();
    unsigned number = number_in(w + 1);
    m.odd = 0;
    m.full = 0;
    if (once_in(2))
        make_message(&m, RLA + chance(3), own_number(number), partners_number(number));
    else
        make_message(&m, FPL + chance(7), once_in(2) ? partners_number(number) : NULL, NULL);
    memset(w, 0, REF_WAITING);
    w[0] = 1;
    number16(w + 1, number);
    number16(w + 3, (unsigned)m.n);
    memcpy(w + 5, m.text, m.n);
}

/* A field 10 whose two parts are at or just past their limits, as far as it fits in its 61 bytes. */
static void field10_at_its_limits(uint8_t *flight)
{
    static const size_t before[] = { 0, 1, 30, 39, 40, 41 }, behind[] = { 0, 1, 19, 20, 21 };
    uint8_t field[64];
    size_t n = before[chance(6)];
    memset(field, ' ', sizeof field);
    memset(field, 'S', n);
    field[n] = '/';
    memset(field + n + 1, 'C', behind[chance(5)]);
    memcpy(flight + 39, field, 61);
}

/* What a byte changed by chance hardly ever does. */
static void damage_on_purpose(void)
{
    static const unsigned numbers[] = { 0, 1, 998, 999, 1000, 1001, 1077, 1275, 65535 };
    unsigned number = numbers[chance(9)];
    uint8_t *flight = given_flight(), *w = given_waiting();
    switch (chance(14)) {
    case 0: number16(given.bytes[HEAD] + 8 + 2 * chance(2), number); break;
    case 1: memcpy(given.bytes[HEAD], given.bytes[HEAD] + 4, 4); break;
    case 2: number16(flight + 2 + 2 * chance(2), number); break;
    case 3: flight[chance(2)] = (uint8_t)chance(4); break;
    case 4: memmove(flight, given_flight(), REF_FLIGHT); break;
    case 5: case 10: make_flight(flight, NULL, 1 + chance(40)); break;
    case 12: field10_at_its_limits(flight); break;
    case 11: flight[REF_FLIGHT - 1 - chance(28)] = (uint8_t)(once_in(2) ? 1 : ' '); break;
    case 6: number16(w + 1 + 2 * chance(2), number); break;
    case 7: memmove(w, given_waiting(), REF_WAITING); break;
    case 8: memmove(w + 1, given_waiting() + 1, 2); break;
    case 9: unanswered_of_wrong_sort(); break;
    default: given.bytes[ANSWERS][chance(REF_ANSWERS)] = (uint8_t)(once_in(2) ? chance(5) : 55 + chance(10)); break;
    }
}

static void random_table(void)
{
    int which = (int)chance(MEMORIES);
    size_t i;
    for (i = 0; i < given.len[which]; i++) given.bytes[which][i] = (uint8_t)chance(once_in(2) ? 256 : 3);
}

static void wrong_size(void)
{
    int which = (int)chance(MEMORIES);
    static const size_t units[MEMORIES] = { 1, REF_FLIGHT, REF_FLIGHT, REF_WAITING, 1 };
    size_t old = given.len[which], unit = units[which];
    switch (chance(6)) {
    case 0: given.len[which] = 0; break;
    case 1: given.len[which] = old + 1; break;
    case 2: given.len[which] = old - 1; break;
    case 3: given.len[which] = old + unit; break;
    case 4: given.len[which] = old - unit; break;
    default: given.len[which] = unit == REF_FLIGHT ? (33 + chance(2)) * unit : chance(2000); break;
    }
    if (given.len[which] > most[which]) given.len[which] = most[which];
    if (given.len[which] > old) memset(given.bytes[which] + old, once_in(2) ? 0 : FILLER, given.len[which] - old);
}

/* Mostly the end as it is. */
static int choose_memory(void)
{
    copy_memory(&given, &now);
    if (!once_in(4)) return 1;
    switch (chance(8)) {
    case 0: random_table(); break;
    case 1: wrong_size(); break;
    case 2: case 3: damage_a_byte(); break;
    default: damage_on_purpose(); break;
    }
    return 0;
}

/* ---------------------------------------------------------------- one call of both */

static void place_memory(void)
{
    int i, k;
    for (i = A; i <= B; i++)
        for (k = 0; k < MEMORIES; k++) place_bytes(&lent[i][k], given.bytes[k], given.len[k]);
}

/* Compares everything; what the end has become is kept where it was lent as it is. */
static void finish_call(enum call call, int is_now)
{
    int k;
    compare_numbers(call);
    compare_out(call);
    for (k = 0; k < MEMORIES; k++) {
        const struct buffer *b = &lent[A][k];
        compare_buffer(call, k);
        if (outcomes[A].number != 0 && b->len > 0 && memcmp(b->at, given.bytes[k], b->len) != 0)
            differ(call, "a refusal changes lent memory", 0);
        if (outcomes[A].number == 0 && is_now) {
            memcpy(now.bytes[k], b->at, b->len);
            now.len[k] = b->len;
        }
    }
}

#define LENT_TO(i, which) lent[i][which].at, lent[i][which].len
#define MEMORY_OF(i) LENT_TO(i, HEAD), LENT_TO(i, SENT), LENT_TO(i, RECEIVED), LENT_TO(i, WAITING), LENT_TO(i, ANSWERS)

static void compare_set_up(void)
{
    static const char *const names[] = { "AAAA", "BBBB", "BBBB", "KZMP", "AAA", "AAAAA", "", "aAAA", "AAA1", "@AAA", "AAA[" };
    const char *ours = one_of(names, once_in(3) ? 11 : 4), *partners = one_of(names, once_in(3) ? 11 : 4);
    int i, is_now = choose_memory();
    place_memory();
    begin_call(0, 0, 0);
    place_bytes(&ours_in, (const uint8_t *)ours, strlen(ours));
    place_bytes(&partners_in, (const uint8_t *)partners, strlen(partners));
    for (i = A; i <= B; i++)
        outcomes[i].number = implementations[i].set_up(ours_in.at, ours_in.len, partners_in.at, partners_in.len, MEMORY_OF(i));
    finish_call(SET_UP, is_now);
}

/* What is sent: a draft that suits the end, or any message, or a record that is damaged. */
static void content_to_send(struct making *m, uint8_t *record)
{
    char draft[TEXT_ROOM];
    uint64_t place, hyphens;
    unsigned i;
    m->odd = 0;
    if (once_in(12))
        make_message(m, 1 + chance(KINDS - 1), NULL, once_in(2) ? own_number(chance(1000)) : NULL);
    else {
        if (once_in(4))
            draft_acceptance(draft, RECEIVED);
        else if (!once_in(6) || !draft_near_waiting(draft))
            draft_for_table(draft, SENT);
        with_number(m, draft, "XXXX/YYYY000");
    }
    memset(record, 0, REF_RECORD);
    ref_read(m->text, m->n, record, REF_RECORD, &place, &hyphens);
    if (once_in(10))
        for (i = 1 + chance(3); i > 0; i--) change_record(record);
    if (once_in(20)) memset(record + 2, (int)chance(256), 12);          /* its own number */
}

static void compare_send(void)
{
    static struct making m;
    uint8_t record[REF_RECORD + 1] = { 0 };
    size_t record_len = once_in(100) ? REF_RECORD - 1 + 2 * chance(2) : REF_RECORD;
    int i, is_now = choose_memory();
    content_to_send(&m, record);
    place_memory();
    place_bytes(&text_in, m.text, m.n - (once_in(100) ? chance((unsigned)m.n) : 0));
    place_bytes(&record_in, record, record_len);
    begin_call(some_room(m.n), 1, 0);
    for (i = A; i <= B; i++)
        outcomes[i].number = implementations[i].send(text_in.at, text_in.len, record_in.at, record_len, MEMORY_OF(i),
                                                     LENT_TO(i, OUT), &outcomes[i].length);
    finish_call(SEND, is_now);
    if (memcmp(text_in.at, m.text, text_in.len) != 0 || memcmp(record_in.at, record, record_len) != 0)
        differ(SEND, "the content", 0);
}

/* ---------------------------------------------------------------- what arrives */

static void arriving_answer(struct making *m)
{
    const uint8_t *w = some_waiting();
    unsigned number = w && !once_in(15) ? number_in(w + 1) : chance(1000);
    int rti = w && memcmp(w + 5, "(RTI", 4) == 0;
    unsigned kind = once_in(8) ? RLA + chance(3) : once_in(5) ? LRM : rti ? RLA : LAM;
    make_message(m, kind, partners_number(number), own_number(number + once_in(30)));
}

/* Next after the highest; or a little before or after; or any. */
static unsigned arriving_number(void)
{
    unsigned highest = number_in(head() + 10);
    if (!once_in(3)) return (highest + 1) % 1000;
    if (once_in(3)) return (highest + 398 + chance(6)) % 1000;
    if (once_in(3)) return (highest + 598 + chance(6)) % 1000;
    return once_in(2) ? chance(1000) : (highest + 1000 - chance(40)) % 1000;
}

/* An acceptance of one of our flights, or of an offer still unanswered. */
static void arriving_acceptance(char *draft)
{
    const uint8_t *w = some_waiting();
    struct named n;
    if (w && (memcmp(w + 5, "(RTI", 4) == 0 || once_in(8))) {
        n = once_in(5) ? some_name() : name_of_waiting(w, 0);
        draft_about(draft, RTA, own_number(number_in(w + 1)), &n, "");
    } else
        draft_acceptance(draft, SENT);
}

static void arriving_message(struct making *m)
{
    char draft[TEXT_ROOM];
    const char *number = once_in(40) ? own_number(chance(1000)) : partners_number(arriving_number());
    if (once_in(12)) {
        make_message(m, FPL + chance(7), number, once_in(2) ? partners_number(chance(1000)) : own_number(chance(1000)));
        return;
    }
    if (once_in(4))
        arriving_acceptance(draft);
    else
        draft_for_table(draft, RECEIVED);
    with_number(m, draft, number);
}

static void arriving_text(struct making *m)
{
    static struct making before;                        /* a text may come again */
    m->odd = once_in(30) ? 40 : 0;
    if (once_in(10) && before.n > 0) {
        memcpy(m->text, before.text, before.n);
        m->n = before.n;
        return;
    }
    if (once_in(60))
        make_rubbish(m);
    else if (once_in(4))
        arriving_answer(m);
    else
        arriving_message(m);
    if (once_in(40) && m->n > 0) m->text[chance((unsigned)m->n)] = (uint8_t)interesting_byte();
    memcpy(before.text, m->text, m->n);
    before.n = m->n;
}

static size_t room_for_answer(void)
{
    static const size_t sizes[] = { 0, 28, 29, 30, 35, 36, 37, 40, 50 };
    return once_in(4) ? sizes[chance(9)] : REF_LONGEST;
}

static void compare_receive(void)
{
    static struct making m;
    int i, is_now = choose_memory();
    arriving_text(&m);
    place_memory();
    place_bytes(&text_in, m.text, m.n);
    begin_call(room_for_answer(), 1, 1);
    for (i = A; i <= B; i++)
        outcomes[i].number = implementations[i].receive(text_in.at, text_in.len, MEMORY_OF(i), LENT_TO(i, OUT),
                                                        &outcomes[i].length, &outcomes[i].place, &outcomes[i].hyphens);
    finish_call(RECEIVE, is_now);
    if (m.n > 0 && memcmp(text_in.at, m.text, m.n) != 0) differ(RECEIVE, "the text", 0);
}

/* THE CHECKS, of all that is lent and part by part: those that the library has beside the calls. */
static unsigned long checks_compared, checks_failed;

static void check_agrees(const char *what, int formed, size_t number)
{
    checks_compared++;
    if (!formed) checks_failed++;
    if (number == (formed ? 0 : PAMIQSUN_NOT_FORMED)) return;
    printf("the checks differ on %s: in C %d, %lu\n", what, formed, (unsigned long)number);
    exit(1);
}

static void compare_checks(void)
{
    const struct buffer *m = lent[B], *table = &m[once_in(2) ? SENT : RECEIVED];
    check_agrees("all", pq_memory(MEMORY_OF(B)), pamiqsun_is_formed(MEMORY_OF(B)));
    check_agrees("a table", pq_flights(table->at, table->len), pamiqsun_is_table(table->at, table->len));
    if (table->len >= REF_FLIGHT) {
        size_t last = (table->len / REF_FLIGHT - 1) * REF_FLIGHT;
        check_agrees("a flight", pq_flights(table->at + last, REF_FLIGHT), pamiqsun_is_flight(table->at + last, REF_FLIGHT));
    }
    check_agrees("unanswered messages", m[HEAD].len == REF_HEAD && pq_waiting(LENT_TO(B, WAITING), m[HEAD].at),
                 pamiqsun_is_unanswered(LENT_TO(B, HEAD), LENT_TO(B, WAITING)));
    check_agrees("answers", pq_answers(LENT_TO(B, ANSWERS)), pamiqsun_is_answers(LENT_TO(B, ANSWERS)));
}

static void compare_resend(void)
{
    const uint8_t *w = some_waiting();
    uint64_t number = w && !once_in(4) ? number_in(w + 1) : chance(1200);
    int i, is_now = choose_memory();
    if (once_in(20)) number += (uint64_t)1 << (16 + chance(48));        /* the same in its low bits */
    place_memory();
    compare_checks();
    begin_call(some_room(w ? number_in(w + 3) : 0), 1, 0);
    for (i = A; i <= B; i++)
        outcomes[i].number = implementations[i].resend(number, MEMORY_OF(i), LENT_TO(i, OUT), &outcomes[i].length);
    finish_call(RESEND, is_now);
    for (i = 0; i < MEMORIES; i++)
        if (given.len[i] > 0 && memcmp(lent[A][i].at, given.bytes[i], given.len[i]) != 0)
            differ(RESEND, "resending changes something", 0);
}

static void compare_call(void)
{
    unsigned what = chance(100);
    if (what < 45)
        compare_receive();
    else if (what < 85)
        compare_send();
    else if (what < 97)
        compare_resend();
    else
        compare_set_up();
}

static void compare_calls(unsigned long wanted)
{
    unsigned long i;
    for (i = 0; i < wanted; i++) {
        if (i % 40 == 0) {
            make_end();
            at_end = i / 40 % 2 == 0;
        }
        compare_call();
    }
}

/* ---------------------------------------------------------------- the whole */

static int missing;

/* The numbers that a call can give, but for 0. */
static const int refusals[CALLS][10] = {
    { 1, 12 }, { 2, 12, 13 }, { 12, 14 }, { 2, 7, 8, 9, 10, 11, 12, 13 }, { 1, 2, 3, 4, 5, 6, 12 }, { 2, 5, 12 }
};

static void tell(int call, int number)
{
    printf(" %d: %lu", number, counts[call][number]);
    if (counts[call][number] > 0) return;
    printf(" MISSING");
    missing = 1;
}

static void report(void)
{
    const int *number;
    int call;
    for (call = 0; call < CALLS; call++) {
        printf("%-8s", call_names[call]);
        tell(call, 0);
        for (number = refusals[call]; *number; number++) tell(call, *number);
        putchar('\n');
    }
}

int main(int argc, char **argv)
{
    unsigned long texts = argc > 2 ? strtoul(argv[2], NULL, 10) : 1000000;
    unsigned long calls = argc > 3 ? strtoul(argv[3], NULL, 10) : 100000;
    int i, k;
    chance_from(argc > 1 ? strtoul(argv[1], NULL, 10) : 1);
    for (i = A; i <= B; i++)
        for (k = 0; k < LENT; k++) make_buffer(&lent[i][k], most[k]);
    make_buffer(&text_in, TEXT_ROOM);
    make_buffer(&record_in, 300);
    make_buffer(&ours_in, 8);
    make_buffer(&partners_in, 8);
    compare_texts(texts);
    compare_calls(calls);
    printf("%s and %s: %lu texts, %lu calls of the link, all the same\n", implementations[A].name, implementations[B].name,
           texts_compared, calls);
    printf("%lu checks of lent memory, %lu of them refused, the same\n", checks_compared, checks_failed);
    report();
    return missing;
}
