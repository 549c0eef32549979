/* Two ends and a channel between them that loses, repeats and reorders.

       world [SEED [CALLS]]       CALLS for each world; the worlds differ in the sizes of the tables

   Which functions the two ends have is chosen when this is compiled: END_A and END_B are the prefixes of their names.

   A copy of a message, or of an answer to it, arrives only while the message's sender has sent fewer than 400 later messages.
   After each call is checked that

   1. each flight, by key and direction, has the same 768 bytes at both ends, or one end holds an unanswered message that names
      it, by its old or its new key;
   2. a copy of a message that arrives with room is answered, and the message is unanswered no more, ever after, once a copy of
      that answer has arrived;
   3. no call is refused 1, 3, 4, 6, 12 or 14, and no acceptance is answered LRM;
   4. a refused call changes no byte.

   From time to time everything is let through; then nothing is unanswered and all flights are the same.  It prints how often
   everything happened, and fails where a thing that can happen did not. */
#include <stdio.h>
#include <stdlib.h>
#include <string.h>

#include "drafts.h"
#include "ends.h"

#ifndef END_A
#define END_A ref
#endif
#ifndef END_B
#define END_B ref
#endif

enum { TEXT = 1100, KEY = 15, COPIES = 96, WINDOW = 400, ENOUGH_ROOM = 64, WHOLE_ROOM = TEXT };

static const char *const kind_names[KINDS] = { "", "FPL", "CPL", "EST", "CHG", "CNL", "RTI", "RTA", "RLA", "LAM", "LRM" };
static const struct implementation implementations[2] = { IMPLEMENTATION(END_A), IMPLEMENTATION(END_B) };

/* ---------------------------------------------------------------- what there is */

/* A message as it was sent: all that the checks have to know of it. */
struct message {
    unsigned long serial;                       /* how many its sender had sent before it */
    unsigned kind;
    int acceptance;
    uint8_t old_key[KEY], new_key[KEY];
    int arrived;                                /* with room */
    int settled;                                /* a copy of an answer has arrived */
    unsigned long held_until;                   /* no copy arrives before its sender has sent so many */
    size_t length;
    uint8_t text[TEXT];
};

struct memory {
    uint8_t head[REF_HEAD], waiting[REF_WAITING * REF_WAITINGS], answers[REF_ANSWERS];
    uint8_t sent[REF_FLIGHT * REF_FLIGHTS], received[REF_FLIGHT * REF_FLIGHTS];
};

struct station {
    const struct implementation *f;
    const char *name;
    struct memory m;
    size_t sent_places, received_places;
    unsigned long count;                        /* messages sent */
    struct message messages[1000];              /* the last one of each number */
};

/* A copy under way of a message, or of an answer to a message. */
struct copy {
    struct station *to;
    struct message *about;
    struct station *sender;                     /* of the message */
    unsigned long serial;                       /* of the message */
    int is_answer;
    unsigned long held_until;
    size_t length;
    uint8_t text[TEXT];
};

static struct station stations[2];
static struct copy copies[COPIES];
static size_t under_way;
static uint8_t out[WHOLE_ROOM];

static struct station *other(const struct station *s) { return s == &stations[0] ? &stations[1] : &stations[0]; }

static unsigned number_in(const uint8_t *p) { return (unsigned)p[0] << 8 | p[1]; }
static const uint8_t *waiting_at(const struct station *s, size_t i) { return s->m.waiting + i * REF_WAITING; }

/* ---------------------------------------------------------------- what happened */

static struct {
    unsigned long calls, lost, expired, settled_worlds, rounds;
    unsigned long sent[KINDS], arrived[KINDS], answered[KINDS], kind_answered[KINDS][4];
    unsigned long refused_send[15], refused_receive[15], refused_resend[15];
    unsigned long retired, crossed, crossed_and_rejected, late_first, late_by_300, repeated, answered_twice, key_changed;
    unsigned long room_refused_retiring;
} happened;

enum { BY_LAM, BY_RLA, BY_57, BY_62 };
static const char *const answer_names[4] = { "LAM", "RLA", "LRM 57", "LRM 62" };

static void fail(const char *what)
{
    printf("call %lu: %s\n", happened.calls, what);
    exit(1);
}

static void must(int holds, const char *what)
{
    if (!holds) fail(what);
}

/* ---------------------------------------------------------------- flights and names */

static void key_of_flight(uint8_t *key, const uint8_t *flight)
{
    memcpy(key, flight + 6, 7);
    memcpy(key + 7, flight + 17, 4);
    memcpy(key + 11, flight + 25, 4);
}

static const uint8_t *flight_with(const uint8_t *table, size_t places, const uint8_t *key)
{
    uint8_t held[KEY];
    size_t i;
    for (i = 0; i < places; i++) {
        const uint8_t *flight = table + i * REF_FLIGHT;
        if (!flight[0]) continue;
        key_of_flight(held, flight);
        if (memcmp(held, key, KEY) == 0) return flight;
    }
    return NULL;
}

/* Copies the part at an index of the record into a key, if it is there. */
static void part_to_key(uint8_t *to, size_t width, const uint8_t *text, const uint8_t *record, size_t index)
{
    size_t at = number_in(record + 2 * index), n = number_in(record + 2 * index + 2);
    if (n == 0) return;
    memset(to, ' ', width);
    memcpy(to, text + at, n);
}

enum { OWN_AIRCRAFT = 13, OWN_DEPARTURE = 31, OWN_DESTINATION = 41, CHANGED = 50 };

static void keys_of_message(struct message *m, const uint8_t *record)
{
    int changed;
    for (changed = 0; changed < 2; changed++) {
        uint8_t *key = changed ? m->new_key : m->old_key;
        size_t by = changed ? CHANGED : 0;
        if (changed) memcpy(key, m->old_key, KEY);
        part_to_key(key, 7, m->text, record, OWN_AIRCRAFT + by);
        part_to_key(key + 7, 4, m->text, record, OWN_DEPARTURE + by);
        part_to_key(key + 11, 4, m->text, record, OWN_DESTINATION + by);
    }
}

/* The message that stands unanswered in a place. */
static const struct message *message_in(const struct station *s, const uint8_t *w) { return &s->messages[number_in(w + 1)]; }

static int names(const struct message *m, const uint8_t *key)
{
    return memcmp(m->old_key, key, KEY) == 0 || memcmp(m->new_key, key, KEY) == 0;
}

/* Whether the end holds an unanswered message of that sort that names the flight. */
static int holds_naming(const struct station *s, int acceptance, const uint8_t *key)
{
    size_t i;
    for (i = 0; i < REF_WAITINGS; i++) {
        const uint8_t *w = waiting_at(s, i);
        if (w[0] && message_in(s, w)->acceptance == acceptance && names(message_in(s, w), key)) return 1;
    }
    return 0;
}

static int retract_waits(const struct station *s, const uint8_t *key)
{
    size_t i;
    for (i = 0; i < REF_WAITINGS; i++) {
        const uint8_t *w = waiting_at(s, i);
        if (w[0] && message_in(s, w)->kind == RTA && !message_in(s, w)->acceptance && names(message_in(s, w), key)) return 1;
    }
    return 0;
}

static size_t unanswered(const struct station *s)
{
    size_t i, count = 0;
    for (i = 0; i < REF_WAITINGS; i++) count += waiting_at(s, i)[0];
    return count;
}

/* ---------------------------------------------------------------- the checks */

/* A flight of the sender's that one of the two tables has. */
static int flight_agrees(const struct station *sender, const struct station *receiver, const uint8_t *flight, int strictly)
{
    const uint8_t *here, *there;
    uint8_t key[KEY];
    key_of_flight(key, flight);
    here = flight_with(sender->m.sent, sender->sent_places, key);
    there = flight_with(receiver->m.received, receiver->received_places, key);
    if (here && there && memcmp(here, there, REF_FLIGHT) == 0) return 1;
    return !strictly && (holds_naming(sender, 0, key) || holds_naming(receiver, 1, key));
}

static int flights_agree(const struct station *sender, int strictly)
{
    const struct station *receiver = other(sender);
    size_t i;
    for (i = 0; i < sender->sent_places; i++) {
        const uint8_t *flight = sender->m.sent + i * REF_FLIGHT;
        if (flight[0] && !flight_agrees(sender, receiver, flight, strictly)) return 0;
    }
    for (i = 0; i < receiver->received_places; i++) {
        const uint8_t *flight = receiver->m.received + i * REF_FLIGHT;
        if (flight[0] && !flight_agrees(sender, receiver, flight, strictly)) return 0;
    }
    return 1;
}

/* What stands unanswered is what was sent, and none that is settled. */
static void check_unanswered(const struct station *s)
{
    size_t i;
    for (i = 0; i < REF_WAITINGS; i++) {
        const uint8_t *w = waiting_at(s, i);
        const struct message *m;
        if (!w[0]) continue;
        m = message_in(s, w);
        must(!m->settled, "2: a settled message is unanswered");
        must(number_in(w + 3) == m->length && memcmp(w + 5, m->text, m->length) == 0, "an unanswered text is not the one sent");
    }
}

static void check_world(void)
{
    must(flights_agree(&stations[0], 0), "1: a flight of A's differs, and no unanswered message names it");
    must(flights_agree(&stations[1], 0), "1: a flight of B's differs, and no unanswered message names it");
    check_unanswered(&stations[0]);
    check_unanswered(&stations[1]);
}

/* ---------------------------------------------------------------- calls */

#define LENT(s) (s)->m.head, REF_HEAD, (s)->m.sent, (s)->sent_places * REF_FLIGHT, (s)->m.received, \
    (s)->received_places * REF_FLIGHT, (s)->m.waiting, sizeof (s)->m.waiting, (s)->m.answers, sizeof (s)->m.answers

/* What is compared after a refusal: the tables up to their places. */
static struct memory kept;

static void keep(const struct station *s)
{
    memcpy(&kept, &s->m, offsetof(struct memory, sent));
    memcpy(kept.sent, s->m.sent, s->sent_places * REF_FLIGHT);
    memcpy(kept.received, s->m.received, s->received_places * REF_FLIGHT);
}

static int unchanged(const struct station *s)
{
    return memcmp(&kept, &s->m, offsetof(struct memory, sent)) == 0
        && memcmp(kept.sent, s->m.sent, s->sent_places * REF_FLIGHT) == 0
        && memcmp(kept.received, s->m.received, s->received_places * REF_FLIGHT) == 0;
}

static void after_call(const struct station *s, int number, uint64_t length, size_t room)
{
    happened.calls++;
    must(number >= 0 && number <= 14, "no such number");
    must(number != 1 && number != 3 && number != 4 && number != 6 && number != 12 && number != 14,
         "3: refused 1, 3, 4, 6, 12 or 14");
    must(number == 0 || (length == 0 && unchanged(s)), "4: a refusal changes something");
    must(length <= room, "longer than the room");
    check_world();
}

/* Mostly as much as is needed. */
static size_t some_room(void) { return once_in(12) ? chance(120) : WHOLE_ROOM; }

/* ---------------------------------------------------------------- the channel */

static void put_under_way(struct station *to, struct station *sender, struct message *about, int is_answer, const uint8_t *text,
                          size_t length)
{
    struct copy *c;
    if (once_in(10)) {
        happened.lost++;
        return;
    }
    if (under_way == COPIES) happened.lost++;
    c = &copies[under_way < COPIES ? under_way++ : chance(COPIES)];
    c->to = to;
    c->about = about;
    c->sender = sender;
    c->serial = about->serial;
    c->is_answer = is_answer;
    c->held_until = once_in(40) ? about->serial + chance(WINDOW) : 0;
    c->length = length;
    memcpy(c->text, text, length);
}

static void take_away(size_t i)
{
    under_way--;
    if (i < under_way) copies[i] = copies[under_way];
}

/* The message's sender has sent 400 later ones, so no copy may arrive any more. */
static int too_late(const struct copy *c) { return c->sender->count - c->serial - 1 >= WINDOW; }

static int held(const struct copy *c)
{
    return c->sender->count < c->held_until || (!c->is_answer && c->sender->count < c->about->held_until);
}

/* ---------------------------------------------------------------- sending */

/* Notes what was sent.  One in some is held back, so that it first arrives late, or the sender has to wait for it. */
static struct message *note_sent(struct station *s, size_t length)
{
    unsigned number = (unsigned)(s->count % 1000);
    struct message *m = &s->messages[number];
    uint8_t record[REF_RECORD];
    uint64_t place, hyphens;
    memset(m, 0, offsetof(struct message, text));
    memcpy(m->text, out, length);
    m->length = length;
    m->serial = s->count++;
    must(ref_read(out, length, record, sizeof record, &place, &hyphens) == 0, "what is sent is not read");
    must(number_in(record + 2 * 109) == number, "the number sent is not the next");
    m->kind = number_in(record);
    m->acceptance = m->kind == RTA && memcmp(out + 16, s->name, 4) != 0;
    keys_of_message(m, record);
    if (once_in(400)) m->held_until = s->count + (once_in(2) ? WINDOW - 1 : 100 + chance(WINDOW - 100));
    happened.sent[m->kind]++;
    happened.rounds += number == 999;
    happened.key_changed += memcmp(m->old_key, m->new_key, KEY) != 0;
    return m;
}

static void send(struct station *s, const char *draft, int broken)
{
    uint8_t record[REF_RECORD];
    uint64_t place, hyphens, length;
    size_t room = some_room();
    struct message *m;
    int number;
    must(ref_read((const uint8_t *)draft, strlen(draft), record, sizeof record, &place, &hyphens) == 0, "a draft is not read");
    if (broken) {
        unsigned which = chance(REF_NUMBERS);
        record[2 * which + 1] ^= (uint8_t)(1 + chance(255));
    }
    keep(s);
    number = s->f->send((const uint8_t *)draft, strlen(draft), record, sizeof record, LENT(s), out, room, &length);
    if (number == 0) {
        m = note_sent(s, length);
        after_call(s, number, length, room);
        put_under_way(other(s), s, m, 0, out, length);
        return;
    }
    happened.refused_send[number]++;
    after_call(s, number, length, room);
}

static void resend(struct station *s, unsigned number_asked)
{
    uint64_t length;
    size_t room = some_room();
    int number;
    keep(s);
    number = s->f->resend(number_asked, LENT(s), out, room, &length);
    happened.refused_resend[number % 15]++;
    must(unchanged(s), "resending changes something");
    after_call(s, number, length, room);
    if (number != 0) return;
    must(length == s->messages[number_asked].length && memcmp(out, s->messages[number_asked].text, length) == 0,
         "not the text that was sent");
    put_under_way(other(s), s, &s->messages[number_asked], 0, out, length);
}

static void resend_some(struct station *s)
{
    const uint8_t *w = waiting_at(s, chance(REF_WAITINGS));
    if (w[0])
        resend(s, number_in(w + 1));
    else if (once_in(6))
        resend(s, chance(1200));
}

/* ---------------------------------------------------------------- receiving */

static int answer_in_out(void)
{
    if (memcmp(out, "(LAM", 4) == 0) return BY_LAM;
    if (memcmp(out, "(RLA", 4) == 0) return BY_RLA;
    must(memcmp(out, "(LRM", 4) == 0, "what is given is no answer");
    return memcmp(out + 33, "57", 2) == 0 ? BY_57 : BY_62;
}

/* A message arrives with room, for the first time or not. */
static void note_arrival(const struct copy *c, unsigned highest_before, int answer)
{
    struct message *m = c->about;
    unsigned back = (highest_before + 1000 - (unsigned)(m->serial % 1000)) % 1000;
    happened.arrived[m->kind]++;
    happened.kind_answered[m->kind][answer]++;
    happened.repeated += m->arrived != 0;
    if (!m->arrived && back < 400) {
        happened.late_first++;
        happened.late_by_300 += back >= 300;
    }
    if (m->acceptance) must(answer == BY_LAM, "3: an acceptance is answered LRM");
    must(!m->arrived || m->arrived == 1 + answer, "a repeat is answered otherwise");
    m->arrived = 1 + answer;
}

static void receive_message(const struct copy *c)
{
    struct station *s = c->to;
    uint64_t length, place, hyphens;
    size_t room = some_room(), waited = unanswered(s);
    unsigned highest = number_in(s->m.head + 10);
    int retract = c->about->acceptance && !c->about->arrived && retract_waits(s, c->about->old_key), number;
    keep(s);
    number = s->f->receive(c->text, c->length, LENT(s), out, room, &length, &place, &hyphens);
    happened.refused_receive[number % 15]++;
    must(number == 0 || room < ENOUGH_ROOM, "2: a copy that arrives with room is not answered");
    if (number == 0) {
        must(length > 0, "2: a copy is not answered");
        note_arrival(c, highest, answer_in_out());
        happened.retired += unanswered(s) < waited;
        happened.crossed += (unsigned long)retract;
        happened.crossed_and_rejected += c->about->kind == RTA && answer_in_out() == BY_57;
    }
    after_call(s, number, length, room);
    if (number == 0) put_under_way(c->sender, c->sender, c->about, 1, out, length);
}

static void receive_answer(const struct copy *c)
{
    struct station *s = c->to;
    uint64_t length, place, hyphens;
    size_t room = some_room();
    int number;
    keep(s);
    number = s->f->receive(c->text, c->length, LENT(s), out, room, &length, &place, &hyphens);
    happened.refused_receive[number % 15]++;
    must(number == 0 || number == 5, "an answer is refused, and not by 5");
    must(length == 0, "an answer is answered");
    happened.answered_twice += number == 5;
    happened.answered[c->text[1] == 'R' ? RLA : c->text[2] == 'A' ? LAM : LRM]++;
    c->about->settled = 1;
    after_call(s, number, length, room);
}

/* A copy arrives; it may arrive again. */
static void deliver(size_t i)
{
    struct copy c = copies[i];
    if (too_late(&c)) {
        happened.expired++;
        take_away(i);
        return;
    }
    if (held(&c)) return;
    if (!once_in(4)) take_away(i);
    if (c.is_answer)
        receive_answer(&c);
    else
        receive_message(&c);
}

/* ---------------------------------------------------------------- what to send */

static const char *reference_to(const struct station *sender, unsigned number)
{
    static char text[16];
    sprintf(text, "%s/%s%03u", sender->name, other(sender)->name, number);
    return text;
}

/* Anything at all, right or not, about a flight of either table or of none. */
static void draft_anything(struct station *s, char *to)
{
    const uint8_t *flight = once_in(3) ? s->m.received + chance((unsigned)s->received_places) * REF_FLIGHT
                                       : s->m.sent + chance((unsigned)s->sent_places) * REF_FLIGHT;
    struct named n = flight[0] && !once_in(3) ? name_of(flight) : some_name();
    unsigned kind = EST + chance(5), number = flight[0] ? number_in(flight + (once_in(2) ? 2 : 4)) : chance(1000);
    if (once_in(4))
        draft_plan(to, &n);
    else {
        const char *reference = once_in(8) ? "CCCC/DDDD001" : reference_to(once_in(3) ? other(s) : s, number);
        draft_about(to, kind, reference, &n, some_code());
    }
}

/* Accepts a flight that the partner offers, if there is one. */
static int draft_acceptance(struct station *s, char *to)
{
    const uint8_t *flight = s->m.received + chance((unsigned)s->received_places) * REF_FLIGHT;
    struct named n;
    if (flight[0] != 2 || flight[1] != 1) return 0;
    n = name_of(flight);
    draft_about(to, RTA, reference_to(other(s), number_in(flight + 4)), &n, "");
    return 1;
}

/* Whether a message on the flight would only be refused, for one that is unanswered. */
static int is_busy(const struct station *s, const uint8_t *flight)
{
    uint8_t key[KEY];
    key_of_flight(key, flight);
    return holds_naming(s, 0, key);
}

static int is_full(const struct station *s)
{
    size_t i, used = 0;
    for (i = 0; i < s->sent_places; i++) used += s->m.sent[i * REF_FLIGHT] != 0;
    for (i = 0; i < REF_WAITINGS; i++) {
        const uint8_t *w = waiting_at(s, i);
        used += w[0] && message_in(s, w)->kind <= CPL;
    }
    return used >= s->sent_places;
}

/* A draft of something to send; 0 where it would probably be refused, which is tried now and then only. */
static int draft(struct station *s, char *to)
{
    const uint8_t *flight = s->m.sent + chance((unsigned)s->sent_places) * REF_FLIGHT;
    struct named n;
    unsigned kind;
    if (once_in(2) && draft_acceptance(s, to)) return 1;
    if (once_in(20)) {
        draft_anything(s, to);
        return 1;
    }
    if ((flight[0] ? is_busy(s, flight) : is_full(s)) && !once_in(15)) return 0;
    n = flight[0] ? name_of(flight) : some_name();
    if (!flight[0]) {
        draft_plan(to, &n);
        return 1;
    }
    kind = kind_for(flight);
    if (kind == RTA && !once_in(4)) return 0;           /* leave the partner time to accept */
    draft_about(to, kind, reference_to(s, number_in(flight + (kind == RTA ? 4 : 2))), &n, code_of(flight));
    return 1;
}

/* ---------------------------------------------------------------- worlds */

static int send_some(struct station *s)
{
    char text[TEXT];
    if (!draft(s, text)) return 0;
    send(s, text, once_in(30));
    return 1;
}

/* One of those that came last, or any. */
static void deliver_some(void)
{
    unsigned n = (unsigned)under_way, last = n < 8 ? n : 8;
    if (n > 0) deliver(once_in(3) ? chance(n) : n - 1 - chance(last));
}

/* For some hundred calls at a time nothing arrives. */
static int line_is_down(void) { return happened.calls / 300 % 12 == 0; }

static void step(void)
{
    struct station *s = &stations[chance(2)];
    unsigned what = chance(100);
    if (what < 40 && send_some(s)) return;
    if (what >= 40 && what < 45)
        resend_some(s);
    else if (!line_is_down())
        deliver_some();
}

/* Everything arrives, again and again, until nothing is unanswered. */
static void let_all_through(void)
{
    unsigned long tries;
    size_t i, k;
    for (tries = 0; unanswered(&stations[0]) + unanswered(&stations[1]) > 0; tries++) {
        must(tries < 100, "messages stay unanswered although all arrives");
        for (k = 0; k < 2; k++)
            for (i = 0; i < REF_WAITINGS; i++) {
                const uint8_t *w = waiting_at(&stations[k], i);
                if (!w[0]) continue;
                stations[k].messages[number_in(w + 1)].held_until = 0;
                resend(&stations[k], number_in(w + 1));
            }
        for (i = under_way; i-- > 0;)
            if (i < under_way) deliver(i);
    }
    must(flights_agree(&stations[0], 1) && flights_agree(&stations[1], 1), "nothing is unanswered and a flight differs");
    happened.settled_worlds++;
}

static void set_up(struct station *s, const struct implementation *f, const char *name, size_t sent, size_t received)
{
    memset(s, 0, sizeof *s);
    s->f = f;
    s->name = name;
    s->sent_places = sent;
    s->received_places = received;
}

static void start(const size_t *places)
{
    size_t k;
    set_up(&stations[0], &implementations[0], "AAAA", places[0], places[1]);
    set_up(&stations[1], &implementations[1], "BBBB", places[2], places[3]);
    for (k = 0; k < 2; k++) {
        struct station *s = &stations[k];
        must(s->f->set_up((const uint8_t *)s->name, 4, (const uint8_t *)other(s)->name, 4, LENT(s)) == 0, "set-up");
    }
    under_way = 0;
}

static void run(const size_t *places, unsigned long calls)
{
    unsigned long until = happened.calls + calls, quiet = happened.calls + 15000;
    start(places);
    aircraft_in_use = places[0] > 8 ? 60 : 8;
    while (happened.calls < until) {
        step();
        if (happened.calls < quiet) continue;
        let_all_through();
        quiet = happened.calls + 15000;
    }
    let_all_through();
}

/* ---------------------------------------------------------------- the report */

static int missing;

/* A thing that can happen, and how often it did. */
static void tell(const char *what, unsigned long count)
{
    printf("  %-44s %9lu%s\n", what, count, count ? "" : "   MISSING");
    missing += count == 0;
}

static void tell_refusals(const char *call, const unsigned long *counts, const int *can)
{
    char what[40];
    for (; *can; can++) {
        sprintf(what, "%s refused %d", call, *can);
        tell(what, counts[*can]);
    }
}

static void tell_answers(void)
{
    char what[40];
    unsigned kind, answer;
    for (kind = FPL; kind <= RTA; kind++)
        for (answer = 0; answer < 4; answer++) {
            /* Between partners only a retract that crosses an acceptance fails, and only FPL and CPL need a place. */
            int can = answer == BY_LAM ? kind != RTI
                    : answer == BY_RLA ? kind == RTI
                    : answer == BY_57 ? kind == RTA : kind <= CPL;
            sprintf(what, "%s answered %s", kind_names[kind], answer_names[answer]);
            if (can || happened.kind_answered[kind][answer]) tell(what, happened.kind_answered[kind][answer]);
        }
}

static void report(void)
{
    static const int send_can[] = { 2, 7, 8, 9, 10, 11, 13, 0 }, receive_can[] = { 2, 5, 0 }, resend_can[] = { 2, 5, 0 };
    unsigned kind;
    char what[40];
    printf("%lu calls, %s and %s\n", happened.calls, implementations[0].name, implementations[1].name);
    for (kind = FPL; kind <= RTA; kind++) {
        sprintf(what, "%s sent", kind_names[kind]);
        tell(what, happened.sent[kind]);
        sprintf(what, "%s arrived and answered", kind_names[kind]);
        tell(what, happened.arrived[kind]);
    }
    tell_answers();
    for (kind = RLA; kind <= LRM; kind++) {
        sprintf(what, "%s arrived", kind_names[kind]);
        tell(what, happened.answered[kind]);
    }
    tell_refusals("sending", happened.refused_send, send_can);
    tell_refusals("receiving", happened.refused_receive, receive_can);
    tell_refusals("resending", happened.refused_resend, resend_can);
    tell("numbers come round", happened.rounds);
    tell("keys changed", happened.key_changed);
    tell("offers retired by an acceptance", happened.retired);
    tell("acceptance arrives while a retract waits", happened.crossed);
    tell("retracts that crossed an acceptance, LRM 57", happened.crossed_and_rejected);
    tell("repeated arrivals", happened.repeated);
    tell("answers to what is answered", happened.answered_twice);
    tell("first arrivals of old numbers", happened.late_first);
    tell("of these 300 or more numbers late", happened.late_by_300);
    tell("copies lost", happened.lost);
    tell("copies too late to arrive", happened.expired);
    tell("all let through, all flights the same", happened.settled_worlds);
}

int main(int argc, char **argv)
{
    /* Places: A's sent and received, B's sent and received.  16 unanswered messages need as many flights. */
    static const size_t worlds[][4] = {
        { 3, 2, 2, 3 }, { 4, 2, 3, 3 }, { 2, 4, 4, 2 }, { 4, 3, 4, 2 }, { 3, 3, 3, 3 }, { 22, 20, 22, 20 }
    };
    unsigned long calls = argc > 2 ? strtoul(argv[2], NULL, 10) : 60000;
    size_t i;
    chance_from(argc > 1 ? strtoul(argv[1], NULL, 10) : 1);
    for (i = 0; i < sizeof worlds / sizeof *worlds; i++) run(worlds[i], i == 5 ? calls / 2 : calls);
    report();
    return missing != 0;
}
