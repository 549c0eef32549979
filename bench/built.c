/* Builds each of the ten types from parts that stand in other places than a text has them, and records that break a rule or lack
   room, as a host would: 123 numbers, and the bytes in which the parts lie.  A line of the output has the record's name, what the
   writer gave, and the buffer up to the fourth byte past the text: these bytes are as they were. */
#include <stdio.h>
#include <string.h>

#include "ends.h"
#include "../include/pamiqsun.h"

/* END chooses whose writer it is: that of the library, by its checked call, or with link.c that of ref. */
#ifndef END
#define END pamiqsun_checked
#endif

enum { ROOM = 400, SHOWN_PAST = 4, SLOT = 10, FAR_SLOT = 900 };

/* What the parts say. Each stands in a slot of its own, at its start. */
enum slot {
    DIGITS, RECEIVER, SENDER, REFERENCE_DIGITS, AIRCRAFT, CODE, RULES, FLIGHT, COUNT, MODEL, WAKE, EQUIPMENT, SURVEILLANCE,
    DEPARTURE, TIME, POINT, OVER, CROSSING, SECOND, SENSE, SPEED, LEVEL, ROUTE, DESTINATION, ELAPSED, ALTERNATE, ALTERNATE_2,
    INDICATOR, OTHER, FIELD_31, FIELD_32, REASON, NOTHING_OTHER, COUNT_OF_ONE, MINUTE_SIXTY, SLOTS
};

static const char *const words[SLOTS] = {
    "991", "CZWG", "KZMP", "603", "DAL122", "4322", "I", "S", "2", "B738", "M", "SDFGRW", "C",
    "KFAR", "1230", "HML", "2042", "F350", "A120", "B", "N0450", "F330", "DCT HML", "CYOW", "0215", "KMSP", "CYWG",
    "RMK", "TEST FLT", "SECTOR 12", "RIGHT TURN", "57", "0", "1", "1260"
};

static uint8_t bytes[SLOTS * SLOT];

static void lay_out_slots(void)
{
    size_t k;
    memset(bytes, '.', sizeof bytes);
    for (k = 0; k < SLOTS; k++) memcpy(bytes + k * SLOT, words[k], strlen(words[k]));
}

/* ---------------------------------------------------------------- what a record is made of */

enum kind { OF_NO_TYPE, FPL, CPL, EST, CHG, CNL, RTI, RTA, RLA, LAM, LRM };
enum { FLIGHT_LEVEL = 1, ALTITUDE = 2, NAMED_POINT = 1 };

struct record {
    uint8_t packed[PAMIQSUN_RECORD];
};

/* Where a part of fields 07 to 18 is kept: the message's own, and that of the fields 22. */
#define OWN(part) (PAMIQSUN_OWN + 2 * PAMIQSUN_IN_##part)
#define CHANGED(part) (PAMIQSUN_CHANGES + 2 * PAMIQSUN_IN_##part)

static void put(struct record *r, size_t which, size_t number)
{
    r->packed[2 * which] = (uint8_t)(number >> 8);
    r->packed[2 * which + 1] = (uint8_t)(number & 255);
}

static void put_part(struct record *r, size_t which, size_t at, size_t length)
{
    put(r, which, at);
    put(r, which + 1, length);
}

static void say(struct record *r, size_t which, enum slot slot)
{
    put_part(r, which, (size_t)slot * SLOT, strlen(words[slot]));
}

static void leave_out(struct record *r, size_t which) { put_part(r, which, 0, 0); }

/* A level's figure stands behind its kind. */
static void put_level(struct record *r, size_t which, size_t kind, size_t figure)
{
    put(r, which, kind);
    put(r, which + 1, figure);
}

/* ---------------------------------------------------------------- records that have a text */

static struct record numbered(enum kind kind)
{
    struct record r = { { 0 } };
    put(&r, PAMIQSUN_KIND, kind);
    say(&r, PAMIQSUN_SENDER, SENDER);
    say(&r, PAMIQSUN_RECEIVER, RECEIVER);
    say(&r, PAMIQSUN_DIGITS, DIGITS);
    put(&r, PAMIQSUN_NUMBER, 991);
    return r;
}

/* The reference goes the other way. */
static void refer(struct record *r)
{
    say(r, PAMIQSUN_REFERENCE_SENDER, RECEIVER);
    say(r, PAMIQSUN_REFERENCE_RECEIVER, SENDER);
    say(r, PAMIQSUN_REFERENCE_DIGITS, REFERENCE_DIGITS);
    put(r, PAMIQSUN_REFERENCE, 603);
}

static struct record answering(enum kind kind)
{
    struct record r = numbered(kind);
    refer(&r);
    return r;
}

static void name_flight(struct record *r)
{
    say(r, OWN(AIRCRAFT), AIRCRAFT);
    say(r, OWN(DEPARTURE), DEPARTURE);
    say(r, OWN(DESTINATION), DESTINATION);
}

static struct record referring(enum kind kind)
{
    struct record r = answering(kind);
    name_flight(&r);
    return r;
}

/* Fields 08 to 10. */
static void describe_flight(struct record *r)
{
    say(r, OWN(RULES), RULES);
    say(r, OWN(FLIGHT), FLIGHT);
    say(r, OWN(COUNT), COUNT);
    put(r, PAMIQSUN_OWN_COUNT, 2);
    say(r, OWN(MODEL), MODEL);
    say(r, OWN(WAKE), WAKE);
    say(r, OWN(EQUIPMENT), EQUIPMENT);
    say(r, OWN(SURVEILLANCE), SURVEILLANCE);
}

static void say_other(struct record *r)
{
    say(r, OWN(INDICATOR), INDICATOR);
    say(r, OWN(OTHER), OTHER);
}

/* What an FPL and a CPL have alike. */
static struct record planned(enum kind kind)
{
    struct record r = numbered(kind);
    name_flight(&r);
    say(&r, OWN(CODE), CODE);
    describe_flight(&r);
    say(&r, OWN(SPEED), SPEED);
    say(&r, OWN(LEVEL), LEVEL);
    put_level(&r, PAMIQSUN_OWN_LEVEL_KIND, FLIGHT_LEVEL, 330);
    say(&r, OWN(ROUTE), ROUTE);
    say_other(&r);
    return r;
}

static void estimate(struct record *r)
{
    say(r, PAMIQSUN_POINT, POINT);
    put(r, PAMIQSUN_POINT_FORM, NAMED_POINT);
    say(r, PAMIQSUN_OVER, OVER);
    say(r, PAMIQSUN_CROSSING, CROSSING);
    put_level(r, PAMIQSUN_CROSSING_KIND, FLIGHT_LEVEL, 350);
}

static struct record fpl(void)
{
    struct record r = planned(FPL);
    say(&r, OWN(TIME), TIME);
    say(&r, OWN(ELAPSED), ELAPSED);
    say(&r, OWN(ALTERNATE), ALTERNATE);
    say(&r, OWN(ALTERNATE_2), ALTERNATE_2);
    return r;
}

static struct record cpl(void)
{
    struct record r = planned(CPL);
    estimate(&r);
    return r;
}

static struct record est(void)
{
    struct record r = referring(EST);
    estimate(&r);
    say(&r, PAMIQSUN_SECOND, SECOND);
    put_level(&r, PAMIQSUN_SECOND_KIND, ALTITUDE, 120);
    say(&r, PAMIQSUN_SENSE, SENSE);
    return r;
}

/* The fields 22: 08, 09, 13, 15, 16 and 18. */
static void change(struct record *r)
{
    say(r, CHANGED(RULES), RULES);
    say(r, CHANGED(COUNT), COUNT);
    put(r, PAMIQSUN_CHANGED_COUNT, 2);
    say(r, CHANGED(MODEL), MODEL);
    say(r, CHANGED(WAKE), WAKE);
    say(r, CHANGED(DEPARTURE), DEPARTURE);
    say(r, CHANGED(TIME), TIME);
    say(r, CHANGED(SPEED), SPEED);
    say(r, CHANGED(LEVEL), LEVEL);
    put_level(r, PAMIQSUN_CHANGED_LEVEL_KIND, FLIGHT_LEVEL, 330);
    say(r, CHANGED(ROUTE), ROUTE);
    say(r, CHANGED(DESTINATION), DESTINATION);
    say(r, CHANGED(ALTERNATE), ALTERNATE);
    say(r, CHANGED(INDICATOR), NOTHING_OTHER);
}

static struct record chg(void)
{
    struct record r = referring(CHG);
    say(&r, OWN(TIME), TIME);
    say_other(&r);
    change(&r);
    return r;
}

static struct record cnl(void)
{
    struct record r = referring(CNL);
    say(&r, OWN(INDICATOR), NOTHING_OTHER);
    return r;
}

static struct record rti(void)
{
    struct record r = referring(RTI);
    say(&r, OWN(CODE), CODE);
    say(&r, PAMIQSUN_FIELD_31, FIELD_31);
    say(&r, PAMIQSUN_FIELD_32, FIELD_32);
    return r;
}

static struct record rta(void)
{
    struct record r = referring(RTA);
    say(&r, PAMIQSUN_FIELD_31, FIELD_31);
    return r;
}

static struct record rla(void)
{
    struct record r = answering(RLA);
    say(&r, PAMIQSUN_FIELD_31, FIELD_31);
    return r;
}

static struct record lam(void) { return answering(LAM); }

static struct record lrm(void)
{
    struct record r = answering(LRM);
    say(&r, PAMIQSUN_REASON, REASON);
    put(&r, PAMIQSUN_REASON_NUMBER, 57);
    return r;
}

/* ---------------------------------------------------------------- records whose parts do not go with the type, or lie outside */

static struct record of_no_type(void)
{
    struct record r = fpl();
    put(&r, PAMIQSUN_KIND, OF_NO_TYPE);
    return r;
}

static struct record without_departure(void)
{
    struct record r = est();
    leave_out(&r, OWN(DEPARTURE));
    return r;
}

static struct record lam_with_sector(void)
{
    struct record r = lam();
    say(&r, PAMIQSUN_FIELD_31, FIELD_31);
    return r;
}

static struct record part_outside(void)
{
    struct record r = rla();
    put_part(&r, PAMIQSUN_FIELD_31, FAR_SLOT * SLOT, 5);
    return r;
}

/* A part of no bytes is absent wherever it is said to stand. */
static struct record absent_part_outside(void)
{
    struct record r = lam();
    put_part(&r, PAMIQSUN_FIELD_31, FAR_SLOT * SLOT, 0);
    return r;
}

static struct record fpl_with_reference(void)
{
    struct record r = fpl();
    refer(&r);
    return r;
}

static struct record cnl_without_reference(void)
{
    struct record r = cnl();
    leave_out(&r, PAMIQSUN_REFERENCE_SENDER);
    leave_out(&r, PAMIQSUN_REFERENCE_RECEIVER);
    leave_out(&r, PAMIQSUN_REFERENCE_DIGITS);
    put(&r, PAMIQSUN_REFERENCE, 0);
    return r;
}

/* ---------------------------------------------------------------- records that break a rule of a field */

static struct record count_of_one(void)
{
    struct record r = fpl();
    say(&r, OWN(COUNT), COUNT_OF_ONE);
    put(&r, PAMIQSUN_OWN_COUNT, 1);
    return r;
}

static struct record minute_sixty(void)
{
    struct record r = fpl();
    say(&r, OWN(TIME), MINUTE_SIXTY);
    return r;
}

static struct record second_alternate_alone(void)
{
    struct record r = fpl();
    leave_out(&r, OWN(ALTERNATE));
    return r;
}

static struct record aircraft_in_company(void)
{
    struct record r = chg();
    say(&r, CHANGED(AIRCRAFT), AIRCRAFT);
    return r;
}

/* ---------------------------------------------------------------- records whose numbers say something else than their parts */

static struct record another_figure(void)
{
    struct record r = cpl();
    put_level(&r, PAMIQSUN_CROSSING_KIND, FLIGHT_LEVEL, 330);
    return r;
}

static struct record another_kind_of_level(void)
{
    struct record r = cpl();
    put_level(&r, PAMIQSUN_CROSSING_KIND, ALTITUDE, 350);
    return r;
}

static struct record another_number(void)
{
    struct record r = rta();
    put(&r, PAMIQSUN_NUMBER, 992);
    return r;
}

/* ---------------------------------------------------------------- the run */

struct line {
    const char *name;
    struct record (*make)(void);
    size_t room;
};

static const struct line lines[] = {
    { "FPL", fpl, ROOM },
    { "CPL", cpl, ROOM },
    { "EST", est, ROOM },
    { "CHG", chg, ROOM },
    { "CNL", cnl, ROOM },
    { "RTI", rti, ROOM },
    { "RTA", rta, ROOM },
    { "RLA", rla, ROOM },
    { "LAM", lam, ROOM },
    { "LRM", lrm, ROOM },
    { "a room of one byte less", lam, 28 },
    { "just the room", lam, 29 },
    { "no room", lam, 0 },
    { "of no type", of_no_type, ROOM },
    { "without a departure", without_departure, ROOM },
    { "a LAM with a sector", lam_with_sector, ROOM },
    { "a part outside", part_outside, ROOM },
    { "an absent part outside", absent_part_outside, ROOM },
    { "a count of 1", count_of_one, ROOM },
    { "minute 60", minute_sixty, ROOM },
    { "the second alternate alone", second_alternate_alone, ROOM },
    { "07 in company", aircraft_in_company, ROOM },
    { "an FPL with a reference", fpl_with_reference, ROOM },
    { "a CNL without one", cnl_without_reference, ROOM },
    { "another figure", another_figure, ROOM },
    { "another kind of level", another_kind_of_level, ROOM },
    { "another number", another_number, ROOM },
    { "a broken rule and no room", of_no_type, 0 },
};

/* Prints the text and the bytes past it; those farther on are as they were too, or it says so. */
static void show(const uint8_t *out, size_t out_len, size_t length)
{
    size_t k, shown = length < out_len - SHOWN_PAST ? length + SHOWN_PAST : out_len;
    fwrite(out, 1, shown, stdout);
    for (k = shown; k < out_len; k++)
        if (out[k] != '#') {
            fputs(" and more", stdout);
            break;
        }
    putchar('\n');
}

/* A refusal has to give length 0, so that only bytes that are as they were are shown. */
static void write_line(const struct line *line)
{
    struct record r = line->make();
    uint8_t out[ROOM];
    size_t length = ROOM;
    int number;
    memset(out, '#', sizeof out);
    number = (int)FUNCTION(END, write)(bytes, sizeof bytes, r.packed, sizeof r.packed, out, line->room, &length);
    if (number == 0)
        printf("%s written ", line->name);
    else
        printf("%s refused %d ", line->name, number);
    show(out, sizeof out, length);
}

int main(void)
{
    size_t k;
    lay_out_slots();
    for (k = 0; k < sizeof lines / sizeof *lines; k++) write_line(&lines[k]);
    return 0;
}
