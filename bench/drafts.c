#include "drafts.h"

#include <stdio.h>
#include <string.h>

/* ---------------------------------------------------------------- chance */

static uint64_t chance_state;

void chance_from(uint64_t seed)
{
    chance_state = 0x9e3779b97f4a7c15u ^ seed;
    if (chance_state == 0) chance_state = 1;            /* it would stay 0 */
}

unsigned chance(unsigned of)
{
    chance_state ^= chance_state << 13;
    chance_state ^= chance_state >> 7;
    chance_state ^= chance_state << 17;
    return (unsigned)(chance_state * 0x2545f4914f6cdd1du >> 33) % of;
}

int once_in(unsigned n) { return chance(n) == 0; }

/* ---------------------------------------------------------------- drafts */

#define DRAFT_NUMBER "XXXX/YYYY000"

const char *one_of(const char *const *texts, unsigned n) { return texts[chance(n)]; }

static void cut_blanks(char *to, const uint8_t *from, size_t n)
{
    while (n > 0 && from[n - 1] == ' ') n--;
    memcpy(to, from, n);
    to[n] = 0;
}

struct named name_of(const uint8_t *flight)
{
    struct named it;
    cut_blanks(it.aircraft, flight + 6, 7);
    cut_blanks(it.departure, flight + 17, 4);
    cut_blanks(it.destination, flight + 25, 4);
    return it;
}

static const char *const aircraft[] = { "F1", "AAL72", "UAL1021", "N12345", "C7", "DLH499", "2X", "KLM3" };
unsigned aircraft_in_use = 8;

static const char *some_aircraft(void)
{
    static char numbered[16];
    if (aircraft_in_use <= 8) return one_of(aircraft, aircraft_in_use);
    sprintf(numbered, "N%u", 10 + chance(aircraft_in_use));
    return numbered;
}

struct named some_name(void)
{
    struct named it;
    strcpy(it.aircraft, some_aircraft());
    strcpy(it.departure, once_in(4) ? "KPDX" : "KSEA");
    strcpy(it.destination, once_in(4) ? "CYVR" : "CYOW");
    return it;
}

const char *some_code(void)
{
    static const char *const codes[] = { "", "/A1234", "/A7777", "/A0000" };
    return one_of(codes, 4);
}

/* The code that the flight holds, or none. */
const char *code_of(const uint8_t *flight)
{
    static char code[8];
    if (flight[13] == ' ' || once_in(2)) return once_in(60) ? "/A4321" : "";
    sprintf(code, "/A%.4s", (const char *)flight + 13);
    return code;
}

static const char *some_field14(void)
{
    static const char *const fields[] = {
        "HML/2042F350", "46N078W/0000A055F370B", "4620N07805W/2359S0350M0400A", "AB123045/1200M1200"
    };
    return one_of(fields, 4);
}
static const char *some_field15(void)
{
    static const char *const fields[] = { "N0450F350 J20 SEA", "K0200VFR DCT", "M082A055 X/Y 'Q' 1+1:2?" };
    return one_of(fields, 3);
}
static const char *some_field18(void)
{
    static const char *const fields[] = { "0", "DOF/121115", "TALT/KMSP RMK/X" };
    return one_of(fields, 3);
}
static const char *some_field16(void)
{
    static const char *const rests[] = { "", "0430", "0430 CYUL", " CYUL CYYZ", "9959 CYUL CYYZ" };
    return one_of(rests, 5);
}

/* Each draw stands in a statement of its own, so that a seed means the same run with any compiler. */
void draft_plan(char *to, const struct named *n)
{
    int filed = once_in(2);
    const char *code = some_code(), *field15 = some_field15(), *field18 = some_field18();
    if (filed) {
        const char *flight = once_in(2) ? "S" : "";
        unsigned time = chance(60);
        const char *rest = some_field16();
        sprintf(to, "(FPL" DRAFT_NUMBER "-%s%s-I%s-2B738/M-SDE3/LB1-%s%04u-%s-%s%s-%s)", n->aircraft, code, flight, n->departure,
                time, field15, n->destination, rest, field18);
    } else {
        const char *field14 = some_field14();
        sprintf(to, "(CPL" DRAFT_NUMBER "-%s%s-VN-C172/L-S/C-%s-%s-%s-%s-%s)", n->aircraft, code, n->departure, field14, field15,
                n->destination, field18);
    }
}

static void draft_change(char *to, const char *reference, const struct named *n)
{
    to += sprintf(to, "(CHG" DRAFT_NUMBER "%s-%s-%s-%s%s", reference, n->aircraft, n->departure, n->destination,
                  once_in(4) ? "-RMK/OWN" : "");
    if (once_in(3)) {
        const char *aircraft = once_in(2) ? n->aircraft : some_aircraft(), *code = some_code();
        sprintf(to, "-07/%s%s)", aircraft, code);
        return;
    }
    if (once_in(3)) to += sprintf(to, "-08/%s", once_in(2) ? "V" : "YG");
    if (once_in(6)) to += sprintf(to, "-09/%uC172/L", 2 + chance(98));
    else if (once_in(6)) to += sprintf(to, "-09/B7%u8/H", chance(8));
    if (once_in(3)) to += sprintf(to, "-10/S/C%u", chance(3));
    if (once_in(3)) {
        const char *departure = once_in(2) ? "KPDX" : "KSEA";
        to += sprintf(to, "-13/%s%04u", departure, chance(60));
    }
    if (once_in(3)) to += sprintf(to, "-15/%s", some_field15());
    if (once_in(3)) {
        const char *destination = once_in(2) ? "CYVR" : "CYOW";
        to += sprintf(to, "-16/%s%s", destination, some_field16());
    }
    sprintf(to, "-18/%s)", some_field18());
}

void draft_about(char *to, unsigned kind, const char *reference, const struct named *n, const char *code)
{
    const char *time;
    switch (kind) {
    case CHG:
        draft_change(to, reference, n);
        break;
    case EST:
        sprintf(to, "(EST" DRAFT_NUMBER "%s-%s%s-%s-%s-%s)", reference, n->aircraft, code, n->departure, some_field14(),
                n->destination);
        break;
    case CNL:
        time = once_in(2) ? "1200" : "";
        sprintf(to, "(CNL" DRAFT_NUMBER "%s-%s-%s%s-%s-%s)", reference, n->aircraft, n->departure, time, n->destination,
                some_field18());
        break;
    case RTI:
        sprintf(to, "(RTI" DRAFT_NUMBER "%s-%s%s-%s-%s-SECTOR %u-TRACK)", reference, n->aircraft, code, n->departure,
                n->destination, chance(100));
        break;
    default:
        sprintf(to, "(RTA" DRAFT_NUMBER "%s-%s-%s-%s-S)", reference, n->aircraft, n->departure, n->destination);
        break;
    }
}

/* What may be sent of a flight in its state. */
unsigned kind_for(const uint8_t *flight)
{
    if (flight[0] == 1) return once_in(3) ? EST : once_in(12) ? CNL : CHG;
    if (flight[1] == 1) return RTA;
    return flight[1] == 0 && !once_in(5) ? RTI : CNL;
}
