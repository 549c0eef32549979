/* Contents of messages by chance: for programs that drive ends. */
#ifndef DRAFTS_H
#define DRAFTS_H

#include <stdint.h>

/* Kinds of message, as they stand in a record. */
enum { FPL = 1, CPL, EST, CHG, CNL, RTI, RTA, RLA, LAM, LRM, KINDS };

/* The same numbers for the same seed. */
void chance_from(uint64_t seed);
unsigned chance(unsigned of);           /* 0 to of - 1 */
int once_in(unsigned n);
const char *one_of(const char *const *texts, unsigned n);

/* The key of a flight. */
struct named { char aircraft[8], departure[5], destination[5]; };
struct named name_of(const uint8_t *flight);
struct named some_name(void);
extern unsigned aircraft_in_use;        /* how many different ones some_name gives */

const char *some_code(void);            /* "/A1234" or nothing */
const char *code_of(const uint8_t *flight);

/* A draft is a text that is read; its number is XXXX/YYYY000.  At most 600 bytes. */
void draft_plan(char *to, const struct named *n);
void draft_about(char *to, unsigned kind, const char *reference, const struct named *n, const char *code);

/* A kind that may be sent of a flight in its state. */
unsigned kind_for(const uint8_t *flight);

#endif
