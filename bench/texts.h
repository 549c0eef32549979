/* Texts made by the grammar of document 01, by chance, right or with a rule broken here and there. */
#ifndef TEXTS_H
#define TEXTS_H

#include <stddef.h>
#include <stdint.h>

enum { TEXT_ROOM = 4096 };

struct making {
    uint8_t text[TEXT_ROOM];
    size_t n;
    int full;                   /* all lengths are the highest */
    unsigned odd;               /* 0: every rule is kept.  Else each choice breaks its rule once in so many. */
};

/* A text of a kind (drafts.h).  The number is given ("AAAA/BBBB123"), or made up where it is NULL; so is the reference. */
void make_message(struct making *m, unsigned kind, const char *number, const char *reference);

/* Any bytes; bytes of messages; pieces of messages in any order. */
void make_rubbish(struct making *m);

/* A used record of a flight with the key given, or one made up where it is NULL.  It is well formed where odd is 0;
   else one of its fields may be odd. */
struct named;
void make_flight(uint8_t *flight, const struct named *key, unsigned odd);

#endif
