/* One end of a coordination link, by document 01: reader, writer, set-up, sending, receiving and resending, on numbers and
   byte slices.  Written from the rules alone, to be compared with another implementation of them.

   Each slice is a pointer and a length.  Slices of one call do not overlap.  Each function returns document 01's number: 0
   where it did what was asked.  After any other number every lent byte is what it was, *length is 0, and *place and *hyphens
   are 0 unless the number is 1. */
#ifndef REF_LINK_H
#define REF_LINK_H

#include <stddef.h>
#include <stdint.h>

/* Document 01's refusal numbers. */
enum ref_number {
    REF_DONE = 0,
    REF_NOT_READ = 1,           /* text not derived by the rules */
    REF_NO_ROOM = 2,            /* text or answer longer than the lent buffer */
    REF_UNITS = 3,              /* units or numbers of message and reference do not go together */
    REF_STALE = 4,              /* stale number, or one answered RLA on a text that is no RTI */
    REF_NOT_WAITING = 5,        /* answer or resend names nothing unanswered */
    REF_WRONG_ANSWER = 6,       /* LAM to an RTI, RLA to another, LRM to an acceptance */
    REF_NAMED = 7,              /* an unanswered message names this flight */
    REF_SIXTEEN = 8,            /* 16 unanswered */
    REF_TOO_FAR = 9,            /* an unanswered message is 400 or more numbers back */
    REF_CONDITION = 10,         /* applying condition fails at the sender */
    REF_FULL = 11,              /* flights sent and unanswered FPL and CPL fill the table */
    REF_MEMORY = 12,            /* lent memory of wrong size or not well formed */
    REF_CONTENT = 13,           /* content breaks a field rule, or is an answer that is to be sent */
    REF_NAMES = 14              /* set-up with units equal or not four letters */
};

/* A record of a message is REF_NUMBERS numbers of two bytes, high byte first, in the order of struct pq_record in reader.h.
   A part is two of them: where it begins in the bytes that go with the record, and its length.  Length 0: it is absent.

   index  name                 index  name                 index  name
     0    kind                  41    own destination       83    changed time
     1    number sender         43    own elapsed           85    changed speed
     3    number receiver       45    own alternate         87    changed level
     5    number digits         47    own alternate2        89    changed route
     7    reference sender      49    own indicator         91    changed destination
     9    reference receiver    51    own other             93    changed elapsed
    11    reference digits      53    point                 95    changed alternate
    13    own aircraft          55    over                  97    changed alternate2
    15    own code              57    crossing              99    changed indicator
    17    own rules             59    second               101    changed other
    19    own flight            61    sense                103    field 31
    21    own count             63    changed aircraft     105    field 32
    23    own model             65    changed code         107    lrm
    25    own wake              67    changed rules        109    message number
    27    own equipment         69    changed flight       110    reference number
    29    own surveillance      71    changed count        111    own count's figure
    31    own departure         73    changed model        112    own level's kind, 113 its figure
    33    own time              75    changed wake         114    form of the point
    35    own speed             77    changed equipment    115    crossing's kind, 116 its figure
    37    own level             79    changed surveillance 117    second's kind, 118 its figure
    39    own route             81    changed departure    119    changed count's figure
                                                           120    changed level's kind, 121 its figure
                                                           122    lrm's figure

   1 to 108 are parts (the index is that of the beginning, the length stands behind it), the others single numbers.
   "changed" is within field 22.  Kinds: 0 none, 1 FPL, 2 CPL, 3 EST, 4 CHG, 5 CNL, 6 RTI, 7 RTA, 8 RLA, 9 LAM, 10 LRM.  Kinds
   of level: 0 none, 1 F, 2 A, 3 S, 4 M, 5 VFR (figure 0).  Forms of point: 0 none, 1 name, 2 name with bearing, 3 degrees,
   4 degrees with minutes. */
enum { REF_NUMBERS = 123, REF_RECORD = 2 * REF_NUMBERS };

/* The lent memory: the head is our unit's name, the partner's, the next number, the highest number received. */
enum {
    REF_HEAD = 12, REF_FLIGHT = 768, REF_FLIGHTS = 32, REF_WAITING = 1280, REF_WAITINGS = 16, REF_ANSWERS = 1000,
    REF_LONGEST = 1077          /* bytes of the longest text that is read */
};

/* 12 (the record's size), 1.  A refused text leaves the record as it was. */
int ref_read(const uint8_t *text, size_t text_len, uint8_t *record, size_t record_len, uint64_t *place, uint64_t *hyphens);

/* 12 (the record's size), 13, 2. */
int ref_write(const uint8_t *bytes, size_t bytes_len, const uint8_t *record, size_t record_len, uint8_t *out, size_t out_len,
              uint64_t *length);

/* 12 for sizes only, 14. */
int ref_set_up(const uint8_t *ours, size_t ours_len, const uint8_t *partners, size_t partners_len, uint8_t *head,
               size_t head_len, uint8_t *sent, size_t sent_len, uint8_t *received, size_t received_len, uint8_t *unanswered,
               size_t unanswered_len, uint8_t *answers, size_t answers_len);

/* 12, 13, 8, 9, 7, 10, 11, 2.  The number in the record is not looked at: the link gives it. */
int ref_send(const uint8_t *bytes, size_t bytes_len, const uint8_t *record, size_t record_len, uint8_t *head, size_t head_len,
             uint8_t *sent, size_t sent_len, uint8_t *received, size_t received_len, uint8_t *unanswered,
             size_t unanswered_len, uint8_t *answers, size_t answers_len, uint8_t *out, size_t out_len, uint64_t *length);

/* 12, 1, 3, then 5, 6 or 4, then 2.  *length is 0 after an answer. */
int ref_receive(const uint8_t *text, size_t text_len, uint8_t *head, size_t head_len, uint8_t *sent, size_t sent_len,
                uint8_t *received, size_t received_len, uint8_t *unanswered, size_t unanswered_len, uint8_t *answers,
                size_t answers_len, uint8_t *out, size_t out_len, uint64_t *length, uint64_t *place, uint64_t *hyphens);

/* 12, 5, 2. */
int ref_resend(uint64_t number, uint8_t *head, size_t head_len, uint8_t *sent, size_t sent_len, uint8_t *received,
               size_t received_len, uint8_t *unanswered, size_t unanswered_len, uint8_t *answers, size_t answers_len,
               uint8_t *out, size_t out_len, uint64_t *length);

#endif
