/* A reader of the ten air traffic coordination messages of document 01. */
#ifndef PQ_READER_H
#define PQ_READER_H

#include <stddef.h>
#include <stdint.h>

enum pq_kind {
    PQ_NONE, PQ_FPL, PQ_CPL, PQ_EST, PQ_CHG, PQ_CNL,
    PQ_RTI, PQ_RTA, PQ_RLA, PQ_LAM, PQ_LRM
};

enum pq_level_kind { PQ_NO_LEVEL, PQ_F, PQ_A, PQ_S, PQ_M, PQ_VFR };

enum pq_point_form { PQ_NO_POINT, PQ_NAME, PQ_BEARING, PQ_DEGREES, PQ_MINUTES };

/* A part of the text: its bytes are s[at] to s[at + len - 1].  0, 0 where there is none. */
struct pq_span { uint16_t at, len; };

struct pq_level { uint16_t kind, figure; };

/* "AAAA/BBBB123" */
struct pq_number { struct pq_span sender, receiver, digits; };

/* The parts of fields 07 to 18, but for 14. */
struct pq_fields {
    struct pq_span aircraft, code;                          /* 07 */
    struct pq_span rules, flight;                           /* 08 */
    struct pq_span count, model, wake;                      /* 09 */
    struct pq_span equipment, surveillance;                 /* 10 */
    struct pq_span departure, time;                         /* 13 */
    struct pq_span speed, level, route;                     /* 15 */
    struct pq_span destination, elapsed, alternate, alternate2; /* 16 */
    struct pq_span indicator, other;                        /* 18 */
};

struct pq_crossing { struct pq_span point, over, crossing, second, sense; };  /* 14 */

struct pq_figures { uint16_t count; struct pq_level level; };

struct pq_record {
    unsigned kind;
    struct pq_number number, reference;
    struct pq_fields own;
    struct pq_crossing field14;
    struct pq_fields changed;                               /* within 22 */
    struct pq_span field31, field32, lrm;
    uint16_t message_number, reference_number;
    struct pq_figures own_figures;
    uint16_t point_form;
    struct pq_level crossing_level, second_level;
    struct pq_figures changed_figures;
    uint16_t lrm_code;
};

/* 0: the n bytes at s are one of the ten messages, and *out says which and where its parts are.
   1: they are not.  *place is the length of the longest beginning that some message also has,
      *hyphens the number of '-' in it, and *out is all zero.
   Nothing outside s[0] to s[n - 1] is read.  *place and *hyphens are written only with 1. */
int pq_read(const unsigned char *s, size_t n, struct pq_record *out, size_t *place, size_t *hyphens);

#endif
