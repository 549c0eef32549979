/* Reads (and with "rewrite" writes again) each line of FILE, ROUNDS times; bench/count counts its instructions.

       count FILE ROUNDS read | rewrite | nothing */
#include <stdio.h>
#include <stdlib.h>
#include <string.h>

/* OURS reads by the proved reader, PACKED by the functions for C, which pack the record into 246 bytes: those of the library, or with
   -DPACKED=ref_read those of the end in C. Else the reader in C reads. */
#if defined OURS
size_t measured_read(const unsigned char *s, size_t n);
size_t measured_rewrite(const unsigned char *s, size_t n, unsigned char *out, size_t room);
#elif defined PACKED
#include "link.h"
int proved_read(const uint8_t *text, size_t text_len, uint8_t *record, size_t record_len, uint64_t *place, uint64_t *hyphens);
#else
#include "reader.h"
#endif

#if !defined OURS && !defined PACKED
/* The same of a record that measured_read gives, so that the record of either reader is used alike, and the sums have to be one. */
static size_t span(struct pq_span p) { return (size_t)(p.at ^ p.len); }
static size_t level(struct pq_level l) { return (size_t)(l.kind ^ l.figure); }
static size_t folded(const struct pq_record *r)
{
    return r->message_number ^ r->reference_number ^ r->lrm_code ^ r->own_figures.count ^ r->changed_figures.count
        ^ level(r->own_figures.level) ^ level(r->changed_figures.level) ^ level(r->crossing_level) ^ level(r->second_level)
        ^ r->point_form ^ span(r->number.sender) ^ span(r->own.aircraft) ^ span(r->own.route) ^ span(r->own.other)
        ^ span(r->changed.route) ^ span(r->changed.other) ^ span(r->field31) ^ span(r->lrm);
}
#endif

static size_t starts[100000], lengths[100000];

int main(int argc, char **argv)
{
    size_t lines = 0, sum = 0, n, i, at = 0;
    unsigned char *text, out[2000] = {0};
    long rounds, r;
    int rewrite;
    FILE *f;
    if (argc != 4 || !(f = fopen(argv[1], "rb"))) return 2;
    text = malloc(64 << 20);
    if (!text) return 2;
    n = fread(text, 1, 64 << 20, f);
    for (i = 0; i < n && lines < 100000; i++)
        if (text[i] == '\n') { starts[lines] = at; lengths[lines++] = i - at; at = i + 1; }
    rounds = atol(argv[2]);
    rewrite = !strcmp(argv[3], "rewrite");
    for (r = 0; r < rounds; r++)
        for (i = 0; i < lines; i++) {
            const unsigned char *s = text + starts[i];
            if (argv[3][0] == 'n') { sum += s[0]; continue; }
#if defined OURS
            if (rewrite) sum += measured_rewrite(s, lengths[i], out, sizeof out);
            else sum += measured_read(s, lengths[i]);
#elif defined PACKED
            {
                static uint8_t record[246];
                uint64_t place = 0, hyphens = 0;
                PACKED(s, lengths[i], record, sizeof record, &place, &hyphens);
                sum += place + hyphens + record[i % sizeof record];
            }
#else
            {
                struct pq_record record;
                size_t place = 0, hyphens = 0;
                sum += pq_read(s, lengths[i], &record, &place, &hyphens) ? place ^ hyphens : folded(&record);
            }
#endif
        }
    printf("%lu %lu %d\n", (unsigned long)lines, (unsigned long)sum, out[0] == 0);
    return 0;
}
