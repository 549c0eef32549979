/*
 * A small bench host: two ends of a link in one program. Each line of the file is a text that the first end is asked to send, as if
 * read from a plan; what the link gives is carried to the second end, and the answer back. Printed is what went over the line.
 *
 *     host FILE
 */
#include <stdio.h>
#include <stdlib.h>
#include <string.h>

#include "pamiqsun.h"

enum { PLACES = 4 };

struct end {
    uint8_t head[PAMIQSUN_HEAD];
    uint8_t sent[PLACES * PAMIQSUN_FLIGHT];
    uint8_t received[PLACES * PAMIQSUN_FLIGHT];
    uint8_t unanswered[PAMIQSUN_UNANSWERED];
    uint8_t answers[PAMIQSUN_ANSWERS];
};

static void set_up(struct end *e, const char *ours, const char *partners)
{
    size_t n = pamiqsun_checked_set_up((const uint8_t *)ours, strlen(ours), (const uint8_t *)partners, strlen(partners), e->head,
                                       sizeof e->head, e->sent, sizeof e->sent, e->received, sizeof e->received, e->unanswered,
                                       sizeof e->unanswered, e->answers, sizeof e->answers);
    if (n != PAMIQSUN_DONE) {
        fprintf(stderr, "set-up refused %zu\n", n);
        exit(1);
    }
}

/* What the text says is sent under the link's own next number. */
static size_t send_like(struct end *e, const uint8_t *text, size_t length, uint8_t *out, size_t room, size_t *given)
{
    uint8_t record[PAMIQSUN_RECORD];
    size_t place, hyphens;
    size_t n = pamiqsun_checked_read(text, length, record, sizeof record, &place, &hyphens);
    if (n != PAMIQSUN_DONE) {
        printf("not read at %zu, hyphens %zu\n", place, hyphens);
        return n;
    }
    return pamiqsun_checked_send(text, length, record, sizeof record, e->head, sizeof e->head, e->sent, sizeof e->sent, e->received,
                                 sizeof e->received, e->unanswered, sizeof e->unanswered, e->answers, sizeof e->answers, out, room,
                                 given);
}

static size_t receive(struct end *e, const uint8_t *text, size_t length, uint8_t *out, size_t room, size_t *given)
{
    size_t place, hyphens;
    return pamiqsun_checked_receive(text, length, e->head, sizeof e->head, e->sent, sizeof e->sent, e->received, sizeof e->received,
                                    e->unanswered, sizeof e->unanswered, e->answers, sizeof e->answers, out, room, given, &place,
                                    &hyphens);
}

static void print(const char *who, const uint8_t *text, size_t length)
{
    printf("%s %.*s\n", who, (int)length, (const char *)text);
}

int main(int argc, char **argv)
{
    static struct end ours, theirs;
    static char line[4096];
    FILE *file = argc == 2 ? fopen(argv[1], "r") : NULL;
    if (file == NULL) {
        fprintf(stderr, "usage: host FILE\n");
        return 2;
    }
    set_up(&ours, "KZMP", "CZWG");
    set_up(&theirs, "CZWG", "KZMP");
    while (fgets(line, sizeof line, file) != NULL) {
        uint8_t text[PAMIQSUN_LONGEST], answer[PAMIQSUN_LONGEST];
        size_t text_len, answer_len, none, n;
        n = send_like(&ours, (const uint8_t *)line, strcspn(line, "\n"), text, sizeof text, &text_len);
        if (n != PAMIQSUN_DONE) {
            printf("refused %zu\n", n);
            continue;
        }
        print("KZMP", text, text_len);
        n = receive(&theirs, text, text_len, answer, sizeof answer, &answer_len);
        if (n != PAMIQSUN_DONE) {
            printf("not taken %zu\n", n);
            continue;
        }
        print("CZWG", answer, answer_len);
        n = receive(&ours, answer, answer_len, text, sizeof text, &none);
        if (n != PAMIQSUN_DONE)
            printf("answer not taken %zu\n", n);
    }
    fclose(file);
    return 0;
}
