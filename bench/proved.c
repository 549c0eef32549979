/* The proved library behind the interface of link.h, so that the programs here can drive it. */
#include "ends.h"
#include "../include/pamiqsun.h"

int proved_read(const uint8_t *text, size_t text_len, uint8_t *record, size_t record_len, uint64_t *place, uint64_t *hyphens)
{
    size_t at, before;
    int number = (int)pamiqsun_read(text, text_len, record, record_len, &at, &before);
    *place = at;
    *hyphens = before;
    return number;
}

int proved_write(const uint8_t *bytes, size_t bytes_len, const uint8_t *record, size_t record_len, uint8_t *out, size_t out_len,
                 uint64_t *length)
{
    size_t size;
    int number = (int)pamiqsun_write(bytes, bytes_len, record, record_len, out, out_len, &size);
    *length = size;
    return number;
}

int proved_set_up(const uint8_t *ours, size_t ours_len, const uint8_t *partners, size_t partners_len, uint8_t *head, size_t head_len,
                  uint8_t *sent, size_t sent_len, uint8_t *received, size_t received_len, uint8_t *unanswered,
                  size_t unanswered_len, uint8_t *answers, size_t answers_len)
{
    return (int)pamiqsun_set_up(ours, ours_len, partners, partners_len, head, head_len, sent, sent_len, received, received_len,
                                unanswered, unanswered_len, answers, answers_len);
}

int proved_send(const uint8_t *bytes, size_t bytes_len, const uint8_t *record, size_t record_len, uint8_t *head, size_t head_len,
                uint8_t *sent, size_t sent_len, uint8_t *received, size_t received_len, uint8_t *unanswered, size_t unanswered_len,
                uint8_t *answers, size_t answers_len, uint8_t *out, size_t out_len, uint64_t *length)
{
    size_t size;
    int number = (int)pamiqsun_send(bytes, bytes_len, record, record_len, head, head_len, sent, sent_len, received, received_len,
                                    unanswered, unanswered_len, answers, answers_len, out, out_len, &size);
    *length = size;
    return number;
}

int proved_receive(const uint8_t *text, size_t text_len, uint8_t *head, size_t head_len, uint8_t *sent, size_t sent_len,
                   uint8_t *received, size_t received_len, uint8_t *unanswered, size_t unanswered_len, uint8_t *answers,
                   size_t answers_len, uint8_t *out, size_t out_len, uint64_t *length, uint64_t *place, uint64_t *hyphens)
{
    size_t size, at, before;
    int number = (int)pamiqsun_receive(text, text_len, head, head_len, sent, sent_len, received, received_len, unanswered,
                                       unanswered_len, answers, answers_len, out, out_len, &size, &at, &before);
    *length = size;
    *place = at;
    *hyphens = before;
    return number;
}

int proved_resend(uint64_t number, uint8_t *head, size_t head_len, uint8_t *sent, size_t sent_len, uint8_t *received,
                  size_t received_len, uint8_t *unanswered, size_t unanswered_len, uint8_t *answers, size_t answers_len,
                  uint8_t *out, size_t out_len, uint64_t *length)
{
    size_t size;
    int result = (int)pamiqsun_resend(number, head, head_len, sent, sent_len, received, received_len, unanswered, unanswered_len,
                                      answers, answers_len, out, out_len, &size);
    *length = size;
    return result;
}
