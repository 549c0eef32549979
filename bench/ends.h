/* The functions of one implementation, so that programs can drive any.  The names are those of link.h behind a prefix. */
#ifndef ENDS_H
#define ENDS_H

#include "link.h"

typedef int read_function(const uint8_t *text, size_t, uint8_t *record, size_t, uint64_t *place, uint64_t *hyphens);
typedef int write_function(const uint8_t *bytes, size_t, const uint8_t *record, size_t, uint8_t *out, size_t,
                           uint64_t *length);
typedef int set_up_function(const uint8_t *ours, size_t, const uint8_t *partners, size_t, uint8_t *head, size_t, uint8_t *sent,
                            size_t, uint8_t *received, size_t, uint8_t *unanswered, size_t, uint8_t *answers, size_t);
typedef int send_function(const uint8_t *bytes, size_t, const uint8_t *record, size_t, uint8_t *head, size_t, uint8_t *sent,
                          size_t, uint8_t *received, size_t, uint8_t *unanswered, size_t, uint8_t *answers, size_t,
                          uint8_t *out, size_t, uint64_t *length);
typedef int receive_function(const uint8_t *text, size_t, uint8_t *head, size_t, uint8_t *sent, size_t, uint8_t *received,
                             size_t, uint8_t *unanswered, size_t, uint8_t *answers, size_t, uint8_t *out, size_t,
                             uint64_t *length, uint64_t *place, uint64_t *hyphens);
typedef int resend_function(uint64_t number, uint8_t *head, size_t, uint8_t *sent, size_t, uint8_t *received, size_t,
                            uint8_t *unanswered, size_t, uint8_t *answers, size_t, uint8_t *out, size_t, uint64_t *length);

struct implementation {
    const char *name;
    read_function *read;
    write_function *write;
    set_up_function *set_up;
    send_function *send;
    receive_function *receive;
    resend_function *resend;
};

#define IMPLEMENTATION(prefix) IMPLEMENTATION_NAMED(prefix)
#define IMPLEMENTATION_NAMED(prefix) \
    { #prefix, prefix##_read, prefix##_write, prefix##_set_up, prefix##_send, prefix##_receive, prefix##_resend }

/* One function of an implementation, for programs that need no more of it: of ref, or of pamiqsun_checked, which is the library as
   a host calls it.  The one gives numbers as uint64_t, the other as size_t: on x86-64 these are one type. */
#define FUNCTION(prefix, name) FUNCTION_NAMED(prefix, name)
#define FUNCTION_NAMED(prefix, name) prefix##_##name

/* The implementation that is compared. */
read_function proved_read;
write_function proved_write;
set_up_function proved_set_up;
send_function proved_send;
receive_function proved_receive;
resend_function proved_resend;

#endif
