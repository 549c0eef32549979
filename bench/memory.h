/* Whether the memory of one link is well formed, by document 01. */
#ifndef PQ_MEMORY_H
#define PQ_MEMORY_H

#include <stddef.h>

enum { PQ_FLIGHT = 768, PQ_FLIGHTS = 32, PQ_WAITING = 1280, PQ_WAITINGS = 16, PQ_ANSWERS = 1000, PQ_HEAD = 12 };

/* 1: the head (12 bytes: our unit, the partner's, next number, highest received), the flights sent and received, the
   unanswered messages and the given answers are all of a right size and well formed.  0: they are not.
   No byte is read outside of them. */
int pq_memory(const unsigned char *head, size_t head_size, const unsigned char *sent, size_t sent_size,
              const unsigned char *received, size_t received_size, const unsigned char *waiting, size_t waiting_size,
              const unsigned char *answers, size_t answers_size);

/* The same for one table of flights, for the unanswered messages (the head is only looked at for its names), and for the
   answers. */
int pq_flights(const unsigned char *table, size_t n);
int pq_waiting(const unsigned char *table, size_t n, const unsigned char *head);
int pq_answers(const unsigned char *answers, size_t n);

#endif
