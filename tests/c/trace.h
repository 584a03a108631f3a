/* A trace's start and records, lent: the sum of the gaps before, a frame and a room to write it into, and bytes to read. */
#ifndef TRACE_H
#define TRACE_H

#include "chozukpima.h"
#include "lent.h"
#include "messages.h"

extern struct lent time_sum, frame, bytes;

/* The shortest and the longest frame: 13 and 4,108 bytes. What their payloads hold is not looked at. */
#define SHORTEST "=MIOTYB01 01000000 C1"
#define LONGEST "=MIOTYB01 00100000 4096*C0"

void lend_time(uint64_t sum);
void expect_time(uint64_t sum);
void lend_frame(const char *spelled);
void lend_bytes(const char *spelled);

/* The calls on what is lent; all of it is judged. */
void writes_record(uint64_t gap, uint64_t station, uint64_t answer);
void reads_record(uint64_t answer);
void opens_trace(uint64_t answer);

#define REFUSED(number) ANSWER(number, 0, 0)
#define LENGTH(len) ANSWER(CHZ_DONE, 0, len)
#define RECORDED(len, frame_len, station) ANSWER(CHZ_DONE, 0, (uint64_t)(len) | (uint64_t)(frame_len) << 16 | (uint64_t)(station) << 32)

#endif
