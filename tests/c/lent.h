/* Buffers to lend, each ending at a page that must not be touched, and the cases that are counted. */
#ifndef LENT_H
#define LENT_H

#include <stdbool.h>
#include <stddef.h>
#include <stdint.h>

enum { LENT_MOST = 32768 }; /* a queue has 31,488 bytes */

struct lent {
    uint8_t *at; /* what is lent */
    size_t len;
    uint8_t *end;                 /* the page that must not be touched */
    uint8_t expected[LENT_MOST]; /* what it must hold after the call: at first what it holds before */
};

void lend(struct lent *l, const void *bytes, size_t len);
void lend_filled(struct lent *l, uint8_t filling, size_t len);
void expect(struct lent *l, size_t from, const void *bytes, size_t len);

/* A case has a name, then a call, then its judgement: the answer and all that was lent. */
void start(const char *name);
void judge(uint64_t answer, uint64_t expected, struct lent *const *lent);
void prepare_cases(void);
int end_cases(void);

/* The floating point mode of all that follows, beside the masks that every program has. */
enum { DENORMALS_ARE_ZERO = 0x0040, FLUSH_TO_ZERO = 0x8000, ROUND_DOWN = 0x2000 };
void set_mode(unsigned mode);

#define JUDGE(answer, expected, ...) judge(answer, expected, (struct lent *const[]){ __VA_ARGS__, NULL })
#define ANSWER(refused, happened, value) ((uint64_t)(refused) | (uint64_t)(happened) << 8 | (uint64_t)(value) << 16)
#define COUNT(list) (sizeof(list) / sizeof *(list))

#endif
