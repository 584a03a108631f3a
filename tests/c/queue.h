/* A downlink queue, lent, and downlinks in few words. */
#ifndef QUEUE_H
#define QUEUE_H

#include "chozukpima.h"
#include "lent.h"
#include "messages.h"

extern struct lent queue;

/* A downlink that waits. All that is left out is 0: prio plus zero, expOnly absent, one entry of no bytes for any counter. */
enum said { ABSENT, NO, YES };
struct item {
    uint64_t id, meter;
    double prio;
    enum said exp_only;
    unsigned counters; /* 0: not counter dependent */
    uint32_t counter[CHZ_COUNTERS];
    uint8_t length[CHZ_ENTRIES];
};

/* Its bytes are its ID and what follows, so that no two entries hold the same. */
chz_message message_of_item(const struct item *item);

/* An item that fills its place: sixteen counters and 800 bytes. */
struct item great_item(uint64_t id, uint64_t meter);

/* All zeros, or something in every byte: no place is used either way. */
void lend_empty_queue(uint8_t filling);
void lend_queue(const chz_queue *before);

/* What a call leaves: a message and its data in a place, the rest of which stays; and a place made free by its command alone. */
void expect_added(size_t place, const chz_message *m);
void expect_freed(size_t place);

/* The calls on what is lent. */
uint64_t add(void);
uint64_t cancel(uint64_t id);
uint64_t choose(uint64_t meter, uint32_t counter, uint8_t expected);
uint64_t sound(void);

/* An item is added and must take this place; or is refused. */
void add_item(const struct item *item, size_t place);
void refuse_item(const struct item *item, unsigned refused);

#define PLACED(place) ANSWER(CHZ_DONE, 0, place)
#define CHOSEN(place, from, len) ANSWER(CHZ_DONE, 0, (uint64_t)(place) | (uint64_t)(len) << 8 | (uint64_t)(from) << 16)
#define ALL_OF_QUEUE &queue, &message, &data

#endif
