/* Which entry of a queue is chosen, and which of its data: by meter, counter and response flag; the highest prio, then the smallest
 * queue ID. It goes once. */
#include <string.h>

#include "cases.h"
#include "queue.h"

enum { NONE = -1, MOST = 4 };
#define GREAT_ID (UINT64_C(1) << 63)
#define LEAST 1.401298464324817e-45 /* the least single above zero */
#define HIGHEST 3.4028234663852886e38

/* Items in the places 0 and on, one call, and which place it answers with where its data stand, or NONE. An item without a meter is none. */
#define M 7
#define FOR(to, number, rank, ...) { .id = number, .meter = to, .prio = rank, __VA_ARGS__ }
#define W(number, rank, ...) FOR(M, number, rank, __VA_ARGS__)
static const struct {
    const char *name;
    struct item items[MOST];
    uint64_t meter;
    uint32_t counter;
    uint8_t expected;
    int place;
    unsigned from, len;
} races[] = {
    { "an empty queue", { { 0 } }, M, 1, 1, NONE, 0, 0 },
    { "one alone", { W(5, 0, .length = { 3 }) }, M, 1, 0, 0, 80, 3 },
    { "one alone, of no bytes", { W(5, 0) }, M, 1, 0, 0, 80, 0 },
    { "one alone, of 245 bytes", { W(5, 0, .length = { 245 }) }, M, 1, 0, 0, 80, 245 },
    { "the highest prio", { W(1, 1), W(2, 3), W(3, 2) }, M, 1, 0, 1, 80, 0 },
    { "the highest prio, in the first place", { W(9, 3), W(2, 1), W(3, 2) }, M, 1, 0, 0, 80, 0 },
    { "the highest prio, in the last place", { W(9, 1), W(2, 2), W(30, 3) }, M, 1, 0, 2, 80, 0 },
    { "equal prios: the smallest ID, not the lowest place", { W(9, 1), W(4, 1), W(7, 1) }, M, 1, 0, 1, 80, 0 },
    { "equal prios: the smallest ID, last", { W(9, 0), W(7, 0), W(4, 0) }, M, 1, 0, 2, 80, 0 },
    { "equal prios: IDs have no sign", { W(GREAT_ID, 0), W(GREAT_ID - 1, 0), W(UINT64_MAX, 0) }, M, 1, 0, 1, 80, 0 },
    { "equal prios: ID 0", { W(1, 0), W(0, 0) }, M, 1, 0, 1, 80, 0 },
    { "equal prios: IDs that differ in their upper half", { W(1 + (UINT64_C(1) << 32), 0), W(2, 0) }, M, 1, 0, 1, 80, 0 },
    { "prio before ID", { W(1, 1), W(GREAT_ID, 2) }, M, 1, 0, 1, 80, 0 },
    { "minus zero is no less than plus zero", { W(3, -0.0), W(5, 0.0) }, M, 1, 0, 0, 80, 0 },
    { "plus zero is no more than minus zero", { W(5, 0.0), W(3, -0.0) }, M, 1, 0, 1, 80, 0 },
    { "both zeros the other way round", { W(5, -0.0), W(3, 0.0) }, M, 1, 0, 1, 80, 0 },
    { "negative prios", { W(1, -2), W(2, -1), W(3, -3) }, M, 1, 0, 1, 80, 0 },
    { "a negative prio and zero", { W(1, -1), W(2, 0) }, M, 1, 0, 1, 80, 0 },
    { "a negative prio and a positive one", { W(1, -5), W(2, 0.5) }, M, 1, 0, 1, 80, 0 },
    { "the least prio above zero", { W(1, 0), W(2, LEAST) }, M, 1, 0, 1, 80, 0 },
    { "the greatest prio below zero", { W(1, -LEAST), W(2, -0.0) }, M, 1, 0, 1, 80, 0 },
    { "two prios next to zero", { W(1, LEAST), W(2, 2 * LEAST) }, M, 1, 0, 1, 80, 0 },
    { "the greatest prio and the next", { W(1, 3.4028232635611926e38), W(2, HIGHEST) }, M, 1, 0, 1, 80, 0 },
    { "the least prio and zero", { W(1, -HIGHEST), W(2, -0.0) }, M, 1, 0, 1, 80, 0 },
    { "another meter", { FOR(8, 1, 9), FOR(6, 2, 9) }, M, 1, 1, NONE, 0, 0 },
    { "another meter with a higher prio", { FOR(8, 1, 9), W(2, 1), FOR(6, 3, 9) }, M, 1, 0, 1, 80, 0 },
    { "meters with the same lower half", { FOR(M + (UINT64_C(1) << 32), 1, 0), FOR(GREAT_ID + M, 2, 0) }, M, 1, 0, NONE, 0, 0 },
    { "a meter of eight bytes", { FOR(0x70B3D50000000002, 1, 0), FOR(0x70B3D50000000001, 2, 0) }, 0x70B3D50000000001, 1, 0, 1, 80, 0 },
    { "expOnly without the flag", { W(1, 0, .exp_only = YES) }, M, 1, 0, NONE, 0, 0 },
    { "expOnly with the flag", { W(1, 0, .exp_only = YES) }, M, 1, 1, 0, 80, 0 },
    { "expOnly with a flag of 2", { W(1, 0, .exp_only = YES) }, M, 1, 2, 0, 80, 0 },
    { "expOnly with a flag of 128", { W(1, 0, .exp_only = YES) }, M, 1, 128, 0, 80, 0 },
    { "expOnly false without the flag", { W(1, 0, .exp_only = NO) }, M, 1, 0, 0, 80, 0 },
    { "expOnly false with the flag", { W(1, 0, .exp_only = NO) }, M, 1, 255, 0, 80, 0 },
    { "expOnly has a higher prio, without the flag", { W(1, 1), W(2, 5, .exp_only = YES), W(3, 2, .exp_only = NO) }, M, 1, 0, 2, 80, 0 },
    { "expOnly has a higher prio, with the flag", { W(1, 1), W(2, 5, .exp_only = YES), W(3, 2, .exp_only = NO) }, M, 1, 1, 1, 80, 0 },
    { "the flag prefers nothing", { W(1, 2), W(2, 1, .exp_only = YES) }, M, 1, 1, 0, 80, 0 },
    { "the counter is named", { W(1, 0, .counters = 1, .counter = { 5 }, .length = { 4 }) }, M, 5, 0, 0, 80, 4 },
    { "the counter is not named", { W(1, 0, .counters = 2, .counter = { 4, 6 }) }, M, 5, 1, NONE, 0, 0 },
    { "the second counter", { W(1, 0, .counters = 3, .counter = { 4, 5, 6 }, .length = { 10, 20, 30 }) }, M, 5, 0, 0, 90, 20 },
    { "the last counter", { W(1, 0, .counters = 3, .counter = { 4, 5, 6 }, .length = { 10, 20, 30 }) }, M, 6, 0, 0, 110, 30 },
    { "data of no bytes between others", { W(1, 0, .counters = 3, .counter = { 4, 5, 6 }, .length = { 10, 0, 30 }) }, M, 5, 0, 0, 90, 0 },
    { "a counter that repeats: the first", { W(1, 0, .counters = 4, .counter = { 9, 5, 5, 5 }, .length = { 1, 2, 3, 4 }) }, M, 5, 0, 0, 81, 2 },
    { "a counter that repeats from the first on", { W(1, 0, .counters = 2, .counter = { 5, 5 }, .length = { 1, 2 }) }, M, 5, 0, 0, 80, 1 },
    { "counter 0", { W(1, 0, .counters = 2, .counter = { 1, 0 }, .length = { 1, 2 }) }, M, 0, 0, 0, 81, 2 },
    { "counter 0 is no place that is not used", { W(1, 0, .counters = 1, .counter = { 1 }) }, M, 0, 0, NONE, 0, 0 },
    { "counter 2^32 - 1", { W(1, 0, .counters = 1, .counter = { UINT32_MAX }, .length = { 2 }) }, M, UINT32_MAX, 0, 0, 80, 2 },
    { "a counter in a place that is not used", { W(1, 0, .counters = 1, .counter = { 4, 5 }) }, M, 5, 0, NONE, 0, 0 },
    { "counters that differ in one byte", { W(1, 0, .counters = 2, .counter = { 0x01020305, 0x02020304 }) }, M, 0x01020304, 0, NONE, 0, 0 },
    { "any counter, whatever stands beside it", { W(1, 0, .counter = { 4 }, .length = { 6, 7 }) }, M, 5, 0, 0, 80, 6 },
    { "one for this counter, one for any: the higher prio", { W(1, 1), W(2, 2, .counters = 1, .counter = { 5 }) }, M, 5, 0, 1, 80, 0 },
    { "one for this counter, one for any: the smaller ID", { W(1, 0), W(2, 0, .counters = 1, .counter = { 5 }) }, M, 5, 0, 0, 80, 0 },
    { "the higher prio is for another counter", { W(1, 1), W(2, 2, .counters = 1, .counter = { 6 }) }, M, 5, 0, 0, 80, 0 },
    { "everything at once", { FOR(8, 1, 9), W(2, 8, .exp_only = YES), W(3, 7, .counters = 1, .counter = { 4 }),
      W(4, -1, .exp_only = NO, .counters = 2, .counter = { 4, 5 }, .length = { 7, 5 }) }, M, 5, 0, 3, 87, 5 },
};

/* What is chosen is gone: its ID can't be cancelled any more. */
static void run(size_t i)
{
    start(races[i].name);
    lend_empty_queue(0);
    for (size_t at = 0; at < MOST && races[i].items[at].meter; at++) add_item(&races[i].items[at], at);
    if (races[i].place == NONE) {
        JUDGE(choose(races[i].meter, races[i].counter, races[i].expected), ANSWER(CHZ_NOTHING_SUITABLE, 0, 0), &queue);
        return;
    }
    expect_freed((size_t)races[i].place);
    JUDGE(choose(races[i].meter, races[i].counter, races[i].expected), CHOSEN(races[i].place, races[i].from, races[i].len), &queue);
    JUDGE(cancel(races[i].items[races[i].place].id), ANSWER(CHZ_NO_QUEUE_ID, 0, 0), &queue);
}

/* Sixteen entries of 50 bytes, each counter in turn: the data stand where the answer says. */
static void each_of_sixteen(void)
{
    const struct item great = great_item(1, M);
    const chz_message m = message_of_item(&great);
    for (unsigned i = 0; i < 16; i++) {
        start("one of sixteen counters");
        lend_empty_queue(FILLING);
        add_item(&great, 0);
        expect_freed(0);
        const uint64_t answer = choose(M, i, 0);
        JUDGE(answer, CHOSEN(0, 80 + 50 * i, 50), &queue);
        if (chz_refused(answer)) continue;
        const uint8_t *shown = queue.at + CHZ_MESSAGE + chz_chosen_from(answer);
        JUDGE(memcmp(shown, m.dl.bytes + 50 * i, 50) == 0, true, &queue);
    }
}

/* A full queue, two meters, prios in no order: each meter's entries go by prio and ID, and every one of them once. */
static double prio_of(unsigned i)
{
    return (double)(i * 7 % 5) - 2;
}

static bool goes_before(unsigned i, unsigned j)
{
    return prio_of(i) > prio_of(j) || (prio_of(i) == prio_of(j) && (i * 11 % 32) < (j * 11 % 32));
}

static void drain(void)
{
    bool gone[CHZ_QUEUE] = { false };
    start("a full queue to its end");
    lend_empty_queue(0);
    for (unsigned i = 0; i < CHZ_QUEUE; i++) {
        const struct item item = { .id = i * 11 % 32, .meter = M + i % 2, .prio = prio_of(i), .length = { (uint8_t)i } };
        add_item(&item, i);
    }
    for (unsigned call = 0; call < CHZ_QUEUE; call++) {
        const unsigned meter = M + call % 2;
        unsigned best = CHZ_QUEUE;
        for (unsigned i = call % 2; i < CHZ_QUEUE; i += 2)
            if (!gone[i] && (best == CHZ_QUEUE || goes_before(i, best))) best = i;
        gone[best] = true;
        expect_freed(best);
        JUDGE(choose(meter, call, 0), CHOSEN(best, 80, best), &queue);
    }
    JUDGE(choose(M, 0, 1), ANSWER(CHZ_NOTHING_SUITABLE, 0, 0), &queue);
    JUDGE(choose(M + 1, 0, 1), ANSWER(CHZ_NOTHING_SUITABLE, 0, 0), &queue);
    JUDGE(sound(), ANSWER(CHZ_DONE, 0, 1), &queue);
}

/* Of the entry all but its command still stands there, until its place is taken. */
static void still_stands(void)
{
    chz_message m = message_of_item(&(struct item){ .id = 3, .meter = M, .prio = 0.5, .exp_only = NO, .length = { 2 } });
    m.dl_data_que.format = 9;
    m.dl_data_que.has_dl_wind_req = m.dl_data_que.dl_wind_req = 1;
    start("what was chosen still stands");
    lend_empty_queue(0);
    lend_message(&m);
    expect_added(0, &m);
    JUDGE(add(), PLACED(0), ALL_OF_QUEUE);
    expect_freed(0);
    JUDGE(choose(M, 77, 0), CHOSEN(0, 80, 2), &queue);
    m.command = 0;
    JUDGE(memcmp(queue.at, &m, CHZ_MESSAGE) == 0, true, &queue);
    add_item(&(struct item){ .id = 3, .meter = M }, 0);
}

void choices(void)
{
    for (size_t i = 0; i < COUNT(races); i++) run(i);
    each_of_sixteen();
    drain();
    still_stands();
}
