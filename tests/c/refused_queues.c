/* Queue calls refused for what is lent, records that may not be queued, chz_sound's no, and contents that no call made. */
#include <math.h>
#include <string.h>

#include "cases.h"
#include "queue.h"
#include "whole.h"

enum { METER = 7 };
static const struct item waiting = { .id = 5, .meter = METER, .length = { 3 } };

static void lend_waiting(void)
{
    const chz_message m = message_of_item(&waiting);
    lend_message(&m);
}

/* Of a queue in another length nothing is looked at, and it is not sound. */
static void each_length(void)
{
    static const size_t lengths[] = { 0, 1, sizeof(chz_message), sizeof(chz_queue) - 1, sizeof(chz_queue) + 1, LENT_MOST };
    for (size_t i = 0; i < 2 * COUNT(lengths); i++) {
        start("a queue of a wrong length");
        lend_filled(&queue, i % 2 ? CHZ_DL_DATA_QUE : 0, lengths[i / 2]);
        lend_waiting();
        JUDGE(add(), ANSWER(CHZ_INVALID, 0, 0), ALL_OF_QUEUE);
        JUDGE(cancel(5), ANSWER(CHZ_INVALID, 0, 0), &queue);
        JUDGE(choose(METER, 1, 1), ANSWER(CHZ_INVALID, 0, 0), &queue);
        JUDGE(chz_value(sound()), 0, &queue);
    }
}

static void each_message_length(void)
{
    static const size_t lengths[] = { 0, 1, CHZ_MESSAGE - 1, CHZ_MESSAGE + 1, sizeof(chz_message) };
    const chz_message m = message_of_item(&waiting);
    lend_empty_queue(0);
    for (size_t i = 0; i < COUNT(lengths); i++) {
        start("a message of a wrong length is not queued");
        lend_message(&m);
        lend(&message, &m, lengths[i]);
        JUDGE(add(), ANSWER(CHZ_INVALID, 0, 0), ALL_OF_QUEUE);
    }
}

/* As many bytes as it says are enough; of more, no more are taken. */
static void each_data_length(void)
{
    static const size_t lengths[] = { 0, 1, 64, 79, 80, 82, 83, 84, CHZ_DATA, 4096 };
    chz_message m = message_of_item(&waiting);
    for (size_t i = 0; i < COUNT(lengths); i++) {
        uint8_t bytes[LENT_MOST];
        memset(bytes, 0x55, sizeof bytes);
        memcpy(bytes, m.data, data_said(&m));
        start("data of another length than the downlink says");
        lend_empty_queue(FILLING);
        lend(&message, &m, CHZ_MESSAGE);
        lend(&data, bytes, lengths[i]);
        const bool enough = lengths[i] >= data_said(&m);
        if (enough) expect_added(0, &m);
        JUDGE(add(), enough ? PLACED(0) : ANSWER(CHZ_INVALID, 0, 0), ALL_OF_QUEUE);
    }
}

#define NOTHING NULL, 0
#define LENT(l) l.at, l.len

static void nothing_lent(void)
{
    lend_empty_queue(0);
    lend_waiting();
    start("no queue");
    JUDGE(chz_add(NOTHING, LENT(message), LENT(data)), ANSWER(CHZ_INVALID, 0, 0), ALL_OF_QUEUE);
    JUDGE(chz_add(NOTHING, NOTHING, NOTHING), ANSWER(CHZ_INVALID, 0, 0), ALL_OF_QUEUE);
    JUDGE(chz_cancel(NOTHING, 5), ANSWER(CHZ_INVALID, 0, 0), NULL);
    JUDGE(chz_choose(NOTHING, METER, 1, 1), ANSWER(CHZ_INVALID, 0, 0), NULL);
    JUDGE(chz_value(chz_sound(NOTHING)), 0, NULL);
    start("no message");
    JUDGE(chz_add(LENT(queue), NOTHING, LENT(data)), ANSWER(CHZ_INVALID, 0, 0), ALL_OF_QUEUE);
    start("no data");
    JUDGE(chz_add(LENT(queue), LENT(message), NOTHING), ANSWER(CHZ_INVALID, 0, 0), ALL_OF_QUEUE);
}

/* A record of another command is 15, also its Rsp and its Cmp. */
static void each_other_command(void)
{
    lend_empty_queue(0);
    for (const struct whole *whole = wholes; whole < wholes + WHOLES; whole++) {
        const chz_message m = whole_message(whole);
        if (whole->command == CHZ_DL_DATA_QUE) continue;
        start(whole->payload);
        lend_message(&m);
        JUDGE(add(), ANSWER(CHZ_INVALID, 0, 0), ALL_OF_QUEUE);
        lend(&data, m.data, CHZ_DATA);
        JUDGE(add(), ANSWER(CHZ_INVALID, 0, 0), ALL_OF_QUEUE);
    }
}

/* Each makes a bad record of the first dlDataQue among the wholes: two counters, two entries, all fields. */
#define EDIT(name, edit) static void name(chz_message *m) { edit; }
EDIT(no_command, m->command = 24)
EDIT(greatest_command, m->command = 255)
EDIT(no_entries, m->dl_data_que.entries = 0)
EDIT(seventeen_entries, m->dl_data_que.entries = 17)
EDIT(greatest_entries, m->dl_data_que.entries = 255)
EDIT(two_for_any, m->dl_data_que.cnt_depend = 0)
EDIT(mark_over_one, m->dl_data_que.cnt_depend = 2)
EDIT(flag_over_one, m->dl_data_que.exp_only = 2)
EDIT(flag_mark_over_one, m->dl_data_que.has_exp_only = 255)
EDIT(absent_but_true, m->dl_data_que.has_response_exp = 0)
EDIT(no_single, m->dl_data_que.prio = 0.1)
EDIT(far_whole, m->dl_data_que.prio = 16777217)
EDIT(no_number, m->dl_data_que.prio = NAN)
EDIT(endless, m->dl_data_que.prio = INFINITY)
EDIT(entry_too_long, m->dl.length[1] = 246)
EDIT(greatest_length, m->dl.length[0] = 255)
EDIT(too_much_together, m->dl_data_que.entries = 4; memset(m->dl.length, 245, 3); m->dl.length[3] = 66)

static const struct edited {
    const char *name;
    void (*edit)(chz_message *);
} spoilt[] = {
    { "no entries", no_entries },
    { "17 entries", seventeen_entries },
    { "255 entries", greatest_entries },
    { "two entries for any counter", two_for_any },
    { "cntDepend of 2", mark_over_one },
    { "expOnly of 2", flag_over_one },
    { "expOnly's mark of 255", flag_mark_over_one },
    { "an absent flag that is true", absent_but_true },
    { "prio 0.1", no_single },
    { "prio 2^24 + 1", far_whole },
    { "prio no number", no_number },
    { "prio endless", endless },
    { "an entry of 246 bytes", entry_too_long },
    { "an entry of 255 bytes", greatest_length },
    { "801 bytes together", too_much_together },
    { "command 24", no_command }, /* a place with these two is free, so they are last */
    { "command 255", greatest_command },
};

static void each_spoilt(void)
{
    for (size_t i = 0; i < COUNT(spoilt); i++) {
        uint8_t bytes[LENT_MOST] = { 0 };
        chz_message m = whole_message(whole_of(CHZ_DL_DATA_QUE));
        spoilt[i].edit(&m);
        memcpy(bytes, m.data, CHZ_DATA);
        start(spoilt[i].name);
        lend_empty_queue(0);
        lend_message(&m);
        lend(&data, bytes, 4096); /* so it is not for want of data */
        JUDGE(add(), ANSWER(CHZ_INVALID, 0, 0), ALL_OF_QUEUE);
    }
}

static void is_sound(const chz_queue *q, bool yes)
{
    lend_queue(q);
    JUDGE(sound(), ANSWER(CHZ_DONE, 0, yes), &queue);
}

/* Two entries among places that hold anything; at each of several places one is spoilt. */
static chz_queue two_in(size_t one, size_t other)
{
    chz_queue q;
    memset(&q, FILLING, sizeof q);
    q.entry[one] = whole_message(whole_of(CHZ_DL_DATA_QUE));
    q.entry[other] = message_of_item(&waiting);
    return q;
}

static void each_unsound(void)
{
    static const size_t pairs[][2] = { { 0, 1 }, { 31, 0 }, { 13, 30 } };
    for (size_t i = 0; i < COUNT(pairs) * COUNT(spoilt); i++) {
        const size_t one = pairs[i / COUNT(spoilt)][0], other = pairs[i / COUNT(spoilt)][1];
        const struct edited *edited = &spoilt[i % COUNT(spoilt)];
        chz_queue q = two_in(one, other);
        start(edited->name);
        is_sound(&q, true);
        edited->edit(&q.entry[one]);
        is_sound(&q, q.entry[one].command != CHZ_DL_DATA_QUE);
    }
}

/* An ID that stands twice is unsound, but not where one of the two places is free; what is not looked at may be anything. */
static void equal_ids(void)
{
    static const size_t pairs[][2] = { { 0, 1 }, { 0, 31 }, { 30, 31 }, { 31, 2 } };
    for (size_t i = 0; i < COUNT(pairs); i++) {
        chz_queue q = two_in(pairs[i][0], pairs[i][1]);
        start("one queue ID twice");
        q.entry[pairs[i][0]].dl_data_que.que_id = waiting.id;
        is_sound(&q, false);
        q.entry[pairs[i][0]].command = 0;
        is_sound(&q, true);
        q.entry[pairs[i][1]].op_id = INT64_MIN;
        memset(q.entry[pairs[i][1]].dl.counter, 0xFF, sizeof q.entry->dl.counter);
        memset(q.entry[pairs[i][1]].dl.length + 1, 0xFF, sizeof q.entry->dl.length - 1);
        memset(q.entry[pairs[i][1]].dl.bytes + 3, 0xFF, sizeof q.entry->dl.bytes - 3);
        is_sound(&q, true);
    }
}

static uint32_t state;

static uint8_t anything(void)
{
    state = state * 1664525 + 1013904223;
    return (uint8_t)(state >> 24);
}

/* Contents that no call made: most places used, most records bad, meters and IDs that repeat. */
static void lend_anything(void)
{
    static chz_queue q;
    uint8_t *bytes = (uint8_t *)&q;
    for (size_t at = 0; at < sizeof q; at++) bytes[at] = anything();
    for (size_t i = 0; i < CHZ_QUEUE; i++) {
        if (anything() % 8) q.entry[i].command = CHZ_DL_DATA_QUE;
        if (anything() % 2) q.entry[i].dl_data_que.ep_eui = METER;
        if (anything() % 2) q.entry[i].dl_data_que.que_id = 5 + anything() % 2;
        if (anything() % 2) q.entry[i].dl_data_que.cnt_depend = anything() % 3;
        if (anything() % 2) q.entry[i].dl_data_que.entries = anything() % 18;
        if (anything() % 2) q.entry[i].dl.counter[anything() % 16] = 1;
    }
    lend_queue(&q);
}

/* The call ended and kept to what was lent; what it left in the queue is not stated. The place that it answered was used before, or free. */
static void is_in_range(uint64_t answer, size_t place, bool used, unsigned one, unsigned other)
{
    const unsigned refused = chz_refused(answer);
    bool good = refused ? refused == one || refused == other : place < CHZ_QUEUE;
    if (good && !refused) good = used == (queue.expected[place * sizeof(chz_message) + offsetof(chz_message, command)] == CHZ_DL_DATA_QUE);
    expect(&queue, 0, queue.at, queue.len);
    JUDGE(good, true, &queue);
}

static void strange_contents(void)
{
    state = 1;
    for (int i = 0; i < 200; i++) {
        start("contents that no call made");
        lend_anything();
        lend_waiting();
        JUDGE(chz_value(sound()) <= 1, true, &queue);
        uint64_t answer = choose(METER, 1, anything() % 2);
        is_in_range(answer, chz_chosen_place(answer), true, CHZ_NOTHING_SUITABLE, CHZ_NOTHING_SUITABLE);
        answer = cancel(5);
        is_in_range(answer, chz_value(answer), true, CHZ_NO_QUEUE_ID, CHZ_NO_QUEUE_ID);
        answer = add();
        is_in_range(answer, chz_value(answer), false, CHZ_QUEUE_ID_THERE, CHZ_QUEUE_FULL);
    }
}

void refused_queues(void)
{
    each_length();
    each_message_length();
    each_data_length();
    nothing_lent();
    each_other_command();
    each_spoilt();
    each_unsound();
    equal_ids();
    strange_contents();
}
