/* The downlink queue's calls, by how many entries wait; and the same in plain C. */
#include "bench.h"

#include <string.h>

#define METER 0x70B3D50000000001
#define COUNTER 70015 /* the last of sixteen */

static _Alignas(64) chz_queue queue;
static _Alignas(64) chz_message image;
static size_t place;    /* that the call changes, */
static uint8_t command; /* and what stands there before it */
static call_add *volatile add_call;
static call_cancel *volatile cancel_call;
static call_choose *volatile choose_call;
static call_sound *volatile sound_call;

/* A call changes one place, and the round sets its command as it was: this is in the empty round too. */
static void rounds_add(unsigned long rounds)
{
    while (rounds--) {
        add_call((uint8_t *)&queue, sizeof queue, IMAGE_IN(image));
        queue.entry[place].command = command;
    }
}

static void rounds_cancel(unsigned long rounds)
{
    while (rounds--) {
        cancel_call((uint8_t *)&queue, sizeof queue, image.dl_data_que.que_id);
        queue.entry[place].command = command;
    }
}

static void rounds_choose(unsigned long rounds)
{
    while (rounds--) {
        choose_call((uint8_t *)&queue, sizeof queue, METER, COUNTER, 1);
        queue.entry[place].command = command;
    }
}

static void rounds_sound(unsigned long rounds)
{
    while (rounds--) sound_call((const uint8_t *)&queue, sizeof queue);
}

static int is(const char *name, const char *other) { return !strcmp(name, other); }

/* least: one data entry of 20 bytes, for any counter; others: the same for another meter; great: sixteen of 50 bytes, each for its counter. */
static void fill(const char *name, uint64_t que_id)
{
    message_fill(&image, is(name, "great") ? "downlinks" : "downlink", is(name, "great") ? 16 : 20);
    if (is(name, "others")) image.dl_data_que.ep_eui++;
    image.dl_data_que.que_id = que_id;
}

/* So many wait in the first places, their prios equal and their IDs falling, so that each goes before all in front of it. */
static void fill_queue(const char *name, unsigned waiting)
{
    need(waiting <= CHZ_QUEUE, "a queue has 32 places");
    memset(&queue, 0, sizeof queue);
    for (unsigned i = 0; i < waiting; i++) {
        fill(name, 1000 - i);
        need(chz_queue_add(&queue, &image) == (uint64_t)i << 16, "chz_add takes another place");
    }
    need(chz_queue_sound(&queue), "the queue isn't sound");
}

/* Both sides have to answer the same and leave the same bytes. */
static void agree(uint64_t answer, uint64_t plain, uint64_t wanted, const chz_queue *plain_left)
{
    need(answer == wanted, "the library answers otherwise");
    need(plain == wanted, "plain C answers otherwise");
    need(!memcmp(&queue, plain_left, sizeof queue), "plain C leaves another queue");
    queue.entry[place].command = command;
}

/* Where all 32 wait, it is refused. */
static bench_rounds *add_case(const char *name, unsigned waiting)
{
    static chz_queue twin;
    int full = waiting == CHZ_QUEUE;
    place = full ? 0 : waiting;
    command = full ? CHZ_DL_DATA_QUE : 0;
    fill(name, 1);
    twin = queue;
    uint64_t plain = plain_add((uint8_t *)&twin, sizeof twin, IMAGE_IN(image));
    agree(chz_queue_add(&queue, &image), plain, full ? CHZ_QUEUE_FULL : (uint64_t)place << 16, &twin);
    return rounds_add;
}

/* Of what waits, the last. */
static void last_waits(unsigned waiting)
{
    need(waiting > 0, "nothing waits");
    place = waiting - 1;
    command = CHZ_DL_DATA_QUE;
}

static bench_rounds *cancel_case(const char *name, unsigned waiting)
{
    static chz_queue twin;
    last_waits(waiting);
    fill(name, 1000 - place);
    twin = queue;
    uint64_t plain = plain_cancel((uint8_t *)&twin, sizeof twin, image.dl_data_que.que_id);
    agree(chz_queue_cancel(&queue, image.dl_data_que.que_id), plain, (uint64_t)place << 16, &twin);
    return rounds_cancel;
}

static uint64_t chosen(const char *name)
{
    uint64_t from = is(name, "great") ? 80 + 15 * 50 : 80, len = is(name, "great") ? 50 : 20;
    return is(name, "others") ? CHZ_NOTHING_SUITABLE : (place | len << 8 | from << 16) << 16;
}

static bench_rounds *choose_case(const char *name, unsigned waiting)
{
    static chz_queue twin;
    chz_chosen shown;
    last_waits(waiting);
    twin = queue;
    uint64_t plain = plain_choose((uint8_t *)&twin, sizeof twin, METER, COUNTER, 1);
    agree(chz_queue_choose(&queue, METER, COUNTER, 1, &shown), plain, chosen(name), &twin);
    return rounds_choose;
}

static bench_rounds *sound_case(const char *name, unsigned waiting)
{
    (void)name, (void)waiting;
    return rounds_sound;
}

static const struct {
    const char *what;
    bench_rounds *(*prepare)(const char *name, unsigned waiting);
    int plain;
} calls[] = {
    { "add", add_case, 0 }, { "cancel", cancel_case, 0 }, { "choose", choose_case, 0 }, { "sound", sound_case, 0 },
    { "add_c", add_case, 1 }, { "cancel_c", cancel_case, 1 }, { "choose_c", choose_case, 1 },
};

bench_rounds *queues_case(const char *what, const char *name, unsigned size, enum way way)
{
    size_t i = 0, count = sizeof calls / sizeof *calls;
    while (i < count && strcmp(calls[i].what, what)) i++;
    if (i == count) return NULL;
    add_call = way == WAY_EMPTY ? empty_add : calls[i].plain ? plain_add : chz_add;
    cancel_call = way == WAY_EMPTY ? empty_cancel : calls[i].plain ? plain_cancel : chz_cancel;
    choose_call = way == WAY_EMPTY ? empty_choose : calls[i].plain ? plain_choose : chz_choose;
    sound_call = way == WAY_EMPTY ? empty_sound : chz_sound;
    fill_queue(name, size);
    return calls[i].prepare(name, size);
}
