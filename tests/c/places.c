/* The 32 places of a queue: taken from the lowest on, freed by the queue ID, used again whatever stood there. */
#include <string.h>

#include "cases.h"
#include "queue.h"
#include "whole.h"

enum { METER = 7 };

static struct item item_of(uint64_t id)
{
    return (struct item){ .id = id, .meter = METER, .length = { 3 } };
}

static void is_sound(void)
{
    JUDGE(sound(), ANSWER(CHZ_DONE, 0, 1), &queue);
}

static void cancel_item(uint64_t id, size_t place)
{
    expect_freed(place);
    JUDGE(cancel(id), PLACED(place), &queue);
}

static void add_id(uint64_t id, size_t place)
{
    const struct item item = item_of(id);
    add_item(&item, place);
}

/* IDs 100 to 131 in the places 0 to 31. What stood in the free places makes no difference. */
static void fill(uint8_t filling)
{
    lend_empty_queue(filling);
    is_sound();
    for (size_t place = 0; place < CHZ_QUEUE; place++) add_id(100 + place, place);
    is_sound();
}

/* 15, then 27, then 28 exactly if all are used. */
static void full(void)
{
    chz_message bad;
    struct item item = item_of(1);
    start("a full queue");
    fill(0);
    refuse_item(&item, CHZ_QUEUE_FULL);
    item = great_item(1, METER);
    refuse_item(&item, CHZ_QUEUE_FULL);
    start("27 before 28, for every place, and whatever the meter");
    for (size_t place = 0; place < CHZ_QUEUE; place++) {
        item = item_of(100 + place);
        refuse_item(&item, CHZ_QUEUE_ID_THERE);
        item.meter = METER + 1;
        refuse_item(&item, CHZ_QUEUE_ID_THERE);
    }
    start("15 before 27 and 28");
    bad = message_of_item(&item);
    bad.dl_data_que.entries = 2;
    lend_message(&bad);
    JUDGE(add(), ANSWER(CHZ_INVALID, 0, 0), ALL_OF_QUEUE);
    bad.dl_data_que.que_id = 1;
    lend_message(&bad);
    JUDGE(add(), ANSWER(CHZ_INVALID, 0, 0), ALL_OF_QUEUE);
}

/* 28 is given in no other case: with any one place free, that one is taken. */
static void each_place(void)
{
    start("one free place");
    for (size_t place = 0; place < CHZ_QUEUE; place++) {
        fill(FILLING);
        cancel_item(100 + place, place);
        add_id(1, place);
        const struct item item = item_of(2);
        refuse_item(&item, CHZ_QUEUE_FULL);
    }
}

static void cancelled(void)
{
    start("cancel in an empty queue");
    lend_empty_queue(0);
    JUDGE(cancel(0), ANSWER(CHZ_NO_QUEUE_ID, 0, 0), &queue);
    lend_empty_queue(FILLING);
    JUDGE(cancel(UINT64_C(0xEEEEEEEEEEEEEEEE)), ANSWER(CHZ_NO_QUEUE_ID, 0, 0), &queue);
    start("cancel by ID alone");
    fill(0);
    JUDGE(cancel(99), ANSWER(CHZ_NO_QUEUE_ID, 0, 0), &queue);
    JUDGE(cancel(132), ANSWER(CHZ_NO_QUEUE_ID, 0, 0), &queue);
    JUDGE(cancel(100 + (UINT64_C(1) << 32)), ANSWER(CHZ_NO_QUEUE_ID, 0, 0), &queue);
    cancel_item(120, 20);
    cancel_item(103, 3);
    cancel_item(109, 9);
    JUDGE(cancel(120), ANSWER(CHZ_NO_QUEUE_ID, 0, 0), &queue);
    is_sound();
    start("the lowest free place is taken");
    add_id(1, 3);
    add_id(109, 9); /* an ID that is gone may come again */
    add_id(2, 20);
    is_sound();
}

/* The least and the greatest entry in every place, one in the room of the other, twice. */
static void sizes(void)
{
    start("a freed place is used again whatever its size");
    fill(FILLING);
    for (int round = 0; round < 2; round++) {
        for (size_t place = 0; place < CHZ_QUEUE; place++) {
            const struct item great = great_item(200 + place, METER);
            cancel_item(100 + place, place);
            add_item(&great, place);
        }
        is_sound();
        for (size_t place = 0; place < CHZ_QUEUE; place++) {
            const struct item least = { .id = 100 + place, .meter = METER };
            cancel_item(200 + place, place);
            add_item(&least, place);
        }
        is_sound();
    }
}

/* IDs at the edges of 64 bits; each is told from the others by all its bytes. */
static void ids(void)
{
    static const uint64_t edges[] = { 0, 1, 255, 256, UINT32_MAX, UINT64_C(1) << 32, INT64_MAX, UINT64_C(1) << 63, UINT64_MAX };
    start("queue IDs at their edges");
    lend_empty_queue(0);
    for (size_t i = 0; i < COUNT(edges); i++) add_id(edges[i], i);
    for (size_t i = 0; i < COUNT(edges); i++) {
        const struct item item = item_of(edges[i]);
        refuse_item(&item, CHZ_QUEUE_ID_THERE);
    }
    is_sound();
    for (size_t i = COUNT(edges); i-- > 0;) cancel_item(edges[i], i);
    JUDGE(sound(), ANSWER(CHZ_DONE, 0, 1), &queue);
}

/* A place holds the record with zeros between its fields and as many of the lent bytes as it says, just as they are; what stood behind
 * these stays. */
static void garbage(void)
{
    static const uint8_t dressings[] = { 0x01, 0x80, 0xFF };
    for (const struct whole *whole = wholes; whole < wholes + WHOLES; whole++) {
        if (whole->command != CHZ_DL_DATA_QUE) continue;
        const chz_message bare = whole_message(whole);
        for (size_t i = 0; i < COUNT(dressings); i++) {
            chz_message m = with_garbage(&bare, dressings[i]);
            start(whole->payload);
            lend_empty_queue(FILLING);
            lend_message(&m);
            memcpy(&m, &bare, CHZ_MESSAGE);
            expect_added(0, &m);
            JUDGE(add(), PLACED(0), ALL_OF_QUEUE);
            is_sound();
        }
    }
}

/* Outside its place every byte is as it was, the place is free, and what waits is chosen as before. */
static void added_and_cancelled(void)
{
    static const struct item waiting[] = {
        { .id = 4, .meter = METER, .prio = 1, .length = { 2 } }, { .id = 3, .meter = METER, .prio = 2, .length = { 1 } },
        { .id = 9, .meter = METER, .prio = 1 },
    };
    start("added, then cancelled");
    lend_empty_queue(0);
    for (size_t i = 0; i < COUNT(waiting); i++) add_item(&waiting[i], i);
    cancel_item(3, 1);
    const struct item better = { .id = 1, .meter = METER, .prio = 3, .length = { 245 } };
    add_item(&better, 1);
    cancel_item(1, 1);
    is_sound();
    JUDGE(cancel(1), ANSWER(CHZ_NO_QUEUE_ID, 0, 0), &queue);
    expect_freed(0);
    JUDGE(choose(METER, 1, 0), CHOSEN(0, 80, 2), &queue);
    expect_freed(2);
    JUDGE(choose(METER, 1, 0), CHOSEN(2, 80, 0), &queue);
    JUDGE(choose(METER, 1, 0), ANSWER(CHZ_NOTHING_SUITABLE, 0, 0), &queue);
}

void places(void)
{
    full();
    each_place();
    cancelled();
    sizes();
    ids();
    garbage();
    added_and_cancelled();
}
