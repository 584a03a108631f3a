#include "queue.h"

#include <string.h>

struct lent queue;

chz_message message_of_item(const struct item *item)
{
    chz_message m;
    size_t place = 0;
    memset(&m, 0, sizeof m);
    m.command = CHZ_DL_DATA_QUE;
    m.op_id = -(int64_t)(item->id % 1000); /* kept, and never looked at */
    m.dl_data_que.ep_eui = item->meter;
    m.dl_data_que.que_id = item->id;
    m.dl_data_que.prio = item->prio;
    m.dl_data_que.has_exp_only = item->exp_only != ABSENT;
    m.dl_data_que.exp_only = item->exp_only == YES;
    m.dl_data_que.cnt_depend = item->counters > 0;
    m.dl_data_que.entries = (uint8_t)(item->counters ? item->counters : 1);
    memcpy(m.dl.counter, item->counter, sizeof m.dl.counter);
    memcpy(m.dl.length, item->length, sizeof m.dl.length);
    for (int i = 0; i < m.dl_data_que.entries; i++)
        for (int at = 0; at < item->length[i]; at++, place++) m.dl.bytes[place] = (uint8_t)(item->id + place);
    return m;
}

struct item great_item(uint64_t id, uint64_t meter)
{
    struct item item = { .id = id, .meter = meter, .counters = 16 };
    for (unsigned i = 0; i < 16; i++) item.counter[i] = i, item.length[i] = 50;
    return item;
}

void lend_empty_queue(uint8_t filling)
{
    lend_filled(&queue, filling, sizeof(chz_queue));
}

void lend_queue(const chz_queue *before)
{
    lend(&queue, before, sizeof *before);
}

void expect_added(size_t place, const chz_message *m)
{
    const size_t at = place * sizeof(chz_message);
    expect(&queue, at, m, CHZ_MESSAGE);
    expect(&queue, at + CHZ_MESSAGE, m->data, data_said(m));
}

void expect_freed(size_t place)
{
    const uint8_t nothing = 0;
    expect(&queue, place * sizeof(chz_message) + offsetof(chz_message, command), &nothing, 1);
}

uint64_t add(void)
{
    return chz_add(queue.at, queue.len, message.at, message.len, data.at, data.len);
}

uint64_t cancel(uint64_t id)
{
    return chz_cancel(queue.at, queue.len, id);
}

uint64_t choose(uint64_t meter, uint32_t counter, uint8_t expected)
{
    return chz_choose(queue.at, queue.len, meter, counter, expected);
}

uint64_t sound(void)
{
    return chz_sound(queue.at, queue.len);
}

void add_item(const struct item *item, size_t place)
{
    const chz_message m = message_of_item(item);
    lend_message(&m);
    expect_added(place, &m);
    JUDGE(add(), PLACED(place), ALL_OF_QUEUE);
}

void refuse_item(const struct item *item, unsigned refused)
{
    const chz_message m = message_of_item(item);
    lend_message(&m);
    JUDGE(add(), ANSWER(refused, 0, 0), ALL_OF_QUEUE);
}
