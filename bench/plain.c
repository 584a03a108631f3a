/* A downlink queue in plain C, for comparison: the same places, the same answers and the same bytes left. It judges nothing: no length,
 * no record. */
#include "bench.h"

#include <string.h>

static int is_used(const chz_message *m) { return m->command == CHZ_DL_DATA_QUE; }

static uint64_t placed(int place) { return (uint64_t)place << 16; }

uint64_t plain_add(uint8_t *queue, size_t queue_len, const uint8_t *message, size_t message_len, const uint8_t *data, size_t data_len)
{
    (void)queue_len, (void)data_len;
    chz_message *entry = (chz_message *)(void *)queue;
    const chz_message *m = (const chz_message *)(const void *)message;
    const uint8_t *lengths = data + offsetof(chz_dl_entries, length);
    int free_place = CHZ_QUEUE;
    for (int i = CHZ_QUEUE; i-- > 0;) {
        if (!is_used(&entry[i])) free_place = i;
        else if (entry[i].dl_data_que.que_id == m->dl_data_que.que_id) return CHZ_QUEUE_ID_THERE;
    }
    if (free_place == CHZ_QUEUE) return CHZ_QUEUE_FULL;
    size_t len = offsetof(chz_dl_entries, bytes);
    for (int i = 0; i < m->dl_data_que.entries; i++) len += lengths[i];
    memcpy(&entry[free_place], message, message_len);
    memcpy(entry[free_place].data, data, len);
    return placed(free_place);
}

uint64_t plain_cancel(uint8_t *queue, size_t queue_len, uint64_t que_id)
{
    (void)queue_len;
    chz_message *entry = (chz_message *)(void *)queue;
    for (int i = 0; i < CHZ_QUEUE; i++) {
        if (!is_used(&entry[i]) || entry[i].dl_data_que.que_id != que_id) continue;
        entry[i].command = 0;
        return placed(i);
    }
    return CHZ_NO_QUEUE_ID;
}

/* The place of the counter's data entry, or one past the last. */
static int entry_for(const chz_message *m, uint32_t counter)
{
    int i = 0;
    if (!m->dl_data_que.cnt_depend) return 0;
    while (i < m->dl_data_que.entries && m->dl.counter[i] != counter) i++;
    return i;
}

static int goes_before(const chz_dl_data_que *a, const chz_dl_data_que *b)
{
    return a->prio > b->prio || (a->prio == b->prio && a->que_id < b->que_id);
}

uint64_t plain_choose(uint8_t *queue, size_t queue_len, uint64_t meter, uint32_t counter, uint8_t expected)
{
    (void)queue_len;
    chz_message *entry = (chz_message *)(void *)queue;
    int best = CHZ_QUEUE, best_entry = 0;
    for (int i = 0; i < CHZ_QUEUE; i++) {
        const chz_dl_data_que *d = &entry[i].dl_data_que;
        if (!is_used(&entry[i]) || d->ep_eui != meter || (d->exp_only && !expected)) continue;
        int at = entry_for(&entry[i], counter);
        if (at == d->entries || (best < CHZ_QUEUE && !goes_before(d, &entry[best].dl_data_que))) continue;
        best = i;
        best_entry = at;
    }
    if (best == CHZ_QUEUE) return CHZ_NOTHING_SUITABLE;
    size_t from = offsetof(chz_dl_entries, bytes);
    for (int i = 0; i < best_entry; i++) from += entry[best].dl.length[i];
    entry[best].command = 0;
    return placed(best) | (uint64_t)entry[best].dl.length[best_entry] << 24 | (uint64_t)from << 32;
}
