/* The header's own functions that fill a downlink, and its queue on structs. */
#include <string.h>

#include "cases.h"
#include "queue.h"
#include "spell.h"

enum { METER = 9 };
static const uint8_t data_245[CHZ_USER_DATA + 1] = { 1, 2, 3 };

/* A message as it was before a call, to be compared with what it is then. */
static bool same(const chz_message *m, const chz_message *n)
{
    return !memcmp(m, n, sizeof *m);
}

static chz_message by_hand(unsigned entries)
{
    chz_message m;
    memset(&m, 0, sizeof m);
    m.command = CHZ_DL_DATA_QUE;
    m.dl_data_que.ep_eui = METER;
    m.dl_data_que.que_id = 5;
    m.dl_data_que.entries = (uint8_t)entries;
    return m;
}

static void begun(void)
{
    chz_message m, expected = by_hand(0);
    start("chz_downlink sets all of it");
    memset(&m, FILLING, sizeof m);
    chz_downlink(&m, METER, 5);
    JUDGE(same(&m, &expected), true, NULL);
}

static void valve(void)
{
    chz_message m, expected = by_hand(1);
    expected.dl.length[0] = 3;
    memcpy(expected.dl.bytes, "\1\2\3", 3);
    start("chz_valve");
    memset(&m, FILLING, sizeof m);
    JUDGE(chz_valve(&m, METER, 5, data_245, 3), CHZ_DONE, NULL);
    JUDGE(same(&m, &expected), true, NULL);
    start("chz_valve of no bytes");
    expected = by_hand(1);
    JUDGE(chz_valve(&m, METER, 5, NULL, 0), CHZ_DONE, NULL);
    JUDGE(same(&m, &expected), true, NULL);
    start("chz_valve of 245 and of 246 bytes");
    JUDGE(chz_valve(&m, METER, 5, data_245, 245), CHZ_DONE, NULL);
    JUDGE(m.dl.length[0], 245, NULL);
    expected = by_hand(0);
    JUDGE(chz_valve(&m, METER, 5, data_245, 246), CHZ_INVALID, NULL);
    JUDGE(same(&m, &expected), true, NULL);
}

/* What is not taken changes nothing. */
static void no_more(chz_message *m, const uint8_t *bytes, size_t len)
{
    const chz_message before = *m;
    JUDGE(chz_downlink_entry_for(m, 1, bytes, len), CHZ_INVALID, NULL);
    JUDGE(chz_downlink_entry(m, bytes, len), CHZ_INVALID, NULL);
    JUDGE(same(m, &before), true, NULL);
}

static void one_for_any(void)
{
    chz_message m;
    start("one entry for any counter, and no other");
    chz_downlink(&m, METER, 5);
    JUDGE(chz_downlink_entry(&m, data_245, 3), CHZ_DONE, NULL);
    no_more(&m, data_245, 3);
    no_more(&m, NULL, 0);
}

static void sixteen(void)
{
    chz_message m, expected = by_hand(16);
    start("sixteen entries, each for its counter");
    chz_downlink(&m, METER, 5);
    expected.dl_data_que.cnt_depend = 1;
    for (unsigned i = 0; i < 16; i++) {
        uint8_t bytes[50];
        memset(bytes, (int)i, sizeof bytes);
        expected.dl.counter[i] = UINT32_MAX - i;
        expected.dl.length[i] = 50;
        memset(expected.dl.bytes + 50 * i, (int)i, 50);
        JUDGE(chz_downlink_entry_for(&m, UINT32_MAX - i, bytes, 50), CHZ_DONE, NULL);
    }
    JUDGE(same(&m, &expected), true, NULL);
    no_more(&m, NULL, 0);
}

static void together(void)
{
    chz_message m;
    start("800 bytes together");
    chz_downlink(&m, METER, 5);
    for (unsigned i = 0; i < 3; i++) JUDGE(chz_downlink_entry_for(&m, i, data_245, 245), CHZ_DONE, NULL);
    no_more(&m, data_245, 66);
    no_more(&m, data_245, 246);
    JUDGE(chz_downlink_entry_for(&m, 3, data_245, 65), CHZ_DONE, NULL);
    no_more(&m, data_245, 1);
    JUDGE(chz_downlink_entry_for(&m, 4, NULL, 0), CHZ_DONE, NULL);
    JUDGE(m.dl_data_que.entries, 5, NULL);
    uint8_t frame[CHZ_ROOM];
    JUDGE(chz_refused(chz_message_write(&m, frame, sizeof frame)), CHZ_DONE, NULL);
}

/* From the queue to the frame: the chosen data alone, for the counter where it depends on one, and everything else as it was queued. */
static void is_sent(chz_queue *q, const chz_message *m, uint32_t counter, const char *spelled)
{
    uint8_t expected[LENT_MOST], frame[CHZ_ROOM];
    const size_t len = spell_frame(spelled, expected);
    chz_session session;
    chz_chosen chosen = { NULL, NULL, 99 };
    chz_message sent;
    memset(&session, 0, sizeof session);
    memset(&sent, FILLING, sizeof sent);
    session.state = CHZ_OPEN;
    JUDGE(chz_queue_add(q, m), PLACED(0), NULL);
    JUDGE(chz_queue_choose(q, METER + 1, counter, 1, &chosen), ANSWER(CHZ_NOTHING_SUITABLE, 0, 0), NULL);
    JUDGE(chosen.data_len, 99, NULL);
    JUDGE(chz_refused(chz_queue_choose(q, METER, counter, 0, &chosen)), CHZ_DONE, NULL);
    chz_chosen_message(&chosen, counter, &sent);
    JUDGE(chz_session_begin(&session, &sent, frame, sizeof frame), ANSWER(CHZ_DONE, CHZ_ISSUED, len), NULL);
    JUDGE(memcmp(frame, expected, len) == 0, true, NULL);
    JUDGE(chosen.entry == &q->entry[0].dl_data_que && chosen.data >= q->entry[0].dl.bytes, true, NULL);
}

static void chosen(void)
{
    static chz_queue q;
    chz_message m;
    memset(&q, 0, sizeof q);
    start("a valve command from the queue to the frame");
    chz_valve(&m, METER, 5, data_245, 3);
    is_sent(&q, &m, 77, "86 " DOWNLINK_TO("FF") "'cntDepend' C2 'userData' 91 93010203");
    start("one of three counters, from the queue to the frame");
    chz_downlink(&m, METER, 5);
    chz_downlink_entry_for(&m, 76, data_245, 245);
    chz_downlink_entry_for(&m, 77, data_245, 2);
    chz_downlink_entry_for(&m, 77, data_245, 3);
    m.op_id = 12;
    m.dl_data_que.prio = 2;
    m.dl_data_que.format = 8;
    m.dl_data_que.has_exp_only = m.dl_data_que.has_response_exp = m.dl_data_que.response_exp = 1;
    is_sent(&q, &m, 77, "8B " DOWNLINK_TO("FF") "'cntDepend' C3 'packetCnt' 914D 'userData' 91 920102 'format' 08 "
        "'prio' CB4000000000000000 'responseExp' C3 'expOnly' C2");
    start("an acknowledgement from the queue to the frame");
    chz_valve(&m, METER, 5, NULL, 0);
    is_sent(&q, &m, 0, "86 " DOWNLINK_TO("FF") "'cntDepend' C2 'userData' 91 90");
}

static void cancelled(void)
{
    static chz_queue q;
    chz_message m;
    memset(&q, 0, sizeof q);
    start("a queue as a struct");
    JUDGE((uint64_t)chz_queue_sound(&q), 1, NULL);
    chz_valve(&m, METER, 5, data_245, 3);
    JUDGE(chz_queue_add(&q, &m), PLACED(0), NULL);
    JUDGE(chz_queue_add(&q, &m), ANSWER(CHZ_QUEUE_ID_THERE, 0, 0), NULL);
    JUDGE((uint64_t)chz_queue_sound(&q), 1, NULL);
    JUDGE(chz_queue_cancel(&q, 6), ANSWER(CHZ_NO_QUEUE_ID, 0, 0), NULL);
    JUDGE(chz_queue_cancel(&q, 5), PLACED(0), NULL);
    JUDGE(chz_queue_cancel(&q, 5), ANSWER(CHZ_NO_QUEUE_ID, 0, 0), NULL);
    q.entry[0].command = CHZ_DL_DATA_QUE;
    q.entry[0].dl_data_que.prio = 0.1;
    JUDGE((uint64_t)chz_queue_sound(&q), 0, NULL);
}

void filling(void)
{
    begun();
    valve();
    one_for_any();
    sixteen();
    together();
    chosen();
    cancelled();
}
