/* Data shorter and longer than a message says, in every call that takes a message. */
#include <string.h>

#include "cases.h"
#include "sessions.h"
#include "whole.h"

#define OF_TEXT "86 'command' 'statusRsp' 'opId' 01 'code' 00 'time' 01 'dutyCycle' CA00000000 'message' "

static const struct {
    const char *payload;
    unsigned refused; /* in data that are long enough */
} payloads[] = {
    { READING, CHZ_DONE }, { PING, CHZ_DONE }, { OF_TEXT "'ok'", CHZ_DONE }, { OF_TEXT "D940 64*6D", CHZ_DONE },
    { "C1", CHZ_NEVER_USED }, { "", CHZ_SIZE }, { "4097*C0", CHZ_SIZE }, { "80", CHZ_NO_COMMAND },
};

/* Fewer than CHZ_DATA bytes are 15 before all others; of more, the rest stays. */
static void read_into(size_t len)
{
    start("read into data of another length");
    for (size_t i = 0; i < COUNT(payloads); i++) {
        const chz_message m = message_of(payloads[i].payload);
        unsigned refused = len < CHZ_DATA ? CHZ_INVALID : payloads[i].refused;
        lend_payload(payloads[i].payload);
        lend_filled(&data, FILLING, len);
        if (!refused) expect_message(&m);
        JUDGE(chz_refused(read_lent()), refused, &payload, &message, &data);
    }
}

static void each_read(void)
{
    static const size_t lengths[] = { 0, 1, 3, 64, 245, 246, CHZ_DATA - 1, CHZ_DATA, CHZ_DATA + 1, CHZ_MESSAGE + CHZ_DATA };
    for (size_t i = 0; i < COUNT(lengths); i++) read_into(lengths[i]);
}

/* What a message says of its data, and how much there is. */
static const struct {
    const char *name;
    uint8_t command, said;
    size_t len;
    unsigned refused;
} cases[] = {
    { "ulData says nothing and has nothing", CHZ_UL_DATA, 0, 0, CHZ_DONE },
    { "ulData says nothing and has some", CHZ_UL_DATA, 0, 5, CHZ_DONE },
    { "ulData says one and has nothing", CHZ_UL_DATA, 1, 0, CHZ_INVALID },
    { "ulData says one and has one", CHZ_UL_DATA, 1, 1, CHZ_DONE },
    { "ulData says 40 and has 39", CHZ_UL_DATA, 40, 39, CHZ_INVALID },
    { "ulData says 40 and has 40", CHZ_UL_DATA, 40, 40, CHZ_DONE },
    { "ulData says 245 and has 244", CHZ_UL_DATA, 245, 244, CHZ_INVALID },
    { "ulData says 245 and has 245", CHZ_UL_DATA, 245, 245, CHZ_DONE },
    { "ulData says 245 and has 246", CHZ_UL_DATA, 245, 246, CHZ_DONE },
    { "ulData says 246 and has 245", CHZ_UL_DATA, 246, 245, CHZ_INVALID },
    { "ulData says 246 and has 246", CHZ_UL_DATA, 246, 246, CHZ_INVALID },
    { "ulData says 255 and has 4,096", CHZ_UL_DATA, 255, 4096, CHZ_INVALID },
    { "statusRsp says nothing and has nothing", CHZ_STATUS_RSP, 0, 0, CHZ_DONE },
    { "statusRsp says two and has one", CHZ_STATUS_RSP, 2, 1, CHZ_INVALID },
    { "statusRsp says 64 and has 63", CHZ_STATUS_RSP, 64, 63, CHZ_INVALID },
    { "statusRsp says 64 and has 64", CHZ_STATUS_RSP, 64, 64, CHZ_DONE },
    { "statusRsp says 64 and has 245", CHZ_STATUS_RSP, 64, 245, CHZ_DONE },
    { "statusRsp says 65 and has 64", CHZ_STATUS_RSP, 65, 64, CHZ_INVALID },
    { "statusRsp says 65 and has 245", CHZ_STATUS_RSP, 65, 245, CHZ_INVALID },
    { "statusRsp says 255 and has 4,096", CHZ_STATUS_RSP, 255, 4096, CHZ_INVALID },
    { "ping has nothing", CHZ_PING, 0, 0, CHZ_DONE },
    { "ping has 4,096", CHZ_PING, 0, 4096, CHZ_DONE },
};

/* A message whose data differ in every byte. */
static void lend_case(size_t i, const chz_session *before)
{
    uint8_t bytes[LENT_MOST];
    chz_message m = whole_message(whole_of(cases[i].command));
    for (size_t at = 0; at < sizeof bytes; at++) bytes[at] = (uint8_t)(7 * at + 1);
    if (cases[i].command == CHZ_UL_DATA) m.ul_data.user_len = cases[i].said;
    if (cases[i].command == CHZ_STATUS_RSP) m.status_rsp.message_len = cases[i].said;
    start(cases[i].name);
    lend_session_with(before, &m);
    lend(&data, bytes, cases[i].len);
}

/* Written and read back, the data are those that were lent, and no more of them. */
static void each_write(void)
{
    const chz_session s = open_session();
    for (size_t i = 0; i < COUNT(cases); i++) {
        uint8_t lent[LENT_MOST];
        lend_case(i, &s);
        memcpy(lent, data.at, data.len);
        uint64_t answer = write_lent();
        JUDGE(chz_refused(answer), cases[i].refused, &message, &data);
        if (cases[i].refused) JUDGE(answer, CHZ_INVALID, &room);
        if (cases[i].refused) continue;
        lend(&payload, room.at + CHZ_FRAME_HEAD, chz_value(answer) ? chz_value(answer) - CHZ_FRAME_HEAD : 0);
        lend_filled(&data, FILLING, CHZ_DATA);
        expect(&data, 0, lent, cases[i].said);
        JUDGE(chz_refused(read_lent()), CHZ_DONE, &payload, &message, &data);
    }
}

/* An open session with the operation that a statusRsp 7 answers. Only too little data is refused; to begin with, no data is needed. */
static void each_step(void)
{
    chz_session s = open_session();
    s.centre_id[0] = 7;
    s.centre_kind[0] = CHZ_STATUS;
    for (size_t i = 0; i < COUNT(cases); i++) {
        unsigned done = cases[i].command == CHZ_STATUS_RSP ? CHZ_ANSWERED : CHZ_STARTED;
        lend_case(i, &s);
        if (cases[i].refused) {
            JUDGE(arrive(), ANSWER(CHZ_INVALID, 0, 0), ALL_OF_SESSION);
            continue;
        }
        JUDGE(chz_happened(arrive()), done, &message, &data, &uuid, &sign);
        lend_case(i, &s);
        unsigned begun = cases[i].command == CHZ_PING ? CHZ_ISSUED : 0;
        JUDGE(chz_happened(begin()), begun, &message, &data);
    }
}

void data_lengths(void)
{
    each_read();
    each_write();
    each_step();
}
