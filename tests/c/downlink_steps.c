/* dlDataQue in a session: the centre starts it under the ID issued, the station's Rsp is replied to with the Cmp; lost and resumed in
 * between, it is still open; a station starts none. */
#include <string.h>

#include "cases.h"
#include "sessions.h"
#include "spell.h"

#define SENT(id) "86 " DOWNLINK_TO(id) "'cntDepend' C2 'userData' 91 93010203"
#define BOUND(id)                                                                                                          \
    "8D " DOWNLINK_TO(id) "'cntDepend' C3 'packetCnt' 92 64 65 'userData' 92 9101 920203 'format' 01 "                     \
    "'prio' CB3FE0000000000000 'responseExp' C3 'responsePrio' C2 'dlWindReq' C2 'expOnly' C3"

static const struct step life[] = {
    { "dlDataQue while waiting", BEGINS, DOWNLINK, CHZ_STATE, 0, NULL, CHZ_WAITING, 0, 0 },
    { "a station's dlDataQue while waiting", ARRIVES, DOWNLINK, CHZ_STATE, 0, NULL, CHZ_WAITING, 0, 0 },
    { "con begins", ARRIVES, CON, 0, CHZ_BEGUN, CON_RSP("C2", "11"), CHZ_CONNECTING, 0, 0 },
    { "dlDataQue while connecting", BEGINS, DOWNLINK, CHZ_STATE, 0, NULL, CHZ_CONNECTING, 0, 0 },
    { "a station's dlDataQueRsp while connecting", ARRIVES, MESSAGE("dlDataQueRsp", "00"), CHZ_STATE, 0, NULL, CHZ_CONNECTING, 0, 0 },
    { "conCmp", ARRIVES, MESSAGE("conCmp", "00"), 0, CHZ_OPENED, NULL, CHZ_OPEN, 0, 0 },
    { "a station's dlDataQue", ARRIVES, DOWNLINK, CHZ_STATE, 0, NULL, CHZ_OPEN, 0, 0 },
    { "a station's dlDataQue, its ID out of order", ARRIVES, SENT("FF"), CHZ_STATE, 0, NULL, CHZ_OPEN, 0, 0 },
    { "dlDataQueRsp to nothing", ARRIVES, MESSAGE("dlDataQueRsp", "FF"), CHZ_STATE, 0, NULL, CHZ_OPEN, 0, 0 },
    { "dlDataQueRsp 0 matches no free place", ARRIVES, MESSAGE("dlDataQueRsp", "00"), CHZ_STATE, 0, NULL, CHZ_OPEN, 0, 0 },
    { "the centre's dlDataQue", BEGINS, DOWNLINK, 0, CHZ_ISSUED, SENT("FF"), CHZ_OPEN, 0, -1 },
    { "a station's dlDataQueCmp", ARRIVES, MESSAGE("dlDataQueCmp", "FF"), CHZ_STATE, 0, NULL, CHZ_OPEN, 0, -1 },
    { "detPrpRsp -1: another kind", ARRIVES, MESSAGE("detPrpRsp", "FF"), CHZ_STATE, 0, NULL, CHZ_OPEN, 0, -1 },
    { "dlDataQueRsp -2: another ID", ARRIVES, MESSAGE("dlDataQueRsp", "FE"), CHZ_STATE, 0, NULL, CHZ_OPEN, 0, -1 },
    { "the centre's dlDataQue with all its fields", BEGINS, BOUND("63"), 0, CHZ_ISSUED, BOUND("FE"), CHZ_OPEN, 0, -2 },
    { "dlDataQueRsp -2", ARRIVES, MESSAGE("dlDataQueRsp", "FE"), 0, CHZ_ANSWERED, MESSAGE("dlDataQueCmp", "FE"), CHZ_OPEN, 0, -2 },
    { "dlDataQueRsp -2 again", ARRIVES, MESSAGE("dlDataQueRsp", "FE"), CHZ_STATE, 0, NULL, CHZ_OPEN, 0, -2 },
    { "the centre's dlDataQueRsp", BEGINS, MESSAGE("dlDataQueRsp", "00"), CHZ_STATE, 0, NULL, CHZ_OPEN, 0, -2 },
    { "the centre's dlDataQueCmp", BEGINS, MESSAGE("dlDataQueCmp", "00"), CHZ_STATE, 0, NULL, CHZ_OPEN, 0, -2 },
    { "lost", LOST, PING, 0, CHZ_STORED, NULL, CHZ_WAITING, 0, -2 },
    { "resumed", ARRIVES, CON_AFTER("2A", "'snBsOpId' 00 'snScOpId' FE"), 0, CHZ_RESUMED, CON_RSP("C3", "11"), CHZ_CONNECTING, 0, -2 },
    { "opened again", ARRIVES, MESSAGE("conCmp", "00"), 0, CHZ_OPENED, NULL, CHZ_OPEN, 0, -2 },
    { "the first is still open", ARRIVES, MESSAGE("dlDataQueRsp", "FF"), 0, CHZ_ANSWERED, MESSAGE("dlDataQueCmp", "FF"), CHZ_OPEN, 0, -2 },
    { "one more", BEGINS, DOWNLINK, 0, CHZ_ISSUED, SENT("FD"), CHZ_OPEN, 0, -3 },
    { "lost once more", LOST, PING, 0, CHZ_STORED, NULL, CHZ_WAITING, 0, -3 },
    { "begun anew", ARRIVES, CON_AFTER("2B", "'snBsOpId' 00 'snScOpId' FD"), 0, CHZ_BEGUN, CON_RSP("C2", "11"), CHZ_CONNECTING, 0, 0 },
    { "opened", ARRIVES, MESSAGE("conCmp", "00"), 0, CHZ_OPENED, NULL, CHZ_OPEN, 0, 0 },
    { "what was open is cleared", ARRIVES, MESSAGE("dlDataQueRsp", "FD"), CHZ_STATE, 0, NULL, CHZ_OPEN, 0, 0 },
    { "and is started again under a new ID", BEGINS, SENT("FD"), 0, CHZ_ISSUED, SENT("FF"), CHZ_OPEN, 0, -1 },
};

/* Every byte of the session: it is taken by its start, kept by a lost connection, freed by its Rsp. */
static void whole_session(void)
{
    uint8_t frame[LENT_MOST];
    size_t len = spell_frame(SENT("FF"), frame);
    chz_session s = open_session();
    start("a downlink takes the lowest free place");
    lend_session(&s, DOWNLINK);
    s.centre_id[0] = s.lowest = -1;
    s.centre_kind[0] = CHZ_DL_DATA_QUE;
    expect(&session, 0, &s, sizeof s);
    expect(&room, 0, frame, len);
    JUDGE(begin(), ANSWER(CHZ_DONE, CHZ_ISSUED, len), ALL_OF_SESSION);
    start("and keeps it when the connection is lost");
    s.state = CHZ_WAITING;
    s.stored = 1;
    expect(&session, 0, &s, sizeof s);
    JUDGE(lose(), ANSWER(CHZ_DONE, CHZ_STORED, 0), ALL_OF_SESSION);
    start("its Rsp frees it");
    s.state = CHZ_OPEN;
    lend_session(&s, MESSAGE("dlDataQueRsp", "FF"));
    s.centre_id[0] = s.centre_kind[0] = 0;
    len = spell_frame(MESSAGE("dlDataQueCmp", "FF"), frame);
    expect(&session, 0, &s, sizeof s);
    expect(&room, 0, frame, len);
    JUDGE(arrive(), ANSWER(CHZ_DONE, CHZ_ANSWERED, len), ALL_OF_SESSION);
}

/* A station's operation of the kind, which no call makes: its Cmp completes none. */
static void no_station_operation(void)
{
    chz_session s = open_session();
    s.station_id[0] = 7;
    s.station_kind[0] = CHZ_DL_DATA_QUE;
    start("a station's operation that is none of its kinds");
    lend_session(&s, MESSAGE("dlDataQueCmp", "07"));
    JUDGE(arrive(), ANSWER(CHZ_STATE, 0, 0), ALL_OF_SESSION);
}

static void full_session(void)
{
    chz_session s = open_session();
    start("a downlink with sixteen open");
    fill_places(s.centre_id, s.centre_kind, -1);
    lend_session(&s, DOWNLINK);
    JUDGE(begin(), ANSWER(CHZ_SIXTEEN_OPEN, 0, 0), ALL_OF_SESSION);
    start("a downlink with no ID left");
    s.lowest = INT64_MIN;
    lend_session(&s, DOWNLINK);
    JUDGE(begin(), ANSWER(CHZ_ID_OUT_OF_ORDER, 0, 0), ALL_OF_SESSION);
}

void downlink_steps(void)
{
    live(life, COUNT(life), 0);
    live(life, COUNT(life), 2);
    live(life, COUNT(life), 0xFF);
    whole_session();
    no_station_operation();
    full_session();
}
