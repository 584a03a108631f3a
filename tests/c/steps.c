/* A session's life: each step, what it answers, what it sends, and what it leaves in the session. */
#include <string.h>

#include "cases.h"
#include "sessions.h"

#define READING_2                                                                                                          \
    "8B 'command' 'ulData' 'opId' 02 'epEui' 09 'rxTime' 01 'packetCnt' 64 'snr' CA41200000 'rssi' CAC2C20000 "            \
    "'userData' 93010203 'dlOpen' C2 'responseExp' C2 'dlAck' C2"
#define DET_9                                                                                                              \
    "88 'command' 'det' 'opId' 09 'epEui' 09 'rxTime' 01 'packetCnt' 65 'snr' CA41200000 'rssi' CAC2C20000 'sign' 9401020304"
#define STATUS_RSP "86 'command' 'statusRsp' 'opId' FF 'code' 00 'message' 'ok' 'time' 01 'dutyCycle' CA3E800000"
#define ATT_PRP_SENT                                                                                                       \
    "8B 'command' 'attPrp' 'opId' FD 'epEui' 09 'bidi' C2 'nwkSnKey' DC0010 16*7F 'shAddr' 01 'lastPacketCnt' 64 "         \
    "'dualChan' C2 'repetition' C2 'wideCarrOff' C2 'longBlkDist' C2"

static const struct step cases[] = {
    { "lost while waiting", LOST, PING, 0, CHZ_NOTHING, NULL, CHZ_WAITING, 0, 0 },
    { "ping while waiting", ARRIVES, PING, CHZ_STATE, 0, NULL, CHZ_WAITING, 0, 0 },
    { "start while waiting", BEGINS, PING, CHZ_STATE, 0, NULL, CHZ_WAITING, 0, 0 },
    { "con begins", ARRIVES, CON, 0, CHZ_BEGUN, CON_RSP("C2", "11"), CHZ_CONNECTING, 0, 0 },
    { "con while connecting", ARRIVES, CON, CHZ_STATE, 0, NULL, CHZ_CONNECTING, 0, 0 },
    { "conCmp 1", ARRIVES, MESSAGE("conCmp", "01"), CHZ_STATE, 0, NULL, CHZ_CONNECTING, 0, 0 },
    { "conCmp 0", ARRIVES, MESSAGE("conCmp", "00"), 0, CHZ_OPENED, NULL, CHZ_OPEN, 0, 0 },
    { "con while open", ARRIVES, CON, CHZ_STATE, 0, NULL, CHZ_OPEN, 0, 0 },
    { "ping 0", ARRIVES, MESSAGE("ping", "00"), CHZ_ID_OUT_OF_ORDER, 0, NULL, CHZ_OPEN, 0, 0 },
    { "ping -1", ARRIVES, MESSAGE("ping", "FF"), CHZ_ID_OUT_OF_ORDER, 0, NULL, CHZ_OPEN, 0, 0 },
    { "ping 1", ARRIVES, PING, 0, CHZ_STARTED, PING_RSP, CHZ_OPEN, 1, 0 },
    { "ping 1 again", ARRIVES, PING, CHZ_ID_OUT_OF_ORDER, 0, NULL, CHZ_OPEN, 1, 0 },
    { "ulData 2", ARRIVES, READING_2, 0, CHZ_STARTED, MESSAGE("ulDataRsp", "02"), CHZ_OPEN, 2, 0 },
    { "det 9 over a gap", ARRIVES, DET_9, 0, CHZ_STARTED, "83 'command' 'detRsp' 'opId' 09 'sign' 94 4*22", CHZ_OPEN, 9, 0 },
    { "pingCmp 2: another kind", ARRIVES, MESSAGE("pingCmp", "02"), CHZ_STATE, 0, NULL, CHZ_OPEN, 9, 0 },
    { "ulDataCmp 2", ARRIVES, MESSAGE("ulDataCmp", "02"), 0, CHZ_COMPLETED, NULL, CHZ_OPEN, 9, 0 },
    { "ulDataCmp 2 again", ARRIVES, MESSAGE("ulDataCmp", "02"), CHZ_STATE, 0, NULL, CHZ_OPEN, 9, 0 },
    { "pingCmp 0 matches no free place", ARRIVES, MESSAGE("pingCmp", "00"), CHZ_STATE, 0, NULL, CHZ_OPEN, 9, 0 },
    { "status of a station", ARRIVES, MESSAGE("status", "0A"), CHZ_STATE, 0, NULL, CHZ_OPEN, 9, 0 },
    { "pingRsp to nothing", ARRIVES, MESSAGE("pingRsp", "FF"), CHZ_STATE, 0, NULL, CHZ_OPEN, 9, 0 },
    { "centre's status", BEGINS, MESSAGE("status", "63"), 0, CHZ_ISSUED, MESSAGE("status", "FF"), CHZ_OPEN, 9, -1 },
    { "centre's ping", BEGINS, PING, 0, CHZ_ISSUED, MESSAGE("ping", "FE"), CHZ_OPEN, 9, -2 },
    { "centre's attPrp", BEGINS, ATT_PRP, 0, CHZ_ISSUED, ATT_PRP_SENT, CHZ_OPEN, 9, -3 },
    { "centre's detPrp", BEGINS, "83 'command' 'detPrp' 'opId' 00 'epEui' 09", 0, CHZ_ISSUED, "83 'command' 'detPrp' 'opId' FC 'epEui' 09",
      CHZ_OPEN, 9, -4 },
    { "centre's ulData", BEGINS, READING, CHZ_STATE, 0, NULL, CHZ_OPEN, 9, -4 },
    { "statusRsp -1", ARRIVES, STATUS_RSP, 0, CHZ_ANSWERED, MESSAGE("statusCmp", "FF"), CHZ_OPEN, 9, -4 },
    { "attPrpRsp -3", ARRIVES, MESSAGE("attPrpRsp", "FD"), 0, CHZ_ANSWERED, MESSAGE("attPrpCmp", "FD"), CHZ_OPEN, 9, -4 },
    { "detPrpRsp -3: another ID", ARRIVES, MESSAGE("detPrpRsp", "FD"), CHZ_STATE, 0, NULL, CHZ_OPEN, 9, -4 },
    { "detPrpRsp -4", ARRIVES, MESSAGE("detPrpRsp", "FC"), 0, CHZ_ANSWERED, MESSAGE("detPrpCmp", "FC"), CHZ_OPEN, 9, -4 },
    { "lost while open", LOST, PING, 0, CHZ_STORED, NULL, CHZ_WAITING, 9, -4 },
    { "con 1", ARRIVES, "86 'command' 'con' 'opId' 01 'version' '1.0.0' 'bsEui' 05 'bidi' C2 'snBsUuid' DC0010 16*2A",
      CHZ_ID_OUT_OF_ORDER, 0, NULL, CHZ_WAITING, 9, -4 },
    { "con of version 1.1", ARRIVES, "86 'command' 'con' 'opId' 00 'version' '1.1.0' 'bsEui' 05 'bidi' C2 'snBsUuid' DC0010 16*2A",
      CHZ_VERSION, 0, NULL, CHZ_WAITING, 9, -4 },
    { "con resumes with the same IDs", ARRIVES, CON_AFTER("2A", "'snBsOpId' 09 'snScOpId' FC"), 0, CHZ_RESUMED, CON_RSP("C3", "11"),
      CHZ_CONNECTING, 9, -4 },
    { "lost while connecting", LOST, PING, 0, CHZ_STORED, NULL, CHZ_WAITING, 9, -4 },
    { "con resumes without IDs", ARRIVES, CON, 0, CHZ_RESUMED, CON_RSP("C3", "11"), CHZ_CONNECTING, 9, -4 },
    { "opens again", ARRIVES, MESSAGE("conCmp", "00"), 0, CHZ_OPENED, NULL, CHZ_OPEN, 9, -4 },
    { "an operation that was open before", ARRIVES, MESSAGE("pingRsp", "FE"), 0, CHZ_ANSWERED, MESSAGE("pingCmp", "FE"), CHZ_OPEN, 9, -4 },
    { "lost once more", LOST, PING, 0, CHZ_STORED, NULL, CHZ_WAITING, 9, -4 },
    { "con of a station that knows more", ARRIVES, CON_AFTER("2A", "'snBsOpId' 0A 'snScOpId' FC"), 0, CHZ_BEGUN, CON_RSP("C2", "11"),
      CHZ_CONNECTING, 0, 0 },
    { "lost after that", LOST, PING, 0, CHZ_STORED, NULL, CHZ_WAITING, 0, 0 },
    { "con with another UUID", ARRIVES, CON_AFTER("2B", "'snBsOpId' 00 'snScOpId' 00"), 0, CHZ_BEGUN, CON_RSP("C2", "11"), CHZ_CONNECTING,
      0, 0 },
};

static const struct {
    enum what what;
    const char *message;
} story[] = {
    { ARRIVES, CON },
    { ARRIVES, MESSAGE("conCmp", "00") },
    { ARRIVES, PING },
    { ARRIVES, READING_2 },
    { BEGINS, MESSAGE("status", "00") },
    { BEGINS, PING },
    { ARRIVES, STATUS_RSP },
    { ARRIVES, MESSAGE("pingCmp", "01") },
    { ARRIVES, DET_9 },
    { LOST, PING },
};

/* Every byte of the session after a story: det 9 took the place that ping 1 left, the centre's first place is free again. */
static void whole_session(void)
{
    chz_session now, expected = { .bs_eui = 5, .highest = 9, .lowest = -2, .station_id = { 9, 2 }, .centre_id = { 0, -2 },
        .station_kind = { CHZ_DET, CHZ_UL_DATA }, .centre_kind = { 0, CHZ_PING }, .state = CHZ_WAITING, .stored = 1 };
    memset(expected.sn_bs_uuid, 0x2A, 16);
    memset(expected.sn_sc_uuid, 0x11, 16);
    memset(&now, 0, sizeof now);
    for (size_t i = 0; i < COUNT(story); i++) {
        start("a whole session");
        lend_session(&now, story[i].message);
        take(story[i].what);
        now = session_now();
    }
    expect(&session, 0, &expected, sizeof expected);
    JUDGE(sizeof now, session.len, &session);
}

void steps(void)
{
    live(cases, COUNT(cases), 0);
    live(cases, COUNT(cases), 2);
    live(cases, COUNT(cases), 0xFF);
    whole_session();
}
