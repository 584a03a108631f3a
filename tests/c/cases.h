/* The groups of cases, one file each. */
#ifndef CASES_H
#define CASES_H

void frames(void);
void reads(void);
void commands(void);
void writes(void);
void marks(void);
void data_lengths(void);
void chained(void);
void steps(void);
void refused_steps(void);
void changes(void);
void meters(void);
void refused_meters(void);
void reals(void);
void nothing(void);
void names(void);
void downlinks(void);
void downlink_limits(void);
void downlink_steps(void);
void places(void);
void choices(void);
void refused_queues(void);
void filling(void);
void traces(void);
void refused_traces(void);

/* Payloads that several groups use: P of document 01, its answer, a con, a reading, and two starts of the centre with fields. */
#define PING "82 'command' 'ping' 'opId' 01"
#define PING_RSP "82 'command' 'pingRsp' 'opId' 01"
#define CON_HAS "'command' 'con' 'opId' 00 'version' '1.0.0' 'bsEui' 05 'bidi' C2 'snBsUuid' DC0010 16*2A"
#define CON "86 " CON_HAS
#define READING_HAS                                                                                                   \
    "'command' 'ulData' 'opId' 07 'epEui' 09 'rxTime' 01 'packetCnt' 64 'snr' CA41200000 'rssi' CAC2C20000 "          \
    "'userData' 93010203 'dlOpen' C2 'responseExp' C2 'dlAck' C2"
#define READING "8B " READING_HAS
#define ATT_PRP                                                                                                            \
    "8B 'command' 'attPrp' 'opId' 63 'epEui' 09 'bidi' C2 'nwkSnKey' DC0010 16*7F 'shAddr' 01 'lastPacketCnt' 64 "         \
    "'dualChan' C2 'repetition' C2 'wideCarrOff' C2 'longBlkDist' C2"
#define DOWNLINK_TO(id) "'command' 'dlDataQue' 'opId' " id " 'epEui' 09 'queId' 05 "
#define DOWNLINK_HAS DOWNLINK_TO("07") "'cntDepend' C2 'userData' 91 93010203"
#define DOWNLINK "86 " DOWNLINK_HAS

/* A message that has nothing more; the reply to a con; a con of a station that had a session, with the IDs it knows. */
#define MESSAGE(command, id) "82 'command' '" command "' 'opId' " id
#define CON_RSP(resume, uuid)                                                                                              \
    "86 'command' 'conRsp' 'opId' 00 'version' '1.0.0' 'scEui' CC80 'snResume' " resume " 'snScUuid' DC0010 16*" uuid
#define CON_AFTER(bs_uuid, ids)                                                                                            \
    "88 'command' 'con' 'opId' 00 'version' '1.0.9' 'bsEui' 05 'bidi' C2 'snBsUuid' DC0010 16*" bs_uuid " " ids

#endif
