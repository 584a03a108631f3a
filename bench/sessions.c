/* The session's calls: a message arrives, the centre begins an operation, the connection is lost. */
#include "bench.h"

#include <string.h>

const uint64_t centre = 0x70B3D5FFFE000001;
const uint8_t uuid[16] = { 1 }, sign[4] = { 2 };
static _Alignas(64) chz_session start, session;
static _Alignas(64) chz_message image;
static _Alignas(64) uint8_t room[CHZ_ROOM];
static size_t room_len;
static call_arrive *volatile arrive_call;
static call_begin *volatile begin_call;
static call_lost *volatile lost_call;

/* A round starts from the same session: the copy is in the empty round too. */
static void rounds_arrive(unsigned long rounds)
{
    while (rounds--) {
        session = start;
        arrive_call((uint8_t *)&session, sizeof session, IMAGE_IN(image), centre, uuid, sizeof uuid, sign, sizeof sign, room, room_len);
    }
}

static void rounds_begin(unsigned long rounds)
{
    while (rounds--) {
        session = start;
        begin_call((uint8_t *)&session, sizeof session, IMAGE_IN(image), room, room_len);
    }
}

static void rounds_lost(unsigned long rounds)
{
    while (rounds--) {
        session = start;
        lost_call((uint8_t *)&session, sizeof session);
    }
}

void session_open(chz_session *s)
{
    chz_message m;
    uint8_t reply[CHZ_ROOM];
    memset(s, 0, sizeof *s);
    message_fill(&m, "con", 0);
    uint64_t answer = chz_session_arrive(s, &m, centre, uuid, sign, reply, sizeof reply);
    need(chz_happened(answer) == CHZ_BEGUN, "con doesn't begin a session");
    memset(&m, 0, sizeof m);
    m.command = CHZ_CON_CMP;
    answer = chz_session_arrive(s, &m, centre, uuid, sign, reply, sizeof reply);
    need(chz_happened(answer) == CHZ_OPENED, "conCmp doesn't open the session");
}

/* Each side has an operation open when the connection is lost. */
static void session_store(chz_session *s)
{
    chz_message m;
    uint8_t sent[CHZ_ROOM];
    message_fill(&m, "ping", 0);
    need(chz_happened(chz_session_arrive(s, &m, centre, uuid, sign, sent, sizeof sent)) == CHZ_STARTED, "ping doesn't start");
    need(chz_happened(chz_session_begin(s, &m, sent, sizeof sent)) == CHZ_ISSUED, "the centre's ping isn't issued");
    need(chz_happened(chz_session_lost(s)) == CHZ_STORED, "the session isn't stored");
}

/* A case, the message that it hands in, whether the session was stored before, what happens and what is written. */
struct step {
    const char *what, *name, *message;
    int stored;
    unsigned happened;
    enum chz_command sent;
};

/* con comes to a stored session: with IDs that the session doesn't know it begins anew, with the session's own it resumes. */
static const struct step steps[] = {
    { "arrive", "ping", "ping", 0, CHZ_STARTED, CHZ_PING_RSP },
    { "arrive", "ulData", "ulData", 0, CHZ_STARTED, CHZ_UL_DATA_RSP },
    { "arrive", "con", "con", 1, CHZ_BEGUN, CHZ_CON_RSP },
    { "arrive", "resume", "con", 1, CHZ_RESUMED, CHZ_CON_RSP },
    { "begin", "ping", "ping", 0, CHZ_ISSUED, CHZ_PING },
    { "begin", "attPrp", "attPrp", 0, CHZ_ISSUED, CHZ_ATT_PRP },
    { "begin", "downlink", "downlink", 0, CHZ_ISSUED, CHZ_DL_DATA_QUE },
    { "begin", "downlinks", "downlinks", 0, CHZ_ISSUED, CHZ_DL_DATA_QUE },
};

static void prepare(const struct step *s, unsigned size)
{
    session_open(&start);
    if (s->stored) session_store(&start);
    message_fill(&image, s->message, size);
    if (s->happened != CHZ_RESUMED) return;
    image.con.sn_bs_op_id = start.highest;
    image.con.sn_sc_op_id = start.lowest;
}

/* The message that the step has to send. */
static chz_message message_sent(const struct step *s)
{
    chz_message m = image;
    if (s->happened != CHZ_ISSUED) message_fill(&m, s->sent == CHZ_CON_RSP ? "conRsp" : "ping", 0);
    m.command = s->sent;
    m.op_id = s->happened == CHZ_ISSUED ? start.lowest - 1 : image.op_id;
    if (s->sent != CHZ_CON_RSP) return m;
    m.con_rsp.sn_resume = s->happened == CHZ_RESUMED;
    memcpy(m.con_rsp.sn_sc_uuid, uuid, sizeof uuid);
    return m;
}

/* In the room of that length the step is taken, and its message stands there: its length. */
static size_t agree(const struct step *s, size_t len)
{
    uint8_t frame[CHZ_ROOM];
    chz_message wanted = message_sent(s);
    size_t wanted_len = chz_value(chz_message_write(&wanted, frame, sizeof frame));
    session = start;
    memset(room, 0xEE, sizeof room);
    uint64_t answer = s->happened == CHZ_ISSUED ? chz_session_begin(&session, &image, room, len)
                                                : chz_session_arrive(&session, &image, centre, uuid, sign, room, len);
    need(chz_refused(answer) == CHZ_DONE && chz_happened(answer) == s->happened, "another step is taken");
    need(wanted_len && chz_value(answer) == wanted_len && !memcmp(room, frame, wanted_len), "another message is written");
    return wanted_len;
}

static bench_rounds *lost_case(enum way way)
{
    session_open(&start);
    session = start;
    need(chz_happened(chz_session_lost(&session)) == CHZ_STORED, "chz_lost doesn't store the session");
    need(session.stored == 1 && session.state == CHZ_WAITING, "the session doesn't wait");
    lost_call = way == WAY_EMPTY ? empty_lost : chz_lost;
    return rounds_lost;
}

bench_rounds *sessions_case(const char *what, const char *name, unsigned size, enum way way)
{
    const struct step *s = steps, *end = steps + sizeof steps / sizeof *steps;
    if (!strcmp(what, "lost")) return lost_case(way);
    while (s < end && (strcmp(s->what, what) || strcmp(s->name, name))) s++;
    if (s == end) return NULL;
    prepare(s, size);
    room_len = agree(s, sizeof room);
    need(agree(s, room_len) == room_len, "another length in a short room");
    if (way != WAY_SHORT) room_len = sizeof room;
    arrive_call = way == WAY_EMPTY ? empty_arrive : chz_arrive;
    begin_call = way == WAY_EMPTY ? empty_begin : chz_begin;
    return s->happened == CHZ_ISSUED ? rounds_begin : rounds_arrive;
}
