/* Session calls refused for what is lent (15, 20) and at their limits (18, 19): nothing lent changes.
 * Last, sessions that no call would have left. */
#include <stdio.h>
#include <string.h>

#include "cases.h"
#include "sessions.h"
#include "spell.h"

/* What is handed over beside the right thing. */
static const struct {
    const char *name;
    struct lent *buffer;
    size_t len;
} lengths[] = {
    { "session a byte short", &session, sizeof(chz_session) - 1 }, { "session a byte long", &session, sizeof(chz_session) + 1 },
    { "no session", &session, 0 }, { "session of the former length", &session, 352 },
    { "message a byte short", &message, CHZ_MESSAGE - 1 }, { "message a byte long", &message, CHZ_MESSAGE + 1 },
    { "no message", &message, 0 }, { "message with its data behind it", &message, sizeof(chz_message) },
    { "message of the former length", &message, 584 },
    { "uuid a byte short", &uuid, 15 }, { "uuid a byte long", &uuid, 17 },
    { "sign a byte short", &sign, 3 }, { "sign a byte long", &sign, 5 },
};

/* The buffer as it was, in another length. */
static void lend_as_long(struct lent *l, size_t len)
{
    uint8_t bytes[LENT_MOST] = { 0 };
    memcpy(bytes, l->at, l->len < len ? l->len : len);
    lend(l, bytes, len);
}

/* 15 comes before 17: in a waiting session as in an open one. */
static void each_length(void)
{
    for (size_t i = 0; i < 2 * COUNT(lengths); i++) {
        chz_session s = open_session();
        if (i % 2) s.state = CHZ_WAITING;
        struct lent *buffer = lengths[i / 2].buffer;
        start(lengths[i / 2].name);
        lend_session(&s, PING);
        lend_as_long(buffer, lengths[i / 2].len);
        JUDGE(arrive(), ANSWER(CHZ_INVALID, 0, 0), ALL_OF_SESSION);
        if (buffer == &session || buffer == &message) JUDGE(begin(), ANSWER(CHZ_INVALID, 0, 0), ALL_OF_SESSION);
        if (buffer == &session) JUDGE(lose(), ANSWER(CHZ_INVALID, 0, 0), ALL_OF_SESSION);
    }
}

static void spoilt_session(const char *name, size_t at, uint8_t byte)
{
    chz_session s = open_session();
    ((uint8_t *)&s)[at] = byte;
    start(name);
    lend_session(&s, PING);
    JUDGE(arrive(), ANSWER(CHZ_INVALID, 0, 0), ALL_OF_SESSION);
    JUDGE(begin(), ANSWER(CHZ_INVALID, 0, 0), ALL_OF_SESSION);
    JUDGE(lose(), ANSWER(CHZ_INVALID, 0, 0), ALL_OF_SESSION);
}

/* The reserved bytes one by one: a look at some of them is not enough. */
static void each_spoilt_session(void)
{
    spoilt_session("state 3", offsetof(chz_session, state), 3);
    spoilt_session("stored 2", offsetof(chz_session, stored), 2);
    for (size_t at = offsetof(chz_session, reserved); at < sizeof(chz_session); at++) {
        static char name[32];
        snprintf(name, sizeof name, "byte %zu of the session is 1", at);
        spoilt_session(name, at, 1);
    }
}

/* An arriving record outside its ranges is 15 before 17; one to start with is 15 after 17, 18 and 19. */
static void spoilt_record(const char *name, const chz_session *before, const chz_message *m, unsigned begin_refused)
{
    start(name);
    lend_session_with(before, m);
    JUDGE(arrive(), ANSWER(CHZ_INVALID, 0, 0), ALL_OF_SESSION);
    JUDGE(begin(), ANSWER(begin_refused, 0, 0), ALL_OF_SESSION);
}

static void in_each_session(const chz_message *m)
{
    chz_session s = open_session();
    spoilt_record("bad record, open", &s, m, CHZ_INVALID);
    fill_places(s.centre_id, s.centre_kind, -1);
    spoilt_record("bad record, sixteen open", &s, m, CHZ_SIXTEEN_OPEN);
    s.lowest = INT64_MIN;
    spoilt_record("bad record, no ID left", &s, m, CHZ_ID_OUT_OF_ORDER);
    s.state = CHZ_WAITING;
    spoilt_record("bad record, waiting", &s, m, CHZ_STATE);
}

static void with_byte(chz_message m, size_t at, uint8_t byte)
{
    ((uint8_t *)&m)[at] = byte;
    in_each_session(&m);
}

/* Of the centre's starts only attPrp can be a bad record, by its marks, and dlDataQue, by its marks and its entries. */
static void each_spoilt_record(void)
{
    const chz_message att_prp = message_of(ATT_PRP), downlink = message_of(DOWNLINK);
    for (size_t at = offsetof(chz_message, att_prp.bidi); at <= offsetof(chz_message, att_prp.long_blk_dist); at++)
        with_byte(att_prp, at, 2), with_byte(att_prp, at, 255);
    for (size_t at = offsetof(chz_message, dl_data_que.cnt_depend); at <= offsetof(chz_message, dl_data_que.exp_only); at++)
        with_byte(downlink, at, 2), with_byte(downlink, at, 255);
    with_byte(downlink, offsetof(chz_message, dl_data_que.entries), 0);
    with_byte(downlink, offsetof(chz_message, dl_data_que.entries), 2);
    with_byte(downlink, offsetof(chz_message, dl_data_que.entries), 255);
    with_byte(downlink, offsetof(chz_message, dl.length), CHZ_USER_DATA + 1);
}

/* A command that there is not is 15 where it arrives; to begin with it is 17, before all that is wrong besides. */
static void each_unknown_command(void)
{
    static const uint8_t commands[] = { 24, 25, 127, 128, 255 };
    chz_session s = open_session();
    fill_places(s.centre_id, s.centre_kind, -1);
    s.lowest = INT64_MIN;
    for (size_t i = 0; i < COUNT(commands); i++) {
        chz_message m = message_of(PING);
        m.command = commands[i];
        spoilt_record("a command that there is not", &s, &m, CHZ_STATE);
    }
}

static void limit(const char *name, const chz_session *before, unsigned arrive_refused, unsigned begin_refused)
{
    start(name);
    lend_session(before, "82 'command' 'ping' 'opId' 7F");
    JUDGE(arrive(), ANSWER(arrive_refused, 0, 0), ALL_OF_SESSION);
    JUDGE(begin(), ANSWER(begin_refused, 0, 0), ALL_OF_SESSION);
}

static void each_limit(void)
{
    chz_session s = open_session();
    fill_places(s.station_id, s.station_kind, 1);
    fill_places(s.centre_id, s.centre_kind, -1);
    limit("sixteen open on each side", &s, CHZ_SIXTEEN_OPEN, CHZ_SIXTEEN_OPEN);
    s.highest = 127;
    s.lowest = INT64_MIN;
    limit("18 before 19", &s, CHZ_ID_OUT_OF_ORDER, CHZ_ID_OUT_OF_ORDER);
    s = open_session();
    s.highest = INT64_MAX;
    s.lowest = INT64_MIN;
    limit("no ID left", &s, CHZ_ID_OUT_OF_ORDER, CHZ_ID_OUT_OF_ORDER);
}

/* 20 comes last and takes no step: with one byte more the same step is taken. */
static void each_short_room(void)
{
    chz_session s = open_session();
    start("a byte of room missing");
    lend_session(&s, PING);
    lend_filled(&room, FILLING, 34);
    JUDGE(arrive(), ANSWER(CHZ_ROOM_TOO_SHORT, 0, 0), ALL_OF_SESSION);
    lend_filled(&room, FILLING, 31);
    JUDGE(begin(), ANSWER(CHZ_ROOM_TOO_SHORT, 0, 0), ALL_OF_SESSION);
    start("no room, but nothing to send");
    s.state = CHZ_CONNECTING;
    lend_session(&s, "82 'command' 'conCmp' 'opId' 00");
    lend_filled(&room, FILLING, 0);
    s.state = CHZ_OPEN;
    expect(&session, 0, &s, sizeof s);
    JUDGE(arrive(), ANSWER(CHZ_DONE, CHZ_OPENED, 0), ALL_OF_SESSION);
    start("just enough room");
    lend_session(&s, PING);
    lend_filled(&room, FILLING, 35);
    JUDGE(chz_refused(arrive()), CHZ_DONE, &message, &data, &uuid, &sign);
    JUDGE(session_now().highest, 1, &message, &data, &uuid, &sign);
}

/* Contents that no call leaves: a free place that names a kind, a negative highest and a positive lowest. */
static chz_session strange_session(void)
{
    chz_session s = open_session();
    s.station_kind[0] = s.centre_kind[0] = CHZ_PING;
    s.highest = -5;
    s.lowest = 5;
    return s;
}

static void strange_contents(void)
{
    chz_session s = strange_session();
    start("a free place never matches");
    lend_session(&s, "82 'command' 'pingCmp' 'opId' 00");
    JUDGE(arrive(), ANSWER(CHZ_STATE, 0, 0), ALL_OF_SESSION);
    lend_session(&s, "82 'command' 'pingRsp' 'opId' 00");
    JUDGE(arrive(), ANSWER(CHZ_STATE, 0, 0), ALL_OF_SESSION);
    start("a negative highest counts as 0");
    lend_session(&s, "82 'command' 'ping' 'opId' 00");
    JUDGE(arrive(), ANSWER(CHZ_ID_OUT_OF_ORDER, 0, 0), ALL_OF_SESSION);
    start("a positive lowest counts as 0");
    begin();
    JUDGE((uint64_t)session_now().lowest, (uint64_t)-1, &message, &data);
}

/* A station that knows of no operation resumes, and the session keeps its strange IDs. */
static void strange_resume(void)
{
    uint8_t frame[LENT_MOST];
    size_t len = spell_frame(CON_RSP("C3", "00"), frame);
    chz_session s = strange_session();
    s.bs_eui = 5;
    s.stored = 1;
    s.state = CHZ_WAITING;
    start("both count as 0 where a con resumes");
    lend_session(&s, CON_AFTER("00", "'snBsOpId' 00 'snScOpId' 00"));
    s.state = CHZ_CONNECTING;
    expect(&session, 0, &s, sizeof s);
    expect(&room, 0, frame, len);
    JUDGE(arrive(), ANSWER(CHZ_DONE, CHZ_RESUMED, len), ALL_OF_SESSION);
}

static void twice_open(void)
{
    chz_session s = open_session();
    start("of two entries that match the lower one is freed");
    s.station_id[1] = s.station_id[2] = 4;
    s.station_kind[1] = s.station_kind[2] = CHZ_PING;
    lend_session(&s, "82 'command' 'pingCmp' 'opId' 04");
    s.station_id[1] = s.station_kind[1] = 0;
    expect(&session, 0, &s, sizeof s);
    JUDGE(arrive(), ANSWER(CHZ_DONE, CHZ_COMPLETED, 0), ALL_OF_SESSION);
}

void refused_steps(void)
{
    each_length();
    each_spoilt_session();
    each_spoilt_record();
    each_unknown_command();
    each_limit();
    each_short_room();
    strange_contents();
    strange_resume();
    twice_open();
}
