/* What each step changes in a session: the members that it names, and no other byte. */
#include <string.h>

#include "cases.h"
#include "sessions.h"
#include "spell.h"

/* A number of eight equal bytes, so that one stored in part shows. */
#define ALL(byte) ((int64_t)(0x0101010101010101u * (byte)))

/* On each side the places 2, 4 and from 7 on are free, the first two with a kind. The Cmp and the Rsp below match 5 and 6;
 * 1 has their ID and 3 their kind. Every byte of lowest changes with the next ID. */
static chz_session busy(uint8_t state, uint8_t stored)
{
    chz_session s = { .bs_eui = ALL(0x42), .highest = ALL(0x20), .lowest = INT64_MIN + ((int64_t)1 << 56),
        .station_id = { ALL(3), ALL(7), 0, ALL(4), 0, ALL(7), ALL(7) },
        .centre_id = { ALL(0xF3), ALL(0xF7), 0, ALL(0xF4), 0, ALL(0xF7), ALL(0xF7) },
        .station_kind = { CHZ_DET, CHZ_UL_DATA, 0xEE, CHZ_PING, 0xEE, CHZ_PING, CHZ_PING },
        .centre_kind = { CHZ_ATT_PRP, CHZ_STATUS, 0xEE, CHZ_PING, 0xEE, CHZ_PING, CHZ_PING },
        .state = state, .stored = stored };
    memset(s.sn_bs_uuid, 0x43, 16);
    memset(s.sn_sc_uuid, 0x44, 16);
    return s;
}

/* A con that begins a session leaves nothing of the former one. */
static void all(chz_session *s)
{
    memset(s, 0, sizeof *s);
    s->bs_eui = ALL(0x51);
    memset(s->sn_bs_uuid, 0x52, 16);
    memset(s->sn_sc_uuid, 0x11, 16);
    s->state = CHZ_CONNECTING;
}

static void state_connecting(chz_session *s)
{
    s->state = CHZ_CONNECTING;
}

static void state_open(chz_session *s)
{
    s->state = CHZ_OPEN;
}

static void station_takes_2(chz_session *s)
{
    s->station_id[2] = s->highest = ALL(0x31);
    s->station_kind[2] = CHZ_PING;
}

static void station_frees_5(chz_session *s)
{
    s->station_id[5] = s->station_kind[5] = 0;
}

static void centre_frees_5(chz_session *s)
{
    s->centre_id[5] = s->centre_kind[5] = 0;
}

static void centre_takes_2(chz_session *s)
{
    s->centre_id[2] = --s->lowest;
    s->centre_kind[2] = CHZ_STATUS;
}

static void state_stored(chz_session *s)
{
    s->state = CHZ_WAITING;
    s->stored = 1;
}

static void none(chz_session *s)
{
    (void)s;
}

#define CON_OF(eui, bs_uuid)                                                                                               \
    "86 'command' 'con' 'opId' 00 'version' '1.0.0' 'bsEui' CF 8*" eui " 'bidi' C2 'snBsUuid' DC0010 16*" bs_uuid

static const struct {
    const char *name;
    uint8_t state, stored;
    enum what what;
    const char *message;
    unsigned happened;
    const char *sent; /* NULL: nothing */
    void (*names)(chz_session *after);
} cases[] = {
    { "con of another station", CHZ_WAITING, 1, ARRIVES, CON_OF("51", "52"), CHZ_BEGUN, CON_RSP("C2", "11"), all },
    { "con that resumes", CHZ_WAITING, 1, ARRIVES, CON_OF("42", "43"), CHZ_RESUMED, CON_RSP("C3", "44"), state_connecting },
    { "conCmp", CHZ_CONNECTING, 1, ARRIVES, MESSAGE("conCmp", "00"), CHZ_OPENED, NULL, state_open },
    { "a start takes the lowest free place", CHZ_OPEN, 0, ARRIVES, MESSAGE("ping", "CF 8*31"), CHZ_STARTED,
      MESSAGE("pingRsp", "CF 8*31"), station_takes_2 },
    { "a Cmp frees the lowest that matches", CHZ_OPEN, 0, ARRIVES, MESSAGE("pingCmp", "CF 8*07"), CHZ_COMPLETED, NULL, station_frees_5 },
    { "a Rsp frees the lowest that matches", CHZ_OPEN, 0, ARRIVES, MESSAGE("pingRsp", "D3 8*F7"), CHZ_ANSWERED,
      MESSAGE("pingCmp", "D3 8*F7"), centre_frees_5 },
    { "a centre's start takes the lowest free place", CHZ_OPEN, 0, BEGINS, MESSAGE("status", "00"), CHZ_ISSUED,
      MESSAGE("status", "D380 7*FF"), centre_takes_2 },
    { "busy session lost while open", CHZ_OPEN, 0, LOST, PING, CHZ_STORED, NULL, state_stored },
    { "busy session lost while connecting", CHZ_CONNECTING, 0, LOST, PING, CHZ_STORED, NULL, state_stored },
    { "busy session lost while waiting", CHZ_WAITING, 0, LOST, PING, CHZ_NOTHING, NULL, none },
};

/* The same step, its reply a byte too long for the room: refused last of all, and still nothing was changed. */
static void no_change(size_t i, size_t len)
{
    lend_filled(&room, FILLING, len - 1);
    JUDGE(take(cases[i].what), ANSWER(CHZ_ROOM_TOO_SHORT, 0, 0), ALL_OF_SESSION);
}

static void change(size_t i, chz_session after, const uint8_t *frame, size_t len)
{
    cases[i].names(&after);
    expect(&session, 0, &after, sizeof after);
    lend_filled(&room, FILLING, CHZ_ROOM);
    expect(&room, 0, frame, len);
    JUDGE(take(cases[i].what), ANSWER(CHZ_DONE, cases[i].happened, len), ALL_OF_SESSION);
}

void changes(void)
{
    for (size_t i = 0; i < COUNT(cases); i++) {
        uint8_t frame[LENT_MOST];
        size_t len = cases[i].sent ? spell_frame(cases[i].sent, frame) : 0;
        chz_session before = busy(cases[i].state, cases[i].stored);
        start(cases[i].name);
        lend_session(&before, cases[i].message);
        if (len) no_change(i, len);
        change(i, before, frame, len);
    }
}
