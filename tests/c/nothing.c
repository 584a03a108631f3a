/* NULL with length 0 in every place that takes a buffer: an empty buffer, which never crashes. */
#include "cases.h"
#include "sessions.h"
#include "spell.h"

#define NOTHING NULL, 0
#define NO_TABLE NOTHING, NOTHING, NOTHING, NOTHING, NOTHING

static void is(const char *name, uint64_t answer, unsigned refused)
{
    start(name);
    JUDGE(answer, ANSWER(refused, 0, 0), NULL);
}

static void messages(void)
{
    chz_message m;
    uint8_t bytes[LENT_MOST];
    size_t len = spell(PING, bytes);
    is("frame of nothing", chz_frame(NOTHING), CHZ_FRAME_INCOMPLETE);
    is("form of nothing", chz_form(NOTHING), CHZ_SIZE);
    is("nothing read into nothing", chz_read(NOTHING, NOTHING, NOTHING), CHZ_INVALID);
    is("nothing read", chz_message_read(NOTHING, &m), CHZ_SIZE);
    is("read into nothing", chz_read(bytes, len, NOTHING, NOTHING), CHZ_INVALID);
    is("read into data without a message", chz_read(bytes, len, NOTHING, m.data, CHZ_DATA), CHZ_INVALID);
    is("nothing written into nothing", chz_write(NOTHING, NOTHING, NOTHING), CHZ_INVALID);
    is("nothing written", chz_write(NOTHING, NOTHING, bytes, CHZ_ROOM), CHZ_INVALID);
    is("data without a message written", chz_write(NOTHING, m.data, CHZ_DATA, bytes, CHZ_ROOM), CHZ_INVALID);
    m = message_of(PING);
    is("written into nothing", chz_message_write(&m, NOTHING), CHZ_ROOM_TOO_SHORT);
}

#define LENT(l) l.at, l.len

/* A message is not read without data to read it into, even if it has none; nor is nothing, or what is no message. */
static void read_without_data(void)
{
    lend_payload(PING);
    is("a ping read without data", chz_read(LENT(payload), LENT(message), NOTHING), CHZ_INVALID);
    is("nothing read without data", chz_read(NOTHING, LENT(message), NOTHING), CHZ_INVALID);
    lend_payload("C1");
    is("the byte never used read without data", chz_read(LENT(payload), LENT(message), NOTHING), CHZ_INVALID);
    start("no read without data changed anything");
    JUDGE(0, 0, &payload, &message, &data);
}

/* A message that says no data is written without it, another is not. */
static void written_without_data(void)
{
    uint8_t frame[LENT_MOST];
    size_t len = spell_frame(PING, frame);
    chz_message m = message_of(PING);
    lend_message(&m);
    lend_filled(&room, FILLING, CHZ_ROOM);
    expect(&room, 0, frame, len);
    start("a ping written without data");
    JUDGE(chz_write(LENT(message), NOTHING, LENT(room)), ANSWER(CHZ_DONE, 0, len), &message, &room);
    m = message_of(READING);
    lend_message(&m);
    lend_filled(&room, FILLING, CHZ_ROOM);
    start("a reading written without its data");
    JUDGE(chz_write(LENT(message), NOTHING, LENT(room)), ANSWER(CHZ_INVALID, 0, 0), &message, &room);
    m.ul_data.user_len = 0;
    lend_message(&m);
    start("a reading that says none written without data");
    JUDGE(chz_refused(chz_write(LENT(message), NOTHING, LENT(room))), CHZ_DONE, &message);
}

/* Each buffer in turn; the others are as they should be. */
static void arrivals(void)
{
    const chz_session open = open_session();
    lend_session(&open, PING);
    is("arrive: nothing at all", chz_arrive(NOTHING, NOTHING, NOTHING, 0, NOTHING, NOTHING, NOTHING), CHZ_INVALID);
#define ARRIVE(session, message, uuid, sign, room) chz_arrive(session, message, LENT(data), 128, uuid, sign, room)
    is("arrive: no session", ARRIVE(NOTHING, LENT(message), LENT(uuid), LENT(sign), LENT(room)), CHZ_INVALID);
    is("arrive: no message", ARRIVE(LENT(session), NOTHING, LENT(uuid), LENT(sign), LENT(room)), CHZ_INVALID);
    is("arrive: no uuid", ARRIVE(LENT(session), LENT(message), NOTHING, LENT(sign), LENT(room)), CHZ_INVALID);
    is("arrive: no sign", ARRIVE(LENT(session), LENT(message), LENT(uuid), NOTHING, LENT(room)), CHZ_INVALID);
    is("arrive: no room", ARRIVE(LENT(session), LENT(message), LENT(uuid), LENT(sign), NOTHING), CHZ_ROOM_TOO_SHORT);
    is("begin: nothing at all", chz_begin(NOTHING, NOTHING, NOTHING, NOTHING), CHZ_INVALID);
    is("begin: no session", chz_begin(NOTHING, LENT(message), LENT(data), LENT(room)), CHZ_INVALID);
    is("begin: no message", chz_begin(LENT(session), NOTHING, LENT(data), LENT(room)), CHZ_INVALID);
    is("begin: no room", chz_begin(LENT(session), LENT(message), LENT(data), NOTHING), CHZ_ROOM_TOO_SHORT);
    is("lost: no session", chz_lost(NOTHING), CHZ_INVALID);
    start("none of these changed anything");
    JUDGE(0, 0, ALL_OF_SESSION);
}

static void arrival_without_room(void)
{
    chz_session open = open_session();
    start("a Cmp needs no room");
    open.station_id[3] = 9;
    open.station_kind[3] = CHZ_PING;
    lend_session(&open, "82 'command' 'pingCmp' 'opId' 09");
    open.station_id[3] = open.station_kind[3] = 0;
    expect(&session, 0, &open, sizeof open);
    JUDGE(ARRIVE(LENT(session), LENT(message), LENT(uuid), LENT(sign), NOTHING), ANSWER(0, CHZ_COMPLETED, 0), ALL_OF_SESSION);
}

#define ARRIVE_WITHOUT_DATA chz_arrive(LENT(session), LENT(message), NOTHING, 128, LENT(uuid), LENT(sign), LENT(room))

/* A ping needs no data, on either side; a reading needs its own. */
static void steps_without_data(void)
{
    const chz_session open = open_session();
    lend_session(&open, PING);
    start("a ping arrives without data");
    JUDGE(chz_happened(ARRIVE_WITHOUT_DATA), CHZ_STARTED, &message, &uuid, &sign);
    lend_session(&open, PING);
    start("the centre's ping without data");
    JUDGE(chz_happened(chz_begin(LENT(session), LENT(message), NOTHING, LENT(room))), CHZ_ISSUED, &message);
    lend_session(&open, READING);
    is("a reading arrives without its data", ARRIVE_WITHOUT_DATA, CHZ_INVALID);
    JUDGE(0, 0, ALL_OF_SESSION);
}

static void tables(void)
{
    uint8_t used[1] = { 1 };
    is("find in nothing", chz_find(NO_TABLE, 7), CHZ_NO_ROW);
    is("enrol into nothing", chz_enrol(NO_TABLE, 7, 1, 100), CHZ_NO_FREE_ROW);
    is("withdraw from nothing", chz_withdraw(NO_TABLE, 7), CHZ_NO_ROW);
    is("uplink into nothing", chz_uplink(NO_TABLE, 7, 101, 0), CHZ_NO_ROW);
    is("uplink into nothing, station 64", chz_uplink(NO_TABLE, 7, 101, 64), CHZ_STATION_NUMBER);
    is("find in one column", chz_find(used, 1, NOTHING, NOTHING, NOTHING, NOTHING, 7), CHZ_UNEQUAL_COLUMNS);
}

void nothing(void)
{
    messages();
    read_without_data();
    written_without_data();
    arrivals();
    arrival_without_room();
    steps_without_data();
    tables();
}
