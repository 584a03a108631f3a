/* dlDataQue at its limits, read and written: how many counters and data entries, how long they are, how much of its data is lent, and
 * how long its frame is. */
#include <stdio.h>
#include <string.h>

#include "cases.h"
#include "sessions.h"
#include "spell.h"
#include "whole.h"

enum { NO_COUNTERS = -1, MOST = 17 };

/* A downlink of any shape, lawful or not. Counters are 1, 2 and so on, and so are the bytes of all entries. */
struct shape {
    bool depend;
    int counters; /* NO_COUNTERS: no packetCnt */
    unsigned entries;
    unsigned length[MOST];
};

static size_t array(size_t len, uint8_t *into)
{
    if (len < 16) return into[0] = (uint8_t)(0x90 + len), 1;
    into[0] = 0xDC;
    into[1] = (uint8_t)(len >> 8);
    into[2] = (uint8_t)len;
    return 3;
}

static uint8_t byte_at(size_t place)
{
    return (uint8_t)((place + 1) % 128);
}

static size_t entries_of(const struct shape *s, uint8_t *into)
{
    size_t size = array(s->entries, into), place = 0;
    for (unsigned i = 0; i < s->entries; i++) {
        size += array(s->length[i], into + size);
        for (unsigned at = 0; at < s->length[i]; at++) into[size++] = byte_at(place++);
    }
    return size;
}

/* Its payload in the writer's form: every number takes one byte. */
static size_t payload_of(const struct shape *s, uint8_t *into)
{
    size_t size = spell(s->counters == NO_COUNTERS ? "86 " DOWNLINK_TO("07") : "87 " DOWNLINK_TO("07"), into);
    size += spell(s->depend ? "'cntDepend' C3" : "'cntDepend' C2", into + size);
    if (s->counters != NO_COUNTERS) {
        size += spell("'packetCnt'", into + size);
        size += array((size_t)s->counters, into + size);
        for (int i = 0; i < s->counters; i++) into[size++] = (uint8_t)(i + 1);
    }
    size += spell("'userData'", into + size);
    return size + entries_of(s, into + size);
}

static unsigned together(const struct shape *s)
{
    unsigned sum = 0;
    for (unsigned i = 0; i < s->entries; i++) sum += s->length[i];
    return sum;
}

static unsigned elements_of(const struct shape *s)
{
    return (s->counters == NO_COUNTERS ? 13 : 15 + (unsigned)s->counters) + s->entries + together(s);
}

/* The same as a message; its data are apart, since a shape may be longer than the struct. */
static chz_message message_of_shape(const struct shape *s)
{
    chz_message m;
    memset(&m, 0, sizeof m);
    m.command = CHZ_DL_DATA_QUE;
    m.op_id = 7;
    m.dl_data_que.ep_eui = 9;
    m.dl_data_que.que_id = 5;
    m.dl_data_que.cnt_depend = s->depend;
    m.dl_data_que.entries = (uint8_t)s->entries;
    return m;
}

static size_t data_of_shape(const struct shape *s, uint8_t *into)
{
    size_t size = sizeof(chz_dl_entries) - CHZ_ENTRY_BYTES;
    memset(into, 0, size);
    for (int i = 0; i < s->counters && i < CHZ_COUNTERS; i++) into[4 * i] = (uint8_t)(i + 1);
    for (unsigned i = 0; i < s->entries && i < CHZ_ENTRIES; i++) into[offsetof(chz_dl_entries, length) + i] = (uint8_t)s->length[i];
    for (unsigned at = 0; at < together(s); at++) into[size++] = byte_at(at);
    return size;
}

static void judge_read(const struct shape *s, bool good)
{
    uint8_t bytes[LENT_MOST];
    const chz_message m = message_of_shape(s);
    lend(&payload, bytes, payload_of(s, bytes));
    lend_filled(&message, FILLING, CHZ_MESSAGE);
    lend_filled(&data, FILLING, CHZ_DATA);
    if (good) {
        expect(&message, 0, &m, CHZ_MESSAGE);
        size_t len = data_of_shape(s, bytes);
        expect(&data, 0, bytes, len);
    }
    JUDGE(read_lent(), good ? ANSWER(CHZ_DONE, 0, elements_of(s)) : ANSWER(CHZ_INVALID, 0, 0), &payload, &message, &data);
}

/* All of its bytes are lent, and no more. 15 comes before 20. */
static void judge_written(const struct shape *s, bool good)
{
    uint8_t bytes[LENT_MOST], frame[LENT_MOST];
    const chz_message m = message_of_shape(s);
    lend(&message, &m, CHZ_MESSAGE);
    lend(&data, bytes, data_of_shape(s, bytes));
    lend_filled(&room, FILLING, good ? CHZ_ROOM : 0);
    size_t size = payload_of(s, frame + CHZ_FRAME_HEAD);
    memcpy(frame, "MIOTYB01", 8);
    for (int i = 0; i < 4; i++) frame[8 + i] = (uint8_t)(size >> 8 * i);
    if (good) expect(&room, 0, frame, CHZ_FRAME_HEAD + size);
    JUDGE(write_lent(), good ? ANSWER(CHZ_DONE, 0, CHZ_FRAME_HEAD + size) : ANSWER(CHZ_INVALID, 0, 0), &message, &data, &room);
}

/* cntDepend true: as many data entries as counters, 1 to 16; false: one data entry and no packetCnt. All counts up to 17 and some more. */
static bool lawful(const struct shape *s)
{
    if (s->depend) return s->counters == (int)s->entries && s->entries >= 1 && s->entries <= 16;
    return s->counters == NO_COUNTERS && s->entries == 1;
}

static const char *name_of(const struct shape *s)
{
    static char name[64];
    snprintf(name, sizeof name, "cntDepend %d, %d counters, %u entries", s->depend, s->counters, s->entries);
    return name;
}

static void each_count(void)
{
    for (int i = 0; i < 2 * (MOST + 2) * (MOST + 1); i++) {
        struct shape s = { .depend = i % 2, .counters = i / 2 % (MOST + 2) - 1, .entries = (unsigned)(i / 2 / (MOST + 2)) };
        for (int at = 0; at < MOST; at++) s.length[at] = at % 3 != 1;
        start(name_of(&s));
        judge_read(&s, lawful(&s));
    }
}

/* To be written, a message says one number for both: any that fits into its byte. */
static void each_count_written(void)
{
    for (int i = 0; i < 2 * 256; i++) {
        struct shape s = { .depend = i % 2, .counters = i % 2 ? i / 2 : NO_COUNTERS, .entries = (unsigned)(i / 2) };
        uint8_t bytes[LENT_MOST] = { 0 };
        start(name_of(&s));
        if (lawful(&s)) {
            judge_written(&s, true);
            continue;
        }
        const chz_message m = message_of_shape(&s);
        lend(&message, &m, CHZ_MESSAGE);
        lend(&data, bytes, CHZ_DATA);
        lend_filled(&room, FILLING, CHZ_ROOM);
        JUDGE(write_lent(), ANSWER(CHZ_INVALID, 0, 0), &message, &data, &room);
    }
}

#define FIFTEEN(n) n, n, n, n, n, n, n, n, n, n, n, n, n, n, n

/* Each data entry has at most 245 bytes, all together at most 800. */
static const struct {
    const char *name;
    unsigned entries, length[MOST];
    bool good;
} loads[] = {
    { "no byte", 1, { 0 }, true },
    { "one byte", 1, { 1 }, true },
    { "15 bytes", 1, { 15 }, true },
    { "16 bytes", 1, { 16 }, true },
    { "244 bytes", 1, { 244 }, true },
    { "245 bytes", 1, { 245 }, true },
    { "246 bytes", 1, { 246 }, false },
    { "255 bytes", 1, { 255 }, false },
    { "245 bytes in the last of two", 2, { 0, 245 }, true },
    { "246 bytes in the last of two", 2, { 0, 246 }, false },
    { "246 bytes, then none", 2, { 246, 0 }, false },
    { "sixteen of no byte", 16, { 0 }, true },
    { "sixteen of one byte", 16, { FIFTEEN(1), 1 }, true },
    { "sixteen, 799 bytes together", 16, { FIFTEEN(50), 49 }, true },
    { "sixteen, 800 bytes together", 16, { FIFTEEN(50), 50 }, true },
    { "sixteen, 801 bytes together", 16, { FIFTEEN(50), 51 }, false },
    { "sixteen, 801 bytes together, the first one more", 16, { 51, FIFTEEN(50) }, false },
    { "245 three times and 64", 4, { 245, 245, 245, 64 }, true },
    { "245 three times and 65", 4, { 245, 245, 245, 65 }, true },
    { "245 three times and 66", 4, { 245, 245, 245, 66 }, false },
    { "66, then 245 three times", 4, { 66, 245, 245, 245 }, false },
    { "245 four times", 4, { 245, 245, 245, 245 }, false },
    { "200 four times", 4, { 200, 200, 200, 200 }, true },
    { "200 four times and none", 5, { 200, 200, 200, 200, 0 }, true },
    { "200 four times and one", 5, { 200, 200, 200, 200, 1 }, false },
    { "801 in front of good ones", 6, { 245, 245, 245, 66, 1, 1 }, false },
};

static void each_load(void)
{
    for (size_t i = 0; i < COUNT(loads); i++) {
        struct shape s = { .depend = true, .counters = (int)loads[i].entries, .entries = loads[i].entries };
        memcpy(s.length, loads[i].length, sizeof s.length);
        start(loads[i].name);
        judge_read(&s, loads[i].good);
        judge_written(&s, loads[i].good);
        if (s.entries > 1) continue;
        s.depend = false;
        s.counters = NO_COUNTERS;
        judge_read(&s, loads[i].good);
        judge_written(&s, loads[i].good);
    }
}

/* An entry that a byte can't count is read as far as its array says. */
static void long_entries(void)
{
    static const unsigned lengths[] = { 256, 300, 501, 800, 801 };
    for (size_t i = 0; i < COUNT(lengths); i++) {
        const struct shape s = { .counters = NO_COUNTERS, .entries = 1, .length = { lengths[i] } };
        start("an entry of 256 bytes or more");
        judge_read(&s, false);
    }
}

/* Data shorter than the message says are 15; of longer ones the rest is not looked at. The eighty bytes of counters and lengths are
 * needed whatever is used of them. Arriving, a downlink is 17 where nothing is wrong with it. */
static void with_data(const struct shape *s, size_t len)
{
    uint8_t bytes[LENT_MOST] = { 0 };
    const chz_session open = open_session();
    const chz_message m = message_of_shape(s);
    const bool enough = len >= data_of_shape(s, bytes);
    lend_session_with(&open, &m);
    lend(&data, bytes, len);
    JUDGE(chz_refused(write_lent()), enough ? CHZ_DONE : CHZ_INVALID, &message, &data);
    JUDGE(arrive(), ANSWER(enough ? CHZ_STATE : CHZ_INVALID, 0, 0), &session, &message, &data, &uuid, &sign);
    JUDGE(chz_refused(begin()), enough ? CHZ_DONE : CHZ_INVALID, &message, &data);
}

static void each_data_length(void)
{
    static const struct shape shapes[] = {
        { .counters = NO_COUNTERS, .entries = 1 },
        { .counters = NO_COUNTERS, .entries = 1, .length = { 3 } },
        { .counters = NO_COUNTERS, .entries = 1, .length = { 245 } },
        { .depend = true, .counters = 2, .entries = 2, .length = { 1, 40 } },
        { .depend = true, .counters = 16, .entries = 16, .length = { FIFTEEN(50), 50 } },
    };
    for (size_t i = 0; i < COUNT(shapes); i++) {
        const size_t needed = 80 + together(&shapes[i]);
        const size_t lengths[] = { 0, 1, 63, 64, 65, 79, needed - 1, needed, needed + 1, CHZ_DATA, 4096 };
        start("data of another length than the downlink says");
        for (size_t j = 0; j < COUNT(lengths); j++) with_data(&shapes[i], lengths[j]);
    }
}

/* The longest frame of all, by hand. Its payload:
 *     1  a map of 13 pairs, and of each key and value:
 *    18  command, 8, and dlDataQue, 10
 *    14  opId, 5, and an ID in 9
 *    15  epEui, 6, and 9
 *    15  queId, 6, and 9
 *    11  cntDepend, 10, and 1
 *    93  packetCnt, 10, an array of 16, 3, and 16 counters of 5
 *  1660  userData, 9, an array of 16, 3, and 16 entries of 103: an array of 50, 3, and 50 bytes of 2
 *     9  format, 7, and 2
 *    14  prio, 5, and 9
 *    13  responseExp, 12, and 1
 *    14  responsePrio, 13, and 1
 *    11  dlWindReq, 10, and 1
 *     9  expOnly, 8, and 1
 *  1897  and 12 in front of it. No entry has a longer head, there are no more entries than 16 and no more bytes than 800. */
enum { LONGEST = 1897 + CHZ_FRAME_HEAD };

static void longest_frame(void)
{
    const chz_message m = whole_message(whole_of(CHZ_DL_DATA_QUE) + 1);
    chz_session s = open_session();
    s.lowest = INT64_MIN + 1; /* so that the next ID takes nine bytes */
    start("the longest frame");
    JUDGE(LONGEST, CHZ_ROOM, NULL);
    lend_session_with(&s, &m);
    lend_filled(&room, FILLING, LONGEST - 1);
    JUDGE(write_lent(), ANSWER(CHZ_ROOM_TOO_SHORT, 0, 0), &message, &data, &room);
    JUDGE(begin(), ANSWER(CHZ_ROOM_TOO_SHORT, 0, 0), ALL_OF_SESSION);
    lend_filled(&room, FILLING, LONGEST);
    JUDGE(write_lent(), ANSWER(CHZ_DONE, 0, LONGEST), &message, &data);
    expect(&room, 0, room.at, LONGEST);
    s.centre_id[0] = s.lowest = INT64_MIN;
    s.centre_kind[0] = CHZ_DL_DATA_QUE;
    expect(&session, 0, &s, sizeof s);
    JUDGE(begin(), ANSWER(CHZ_DONE, CHZ_ISSUED, LONGEST), ALL_OF_SESSION);
}

void downlink_limits(void)
{
    each_count();
    each_count_written();
    each_load();
    long_entries();
    each_data_length();
    longest_frame();
}
