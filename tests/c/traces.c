/* A trace as it is written and read again: document 02's numbers, records in rooms of just their length, and a whole trace that is
 * written record by record and read in pieces. */
#include <stdio.h>
#include <string.h>

#include "cases.h"
#include "spell.h"
#include "trace.h"

/* What arrived, and the record of it: gap, station and length as document 02 writes numbers, then the frame. */
struct arrival {
    const char *name;
    uint64_t gap, station;
    const char *frame, *numbers;
};

#define PING_FRAME "=MIOTYB01 14000000 " PING
#define FRAME_127 "=MIOTYB01 73000000 115*C0"
#define FRAME_128 "=MIOTYB01 74000000 116*C0"
#define FRAME_300 "=MIOTYB01 20010000 288*C0"

static const struct arrival arrivals[] = {
    { "300 is AC 02", 300, 7, SHORTEST, "AC02 07 0D" },
    { "no time since, station 0", 0, 0, SHORTEST, "00 00 0D" },
    { "a second since, station 63", 1000000000, 63, SHORTEST, "8094EBDC03 3F 0D" },
    { "a ping", 1, 1, PING_FRAME, "01 01 20" },
    { "a payload that no message has", 1, 1, "=MIOTYB01 02000000 C1FF", "01 01 0E" },
    { "a frame of 127 bytes", 1, 1, FRAME_127, "01 01 7F" },
    { "a frame of 128 bytes", 1, 1, FRAME_128, "01 01 8001" },
    { "a frame of 300 bytes", 300, 1, FRAME_300, "AC02 01 AC02" },
    { "the longest frame", 1, 1, LONGEST, "01 01 8C20" },
};

static size_t spell_record(const struct arrival *a, uint8_t *into)
{
    const size_t len = spell(a->numbers, into);
    return len + spell(a->frame, into + len);
}

/* Into a room of just its length and a longer one, and read again with nothing and with something behind it. */
static void is_written_and_read(const struct arrival *a, uint64_t sum)
{
    uint8_t record[LENT_MOST];
    const size_t len = spell_record(a, record);
    start(a->name);
    lend_frame(a->frame);
    for (size_t more = 0; more <= CHZ_RECORD; more += CHZ_RECORD) {
        lend_time(sum);
        expect_time(sum + a->gap);
        lend_filled(&room, FILLING, len + more);
        expect(&room, 0, record, len);
        writes_record(a->gap, a->station, LENGTH(len));
        lend(&bytes, room.at, room.len);
        lend_time(sum);
        expect_time(sum + a->gap);
        reads_record(RECORDED(len, frame.len, a->station));
    }
}

/* The sum of all gaps may come up to 2^64 - 1. */
static void each_arrival(void)
{
    for (size_t i = 0; i < COUNT(arrivals); i++) {
        is_written_and_read(&arrivals[i], 0);
        is_written_and_read(&arrivals[i], 12345678901234567890u);
        is_written_and_read(&arrivals[i], UINT64_MAX - arrivals[i].gap);
    }
}

/* The greatest gap of so many groups, and the least one of a group more. */
static void each_length(void)
{
    for (unsigned groups = 1; groups <= 9; groups++) {
        char most[32], least[32];
        snprintf(most, sizeof most, "%u*FF 7F 07 0D", groups - 1);
        snprintf(least, sizeof least, "%u*80 01 07 0D", groups);
        is_written_and_read(&(struct arrival){ most, (UINT64_C(1) << 7 * groups) - 1, 7, SHORTEST, most }, 0);
        is_written_and_read(&(struct arrival){ least, UINT64_C(1) << 7 * groups, 7, SHORTEST, least }, 0);
    }
    is_written_and_read(&(struct arrival){ "the greatest gap", UINT64_MAX, 7, SHORTEST, "9*FF 01 07 0D" }, 0);
}

static void each_station(void)
{
    for (unsigned station = 0; station < 64; station++) {
        char numbers[32];
        snprintf(numbers, sizeof numbers, "AC02 %02X 0D", station);
        is_written_and_read(&(struct arrival){ numbers, 300, station, SHORTEST, numbers }, 0);
    }
}

/* CHZ_RECORD bytes are enough for each, and no fewer. */
static void longest(void)
{
    static const struct arrival a = { "the longest record", UINT64_C(1) << 63, 63, LONGEST, "9*80 01 3F 8C20" };
    uint8_t record[LENT_MOST];
    start(a.name);
    JUDGE(spell_record(&a, record), CHZ_RECORD, NULL);
    is_written_and_read(&a, 0);
    is_written_and_read(&a, (UINT64_C(1) << 63) - 1);
}

/* The number 1, whatever stands behind it. */
static void starts(void)
{
    start("the start of a trace");
    for (size_t more = 0; more <= 100; more += 100) {
        lend_filled(&room, FILLING, 1 + more);
        expect(&room, 0, "\1", 1);
        JUDGE(chz_trace_start(room.at, room.len), LENGTH(1), &room);
        lend(&bytes, room.at, room.len);
        opens_trace(LENGTH(1));
    }
}

/* A whole trace, as a host writes it: what each call leaves in the room, one behind the other. */
static uint8_t trace[LENT_MOST];
static size_t trace_len, ends[COUNT(arrivals) + 1]; /* where the start ends, and each record */

static void keep(size_t place, uint64_t answer)
{
    memcpy(trace + trace_len, room.at, chz_value(answer));
    trace_len += chz_value(answer);
    ends[place] = trace_len;
}

static void write_trace(void)
{
    uint64_t sum = 0;
    trace_len = 0;
    lend_filled(&room, FILLING, CHZ_RECORD);
    keep(0, chz_trace_start(room.at, room.len));
    for (size_t i = 0; i < COUNT(arrivals); i++) {
        lend_frame(arrivals[i].frame);
        keep(1 + i, chz_record(&sum, arrivals[i].gap, arrivals[i].station, frame.at, frame.len, room.at, room.len));
    }
}

static void is_whole(void)
{
    uint8_t expected[LENT_MOST] = { 1 };
    size_t len = 1;
    start("a whole trace");
    write_trace();
    for (size_t i = 0; i < COUNT(arrivals); i++) len += spell_record(&arrivals[i], expected + len);
    JUDGE(trace_len, len, NULL);
    JUDGE(memcmp(trace, expected, len) == 0, true, NULL);
}

/* What is there from a place on: the start or a record that is whole is read, and one that is not is 33 and leaves the time. */
static bool reads_next(size_t place, size_t from, size_t to, uint64_t *sum)
{
    const bool whole = ends[place] <= to;
    lend(&bytes, trace + from, to - from);
    if (!place) {
        opens_trace(whole ? LENGTH(1) : REFUSED(CHZ_INPUT_ENDS));
        return whole;
    }
    const struct arrival *a = &arrivals[place - 1];
    lend_frame(a->frame);
    lend_time(*sum);
    if (whole) expect_time(*sum += a->gap);
    reads_record(whole ? RECORDED(ends[place] - from, frame.len, a->station) : REFUSED(CHZ_INPUT_ENDS));
    if (whole) JUDGE(memcmp(trace + ends[place] - frame.len, frame.at, frame.len) == 0, true, &frame);
    return whole;
}

/* A reader that is handed so many bytes more each time that a call waits. */
static void in_pieces(size_t piece)
{
    uint64_t sum = 0;
    size_t from = 0, to = 0;
    start("a trace in pieces");
    for (size_t place = 0; place < COUNT(ends);) {
        if (reads_next(place, from, to, &sum)) from = ends[place++];
        else to = trace_len - to < piece ? trace_len : to + piece;
    }
    JUDGE(from, trace_len, NULL);
}

void traces(void)
{
    each_arrival();
    each_length();
    each_station();
    longest();
    starts();
    is_whole();
    static const size_t pieces[] = { 1, 2, 3, 7, 13, 100, 4107, 4108, 4121, LENT_MOST };
    for (size_t i = 0; i < COUNT(pieces); i++) in_pieces(pieces[i]);
}
