/* Traces that are refused: the writer's order 34, 25, 35, 20, the reader's from left to right, every cut, and nothing at all. No refused
 * call changes what is lent, the time among it. */
#include <stdio.h>
#include <string.h>

#include "cases.h"
#include "spell.h"
#include "trace.h"

enum { SUM = 1000 };
#define PAST (UINT64_MAX - SUM + 1) /* a gap that is one too many behind SUM */

/* With each fault or without it: the answer is the first in the writer's order. */
static void each_order(void)
{
    static const unsigned order[] = { CHZ_TIME_SUM, CHZ_STATION_NUMBER, CHZ_NOT_ONE_FRAME, CHZ_ROOM_TOO_SHORT };
    for (unsigned faults = 1; faults < 16; faults++) {
        unsigned first = 0;
        while (!(faults >> first & 1)) first++;
        start("34 before 25 before 35 before 20");
        lend_time(SUM);
        lend_frame(faults & 4 ? "=MIOTYB01 02000000 C1" : SHORTEST);
        lend_filled(&room, FILLING, faults & 8 ? 15 : CHZ_RECORD);
        writes_record(faults & 1 ? PAST : 0, faults & 2 ? 64 : 63, REFUSED(order[first]));
    }
}

static void each_time(void)
{
    static const struct { uint64_t sum, gap; } past[] = {
        { 1, UINT64_MAX }, { UINT64_MAX, 1 }, { UINT64_MAX, UINT64_MAX }, { UINT64_C(1) << 63, UINT64_C(1) << 63 }, { SUM, PAST },
    };
    for (size_t i = 0; i < COUNT(past); i++) {
        start("a time past 2^64 - 1 is not written");
        lend_time(past[i].sum);
        lend_frame(SHORTEST);
        lend_filled(&room, FILLING, CHZ_RECORD);
        writes_record(past[i].gap, 0, REFUSED(CHZ_TIME_SUM));
    }
}

/* None of them is taken for its lowest bits. */
static void each_station(void)
{
    static const uint64_t over[] = { 64, 65, 127, 128, 255, 256, 319, UINT64_C(1) << 32, UINT64_C(1) << 63, UINT64_MAX };
    for (size_t i = 0; i < COUNT(over); i++) {
        start("a station over 63 is not written");
        lend_time(SUM);
        lend_frame(SHORTEST);
        lend_filled(&room, FILLING, CHZ_RECORD);
        writes_record(300, over[i], REFUSED(CHZ_STATION_NUMBER));
    }
}

static const struct {
    const char *name, *bytes;
} no_frames[] = {
    { "no byte", "" },
    { "identifier alone", "=MIOTYB01" },
    { "a head alone", "=MIOTYB01 01000000" },
    { "a payload that is cut", "=MIOTYB01 02000000 C1" },
    { "another identifier", "=MIOTYB02 01000000 C1" },
    { "a size of 0", "=MIOTYB01 00000000" },
    { "a size of 0, and a byte", "=MIOTYB01 00000000 C1" },
    { "a size of 4,097", "=MIOTYB01 01100000 4097*C0" },
    { "a byte behind the frame", SHORTEST " C1" },
    { "two frames", SHORTEST " " SHORTEST },
    { "a payload alone", PING },
};

static void each_frame(void)
{
    for (size_t i = 0; i < COUNT(no_frames); i++) {
        start(no_frames[i].name);
        lend_time(SUM);
        lend_frame(no_frames[i].bytes);
        lend_filled(&room, FILLING, CHZ_RECORD + 1);
        writes_record(300, 7, REFUSED(CHZ_NOT_ONE_FRAME));
    }
}

/* A room that is shorter than the record, by one byte and by all. */
static void each_room(void)
{
    static const struct { const char *frame; uint64_t gap; size_t len; } records[] = {
        { SHORTEST, 0, 16 }, { SHORTEST, 300, 17 }, { SHORTEST, UINT64_MAX - SUM, 25 }, { LONGEST, 0, 4112 },
        { LONGEST, UINT64_MAX - SUM, CHZ_RECORD },
    };
    for (size_t i = 0; i < COUNT(records); i++) {
        const size_t rooms[] = { records[i].len - 1, records[i].len - 3, 13, 4, 1, 0 };
        for (size_t k = 0; k < COUNT(rooms); k++) {
            start("a room too short for a record");
            lend_time(SUM);
            lend_frame(records[i].frame);
            lend_filled(&room, FILLING, rooms[k]);
            writes_record(records[i].gap, 63, REFUSED(CHZ_ROOM_TOO_SHORT));
        }
    }
    start("a room too short for a start");
    lend_filled(&room, FILLING, 0);
    JUDGE(chz_trace_start(room.at, room.len), REFUSED(CHZ_ROOM_TOO_SHORT), &room);
}

static const struct {
    const char *name, *bytes;
    unsigned refused;
} openings[] = {
    { "no byte", "", CHZ_INPUT_ENDS },
    { "a number that goes on", "81", CHZ_INPUT_ENDS },
    { "nine bytes of a number", "9*FF", CHZ_INPUT_ENDS },
    { "1 in two bytes", "8100", CHZ_NOT_SHORTEST },
    { "1 in ten bytes", "81 8*80 00", CHZ_NOT_SHORTEST },
    { "0 in two bytes", "8000", CHZ_NOT_SHORTEST },
    { "2^64", "9*80 02", CHZ_NOT_SHORTEST },
    { "a tenth byte that goes on", "9*80 81 00", CHZ_NOT_SHORTEST },
    { "number 0", "00", CHZ_NOT_A_TRACE },
    { "number 2", "02", CHZ_NOT_A_TRACE },
    { "number 127", "7F", CHZ_NOT_A_TRACE },
    { "number 129", "8101", CHZ_NOT_A_TRACE },
    { "number 300", "AC02", CHZ_NOT_A_TRACE },
    { "number 2^32 + 1", "81808080 10", CHZ_NOT_A_TRACE },
    { "number 2^63 + 1", "81 8*80 01", CHZ_NOT_A_TRACE },
    { "number 2^64 - 1", "9*FF 01", CHZ_NOT_A_TRACE },
};

/* A first number that is malformed is 33 or 32 before it is 31. */
static void each_opening(void)
{
    for (size_t i = 0; i < COUNT(openings); i++) {
        start(openings[i].name);
        lend_bytes(openings[i].bytes);
        opens_trace(REFUSED(openings[i].refused));
    }
}

/* Behind the sum SUM, from left to right. What stands to the right of a fault makes no difference: it may be missing, or be a fault too. */
static const struct {
    const char *name, *bytes;
    unsigned refused;
} faults[] = {
    { "no gap", "", CHZ_INPUT_ENDS },
    { "a gap that goes on", "AC", CHZ_INPUT_ENDS },
    { "nine bytes of a gap", "9*FF", CHZ_INPUT_ENDS },
    { "gap 0 in two bytes", "8000", CHZ_NOT_SHORTEST },
    { "gap 300 in three bytes", "AC8200 07 0D " SHORTEST, CHZ_NOT_SHORTEST },
    { "a gap's tenth byte 0", "9*FF 00 07 0D " SHORTEST, CHZ_NOT_SHORTEST },
    { "a gap's tenth byte 2", "9*FF 02", CHZ_NOT_SHORTEST },
    { "a gap's tenth byte goes on", "10*FF", CHZ_NOT_SHORTEST },
    { "a gap past the end", "9*FF 01", CHZ_TIME_SUM },
    { "a gap past the end, station 64", "9*FF 01 40", CHZ_TIME_SUM },
    { "a gap past the end, a good record besides", "9*FF 01 07 0D " SHORTEST, CHZ_TIME_SUM },
    { "no station", "AC02", CHZ_INPUT_ENDS },
    { "a station that goes on", "AC02 87", CHZ_INPUT_ENDS },
    { "station 7 in two bytes", "AC02 8700 0D " SHORTEST, CHZ_NOT_SHORTEST },
    { "station 64 in three bytes", "AC02 C08000", CHZ_NOT_SHORTEST },
    { "a station past 2^64 - 1", "AC02 9*87 02", CHZ_NOT_SHORTEST },
    { "station 64", "AC02 40", CHZ_STATION_NUMBER },
    { "station 64 and length 12", "AC02 40 0C", CHZ_STATION_NUMBER },
    { "station 64, a good record besides", "AC02 40 0D " SHORTEST, CHZ_STATION_NUMBER },
    { "station 135 is not station 7", "AC02 8701 0D " SHORTEST, CHZ_STATION_NUMBER },
    { "station 2^32 + 7", "AC02 8780808010 0D " SHORTEST, CHZ_STATION_NUMBER },
    { "station 2^64 - 1", "AC02 9*FF 01", CHZ_STATION_NUMBER },
    { "no length", "AC02 07", CHZ_INPUT_ENDS },
    { "a length that goes on", "AC02 07 8D", CHZ_INPUT_ENDS },
    { "length 13 in two bytes", "AC02 07 8D00 " SHORTEST, CHZ_NOT_SHORTEST },
    { "a length past 2^64 - 1", "AC02 07 9*8D 02", CHZ_NOT_SHORTEST },
    { "length 0", "AC02 07 00", CHZ_NOT_ONE_FRAME },
    { "length 12, before its bytes", "AC02 07 0C", CHZ_NOT_ONE_FRAME },
    { "length 12 of a frame", "AC02 07 0C " SHORTEST, CHZ_NOT_ONE_FRAME },
    { "length 4,109, before its bytes", "AC02 07 8D20", CHZ_NOT_ONE_FRAME },
    { "length 4,109", "AC02 07 8D20 " LONGEST " C0", CHZ_NOT_ONE_FRAME },
    { "length 65,549 is not 13", "AC02 07 8D8004 " SHORTEST, CHZ_NOT_ONE_FRAME },
    { "length 2^32 + 13", "AC02 07 8D80808010 " SHORTEST, CHZ_NOT_ONE_FRAME },
    { "length 2^64 - 1", "AC02 07 9*FF 01", CHZ_NOT_ONE_FRAME },
    { "length 13 and no bytes", "AC02 07 0D", CHZ_INPUT_ENDS },
    { "length 4,108 and no bytes", "AC02 07 8C20", CHZ_INPUT_ENDS },
    { "the bytes end inside, and are no frame", "AC02 07 0D =NONE", CHZ_INPUT_ENDS },
    { "another identifier", "AC02 07 0D =MIOTYB02 01000000 C1", CHZ_NOT_ONE_FRAME },
    { "a size of 0", "AC02 07 0D =MIOTYB01 00000000 C1", CHZ_NOT_ONE_FRAME },
    { "a size of 4,097", "AC02 07 0D =MIOTYB01 01100000 C1", CHZ_NOT_ONE_FRAME },
    { "a frame that goes on behind its record", "AC02 07 0D =MIOTYB01 02000000 C1C1", CHZ_NOT_ONE_FRAME },
    { "a frame that ends before its record", "AC02 07 0E " SHORTEST " C1", CHZ_NOT_ONE_FRAME },
    { "two frames in one record", "AC02 07 1A " SHORTEST " " SHORTEST, CHZ_NOT_ONE_FRAME },
};

static void each_fault(void)
{
    for (size_t i = 0; i < COUNT(faults); i++) {
        start(faults[i].name);
        lend_time(SUM);
        lend_bytes(faults[i].bytes);
        reads_record(REFUSED(faults[i].refused));
    }
    start("a gap of 1 behind a sum of 2^64 - 1");
    lend_time(UINT64_MAX);
    lend_bytes("01");
    reads_record(REFUSED(CHZ_TIME_SUM));
}

static void each_cut(const char *record)
{
    uint8_t spelled[LENT_MOST];
    const size_t len = spell(record, spelled);
    start("a record that is cut");
    for (size_t cut = 0; cut < len; cut++) {
        lend_time(0);
        lend(&bytes, spelled, cut);
        reads_record(REFUSED(CHZ_INPUT_ENDS));
    }
    lend(&bytes, spelled, len);
    JUDGE(chz_refused(chz_recorded(&(uint64_t){ 0 }, bytes.at, bytes.len)), CHZ_DONE, &bytes);
}

#define NOTHING NULL, 0

static void nothing_lent(void)
{
    uint64_t sum = SUM;
    lend_frame(SHORTEST);
    lend_filled(&room, FILLING, CHZ_RECORD);
    start("no room");
    JUDGE(chz_trace_start(NOTHING), REFUSED(CHZ_ROOM_TOO_SHORT), NULL);
    JUDGE(chz_record(&sum, 300, 7, frame.at, frame.len, NOTHING), REFUSED(CHZ_ROOM_TOO_SHORT), &frame);
    start("no frame");
    JUDGE(chz_record(&sum, 300, 7, NOTHING, room.at, room.len), REFUSED(CHZ_NOT_ONE_FRAME), &room);
    JUDGE(chz_record(&sum, 300, 7, NOTHING, NOTHING), REFUSED(CHZ_NOT_ONE_FRAME), NULL);
    start("no bytes");
    JUDGE(chz_trace_open(NOTHING), REFUSED(CHZ_INPUT_ENDS), NULL);
    JUDGE(chz_recorded(&sum, NOTHING), REFUSED(CHZ_INPUT_ENDS), NULL);
    JUDGE(sum, SUM, NULL);
}

void refused_traces(void)
{
    each_order();
    each_time();
    each_station();
    each_frame();
    each_room();
    each_opening();
    each_fault();
    each_cut("AC02 07 0D " SHORTEST);
    each_cut("00 00 20 =MIOTYB01 14000000 " PING);
    each_cut("9*FF 01 3F 8C20 " LONGEST);
    nothing_lent();
}
