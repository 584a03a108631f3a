/* A frame recorded in a trace, and read again: the library's calls, and plain C that takes what it is handed for good. */
#include "bench.h"

#include <string.h>

#define STATION 5
#define GAP 12000000000u /* twelve seconds between two records: five bytes */

typedef uint64_t call_record(uint64_t *time, uint64_t gap, uint64_t station, const uint8_t *frame, size_t frame_len, uint8_t *room,
                             size_t room_len);
typedef uint64_t call_recorded(uint64_t *time, const uint8_t *bytes, size_t bytes_len);

static _Alignas(64) chz_message image;
static _Alignas(64) uint8_t frame[CHZ_ROOM], room[CHZ_RECORD], plain_room[CHZ_RECORD];
static size_t frame_len, record_len;
static call_record *volatile record_call;
static call_recorded *volatile recorded_call;

static size_t put_number(uint8_t *room, size_t at, uint64_t n)
{
    for (; n >= 128; n >>= 7) room[at++] = (uint8_t)(n | 128);
    room[at++] = (uint8_t)n;
    return at;
}

static size_t take_number(const uint8_t *bytes, size_t at, uint64_t *n)
{
    unsigned shift = 0;
    for (*n = 0; bytes[at] >= 128; shift += 7) *n |= (uint64_t)(bytes[at++] & 127) << shift;
    *n |= (uint64_t)bytes[at] << shift;
    return at + 1;
}

static uint64_t plain_record(uint64_t *time, uint64_t gap, uint64_t station, const uint8_t *bytes, size_t len, uint8_t *to, size_t to_len)
{
    (void)to_len;
    size_t at = put_number(to, put_number(to, put_number(to, 0, gap), station), len);
    memcpy(to + at, bytes, len);
    *time += gap;
    return (uint64_t)(at + len) << 16;
}

static uint64_t plain_recorded(uint64_t *time, const uint8_t *bytes, size_t len)
{
    uint64_t gap, station, size;
    size_t at = take_number(bytes, take_number(bytes, take_number(bytes, 0, &gap), &station), &size);
    (void)len;
    *time += gap;
    return (at + size) << 16 | size << 32 | station << 48;
}

static uint64_t empty_record(uint64_t *time, uint64_t gap, uint64_t station, const uint8_t *bytes, size_t len, uint8_t *to, size_t to_len)
{
    (void)time, (void)gap, (void)station, (void)bytes, (void)len, (void)to, (void)to_len;
    return 0;
}

static uint64_t empty_recorded(uint64_t *time, const uint8_t *bytes, size_t len)
{
    (void)time, (void)bytes, (void)len;
    return 0;
}

static void rounds_record(unsigned long rounds)
{
    uint64_t time = 0;
    while (rounds--) record_call(&time, GAP, STATION, frame, frame_len, room, sizeof room);
}

static void rounds_recorded(unsigned long rounds)
{
    uint64_t time = 0;
    while (rounds--) recorded_call(&time, room, record_len);
}

/* Both sides write the same record and read the same from it. */
static void make_record(const char *name, unsigned size)
{
    uint64_t time = 0, plain_time = 0, answer;
    message_fill(&image, name, size);
    answer = chz_message_write(&image, frame, sizeof frame);
    need(!chz_refused(answer), "chz_write refuses the trace's message");
    frame_len = chz_value(answer);
    answer = chz_record(&time, GAP, STATION, frame, frame_len, room, sizeof room);
    record_len = chz_value(answer);
    need(answer == plain_record(&plain_time, GAP, STATION, frame, frame_len, plain_room, sizeof plain_room), "records of other lengths");
    need(!memcmp(room, plain_room, record_len) && time == plain_time, "another record");
    answer = chz_recorded(&time, room, record_len);
    need(answer == plain_recorded(&plain_time, room, record_len) && time == plain_time, "the record reads otherwise");
    need(chz_recorded_frame_len(answer) == frame_len && chz_recorded_station(answer) == STATION, "another frame");
}

bench_rounds *traces_case(const char *what, const char *name, unsigned size, enum way way)
{
    int plain = !strcmp(what, "record_c") || !strcmp(what, "recorded_c");
    int written = !strcmp(what, "record") || !strcmp(what, "record_c");
    if (!plain && !written && strcmp(what, "recorded")) return NULL;
    make_record(name, size);
    record_call = way == WAY_EMPTY ? empty_record : plain ? plain_record : chz_record;
    recorded_call = way == WAY_EMPTY ? empty_recorded : plain ? plain_recorded : chz_recorded;
    return written ? rounds_record : rounds_recorded;
}
