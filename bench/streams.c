/* A stream of frames taken end to end, and a frame found at its start. */
#include "bench.h"

#include <string.h>

#define STREAM_FRAMES 16 /* as many operations as may be open */

static _Alignas(64) chz_session opened, session;
static _Alignas(64) chz_message image;
static _Alignas(64) uint8_t room[CHZ_ROOM];
static _Alignas(64) uint8_t stream[STREAM_FRAMES * CHZ_ROOM];
static size_t stream_len, rows;
static call_frame *volatile call;

static void make_stream(unsigned size)
{
    stream_len = 0;
    for (unsigned i = 0; i < STREAM_FRAMES; i++) {
        message_fill(&image, "ulData", size);
        image.op_id = i + 1;
        image.ul_data.packet.packet_cnt = i + 1;
        image.ul_data.packet.ep_eui = table_meter(rows - 1);
        uint64_t answer = chz_message_write(&image, stream + stream_len, CHZ_ROOM);
        need(!chz_refused(answer), "chz_write refuses the stream's message");
        stream_len += chz_value(answer);
    }
}

/* Four calls a frame; how many readings were billed. */
static unsigned take_stream(void)
{
    unsigned billed = 0;
    session = opened;
    last[rows - 1] = 0;
    for (size_t at = 0; at < stream_len;) {
        uint64_t frame = chz_frame(stream + at, stream_len - at);
        if (chz_refused(frame)) break;
        const uint8_t *payload = stream + at + FRAME_HEAD;
        at += chz_value(frame);
        if (chz_refused(chz_message_read(payload, chz_value(frame) - FRAME_HEAD, &image))) continue;
        uint64_t step = chz_session_arrive(&session, &image, centre, uuid, sign, room, sizeof room);
        if (chz_happened(step) != CHZ_STARTED) continue;
        uint64_t credit = chz_uplink(COLUMNS(rows), image.ul_data.packet.ep_eui, image.ul_data.packet.packet_cnt, 5);
        billed += chz_happened(credit) == CHZ_NEW;
    }
    return billed;
}

static void rounds_stream(unsigned long rounds)
{
    while (rounds--) take_stream();
}

/* A round without its frames. */
static void rounds_none(unsigned long rounds)
{
    while (rounds--) {
        session = opened;
        __asm__ volatile("" ::: "memory");
    }
}

static void rounds_frame(unsigned long rounds)
{
    while (rounds--) call(stream, stream_len);
}

bench_rounds *streams_case(const char *what, const char *name, unsigned size, enum way way)
{
    int framed = !strcmp(what, "frame");
    if (!framed && strcmp(what, "stream")) return NULL;
    (void)name;
    session_open(&opened);
    rows = size;
    table_fill(rows);
    make_stream(40);
    need(take_stream() == STREAM_FRAMES, "the stream isn't billed");
    call = way == WAY_EMPTY ? empty_frame : chz_frame;
    if (framed) return rounds_frame;
    return way == WAY_EMPTY ? rounds_none : rounds_stream;
}
