/* What one call leaves, the next one takes: a message as chz_read left it is written; the room is then a frame of the length answered, whatever
 * stands behind it, and is read as the same message; and a session in any state never refuses it as invalid. */
#include "cases.h"
#include "messages.h"
#include "sessions.h"
#include "whole.h"

#include <string.h>

/* A message and its data as they lay after the call, and its answer. */
struct left {
    uint64_t answer;
    chz_message m;
};

static struct left left_by_read(const char *spelled)
{
    struct left left;
    lend_payload(spelled);
    left.answer = read_lent();
    memcpy(&left.m, message.at, CHZ_MESSAGE);
    memcpy(left.m.data, data.at, CHZ_DATA);
    return left;
}

static void lend_left(const struct left *left)
{
    lend(&message, &left->m, CHZ_MESSAGE);
    lend(&data, left->m.data, CHZ_DATA);
}

static void is_read_back(const struct left *left)
{
    lend_left(left);
    lend_filled(&room, FILLING, CHZ_ROOM);
    const uint64_t written = write_lent();
    JUDGE(chz_refused(written), CHZ_DONE, &message, &data);
    if (chz_refused(written)) return;
    JUDGE(chz_frame(room.at, room.len), written, &message, &data);
    lend(&payload, room.at + CHZ_FRAME_HEAD, chz_value(written) - CHZ_FRAME_HEAD);
    lend_filled(&message, FILLING, CHZ_MESSAGE);
    lend_filled(&data, FILLING, CHZ_DATA);
    expect(&message, 0, &left->m, CHZ_MESSAGE);
    expect(&data, 0, left->m.data, CHZ_DATA);
    JUDGE(read_lent(), left->answer, &payload, &message, &data);
}

static void is_taken(const struct left *left, uint8_t state)
{
    chz_session s = open_session();
    s.state = state;
    lend_session_with(&s, &left->m);
    lend_left(left);
    JUDGE(chz_refused(arrive()) == CHZ_INVALID, false, &message, &data, &uuid, &sign);
    lend_session_with(&s, &left->m);
    lend_left(left);
    JUDGE(chz_refused(begin()) == CHZ_INVALID, false, &message, &data);
}

void chained(void)
{
    for (const struct whole *whole = wholes; whole < wholes + WHOLES; whole++) {
        start(whole->payload);
        const struct left left = left_by_read(whole->payload);
        is_read_back(&left);
        is_taken(&left, CHZ_WAITING);
        is_taken(&left, CHZ_CONNECTING);
        is_taken(&left, CHZ_OPEN);
    }
}
