#include "sessions.h"

#include <string.h>

#include "spell.h"

struct lent session, uuid, sign;

void lend_session(const chz_session *before, const char *spelled)
{
    const chz_message m = message_of(spelled);
    lend_session_with(before, &m);
}

void lend_session_with(const chz_session *before, const chz_message *m)
{
    lend(&session, before, sizeof *before);
    lend_message(m);
    lend_filled(&uuid, 0x11, 16);
    lend_filled(&sign, 0x22, 4);
    lend_filled(&room, FILLING, CHZ_ROOM);
}

uint64_t arrive(void)
{
    return chz_arrive(session.at, session.len, message.at, message.len, data.at, data.len, 128, uuid.at, uuid.len, sign.at,
                      sign.len, room.at, room.len);
}

uint64_t begin(void)
{
    return chz_begin(session.at, session.len, message.at, message.len, data.at, data.len, room.at, room.len);
}

uint64_t lose(void)
{
    return chz_lost(session.at, session.len);
}

uint64_t take(enum what what)
{
    if (what == BEGINS) return begin();
    return what == LOST ? lose() : arrive();
}

chz_session session_now(void)
{
    chz_session now;
    memcpy(&now, session.at, sizeof now);
    return now;
}

/* A refused step may change nothing. */
static void expect_session(const struct step *step, chz_session now)
{
    if (step->refused) return;
    now.state = (uint8_t)step->state;
    now.highest = step->highest;
    now.lowest = step->lowest;
    expect(&session, 0, &now, sizeof now);
}

void live(const struct step *steps, size_t count, uint8_t garbage)
{
    chz_session before;
    memset(&before, 0, sizeof before);
    for (const struct step *step = steps; step < steps + count; step++) {
        uint8_t frame[LENT_MOST];
        size_t len = step->sent ? spell_frame(step->sent, frame) : 0;
        chz_message m = message_of(step->message);
        m = with_garbage(&m, garbage);
        start(step->name);
        lend_session_with(&before, &m);
        expect(&room, 0, frame, len);
        uint64_t answer = take(step->what);
        before = session_now();
        expect_session(step, before);
        JUDGE(answer, ANSWER(step->refused, step->happened, len), ALL_OF_SESSION);
    }
}

chz_session open_session(void)
{
    chz_session s;
    memset(&s, 0, sizeof s);
    s.state = CHZ_OPEN;
    return s;
}

void fill_places(int64_t *ids, uint8_t *kinds, int64_t step)
{
    for (int i = 0; i < 16; i++) ids[i] = step * (i + 1), kinds[i] = CHZ_PING;
}
