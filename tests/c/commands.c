/* Each of the 24 commands with all its fields, in the writer's form: these bytes are read as the message, and the message is
 * written as these bytes, whatever stands in the bytes that its command does not have. */
#include "cases.h"
#include "messages.h"
#include "spell.h"
#include "whole.h"

static const uint8_t garbage[] = { 0x01, 0x02, 0x80, 0xFF };

static void is_read(const struct whole *whole, const chz_message *m)
{
    lend_payload(whole->payload);
    expect_message(m);
    JUDGE(read_lent(), ANSWER(CHZ_DONE, 0, whole->elements), &payload, &message, &data);
}

static void is_written(const struct whole *whole, const chz_message *m)
{
    uint8_t frame[LENT_MOST];
    size_t len = spell_frame(whole->payload, frame);
    lend_message(m);
    lend_filled(&room, FILLING, CHZ_ROOM);
    expect(&room, 0, frame, len);
    JUDGE(write_lent(), ANSWER(CHZ_DONE, 0, len), &message, &data, &room);
}

void commands(void)
{
    for (const struct whole *whole = wholes; whole < wholes + WHOLES; whole++) {
        const chz_message m = whole_message(whole);
        start(whole->payload);
        is_read(whole, &m);
        is_written(whole, &m);
        for (size_t i = 0; i < COUNT(garbage); i++) {
            const chz_message dressed = with_garbage(&m, garbage[i]);
            is_written(whole, &dressed);
        }
    }
}
