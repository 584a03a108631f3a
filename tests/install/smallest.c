/* The smallest host: one frame in, its reply out. As a C programmer would start, from the header alone. */
#include <chozukpima.h>
#include <stdio.h>

static const char *send_in(chz_session *session, uint8_t command, int64_t op_id)
{
    static uint8_t frame[CHZ_ROOM], room[CHZ_ROOM], uuid[16] = "fifteen letters", sign[4];
    chz_message m = { .command = command, .op_id = op_id };
    if (command == CHZ_CON) m.con.has_version = m.con.version_major = 1;
    chz_message_write(&m, frame, sizeof frame);
    uint64_t a = chz_frame(frame, sizeof frame);
    if (!chz_refused(a)) a = chz_message_read(frame + CHZ_FRAME_HEAD, chz_value(a) - CHZ_FRAME_HEAD, &m);
    if (!chz_refused(a)) a = chz_session_arrive(session, &m, 1, uuid, sign, room, sizeof room);
    return chz_refused(a) ? chz_refusal_name(chz_refused(a)) : chz_step_name(chz_happened(a));
}

int main(void)
{
    static chz_session session;
    printf("%s, ", send_in(&session, CHZ_CON, 0));
    printf("%s, ", send_in(&session, CHZ_CON_CMP, 0));
    printf("%s, ", send_in(&session, CHZ_PING, 1));
    printf("%s\n", send_in(&session, CHZ_PING, 1));
    return 0;
}
