// C++ takes the header too: its assertions hold, its calls have C names, its inline functions compile.
#include "chozukpima.h"

uint64_t ask(chz_session &session)
{
    return chz_lost(reinterpret_cast<uint8_t *>(&session), sizeof session);
}

chz_message detach(uint64_t meter)
{
    chz_message m = {};
    m.command = CHZ_DET_PRP;
    m.det_prp.ep_eui = meter;
    return m;
}

const char *tell(uint64_t answer)
{
    if (chz_uplink_row(answer) == chz_uplink_hearers(answer)) return chz_command_name(CHZ_PING);
    return chz_refused(answer) ? chz_refusal_name(chz_refused(answer)) : chz_step_name(chz_happened(answer));
}

uint64_t shut(chz_queue &queue, chz_session &session, uint64_t meter, uint32_t counter, uint8_t *room, size_t room_len)
{
    static const uint8_t data[] = { 1, 0 };
    chz_message m;
    chz_chosen chosen = {};
    if (chz_valve(&m, meter, 1, data, sizeof data) || chz_refused(chz_queue_add(&queue, &m)) || !chz_queue_sound(&queue)) return 0;
    if (chz_refused(chz_queue_choose(&queue, meter, counter, true, &chosen))) return chz_queue_cancel(&queue, 1);
    chz_chosen_message(&chosen, counter, &m);
    chz_downlink_entry_for(&m, counter, chosen.data, chosen.data_len);
    return chz_session_begin(&session, &m, room, room_len);
}

size_t write_and_read(uint64_t gap, uint8_t *room, size_t room_len, const uint8_t *frame, size_t frame_len)
{
    uint64_t time = 0;
    if (chz_refused(chz_trace_start(room, room_len)) || chz_refused(chz_trace_open(room, room_len))) return 0;
    if (chz_refused(chz_record(&time, gap, 63, frame, frame_len, room, room_len))) return 0;
    const uint64_t answer = chz_recorded(&time, room, room_len);
    return chz_recorded_station(answer) == 63 ? chz_recorded_len(answer) - chz_recorded_frame_len(answer) : CHZ_RECORD;
}
