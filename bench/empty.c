/* Calls that do nothing, in the shapes of those that are counted. */
#include "bench.h"

uint64_t empty_read(const uint8_t *payload, size_t payload_len, uint8_t *message, size_t message_len, uint8_t *data, size_t data_len)
{
    (void)payload, (void)payload_len, (void)message, (void)message_len, (void)data, (void)data_len;
    return 0;
}

uint64_t empty_write(const uint8_t *message, size_t message_len, const uint8_t *data, size_t data_len, uint8_t *room, size_t room_len)
{
    (void)message, (void)message_len, (void)data, (void)data_len, (void)room, (void)room_len;
    return 0;
}

uint64_t empty_frame(const uint8_t *bytes, size_t bytes_len)
{
    (void)bytes, (void)bytes_len;
    return 0;
}

uint64_t empty_uplink(UPLINK_COLUMNS, uint64_t meter, uint32_t counter, uint64_t station)
{
    (void)used, (void)used_len, (void)eui, (void)eui_len, (void)sh_addr, (void)sh_addr_len, (void)last, (void)last_len;
    (void)heard, (void)heard_len, (void)meter, (void)counter, (void)station;
    return 0;
}

uint64_t empty_arrive(uint8_t *session, size_t session_len, const uint8_t *message, size_t message_len, const uint8_t *data,
                      size_t data_len, uint64_t sc_eui, const uint8_t *uuid, size_t uuid_len, const uint8_t *sign, size_t sign_len,
                      uint8_t *room, size_t room_len)
{
    (void)session, (void)session_len, (void)message, (void)message_len, (void)data, (void)data_len, (void)sc_eui;
    (void)uuid, (void)uuid_len, (void)sign, (void)sign_len, (void)room, (void)room_len;
    return 0;
}

uint64_t empty_begin(uint8_t *session, size_t session_len, const uint8_t *message, size_t message_len, const uint8_t *data,
                     size_t data_len, uint8_t *room, size_t room_len)
{
    (void)session, (void)session_len, (void)message, (void)message_len, (void)data, (void)data_len, (void)room, (void)room_len;
    return 0;
}

uint64_t empty_lost(uint8_t *session, size_t session_len)
{
    (void)session, (void)session_len;
    return 0;
}

uint64_t empty_add(uint8_t *queue, size_t queue_len, const uint8_t *message, size_t message_len, const uint8_t *data, size_t data_len)
{
    (void)queue, (void)queue_len, (void)message, (void)message_len, (void)data, (void)data_len;
    return 0;
}

uint64_t empty_cancel(uint8_t *queue, size_t queue_len, uint64_t que_id)
{
    (void)queue, (void)queue_len, (void)que_id;
    return 0;
}

uint64_t empty_choose(uint8_t *queue, size_t queue_len, uint64_t meter, uint32_t counter, uint8_t expected)
{
    (void)queue, (void)queue_len, (void)meter, (void)counter, (void)expected;
    return 0;
}

uint64_t empty_sound(const uint8_t *queue, size_t queue_len)
{
    (void)queue, (void)queue_len;
    return 0;
}
