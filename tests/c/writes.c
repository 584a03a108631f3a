/* chz_write: rooms of several lengths, messages that may not be written, and bytes that make no difference. */
#include <math.h>
#include <string.h>

#include "cases.h"
#include "messages.h"
#include "spell.h"
#include "whole.h"

static const struct {
    const char *name;
    size_t message_len, room_len;
    unsigned refused;
} rooms[] = {
    { "pingRsp 1 takes 35 bytes", CHZ_MESSAGE, 35, CHZ_DONE },
    { "the rest of the room stays", CHZ_MESSAGE, 100, CHZ_DONE },
    { "34 bytes of room", CHZ_MESSAGE, 34, CHZ_ROOM_TOO_SHORT },
    { "no room", CHZ_MESSAGE, 0, CHZ_ROOM_TOO_SHORT },
    { "message a byte short", CHZ_MESSAGE - 1, 100, CHZ_INVALID },
    { "message a byte long", CHZ_MESSAGE + 1, 100, CHZ_INVALID },
    { "no message", 0, 100, CHZ_INVALID },
    { "message with its data behind it", sizeof(chz_message), 100, CHZ_INVALID },
    { "message of the former length", 584, 100, CHZ_INVALID },
    { "wrong length before no room", CHZ_MESSAGE - 1, 0, CHZ_INVALID },
};

/* Each spoils one message, which is else in its ranges. */
#define EDIT(name, edit) static void name(chz_message *m) { edit; }
EDIT(no_command, m->command = 24)
EDIT(greatest_command, m->command = 255)
EDIT(mark_over_one, m->ul_data.dl_ack = 2)
EDIT(data_too_long, m->ul_data.user_len = 246)
EDIT(text_too_long, m->status_rsp.message_len = 65)
EDIT(profile_too_long, m->ul_data.packet.profile_len = 17)
EDIT(bytes_of_no_profile, m->ul_data.packet.profile_len = 0)
EDIT(byte_behind_profile, m->ul_data.packet.profile[3] = 1)
EDIT(last_byte_behind_profile, m->det.packet.profile[15] = 1)
EDIT(absent_but_not_zero, m->ul_data.packet.has_eq_snr = 0; m->ul_data.packet.eq_snr = 1)
EDIT(response_without_open, m->ul_data.dl_open = 0; m->ul_data.response_exp = 1)
EDIT(no_number, m->ul_data.packet.snr = NAN)
EDIT(endless, m->ul_data.packet.rssi = -INFINITY)
EDIT(nowhere, m->con.altitude = NAN)
EDIT(endless_load, m->status_rsp.mem_load = INFINITY)
EDIT(minus_zero_absent, m->ul_data.packet.has_eq_snr = 0; m->ul_data.packet.eq_snr = -0.0)
EDIT(least_absent, m->ul_data.packet.has_eq_snr = 0; m->ul_data.packet.eq_snr = 4.9406564584124654e-324)
EDIT(negative_station_id, m->con.sn_bs_op_id = -1)
EDIT(positive_centre_id, m->con.sn_sc_op_id = 1)
EDIT(con_without_version, m->con.has_version = m->con.version_major = m->con.version_patch = 0)

struct edited {
    const char *name;
    uint8_t command;
    void (*edit)(chz_message *);
};

static const struct edited spoilt[] = {
    { "command 24", CHZ_PING, no_command },
    { "command 255", CHZ_PING, greatest_command },
    { "mark of 2", CHZ_UL_DATA, mark_over_one },
    { "246 bytes of userData", CHZ_UL_DATA, data_too_long },
    { "65 bytes of text", CHZ_STATUS_RSP, text_too_long },
    { "profile of 17 bytes", CHZ_UL_DATA, profile_too_long },
    { "bytes of an absent profile", CHZ_UL_DATA, bytes_of_no_profile },
    { "byte behind a profile", CHZ_UL_DATA, byte_behind_profile },
    { "last byte behind a profile", CHZ_DET, last_byte_behind_profile },
    { "absent eqSnr that is not zero", CHZ_UL_DATA, absent_but_not_zero },
    { "responseExp without dlOpen", CHZ_UL_DATA, response_without_open },
    { "snr no number", CHZ_UL_DATA, no_number },
    { "rssi endless", CHZ_UL_DATA, endless },
    { "altitude no number", CHZ_CON, nowhere },
    { "memLoad endless", CHZ_STATUS_RSP, endless_load },
    { "absent eqSnr of minus zero", CHZ_UL_DATA, minus_zero_absent },
    { "absent eqSnr of the least number above zero", CHZ_UL_DATA, least_absent },
    { "negative snBsOpId", CHZ_CON, negative_station_id },
    { "positive snScOpId", CHZ_CON, positive_centre_id },
    { "con without version", CHZ_CON, con_without_version },
};

/* Each changes what the message's command does not have: the frame is the same. */
EDIT(reserved_byte, m->reserved[2] = 1)
EDIT(packets_reserved_byte, m->ul_data.packet.reserved = 255)
EDIT(field_of_others, m->det_prp.ep_eui = 1)
EDIT(mark_of_others, m->status_rsp.has_temp = 2)
EDIT(real_of_others, m->status_rsp.temp = NAN)
EDIT(length_of_others, m->status_rsp.message_len = 255; m->ul_data.user_len = 255)
EDIT(entries_of_others, m->dl_data_que.entries = 255)
EDIT(byte_behind_data, m->data[2] = 1)
EDIT(byte_behind_text, memset(m->data + 2, 0xFF, CHZ_DATA - 2))
EDIT(data_of_none, memset(m->data, 0xFF, CHZ_DATA))

static const struct edited ignored[] = {
    { "reserved byte", CHZ_PING, reserved_byte },
    { "packet's reserved byte", CHZ_UL_DATA, packets_reserved_byte },
    { "field of another command", CHZ_PING, field_of_others },
    { "mark of another command", CHZ_PING, mark_of_others },
    { "real of another command", CHZ_DET_RSP, real_of_others },
    { "lengths of other commands", CHZ_ATT_PRP, length_of_others },
    { "data entries of another command", CHZ_DET_PRP, entries_of_others },
    { "byte behind userData", CHZ_UL_DATA, byte_behind_data },
    { "bytes behind the text", CHZ_STATUS_RSP, byte_behind_text },
    { "data of a command that has none", CHZ_CON, data_of_none },
};

static void each_room(void)
{
    uint8_t image[LENT_MOST] = { 0 }, frame[LENT_MOST];
    const chz_message m = message_of(PING_RSP);
    size_t len = spell_frame(PING_RSP, frame);
    memcpy(image, &m, CHZ_MESSAGE);
    for (size_t i = 0; i < COUNT(rooms); i++) {
        unsigned refused = rooms[i].refused;
        start(rooms[i].name);
        lend(&message, image, rooms[i].message_len);
        lend(&data, m.data, 0);
        lend_filled(&room, FILLING, rooms[i].room_len);
        if (!refused) expect(&room, 0, frame, len);
        JUDGE(write_lent(), ANSWER(refused, 0, refused ? 0 : len), &message, &data, &room);
    }
}

static void lend_edited(const struct edited *e)
{
    chz_message m = whole_message(whole_of(e->command));
    e->edit(&m);
    start(e->name);
    lend_message(&m);
    lend(&data, m.data, CHZ_DATA);
}

/* In a room that is long enough, and in none: 15 comes before 20. */
static void each_spoilt(void)
{
    for (size_t i = 0; i < 2 * COUNT(spoilt); i++) {
        lend_edited(&spoilt[i / 2]);
        lend_filled(&room, FILLING, i % 2 ? CHZ_ROOM : 0);
        JUDGE(write_lent(), ANSWER(CHZ_INVALID, 0, 0), &message, &data, &room);
    }
}

/* In a room that is long enough, and in none: 20, since nothing else is wrong. */
static void each_ignored(void)
{
    for (size_t i = 0; i < COUNT(ignored); i++) {
        uint8_t frame[LENT_MOST];
        size_t len = spell_frame(whole_of(ignored[i].command)->payload, frame);
        lend_edited(&ignored[i]);
        lend_filled(&room, FILLING, 0);
        JUDGE(write_lent(), ANSWER(CHZ_ROOM_TOO_SHORT, 0, 0), &message, &data, &room);
        lend_filled(&room, FILLING, CHZ_ROOM);
        expect(&room, 0, frame, len);
        JUDGE(write_lent(), ANSWER(CHZ_DONE, 0, len), &message, &data, &room);
    }
}

void writes(void)
{
    each_room();
    each_spoilt();
    each_ignored();
}
