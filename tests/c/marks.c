/* Marks that are neither 0 nor 1, and fields that are marked absent and are not zero: 15, in every call that takes a message. */
#include <stdio.h>
#include <string.h>

#include "cases.h"
#include "sessions.h"
#include "whole.h"

#define AT(member) offsetof(chz_message, member)

/* Every mark of every command. */
#define MARK(command, member) { command, #member, AT(member) }
static const struct {
    uint8_t command;
    const char *name;
    size_t at;
} cases[] = {
    MARK(CHZ_CON, con.has_version), MARK(CHZ_CON, con.bidi), MARK(CHZ_CON, con.has_geo_location),
    MARK(CHZ_CON, con.has_sn_bs_op_id), MARK(CHZ_CON, con.has_sn_sc_op_id),
    MARK(CHZ_CON_RSP, con_rsp.has_version), MARK(CHZ_CON_RSP, con_rsp.sn_resume),
    MARK(CHZ_STATUS_RSP, status_rsp.has_geo_location), MARK(CHZ_STATUS_RSP, status_rsp.has_uptime),
    MARK(CHZ_STATUS_RSP, status_rsp.has_temp), MARK(CHZ_STATUS_RSP, status_rsp.has_cpu_load),
    MARK(CHZ_STATUS_RSP, status_rsp.has_mem_load),
    MARK(CHZ_DET, det.packet.has_rx_duration), MARK(CHZ_DET, det.packet.has_eq_snr),
    MARK(CHZ_ATT_PRP, att_prp.bidi), MARK(CHZ_ATT_PRP, att_prp.dual_chan), MARK(CHZ_ATT_PRP, att_prp.repetition),
    MARK(CHZ_ATT_PRP, att_prp.wide_carr_off), MARK(CHZ_ATT_PRP, att_prp.long_blk_dist),
    MARK(CHZ_UL_DATA, ul_data.packet.has_rx_duration), MARK(CHZ_UL_DATA, ul_data.packet.has_eq_snr),
    MARK(CHZ_UL_DATA, ul_data.dl_open), MARK(CHZ_UL_DATA, ul_data.response_exp), MARK(CHZ_UL_DATA, ul_data.dl_ack),
    MARK(CHZ_DL_DATA_QUE, dl_data_que.cnt_depend), MARK(CHZ_DL_DATA_QUE, dl_data_que.has_response_exp),
    MARK(CHZ_DL_DATA_QUE, dl_data_que.response_exp), MARK(CHZ_DL_DATA_QUE, dl_data_que.has_response_prio),
    MARK(CHZ_DL_DATA_QUE, dl_data_que.response_prio), MARK(CHZ_DL_DATA_QUE, dl_data_que.has_dl_wind_req),
    MARK(CHZ_DL_DATA_QUE, dl_data_que.dl_wind_req), MARK(CHZ_DL_DATA_QUE, dl_data_que.has_exp_only),
    MARK(CHZ_DL_DATA_QUE, dl_data_que.exp_only),
};

/* A bad message is 15 before 17 where it arrives; where the centre begins with it, 17 comes first. */
static void is_refused(const chz_message *m)
{
    bool starts = m->command == CHZ_ATT_PRP || m->command == CHZ_DL_DATA_QUE;
    unsigned begin_refused = starts ? CHZ_INVALID : CHZ_STATE;
    chz_session s = open_session();
    lend_session_with(&s, m);
    JUDGE(write_lent(), ANSWER(CHZ_INVALID, 0, 0), &message, &data, &room);
    JUDGE(arrive(), ANSWER(CHZ_INVALID, 0, 0), ALL_OF_SESSION);
    JUDGE(begin(), ANSWER(begin_refused, 0, 0), ALL_OF_SESSION);
    s.state = CHZ_WAITING;
    lend(&session, &s, sizeof s);
    JUDGE(arrive(), ANSWER(CHZ_INVALID, 0, 0), ALL_OF_SESSION);
    JUDGE(begin(), ANSWER(CHZ_STATE, 0, 0), ALL_OF_SESSION);
}

static void each_mark(void)
{
    static const uint8_t wrong[] = { 2, 255 };
    for (size_t i = 0; i < COUNT(cases) * COUNT(wrong); i++) {
        static char name[64];
        chz_message m = whole_message(whole_of(cases[i / 2].command));
        ((uint8_t *)&m)[cases[i / 2].at] = wrong[i % 2];
        snprintf(name, sizeof name, "%s is %u", cases[i / 2].name, wrong[i % 2]);
        start(name);
        is_refused(&m);
    }
}

/* Every field that may be absent, with its mark; a profile's mark is its length. */
#define FIELD(command, body, mark, first, last) \
    { command, #body "." #first, AT(body.mark), AT(body.first), AT(body.last) + sizeof(((chz_message *)0)->body.last) }
static const struct {
    uint8_t command;
    const char *name;
    size_t mark, from, to;
} optional[] = {
    FIELD(CHZ_CON, con, has_geo_location, latitude, altitude),
    FIELD(CHZ_CON, con, has_sn_bs_op_id, sn_bs_op_id, sn_bs_op_id),
    FIELD(CHZ_CON, con, has_sn_sc_op_id, sn_sc_op_id, sn_sc_op_id),
    FIELD(CHZ_CON_RSP, con_rsp, has_version, version_major, version_patch),
    FIELD(CHZ_STATUS_RSP, status_rsp, has_geo_location, latitude, altitude),
    FIELD(CHZ_STATUS_RSP, status_rsp, has_uptime, uptime, uptime),
    FIELD(CHZ_STATUS_RSP, status_rsp, has_temp, temp, temp),
    FIELD(CHZ_STATUS_RSP, status_rsp, has_cpu_load, cpu_load, cpu_load),
    FIELD(CHZ_STATUS_RSP, status_rsp, has_mem_load, mem_load, mem_load),
    FIELD(CHZ_DET, det.packet, has_rx_duration, rx_duration, rx_duration),
    FIELD(CHZ_DET, det.packet, has_eq_snr, eq_snr, eq_snr),
    FIELD(CHZ_DET, det.packet, profile_len, profile, profile),
    FIELD(CHZ_UL_DATA, ul_data.packet, has_rx_duration, rx_duration, rx_duration),
    FIELD(CHZ_UL_DATA, ul_data.packet, has_eq_snr, eq_snr, eq_snr),
    FIELD(CHZ_UL_DATA, ul_data.packet, profile_len, profile, profile),
    FIELD(CHZ_DL_DATA_QUE, dl_data_que, has_response_exp, response_exp, response_exp),
    FIELD(CHZ_DL_DATA_QUE, dl_data_que, has_response_prio, response_prio, response_prio),
    FIELD(CHZ_DL_DATA_QUE, dl_data_que, has_dl_wind_req, dl_wind_req, dl_wind_req),
    FIELD(CHZ_DL_DATA_QUE, dl_data_que, has_exp_only, exp_only, exp_only),
};

/* Read back, what was written has the field absent and all others as they were. */
static void is_left_out(chz_message *m)
{
    lend_message(m);
    lend_filled(&room, FILLING, CHZ_ROOM);
    size_t len = chz_value(write_lent());
    lend(&payload, room.at + CHZ_FRAME_HEAD, len ? len - CHZ_FRAME_HEAD : 0);
    lend_filled(&message, FILLING, CHZ_MESSAGE);
    lend_filled(&data, FILLING, CHZ_DATA);
    expect_message(m);
    JUDGE(chz_refused(read_lent()), CHZ_DONE, &payload, &message, &data);
}

/* Each byte of the field alone, its lowest and its highest bit: the highest of a real makes it minus zero. */
static void absent(size_t i)
{
    chz_message m = whole_message(whole_of(optional[i].command));
    uint8_t *bytes = (uint8_t *)&m;
    bytes[optional[i].mark] = 0;
    memset(bytes + optional[i].from, 0, optional[i].to - optional[i].from);
    is_left_out(&m);
    for (size_t at = optional[i].from; at < optional[i].to; at++) {
        bytes[at] = 0x01;
        is_refused(&m);
        bytes[at] = 0x80;
        is_refused(&m);
        bytes[at] = 0;
    }
}

void marks(void)
{
    each_mark();
    for (size_t i = 0; i < COUNT(optional); i++) {
        start(optional[i].name);
        absent(i);
    }
}
