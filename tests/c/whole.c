/* Each of the 24 commands with all its fields, filled and spelled by hand. */
#include "whole.h"

#include <string.h>

static void con(chz_message *m)
{
    chz_con *c = &m->con;
    c->has_version = 1;
    c->version_major = 1;
    c->version_patch = 65535;
    c->bs_eui = 0x70B3D5FFFE00A000;
    c->bidi = 1;
    c->has_geo_location = 1;
    c->latitude = 52.5;
    c->longitude = 13.25;
    c->altitude = -2;
    memset(c->sn_bs_uuid, 0xA0, 16);
    c->has_sn_bs_op_id = c->has_sn_sc_op_id = 1;
    c->sn_bs_op_id = 256;
    c->sn_sc_op_id = -129;
}

static void con_rsp(chz_message *m)
{
    chz_con_rsp *c = &m->con_rsp;
    c->has_version = 1;
    c->version_major = 1;
    c->sc_eui = 128;
    c->sn_resume = 1;
    memset(c->sn_sc_uuid, 0x2A, 16);
}

static void status_rsp(chz_message *m)
{
    chz_status_rsp *s = &m->status_rsp;
    s->code = -33;
    s->message_len = 2;
    memcpy(m->data, "ok", 2);
    s->time = 65536;
    s->duty_cycle = 0.25;
    s->has_geo_location = 1;
    s->latitude = 52.5;
    s->longitude = 13.25;
    s->altitude = -2;
    s->has_uptime = s->has_temp = s->has_cpu_load = s->has_mem_load = 1;
    s->uptime = 86400;
    s->temp = 31.5;
    s->cpu_load = 0.5;
    s->mem_load = 0;
}

static void heard(chz_packet *p)
{
    p->ep_eui = 0x70B3D50000000001;
    p->rx_time = UINT64_MAX;
    p->has_rx_duration = p->has_eq_snr = 1;
    p->rx_duration = 127;
    p->packet_cnt = UINT32_MAX;
    p->snr = 10;
    p->rssi = -97;
    p->eq_snr = 0.5;
    p->profile_len = 3;
    memcpy(p->profile, "eu1", 3);
}

static void det(chz_message *m)
{
    heard(&m->det.packet);
    memcpy(m->det.sign, "\1\2\377\0", 4);
}

static void det_rsp(chz_message *m)
{
    memcpy(m->det_rsp.sign, "\1\2\377\0", 4);
}

static void att_prp(chz_message *m)
{
    chz_att_prp *a = &m->att_prp;
    a->ep_eui = 9;
    a->bidi = a->repetition = a->long_blk_dist = 1;
    memset(a->nwk_sn_key, 0x7F, 16);
    a->sh_addr = 65535;
    a->last_packet_cnt = 300;
}

static void det_prp(chz_message *m)
{
    m->det_prp.ep_eui = 9;
}

static void ul_data(chz_message *m)
{
    chz_ul_data *u = &m->ul_data;
    heard(&u->packet);
    u->user_len = 2;
    memcpy(m->data, "\200\177", 2);
    u->format = 200;
    u->dl_open = u->response_exp = 1;
}

/* No reading is longer than one whose bytes all take two. */
static void longest_reading(chz_message *m)
{
    ul_data(m);
    m->ul_data.user_len = CHZ_USER_DATA;
    memset(m->data, 0xFF, CHZ_USER_DATA);
}

static void dl_data_que(chz_message *m)
{
    chz_dl_data_que *d = &m->dl_data_que;
    d->ep_eui = 0x70B3D50000000001;
    d->que_id = UINT64_MAX;
    d->cnt_depend = 1;
    d->entries = 2;
    m->dl.counter[0] = 300;
    m->dl.counter[1] = UINT32_MAX;
    m->dl.length[0] = 2;
    memcpy(m->dl.bytes, "\200\177", 2);
    d->format = 200;
    d->prio = -1.5;
    d->has_response_exp = d->has_response_prio = d->has_dl_wind_req = d->has_exp_only = 1;
    d->response_exp = d->dl_wind_req = 1;
}

/* Nothing that is written is longer: sixteen counters of five bytes, 800 bytes that take two each, and every field. */
static void longest(chz_message *m)
{
    dl_data_que(m);
    m->op_id = INT64_MIN;
    m->dl_data_que.entries = 16;
    memset(m->dl.counter, 0xFF, sizeof m->dl.counter);
    memset(m->dl.length, 50, sizeof m->dl.length);
    memset(m->dl.bytes, 0xFF, sizeof m->dl.bytes);
}

/* A valve command that says no more than it must. */
static void plain(chz_message *m)
{
    m->dl_data_que.ep_eui = 9;
    m->dl_data_que.que_id = 5;
    m->dl_data_que.entries = 1;
    m->dl.length[0] = 3;
    memcpy(m->dl.bytes, "\1\2\3", 3);
}

#define ID "'opId' 07 "
#define LOCATION "'geoLocation' 93 CB404A400000000000 CB402A800000000000 CBC000000000000000 "
#define HEARD                                                                                                          \
    "'epEui' CF70B3D50000000001 'rxTime' CFFFFFFFFFFFFFFFFF 'rxDuration' 7F 'packetCnt' CEFFFFFFFF "                   \
    "'snr' CB4024000000000000 'rssi' CBC058400000000000 'eqSnr' CB3FE0000000000000 'profile' 'eu1' "
#define SIGN "'sign' 94 01 02 CCFF 00 "
#define FLAGS "'format' CCC8 'dlOpen' C3 'responseExp' C3 'dlAck' C2"
#define DOWN "'epEui' CF70B3D50000000001 'queId' CFFFFFFFFFFFFFFFFF 'cntDepend' C3 "
#define WISHES "'format' CCC8 'prio' CBBFF8000000000000 'responseExp' C3 'responsePrio' C2 'dlWindReq' C3 'expOnly' C2"
#define FOUR(text) text text text text
#define SIXTEEN_OF_50 FOUR(FOUR("DC0032 50*CCFF "))

const struct whole wholes[WHOLES] = {
    { CHZ_CON, "89 'command' 'con' " ID "'version' '1.0.65535' 'bsEui' CF70B3D5FFFE00A000 'bidi' C3 " LOCATION
      "'snBsUuid' DC0010 16*CCA0 'snBsOpId' CD0100 'snScOpId' D1FF7F", 38, con },
    { CHZ_CON_RSP, "86 'command' 'conRsp' " ID "'version' '1.0.0' 'scEui' CC80 'snResume' C3 'snScUuid' DC0010 16*2A", 29, con_rsp },
    { CHZ_STATUS_RSP, "8B 'command' 'statusRsp' " ID "'code' D0DF 'message' 'ok' 'time' CE00010000 'dutyCycle' CB3FD0000000000000 "
      LOCATION "'uptime' CE00015180 'temp' CB403F800000000000 'cpuLoad' CB3FE0000000000000 'memLoad' CB0000000000000000", 26, status_rsp },
    { CHZ_DET, "8B 'command' 'det' " ID HEARD SIGN, 27, det },
    { CHZ_DET_RSP, "83 'command' 'detRsp' " ID SIGN, 11, det_rsp },
    { CHZ_ATT_PRP, "8B 'command' 'attPrp' " ID "'epEui' 09 'bidi' C3 'nwkSnKey' DC0010 16*7F 'shAddr' CDFFFF 'lastPacketCnt' CD012C "
      "'dualChan' C2 'repetition' C3 'wideCarrOff' C2 'longBlkDist' C3", 39, att_prp },
    { CHZ_DET_PRP, "83 'command' 'detPrp' " ID "'epEui' 09", 7, det_prp },
    { CHZ_UL_DATA, "8F 'command' 'ulData' " ID HEARD "'userData' 92 CC80 7F " FLAGS, 33, ul_data },
    { CHZ_UL_DATA, "8F 'command' 'ulData' " ID HEARD "'userData' DC00F5 245*CCFF " FLAGS, 276, longest_reading },
    { CHZ_CON_CMP, "82 'command' 'conCmp' " ID, 5, NULL },
    { CHZ_PING, "82 'command' 'ping' " ID, 5, NULL },
    { CHZ_PING_RSP, "82 'command' 'pingRsp' " ID, 5, NULL },
    { CHZ_PING_CMP, "82 'command' 'pingCmp' " ID, 5, NULL },
    { CHZ_STATUS, "82 'command' 'status' " ID, 5, NULL },
    { CHZ_STATUS_CMP, "82 'command' 'statusCmp' " ID, 5, NULL },
    { CHZ_DET_CMP, "82 'command' 'detCmp' " ID, 5, NULL },
    { CHZ_ATT_PRP_RSP, "82 'command' 'attPrpRsp' " ID, 5, NULL },
    { CHZ_ATT_PRP_CMP, "82 'command' 'attPrpCmp' " ID, 5, NULL },
    { CHZ_DET_PRP_RSP, "82 'command' 'detPrpRsp' " ID, 5, NULL },
    { CHZ_DET_PRP_CMP, "82 'command' 'detPrpCmp' " ID, 5, NULL },
    { CHZ_UL_DATA_RSP, "82 'command' 'ulDataRsp' " ID, 5, NULL },
    { CHZ_UL_DATA_CMP, "82 'command' 'ulDataCmp' " ID, 5, NULL },
    { CHZ_DL_DATA_QUE, "8D 'command' 'dlDataQue' " ID DOWN "'packetCnt' 92 CD012C CEFFFFFFFF 'userData' 92 92CC807F 90 " WISHES,
      33, dl_data_que },
    { CHZ_DL_DATA_QUE, "8D 'command' 'dlDataQue' 'opId' D38000000000000000 " DOWN "'packetCnt' DC0010 16*CEFFFFFFFF 'userData' DC0010 "
      SIXTEEN_OF_50 WISHES, 859, longest },
    { CHZ_DL_DATA_QUE, "86 'command' 'dlDataQue' " ID "'epEui' 09 'queId' 05 'cntDepend' C2 'userData' 91 93010203", 17, plain },
    { CHZ_DL_DATA_QUE_RSP, "82 'command' 'dlDataQueRsp' " ID, 5, NULL },
    { CHZ_DL_DATA_QUE_CMP, "82 'command' 'dlDataQueCmp' " ID, 5, NULL },
};

chz_message whole_message(const struct whole *whole)
{
    chz_message m;
    memset(&m, 0, sizeof m);
    m.command = whole->command;
    m.op_id = 7;
    if (whole->fill) whole->fill(&m);
    return m;
}

const struct whole *whole_of(uint8_t command)
{
    const struct whole *whole = wholes;
    while (whole->command != command) whole++;
    return whole;
}
