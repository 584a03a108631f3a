/* Images of the messages, and the payloads that msgpack-c makes of them. */
#include "messages.h"

#include <stdio.h>
#include <stdlib.h>
#include <string.h>

void need(int good, const char *what)
{
    if (good) return;
    fprintf(stderr, "bench: %s\n", what);
    exit(1);
}

void head_letters(uint8_t *frame) { memcpy(frame, "MIOTYB01", 8); }

void head_size(uint8_t *frame, size_t payload_len)
{
    for (int i = 0; i < 4; i++) frame[8 + i] = (uint8_t)(payload_len >> 8 * i);
}

static void fill_con(chz_message *m)
{
    chz_con *c = &m->con;
    m->command = CHZ_CON;
    m->op_id = 0;
    c->has_version = c->has_geo_location = c->bidi = 1;
    c->version_major = 1;
    c->bs_eui = 0x70B3D5FFFE00A000;
    c->latitude = 52.5;
    c->longitude = 13.25;
    c->altitude = 34;
    for (int i = 0; i < 16; i++) c->sn_bs_uuid[i] = (uint8_t)(17 * i);
    c->has_sn_bs_op_id = c->has_sn_sc_op_id = 1;
    c->sn_bs_op_id = 300;
    c->sn_sc_op_id = -40;
}

static void fill_con_rsp(chz_message *m)
{
    chz_con_rsp *c = &m->con_rsp;
    m->command = CHZ_CON_RSP;
    m->op_id = 0;
    c->has_version = c->sn_resume = 1;
    c->version_major = 1;
    c->sc_eui = 0x70B3D5FFFE000001;
    for (int i = 0; i < 16; i++) c->sn_sc_uuid[i] = (uint8_t)(13 * i);
}

static void fill_ul_data(chz_message *m, unsigned size)
{
    chz_packet *p = &m->ul_data.packet;
    m->command = CHZ_UL_DATA;
    p->ep_eui = 0x70B3D50000000001;
    p->rx_time = 1700000000000000000;
    p->has_rx_duration = p->has_eq_snr = 1;
    p->rx_duration = 1500000000;
    p->packet_cnt = 70000;
    p->snr = 10;
    p->rssi = -97;
    p->eq_snr = 0.5;
    p->profile_len = 3;
    memcpy(p->profile, "eu1", 3);
    m->ul_data.user_len = (uint8_t)size;
    for (unsigned i = 0; i < size; i++) m->data[i] = (uint8_t)(7 * i);
}

static void fill_att_prp(chz_message *m)
{
    chz_att_prp *a = &m->att_prp;
    m->command = CHZ_ATT_PRP;
    a->ep_eui = 0x70B3D50000000001;
    a->bidi = a->dual_chan = a->wide_carr_off = 1;
    a->sh_addr = 40000;
    a->last_packet_cnt = 70000;
    for (int i = 0; i < 16; i++) a->nwk_sn_key[i] = (uint8_t)(17 * i);
}

static void fill_downlink(chz_message *m, unsigned entries, unsigned size)
{
    m->command = CHZ_DL_DATA_QUE;
    m->dl_data_que.ep_eui = 0x70B3D50000000001;
    m->dl_data_que.que_id = 70000;
    m->dl_data_que.entries = (uint8_t)entries;
    for (unsigned i = 0; i < entries; i++) m->dl.length[i] = (uint8_t)size;
    for (unsigned i = 0; i < entries * size; i++) m->dl.bytes[i] = (uint8_t)(7 * i);
}

static void fill_downlinks(chz_message *m, unsigned entries)
{
    chz_dl_data_que *d = &m->dl_data_que;
    fill_downlink(m, entries, 50);
    d->cnt_depend = 1;
    for (unsigned i = 0; i < entries; i++) m->dl.counter[i] = 70000 + i;
    d->format = 1;
    d->prio = 1.5;
    d->has_response_exp = d->has_response_prio = d->has_dl_wind_req = d->has_exp_only = 1;
    d->response_exp = 1;
}

void message_fill(chz_message *m, const char *name, unsigned size)
{
    memset(m, 0, sizeof *m);
    m->op_id = 1;
    m->command = CHZ_PING;
    if (!strcmp(name, "con")) fill_con(m);
    if (!strcmp(name, "conRsp")) fill_con_rsp(m);
    if (!strcmp(name, "ulData") || !strcmp(name, "singles") || !strcmp(name, "wholes")) fill_ul_data(m, size);
    if (!strcmp(name, "wholes")) m->ul_data.packet.eq_snr = 1;
    if (!strcmp(name, "attPrp")) fill_att_prp(m);
    if (!strcmp(name, "downlink")) fill_downlink(m, 1, size);
    if (!strcmp(name, "downlinks")) fill_downlinks(m, size);
    if (!strcmp(name, "detRsp")) {
        m->command = CHZ_DET_RSP;
        memcpy(m->det_rsp.sign, "\x01\x02\xFF\x00", 4);
    }
}

static void text(msgpack_packer *pk, const char *bytes, size_t len) { msgpack_pack_str_with_body(pk, bytes, len); }
#define KEY(name) text(pk, name, sizeof name - 1)

static void truth(msgpack_packer *pk, int yes) { yes ? msgpack_pack_true(pk) : msgpack_pack_false(pk); }

static void octets(msgpack_packer *pk, const uint8_t *bytes, size_t len)
{
    msgpack_pack_array(pk, len);
    for (size_t i = 0; i < len; i++) msgpack_pack_uint8(pk, bytes[i]);
}

static void version(msgpack_packer *pk, const chz_con *c)
{
    char line[24];
    int len = snprintf(line, sizeof line, "%u.%u.%u", c->version_major, c->version_minor, c->version_patch);
    KEY("version"), text(pk, line, (size_t)len);
}

/* The start of each message: how many pairs, the command and the ID. */
static void start(msgpack_packer *pk, size_t pairs, const char *command, size_t len, int64_t op_id)
{
    msgpack_pack_map(pk, pairs);
    KEY("command"), text(pk, command, len);
    KEY("opId"), msgpack_pack_int64(pk, op_id);
}

static void pack_con(msgpack_packer *pk, const chz_message *m, int described)
{
    const chz_con *c = &m->con;
    start(pk, described ? 14 : 9, "con", 3, m->op_id);
    version(pk, c);
    KEY("bsEui"), msgpack_pack_uint64(pk, c->bs_eui);
    KEY("bidi"), truth(pk, c->bidi);
    KEY("geoLocation"), msgpack_pack_array(pk, 3);
    msgpack_pack_double(pk, c->latitude), msgpack_pack_double(pk, c->longitude), msgpack_pack_double(pk, c->altitude);
    KEY("snBsUuid"), octets(pk, c->sn_bs_uuid, 16);
    KEY("snBsOpId"), msgpack_pack_int64(pk, c->sn_bs_op_id);
    KEY("snScOpId"), msgpack_pack_int64(pk, c->sn_sc_op_id);
    if (!described) return;
    KEY("vendor"), KEY("Acme");
    KEY("model"), KEY("Mast 3");
    KEY("name"), KEY("roof of the town hall");
    KEY("swVersion"), KEY("2.4.1");
    KEY("info"), msgpack_pack_map(pk, 2);
    KEY("site"), msgpack_pack_int(pk, 12);
    KEY("owner"), KEY("waterworks");
}

/* The version is a fixed text here: only 1.0.0 is ever written, and printing numbers is no part of packing. */
static void pack_con_rsp(msgpack_packer *pk, const chz_message *m)
{
    start(pk, 6, "conRsp", 6, m->op_id);
    KEY("version"), KEY("1.0.0");
    KEY("scEui"), msgpack_pack_uint64(pk, m->con_rsp.sc_eui);
    KEY("snResume"), truth(pk, m->con_rsp.sn_resume);
    KEY("snScUuid"), octets(pk, m->con_rsp.sn_sc_uuid, 16);
}

/* How the signal figures are sent. Inlined where this is known, so that only packing is counted and no choice. */
enum figures { FLOATS_64, FLOATS_32, WHOLES };
#define INLINED static inline __attribute__((always_inline))

INLINED void figure(msgpack_packer *pk, double x, enum figures as)
{
    if (as == FLOATS_64) msgpack_pack_double(pk, x);
    if (as == FLOATS_32) msgpack_pack_float(pk, (float)x);
    if (as == WHOLES) msgpack_pack_int64(pk, (int64_t)x);
}

INLINED void pack_ul_data(msgpack_packer *pk, const chz_message *m, enum figures as)
{
    const chz_packet *p = &m->ul_data.packet;
    start(pk, 14, "ulData", 6, m->op_id);
    KEY("epEui"), msgpack_pack_uint64(pk, p->ep_eui);
    KEY("rxTime"), msgpack_pack_uint64(pk, p->rx_time);
    KEY("rxDuration"), msgpack_pack_uint64(pk, p->rx_duration);
    KEY("packetCnt"), msgpack_pack_uint32(pk, p->packet_cnt);
    KEY("snr"), figure(pk, p->snr, as);
    KEY("rssi"), figure(pk, p->rssi, as);
    KEY("eqSnr"), figure(pk, p->eq_snr, as);
    KEY("profile"), text(pk, (const char *)p->profile, p->profile_len);
    KEY("userData"), octets(pk, m->data, m->ul_data.user_len);
    KEY("dlOpen"), truth(pk, m->ul_data.dl_open);
    KEY("responseExp"), truth(pk, m->ul_data.response_exp);
    KEY("dlAck"), truth(pk, m->ul_data.dl_ack);
}

static void pack_counters(msgpack_packer *pk, const chz_message *m)
{
    KEY("packetCnt"), msgpack_pack_array(pk, m->dl_data_que.entries);
    for (int i = 0; i < m->dl_data_que.entries; i++) msgpack_pack_uint32(pk, m->dl.counter[i]);
}

static void pack_entries(msgpack_packer *pk, const chz_message *m)
{
    const uint8_t *bytes = m->dl.bytes;
    KEY("userData"), msgpack_pack_array(pk, m->dl_data_que.entries);
    for (int i = 0; i < m->dl_data_que.entries; bytes += m->dl.length[i++]) octets(pk, bytes, m->dl.length[i]);
}

static void pack_downlink(msgpack_packer *pk, const chz_message *m)
{
    const chz_dl_data_que *d = &m->dl_data_que;
    int flags = d->has_response_exp + d->has_response_prio + d->has_dl_wind_req + d->has_exp_only;
    start(pk, (size_t)(6 + d->cnt_depend + (d->format != 0) + (d->prio != 0) + flags), "dlDataQue", 9, m->op_id);
    KEY("epEui"), msgpack_pack_uint64(pk, d->ep_eui);
    KEY("queId"), msgpack_pack_uint64(pk, d->que_id);
    KEY("cntDepend"), truth(pk, d->cnt_depend);
    if (d->cnt_depend) pack_counters(pk, m);
    pack_entries(pk, m);
    if (d->format) KEY("format"), msgpack_pack_uint8(pk, d->format);
    if (d->prio != 0) KEY("prio"), msgpack_pack_double(pk, d->prio);
    if (d->has_response_exp) KEY("responseExp"), truth(pk, d->response_exp);
    if (d->has_response_prio) KEY("responsePrio"), truth(pk, d->response_prio);
    if (d->has_dl_wind_req) KEY("dlWindReq"), truth(pk, d->dl_wind_req);
    if (d->has_exp_only) KEY("expOnly"), truth(pk, d->exp_only);
}

void message_pack(msgpack_packer *pk, const chz_message *m)
{
    switch (m->command) {
    case CHZ_CON: pack_con(pk, m, 0); return;
    case CHZ_CON_RSP: pack_con_rsp(pk, m); return;
    case CHZ_UL_DATA: pack_ul_data(pk, m, FLOATS_64); return;
    case CHZ_DL_DATA_QUE: pack_downlink(pk, m); return;
    case CHZ_DET_RSP:
        start(pk, 3, "detRsp", 6, m->op_id);
        KEY("sign"), octets(pk, m->det_rsp.sign, 4);
        return;
    default: start(pk, 2, "ping", 4, m->op_id);
    }
}

/* Pairs of eight bytes; with all 500, the first 74 have nine. */
static void pack_pairs(msgpack_packer *pk, unsigned pairs)
{
    start(pk, 2 + pairs, "ping", 4, 1);
    for (unsigned i = 0; i < pairs; i++) {
        char key[8];
        snprintf(key, sizeof key, "k%03u", i % 1000);
        text(pk, key, 4);
        text(pk, "abc", pairs == PAIRS_MOST && i < 74 ? 3 : 2);
    }
}

static void pack_nested(msgpack_packer *pk, unsigned arrays)
{
    start(pk, 3, "ping", 4, 1);
    KEY("k");
    while (arrays--) msgpack_pack_array(pk, 1);
    msgpack_pack_nil(pk);
}

/* Maps of two pairs within each other, so many levels of them, and a nil in each of the innermost pairs. */
static void pack_maps(msgpack_packer *pk, unsigned levels)
{
    if (!levels) {
        msgpack_pack_nil(pk);
        return;
    }
    msgpack_pack_map(pk, 2);
    KEY("a"), pack_maps(pk, levels - 1);
    KEY("b"), pack_maps(pk, levels - 1);
}

/* Unknown pairs with nested maps, as deep as is allowed. */
static void pack_dense(msgpack_packer *pk, unsigned pairs)
{
    start(pk, 2 + pairs, "ping", 4, 1);
    while (pairs--) KEY("k"), pack_maps(pk, 6);
}

size_t payload_make(uint8_t *payload, chz_message *m, const char *name, unsigned size)
{
    msgpack_sbuffer made;
    msgpack_packer pk;
    msgpack_sbuffer_init(&made);
    msgpack_packer_init(&pk, &made, msgpack_sbuffer_write);
    message_fill(m, name, size);
    if (!strcmp(name, "pairs")) pack_pairs(&pk, size);
    else if (!strcmp(name, "nested")) pack_nested(&pk, size);
    else if (!strcmp(name, "maps")) pack_dense(&pk, size);
    else if (!strcmp(name, "con")) pack_con(&pk, m, 1);
    else if (!strcmp(name, "singles")) pack_ul_data(&pk, m, FLOATS_32);
    else if (!strcmp(name, "wholes")) pack_ul_data(&pk, m, WHOLES);
    else message_pack(&pk, m);
    need(made.size <= PAYLOAD_MOST, "payload too long");
    size_t len = made.size;
    memcpy(payload, made.data, len);
    msgpack_sbuffer_destroy(&made);
    return len;
}
