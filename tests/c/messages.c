#include "messages.h"

#include <string.h>

#include "spell.h"

struct lent payload, message, data, room;

static size_t downlink_said(const chz_message *m)
{
    size_t said = offsetof(chz_dl_entries, bytes);
    for (int i = 0; i < m->dl_data_que.entries && i < CHZ_ENTRIES; i++) said += m->dl.length[i];
    return said;
}

size_t data_said(const chz_message *m)
{
    size_t said = 0;
    if (m->command == CHZ_UL_DATA) said = m->ul_data.user_len;
    if (m->command == CHZ_STATUS_RSP) said = m->status_rsp.message_len;
    if (m->command == CHZ_DL_DATA_QUE) said = downlink_said(m);
    return said < CHZ_DATA ? said : CHZ_DATA;
}

void lend_message(const chz_message *m)
{
    lend(&message, m, CHZ_MESSAGE);
    lend(&data, m->data, data_said(m));
}

void lend_payload(const char *spelled)
{
    uint8_t bytes[LENT_MOST];
    lend(&payload, bytes, spell(spelled, bytes));
    lend_filled(&message, FILLING, CHZ_MESSAGE);
    lend_filled(&data, FILLING, CHZ_DATA);
}

/* The rest of data stays. */
void expect_message(const chz_message *m)
{
    expect(&message, 0, m, CHZ_MESSAGE);
    expect(&data, 0, m->data, data_said(m));
}

uint64_t read_lent(void)
{
    return chz_read(payload.at, payload.len, message.at, message.len, data.at, data.len);
}

uint64_t write_lent(void)
{
    return chz_write(message.at, message.len, data.at, data.len, room.at, room.len);
}

chz_message message_of(const char *spelled)
{
    uint8_t bytes[LENT_MOST];
    chz_message m;
    memset(&m, 0, sizeof m);
    chz_message_read(bytes, spell(spelled, bytes), &m);
    return m;
}

/* How many bytes of the union are the command's fields. */
static const size_t fields_len[] = {
    [CHZ_CON] = offsetof(chz_con, has_sn_sc_op_id) + 1,
    [CHZ_CON_RSP] = offsetof(chz_con_rsp, sn_resume) + 1,
    [CHZ_STATUS_RSP] = offsetof(chz_status_rsp, has_mem_load) + 1,
    [CHZ_DET] = offsetof(chz_det, sign) + 4,
    [CHZ_DET_RSP] = sizeof(chz_det_rsp),
    [CHZ_ATT_PRP] = offsetof(chz_att_prp, long_blk_dist) + 1,
    [CHZ_DET_PRP] = sizeof(chz_det_prp),
    [CHZ_UL_DATA] = offsetof(chz_ul_data, dl_ack) + 1,
    [CHZ_DL_DATA_QUE] = offsetof(chz_dl_data_que, exp_only) + 1,
    [CHZ_DL_DATA_QUE_CMP] = 0,
};

static void dress_downlink(chz_message *m, uint8_t garbage)
{
    const chz_dl_data_que *d = &m->dl_data_que;
    for (int i = d->cnt_depend ? d->entries : 0; i < CHZ_COUNTERS; i++) memset(&m->dl.counter[i], garbage, sizeof *m->dl.counter);
    for (int i = d->entries; i < CHZ_ENTRIES; i++) m->dl.length[i] = garbage;
}

chz_message with_garbage(const chz_message *m, uint8_t garbage)
{
    const size_t fields = offsetof(chz_message, con);
    chz_message dressed;
    memset(&dressed, garbage, sizeof dressed);
    dressed.op_id = m->op_id;
    dressed.command = m->command;
    memcpy((uint8_t *)&dressed + fields, (const uint8_t *)m + fields, fields_len[m->command]);
    if (m->command == CHZ_DET || m->command == CHZ_UL_DATA) dressed.det.packet.reserved = garbage;
    memcpy(dressed.data, m->data, data_said(m));
    if (m->command == CHZ_DL_DATA_QUE) dress_downlink(&dressed, garbage);
    return dressed;
}
