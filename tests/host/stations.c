#include "stations.h"

#include <stdlib.h>
#include <string.h>

struct sim sims[STATIONS];
struct fate fate[METERS][COUNTERS];
uint32_t counters[METERS];
struct downlink downlinks[DOWNLINKS];
unsigned long discarded;

void wire_put(struct wire *w, const uint8_t *bytes, size_t len)
{
    if (w->len + len > WIRE) abort();
    memcpy(w->bytes + w->len, bytes, len);
    w->len += len;
}

void wire_drop(struct wire *w, size_t len)
{
    w->len -= len;
    memmove(w->bytes, w->bytes + len, w->len);
}

static void say(struct sim *s, chz_message m, bool damaged)
{
    uint8_t room[CHZ_ROOM];
    size_t len = chz_value(chz_message_write(&m, room, sizeof room));
    if (damaged) room[CHZ_FRAME_HEAD] = 0xC1;
    if (s->connected) wire_put(&s->up, room, len);
}

static void say_short(struct sim *s, uint8_t command, int64_t op_id)
{
    say(s, (chz_message){ .command = command, .op_id = op_id }, false);
}

void sim_break(struct sim *s)
{
    s->connected = false;
    s->up.len = s->down.len = 0;
}

void sim_connect(struct sim *s)
{
    chz_message m = { .command = CHZ_CON, .con = { .has_version = 1, .version_major = 1, .sn_bs_uuid = { 7 } } };
    m.con.bs_eui = (uint64_t)(s - sims) + 1;
    m.con.has_sn_bs_op_id = m.con.has_sn_sc_op_id = 1;
    m.con.sn_bs_op_id = s->answered;
    m.con.sn_sc_op_id = s->seen;
    sim_break(s);
    s->connected = true;
    s->open = false;
    s->sent = 0;
    say(s, m, false);
}

void sim_send(struct sim *s, bool damaged)
{
    if (!s->connected || !s->open || s->sent == s->len || s->sent == AT_ONCE) return;
    chz_message m = { .command = CHZ_PING, .op_id = s->queue[s->sent].id };
    unsigned meter = s->queue[s->sent].meter, counter = s->queue[s->sent++].counter;
    if (counter) m.command = CHZ_UL_DATA, m.ul_data = (chz_ul_data){ .packet = { .ep_eui = meter + 1, .packet_cnt = counter } };
    if (counter) m.ul_data.dl_open = counter % 2;
    if (damaged) fate[meter][counter].damaged = true;
    say(s, m, damaged);
}

static void take_rsp(struct sim *s, const chz_message *m)
{
    size_t i = 0;
    while (i < s->len && s->queue[i].id != m->op_id) i++;
    if (i == s->len) return; /* answered before */
    fate[s->queue[i].meter][s->queue[i].counter].answered++;
    memmove(s->queue + i, s->queue + i + 1, (--s->len - i) * sizeof *s->queue);
    if (i < s->sent) s->sent--;
    if (m->op_id > s->answered) s->answered = m->op_id;
    say_short(s, m->command == CHZ_PING_RSP ? CHZ_PING_CMP : CHZ_UL_DATA_CMP, m->op_id);
}

static void take_con_rsp(struct sim *s, bool resumed)
{
    if (!resumed && s->known) discarded += s->len + 1, s->len = 0;
    s->known = s->open = true;
    say_short(s, CHZ_CON_CMP, 0);
}

static void take_start(struct sim *s, const chz_message *m)
{
    bool fresh = m->op_id < s->seen;
    if (fresh) s->seen = m->op_id;
    if (fresh && m->command == CHZ_DL_DATA_QUE) downlinks[m->dl_data_que.que_id].taken++;
    say_short(s, m->command == CHZ_PING ? CHZ_PING_RSP : CHZ_DL_DATA_QUE_RSP, m->op_id);
}

void sim_listen(struct sim *s)
{
    chz_message m;
    uint64_t frame = chz_frame(s->down.bytes, s->down.len);
    if (chz_refused(frame)) return;
    if (chz_refused(chz_message_read(s->down.bytes + CHZ_FRAME_HEAD, chz_value(frame) - CHZ_FRAME_HEAD, &m))) abort();
    wire_drop(&s->down, chz_value(frame));
    if (m.command == CHZ_CON_RSP) take_con_rsp(s, m.con_rsp.sn_resume);
    if (m.command == CHZ_PING_RSP || m.command == CHZ_UL_DATA_RSP) take_rsp(s, &m);
    if (m.command == CHZ_PING || m.command == CHZ_DL_DATA_QUE) take_start(s, &m);
}

void sims_hear(unsigned meter, unsigned by, bool ping)
{
    uint32_t counter = ping || counters[meter] + 1 == COUNTERS ? 0 : ++counters[meter];
    for (struct sim *s = sims; s < sims + STATIONS; s++) {
        if (!(by >> (s - sims) & 1)) continue;
        if (s->len == QUEUE) abort();
        s->queue[s->len].id = ++s->next_id;
        s->queue[s->len].meter = meter;
        s->queue[s->len++].counter = counter;
    }
}
