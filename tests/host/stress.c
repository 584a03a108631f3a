/* A random walk through the example host: stress SEED. Connections break, messages arrive damaged, commits fail or seem to fail,
 * records can't be written, and the host is killed before and behind every commit, every record and every reply. In the end every
 * reading has its Rsp and is billed once. One that was overtaken (its meter is heard by several stations, or its message was damaged
 * and came again later) may instead be on the list of late packets. Every downlink that was queued waits still, was cancelled, or was
 * taken by its station, once. */
#include <setjmp.h>
#include <stdio.h>
#include <stdlib.h>
#include <string.h>

#include "stations.h"

enum { STEPS = 400000, MOST_ASKED = 64 };

/* The store. */
static struct row { uint64_t eui; uint32_t last; uint64_t heard; } rows[METERS];
static chz_session sessions[HOST_STATIONS];
static chz_queue queues[STATIONS];
static struct { chz_message m[MOST_ASKED]; size_t len; } asked[STATIONS]; /* in the order issued */

static unsigned long kills, losses, failures, records, unrecorded;
static jmp_buf killed;
static bool danger;
static uint64_t state;
static unsigned queued; /* downlinks, their IDs from 1 on */

static unsigned below(unsigned end)
{
    state = state * 6364136223846793005 + 1442695040888963407;
    return (unsigned)((state >> 33) % end);
}

static bool one_in(unsigned times)
{
    return danger && !below(times);
}

static void perhaps_die(void)
{
    if (one_in(150)) longjmp(killed, 1);
}

static struct fate *fate_of(const chz_message *reading)
{
    const chz_packet *p = &reading->ul_data.packet;
    return &fate[p->ep_eui - 1][p->packet_cnt];
}

static void drop_asked(unsigned number, size_t at)
{
    memmove(&asked[number].m[at], &asked[number].m[at + 1], (--asked[number].len - at) * sizeof(chz_message));
}

/* A downlink stands there once; an ID is the newest operation's, and an older downlink is kept without it. */
static void put_asked(unsigned number, const chz_message *m)
{
    for (size_t at = asked[number].len; at-- > 0;) {
        chz_message *old = &asked[number].m[at];
        bool downlink = old->command == CHZ_DL_DATA_QUE, same_id = old->op_id == m->op_id;
        bool same = downlink && m->command == old->command && m->dl_data_que.que_id == old->dl_data_que.que_id;
        if (same || (same_id && !downlink)) drop_asked(number, at);
        else if (same_id) old->op_id = 0;
    }
    if (asked[number].len == MOST_ASKED) abort();
    asked[number].m[asked[number].len++] = *m;
}

static void drop_answered(unsigned number, int64_t op_id)
{
    for (size_t at = asked[number].len; at-- > 0;)
        if (asked[number].m[at].op_id == op_id) drop_asked(number, at);
}

static void store_place(const struct change *c)
{
    const chz_message *m = &host_stations[c->number].queue.entry[c->place];
    struct downlink *d = &downlinks[m->dl_data_que.que_id];
    queues[c->number].entry[c->place] = *m;
    if (m->command == CHZ_DL_DATA_QUE) d->added = true;
    else if (c->list == HOST_NO_LIST) d->cancelled = true;
}

bool outside_store(const struct change *c)
{
    perhaps_die();
    bool fails = one_in(60), seems = one_in(100);
    failures += fails || seems;
    if (fails) return false;
    if (c->session) sessions[c->number] = *c->session;
    if (c->row != HOST_NO_ROW) rows[c->row] = (struct row){ host_meters.eui[c->row], host_meters.last[c->row], host_meters.heard[c->row] };
    if (c->place != HOST_NO_PLACE) store_place(c);
    if (c->list == HOST_BILLS) fate_of(c->message)->billed++;
    if (c->list == HOST_LATE) fate_of(c->message)->late++;
    if (c->list == HOST_ASKED) put_asked(c->number, c->message);
    if (c->list == HOST_ANSWERED) drop_answered(c->number, c->message->op_id);
    perhaps_die();
    return !seems;
}

void outside_load_session(unsigned number, chz_session *session)
{
    *session = sessions[number];
}

void outside_load_row(size_t row)
{
    host_meters.used[row] = 1;
    host_meters.eui[row] = rows[row].eui;
    host_meters.last[row] = rows[row].last;
    host_meters.heard[row] = rows[row].heard;
}

void outside_load_place(unsigned number, size_t place)
{
    if (number < STATIONS) host_stations[number].queue.entry[place] = queues[number].entry[place];
}

bool outside_load_asked(unsigned number, size_t *at, chz_message *m)
{
    if (number >= STATIONS || *at >= asked[number].len) return false;
    *m = asked[number].m[*at];
    return true;
}

void outside_uuid(uint8_t uuid[16])
{
    memset(uuid, (int)below(256), 16);
}

void outside_sign(const chz_message *det, uint8_t sign[4])
{
    memset(sign, (int)det->op_id, 4);
}

void outside_send(unsigned number, const uint8_t *bytes, size_t len)
{
    perhaps_die();
    wire_put(&sims[number].down, bytes, len);
    perhaps_die();
}

/* What the host sent before may still arrive: only the way up is cut. */
void outside_close(unsigned number)
{
    sims[number].connected = false;
    sims[number].up.len = 0;
}

/* The trace: as it would be read. A record that is not whole is the host's last until it starts again. */
static struct { bool begun, ended; uint64_t sum; } trace;

bool outside_begin_trace(const uint8_t *enrolments, size_t len)
{
    perhaps_die();
    memset(&trace, 0, sizeof trace);
    if (len != METERS * HOST_ENROLMENT || enrolments[7] != 1 || enrolments[len - 7] != METERS) abort();
    return !one_in(40);
}

bool outside_record(const uint8_t *bytes, size_t len)
{
    perhaps_die();
    uint64_t answer = trace.begun ? chz_recorded(&trace.sum, bytes, len) : chz_trace_open(bytes, len);
    size_t whole = trace.begun ? chz_recorded_len(answer) : chz_value(answer);
    if (chz_refused(answer) || whole != len || trace.ended) abort();
    trace.begun = true;
    trace.ended = one_in(400);
    records++;
    unrecorded += trace.ended;
    perhaps_die();
    return !trace.ended;
}

uint64_t outside_clock(void)
{
    static uint64_t now;
    return now += below(3);
}

static void hand_over(unsigned number)
{
    static uint8_t bytes[WIRE];
    struct wire *up = &sims[number].up;
    size_t piece = up->len ? 1 + below((unsigned)up->len) : 0;
    memcpy(bytes, up->bytes, piece);
    wire_drop(up, piece);
    host_bytes(number, bytes, piece);
}

static void lose(unsigned number)
{
    sim_break(&sims[number]);
    host_lost(number);
}

static void hear(unsigned meter)
{
    sims_hear(meter, meter < SHARED ? 1u << meter : 1 + below((1 << STATIONS) - 1), !below(8));
}

/* Most downlinks are for meters that are heard here. One that is cancelled was queued here or elsewhere, or is gone. */
static void ask(unsigned number)
{
    unsigned what = below(4), meter = below(2) ? number : SHARED + below(METERS - SHARED);
    if (!below(16)) meter = below(METERS);
    if (!what) host_begin(number, &(chz_message){ .command = CHZ_PING });
    else if (what < 3 && queued + 1 < DOWNLINKS) host_shut(number, meter + 1, ++queued);
    else host_cancel(number, queued - below(queued < 16 ? queued + 1 : 16));
}

static void one_step(unsigned number)
{
    struct sim *s = &sims[number];
    unsigned what = below(100);
    if (what < 33) sim_send(s, one_in(200));
    else if (what < 63) sim_listen(s);
    else if (what < 93) hand_over(number);
    else if (what < 96 && !s->connected && !s->down.len) sim_connect(s);
    else if (what < 98 && danger) hear(below(METERS));
    else if (what < 99 && danger) ask(number);
    else if (one_in(4)) losses++, lose(number);
}

static bool waits(unsigned id)
{
    for (unsigned i = 0; i < STATIONS * CHZ_QUEUE; i++) {
        const chz_message *m = &queues[i / CHZ_QUEUE].entry[i % CHZ_QUEUE];
        if (m->command == CHZ_DL_DATA_QUE && m->dl_data_que.que_id == id) return true;
    }
    return false;
}

static unsigned long judge_downlinks(void)
{
    unsigned long wrong = 0, taken = 0, cancelled = 0, waiting = 0;
    for (unsigned id = 0; id <= queued; id++) {
        const struct downlink *d = &downlinks[id];
        unsigned fates = waits(id) + d->cancelled + d->taken;
        wrong += fates != d->added;
        taken += d->taken;
        cancelled += d->cancelled;
        waiting += waits(id);
    }
    for (unsigned i = 0; i < STATIONS; i++) wrong += asked[i].len;
    fprintf(stderr, "%lu downlinks taken, %lu cancelled, %lu wait; ", taken, cancelled, waiting);
    return wrong + !taken + !cancelled;
}

static int judge(void)
{
    unsigned long wrong = judge_downlinks(), only_late = 0, readings = 0;
    for (unsigned i = 0; i < METERS * COUNTERS; i++) {
        unsigned meter = i / COUNTERS, counter = i % COUNTERS;
        const struct fate *f = &fate[meter][counter];
        bool late = !f->billed && f->late && (meter >= SHARED || f->damaged);
        if (!counter || counter > counters[meter]) continue;
        readings++;
        only_late += late;
        wrong += !f->answered || (f->billed != 1 && !late);
    }
    for (int i = 0; i < STATIONS; i++) wrong += sims[i].len;
    for (int i = 0; i < STATIONS * 16; i++) wrong += sessions[i / 16].centre_id[i % 16] != 0;
    fprintf(stderr, "%lu readings, %lu of them late and not billed; %lu kills, %lu lost connections, %lu failed commits: ", readings,
        only_late, kills, losses, failures);
    fprintf(stderr, "%lu wrong, %lu discarded; %lu records, %lu not written\n", wrong, discarded, records, unrecorded);
    return wrong || discarded || !kills || !losses || !failures || !records || !unrecorded;
}

int main(int count, char **words)
{
    static volatile unsigned long step;
    state = count > 1 ? strtoull(words[1], NULL, 10) : 1;
    for (unsigned i = 0; i < METERS; i++) rows[i].eui = i + 1;
    if (setjmp(killed)) kills++;
    for (unsigned i = 0; i < STATIONS; i++) sim_break(&sims[i]);
    host_start();
    for (; step < STEPS; step++) {
        bool quiet = step >= STEPS / 4 * 3; /* nothing more is heard or goes wrong; what is open must come to its end */
        for (unsigned i = 0; quiet && danger && i < STATIONS; i++) lose(i);
        danger = !quiet;
        one_step(below(STATIONS));
    }
    return judge();
}
