/* The loop that a host writes around the library: bytes in, frames, which are recorded, messages, session steps, credited readings,
 * downlinks; all that changed is stored; then replies out. */
#include <inttypes.h>
#include <stdio.h>
#include <string.h>

#include "host.h"

struct station host_stations[HOST_STATIONS];
static uint8_t meter_used[HOST_METERS];
static uint64_t meter_eui[HOST_METERS], meter_heard[HOST_METERS];
static uint16_t meter_sh_addr[HOST_METERS];
static uint32_t meter_last[HOST_METERS];
chz_table host_meters = { meter_used, meter_eui, meter_sh_addr, meter_last, meter_heard, HOST_METERS };

static const uint64_t centre_eui = 0x70B3D5FFFE000001;

/* The trace of what arrived since the host started. */
static struct {
    enum { NOT_BEGUN, RECORDING, ENDED } state;
    uint64_t sum;  /* of all gaps so far */
    uint64_t last; /* the clock at the last record */
} trace;

/* The operations that a station starts, with what answers and what completes them. */
static const struct operation { uint8_t start, rsp, cmp; } operations[] = {
    { CHZ_PING, CHZ_PING_RSP, CHZ_PING_CMP },
    { CHZ_DET, CHZ_DET_RSP, CHZ_DET_CMP },
    { CHZ_UL_DATA, CHZ_UL_DATA_RSP, CHZ_UL_DATA_CMP },
};

static const struct operation *operation_of(uint8_t start)
{
    for (size_t i = 0; i < sizeof operations / sizeof *operations; i++)
        if (operations[i].start == start) return &operations[i];
    return NULL;
}

/* A queue comes from the store as the calls left it, or the store is damaged: this is the one time to ask. */
static void load_queue(unsigned number)
{
    chz_queue *queue = &host_stations[number].queue;
    for (size_t place = 0; place < CHZ_QUEUE; place++) outside_load_place(number, place);
    if (chz_queue_sound(queue)) return;
    printf("%u: ALARM, this is no queue; it starts empty\n", number);
    memset(queue, 0, sizeof *queue);
    for (size_t place = 0; place < CHZ_QUEUE; place++) outside_store(&(struct change){ .number = number, .row = HOST_NO_ROW, .place = place });
}

/* A session that was stored open says so; but its connection ended with the program, so it must wait, or its con is refused. */
void host_start(void)
{
    memset(host_stations, 0, sizeof host_stations);
    memset(&trace, 0, sizeof trace);
    for (size_t row = 0; row < HOST_METERS; row++) outside_load_row(row);
    for (unsigned number = 0; number < HOST_STATIONS; number++) {
        outside_load_session(number, &host_stations[number].session);
        chz_session_lost(&host_stations[number].session);
        load_queue(number);
    }
}

static void store_row(uint64_t meter, const char *what, uint64_t answer)
{
    const char *why = chz_refusal_name(chz_refused(answer));
    if (!chz_refused(answer)) {
        size_t row = chz_value(answer);
        if (outside_store(&(struct change){ .row = row, .place = HOST_NO_PLACE })) return;
        outside_load_row(row);
        why = "not stored";
    }
    printf("meter %016" PRIX64 " not %s: %s\n", meter, what, why);
}

void host_enrol(uint64_t meter, uint16_t sh_addr, uint32_t last_billed)
{
    store_row(meter, "enrolled", chz_table_enrol(&host_meters, meter, sh_addr, last_billed));
}

void host_withdraw(uint64_t meter)
{
    store_row(meter, "withdrawn", chz_table_withdraw(&host_meters, meter));
}

/* chz_add and chz_cancel name the place that they changed. */
static void store_place(unsigned number, uint64_t que_id, const char *what, uint64_t answer)
{
    const char *why = chz_refusal_name(chz_refused(answer));
    if (!chz_refused(answer)) {
        size_t place = chz_value(answer);
        if (outside_store(&(struct change){ .number = number, .row = HOST_NO_ROW, .place = place })) {
            printf("%u: downlink %" PRIu64 " %s\n", number, que_id, what);
            return;
        }
        outside_load_place(number, place);
        why = "not stored";
    }
    printf("%u: downlink %" PRIu64 " not %s: %s\n", number, que_id, what, why);
}

/* "Shut this valve": the command waits until the meter opens a window at this station. */
void host_shut(unsigned number, uint64_t meter, uint64_t que_id)
{
    static const uint8_t shut[] = { 0x56, 0x00 }; /* what a valve understands, its maker says */
    chz_message m;
    chz_valve(&m, meter, que_id, shut, sizeof shut);
    store_place(number, que_id, "queued", chz_queue_add(&host_stations[number].queue, &m));
}

void host_cancel(unsigned number, uint64_t que_id)
{
    store_place(number, que_id, "cancelled", chz_queue_cancel(&host_stations[number].queue, que_id));
}

/* The session stays: the station may come back and resume it. Bytes of a frame that was never whole are worth nothing. */
void host_lost(unsigned number)
{
    struct station *s = &host_stations[number];
    s->input_len = 0;
    s->resumed = s->unsettled = false;
    uint64_t answer = chz_session_lost(&s->session);
    const char *step = chz_refused(answer) ? "ALARM, this is no session" : chz_step_name(chz_happened(answer));
    printf("%u: connection lost, %s\n", number, step);
}

static void close_connection(unsigned number)
{
    outside_close(number);
    host_lost(number);
}

/* Only what is new is billed; what can't be credited goes to a list that a clerk looks at. False: refused by the host's own
 * fault, so nothing may be acknowledged. */
static bool credit(unsigned number, const chz_message *m, struct change *change)
{
    const chz_packet *p = &m->ul_data.packet;
    uint64_t answer = chz_table_uplink(&host_meters, p->ep_eui, p->packet_cnt, number);
    printf("%u: meter %016" PRIX64 " counter %" PRIu32 " ", number, p->ep_eui, p->packet_cnt);
    change->message = m;
    switch (chz_refused(answer)) {
    case CHZ_DONE:
        change->row = chz_uplink_row(answer);
        if (chz_happened(answer) == CHZ_NEW) change->list = HOST_BILLS;
        printf("%s, stations so far %u\n", chz_step_name(chz_happened(answer)), chz_uplink_hearers(answer));
        return true;
    case CHZ_NO_ROW: change->list = HOST_STRANGERS; break;
    case CHZ_STALE: change->list = HOST_LATE; break;
    default: printf("ALARM, "); break;
    }
    printf("not billed: %s\n", chz_refusal_name(chz_refused(answer)));
    return change->list != HOST_NO_LIST;
}

/* The station counts an operation as complete when it has sent the Cmp. One that was lost with its connection never comes
 * again, so its place would be taken for good. Once the station sends something new, it has sent again all that it had: what
 * was open at the resume and didn't come again is completed here. */
static void complete_left_over(unsigned number)
{
    static const uint8_t uuid[16], sign[4]; /* a Cmp needs neither, nor a room: it has no reply */
    struct station *s = &host_stations[number];
    s->unsettled = false;
    for (int i = 0; i < 16; i++) {
        const struct operation *o = operation_of(s->session.station_kind[i]);
        if (!o || s->again >> i & 1) continue;
        chz_message cmp = { .command = o->cmp, .op_id = s->session.station_id[i] };
        chz_session_arrive(&s->session, &cmp, centre_eui, uuid, sign, NULL, 0);
        printf("%u: %s %" PRId64 " was lost\n", number, chz_command_name(cmp.command), cmp.op_id);
    }
}

/* After a resume the station sends again what it has no Rsp for. Its ID is known (18), so it is answered from here. */
static uint64_t answer_again(struct station *s, const chz_message *m, uint8_t rsp, const uint8_t sign[4], uint8_t *room)
{
    chz_message reply = { .command = rsp, .op_id = m->op_id };
    if (rsp == CHZ_DET_RSP) memcpy(reply.det_rsp.sign, sign, 4);
    for (int i = 0; i < 16; i++)
        if (s->session.station_id[i] == m->op_id && s->session.station_kind[i] == m->command) s->again |= (uint16_t)(1 << i);
    return chz_message_write(&reply, room, CHZ_ROOM);
}

/* The session's step; its reply stands in the room. Nothing of it is stored yet. */
static uint64_t take_step(unsigned number, const chz_message *m, uint8_t *room)
{
    struct station *s = &host_stations[number];
    const struct operation *o = operation_of(m->command);
    uint8_t uuid[16] = { 0 }, sign[4] = { 0 };
    if (m->command == CHZ_CON) outside_uuid(uuid);
    if (m->command == CHZ_DET) outside_sign(m, sign);
    if (o && s->unsettled && m->op_id > s->session.highest) complete_left_over(number);
    uint64_t answer = chz_session_arrive(&s->session, m, centre_eui, uuid, sign, room, CHZ_ROOM);
    bool known = chz_refused(answer) == CHZ_ID_OUT_OF_ORDER && m->op_id > 0;
    if (o && s->resumed && known) return answer_again(s, m, o->rsp, sign, room);
    if (m->command == CHZ_CON) s->resumed = chz_happened(answer) == CHZ_RESUMED;
    if (chz_happened(answer) == CHZ_OPENED) s->unsettled = s->resumed, s->again = 0;
    return answer;
}

/* A message that can't be read costs only itself: its frame was whole, so the next one is found. */
static void read_refused(unsigned number, uint64_t answer)
{
    printf("%u: message refused %u, %s", number, chz_refused(answer), chz_refusal_name(chz_refused(answer)));
    if (chz_refused(answer) <= CHZ_LEFT_OVER) printf(" at byte %" PRIu64, chz_value(answer));
    printf("\n");
}

/* A Rsp or Cmp of nothing (17) and an ID out of order (18) cost this one message. Else a con or start stays without its answer:
 * the station sends it again after a resume and not before, so the connection is closed. 15 and 20 are the host's own fault. */
static bool step_refused(unsigned number, const chz_message *m, unsigned refusal)
{
    bool waits = m->command == CHZ_CON || operation_of(m->command);
    printf("%u: %s %" PRId64, number, chz_command_name(m->command), m->op_id);
    printf(" refused %u, %s\n", refusal, chz_refusal_name(refusal));
    if (refusal == CHZ_ID_OUT_OF_ORDER || (refusal == CHZ_STATE && !waits)) return true;
    close_connection(number);
    return false;
}

/* What isn't stored hasn't happened. A commit that seems to have failed may have happened, so all that it spoke of is read back. The
 * station has no reply, so it comes back, resumes and sends again. */
static void take_back(unsigned number, size_t row, size_t place)
{
    outside_load_session(number, &host_stations[number].session);
    if (row != HOST_NO_ROW) outside_load_row(row);
    if (place != HOST_NO_PLACE) outside_load_place(number, place);
    close_connection(number);
}

/* The centre starts an operation; the library chooses its ID, and the ID is stored before the station sees it. place: where a downlink
 * was chosen, which is in the same transaction. */
static bool begin(unsigned number, const chz_message *message, size_t place)
{
    struct station *s = &host_stations[number];
    const char *name = chz_command_name(message->command);
    uint8_t room[CHZ_ROOM];
    uint64_t answer = chz_session_begin(&s->session, message, room, sizeof room);
    if (chz_refused(answer)) {
        printf("%u: %s not started, refused %u, %s\n", number, name, chz_refused(answer), chz_refusal_name(chz_refused(answer)));
        if (place != HOST_NO_PLACE) outside_load_place(number, place); /* it waits again */
        return false;
    }
    chz_message asked = *message;
    asked.op_id = s->session.lowest;
    if (!outside_store(&(struct change){ number, &s->session, HOST_NO_ROW, place, HOST_ASKED, &asked })) {
        printf("%u: %s not started, not stored\n", number, name);
        take_back(number, HOST_NO_ROW, place);
        return false;
    }
    printf("%u: %s %" PRId64 " %s\n", number, name, asked.op_id, chz_step_name(chz_happened(answer)));
    outside_send(number, room, chz_value(answer));
    return true;
}

void host_begin(unsigned number, const chz_message *message)
{
    begin(number, message, HOST_NO_PLACE);
}

/* What a reading says of downlinks: whether the meter heard the last one, and whether it listens now. Then what waits for it is chosen
 * and started. A downlink is either in the queue or among what was asked: it goes from one to the other in one transaction. */
static void take_window(unsigned number, const chz_message *m)
{
    const chz_packet *p = &m->ul_data.packet;
    chz_message downlink;
    chz_chosen chosen;
    if (m->ul_data.dl_ack) printf("%u: meter %016" PRIX64 " heard its downlink\n", number, p->ep_eui);
    if (!m->ul_data.dl_open) return;
    chz_queue *queue = &host_stations[number].queue;
    uint64_t answer = chz_queue_choose(queue, p->ep_eui, p->packet_cnt, m->ul_data.response_exp, &chosen);
    if (chz_refused(answer)) return; /* 30: nothing waits for this meter */
    chz_chosen_message(&chosen, p->packet_cnt, &downlink);
    printf("%u: downlink %" PRIu64 " chosen\n", number, downlink.dl_data_que.que_id);
    begin(number, &downlink, chz_chosen_place(answer));
}

static bool is_open(const chz_session *session, const chz_message *asked)
{
    for (int i = 0; asked->op_id && i < 16; i++)
        if (session->centre_id[i] == asked->op_id && session->centre_kind[i] == asked->command) return true;
    return false;
}

/* After a resume the centre, too, sends again what has no answer: all that is open, under the ID that it had. */
static void send_again(unsigned number)
{
    uint8_t room[CHZ_ROOM];
    chz_message m;
    for (size_t at = 0; outside_load_asked(number, &at, &m); at++) {
        if (!is_open(&host_stations[number].session, &m)) continue;
        uint64_t answer = chz_message_write(&m, room, sizeof room);
        printf("%u: %s %" PRId64 " again\n", number, chz_command_name(m.command), m.op_id);
        if (!chz_refused(answer)) outside_send(number, room, chz_value(answer));
    }
}

/* A downlink without an answer that is not open was asked in a session that is gone. */
static bool find_left(unsigned number, chz_message *m)
{
    for (size_t at = 0; outside_load_asked(number, &at, m); at++)
        if (m->command == CHZ_DL_DATA_QUE && !is_open(&host_stations[number].session, m)) return true;
    return false;
}

/* It is started again, under a new ID: when the new session opens, or as soon as an answer makes a place free for it. */
static void start_left(unsigned number)
{
    chz_message m;
    while (find_left(number, &m) && begin(number, &m, HOST_NO_PLACE)) continue;
}

/* One message. False: the connection is closed. With threads, the station's lock is held all the way, the table's from before
 * credit until the change is stored or taken back. */
static bool take_message(unsigned number, const uint8_t *payload, size_t len)
{
    struct station *s = &host_stations[number];
    const chz_session before = s->session;
    struct change change = { number, &s->session, HOST_NO_ROW, HOST_NO_PLACE, HOST_NO_LIST, NULL };
    chz_message m;
    uint8_t room[CHZ_ROOM];
    uint64_t answer = chz_message_read(payload, len, &m);
    if (chz_refused(answer)) {
        read_refused(number, answer);
        return true;
    }
    answer = take_step(number, &m, room);
    if (chz_refused(answer)) {
        s->session = before;
        return step_refused(number, &m, chz_refused(answer));
    }
    const char *step = chz_happened(answer) ? chz_step_name(chz_happened(answer)) : "again";
    printf("%u: %s %" PRId64 " %s\n", number, chz_command_name(m.command), m.op_id, step);
    bool good = m.command != CHZ_UL_DATA || credit(number, &m, &change);
    if (chz_happened(answer) == CHZ_ANSWERED) change.list = HOST_ANSWERED, change.message = &m;
    if (!good || !outside_store(&change)) {
        printf("%u: not stored, not answered\n", number);
        take_back(number, change.row, HOST_NO_PLACE);
        return false;
    }
    /* Only now: behind the reply the station may forget the packet. */
    if (chz_value(answer)) outside_send(number, room, chz_value(answer));
    if (chz_happened(answer) == CHZ_OPENED) send_again(number);
    if (chz_happened(answer) == CHZ_OPENED || chz_happened(answer) == CHZ_ANSWERED) start_left(number);
    if (chz_happened(answer) == CHZ_STARTED && m.command == CHZ_UL_DATA) take_window(number, &m);
    return s->session.state != CHZ_WAITING; /* it waits if one of the last two had to close */
}

static size_t put_big(uint8_t *at, uint64_t number, size_t len)
{
    for (size_t i = len; i-- > 0; number >>= 8) at[i] = (uint8_t)number;
    return len;
}

/* The meters that a replay starts with: EUI, short address and last counter credited, big endian. */
static size_t list_enrolments(uint8_t *into)
{
    const chz_table *t = &host_meters;
    size_t len = 0;
    for (size_t row = 0; row < t->rows; row++) {
        if (!t->used[row]) continue;
        len += put_big(into + len, t->eui[row], 8);
        len += put_big(into + len, t->sh_addr[row], 2);
        len += put_big(into + len, t->last[row], 4);
    }
    return len;
}

/* With the first frame since the host started: no station has connected yet, and the meters are enrolled. */
static bool begin_trace(void)
{
    uint8_t enrolments[HOST_METERS * HOST_ENROLMENT], room[1];
    uint64_t answer = chz_trace_start(room, sizeof room);
    trace.last = outside_clock();
    return outside_begin_trace(enrolments, list_enrolments(enrolments)) && outside_record(room, chz_value(answer));
}

static bool add_record(unsigned number, const uint8_t *frame, size_t len)
{
    uint8_t room[CHZ_RECORD];
    uint64_t now = outside_clock();
    uint64_t answer = chz_record(&trace.sum, now - trace.last, number, frame, len, room, sizeof room);
    trace.last = now;
    return !chz_refused(answer) && outside_record(room, chz_value(answer));
}

/* A whole frame, before it is read: one that is refused has arrived, too. If it can't be written, the trace ends here, since with a gap
 * it would tell of another day; the frame itself is taken like any other. */
static void record(unsigned number, const uint8_t *frame, size_t len)
{
    if (trace.state == ENDED) return;
    bool begun = trace.state == RECORDING || begin_trace();
    trace.state = begun && add_record(number, frame, len) ? RECORDING : ENDED;
    if (trace.state == ENDED) printf("%u: not recorded, the trace ends here\n", number);
}

/* All whole frames of the input; the rest moves to its start. False: the connection is closed. */
static bool take_frames(unsigned number)
{
    struct station *s = &host_stations[number];
    size_t at = 0;
    uint64_t answer = chz_frame(s->input, s->input_len);
    while (!chz_refused(answer)) {
        size_t size = chz_value(answer);
        record(number, s->input + at, size);
        if (!take_message(number, s->input + at + CHZ_FRAME_HEAD, size - CHZ_FRAME_HEAD)) return false;
        at += size;
        answer = chz_frame(s->input + at, s->input_len - at);
    }
    /* Behind a bad frame nobody knows where the next one starts. */
    if (chz_refused(answer) != CHZ_FRAME_INCOMPLETE) {
        printf("%u: frame refused %u, %s\n", number, chz_refused(answer), chz_refusal_name(chz_refused(answer)));
        close_connection(number);
        return false;
    }
    s->input_len -= at;
    memmove(s->input, s->input + at, s->input_len);
    return true;
}

/* Bytes as the connection gives them, cut anywhere. False: the connection is closed, and the bytes left are worth nothing. */
bool host_bytes(unsigned number, const uint8_t *bytes, size_t len)
{
    struct station *s = &host_stations[number];
    bool connected = true;
    while (connected && len > 0) {
        size_t space = sizeof s->input - s->input_len;
        size_t piece = len < space ? len : space;
        memcpy(s->input + s->input_len, bytes, piece);
        s->input_len += piece;
        bytes += piece;
        len -= piece;
        connected = take_frames(number);
    }
    return connected;
}
