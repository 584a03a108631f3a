/* Plays a written conversation to the host's loop and prints what it did, what it sent, and what its store holds at last.
 *   player FILE [PIECE [DAY]]     PIECE: hands a line's bytes over so many at a time, and prints the same
 *                                 DAY: keeps what the host records in DAY-1.trace and DAY-1.enrolments, after a restart in DAY-2..,
 *                                 and in DAY-1.credited the readings that were credited meanwhile, as the program replay prints them
 * One event a line: 'STATION bytes HEX', 'STATION lost', 'STATION begin ping|status', 'STATION begin detPrp EUI',
 * 'STATION shut EUI QUEUE_ID', 'STATION cancel QUEUE_ID', 'STATION damage': what is stored of its queue is spoilt;
 * 'meter EUI SHORT_ADDRESS LAST_BILLED' enrols a meter, 'withdraw EUI' withdraws it; 'fail N': the Nth commit from here fails;
 * 'full': no more records can be written; 'restart': the host ends and starts again with nothing but its store. '#' starts a remark. */
#include <inttypes.h>
#include <stdio.h>
#include <stdlib.h>
#include <string.h>

#include "host.h"

enum { LONGEST_LINE = 16384, LONGEST_LIST = 256 };
static size_t piece = LONGEST_LINE;

/* A real host has a database: these are its tables, and a change is one transaction. */
static struct row { uint8_t used; uint64_t eui; uint16_t sh_addr; uint32_t last; uint64_t heard; } stored_rows[HOST_METERS];
static chz_session stored_sessions[HOST_STATIONS];
static chz_queue stored_queues[HOST_STATIONS];
static struct { enum host_list list; unsigned number; chz_message message; } stored_list[LONGEST_LIST]; /* HOST_NO_LIST: deleted */
static size_t stored_count;
static unsigned fails_in; /* so many commits; 0: none fails */

/* What is kept of a day: files of the host's own, beside the database. */
static const char *day; /* NULL: nothing is kept */
static FILE *enrolments_file, *trace_file, *credited_file;
static bool disk_full;
static uint64_t events; /* so far; a real host has a clock, and here each event comes a second behind the one before */

static void stop(const char *why, const char *line)
{
    fprintf(stderr, "player: %s: %s\n", why, line);
    exit(2);
}

static void put(const struct change *c)
{
    const chz_packet *p = &c->message->ul_data.packet;
    if (stored_count == LONGEST_LIST) stop("too much to store", "make the list longer");
    if (c->list == HOST_BILLS && credited_file) fprintf(credited_file, "%u %" PRIu64 " %" PRIu32 "\n", c->number, p->ep_eui, p->packet_cnt);
    stored_list[stored_count].list = c->list;
    stored_list[stored_count].number = c->number;
    stored_list[stored_count++].message = *c->message;
}

static bool is_asked(size_t at, unsigned number)
{
    return stored_list[at].list == HOST_ASKED && stored_list[at].number == number;
}

/* A downlink stands there once, by its queue ID. An operation ID is one operation's: another that still has it is of a session that is
 * gone; a downlink loses it and is kept, all else is not worth keeping. */
static void put_asked(const struct change *c)
{
    for (size_t at = 0; at < stored_count; at++) {
        chz_message *m = &stored_list[at].message;
        bool downlink = m->command == CHZ_DL_DATA_QUE, same_id = m->op_id == c->message->op_id;
        bool same = downlink && m->command == c->message->command && m->dl_data_que.que_id == c->message->dl_data_que.que_id;
        if (!is_asked(at, c->number)) continue;
        if (same || (same_id && !downlink)) stored_list[at].list = HOST_NO_LIST;
        else if (same_id) m->op_id = 0;
    }
    put(c);
}

static void drop_answered(unsigned number, int64_t op_id)
{
    for (size_t at = 0; at < stored_count; at++)
        if (is_asked(at, number) && stored_list[at].message.op_id == op_id) stored_list[at].list = HOST_NO_LIST;
}

bool outside_store(const struct change *c)
{
    const chz_table *t = &host_meters;
    if (fails_in && !--fails_in) return false;
    if (c->session) stored_sessions[c->number] = *c->session;
    if (c->row != HOST_NO_ROW)
        stored_rows[c->row] = (struct row){ t->used[c->row], t->eui[c->row], t->sh_addr[c->row], t->last[c->row], t->heard[c->row] };
    if (c->place != HOST_NO_PLACE) stored_queues[c->number].entry[c->place] = host_stations[c->number].queue.entry[c->place];
    if (c->list == HOST_ASKED) put_asked(c);
    else if (c->list == HOST_ANSWERED) drop_answered(c->number, c->message->op_id);
    else if (c->list != HOST_NO_LIST) put(c);
    return true;
}

void outside_load_session(unsigned number, chz_session *session)
{
    *session = stored_sessions[number];
}

void outside_load_row(size_t row)
{
    const struct row *r = &stored_rows[row];
    host_meters.used[row] = r->used;
    host_meters.eui[row] = r->eui;
    host_meters.sh_addr[row] = r->sh_addr;
    host_meters.last[row] = r->last;
    host_meters.heard[row] = r->heard;
}

void outside_load_place(unsigned number, size_t place)
{
    host_stations[number].queue.entry[place] = stored_queues[number].entry[place];
}

bool outside_load_asked(unsigned number, size_t *at, chz_message *message)
{
    while (*at < stored_count && !is_asked(*at, number)) ++*at;
    if (*at == stored_count) return false;
    *message = stored_list[*at].message;
    return true;
}

/* A recording must print the same each time, so the fresh bytes are counted: a real host calls getrandom. */
void outside_uuid(uint8_t uuid[16])
{
    static uint8_t count;
    memset(uuid, ++count, 16);
}

/* A real host computes these from the meter's key (source document 004) or asks its key store. */
void outside_sign(const chz_message *det, uint8_t sign[4])
{
    for (int i = 0; i < 4; i++) sign[i] = (uint8_t)(det->det.packet.ep_eui >> 8 * i);
}

static void print_hex(const uint8_t *bytes, size_t len)
{
    for (size_t i = 0; i < len; i++) printf("%02X", bytes[i]);
    printf("\n");
}

void outside_send(unsigned number, const uint8_t *bytes, size_t len)
{
    printf("%u: sends ", number);
    print_hex(bytes, len);
}

void outside_close(unsigned number)
{
    printf("%u: closes\n", number);
}

static void reopen(FILE **file, unsigned count, const char *ending)
{
    char name[256];
    if (*file) fclose(*file);
    snprintf(name, sizeof name, "%s-%u.%s", day, count, ending);
    *file = fopen(name, "wb");
    if (!*file) stop("can't write", name);
}

bool outside_begin_trace(const uint8_t *enrolments, size_t len)
{
    static unsigned count;
    if (!day) return true;
    count++;
    reopen(&enrolments_file, count, "enrolments");
    reopen(&trace_file, count, "trace");
    reopen(&credited_file, count, "credited");
    return fwrite(enrolments, 1, len, enrolments_file) == len && !fflush(enrolments_file);
}

/* A disk that is full takes a part of a record. A real host writes without a buffer of its own, so that a crash leaves all records. */
bool outside_record(const uint8_t *bytes, size_t len)
{
    size_t taken = disk_full ? len / 2 : len;
    if (day && (fwrite(bytes, 1, taken, trace_file) != taken || fflush(trace_file))) return false;
    return taken == len;
}

uint64_t outside_clock(void)
{
    return events * UINT64_C(1000000000);
}

static void play_bytes(unsigned number, const char *hex)
{
    static uint8_t bytes[LONGEST_LINE / 2];
    size_t len = 0;
    unsigned byte;
    int used;
    while (sscanf(hex, "%2x%n", &byte, &used) == 1) {
        bytes[len++] = (uint8_t)byte;
        hex += used;
    }
    bool connected = true;
    for (size_t at = 0; connected && at < len; at += piece) connected = host_bytes(number, bytes + at, len - at < piece ? len - at : piece);
}

static void begin_plain(unsigned number, uint8_t command)
{
    chz_message m = { .command = command };
    host_begin(number, &m);
}

static void begin_detach(unsigned number, uint64_t meter)
{
    chz_message m = { .command = CHZ_DET_PRP, .det_prp.ep_eui = meter };
    host_begin(number, &m);
}

static void play_begin(unsigned number, const char *what)
{
    uint64_t meter;
    if (!strncmp(what, "ping", 4)) begin_plain(number, CHZ_PING);
    else if (!strncmp(what, "status", 6)) begin_plain(number, CHZ_STATUS);
    else if (sscanf(what, "detPrp %" SCNx64, &meter) == 1) begin_detach(number, meter);
    else stop("can't begin", what);
}

static void play_station(const char *line)
{
    unsigned number;
    uint64_t meter, que_id;
    int used = 0;
    char event[8];
    if (sscanf(line, "%u %7s %n", &number, event, &used) != 2 || number >= HOST_STATIONS) stop("no event", line);
    if (!strcmp(event, "bytes")) play_bytes(number, line + used);
    else if (!strcmp(event, "lost")) host_lost(number);
    else if (!strcmp(event, "begin")) play_begin(number, line + used);
    else if (!strcmp(event, "damage")) stored_queues[number].entry[0].command = CHZ_DL_DATA_QUE; /* used, and no entries */
    else if (sscanf(line + used, "%" SCNx64 " %" SCNu64, &meter, &que_id) == 2 && !strcmp(event, "shut")) host_shut(number, meter, que_id);
    else if (sscanf(line + used, "%" SCNu64, &que_id) == 1 && !strcmp(event, "cancel")) host_cancel(number, que_id);
    else stop("no event", line);
}

static void play(const char *line)
{
    unsigned sh_addr;
    uint64_t meter;
    uint32_t last_billed;
    if (*line == '#' || *line == '\n') return;
    events++;
    if (!strcmp(line, "restart\n")) printf("restarts\n"), disk_full = false, host_start();
    else if (!strcmp(line, "full\n")) disk_full = true;
    else if (sscanf(line, "fail %u", &fails_in) == 1) return;
    else if (sscanf(line, "withdraw %" SCNx64, &meter) == 1) host_withdraw(meter);
    else if (sscanf(line, "meter %" SCNx64 " %x %" SCNu32, &meter, &sh_addr, &last_billed) == 3)
        host_enrol(meter, (uint16_t)sh_addr, last_billed);
    else play_station(line);
}

/* What has no answer; and what was credited, or not. */
static void print_lists(void)
{
    static const char *const names[] = { [HOST_BILLS] = "bill", [HOST_LATE] = "late", [HOST_STRANGERS] = "stranger" };
    for (size_t i = 0; i < stored_count; i++) {
        const chz_message *m = &stored_list[i].message;
        const chz_packet *p = &m->ul_data.packet;
        enum host_list list = stored_list[i].list;
        unsigned number = stored_list[i].number;
        if (list == HOST_ASKED) printf("asked: %s %" PRId64 " of station %u\n", chz_command_name(m->command), m->op_id, number);
        if (list == HOST_ASKED || list == HOST_NO_LIST) continue;
        printf("%s: meter %016" PRIX64 " counter %" PRIu32 " from station %u at %" PRIu64 ", data ", names[list], p->ep_eui, p->packet_cnt,
               number, p->rx_time);
        print_hex(m->data, m->ul_data.user_len);
    }
}

static void print_queues(void)
{
    for (unsigned i = 0; i < HOST_STATIONS * CHZ_QUEUE; i++) {
        const chz_message *m = &stored_queues[i / CHZ_QUEUE].entry[i % CHZ_QUEUE];
        const chz_dl_data_que *d = &m->dl_data_que;
        if (m->command != CHZ_DL_DATA_QUE) continue;
        printf("waits: downlink %" PRIu64 " for meter %016" PRIX64 " at station %u\n", d->que_id, d->ep_eui, i / CHZ_QUEUE);
    }
}

int main(int count, char **arguments)
{
    static char line[LONGEST_LINE];
    FILE *file = count >= 2 ? fopen(arguments[1], "r") : NULL;
    if (!file) stop("can't read", count >= 2 ? arguments[1] : "name a file");
    if (count >= 3) piece = strtoul(arguments[2], NULL, 10);
    if (!piece) stop("not a size", arguments[2]);
    if (count >= 4) day = arguments[3];
    host_start();
    while (fgets(line, sizeof line, file)) play(line);
    fclose(file);
    print_lists();
    print_queues();
    return 0;
}
