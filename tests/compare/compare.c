/* Makes the library's calls on the cases that come from standard input (stream.rs says how they are written) and compares the
 * answer and every lent byte with what the reference expects. Each call is made twice: in the floating point mode that a program
 * starts with, and with subnormal numbers taken for zero and numbers rounded downward. Each buffer ends at a page that must not be
 * touched and has marked bytes before it; the second time an empty one is NULL. On a queue that no calls made, a call must only
 * end and stay in range. With a case's number as argument it also prints what that case hands over.
 * The last line is 'N passed, M failed'. */
#define _GNU_SOURCE
#include <setjmp.h>
#include <signal.h>
#include <stdarg.h>
#include <stdio.h>
#include <stdlib.h>
#include <string.h>
#include <sys/mman.h>
#include <sys/time.h>
#include <xmmintrin.h>

#include "chozukpima.h"

enum { MOST_ARGUMENTS = 9, SPACE = 1 << 16, BEFORE = 256, PAGE = 1 << 16, SHOWN = 20, PATIENCE = 5 };
/* MXCSR as a program starts with it, and with "denormals are zero", "flush to zero" and rounding downward. */
static const unsigned modes[] = { 0x1F80, 0xBFC0 };
static unsigned mode;
#define MARK 0xC5

/* Shapes of arguments: a number, bytes, a message, a session, a queue, or a column of 1, 2, 4 or 8 bytes an entry; and data that
 * aren't handed over, but that the answer shows. */
struct argument { const char *name; char shape; };
struct call { const char *name; struct argument arguments[MOST_ARGUMENTS]; };

#define COLUMNS { "used", '1' }, { "eui", '8' }, { "sh_addr", '2' }, { "last", '4' }, { "heard", '8' }, { "meter", 'n' }
#define IMAGE { "message", 'm' }, { "data", 'b' }
static const struct call calls[] = {
    { "chz_frame", { { "bytes", 'b' } } },
    { "chz_read", { { "payload", 'b' }, IMAGE } },
    { "chz_write", { IMAGE, { "room", 'b' } } },
    { "chz_arrive", { { "session", 's' }, IMAGE, { "sc_eui", 'n' }, { "uuid", 'b' }, { "sign", 'b' }, { "room", 'b' } } },
    { "chz_begin", { { "session", 's' }, IMAGE, { "room", 'b' } } },
    { "chz_lost", { { "session", 's' } } },
    { "chz_find", { COLUMNS } },
    { "chz_enrol", { COLUMNS, { "meter_sh_addr", 'n' }, { "counter", 'n' } } },
    { "chz_withdraw", { COLUMNS } },
    { "chz_uplink", { COLUMNS, { "counter", 'n' }, { "station", 'n' } } },
    { "chz_form", { { "payload", 'b' } } },
    { "chz_add", { { "queue", 'q' }, IMAGE } },
    { "chz_cancel", { { "queue", 'q' }, { "que_id", 'n' } } },
    { "chz_choose", { { "queue", 'q' }, { "meter", 'n' }, { "counter", 'n' }, { "expected", 'n' }, { "shown", 'd' } } },
    { "chz_sound", { { "queue", 'q' } } },
    { "chz_trace_start", { { "room", 'b' } } },
    { "chz_record", { { "time", '8' }, { "gap", 'n' }, { "station", 'n' }, { "frame", 'b' }, { "room", 'b' } } },
    { "chz_trace_open", { { "bytes", 'b' } } },
    { "chz_recorded", { { "time", '8' }, { "bytes", 'b' } } },
};
/* By number, those of which the code speaks. */
enum { ADD = 11, CANCEL, CHOOSE, SOUND, TRACE_START, RECORD, TRACE_OPEN };
/* An answer that isn't known: the queue is one that no calls made. */
#define UNKNOWN UINT64_MAX
enum { CALLS = sizeof calls / sizeof *calls };

struct member { const char *name; size_t at, size; };
#define M(name) { #name, offsetof(chz_message, name), sizeof(((chz_message *)0)->name) }
#define P(name) M(name.ep_eui), M(name.rx_time), M(name.rx_duration), M(name.snr), M(name.rssi), M(name.eq_snr), M(name.profile), \
    M(name.packet_cnt), M(name.profile_len), M(name.has_rx_duration), M(name.has_eq_snr), M(name.reserved)
#define LAST { 0, 0, 0 }
static const struct member head_members[] = { M(op_id), M(command), M(reserved), LAST };
/* The fields of each command that has some. */
static const struct member field_members[][18] = {
    [CHZ_CON] = { M(con.bs_eui), M(con.sn_bs_op_id), M(con.sn_sc_op_id), M(con.latitude), M(con.longitude), M(con.altitude),
        M(con.sn_bs_uuid), M(con.version_major), M(con.version_minor), M(con.version_patch), M(con.has_version), M(con.bidi),
        M(con.has_geo_location), M(con.has_sn_bs_op_id), M(con.has_sn_sc_op_id), LAST },
    [CHZ_CON_RSP] = { M(con_rsp.sc_eui), M(con_rsp.sn_sc_uuid), M(con_rsp.version_major), M(con_rsp.version_minor),
        M(con_rsp.version_patch), M(con_rsp.has_version), M(con_rsp.sn_resume), LAST },
    [CHZ_STATUS_RSP] = { M(status_rsp.time), M(status_rsp.uptime), M(status_rsp.duty_cycle), M(status_rsp.latitude),
        M(status_rsp.longitude), M(status_rsp.altitude), M(status_rsp.temp), M(status_rsp.cpu_load), M(status_rsp.mem_load),
        M(status_rsp.code), M(status_rsp.message_len), M(status_rsp.has_geo_location), M(status_rsp.has_uptime),
        M(status_rsp.has_temp), M(status_rsp.has_cpu_load), M(status_rsp.has_mem_load), LAST },
    [CHZ_DET] = { P(det.packet), M(det.sign), LAST },
    [CHZ_DET_RSP] = { M(det_rsp.sign), LAST },
    [CHZ_ATT_PRP] = { M(att_prp.ep_eui), M(att_prp.nwk_sn_key), M(att_prp.last_packet_cnt), M(att_prp.sh_addr), M(att_prp.bidi),
        M(att_prp.dual_chan), M(att_prp.repetition), M(att_prp.wide_carr_off), M(att_prp.long_blk_dist), LAST },
    [CHZ_DET_PRP] = { M(det_prp.ep_eui), LAST },
    [CHZ_UL_DATA] = { P(ul_data.packet), M(ul_data.user_len), M(ul_data.format), M(ul_data.dl_open), M(ul_data.response_exp),
        M(ul_data.dl_ack), LAST },
    [CHZ_DL_DATA_QUE] = { M(dl_data_que.ep_eui), M(dl_data_que.que_id), M(dl_data_que.prio), M(dl_data_que.entries),
        M(dl_data_que.format), M(dl_data_que.cnt_depend), M(dl_data_que.has_response_exp), M(dl_data_que.response_exp),
        M(dl_data_que.has_response_prio), M(dl_data_que.response_prio), M(dl_data_que.has_dl_wind_req),
        M(dl_data_que.dl_wind_req), M(dl_data_que.has_exp_only), M(dl_data_que.exp_only), LAST },
    [CHZ_DL_DATA_QUE_CMP] = { LAST },
};
/* What stands beside a downlink. */
static const struct member beside_members[] = { M(dl.counter), M(dl.length), M(dl.bytes), LAST };
#define S(name) { #name, offsetof(chz_session, name), sizeof(((chz_session *)0)->name) }
static const struct member session_members[] = {
    S(bs_eui), S(highest), S(lowest), S(station_id), S(centre_id), S(station_kind), S(centre_kind), S(sn_bs_uuid), S(sn_sc_uuid),
    S(state), S(stored), S(reserved), LAST,
};

/* One argument of the case at hand. */
static struct handed { uint64_t count; size_t size; uint8_t *lent; uint8_t before[SPACE], after[SPACE]; } handed[MOST_ARGUMENTS];
static uint8_t *space[MOST_ARGUMENTS]; /* ends at the page that must not be touched */
static uint64_t seed, number, must, asked = UINT64_MAX, passed[CALLS], failed[CALLS], refused[CALLS][256], happened[CALLS][256],
    unknown[CALLS];
static const struct call *call;
static sigjmp_buf back;
static volatile sig_atomic_t inside, ticks;

static void end(const char *why)
{
    printf("%s\n", why);
    uint64_t good = 0, bad = 1;
    for (int i = 0; i < CALLS; i++) good += passed[i], bad += failed[i];
    printf("%llu passed, %llu failed\n", (unsigned long long)good, (unsigned long long)bad);
    exit(1);
}

static void take(void *into, size_t size)
{
    if (fread(into, 1, size, stdin) != size) end("the cases end too early");
}

static uint64_t take_number(void)
{
    uint64_t n;
    take(&n, sizeof n);
    return n;
}

static size_t width(char shape)
{
    return shape >= '1' && shape <= '8' ? (size_t)(shape - '0') : 1;
}

/* Whether the argument is a buffer that the call is lent. */
static int is_lent(int i)
{
    return call->arguments[i].shape != 'n' && call->arguments[i].shape != 'd';
}

/* Where a queue is as the last case left it, its bytes aren't there; and of those after the call only what changes. */
static void take_queue(struct handed *h)
{
    static uint8_t left[SPACE];
    static size_t left_size = SIZE_MAX;
    uint8_t same, changed;
    take(&same, 1);
    if (same && left_size != h->size) end("no queue of this length was left");
    if (same) memcpy(h->before, left, h->size);
    else take(h->before, h->size);
    memcpy(h->after, h->before, h->size);
    take(&changed, 1);
    if (changed) {
        uint64_t from = take_number(), size = take_number();
        if (from > h->size || size > h->size - from) end("a queue changes behind its end");
        take(h->after + from, size);
    }
    memcpy(left, h->after, h->size);
    left_size = h->size;
}

static void take_argument(int i)
{
    struct handed *h = &handed[i];
    h->count = take_number();
    if (call->arguments[i].shape == 'n') return;
    uint8_t changed;
    h->size = h->count * width(call->arguments[i].shape);
    if (h->size > SPACE - BEFORE) end("a buffer is longer than the space for it");
    h->lent = space[i] - h->size;
    if (call->arguments[i].shape == 'q') {
        take_queue(h);
        return;
    }
    take(h->before, h->size);
    if (!is_lent(i)) return;
    take(&changed, 1);
    if (changed) take(h->after, h->size);
    else memcpy(h->after, h->before, h->size);
}

static void lend_argument(int i)
{
    struct handed *h = &handed[i];
    if (!is_lent(i)) return;
    memset(h->lent - BEFORE, MARK, BEFORE);
    memcpy(h->lent, h->before, h->size);
}

/* A call that touches what it wasn't lent, breaks off or doesn't end comes back here. */
static void broke(int signal)
{
    if (signal == SIGALRM && (!inside || ++ticks < 2)) return;
    if (!inside) _exit(3);
    siglongjmp(back, signal);
}

static uint8_t *pointer(int i)
{
    return handed[i].size || mode == modes[0] ? handed[i].lent : 0;
}

#define BYTES(i) pointer(i), handed[i].count
#define N(i) handed[i].count
#define TIME ((uint64_t *)(void *)pointer(0))
#define TABLE BYTES(0), (uint64_t *)(void *)pointer(1), N(1), (uint16_t *)(void *)pointer(2), N(2), \
    (uint32_t *)(void *)pointer(3), N(3), (uint64_t *)(void *)pointer(4), N(4), N(5)

static uint64_t make_call(void)
{
    switch (call - calls) {
    case 0: return chz_frame(BYTES(0));
    case 1: return chz_read(BYTES(0), BYTES(1), BYTES(2));
    case 2: return chz_write(BYTES(0), BYTES(1), BYTES(2));
    case 3: return chz_arrive(BYTES(0), BYTES(1), BYTES(2), N(3), BYTES(4), BYTES(5), BYTES(6));
    case 4: return chz_begin(BYTES(0), BYTES(1), BYTES(2), BYTES(3));
    case 5: return chz_lost(BYTES(0));
    case 6: return chz_find(TABLE);
    case 7: return chz_enrol(TABLE, (uint16_t)N(6), (uint32_t)N(7));
    case 8: return chz_withdraw(TABLE);
    case 9: return chz_uplink(TABLE, (uint32_t)N(6), N(7));
    case 10: return chz_form(BYTES(0));
    case ADD: return chz_add(BYTES(0), BYTES(1), BYTES(2));
    case CANCEL: return chz_cancel(BYTES(0), N(1));
    case CHOOSE: return chz_choose(BYTES(0), N(1), (uint32_t)N(2), (uint8_t)N(3));
    case SOUND: return chz_sound(BYTES(0));
    case TRACE_START: return chz_trace_start(BYTES(0));
    case RECORD: return chz_record(TIME, N(1), N(2), BYTES(3), BYTES(4));
    case TRACE_OPEN: return chz_trace_open(BYTES(0));
    default: return chz_recorded(TIME, BYTES(1));
    }
}

static void print_answer(const char *which, uint64_t answer)
{
    if (answer == UNKNOWN) {
        printf("%s any answer in range", which);
        return;
    }
    printf("%s refused %u, happened %u, value %llu", which, chz_refused(answer), chz_happened(answer),
        (unsigned long long)chz_value(answer));
}

/* What is wrong with the case is printed only for the first few of each call. */
static void wrong(int *differs, const char *format, ...)
{
    va_list rest;
    if (failed[call - calls] < SHOWN) {
        if (!*differs) {
            printf("%s, case %llu, seed %llu, mode %04X:", call->name, (unsigned long long)number, (unsigned long long)seed, mode);
            print_answer(" expected", must);
            printf("\n");
        }
        printf("  ");
        va_start(rest, format);
        vprintf(format, rest);
        va_end(rest);
        printf("\n");
    }
    *differs = 1;
}

static const char *hex(const uint8_t *bytes, size_t size)
{
    static char text[2][3 * 48];
    static int which;
    char *at = text[which ^= 1];
    char *start = at;
    *at = 0;
    for (size_t i = 0; i < size && i < 40; i++) at += sprintf(at, "%02X", bytes[i]);
    if (size > 40) sprintf(at, "..");
    return start;
}

/* A whole buffer, or the member of that name in it: whether it differs. */
static int compare_part(int *differs, int i, const char *member, size_t start, size_t size)
{
    const uint8_t *must = handed[i].after + start, *is = handed[i].lent + start;
    if (!memcmp(must, is, size)) return 0;
    size_t at = 0;
    while (must[at] == is[at]) at++;
    wrong(differs, "%s%s%s from byte %zu: expected %s, got %s", call->arguments[i].name, *member ? "." : "", member, at,
        hex(must + at, size - at), hex(is + at, size - at));
    return 1;
}

static int compare_members(int *differs, int i, const struct member *m)
{
    int named = 0;
    for (; m->name; m++) named += compare_part(differs, i, m->name, m->at, m->size);
    return named;
}

/* The members of each place of a queue that differs. */
static int compare_places(int *differs, int i)
{
    const struct member *const all[] = { head_members, field_members[CHZ_DL_DATA_QUE], beside_members };
    int named = 0;
    for (size_t place = 0; place < CHZ_QUEUE; place++) {
        size_t start = place * sizeof(chz_message);
        if (!memcmp(handed[i].after + start, handed[i].lent + start, sizeof(chz_message))) continue;
        for (size_t a = 0; a < sizeof all / sizeof *all; a++)
            for (const struct member *m = all[a]; m->name; m++) {
                char name[64];
                snprintf(name, sizeof name, "entry[%zu].%s", place, m->name);
                named += compare_part(differs, i, name, start + m->at, m->size);
            }
    }
    return named;
}

/* What differs is named where it has a name; then the bytes between and behind the members, if they alone differ. */
static void compare_buffer(int *differs, int i)
{
    const struct argument *a = &call->arguments[i];
    const struct handed *h = &handed[i];
    int named = 0;
    uint8_t command = a->shape == 'm' && h->size == CHZ_MESSAGE ? h->after[offsetof(chz_message, command)] : UINT8_MAX;
    if (command < sizeof field_members / sizeof *field_members)
        named = compare_members(differs, i, head_members) + compare_members(differs, i, field_members[command]);
    if (a->shape == 's' && h->size == sizeof(chz_session)) named = compare_members(differs, i, session_members);
    if (a->shape == 'q' && h->size == sizeof(chz_queue)) named = compare_places(differs, i);
    if (!named) compare_part(differs, i, "", 0, h->size);
    for (size_t b = 1; b <= BEFORE; b++)
        if (h->lent[-(ptrdiff_t)b] != MARK) {
            wrong(differs, "%s: a byte %zu before it was changed", a->name, b);
            break;
        }
}

static void got(int *differs, const char *what, uint64_t is)
{
    wrong(differs, "%s: got refused %u, happened %u, value %llu", what, chz_refused(is), chz_happened(is),
        (unsigned long long)chz_value(is));
}

/* Where the answer of chz_choose shows data: their start, or NULL where they aren't in the place. */
static const uint8_t *shown_by(uint64_t is)
{
    if (chz_chosen_place(is) >= CHZ_QUEUE || chz_chosen_from(is) > CHZ_DATA ||
        chz_chosen_len(is) > CHZ_DATA - chz_chosen_from(is))
        return 0;
    return handed[0].lent + chz_chosen_place(is) * sizeof(chz_message) + CHZ_MESSAGE + chz_chosen_from(is);
}

/* On a queue that no calls made: the answer is one that the call has, its place is in range, and what was chosen was there. A refused
 * call changes nothing, others only the place that they name. What they leave in that place isn't compared any further. */
static void compare_range(int *differs, uint64_t is)
{
    static const uint8_t refusals[][4] =
        { [ADD] = { 0, 15, 27, 28 }, [CANCEL] = { 0, 29, 29, 29 }, [CHOOSE] = { 0, 30, 30, 30 } };
    struct handed *h = &handed[0];
    uint64_t place = call - calls == CHOOSE ? chz_chosen_place(is) : chz_value(is);
    if (!memchr(refusals[call - calls], (int)chz_refused(is), 4) || chz_happened(is)) got(differs, "answer out of range", is);
    else if (chz_refused(is) ? chz_value(is) != 0 : place >= CHZ_QUEUE) got(differs, "value out of range", is);
    else if (!chz_refused(is)) {
        chz_message was;
        memcpy(&was, h->before + place * sizeof was, sizeof was);
        if (call - calls == CHOOSE && (was.command != CHZ_DL_DATA_QUE || was.dl_data_que.ep_eui != N(1)))
            got(differs, "no such entry stood there", is);
        memcpy(h->after + place * sizeof(chz_message), h->lent + place * sizeof(chz_message), sizeof(chz_message));
    }
}

static void compare_answer(int *differs, uint64_t is)
{
    if (must == UNKNOWN) compare_range(differs, is);
    else if (must != is) got(differs, "answer", is);
    else if (call - calls == CHOOSE && !chz_refused(is)) {
        const uint8_t *data = shown_by(is);
        if (!data || chz_chosen_len(is) != N(4) || memcmp(data, handed[4].before, N(4)))
            got(differs, "data that aren't the chosen ones", is);
    }
}

static void print_case(void)
{
    printf("case %llu: %s,", (unsigned long long)number, call->name);
    print_answer(" expected", must);
    printf("\n");
    for (int i = 0; i < MOST_ARGUMENTS && call->arguments[i].name; i++) {
        printf("  %s %llu", call->arguments[i].name, (unsigned long long)handed[i].count);
        if (call->arguments[i].shape != 'n') {
            printf(": ");
            for (size_t b = 0; b < handed[i].size; b++) printf("%02X", handed[i].before[b]);
        }
        printf("\n");
    }
}

static void broke_off(int *differs, int signal)
{
    static int endless;
    if (signal == SIGALRM) wrong(differs, "the call didn't end in %d seconds", PATIENCE);
    if (signal == SIGALRM && ++endless == 3) end("too many calls don't end");
    else wrong(differs, "the call broke off by signal %d (%s)", signal, strsignal(signal));
}

static void call_in_mode(int *differs)
{
    for (int i = 0; i < MOST_ARGUMENTS && call->arguments[i].name; i++) lend_argument(i);
    ticks = 0;
    int signal = sigsetjmp(back, 0);
    if (!signal) {
        _mm_setcsr(mode);
        inside = 1;
        uint64_t is = make_call();
        inside = 0;
        compare_answer(differs, is);
    } else {
        inside = 0;
        broke_off(differs, signal);
    }
    _mm_setcsr(modes[0]);
    for (int i = 0; i < MOST_ARGUMENTS && call->arguments[i].name; i++)
        if (is_lent(i)) compare_buffer(differs, i);
}

/* A case has passed if it has in both modes. */
static void one_case(uint8_t which)
{
    if (which >= CALLS) end("the cases name a call that there isn't");
    call = &calls[which];
    for (int i = 0; i < MOST_ARGUMENTS && call->arguments[i].name; i++) take_argument(i);
    must = take_number();
    if (number == asked) print_case();
    static int differs;
    static size_t m;
    differs = 0;
    for (m = 0; m < 2 && !differs; m++) {
        mode = modes[m];
        call_in_mode(&differs);
    }
    if (differs) failed[which]++;
    else passed[which]++;
    if (must == UNKNOWN) {
        unknown[which]++;
        return;
    }
    refused[which][chz_refused(must)]++;
    happened[which][chz_happened(must)]++;
}

static void prepare(void)
{
    for (int i = 0; i < MOST_ARGUMENTS; i++) {
        uint8_t *map = mmap(0, SPACE + PAGE, PROT_READ | PROT_WRITE, MAP_PRIVATE | MAP_ANONYMOUS, -1, 0);
        if (map == MAP_FAILED || mprotect(map + SPACE, PAGE, PROT_NONE)) end("no memory for the buffers");
        space[i] = map + SPACE;
    }
    static uint8_t other_stack[1 << 16];
    stack_t stack = { .ss_sp = other_stack, .ss_size = sizeof other_stack };
    sigaltstack(&stack, 0);
    struct sigaction action = { .sa_handler = broke, .sa_flags = SA_NODEFER | SA_ONSTACK | SA_RESTART };
    const int signals[] = { SIGSEGV, SIGBUS, SIGILL, SIGFPE, SIGTRAP, SIGABRT, SIGALRM };
    for (size_t i = 0; i < sizeof signals / sizeof *signals; i++) sigaction(signals[i], &action, 0);
    struct itimerval timer = { { PATIENCE, 0 }, { PATIENCE, 0 } };
    setitimer(ITIMER_REAL, &timer, 0);
}

/* How often each number from the first on was expected. */
static void print_counts(const char *name, int first, const uint64_t *counts)
{
    for (int i = first; i < 256; i++)
        if (counts[i]) {
            printf("%s %d:%llu", name, i, (unsigned long long)counts[i]);
            name = "";
        }
}

int main(int words, char **word)
{
    char start[8];
    uint8_t which;
    uint64_t good = 0, bad = 0;
    if (words > 1) asked = strtoull(word[1], 0, 10);
    prepare();
    take(start, sizeof start);
    if (memcmp(start, "CHZCASES", sizeof start)) end("these are no cases");
    seed = take_number();
    for (take(&which, 1); which != 255; take(&which, 1), number++) one_case(which);
    if (take_number() != number) end("cases are missing");
    for (int i = 0; i < CALLS; i++) {
        printf("%-15s %7llu passed, %llu failed;", calls[i].name, (unsigned long long)passed[i], (unsigned long long)failed[i]);
        print_counts(" refused", 0, refused[i]);
        print_counts("; happened", 1, happened[i]);
        if (unknown[i]) printf("; on any bytes %llu", (unsigned long long)unknown[i]);
        printf("\n");
        good += passed[i];
        bad += failed[i];
    }
    printf("%llu passed, %llu failed\n", (unsigned long long)good, (unsigned long long)bad);
    return bad != 0 || good == 0;
}
