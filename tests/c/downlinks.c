/* dlDataQue field by field: what is read, what is refused, and what is written for it. Its limits stand in downlink_limits.c. */
#include <stdio.h>
#include <string.h>

#include "cases.h"
#include "messages.h"
#include "spell.h"

#define WITH(pair) "87 " DOWNLINK_HAS " " pair
#define BUT_METER "'command' 'dlDataQue' 'opId' 07 'queId' 05 'cntDepend' C2 'userData' 91 93010203 "
#define BUT_ID "'command' 'dlDataQue' 'opId' 07 'epEui' 09 'cntDepend' C2 'userData' 91 93010203 "
#define BUT_DEPEND DOWNLINK_TO("07") "'userData' 91 93010203 "
#define BUT_DATA DOWNLINK_TO("07") "'cntDepend' C2 "
#define DATA(entries) "86 " BUT_DATA "'userData' " entries
#define BOUND(counters, entries) "87 " DOWNLINK_TO("07") "'cntDepend' C3 'packetCnt' " counters " 'userData' " entries

static void plain(chz_message *m)
{
    m->command = CHZ_DL_DATA_QUE;
    m->op_id = 7;
    m->dl_data_que.ep_eui = 9;
    m->dl_data_que.que_id = 5;
    m->dl_data_que.entries = 1;
    m->dl.length[0] = 3;
    memcpy(m->dl.bytes, "\1\2\3", 3);
}

/* The same two bytes for the counter 2^32 - 1 and, once more, for it; between them nothing for the counter 0. */
static void bound(chz_message *m)
{
    plain(m);
    m->dl_data_que.cnt_depend = 1;
    m->dl_data_que.entries = 3;
    m->dl.counter[0] = m->dl.counter[2] = UINT32_MAX;
    m->dl.length[0] = m->dl.length[2] = 2;
    memcpy(m->dl.bytes, "\377\0\377\0", 4);
}

#define FILL(name, edit) static void name(chz_message *m) { plain(m); edit; }
FILL(no_data, m->dl.length[0] = 0)
FILL(edge_bytes, memcpy(m->dl.bytes, "\200\177\377", 3))
FILL(great_meter, m->dl_data_que.ep_eui = UINT64_MAX)
FILL(great_id, m->dl_data_que.que_id = UINT64_MAX)
FILL(id_0, m->dl_data_que.que_id = 0)
FILL(format_255, m->dl_data_que.format = 255)
FILL(of_0, m->op_id = 0)

/* What is refused changes neither message nor data. */
static const struct {
    const char *name, *payload;
    unsigned refused, elements;
    void (*fill)(chz_message *); /* the message that must be read */
} cases[] = {
    { "a downlink", DOWNLINK, CHZ_DONE, 17, plain },
    { "in another order", "86 'userData' 91 93010203 'cntDepend' C2 'queId' 05 'epEui' 09 'opId' 07 'command' 'dlDataQue'",
      CHZ_DONE, 17, plain },
    { "in the widest forms", "DE0006 'command' 'dlDataQue' 'opId' D3 7*00 07 'epEui' CF 7*00 09 'queId' D3 7*00 05 'cntDepend' C2 "
      "'userData' DD00000001 DC0003 CC01 CD0002 D2 00000003", CHZ_DONE, 17, plain },
    { "with a key that it has not", WITH("'dlOpen' C0"), CHZ_DONE, 19, plain },
    { "with such a key twice", "88 " DOWNLINK_HAS " 'dlOpen' C0 'dlOpen' C0", CHZ_DONE, 21, plain },
    { "opId 0", "86 " DOWNLINK_TO("00") "'cntDepend' C2 'userData' 91 93010203", CHZ_DONE, 17, of_0 },
    { "a byte left over", DOWNLINK " 00", CHZ_LEFT_OVER, 0, NULL },
    { "a byte missing", "86 " BUT_DATA "'userData' 91 930102", CHZ_CUT, 0, NULL },
    { "epEui missing", "85 " BUT_METER, CHZ_FIELD_MISSING, 0, NULL },
    { "queId missing", "85 " BUT_ID, CHZ_FIELD_MISSING, 0, NULL },
    { "cntDepend missing", "85 " BUT_DEPEND, CHZ_FIELD_MISSING, 0, NULL },
    { "userData missing", "85 " BUT_DATA, CHZ_FIELD_MISSING, 0, NULL },
    { "userData missing before a bad prio", "86 " BUT_DATA "'prio' C0", CHZ_FIELD_MISSING, 0, NULL },
    { "queId twice", WITH("'queId' 05"), CHZ_KEY_TWICE, 0, NULL },
    { "prio twice", "88 " DOWNLINK_HAS " 'prio' 00 'prio' 00", CHZ_KEY_TWICE, 0, NULL },
    { "expOnly twice, and no userData", "87 " BUT_DATA "'expOnly' C2 'expOnly' C2", CHZ_KEY_TWICE, 0, NULL },
    { "epEui 2^64 - 1", "86 " BUT_METER "'epEui' CF 8*FF", CHZ_DONE, 17, great_meter },
    { "epEui -1", "86 " BUT_METER "'epEui' FF", CHZ_INVALID, 0, NULL },
    { "epEui as text", "86 " BUT_METER "'epEui' '9'", CHZ_INVALID, 0, NULL },
    { "queId 2^64 - 1", "86 " BUT_ID "'queId' CF 8*FF", CHZ_DONE, 17, great_id },
    { "queId 0", "86 " BUT_ID "'queId' 00", CHZ_DONE, 17, id_0 },
    { "queId -1", "86 " BUT_ID "'queId' D3 8*FF", CHZ_INVALID, 0, NULL },
    { "queId as float", "86 " BUT_ID "'queId' CA40A00000", CHZ_INVALID, 0, NULL },
    { "queId nil", "86 " BUT_ID "'queId' C0", CHZ_INVALID, 0, NULL },
    { "cntDepend 0", "86 " BUT_DEPEND "'cntDepend' 00", CHZ_INVALID, 0, NULL },
    { "cntDepend nil", "86 " BUT_DEPEND "'cntDepend' C0", CHZ_INVALID, 0, NULL },
    { "data of no bytes", DATA("91 90"), CHZ_DONE, 14, no_data },
    { "bytes that take one and two", DATA("91 93 CC80 7F CCFF"), CHZ_DONE, 17, edge_bytes },
    { "a byte of 256", DATA("91 93 01 02 CD0100"), CHZ_INVALID, 0, NULL },
    { "a byte of -1", DATA("91 93 01 02 FF"), CHZ_INVALID, 0, NULL },
    { "a byte that is a float", DATA("91 93 01 02 CA40400000"), CHZ_INVALID, 0, NULL },
    { "a byte that is an array", DATA("91 93 01 02 90"), CHZ_INVALID, 0, NULL },
    { "data as ulData has it", DATA("93010203"), CHZ_INVALID, 0, NULL },
    { "data as bin", DATA("91 C403010203"), CHZ_INVALID, 0, NULL },
    { "data as text", DATA("91 'abc'"), CHZ_INVALID, 0, NULL },
    { "data as map", DATA("81 'a' 93010203"), CHZ_INVALID, 0, NULL },
    { "data nil", DATA("C0"), CHZ_INVALID, 0, NULL },
    { "good data, then data that are none", BOUND("9201 02", "92 93010203 C0"), CHZ_INVALID, 0, NULL },
    { "the same counter twice", BOUND("93 CEFFFFFFFF 00 CEFFFFFFFF", "93 92CCFF00 90 92CCFF00"), CHZ_DONE, 25, bound },
    { "a counter of 2^32", BOUND("91 CF0000000100000000", "91 90"), CHZ_INVALID, 0, NULL },
    { "a counter of -1", BOUND("91 FF", "91 90"), CHZ_INVALID, 0, NULL },
    { "a counter that is a float", BOUND("91 CA3F800000", "91 90"), CHZ_INVALID, 0, NULL },
    { "the second counter nil", BOUND("92 01 C0", "92 90 90"), CHZ_INVALID, 0, NULL },
    { "a counter without its array", BOUND("01", "91 90"), CHZ_INVALID, 0, NULL },
    { "packetCnt nil", BOUND("C0", "91 90"), CHZ_INVALID, 0, NULL },
    { "packetCnt missing is no missing field", "86 " DOWNLINK_TO("07") "'cntDepend' C3 'userData' 91 90", CHZ_INVALID, 0, NULL },
    { "packetCnt where it must not be", WITH("'packetCnt' 9101"), CHZ_INVALID, 0, NULL },
    { "an empty packetCnt where it must not be", WITH("'packetCnt' 90"), CHZ_INVALID, 0, NULL },
    { "a nil packetCnt where it must not be", WITH("'packetCnt' C0"), CHZ_INVALID, 0, NULL },
    { "a format 0 is an absent one", WITH("'format' 00"), CHZ_DONE, 19, plain },
    { "format 255", WITH("'format' CCFF"), CHZ_DONE, 19, format_255 },
    { "format 256", WITH("'format' CD0100"), CHZ_INVALID, 0, NULL },
    { "format nil", WITH("'format' C0"), CHZ_INVALID, 0, NULL },
    { "all good but the last flag", "8A " DOWNLINK_HAS " 'format' 01 'prio' 01 'responseExp' C3 'expOnly' 00", CHZ_INVALID, 0, NULL },
};

static void is_read(const char *spelled, unsigned elements, const chz_message *m)
{
    lend_payload(spelled);
    expect_message(m);
    JUDGE(read_lent(), ANSWER(CHZ_DONE, 0, elements), &payload, &message, &data);
}

static void is_written(const char *spelled, const chz_message *m)
{
    uint8_t frame[LENT_MOST];
    size_t len = spell_frame(spelled, frame);
    lend_message(m);
    lend_filled(&room, FILLING, CHZ_ROOM);
    expect(&room, 0, frame, len);
    JUDGE(write_lent(), ANSWER(CHZ_DONE, 0, len), &message, &data, &room);
}

static void is_not_read(const char *spelled, unsigned refused)
{
    lend_payload(spelled);
    JUDGE(chz_refused(read_lent()), refused, &payload, &message, &data);
}

/* In a room that is long enough, and in none: 15 comes before 20. */
static void is_not_written(const chz_message *m)
{
    lend_message(m);
    lend_filled(&room, FILLING, CHZ_ROOM);
    JUDGE(write_lent(), ANSWER(CHZ_INVALID, 0, 0), &message, &data, &room);
    lend_filled(&room, FILLING, 0);
    JUDGE(write_lent(), ANSWER(CHZ_INVALID, 0, 0), &message, &data, &room);
}

static void each_payload(void)
{
    for (size_t i = 0; i < COUNT(cases); i++) {
        chz_message m;
        memset(&m, 0, sizeof m);
        start(cases[i].name);
        if (cases[i].fill) cases[i].fill(&m), is_read(cases[i].payload, cases[i].elements, &m);
        else is_not_read(cases[i].payload, cases[i].refused);
    }
}

/* A prio by its bits: what is read as it, and how it is written, NULL where it is left out. */
#define PRIO(name, read, bits) { name, WITH("'prio' " read), WITH("'prio' CB" #bits), UINT64_C(0x##bits) }
#define ZERO(name, read) { name, WITH("'prio' " read), DOWNLINK, 0 }
static const struct {
    const char *name, *payload, *written;
    uint64_t bits;
} prios[] = {
    ZERO("plus zero, float 32", "CA00000000"),
    ZERO("plus zero, float 64", "CB0000000000000000"),
    ZERO("the integer 0", "00"),
    ZERO("the integer 0, signed, in eight bytes", "D3 8*00"),
    PRIO("minus zero, float 32", "CA80000000", 8000000000000000),
    PRIO("minus zero, float 64", "CB8000000000000000", 8000000000000000),
    PRIO("1, float 32", "CA3F800000", 3FF0000000000000),
    PRIO("1, float 64", "CB3FF0000000000000", 3FF0000000000000),
    PRIO("1, integer", "01", 3FF0000000000000),
    PRIO("-1.5, float 64", "CBBFF8000000000000", BFF8000000000000),
    PRIO("-97, integer", "D09F", C058400000000000),
    PRIO("the single nearest to 0.1, float 32", "CA3DCCCCCD", 3FB99999A0000000),
    PRIO("the single nearest to 0.1, float 64", "CB3FB99999A0000000", 3FB99999A0000000),
    PRIO("2^24 - 1, integer", "CE00FFFFFF", 416FFFFFE0000000),
    PRIO("2^24, integer", "CE01000000", 4170000000000000),
    PRIO("2^24 + 2, integer", "CE01000002", 4170000020000000),
    PRIO("-2^24, integer", "D2FF000000", C170000000000000),
    PRIO("2^53, integer", "CF0020000000000000", 4340000000000000),
    PRIO("-2^53, integer", "D3FFE0000000000000", C340000000000000),
    PRIO("2^53 - 2^29, integer", "CF001FFFFFE0000000", 433FFFFFE0000000),
    PRIO("the greatest single, float 32", "CA7F7FFFFF", 47EFFFFFE0000000),
    PRIO("the greatest single, float 64", "CB47EFFFFFE0000000", 47EFFFFFE0000000),
    PRIO("the least single", "CAFF7FFFFF", C7EFFFFFE0000000),
    PRIO("the least normal single above zero", "CB3810000000000000", 3810000000000000),
    PRIO("the greatest subnormal single", "CB380FFFFFC0000000", 380FFFFFC0000000),
    PRIO("the least single above zero, float 32", "CA00000001", 36A0000000000000),
    PRIO("the least single above zero, float 64", "CB36A0000000000000", 36A0000000000000),
    PRIO("three times that, negative", "CBB6B8000000000000", B6B8000000000000),
};

/* Numbers that no single is: as floats, by their bits, which a message to be written may hold, too. */
static const struct {
    const char *name, *payload;
    uint64_t bits;
} no_singles[] = {
#define NO_SINGLE(name, bits) { name, WITH("'prio' CB" #bits), UINT64_C(0x##bits) }
    NO_SINGLE("0.1", 3FB999999999999A),
    NO_SINGLE("1 and the least step of a double", 3FF0000000000001),
    NO_SINGLE("1 and half the least step of a single", 3FF0000010000000),
    NO_SINGLE("2^24 + 1", 4170000010000000),
    NO_SINGLE("the greatest single and the least step of a double", 47EFFFFFE0000001),
    NO_SINGLE("2^128", 47F0000000000000),
    NO_SINGLE("-2^128", C7F0000000000000),
    NO_SINGLE("the greatest double", 7FEFFFFFFFFFFFFF),
    NO_SINGLE("the least normal single, less a step of a double", 380FFFFFFFFFFFFF),
    NO_SINGLE("the greatest subnormal single and half its step", 380FFFFFE0000000),
    NO_SINGLE("one and a half of the least single", 36A8000000000000),
    NO_SINGLE("half the least single", 3690000000000000),
    NO_SINGLE("the least normal double", 0010000000000000),
    NO_SINGLE("the least double above zero", 0000000000000001),
    NO_SINGLE("the greatest double below zero", 8000000000000001),
    NO_SINGLE("endless", 7FF0000000000000),
    NO_SINGLE("endless, negative", FFF0000000000000),
    NO_SINGLE("no number", 7FF8000000000000),
    NO_SINGLE("no number, by its last bit", FFF0000000000001),
};

/* What is no real at all, and integers that no single is or that lie past 2^53. */
static const char *const no_prios[] = {
    WITH("'prio' CE01000001"), WITH("'prio' D2FEFFFFFF"), WITH("'prio' CF0000000001000001"), WITH("'prio' CF001FFFFFFFFFFFFF"),
    WITH("'prio' CF0020000000000001"), WITH("'prio' CF0040000000000000"), WITH("'prio' D3FFC0000000000000"),
    WITH("'prio' D38000000000000000"), WITH("'prio' CF 8*FF"), WITH("'prio' CA7F800000"), WITH("'prio' CA7FC00000"),
    WITH("'prio' C0"), WITH("'prio' C2"), WITH("'prio' '1'"), WITH("'prio' 9101"), WITH("'prio' 80"),
};

static chz_message with_prio(uint64_t bits)
{
    chz_message m;
    memset(&m, 0, sizeof m);
    plain(&m);
    memcpy(&m.dl_data_que.prio, &bits, 8);
    return m;
}

static void each_prio(void)
{
    for (size_t i = 0; i < COUNT(prios); i++) {
        const chz_message m = with_prio(prios[i].bits);
        start(prios[i].name);
        is_read(prios[i].payload, 19, &m);
        is_written(prios[i].written, &m);
    }
    for (size_t i = 0; i < COUNT(no_singles); i++) {
        const chz_message m = with_prio(no_singles[i].bits);
        start(no_singles[i].name);
        is_not_read(no_singles[i].payload, CHZ_INVALID);
        is_not_written(&m);
    }
    for (size_t i = 0; i < COUNT(no_prios); i++) {
        start(no_prios[i]);
        is_not_read(no_prios[i], CHZ_INVALID);
    }
}

/* The flags that may be absent, each with its mark in front of it. */
static const struct {
    const char *key;
    size_t mark;
} flags[] = {
    { "'responseExp'", offsetof(chz_message, dl_data_que.has_response_exp) },
    { "'responsePrio'", offsetof(chz_message, dl_data_que.has_response_prio) },
    { "'dlWindReq'", offsetof(chz_message, dl_data_que.has_dl_wind_req) },
    { "'expOnly'", offsetof(chz_message, dl_data_que.has_exp_only) },
};

static const char *with_flag(size_t i, const char *value)
{
    static char text[512];
    snprintf(text, sizeof text, WITH("%s %s"), flags[i].key, value);
    return text;
}

/* False is not absent: it is kept, and written. responseExp has no tie to another field here. */
static void each_flag(void)
{
    static const char *const no_flags[] = { "C0", "00", "01", "'true'", "90", "CA00000000" };
    for (size_t i = 0; i < COUNT(flags); i++) {
        chz_message m;
        memset(&m, 0, sizeof m);
        plain(&m);
        start(flags[i].key);
        ((uint8_t *)&m)[flags[i].mark] = 1;
        is_read(with_flag(i, "C2"), 19, &m);
        is_written(with_flag(i, "C2"), &m);
        ((uint8_t *)&m)[flags[i].mark + 1] = 1;
        is_read(with_flag(i, "C3"), 19, &m);
        is_written(with_flag(i, "C3"), &m);
        ((uint8_t *)&m)[flags[i].mark] = 0;
        is_not_written(&m);
        for (size_t j = 0; j < COUNT(no_flags); j++) is_not_read(with_flag(i, no_flags[j]), CHZ_INVALID);
    }
}

void downlinks(void)
{
    each_payload();
    each_prio();
    each_flag();
}
