/* Reals at the edges of float 32 and float 64, and whole numbers that stand for them in every form, bit for bit: read, and written
 * as float 64 again. */
#include <string.h>

#include "cases.h"
#include "messages.h"
#include "spell.h"

#define STATUS_RSP "86 'command' 'statusRsp' 'opId' 01 'code' 00 'message' 'ok' 'time' 01 'dutyCycle' "

static const struct {
    const char *name, *payload, *written;
    uint64_t bits;
} cases[] = {
#define REAL(name, read, bits) { name, STATUS_RSP read, STATUS_RSP "CB" #bits, UINT64_C(0x##bits) }
    REAL("float 32: zero", "CA00000000", 0000000000000000),
    REAL("float 32: minus zero", "CA80000000", 8000000000000000),
    REAL("float 32: least", "CA00000001", 36A0000000000000),
    REAL("float 32: least, negative", "CA80000001", B6A0000000000000),
    REAL("float 32: two ones", "CA00000003", 36B8000000000000),
    REAL("float 32: half of the least normal", "CA00400000", 3800000000000000),
    REAL("float 32: greatest subnormal", "CA007FFFFF", 380FFFFFC0000000),
    REAL("float 32: greatest subnormal, negative", "CA807FFFFF", B80FFFFFC0000000),
    REAL("float 32: least normal", "CA00800000", 3810000000000000),
    REAL("float 32: greatest", "CA7F7FFFFF", 47EFFFFFE0000000),
    REAL("float 32: greatest, negative", "CAFF7FFFFF", C7EFFFFFE0000000),
    REAL("float 64: least", "CB0000000000000001", 0000000000000001),
    REAL("float 64: greatest subnormal, negative", "CB800FFFFFFFFFFFFF", 800FFFFFFFFFFFFF),
    REAL("float 64: least normal", "CB0010000000000000", 0010000000000000),
    REAL("float 64: greatest", "CB7FEFFFFFFFFFFFFF", 7FEFFFFFFFFFFFFF),
    REAL("0, one byte", "00", 0000000000000000),
    REAL("0, unsigned 8", "CC00", 0000000000000000),
    REAL("0, unsigned 16", "CD0000", 0000000000000000),
    REAL("0, unsigned 32", "CE00000000", 0000000000000000),
    REAL("0, unsigned 64", "CF 8*00", 0000000000000000),
    REAL("0, signed 8", "D000", 0000000000000000),
    REAL("0, signed 16", "D10000", 0000000000000000),
    REAL("0, signed 32", "D200000000", 0000000000000000),
    REAL("0, signed 64", "D3 8*00", 0000000000000000),
    REAL("-97, signed 8", "D09F", C058400000000000),
    REAL("-97, signed 16", "D1FF9F", C058400000000000),
    REAL("-97, signed 32", "D2FFFFFF9F", C058400000000000),
    REAL("-97, signed 64", "D3 7*FF 9F", C058400000000000),
    REAL("159, unsigned 8", "CC9F", 4063E00000000000),
    REAL("159, signed 16", "D1009F", 4063E00000000000),
    REAL("127, one byte", "7F", 405FC00000000000),
    REAL("-1, one byte", "FF", BFF0000000000000),
    REAL("-32, one byte", "E0", C040000000000000),
    REAL("2^32 - 1", "CEFFFFFFFF", 41EFFFFFFFE00000),
    REAL("2^53 - 1", "CF001FFFFFFFFFFFFF", 433FFFFFFFFFFFFF),
    REAL("1 - 2^53", "D3FFE0000000000001", C33FFFFFFFFFFFFF),
    REAL("2^53, unsigned", "CF0020000000000000", 4340000000000000),
    REAL("2^53, signed", "D30020000000000000", 4340000000000000),
    REAL("-2^53", "D3FFE0000000000000", C340000000000000),
};

/* Infinities, what is no number, and whole numbers past 2^53, also those that a float holds. */
static const char *const no_reals[] = {
    STATUS_RSP "CA7F800000", STATUS_RSP "CAFF800000", STATUS_RSP "CA7F800001", STATUS_RSP "CAFFFFFFFF",
    STATUS_RSP "CB7FF0000000000000", STATUS_RSP "CBFFF0000000000000", STATUS_RSP "CB7FF0000000000001",
    STATUS_RSP "CF0020000000000001", STATUS_RSP "D30020000000000001", STATUS_RSP "D3FFDFFFFFFFFFFFFF",
    STATUS_RSP "CF0040000000000000", STATUS_RSP "D3FFC0000000000000", STATUS_RSP "D38000000000000000",
    STATUS_RSP "CF8000000000000000", STATUS_RSP "CFFFFFFFFFFFFFFFFF",
    STATUS_RSP "C0", STATUS_RSP "C2", STATUS_RSP "'0'", STATUS_RSP "9100", STATUS_RSP "80",
};

/* Fields of other kinds are as they were: a float stands for no whole number. */
static const char *const other_kinds[] = {
    "82 'command' 'ping' 'opId' CA3F800000", "82 'command' 'ping' 'opId' CB3FF0000000000000",
    "83 'command' 'detRsp' 'opId' 01 'sign' 94 CA00000000 000000",
};

/* geoLocation's three as whole numbers, with a float beside them, one of them too far, one missing, one too many, one nil. */
#define AT(position) "87 " CON_HAS " 'geoLocation' " position

static const struct {
    const char *name, *payload;
    double latitude, longitude, altitude;
} positions[] = {
    { "position: whole numbers", AT("93 30 0B CD0140"), 48, 11, 320 },
    { "position: the first a float", AT("93 CA42400000 D00B D1FFFE"), 48, 11, -2 },
    { "position: the last a float", AT("93 D3 7*00 30 CC0B CBC000000000000000"), 48, 11, -2 },
};

static const char *const no_positions[] = {
    AT("93 30 0B CF0020000000000001"), AT("92 30 0B"), AT("94 30 0B 00 00"), AT("93 30 C0 00"),
};

static chz_message status_rsp(uint64_t bits)
{
    chz_message m;
    memset(&m, 0, sizeof m);
    m.command = CHZ_STATUS_RSP;
    m.op_id = m.status_rsp.time = 1;
    m.status_rsp.message_len = 2;
    memcpy(m.data, "ok", 2);
    memcpy(&m.status_rsp.duty_cycle, &bits, 8);
    return m;
}

static void both_ways(size_t i)
{
    uint8_t frame[LENT_MOST];
    size_t len = spell_frame(cases[i].written, frame);
    const chz_message m = status_rsp(cases[i].bits);
    start(cases[i].name);
    lend_payload(cases[i].payload);
    expect_message(&m);
    JUDGE(read_lent(), ANSWER(CHZ_DONE, 0, 13), &payload, &message, &data);
    lend_message(&m);
    lend_filled(&room, FILLING, CHZ_ROOM);
    expect(&room, 0, frame, len);
    JUDGE(write_lent(), ANSWER(CHZ_DONE, 0, len), &message, &data, &room);
}

static void located(size_t i)
{
    chz_message m;
    memset(&m, 0, sizeof m);
    m.command = CHZ_CON;
    m.con.bs_eui = 5;
    memset(m.con.sn_bs_uuid, 0x2A, 16);
    m.con.version_major = m.con.has_version = m.con.has_geo_location = 1;
    m.con.latitude = positions[i].latitude;
    m.con.longitude = positions[i].longitude;
    m.con.altitude = positions[i].altitude;
    start(positions[i].name);
    lend_payload(positions[i].payload);
    expect_message(&m);
    JUDGE(read_lent(), ANSWER(CHZ_DONE, 0, 34), &payload, &message, &data);
}

static void refuse(const char *spelt)
{
    start(spelt);
    lend_payload(spelt);
    JUDGE(read_lent(), ANSWER(CHZ_INVALID, 0, 0), &payload, &message, &data);
}

void reals(void)
{
    for (size_t i = 0; i < COUNT(cases); i++) both_ways(i);
    for (size_t i = 0; i < COUNT(positions); i++) located(i);
    for (size_t i = 0; i < COUNT(no_reals); i++) refuse(no_reals[i]);
    for (size_t i = 0; i < COUNT(other_kinds); i++) refuse(other_kinds[i]);
    for (size_t i = 0; i < COUNT(no_positions); i++) refuse(no_positions[i]);
}
