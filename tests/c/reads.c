/* chz_read: document 01's examples, the errors easily made, and each refusal. */
#include <string.h>

#include "cases.h"
#include "messages.h"

static void ping(chz_message *m)
{
    m->command = CHZ_PING;
    m->op_id = 1;
}

static void con(chz_message *m)
{
    m->command = CHZ_CON;
    m->con.has_version = 1;
    m->con.version_major = 1;
    m->con.bs_eui = 5;
    memset(m->con.sn_bs_uuid, 0x2A, 16);
}

static void reading(chz_message *m)
{
    m->command = CHZ_UL_DATA;
    m->op_id = 7;
    m->ul_data.packet.ep_eui = 9;
    m->ul_data.packet.rx_time = 1;
    m->ul_data.packet.packet_cnt = 100;
    m->ul_data.packet.snr = 10;
    m->ul_data.packet.rssi = -97;
    m->ul_data.user_len = 3;
    memcpy(m->data, "\1\2\3", 3);
}

static void no_data(chz_message *m)
{
    reading(m);
    m->ul_data.user_len = 0;
}

static void status(chz_message *m)
{
    m->command = CHZ_STATUS_RSP;
    m->op_id = m->status_rsp.time = 1;
}

static void status_text(chz_message *m)
{
    status(m);
    m->status_rsp.message_len = 64;
    memset(m->data, 'm', 64);
}

#define BUT_EUI                                                                                              \
    "'command' 'ulData' 'opId' 07 'rxTime' 01 'packetCnt' 64 'snr' CA41200000 'rssi' CAC2C20000 "            \
    "'userData' 93010203 'dlOpen' C2 'responseExp' C2 'dlAck' C2 "
#define BUT_DATA                                                                                             \
    "'command' 'ulData' 'opId' 07 'epEui' 09 'rxTime' 01 'packetCnt' 64 'snr' CA41200000 'rssi' CAC2C20000 " \
    "'dlOpen' C2 'responseExp' C2 'dlAck' C2 'userData' "
#define BUT_SIGNAL                                                                                           \
    "'command' 'ulData' 'opId' 07 'epEui' 09 'rxTime' 01 'packetCnt' 64 'snr' CA41200000 "                   \
    "'userData' 93010203 'dlOpen' C2 'responseExp' C2 'dlAck' C2 "
#define BUT_FLAGS                                                                                            \
    "'command' 'ulData' 'opId' 07 'epEui' 09 'rxTime' 01 'packetCnt' 64 'snr' CA41200000 'rssi' CAC2C20000 " \
    "'userData' 93010203 'dlAck' C2 "
#define BUT_TEXT "'command' 'statusRsp' 'opId' 01 'code' 00 'time' 01 'dutyCycle' CA00000000 'message' "

static const struct {
    const char *name, *payload;
    unsigned refused, value; /* the count of elements, or for 4 to 10 the place */
    void (*fill)(chz_message *); /* the message that must be read */
} cases[] = {
    { "P", PING, CHZ_DONE, 5, ping },
    { "P with a key that ping has not", "83 'command' 'ping' 'opId' 01 'epEui' 07", CHZ_DONE, 7, ping },
    { "P with its ID in eight bytes", "82 'command' 'ping' 'opId' D30000000000000001", CHZ_DONE, 5, ping },
    { "P in the other order", "82 'opId' 01 'command' 'ping'", CHZ_DONE, 5, ping },
    { "P and a byte", PING " 00", CHZ_LEFT_OVER, 20, NULL },
    { "P without its last byte", "82 'command' 'ping' 'opId'", CHZ_CUT, 19, NULL },
    { "an empty map", "80", CHZ_NO_COMMAND, 0, NULL },
    { "an empty array", "90", CHZ_OUTER_NOT_MAP, 0, NULL },
    { "the byte never used", "C1", CHZ_NEVER_USED, 0, NULL },
    { "seven nested arrays", "83 'command' 'ping' 'opId' 01 'x' 6*91 90", CHZ_DONE, 13, ping },
    { "eight nested arrays", "83 'command' 'ping' 'opId' 01 'x' 7*91 90", CHZ_TOO_DEEP, 29, NULL },
    { "1,024 elements", "83 'command' 'ping' 'opId' 01 'x' DC03F9 1017*C0", CHZ_DONE, 1024, ping },
    { "1,025 elements", "83 'command' 'ping' 'opId' 01 'x' DC03FA 1018*C0", CHZ_TOO_MANY_ELEMENTS, 1042, NULL },
    { "4,096 bytes", "83 'command' 'ping' 'opId' 01 'x' C50FE7 4071*00", CHZ_DONE, 7, ping },
    { "4,097 bytes", "83 'command' 'ping' 'opId' 01 'x' C50FE8 4072*00", CHZ_SIZE, 0, NULL },
    { "no payload", "", CHZ_SIZE, 0, NULL },
    { "a key that is a number", "81 01 01", CHZ_KEY_NOT_TEXT, 1, NULL },
    { "a key inside a value that is a number", "83 'command' 'ping' 'opId' 01 'x' 81 01 01", CHZ_KEY_NOT_TEXT, 23, NULL },
    { "nil for command", "82 'command' C0 'opId' 01", CHZ_NO_COMMAND, 0, NULL },
    { "command twice", "83 'command' 'ping' 'command' 'ping' 'opId' 01", CHZ_NO_COMMAND, 0, NULL },
    { "unknown command", "82 'command' 'pong' 'opId' 01", CHZ_UNKNOWN_COMMAND, 0, NULL },
    { "opId twice", "83 'command' 'ping' 'opId' 01 'opId' 01", CHZ_KEY_TWICE, 0, NULL },
    { "opId twice before a missing field", "83 'command' 'detPrp' 'opId' 01 'opId' 01", CHZ_KEY_TWICE, 0, NULL },
    { "an unknown key twice", "84 'command' 'ping' 'opId' 01 'x' 01 'x' C0", CHZ_DONE, 9, ping },
    { "no opId", "81 'command' 'ping'", CHZ_FIELD_MISSING, 0, NULL },
    { "nil for opId is not absent", "82 'command' 'ping' 'opId' C0", CHZ_INVALID, 0, NULL },
    { "nil for an optional field is not absent", "87 " CON_HAS " 'geoLocation' C0", CHZ_INVALID, 0, NULL },
    { "nil for a field that is not kept is not absent", "87 " CON_HAS " 'vendor' C0", CHZ_INVALID, 0, NULL },
    { "con", CON, CHZ_DONE, 29, con },
    { "bsEui inside info does not count twice", "87 " CON_HAS " 'info' 81 'bsEui' 06", CHZ_DONE, 33, con },
    { "bsEui only inside info", "86 'command' 'con' 'opId' 00 'version' '1.0.0' 'bidi' C2 'snBsUuid' DC0010 16*2A 'info' 81 'bsEui' 05",
      CHZ_FIELD_MISSING, 0, NULL },
    { "epEui only inside info", "8B " BUT_EUI "'info' 81 'epEui' 09", CHZ_FIELD_MISSING, 0, NULL },
    { "epEui only inside subpackets", "8B " BUT_EUI "'subpackets' 81 'epEui' 09", CHZ_FIELD_MISSING, 0, NULL },
    { "a reading, float 32 widened", READING, CHZ_DONE, 26, reading },
    { "a reading, float 64", "8B " BUT_SIGNAL "'rssi' CBC058400000000000", CHZ_DONE, 26, reading },
    { "a format 0 is an absent one", "8C " READING_HAS " 'format' 00", CHZ_DONE, 28, reading },
    { "a reading, -97 as a whole number", "8B " BUT_SIGNAL "'rssi' D09F", CHZ_DONE, 26, reading },
    { "a reading, whole number past 2^53", "8B " BUT_SIGNAL "'rssi' CF0020000000000001", CHZ_INVALID, 0, NULL },
    { "a real that is no number", "8B " BUT_SIGNAL "'rssi' CA7FC00000", CHZ_INVALID, 0, NULL },
    { "responseExp without dlOpen", "8B " BUT_FLAGS "'dlOpen' C2 'responseExp' C3", CHZ_INVALID, 0, NULL },
    { "an array that states more than there is", "8B " BUT_DATA "DCFFFF 010203", CHZ_CUT, 110, NULL },
    { "an array that states four thousand millions", "8B " BUT_DATA "DDFFFFFFFF 010203", CHZ_CUT, 112, NULL },
    { "an array that states less than there is", "8B " BUT_DATA "92010203", CHZ_LEFT_OVER, 107, NULL },
    { "userData of 246 bytes", "8B " BUT_DATA "DC00F6 246*00", CHZ_INVALID, 0, NULL },
    { "a byte over 255", "8B " BUT_DATA "93 01 02 CD0100", CHZ_INVALID, 0, NULL },
    { "userData as bin", "8B " BUT_DATA "C403010203", CHZ_INVALID, 0, NULL },
    { "userData of no bytes", "8B " BUT_DATA "90", CHZ_DONE, 23, no_data },
    { "a text of no bytes", "86 " BUT_TEXT "A0", CHZ_DONE, 13, status },
    { "a text of 64 bytes", "86 " BUT_TEXT "D940 64*6D", CHZ_DONE, 13, status_text },
    { "a text of 65 bytes", "86 " BUT_TEXT "D941 65*6D", CHZ_INVALID, 0, NULL },
    /* Good data in a message that is refused for something else: none of it may be left behind. */
    { "userData, then a byte left over", READING " 00", CHZ_LEFT_OVER, 108, NULL },
    { "userData, then a key twice", "8C " READING_HAS " 'dlAck' C2", CHZ_KEY_TWICE, 0, NULL },
    { "userData, epEui missing", "8A " BUT_EUI, CHZ_FIELD_MISSING, 0, NULL },
    { "userData, then a bad format", "8C " READING_HAS " 'format' CD0100", CHZ_INVALID, 0, NULL },
    { "a text, then a bad temp", "87 " BUT_TEXT "'ok' 'temp' C0", CHZ_INVALID, 0, NULL },
};

/* What is refused changes neither message nor data. */
static void each_payload(void)
{
    for (size_t i = 0; i < COUNT(cases); i++) {
        chz_message m;
        memset(&m, 0, sizeof m);
        start(cases[i].name);
        lend_payload(cases[i].payload);
        if (cases[i].fill) cases[i].fill(&m), expect_message(&m);
        JUDGE(read_lent(), ANSWER(cases[i].refused, 0, cases[i].value), &payload, &message, &data);
    }
}

/* The form alone: the same answer where a payload is read or its form is refused. */
static void each_form(void)
{
    for (size_t i = 0; i < COUNT(cases); i++) {
        if (cases[i].refused > CHZ_LEFT_OVER) continue;
        start(cases[i].name);
        lend_payload(cases[i].payload);
        JUDGE(chz_form(payload.at, payload.len), ANSWER(cases[i].refused, 0, cases[i].value), &payload);
    }
}

/* A message of a wrong length is 15 before all others; the struct's own length and the former one are wrong, too. */
static void each_wrong_length(void)
{
    static const size_t lengths[] = { 0, 1, CHZ_MESSAGE - 1, CHZ_MESSAGE + 1, sizeof(chz_message), 584 };
    for (size_t i = 0; i < 2 * COUNT(lengths); i++) {
        start("message buffer of a wrong length");
        lend_payload(i % 2 ? PING : "C1");
        lend_filled(&message, FILLING, lengths[i / 2]);
        JUDGE(read_lent(), ANSWER(CHZ_INVALID, 0, 0), &payload, &message, &data);
    }
}

void reads(void)
{
    each_payload();
    each_form();
    each_wrong_length();
}
