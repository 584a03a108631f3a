/* Chozukpima: the proved core of a mioty service centre. Link with libchozukpima.a (x86-64, little endian).
 * docs/HOST.md shows the loop that a host writes around these calls, and what it must store before it sends a reply.
 *
 * Every buffer is lent for one call and none is kept. The buffers of one call must not overlap, not even two that are only
 * read, such as uuid and sign. Every call may be handed any contents (of a queue, see chz_sound): what is bad is refused by its
 * number, and a refused call changes no lent byte. NULL with length 0 is a buffer of no bytes and never crashes. It answers 1 in
 * chz_frame and 3 in chz_form; 15 for a session, a message, a uuid, a sign or a queue; in chz_read 15 for data, and 3 for a payload
 * where the others are good; 33 in chz_trace_open and chz_recorded, and 35 for chz_record's frame. Data that a message does not say may
 * be NULL in chz_write, chz_arrive and chz_begin. A room of no bytes is 20 where something is to be written. A table of five such
 * columns has no rows, so chz_find, chz_withdraw and chz_uplink answer 21 and chz_enrol 23.
 *
 * No answer depends on the floating point mode (MXCSR) that the host runs in. Nothing is allocated. 6 kB of stack are enough for
 * every call; measured with the older kit: chz_begin 3.1 kB, chz_write 3.0, chz_read 1.5, chz_arrive 1.2, the others below 1. */
#ifndef CHOZUKPIMA_H
#define CHOZUKPIMA_H

#include <stddef.h>
#include <stdint.h>
#include <string.h>

#ifdef __cplusplus
#define CHZ_SAME(what, number) static_assert((what) == (number), #what)
extern "C" {
#else
#define CHZ_SAME(what, number) _Static_assert((what) == (number), #what)
#endif

/* Why a call was refused. */
enum chz_refusal {
    CHZ_DONE = 0,
    CHZ_FRAME_INCOMPLETE = 1,
    CHZ_FRAME_IDENTIFIER = 2,
    CHZ_SIZE = 3,
    CHZ_CUT = 4,
    CHZ_NEVER_USED = 5,
    CHZ_TOO_DEEP = 6,
    CHZ_TOO_MANY_ELEMENTS = 7,
    CHZ_KEY_NOT_TEXT = 8,
    CHZ_OUTER_NOT_MAP = 9,
    CHZ_LEFT_OVER = 10,
    CHZ_NO_COMMAND = 11,
    CHZ_UNKNOWN_COMMAND = 12,
    CHZ_KEY_TWICE = 13,
    CHZ_FIELD_MISSING = 14,
    CHZ_INVALID = 15,
    CHZ_VERSION = 16,
    CHZ_STATE = 17,
    CHZ_ID_OUT_OF_ORDER = 18,
    CHZ_SIXTEEN_OPEN = 19,
    CHZ_ROOM_TOO_SHORT = 20,
    CHZ_NO_ROW = 21,
    CHZ_ALREADY_ENROLLED = 22,
    CHZ_NO_FREE_ROW = 23,
    CHZ_UNEQUAL_COLUMNS = 24,
    CHZ_STATION_NUMBER = 25,
    CHZ_STALE = 26,
    CHZ_QUEUE_ID_THERE = 27,
    CHZ_QUEUE_FULL = 28,
    CHZ_NO_QUEUE_ID = 29,
    CHZ_NOTHING_SUITABLE = 30,
    CHZ_NOT_A_TRACE = 31,
    CHZ_NOT_SHORTEST = 32,
    CHZ_INPUT_ENDS = 33,
    CHZ_TIME_SUM = 34,
    CHZ_NOT_ONE_FRAME = 35
};

/* The commands by number, as chz_message.command has them. */
enum chz_command {
    CHZ_CON = 0,
    CHZ_CON_RSP = 1,
    CHZ_STATUS_RSP = 2,
    CHZ_DET = 3,
    CHZ_DET_RSP = 4,
    CHZ_ATT_PRP = 5,
    CHZ_DET_PRP = 6,
    CHZ_UL_DATA = 7,
    CHZ_CON_CMP = 8,
    CHZ_PING = 9,
    CHZ_PING_RSP = 10,
    CHZ_PING_CMP = 11,
    CHZ_STATUS = 12,
    CHZ_STATUS_CMP = 13,
    CHZ_DET_CMP = 14,
    CHZ_ATT_PRP_RSP = 15,
    CHZ_ATT_PRP_CMP = 16,
    CHZ_DET_PRP_RSP = 17,
    CHZ_DET_PRP_CMP = 18,
    CHZ_UL_DATA_RSP = 19,
    CHZ_UL_DATA_CMP = 20,
    CHZ_DL_DATA_QUE = 21,
    CHZ_DL_DATA_QUE_RSP = 22,
    CHZ_DL_DATA_QUE_CMP = 23
};

/* Every call answers one number: bits 0 to 7 the refusal, 8 to 15 what happened, 16 to 63 the value: a length, a count, a row or
 * a place, as each call says. */
static inline unsigned chz_refused(uint64_t answer) { return (unsigned)(answer & 0xFF); }
static inline unsigned chz_happened(uint64_t answer) { return (unsigned)(answer >> 8 & 0xFF); }
static inline uint64_t chz_value(uint64_t answer) { return answer >> 16; }

/* What happened, in the answer of a session call. */
enum chz_step {
    CHZ_BEGUN = 1,     /* con: a new session; conRsp stands in the room */
    CHZ_RESUMED = 2,   /* con: the stored session goes on; conRsp stands in the room */
    CHZ_OPENED = 3,    /* conCmp: operations may start */
    CHZ_STARTED = 4,   /* ping, det or ulData of the station; its Rsp stands in the room */
    CHZ_COMPLETED = 5, /* the station completed its own operation; nothing is sent */
    CHZ_ANSWERED = 6,  /* the station answered an operation of the centre; the Cmp stands in the room */
    CHZ_ISSUED = 7,    /* chz_begin: the message stands in the room under the ID issued */
    CHZ_STORED = 8,    /* chz_lost: the session waits for its station */
    CHZ_NOTHING = 9    /* chz_lost while waiting: nothing changed */
};

/* What happened, in the answer of chz_uplink. */
enum chz_credit {
    CHZ_NEW = 17, /* to be billed: the first of its counter */
    CHZ_COPY = 18 /* the same packet heard by one more station, or again */
};

/* The two parts of the value in chz_uplink's answer: how many stations heard the packet so far, and the meter's row. A row of
 * 2^40 or more would show as the greatest value. */
static inline unsigned chz_uplink_hearers(uint64_t answer) { return (unsigned)(chz_value(answer) & 0xFF); }
static inline uint64_t chz_uplink_row(uint64_t answer) { return chz_value(answer) >> 8; }

/* Words for a log. Each takes any number; what is none of its own is "unknown". */
static inline const char *chz_refusal_name(unsigned refusal) {
    static const char *const names[] = {
        "done", "frame incomplete", "wrong identifier", "wrong size", "cut", "byte never used", "too deep", "too many elements",
        "key not text", "outer element not a map", "bytes left over", "no command", "unknown command", "key twice",
        "field missing", "invalid value", "version not 1.0", "does not fit the state", "operation ID out of order",
        "sixteen operations open", "room too short", "no such meter", "already enrolled", "no free row", "columns of unequal length",
        "station number over 63", "stale counter", "queue ID already there", "queue full", "no such queue ID", "nothing suitable",
        "not a trace", "number not in its shortest form", "input ends inside", "time past 2^64 - 1", "not one whole frame",
    };
    return refusal < sizeof names / sizeof *names ? names[refusal] : "unknown";
}

/* Spelled as on the wire. */
static inline const char *chz_command_name(unsigned command) {
    static const char *const names[] = {
        "con", "conRsp", "statusRsp", "det", "detRsp", "attPrp", "detPrp", "ulData", "conCmp", "ping", "pingRsp", "pingCmp",
        "status", "statusCmp", "detCmp", "attPrpRsp", "attPrpCmp", "detPrpRsp", "detPrpCmp", "ulDataRsp", "ulDataCmp",
        "dlDataQue", "dlDataQueRsp", "dlDataQueCmp",
    };
    return command < sizeof names / sizeof *names ? names[command] : "unknown";
}

/* What happened, in the answer of a session call or of chz_uplink. */
static inline const char *chz_step_name(unsigned happened) {
    static const char *const names[] = {
        "unknown", "begun", "resumed", "opened", "started", "completed", "answered", "issued", "stored", "nothing to store",
    };
    if (happened == CHZ_NEW) return "new";
    if (happened == CHZ_COPY) return "copy";
    return happened < sizeof names / sizeof *names ? names[happened] : "unknown";
}

/* The most bytes of a data entry: of ulData's user data, and of each of dlDataQue's. */
#define CHZ_USER_DATA 245

/* The most counters, the most data entries, and the most bytes of all data entries together, of a dlDataQue. */
#define CHZ_COUNTERS 16
#define CHZ_ENTRIES 16
#define CHZ_ENTRY_BYTES 800

/* The bytes that stand beside a message: user data, a status text, or a downlink's counters and data entries. */
#define CHZ_DATA 880

/* What det and ulData tell of a received packet. In this and the structs below, a field that may be absent has a mark has_...;
 * where that is 0, all bits of the field are 0. These marks, and fields that say yes or no, are 0 or 1. All else is 15.
 * A double is finite. A station may send it as a float or as an integer from -2^53 to 2^53, which is read as exactly that number,
 * 0 as plus zero; other integers are 15. It is always written as float 64. */
typedef struct chz_packet {
    uint64_t ep_eui;      /* meter */
    uint64_t rx_time;     /* nanoseconds since 1970, UTC: centre of the last subpacket */
    uint64_t rx_duration; /* nanoseconds, centre of the first subpacket to centre of the last */
    double snr;           /* dB */
    double rssi;          /* dBm */
    double eq_snr;        /* dB, the equivalent under white noise */
    uint8_t profile[16];  /* zeros behind profile_len */
    uint32_t packet_cnt;  /* the meter's packet counter */
    uint8_t profile_len;  /* bytes of profile, at most 16; 0: absent */
    uint8_t has_rx_duration;
    uint8_t has_eq_snr;
    uint8_t reserved;
} chz_packet;

typedef struct chz_con {
    uint64_t bs_eui;     /* base station */
    int64_t sn_bs_op_id; /* the station resumes only if its operations are known up to this ID */
    int64_t sn_sc_op_id; /* the centre's operations that the station knows, down to this ID */
    double latitude;     /* these three as the station gives them: BSSCI names no unit */
    double longitude;
    double altitude;
    uint8_t sn_bs_uuid[16];
    uint16_t version_major;
    uint16_t version_minor;
    uint16_t version_patch;
    uint8_t has_version; /* always 1: con must have it */
    uint8_t bidi;
    uint8_t has_geo_location;
    uint8_t has_sn_bs_op_id;
    uint8_t has_sn_sc_op_id;
} chz_con;

typedef struct chz_con_rsp {
    uint64_t sc_eui; /* service centre */
    uint8_t sn_sc_uuid[16];
    uint16_t version_major;
    uint16_t version_minor;
    uint16_t version_patch;
    uint8_t has_version;
    uint8_t sn_resume;
} chz_con_rsp;

typedef struct chz_status_rsp {
    uint64_t time;     /* nanoseconds since 1970, UTC: the station's clock */
    uint64_t uptime;   /* seconds */
    double duty_cycle; /* fraction of the last hour spent sending */
    double latitude;
    double longitude;
    double altitude;
    double temp;     /* degrees Celsius */
    double cpu_load; /* 1.0 is all cores busy */
    double mem_load; /* 1.0 is all memory in use */
    int32_t code;    /* POSIX error number; 0 is ok */
    uint8_t message_len; /* bytes of the text in data, at most 64 */
    uint8_t has_geo_location;
    uint8_t has_uptime;
    uint8_t has_temp;
    uint8_t has_cpu_load;
    uint8_t has_mem_load;
} chz_status_rsp;

typedef struct chz_det {
    chz_packet packet;
    uint8_t sign[4];
} chz_det;

typedef struct chz_det_rsp {
    uint8_t sign[4];
} chz_det_rsp;

typedef struct chz_att_prp {
    uint64_t ep_eui;
    uint8_t nwk_sn_key[16];
    uint32_t last_packet_cnt; /* the last one known, for the station */
    uint16_t sh_addr;
    uint8_t bidi;
    uint8_t dual_chan;
    uint8_t repetition;
    uint8_t wide_carr_off;
    uint8_t long_blk_dist;
} chz_att_prp;

typedef struct chz_det_prp {
    uint64_t ep_eui;
} chz_det_prp;

typedef struct chz_ul_data {
    chz_packet packet;
    uint8_t user_len; /* bytes of user data in data, at most CHZ_USER_DATA */
    uint8_t format;   /* of the user data; 0 where none was sent */
    uint8_t dl_open;
    uint8_t response_exp; /* only with dl_open */
    uint8_t dl_ack;
} chz_ul_data;

/* A downlink to be queued at a station. Where it is counter dependent, entry i is for packet counter dl.counter[i], and there is at
 * least one; else there is one entry, for any counter. An entry of no bytes is a pure acknowledgement. chz_valve fills a plain one;
 * chz_downlink and chz_downlink_entry_for fill one that is counter dependent. */
typedef struct chz_dl_data_que {
    uint64_t ep_eui;    /* meter */
    uint64_t que_id;    /* the host's number for it, to cancel it by; give each downlink another */
    double prio;        /* higher goes first. Exactly a float: 0.1f is one, 0.1 is 15. 0 where none was sent, and 0 is not sent */
    uint8_t entries;    /* data entries in dl, 1 to CHZ_ENTRIES; 1 where it is not counter dependent */
    uint8_t format;     /* of the user data; 0 where none was sent */
    uint8_t cnt_depend; /* the data are for the counters beside them */
    uint8_t has_response_exp;
    uint8_t response_exp; /* the meter is to answer */
    uint8_t has_response_prio;
    uint8_t response_prio; /* it is to answer with priority */
    uint8_t has_dl_wind_req;
    uint8_t dl_wind_req; /* it is to open a further downlink window */
    uint8_t has_exp_only;
    uint8_t exp_only; /* to be sent only if the meter expects a response */
} chz_dl_data_que;

/* What stands beside a dlDataQue, as many of each as it has entries; the rest is not looked at, nor are the counters of one that is
 * not counter dependent. chz_read sets the counters and lengths that are not used to 0 and leaves what is behind the last entry. The
 * bytes behind the last entry may be missing: data of a dlDataQue are 80 bytes and the sum of its lengths, or more. */
typedef struct chz_dl_entries {
    uint32_t counter[CHZ_COUNTERS]; /* the packet counter that each entry is for; one that repeats counts where it stands first */
    uint8_t length[CHZ_ENTRIES];    /* bytes of each entry, at most CHZ_USER_DATA */
    uint8_t bytes[CHZ_ENTRY_BYTES]; /* the entries one behind the other, at most CHZ_ENTRY_BYTES together */
} chz_dl_entries;

/* A message: op_id, command, and the fields of the union's member with the command's name; other commands have no fields.
 * Nothing else is looked at. User data or the status text goes into data, its length into user_len or message_len; a downlink's
 * counters and data entries go into dl. */
typedef struct chz_message {
    int64_t op_id;
    uint8_t command; /* enum chz_command */
    uint8_t reserved[7];
    union {
        chz_status_rsp status_rsp; /* the longest is first: an initialiser that names no member sets it, so all, to zeros */
        chz_con con;
        chz_con_rsp con_rsp;
        chz_det det;
        chz_det_rsp det_rsp;
        chz_att_prp att_prp;
        chz_det_prp det_prp;
        chz_ul_data ul_data;
        chz_dl_data_que dl_data_que;
    };
    union {
        uint8_t data[CHZ_DATA];
        chz_dl_entries dl;
    };
} chz_message;

/* The bytes of a chz_message in front of its data. */
#define CHZ_MESSAGE 104

/* A session with one base station. All zeros is a new one. The host stores it after every call that changes it, and looks, but
 * only the calls change it. A state over 2, a stored over 1 or a reserved byte other than 0 make it no session (15). */
typedef struct chz_session {
    uint64_t bs_eui;
    int64_t highest; /* highest station ID known */
    int64_t lowest;  /* lowest centre ID issued */
    int64_t station_id[16]; /* open operations that the station started; 0 is free */
    int64_t centre_id[16];  /* open operations that the centre started */
    uint8_t station_kind[16]; /* enum chz_command of the start */
    uint8_t centre_kind[16];
    uint8_t sn_bs_uuid[16];
    uint8_t sn_sc_uuid[16];
    uint8_t state; /* enum chz_state */
    uint8_t stored; /* 0 or 1 */
    uint8_t reserved[22]; /* zeros: kept for later releases, so that the struct need not move */
} chz_session;

enum chz_state { CHZ_WAITING = 0, CHZ_CONNECTING = 1, CHZ_OPEN = 2 };

CHZ_SAME(offsetof(chz_message, command), 8);
CHZ_SAME(offsetof(chz_message, con), 16);
CHZ_SAME(offsetof(chz_message, data), CHZ_MESSAGE);
CHZ_SAME(sizeof(chz_packet), 72);
CHZ_SAME(offsetof(chz_packet, profile), 48);
CHZ_SAME(offsetof(chz_packet, packet_cnt), 64);
CHZ_SAME(offsetof(chz_packet, has_eq_snr), 70);
CHZ_SAME(offsetof(chz_con, latitude), 24);
CHZ_SAME(offsetof(chz_con, sn_bs_uuid), 48);
CHZ_SAME(offsetof(chz_con, version_major), 64);
CHZ_SAME(offsetof(chz_con, has_sn_sc_op_id), 74);
CHZ_SAME(offsetof(chz_con_rsp, version_major), 24);
CHZ_SAME(offsetof(chz_con_rsp, sn_resume), 31);
CHZ_SAME(offsetof(chz_message, status_rsp) + sizeof(chz_status_rsp), CHZ_MESSAGE);
CHZ_SAME(offsetof(chz_status_rsp, temp), 48);
CHZ_SAME(offsetof(chz_status_rsp, code), 72);
CHZ_SAME(offsetof(chz_status_rsp, has_mem_load), 81);
CHZ_SAME(offsetof(chz_det, sign), 72);
CHZ_SAME(offsetof(chz_att_prp, last_packet_cnt), 24);
CHZ_SAME(offsetof(chz_att_prp, long_blk_dist), 34);
CHZ_SAME(offsetof(chz_ul_data, user_len), 72);
CHZ_SAME(offsetof(chz_ul_data, dl_ack), 76);
CHZ_SAME(offsetof(chz_dl_data_que, entries), 24);
CHZ_SAME(offsetof(chz_dl_data_que, exp_only), 34);
CHZ_SAME(sizeof(chz_dl_entries), CHZ_DATA);
CHZ_SAME(offsetof(chz_dl_entries, length), 64);
CHZ_SAME(offsetof(chz_dl_entries, bytes), 80);
CHZ_SAME(sizeof(chz_message), CHZ_MESSAGE + CHZ_DATA);
CHZ_SAME(sizeof(chz_session), 368);
CHZ_SAME(offsetof(chz_session, station_id), 24);
CHZ_SAME(offsetof(chz_session, centre_id), 152);
CHZ_SAME(offsetof(chz_session, station_kind), 280);
CHZ_SAME(offsetof(chz_session, sn_bs_uuid), 312);
CHZ_SAME(offsetof(chz_session, state), 344);
CHZ_SAME(offsetof(chz_session, reserved), 346);

/* A frame's payload stands behind so many bytes; and so many bytes hold the longest frame that may arrive. */
#define CHZ_FRAME_HEAD 12
#define CHZ_INPUT 4108

/* The longest frame that is written: a room of so many bytes is enough for each, and a dlDataQue with everything needs them all. */
#define CHZ_ROOM 1909

/* A frame at the start of the bytes: the value is how many bytes it takes; its payload is all of them behind CHZ_FRAME_HEAD.
 * Refusals 1 (wait for more bytes), 2, 3. */
uint64_t chz_frame(const uint8_t *bytes, size_t bytes_len);

/* The form of a payload alone, whatever its command: the value is the count of elements. Refusals 3 to 10; for 4 to 10 the value
 * is the byte place. */
uint64_t chz_form(const uint8_t *payload, size_t payload_len);

/* A payload into a message and its data: the value is the count of elements. Refusals 3 to 15; for 4 to 10 the value is the byte
 * place. All CHZ_MESSAGE bytes of the message are set, and as many of data as the message says. A message that is not CHZ_MESSAGE
 * bytes long, or data of fewer than CHZ_DATA, are 15 before all others. What it leaves is never refused with 15 by chz_write, nor by
 * chz_arrive or chz_begin where session, uuid and sign are good. */
uint64_t chz_read(const uint8_t *payload, size_t payload_len, uint8_t *message, size_t message_len, uint8_t *data, size_t data_len);

/* A message as a whole frame at the start of the room: the value is its length. Refusals 15, 20. 15 is also a message that is not
 * CHZ_MESSAGE bytes long, or one that says more bytes of data than there are. */
uint64_t chz_write(const uint8_t *message, size_t message_len, const uint8_t *data, size_t data_len, uint8_t *room,
                   size_t room_len);

/* A message arrives from the station: what happened, and the value is how many bytes of reply stand in the room (0: none).
 * uuid is 16 fresh bytes, used where a session begins; sign is the 4 bytes for detRsp; they must not overlap. Refusals in this
 * order: while waiting 15, 17, 18, 16, 20; while connecting 15, 17; while open 15, 17, 18, 19, 20. 15 is bytes that are no
 * session, a record outside its ranges or a buffer of a wrong length. */
uint64_t chz_arrive(uint8_t *session, size_t session_len, const uint8_t *message, size_t message_len, const uint8_t *data,
                    size_t data_len, uint64_t sc_eui, const uint8_t *uuid, size_t uuid_len, const uint8_t *sign, size_t sign_len,
                    uint8_t *room, size_t room_len);

/* The centre starts ping, status, attPrp, detPrp or dlDataQue: the value is how many bytes stand in the room, under the ID issued
 * (session.lowest), whatever op_id was handed in. Refusals 17, 18, 19, 15, 20; bytes that are no session or a buffer of a wrong
 * length are 15 before these. */
uint64_t chz_begin(uint8_t *session, size_t session_len, const uint8_t *message, size_t message_len, const uint8_t *data,
                   size_t data_len, uint8_t *room, size_t room_len);

/* The connection is lost: the session waits, to be resumed. A session that a host loads after a restart goes through this call
 * first: it was open when it was stored. Refusal 15. */
uint64_t chz_lost(uint8_t *session, size_t session_len);

/* The downlink queue of a station: what waits for its meters until one of them opens a window. All zeros is an empty one. Each of its
 * CHZ_QUEUE places is a message, used exactly if its command is CHZ_DL_DATA_QUE; only the calls change it, each at most one place,
 * which its answer names. It is no part of the session, which is asked to send what was chosen (chz_begin). A queue takes 31,488 bytes,
 * those of 64 stations 2,015,232. Every call costs a walk over the places, not over their data. */
#define CHZ_QUEUE 32

typedef struct chz_queue {
    chz_message entry[CHZ_QUEUE];
} chz_queue;

CHZ_SAME(sizeof(chz_queue), 31488);

/* Takes the lowest free place for a dlDataQue; the value is the place. Its op_id is kept and not looked at. Refusals 15 (a bad record,
 * or one of another command), 27 (another entry has this queue ID, whatever its meter), 28 (all places are used). A queue that is not
 * sizeof(chz_queue) bytes long is 15 in this call and the next two. */
uint64_t chz_add(uint8_t *queue, size_t queue_len, const uint8_t *message, size_t message_len, const uint8_t *data, size_t data_len);

/* Frees the place of a queue ID; the value is the place. Refusals 15, 29. */
uint64_t chz_cancel(uint8_t *queue, size_t queue_len, uint64_t que_id);

/* Chooses what is sent to a meter in the downlink window of its packet counter: of the entries for this meter that are not counter
 * dependent or name this counter, and are not exp_only unless the meter expects a response (expected not 0), the one with the highest
 * prio, then the smallest queue ID. It is removed: its place is free, and all but its command still stands there until the next
 * chz_add. The value says where (chz_chosen_place, chz_chosen_from, chz_chosen_len). Entries whose counters have passed stay until they
 * are cancelled. Refusals 15, 30. */
uint64_t chz_choose(uint8_t *queue, size_t queue_len, uint64_t meter, uint32_t counter, uint8_t expected);

/* Whether these bytes are a queue: of its length, each entry may be written, no queue ID stands twice. The value is 1 or 0; it is 1 of
 * every queue that the calls made from an empty one. For a host that loads a queue, once: of other contents the calls promise only to
 * stay in range and to end, and that chz_choose answers an entry that stands there; where its data are said to be is then not promised. */
uint64_t chz_sound(const uint8_t *queue, size_t queue_len);

/* The place that was chosen, and its data for the counter: their place among the bytes beside the message, and their length. */
static inline unsigned chz_chosen_place(uint64_t answer) { return (unsigned)(chz_value(answer) & 0xFF); }
static inline unsigned chz_chosen_len(uint64_t answer) { return (unsigned)(chz_value(answer) >> 8 & 0xFF); }
static inline unsigned chz_chosen_from(uint64_t answer) { return (unsigned)(chz_value(answer) >> 16); }

/* The meter table: five columns of the host's, equally long (else 24). used: 0 is free; heard: one bit a station. */

/* The meter's row. Refusals 24, 21. */
uint64_t chz_find(const uint8_t *used, size_t used_len, const uint64_t *eui, size_t eui_len, const uint16_t *sh_addr,
                  size_t sh_addr_len, const uint32_t *last, size_t last_len, const uint64_t *heard, size_t heard_len,
                  uint64_t meter);

/* Takes the lowest free row for a meter; the value is the row. last_billed is the last counter already billed: only packets
 * with a greater one are credited, so a packet 0 never is. Refusals 24, 22, 23. */
uint64_t chz_enrol(uint8_t *used, size_t used_len, uint64_t *eui, size_t eui_len, uint16_t *sh_addr, size_t sh_addr_len,
                   uint32_t *last, size_t last_len, uint64_t *heard, size_t heard_len, uint64_t meter,
                   uint16_t meter_sh_addr, uint32_t last_billed);

/* Frees the meter's row; the value is the row. Refusals 24, 21. */
uint64_t chz_withdraw(uint8_t *used, size_t used_len, const uint64_t *eui, size_t eui_len, const uint16_t *sh_addr,
                      size_t sh_addr_len, const uint32_t *last, size_t last_len, const uint64_t *heard, size_t heard_len,
                      uint64_t meter);

/* Credits a packet: CHZ_NEW or CHZ_COPY; the value is how many stations heard it so far and, 256 times, the row, of which last
 * and heard may have changed (chz_uplink_hearers, chz_uplink_row). station is 0 to 63. Refusals 24, 25, 21, 26. 26 is a counter
 * below the last one, or the one enrolled with: it says "not now", and leaves open whether that packet was ever billed. */
uint64_t chz_uplink(const uint8_t *used, size_t used_len, const uint64_t *eui, size_t eui_len, const uint16_t *sh_addr,
                    size_t sh_addr_len, uint32_t *last, size_t last_len, uint64_t *heard, size_t heard_len, uint64_t meter,
                    uint32_t counter, uint64_t station);

/* A trace: what arrived on a day, for the program replay, which plays it through sessions and a table again. It starts with the number
 * 1; then records follow, each of them the nanoseconds since the record before it, the station's number, the length of a frame, and that
 * whole frame. Numbers are in groups of seven bits, lowest first, in the shortest form. HOST.md shows where in the loop a host records. */

/* The longest record: a room of so many bytes is enough for each. */
#define CHZ_RECORD 4121

/* The start of a trace, at the start of the room: the value is its length, 1. Refusal 20. */
uint64_t chz_trace_start(uint8_t *room, size_t room_len);

/* A record at the start of the room: the value is its length. *time is the sum of all gaps before it, 0 before the first record; gap is
 * added to it where the call is not refused. frame is a whole frame, as chz_frame tells it. Refusals 34 (the sum passes 2^64 - 1),
 * 25, 35 (not exactly one whole frame), 20. time is never NULL. */
uint64_t chz_record(uint64_t *time, uint64_t gap, uint64_t station, const uint8_t *frame, size_t frame_len, uint8_t *room,
                    size_t room_len);

/* The start of a trace in bytes: the value is how many it takes. Refusals 33 (the bytes end inside a number: wait for more, if more
 * may come), 32 (not the shortest form, or past 2^64 - 1), 31 (not the number 1). */
uint64_t chz_trace_open(const uint8_t *bytes, size_t bytes_len);

/* The record at the start of the bytes: its length, its frame's length and its station (chz_recorded_len, chz_recorded_frame_len,
 * chz_recorded_station); the frame is its last bytes. Its gap is added to *time, which is never NULL. Refusals from left to right: the
 * gap's 33 and 32, 34, the station's 33 and 32, 25, the length's 33 and 32, 35 (under 13 or over CHZ_INPUT), 33 (the bytes end inside
 * the frame), 35 (not exactly one whole frame). */
uint64_t chz_recorded(uint64_t *time, const uint8_t *bytes, size_t bytes_len);

/* The three parts of the value in chz_recorded's answer. */
static inline size_t chz_recorded_len(uint64_t answer) { return (size_t)(chz_value(answer) & 0xFFFF); }
static inline size_t chz_recorded_frame_len(uint64_t answer) { return (size_t)(chz_value(answer) >> 16 & 0xFFFF); }
static inline unsigned chz_recorded_station(uint64_t answer) { return (unsigned)(chz_value(answer) >> 32); }

/* The same calls on the structs, for hosts that hold these. */
typedef struct chz_table {
    uint8_t *used;
    uint64_t *eui;
    uint16_t *sh_addr;
    uint32_t *last;
    uint64_t *heard;
    size_t rows;
} chz_table;

static inline uint64_t chz_message_read(const uint8_t *payload, size_t payload_len, chz_message *message) {
    return chz_read(payload, payload_len, (uint8_t *)message, CHZ_MESSAGE, message->data, CHZ_DATA);
}

static inline uint64_t chz_message_write(const chz_message *message, uint8_t *room, size_t room_len) {
    return chz_write((const uint8_t *)message, CHZ_MESSAGE, message->data, CHZ_DATA, room, room_len);
}

static inline uint64_t chz_session_arrive(chz_session *session, const chz_message *message, uint64_t sc_eui,
                                          const uint8_t uuid[16], const uint8_t sign[4], uint8_t *room, size_t room_len) {
    return chz_arrive((uint8_t *)session, sizeof *session, (const uint8_t *)message, CHZ_MESSAGE, message->data, CHZ_DATA, sc_eui,
                      uuid, 16, sign, 4, room, room_len);
}

static inline uint64_t chz_session_begin(chz_session *session, const chz_message *message, uint8_t *room, size_t room_len) {
    return chz_begin((uint8_t *)session, sizeof *session, (const uint8_t *)message, CHZ_MESSAGE, message->data, CHZ_DATA, room,
                     room_len);
}

static inline uint64_t chz_session_lost(chz_session *session) { return chz_lost((uint8_t *)session, sizeof *session); }

/* A downlink is filled in two or three lines, then added to a queue or started in a session:
 *     chz_valve(&m, meter, que_id, shut, sizeof shut);
 *     m.dl_data_que.prio = 2;
 * or, with data for several packet counters:
 *     chz_downlink(&m, meter, que_id);
 *     for (i = 0; i < 4; i++) chz_downlink_entry_for(&m, next + i, shut_at[i], sizeof shut_at[i]);
 * chz_downlink begins one: no entries, all else 0. */
static inline void chz_downlink(chz_message *message, uint64_t ep_eui, uint64_t que_id) {
    memset(message, 0, sizeof *message);
    message->command = CHZ_DL_DATA_QUE;
    message->dl_data_que.ep_eui = ep_eui;
    message->dl_data_que.que_id = que_id;
}

/* One data entry more, behind those that are there. For the two calls below. */
static inline unsigned chz_downlink_append(chz_message *message, const uint8_t *data, size_t data_len) {
    size_t used = 0, i, n = message->dl_data_que.entries;
    if (n >= CHZ_ENTRIES || data_len > CHZ_USER_DATA) return CHZ_INVALID;
    for (i = 0; i < n; i++) used += message->dl.length[i];
    if (used + data_len > CHZ_ENTRY_BYTES) return CHZ_INVALID;
    if (data_len) memcpy(message->dl.bytes + used, data, data_len);
    message->dl.length[n] = (uint8_t)data_len;
    message->dl_data_que.entries = (uint8_t)(n + 1);
    return CHZ_DONE;
}

/* The only data entry, for any packet counter. CHZ_DONE, or CHZ_INVALID where it is too long or not the first, and nothing changes. */
static inline unsigned chz_downlink_entry(chz_message *message, const uint8_t *data, size_t data_len) {
    if (message->dl_data_que.entries) return CHZ_INVALID;
    return chz_downlink_append(message, data, data_len);
}

/* One data entry more, for one packet counter: the downlink is counter dependent. CHZ_DONE, or CHZ_INVALID where there is no place for
 * it (CHZ_ENTRIES, CHZ_USER_DATA, CHZ_ENTRY_BYTES) or the entry before it is for any counter, and nothing changes. */
static inline unsigned chz_downlink_entry_for(chz_message *message, uint32_t counter, const uint8_t *data, size_t data_len) {
    size_t n = message->dl_data_que.entries;
    if (n && !message->dl_data_que.cnt_depend) return CHZ_INVALID;
    if (chz_downlink_append(message, data, data_len) != CHZ_DONE) return CHZ_INVALID;
    message->dl.counter[n] = counter;
    message->dl_data_que.cnt_depend = 1;
    return CHZ_DONE;
}

/* A plain valve command: one meter, one data entry, for any counter. CHZ_DONE, or CHZ_INVALID for more than CHZ_USER_DATA bytes. */
static inline unsigned chz_valve(chz_message *message, uint64_t ep_eui, uint64_t que_id, const uint8_t *data, size_t data_len) {
    chz_downlink(message, ep_eui, que_id);
    return chz_downlink_entry(message, data, data_len);
}

/* What chz_queue_choose chose: the entry with its ID, format, prio and flags, and its data for the counter. Both stand in the queue
 * until the next chz_queue_add. */
typedef struct chz_chosen {
    const chz_dl_data_que *entry;
    const uint8_t *data;
    size_t data_len;
} chz_chosen;

static inline uint64_t chz_queue_add(chz_queue *queue, const chz_message *message) {
    return chz_add((uint8_t *)queue, sizeof *queue, (const uint8_t *)message, CHZ_MESSAGE, message->data, CHZ_DATA);
}

static inline uint64_t chz_queue_cancel(chz_queue *queue, uint64_t que_id) {
    return chz_cancel((uint8_t *)queue, sizeof *queue, que_id);
}

/* chosen is set where the answer is no refusal. An entry of a queue that is not sound may say more data than stand beside it: none are
 * shown. */
static inline uint64_t chz_queue_choose(chz_queue *queue, uint64_t meter, uint32_t counter, int expected, chz_chosen *chosen) {
    uint64_t answer = chz_choose((uint8_t *)queue, sizeof *queue, meter, counter, expected != 0);
    if (!chz_refused(answer)) {
        const chz_message *m = &queue->entry[chz_chosen_place(answer)];
        const size_t from = chz_chosen_from(answer), len = chz_chosen_len(answer);
        const int there = from + len <= CHZ_DATA;
        chosen->entry = &m->dl_data_que;
        chosen->data = there ? m->data + from : m->data;
        chosen->data_len = there ? len : 0;
    }
    return answer;
}

static inline int chz_queue_sound(const chz_queue *queue) { return chz_value(chz_sound((const uint8_t *)queue, sizeof *queue)) == 1; }

/* What was chosen as a message to start in the session, which is none of the queue's own: as it was queued, with the chosen data alone,
 * and for this counter where it is counter dependent. A host that lets the station use a later window copies the queue's whole place
 * instead and sets its command. */
static inline void chz_chosen_message(const chz_chosen *chosen, uint32_t counter, chz_message *message) {
    chz_downlink(message, chosen->entry->ep_eui, chosen->entry->que_id);
    message->dl_data_que = *chosen->entry;
    message->dl_data_que.entries = 1;
    if (message->dl_data_que.cnt_depend) message->dl.counter[0] = counter;
    message->dl.length[0] = (uint8_t)chosen->data_len;
    if (chosen->data_len) memcpy(message->dl.bytes, chosen->data, chosen->data_len);
}

static inline uint64_t chz_table_find(const chz_table *t, uint64_t meter) {
    return chz_find(t->used, t->rows, t->eui, t->rows, t->sh_addr, t->rows, t->last, t->rows, t->heard, t->rows, meter);
}

static inline uint64_t chz_table_enrol(chz_table *t, uint64_t meter, uint16_t sh_addr, uint32_t last_billed) {
    return chz_enrol(t->used, t->rows, t->eui, t->rows, t->sh_addr, t->rows, t->last, t->rows, t->heard, t->rows, meter, sh_addr,
                     last_billed);
}

static inline uint64_t chz_table_withdraw(chz_table *t, uint64_t meter) {
    return chz_withdraw(t->used, t->rows, t->eui, t->rows, t->sh_addr, t->rows, t->last, t->rows, t->heard, t->rows, meter);
}

static inline uint64_t chz_table_uplink(chz_table *t, uint64_t meter, uint32_t counter, uint64_t station) {
    return chz_uplink(t->used, t->rows, t->eui, t->rows, t->sh_addr, t->rows, t->last, t->rows, t->heard, t->rows, meter, counter,
                      station);
}

#ifdef __cplusplus
}
#endif
#endif
