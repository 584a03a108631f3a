/* The header's words for refusals, commands and steps, by their enumerators; and every other number is unknown. */
#include <limits.h>
#include <string.h>

#include "cases.h"
#include "chozukpima.h"
#include "lent.h"

struct word { unsigned number; const char *word; };

static const struct word refusals[] = {
    { CHZ_DONE, "done" }, { CHZ_FRAME_INCOMPLETE, "frame incomplete" }, { CHZ_FRAME_IDENTIFIER, "wrong identifier" },
    { CHZ_SIZE, "wrong size" }, { CHZ_CUT, "cut" }, { CHZ_NEVER_USED, "byte never used" }, { CHZ_TOO_DEEP, "too deep" },
    { CHZ_TOO_MANY_ELEMENTS, "too many elements" }, { CHZ_KEY_NOT_TEXT, "key not text" },
    { CHZ_OUTER_NOT_MAP, "outer element not a map" }, { CHZ_LEFT_OVER, "bytes left over" }, { CHZ_NO_COMMAND, "no command" },
    { CHZ_UNKNOWN_COMMAND, "unknown command" }, { CHZ_KEY_TWICE, "key twice" }, { CHZ_FIELD_MISSING, "field missing" },
    { CHZ_INVALID, "invalid value" }, { CHZ_VERSION, "version not 1.0" }, { CHZ_STATE, "does not fit the state" },
    { CHZ_ID_OUT_OF_ORDER, "operation ID out of order" }, { CHZ_SIXTEEN_OPEN, "sixteen operations open" },
    { CHZ_ROOM_TOO_SHORT, "room too short" }, { CHZ_NO_ROW, "no such meter" }, { CHZ_ALREADY_ENROLLED, "already enrolled" },
    { CHZ_NO_FREE_ROW, "no free row" }, { CHZ_UNEQUAL_COLUMNS, "columns of unequal length" },
    { CHZ_STATION_NUMBER, "station number over 63" }, { CHZ_STALE, "stale counter" },
    { CHZ_QUEUE_ID_THERE, "queue ID already there" }, { CHZ_QUEUE_FULL, "queue full" }, { CHZ_NO_QUEUE_ID, "no such queue ID" },
    { CHZ_NOTHING_SUITABLE, "nothing suitable" }, { CHZ_NOT_A_TRACE, "not a trace" },
    { CHZ_NOT_SHORTEST, "number not in its shortest form" }, { CHZ_INPUT_ENDS, "input ends inside" },
    { CHZ_TIME_SUM, "time past 2^64 - 1" }, { CHZ_NOT_ONE_FRAME, "not one whole frame" }, { 36, "unknown" }, { 255, "unknown" },
    { UINT_MAX, "unknown" },
};

static const struct word commands_by_number[] = {
    { CHZ_CON, "con" }, { CHZ_CON_RSP, "conRsp" }, { CHZ_STATUS_RSP, "statusRsp" }, { CHZ_DET, "det" }, { CHZ_DET_RSP, "detRsp" },
    { CHZ_ATT_PRP, "attPrp" }, { CHZ_DET_PRP, "detPrp" }, { CHZ_UL_DATA, "ulData" }, { CHZ_CON_CMP, "conCmp" },
    { CHZ_PING, "ping" }, { CHZ_PING_RSP, "pingRsp" }, { CHZ_PING_CMP, "pingCmp" }, { CHZ_STATUS, "status" },
    { CHZ_STATUS_CMP, "statusCmp" }, { CHZ_DET_CMP, "detCmp" }, { CHZ_ATT_PRP_RSP, "attPrpRsp" },
    { CHZ_ATT_PRP_CMP, "attPrpCmp" }, { CHZ_DET_PRP_RSP, "detPrpRsp" }, { CHZ_DET_PRP_CMP, "detPrpCmp" },
    { CHZ_UL_DATA_RSP, "ulDataRsp" }, { CHZ_UL_DATA_CMP, "ulDataCmp" }, { CHZ_DL_DATA_QUE, "dlDataQue" },
    { CHZ_DL_DATA_QUE_RSP, "dlDataQueRsp" }, { CHZ_DL_DATA_QUE_CMP, "dlDataQueCmp" }, { 24, "unknown" }, { 255, "unknown" },
    { UINT_MAX, "unknown" },
};

static const struct word happenings[] = {
    { 0, "unknown" }, { CHZ_BEGUN, "begun" }, { CHZ_RESUMED, "resumed" }, { CHZ_OPENED, "opened" }, { CHZ_STARTED, "started" },
    { CHZ_COMPLETED, "completed" }, { CHZ_ANSWERED, "answered" }, { CHZ_ISSUED, "issued" }, { CHZ_STORED, "stored" },
    { CHZ_NOTHING, "nothing to store" }, { 10, "unknown" }, { 16, "unknown" }, { CHZ_NEW, "new" }, { CHZ_COPY, "copy" },
    { 19, "unknown" }, { 255, "unknown" }, { UINT_MAX, "unknown" },
};

/* The greatest row that an answer can tell, heard by all. The last data entry that a queue can show: behind fifteen of 37 bytes, in the
 * last place, as long as may be. The longest record. */
#define CREDITED_FAR ANSWER(0, CHZ_NEW, 0xFFFFFFFFFF40)
#define CHOSEN_LAST ANSWER(0, 0, 31 + 256 * 245 + 65536 * (80 + 15 * 37))
#define RECORDED_LONGEST ANSWER(0, 0, 4121 + UINT64_C(65536) * 4108 + (UINT64_C(63) << 32))

static void each(const char *(*name)(unsigned), const struct word *words, size_t count)
{
    for (size_t i = 0; i < count; i++) {
        start(words[i].word);
        JUDGE(strcmp(name(words[i].number), words[i].word) == 0, 1, NULL);
    }
}

void names(void)
{
    each(chz_refusal_name, refusals, COUNT(refusals));
    each(chz_command_name, commands_by_number, COUNT(commands_by_number));
    each(chz_step_name, happenings, COUNT(happenings));
    start("the parts of chz_uplink's value");
    JUDGE(chz_uplink_row(CREDITED_FAR), 0xFFFFFFFFFF, NULL);
    JUDGE(chz_uplink_hearers(CREDITED_FAR), 64, NULL);
    start("the parts of chz_choose's value");
    JUDGE(chz_chosen_place(CHOSEN_LAST), 31, NULL);
    JUDGE(chz_chosen_len(CHOSEN_LAST), 245, NULL);
    JUDGE(chz_chosen_from(CHOSEN_LAST), 635, NULL);
    start("the parts of chz_recorded's value");
    JUDGE(chz_recorded_len(RECORDED_LONGEST), 4121, NULL);
    JUDGE(chz_recorded_frame_len(RECORDED_LONGEST), 4108, NULL);
    JUDGE(chz_recorded_station(RECORDED_LONGEST), 63, NULL);
}
