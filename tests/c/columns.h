/* A meter table of three rows, lent column by column. */
#ifndef COLUMNS_H
#define COLUMNS_H

#include "chozukpima.h"
#include "lent.h"

enum { ROWS = 3, COLUMNS = 5 };

struct columns {
    uint8_t used[ROWS];
    uint64_t eui[ROWS];
    uint16_t sh_addr[ROWS];
    uint32_t last[ROWS];
    uint64_t heard[ROWS];
};

enum table_call { FIND, ENROL, WITHDRAW, UPLINK };

/* What the four calls take beside the table; each uses its part. */
struct handed {
    uint64_t meter;
    uint16_t sh_addr;
    uint32_t counter;
    uint64_t station;
};

/* rows: how many rows of each column are lent. */
void lend_columns(const struct columns *before, const size_t rows[COLUMNS]);
void expect_columns(const struct columns *after);
uint64_t call_table(enum table_call call, const struct handed *handed);

/* chz_uplink's answer where a packet is credited. */
#define CREDITED(happened, hearers, row) ANSWER(0, happened, (hearers) + 256 * (row))

extern struct lent column[COLUMNS];
#define ALL_COLUMNS &column[0], &column[1], &column[2], &column[3], &column[4]

#endif
