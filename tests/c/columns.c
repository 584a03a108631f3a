#include "columns.h"

struct lent column[COLUMNS];

static const struct {
    size_t at, width;
} parts[COLUMNS] = {
    { offsetof(struct columns, used), sizeof(uint8_t) },     { offsetof(struct columns, eui), sizeof(uint64_t) },
    { offsetof(struct columns, sh_addr), sizeof(uint16_t) }, { offsetof(struct columns, last), sizeof(uint32_t) },
    { offsetof(struct columns, heard), sizeof(uint64_t) },
};

void lend_columns(const struct columns *before, const size_t rows[COLUMNS])
{
    for (int i = 0; i < COLUMNS; i++) lend(&column[i], (const uint8_t *)before + parts[i].at, rows[i] * parts[i].width);
}

void expect_columns(const struct columns *after)
{
    for (int i = 0; i < COLUMNS; i++) expect(&column[i], 0, (const uint8_t *)after + parts[i].at, column[i].len);
}

/* A column ends at a page's end, so it stands where its numbers may stand. */
#define COLUMN(type, i) (type *)(void *)column[i].at, column[i].len / sizeof(type)
#define LENT_TABLE COLUMN(uint8_t, 0), COLUMN(uint64_t, 1), COLUMN(uint16_t, 2), COLUMN(uint32_t, 3), COLUMN(uint64_t, 4)

uint64_t call_table(enum table_call call, const struct handed *handed)
{
    switch (call) {
    case FIND: return chz_find(LENT_TABLE, handed->meter);
    case ENROL: return chz_enrol(LENT_TABLE, handed->meter, handed->sh_addr, handed->counter);
    case WITHDRAW: return chz_withdraw(LENT_TABLE, handed->meter);
    default: return chz_uplink(LENT_TABLE, handed->meter, handed->counter, handed->station);
    }
}
