/* chz_frame: identifier on the bytes present (2), twelve bytes (1), size 1 to 4,096 (3), the whole frame (1). */
#include "cases.h"
#include "chozukpima.h"
#include "lent.h"
#include "spell.h"

static const struct {
    const char *name, *bytes;
    unsigned refused, used;
} cases[] = {
    { "no byte", "", CHZ_FRAME_INCOMPLETE, 0 },
    { "one byte of the identifier", "=M", CHZ_FRAME_INCOMPLETE, 0 },
    { "identifier alone", "=MIOTYB01", CHZ_FRAME_INCOMPLETE, 0 },
    { "eleven bytes", "=MIOTYB01 010000", CHZ_FRAME_INCOMPLETE, 0 },
    { "one wrong byte", "=N", CHZ_FRAME_IDENTIFIER, 0 },
    { "wrong eighth byte", "=MIOTYB02", CHZ_FRAME_IDENTIFIER, 0 },
    { "wrong identifier before wrong size", "=MIOTYB02 00000000", CHZ_FRAME_IDENTIFIER, 0 },
    { "size 0", "=MIOTYB01 00000000", CHZ_SIZE, 0 },
    { "size 1", "=MIOTYB01 01000000 C1", CHZ_DONE, 13 },
    { "size 1, no payload yet", "=MIOTYB01 01000000", CHZ_FRAME_INCOMPLETE, 0 },
    { "size 4,096", "=MIOTYB01 00100000 4096*C0", CHZ_DONE, 4108 },
    { "size 4,096, a byte short", "=MIOTYB01 00100000 4095*C0", CHZ_FRAME_INCOMPLETE, 0 },
    { "size 4,097", "=MIOTYB01 01100000 4097*C0", CHZ_SIZE, 0 },
    { "size 4,097 before its payload", "=MIOTYB01 01100000", CHZ_SIZE, 0 },
    { "greatest size", "=MIOTYB01 FFFFFFFF 20*C0", CHZ_SIZE, 0 },
    { "size in the wrong byte order", "=MIOTYB01 00000001 C0", CHZ_SIZE, 0 },
    { "two frames: the first alone", "=MIOTYB01 02000000 C0C0 =MIOTYB01 01000000 C0", CHZ_DONE, 14 },
};

void frames(void)
{
    static struct lent bytes;
    uint8_t spelled[LENT_MOST];
    for (size_t i = 0; i < COUNT(cases); i++) {
        start(cases[i].name);
        lend(&bytes, spelled, spell(cases[i].bytes, spelled));
        JUDGE(chz_frame(bytes.at, bytes.len), ANSWER(cases[i].refused, 0, cases[i].used), &bytes);
    }
}
