#define _DEFAULT_SOURCE
#include "lent.h"

#include <inttypes.h>
#include <signal.h>
#include <stdio.h>
#include <stdlib.h>
#include <string.h>
#include <sys/mman.h>
#include <xmmintrin.h>

enum { GUARD = 65536, BEFORE = 1024, MARK = 0xC5, ALL_MASKED = 0x1F80, WHAT_CAME_UP = 0x003F };

static const char *name = "";
static unsigned mode = ALL_MASKED;
static unsigned passed, failed;

static void map(struct lent *l)
{
    uint8_t *space = mmap(NULL, 2 * GUARD, PROT_READ | PROT_WRITE, MAP_PRIVATE | MAP_ANONYMOUS, -1, 0);
    if (space == MAP_FAILED || mprotect(space + GUARD, GUARD, PROT_NONE)) abort();
    l->end = space + GUARD;
}

void lend(struct lent *l, const void *bytes, size_t len)
{
    if (!l->end) map(l);
    l->len = len;
    l->at = l->end - len;
    memset(l->at - BEFORE, MARK, BEFORE);
    memcpy(l->at, bytes, len);
    memcpy(l->expected, bytes, len);
}

void lend_filled(struct lent *l, uint8_t filling, size_t len)
{
    uint8_t bytes[LENT_MOST];
    memset(bytes, filling, len);
    lend(l, bytes, len);
}

void expect(struct lent *l, size_t from, const void *bytes, size_t len)
{
    memcpy(l->expected + from, bytes, len);
}

static bool holds(const struct lent *l)
{
    bool good = !memcmp(l->at, l->expected, l->len);
    for (size_t i = 1; i <= BEFORE; i++) good = good && l->at[-(ptrdiff_t)i] == MARK;
    return good;
}

void start(const char *case_name)
{
    name = case_name;
}

void judge(uint64_t answer, uint64_t expected, struct lent *const *lent)
{
    bool same_mode = (_mm_getcsr() & ~WHAT_CAME_UP) == mode;
    bool good = answer == expected && same_mode;
    if (!same_mode) printf("%s: the floating point mode was changed\n", name);
    if (answer != expected) printf("%s (mode %04X): expected %" PRIx64 ", answered %" PRIx64 "\n", name, mode, expected, answer);
    for (int i = 0; lent[i]; i++) {
        if (holds(lent[i])) continue;
        printf("%s (mode %04X): lent buffer %d, counted from 0, is not as it should be\n", name, mode, i);
        good = false;
    }
    *(good ? &passed : &failed) += 1;
}

/* What is not lent was touched, or the call broke off: no later case can be trusted. */
static void broke(int number)
{
    printf("%s: signal %d inside the call\n%u passed, %u failed\n", name, number, passed, failed + 1);
    fflush(stdout);
    _Exit(1);
}

void set_mode(unsigned further)
{
    mode = ALL_MASKED | further;
    _mm_setcsr(mode);
}

void prepare_cases(void)
{
    int signals[] = { SIGSEGV, SIGBUS, SIGILL, SIGFPE, SIGABRT };
    for (size_t i = 0; i < COUNT(signals); i++) signal(signals[i], broke);
}

int end_cases(void)
{
    printf("%u passed, %u failed\n", passed, failed);
    return failed != 0;
}
