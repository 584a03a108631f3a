#include "spell.h"

#include <stdlib.h>
#include <string.h>

static size_t spell_hex(const char *word, size_t len, uint8_t *into)
{
    size_t count = 0;
    for (size_t at = 0; at + 1 < len; at += 2) {
        char pair[3] = { word[at], word[at + 1], 0 };
        into[count++] = (uint8_t)strtoul(pair, NULL, 16);
    }
    return count;
}

static size_t spell_many(const char *word, size_t len, uint8_t *into)
{
    const char *star = memchr(word, '*', len);
    size_t count = star ? strtoul(word, NULL, 10) : 1, size = 0;
    const char *hex = star ? star + 1 : word;
    for (size_t i = 0; i < count; i++) size += spell_hex(hex, len - (size_t)(hex - word), into + size);
    return size;
}

static size_t spell_word(const char *word, size_t len, uint8_t *into)
{
    switch (*word) {
    case '=': memcpy(into, word + 1, len - 1); return len - 1;
    case '\'':
        into[0] = (uint8_t)(0xA0 + len - 2);
        memcpy(into + 1, word + 1, len - 2);
        return len - 1;
    default: return spell_many(word, len, into);
    }
}

size_t spell(const char *text, uint8_t *into)
{
    size_t size = 0;
    for (text += strspn(text, " "); *text; text += strspn(text, " ")) {
        size_t len = strcspn(text, " ");
        size += spell_word(text, len, into + size);
        text += len;
    }
    return size;
}

size_t spell_frame(const char *payload, uint8_t *into)
{
    size_t size = spell(payload, into + 12);
    memcpy(into, "MIOTYB01", 8);
    for (int i = 0; i < 4; i++) into[8 + i] = (uint8_t)(size >> 8 * i);
    return 12 + size;
}
