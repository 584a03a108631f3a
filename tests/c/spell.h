/* Bytes spelled as text, so that a table shows what a payload holds. Words stand between spaces:
 *   82A7      bytes in hexadecimal
 *   'ping'    a text with its head (up to 31 bytes)
 *   =MIOTY    letters without a head
 *   16*CCA0   bytes sixteen times */
#ifndef SPELL_H
#define SPELL_H

#include <stddef.h>
#include <stdint.h>

size_t spell(const char *text, uint8_t *into);
size_t spell_frame(const char *payload, uint8_t *into);

#endif
