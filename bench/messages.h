/* The messages that are counted: as images, and packed with msgpack-c. */
#ifndef MESSAGES_H
#define MESSAGES_H

#include <msgpack.h>

#include "chozukpima.h"

#define FRAME_HEAD 12
#define PAYLOAD_MOST 4096
#define PAIRS_MOST 500

/* Fills an image. The names are ping, con, detRsp, conRsp, ulData and attPrp, and for a ulData whose signal figures are packed as
 * float 32 or as integers singles and wholes; size is the bytes of user data. downlink is a plain dlDataQue with one data entry, size
 * bytes long; downlinks is one with all its fields and size data entries of 50 bytes, each for its counter. */
void message_fill(chz_message *m, const char *name, unsigned size);

/* Packs the same message in the library's own order; attPrp isn't packed. */
void message_pack(msgpack_packer *pk, const chz_message *m);

/* A payload to read, packed with msgpack-c: the length. con has its descriptive fields too, and `pairs` is ping 1 with
 * that many unknown pairs (500 of them make 4,096 bytes), `nested` with one, its value in that many arrays (six of them are
 * as deep as may be). The image is what has to be read. */
size_t payload_make(uint8_t *payload, chz_message *m, const char *name, unsigned size);

/* Writes the eight letters of a frame, and its size. */
void head_letters(uint8_t *frame);
void head_size(uint8_t *frame, size_t payload_len);

/* Says what is wrong, and ends the program. */
void need(int good, const char *what);

#endif
