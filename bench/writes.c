/* A message written as a whole frame: the library, and msgpack-c's packer into its own buffer and into a fixed one. */
#include "bench.h"

#include <string.h>

static _Alignas(64) uint8_t room[CHZ_ROOM];
static size_t room_len, wanted_len;
static _Alignas(64) chz_message image;
static call_write *volatile call;
static msgpack_sbuffer again;

/* msgpack-c's buffer grows on the heap; it is emptied and used again. */
static uint64_t pack_sbuffer(const uint8_t *message, size_t message_len, const uint8_t *data, size_t data_len, uint8_t *out,
                             size_t out_len)
{
    (void)message_len, (void)data, (void)data_len, (void)out, (void)out_len;
    msgpack_packer pk;
    uint8_t head[FRAME_HEAD];
    msgpack_sbuffer_clear(&again);
    head_letters(head);
    msgpack_sbuffer_write(&again, (const char *)head, sizeof head);
    msgpack_packer_init(&pk, &again, msgpack_sbuffer_write);
    message_pack(&pk, (const chz_message *)(const void *)message);
    head_size((uint8_t *)again.data, again.size - FRAME_HEAD);
    return again.size;
}

struct fixed {
    uint8_t *bytes;
    size_t at, len;
};

static int put(void *data, const char *bytes, size_t len)
{
    struct fixed *f = data;
    if (len > f->len - f->at) return -1;
    memcpy(f->bytes + f->at, bytes, len);
    f->at += len;
    return 0;
}

static uint64_t pack_fixed(const uint8_t *message, size_t message_len, const uint8_t *data, size_t data_len, uint8_t *out,
                           size_t out_len)
{
    (void)message_len, (void)data, (void)data_len;
    struct fixed f = { out, FRAME_HEAD, out_len };
    msgpack_packer pk;
    head_letters(out);
    msgpack_packer_init(&pk, &f, put);
    message_pack(&pk, (const chz_message *)(const void *)message);
    head_size(out, f.at - FRAME_HEAD);
    return f.at;
}

static void rounds_write(unsigned long rounds)
{
    while (rounds--) call(IMAGE_IN(image), room, room_len);
}

static void rounds_size(unsigned long rounds)
{
    (void)rounds;
    printf("%zu\n", wanted_len);
}

/* A room that is just long enough has to do. Afterwards it holds other bytes again, for who has to make the same ones next. */
static void agree_short(uint64_t answer, const uint8_t *wanted)
{
    need(chz_message_write(&image, room, wanted_len) == answer, "chz_write answers otherwise in a short room");
    need(!memcmp(room, wanted, wanted_len), "other bytes in a short room");
    memset(room, 0xEE, sizeof room);
}

/* All sides have to make the same bytes. */
static void agree(const char *name, unsigned size)
{
    uint8_t wanted[CHZ_ROOM];
    message_fill(&image, name, size);
    uint64_t answer = chz_message_write(&image, wanted, sizeof wanted);
    need(chz_refused(answer) == CHZ_DONE, "chz_write refuses the message");
    wanted_len = chz_value(answer);
    agree_short(answer, wanted);
    need(pack_fixed(IMAGE_IN(image), room, sizeof room) == wanted_len, "another length in the fixed buffer");
    need(!memcmp(room, wanted, wanted_len), "other bytes in the fixed buffer");
    msgpack_sbuffer_init(&again);
    need(pack_sbuffer(IMAGE_IN(image), NULL, 0) == wanted_len, "another length in the sbuffer");
    need(!memcmp(again.data, wanted, wanted_len), "other bytes in the sbuffer");
}

bench_rounds *writes_case(const char *what, const char *name, unsigned size, enum way way)
{
    if (!strcmp(what, "write")) call = chz_write;
    else if (!strcmp(what, "sbuffer")) call = pack_sbuffer;
    else if (!strcmp(what, "fixed")) call = pack_fixed;
    else if (strcmp(what, "framed")) return NULL;
    agree(name, size);
    if (!strcmp(what, "framed")) return rounds_size;
    if (way == WAY_EMPTY) call = empty_write;
    room_len = way == WAY_SHORT ? wanted_len : sizeof room;
    return rounds_write;
}
