/* A payload's form judged, and a payload read whole: the library, msgpack-c's unpacking and msgpuck's check, all called through one shape. */
#include "bench.h"

#include <string.h>
#ifdef HAVE_MSGPUCK
#include <msgpuck.h>
#endif

static _Alignas(64) uint8_t payload[PAYLOAD_MOST];
static size_t payload_len;
static _Alignas(64) chz_message image;
static call_read *volatile call;

/* A jump in code that is optimised: no stack of its own. */
static uint64_t form(const uint8_t *in, size_t in_len, uint8_t *message, size_t message_len, uint8_t *data, size_t data_len)
{
    (void)message, (void)message_len, (void)data, (void)data_len;
    return chz_form(in, in_len);
}

static uint64_t unpack(const uint8_t *in, size_t in_len, uint8_t *message, size_t message_len, uint8_t *data, size_t data_len)
{
    (void)message, (void)message_len, (void)data, (void)data_len;
    msgpack_unpacked tree;
    size_t at = 0;
    msgpack_unpacked_init(&tree);
    msgpack_unpack_return got = msgpack_unpack_next(&tree, (const char *)in, in_len, &at);
    msgpack_unpacked_destroy(&tree);
    return got == MSGPACK_UNPACK_SUCCESS && at == in_len;
}

#ifdef HAVE_MSGPUCK
static uint64_t check(const uint8_t *in, size_t in_len, uint8_t *message, size_t message_len, uint8_t *data, size_t data_len)
{
    (void)message, (void)message_len, (void)data, (void)data_len;
    const char *at = (const char *)in, *end = at + in_len;
    return mp_check(&at, end) == 0 && at == end;
}
#endif

static void rounds_read(unsigned long rounds)
{
    while (rounds--) call(payload, payload_len, IMAGE_OUT(image));
}

/* How many bytes stand beside the message. */
static size_t data_len(const chz_message *m)
{
    size_t len = offsetof(chz_dl_entries, bytes);
    if (m->command == CHZ_UL_DATA) return m->ul_data.user_len;
    if (m->command != CHZ_DL_DATA_QUE) return 0;
    for (int i = 0; i < m->dl_data_que.entries; i++) len += m->dl.length[i];
    return len;
}

/* All sides have to accept the payload, and the library has to read what was packed. */
static void agree(const char *name, unsigned size)
{
    chz_message wanted;
    payload_len = payload_make(payload, &wanted, name, size);
    memset(&image, 0xEE, sizeof image);
    uint64_t answer = chz_message_read(payload, payload_len, &image);
    need(chz_refused(answer) == CHZ_DONE, "chz_read refuses the payload");
    need(!memcmp(&image, &wanted, CHZ_MESSAGE), "chz_read reads another message");
    need(!memcmp(image.data, wanted.data, data_len(&wanted)), "chz_read reads other data");
    need(strcmp(name, "pairs") || size != PAIRS_MOST || payload_len == PAYLOAD_MOST, "500 pairs aren't 4,096 bytes");
    need(chz_form(payload, payload_len) == answer, "chz_form answers otherwise");
    need(unpack(payload, payload_len, NULL, 0, NULL, 0) == 1, "msgpack-c refuses the payload");
#ifdef HAVE_MSGPUCK
    need(check(payload, payload_len, NULL, 0, NULL, 0) == 1, "msgpuck refuses the payload");
#endif
}

/* What is to be read, in bytes and elements, for the table. */
static void rounds_size(unsigned long rounds)
{
    (void)rounds;
    uint64_t answer = chz_message_read(payload, payload_len, &image);
    printf("%zu %u\n", payload_len, (unsigned)chz_value(answer));
}

bench_rounds *reads_case(const char *what, const char *name, unsigned size, enum way way)
{
    if (!strcmp(what, "read")) call = chz_read;
    else if (!strcmp(what, "form")) call = form;
    else if (!strcmp(what, "unpack")) call = unpack;
#ifdef HAVE_MSGPUCK
    else if (!strcmp(what, "check")) call = check;
#endif
    else if (strcmp(what, "size")) return NULL;
    agree(name, size);
    if (!strcmp(what, "size")) return rounds_size;
    if (way == WAY_EMPTY) call = empty_read;
    return rounds_read;
}
