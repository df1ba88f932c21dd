/*
 * Whether the library of include/fuseworld.h says of each vector what `fuseworld vectors` says.
 *
 * Standard input has a line for each vector: direction (> or <), opcode, minor version, the fault's number or 0, and
 * the frame in hex (`-` for no byte). Of a frame that is read, the library's own frame of it is written too, and read
 * again: it has to be read as the same struct, but for places. Prints the vectors that differ, and their count.
 */
#include <inttypes.h>
#include <stdio.h>
#include <stdlib.h>
#include <string.h>

#include "fuseworld.h"

static char hex[2 * 65536 + 2];

/* The frame in a block of just its length, so that a tool for memory sees each read beyond it. */
static uint8_t *frame_of(const char *digits, size_t *len)
{
    *len = strcmp(digits, "-") == 0 ? 0 : strlen(digits) / 2;
    uint8_t *frame = malloc(*len ? *len : 1);
    if (frame == NULL)
        exit(2);
    for (size_t i = 0; i < *len; i++) {
        unsigned byte;
        if (sscanf(digits + 2 * i, "%2x", &byte) != 1)
            exit(2);
        frame[i] = (uint8_t)byte;
    }
    return frame;
}

/* Whether the frame that is written of a request spells the same request. */
static int writes_request(uint32_t minor, const struct fuseworld_request *request, const uint8_t *frame, size_t len)
{
    uint8_t out[FUSEWORLD_MAX_FRAME];
    struct fuseworld_request again;
    size_t wanted = 0;
    if (fuseworld_write_request(minor, request, frame, len, out, sizeof out, &wanted) != FUSEWORLD_OK || wanted != len)
        return 0;
    return fuseworld_read_request(minor, out, wanted, &again) == FUSEWORLD_OK
        && memcmp(request, &again, sizeof again) == 0;
}

/* Whether two structs are the same reply. A missing name's generation and attributes do not count. */
static int same_reply(const struct fuseworld_reply *a, const struct fuseworld_reply *b)
{
    const struct fuseworld_entry *e = &a->entry, *f = &b->entry;
    int entries = e->nodeid == f->nodeid && e->entry_valid == f->entry_valid
        && e->entry_valid_nsec == f->entry_valid_nsec;
    int files = e->generation == f->generation && memcmp(&e->attr, &f->attr, sizeof e->attr) == 0;
    if (e->nodeid == 0 && a->opcode != FUSEWORLD_GETATTR)
        files = 1;
    return entries && files && a->unique == b->unique && a->error == b->error && a->opcode == b->opcode
        && a->fh == b->fh && a->size == b->size && a->major == b->major && a->minor == b->minor && a->flags == b->flags
        && a->data_offset == b->data_offset && a->data_length == b->data_length;
}

/* Whether the frame that is written of a reply spells the same reply. */
static int writes_reply(uint32_t minor, const struct fuseworld_reply *reply, const uint8_t *frame, size_t len)
{
    uint8_t out[FUSEWORLD_MAX_FRAME];
    struct fuseworld_reply again;
    size_t wanted = 0;
    if (fuseworld_write_reply(minor, reply, frame, len, out, sizeof out, &wanted) != FUSEWORLD_OK || wanted != len)
        return 0;
    return fuseworld_read_reply(minor, reply->opcode, out, wanted, &again) == FUSEWORLD_OK && same_reply(reply, &again);
}

int main(void)
{
    char direction;
    uint32_t opcode, minor, fault;
    size_t vectors = 0, wrong = 0;
    while (scanf(" %c %" SCNu32 " %" SCNu32 " %" SCNu32 " %131073s", &direction, &opcode, &minor, &fault, hex) == 5) {
        size_t len;
        uint8_t *frame = frame_of(hex, &len);
        struct fuseworld_request request;
        struct fuseworld_reply reply;
        uint32_t said = direction == '>' ? fuseworld_read_request(minor, frame, len, &request)
                                         : fuseworld_read_reply(minor, opcode, frame, len, &reply);
        int good = said == fault;
        if (good && said == FUSEWORLD_OK)
            good = direction == '>' ? writes_request(minor, &request, frame, len)
                                    : writes_reply(minor, &reply, frame, len);
        if (!good)
            printf("%c opcode %" PRIu32 " minor %" PRIu32 " fault %" PRIu32 " said %" PRIu32 " %.80s\n", direction,
                   opcode, minor, fault, said, hex);
        wrong += !good;
        vectors++;
        free(frame);
    }
    printf("%zu vectors, %zu wrong\n", vectors, wrong);
    return wrong == 0 ? 0 : 1;
}
