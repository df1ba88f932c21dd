/*
 * Prints what each frame of a capture is, a line a frame, by the library of include/fuseworld.h.
 *
 *     decode FILE
 *
 * A capture has a line for each frame: `>` a request, `<` a reply, a space, and the frame in hex. A reply is read
 * by the opcode of the latest request of its unique. The frames are read as those of 7.31.
 *
 * Exit status: 0, or 1 where the file cannot be read or has another line.
 */
#define _POSIX_C_SOURCE 200809L
#include <inttypes.h>
#include <stdio.h>
#include <stdlib.h>
#include <string.h>

#include "fuseworld.h"

#define MINOR 31

/* The opcodes of the requests so far, by unique. */
struct asked {
    uint64_t unique;
    uint32_t opcode;
};

static struct asked *asked;
static size_t asked_count, asked_room;

static int remember(uint64_t unique, uint32_t opcode)
{
    if (asked_count == asked_room) {
        size_t room = asked_room ? 2 * asked_room : 64;
        struct asked *more = realloc(asked, room * sizeof *more);
        if (more == NULL)
            return -1;
        asked = more;
        asked_room = room;
    }
    asked[asked_count].unique = unique;
    asked[asked_count].opcode = opcode;
    asked_count++;
    return 0;
}

/* The opcode of the latest request of this unique, or 0. */
static uint32_t recalled(uint64_t unique)
{
    for (size_t i = asked_count; i > 0; i--)
        if (asked[i - 1].unique == unique)
            return asked[i - 1].opcode;
    return 0;
}

/* Bytes outside of 33 to 126 are printed as `?`. */
static void print_name(const uint8_t *name, size_t len)
{
    for (size_t i = 0; i < len; i++)
        putchar(name[i] >= 33 && name[i] <= 126 ? name[i] : '?');
}

static void print_opcode(uint32_t opcode)
{
    uint8_t name[16] = "?";
    fuseworld_opcode_name(opcode, name, sizeof name);
    printf("%s", (const char *)name);
}

static void print_fault(char direction, uint32_t fault)
{
    uint8_t name[16] = "?";
    fuseworld_fault_name(fault, name, sizeof name);
    printf("%c fault %" PRIu32 " %s\n", direction, fault, (const char *)name);
}

static void print_pairs(const uint8_t *bytes, size_t len, size_t offset)
{
    struct fuseworld_forget_one pair;
    while (fuseworld_next_pair(bytes, len, &offset, &pair) == FUSEWORLD_OK)
        printf(" %" PRIu64 ":%" PRIu64, pair.nodeid, pair.nlookup);
}

static void print_names(const struct fuseworld_request *r, const uint8_t *bytes)
{
    if (r->name_length > 0) {
        printf(" name ");
        print_name(bytes + r->name_offset, r->name_length);
    }
    if (r->newname_length > 0) {
        printf(" newname ");
        print_name(bytes + r->newname_offset, r->newname_length);
    }
}

static void print_request(const struct fuseworld_request *r, const uint8_t *bytes, size_t len)
{
    printf("> ");
    print_opcode(r->opcode);
    printf(" unique %" PRIu64 " nodeid %" PRIu64, r->unique, r->nodeid);
    switch (r->opcode) {
    case FUSEWORLD_FORGET:
        printf(" nlookup %" PRIu64, r->nlookup);
        break;
    case FUSEWORLD_LINK:
        printf(" oldnodeid %" PRIu64, r->oldnodeid);
        break;
    case FUSEWORLD_RENAME:
        printf(" newdir %" PRIu64, r->newdir);
        break;
    case FUSEWORLD_READ:
        printf(" fh %" PRIu64 " offset %" PRIu64 " size %" PRIu32, r->fh, r->offset, r->size);
        break;
    case FUSEWORLD_WRITE:
        printf(" fh %" PRIu64 " offset %" PRIu64 " bytes %zu", r->fh, r->offset, r->data_length);
        break;
    case FUSEWORLD_RELEASE:
        printf(" fh %" PRIu64, r->fh);
        break;
    case FUSEWORLD_INIT:
        printf(" major %" PRIu32 " minor %" PRIu32 " flags %" PRIu32, r->major, r->minor, r->flags);
        break;
    case FUSEWORLD_READDIR: case FUSEWORLD_READDIRPLUS:
        printf(" offset %" PRIu64 " size %" PRIu32, r->offset, r->size);
        break;
    case FUSEWORLD_INTERRUPT:
        printf(" interrupted %" PRIu64, r->interrupted);
        break;
    case FUSEWORLD_BATCH_FORGET:
        print_pairs(bytes, len, r->data_offset);
        break;
    }
    print_names(r, bytes);
    putchar('\n');
}

static void print_attr(const struct fuseworld_attr *a)
{
    printf(" ino %" PRIu64 " size %" PRIu64 " mode %" PRIu32 " nlink %" PRIu32, a->ino, a->size, a->mode, a->nlink);
}

static void print_entry(const struct fuseworld_entry *e)
{
    printf(" nodeid %" PRIu64, e->nodeid);
    if (e->nodeid != 0)
        printf(" generation %" PRIu64, e->generation);
    printf(" valid %" PRIu64 " %" PRIu32, e->entry_valid, e->entry_valid_nsec);
    if (e->nodeid != 0)
        print_attr(&e->attr);
}

static void print_dirent(const struct fuseworld_dirent *d, const uint8_t *bytes)
{
    putchar(' ');
    print_name(bytes + d->name_offset, d->name_length);
    printf(":%" PRIu64 ":%" PRIu64 ":%" PRIu32, d->off, d->ino, d->type);
}

static void print_records(const uint8_t *bytes, size_t len, size_t offset)
{
    struct fuseworld_dirent dirent;
    while (fuseworld_next_record(bytes, len, &offset, &dirent) == FUSEWORLD_OK)
        print_dirent(&dirent, bytes);
}

static void print_records_plus(const uint8_t *bytes, size_t len, size_t offset)
{
    struct fuseworld_direntplus pair;
    while (fuseworld_next_record_plus(bytes, len, &offset, &pair) == FUSEWORLD_OK) {
        print_dirent(&pair.dirent, bytes);
        printf(":%" PRIu64, pair.entry.nodeid);
    }
}

static void print_reply(const struct fuseworld_reply *r, const uint8_t *bytes, size_t len)
{
    printf("< ");
    print_opcode(r->opcode);
    printf(" unique %" PRIu64 " error %" PRId32, r->unique, r->error);
    switch (r->error == 0 ? r->opcode : 0) {
    case FUSEWORLD_LOOKUP:
    case FUSEWORLD_MKDIR:
    case FUSEWORLD_LINK:
    case FUSEWORLD_CREATE:
        print_entry(&r->entry);
        if (r->opcode == FUSEWORLD_CREATE)
            printf(" fh %" PRIu64, r->fh);
        break;
    case FUSEWORLD_GETATTR:
        print_attr(&r->entry.attr);
        break;
    case FUSEWORLD_OPEN:
        printf(" fh %" PRIu64, r->fh);
        break;
    case FUSEWORLD_READ:
        printf(" bytes %zu", r->data_length);
        break;
    case FUSEWORLD_WRITE:
        printf(" size %" PRIu32, r->size);
        break;
    case FUSEWORLD_INIT:
        printf(" major %" PRIu32 " minor %" PRIu32 " flags %" PRIu32, r->major, r->minor, r->flags);
        break;
    case FUSEWORLD_READDIR:
        print_records(bytes, len, r->data_offset);
        break;
    case FUSEWORLD_READDIRPLUS:
        print_records_plus(bytes, len, r->data_offset);
        break;
    }
    putchar('\n');
}

/* Of a kernel of 7.36 or later, INIT has 104 bytes: the first 56 are the INIT of 7.31. */
static size_t cut_init(uint8_t *bytes, size_t len)
{
    struct fuseworld_request_head head;
    if (fuseworld_read_request_head(bytes, len, &head) == FUSEWORLD_OK && head.opcode == FUSEWORLD_INIT && len == 104) {
        memcpy(bytes, "\x38\0\0\0", 4);
        return 56;
    }
    return len;
}

static int decode_request(uint8_t *bytes, size_t len)
{
    struct fuseworld_request_head head;
    struct fuseworld_request request;
    len = cut_init(bytes, len);
    if (fuseworld_read_request_head(bytes, len, &head) == FUSEWORLD_OK && remember(head.unique, head.opcode) != 0)
        return -1;
    uint32_t fault = fuseworld_read_request(MINOR, bytes, len, &request);
    if (fault == FUSEWORLD_OK)
        print_request(&request, bytes, len);
    else
        print_fault('>', fault);
    return 0;
}

static void decode_reply(const uint8_t *bytes, size_t len)
{
    struct fuseworld_reply_head head;
    struct fuseworld_reply reply;
    uint32_t fault = fuseworld_read_reply_head(bytes, len, &head);
    if (fault == FUSEWORLD_OK)
        fault = fuseworld_read_reply(MINOR, recalled(head.unique), bytes, len, &reply);
    if (fault == FUSEWORLD_OK)
        print_reply(&reply, bytes, len);
    else
        print_fault('<', fault);
}

static int digit(char c)
{
    return c >= '0' && c <= '9' ? c - '0' : c >= 'a' && c <= 'f' ? c - 'a' + 10 : -1;
}

/* Puts the bytes of the hex into its own place, and answers how many there are, or -1. */
static long unhex(char *hex, size_t digits)
{
    if (digits % 2 != 0)
        return -1;
    for (size_t i = 0; i < digits; i += 2) {
        int high = digit(hex[i]), low = digit(hex[i + 1]);
        if (high < 0 || low < 0)
            return -1;
        hex[i / 2] = (char)(16 * high + low);
    }
    return (long)(digits / 2);
}

static int decode_line(char *line, size_t len)
{
    if (len < 2 || (line[0] != '>' && line[0] != '<') || line[1] != ' ')
        return -1;
    long count = unhex(line + 2, len - 2);
    if (count < 0)
        return -1;
    if (line[0] == '>')
        return decode_request((uint8_t *)line + 2, (size_t)count);
    decode_reply((const uint8_t *)line + 2, (size_t)count);
    return 0;
}

int main(int argc, char **argv)
{
    char *line = NULL;
    size_t room = 0;
    ssize_t len;
    FILE *file = argc == 2 ? fopen(argv[1], "r") : NULL;
    if (file == NULL) {
        fprintf(stderr, "usage: decode FILE\n");
        return 1;
    }
    while ((len = getline(&line, &room, file)) >= 0) {
        if (len > 0 && line[len - 1] == '\n')
            len--;
        if (decode_line(line, (size_t)len) != 0) {
            fprintf(stderr, "decode: a line is no frame\n");
            return 1;
        }
    }
    free(line);
    free(asked);
    fclose(file);
    return fflush(stdout) == 0 ? 0 : 1;
}
