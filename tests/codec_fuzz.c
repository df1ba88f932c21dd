/*
 * Mutated frames through each call of include/fuseworld.h, in blocks of just their length.
 *
 *     codec_fuzz FRAMES COUNT SEED
 *
 * FRAMES has a line for each frame, as tests/codec_vectors.c reads them. It ends with status 1 where a call breaks what
 * the header says of its answer.
 *
 * The library is not compiled for sanitizers: -fsanitize=address,undefined sees what this file does with its answers.
 * A read or a write of the library beyond a block is seen by valgrind, or where each block ends at a page that may not
 * be touched: that is so with -DFENCED.
 */
#define _GNU_SOURCE
#include <inttypes.h>
#include <stdio.h>
#include <stdlib.h>
#include <string.h>
#include <sys/mman.h>

#include "fuseworld.h"

#define MOST_FRAMES 4096

struct frame {
    uint8_t *bytes;
    size_t len;
};

static struct frame seeds[MOST_FRAMES];
static size_t seed_count;
static uint64_t state;
static uint64_t answers[FUSEWORLD_END + 1];

static uint64_t draw(void)
{
    state ^= state << 13;
    state ^= state >> 7;
    state ^= state << 17;
    return state;
}

static size_t below(size_t count)
{
    return (size_t)(draw() % count);
}

#ifdef FENCED
#define BLOCKS 16
#define BLOCK_SIZE 8192
#define FENCE 4096

static uint8_t *blocks[BLOCKS];
static size_t blocks_used;

/* The blocks are used as a stack: one is released before those that were taken earlier. */
static void *block(size_t len)
{
    if (blocks[0] == NULL)
        for (size_t i = 0; i < BLOCKS; i++) {
            blocks[i] = mmap(NULL, BLOCK_SIZE + FENCE, PROT_READ | PROT_WRITE, MAP_PRIVATE | MAP_ANONYMOUS, -1, 0);
            if (blocks[i] == MAP_FAILED || mprotect(blocks[i] + BLOCK_SIZE, FENCE, PROT_NONE) != 0)
                exit(2);
        }
    if (len > BLOCK_SIZE || blocks_used == BLOCKS)
        exit(2);
    return blocks[blocks_used++] + BLOCK_SIZE - len;
}

static void release(void *place)
{
    (void)place;
    blocks_used--;
}
#else
static void *block(size_t len)
{
    void *place = malloc(len);
    if (place == NULL)
        exit(2);
    return place;
}

static void release(void *place)
{
    free(place);
}
#endif

static void ask(int holds, const char *what)
{
    if (!holds) {
        printf("broken: %s\n", what);
        exit(1);
    }
}

static uint32_t answer(uint32_t status)
{
    ask(status <= FUSEWORLD_END && status != 7, "an answer is a status");
    answers[status]++;
    return status;
}

static void load(const char *path)
{
    char *line = NULL;
    size_t room = 0;
    FILE *file = fopen(path, "r");
    if (file == NULL)
        exit(2);
    while (getline(&line, &room, file) > 0 && seed_count < MOST_FRAMES) {
        char *hex = strrchr(line, ' ') + 1;
        size_t len = strcspn(hex, "\n-") / 2;
        seeds[seed_count].bytes = malloc(len + 1);
        if (seeds[seed_count].bytes == NULL)
            exit(2);
        seeds[seed_count].len = len;
        for (size_t i = 0; i < len; i++) {
            unsigned byte;
            ask(sscanf(hex + 2 * i, "%2x", &byte) == 1, "a frame is hex");
            seeds[seed_count].bytes[i] = (uint8_t)byte;
        }
        seed_count++;
    }
    free(line);
    fclose(file);
}

/* A frame of the seeds with bytes changed, cut, added or with a length that fits, in a block of its length. */
static struct frame mutated(void)
{
    const struct frame *seed = &seeds[below(seed_count)];
    size_t len = seed->len;
    if (below(4) == 0)
        len = below(seed->len + 24);
    struct frame f = {block(len), len};
    for (size_t i = 0; i < len; i++)
        f.bytes[i] = i < seed->len ? seed->bytes[i] : (uint8_t)draw();
    for (size_t changes = below(6); len > 0 && changes > 0; changes--) {
        static const uint8_t edges[] = {0, 1, 46, 47, 127, 128, 255};
        size_t at = below(below(2) ? len : len < 64 ? len : 64);
        f.bytes[at] = below(2) ? edges[below(sizeof edges)] : (uint8_t)draw();
    }
    if (len >= 4 && below(8) != 0)
        for (size_t i = 0; i < 4; i++)
            f.bytes[i] = (uint8_t)(len >> (8 * i));
    return f;
}

static int lies_within(size_t offset, size_t length, size_t len)
{
    return offset <= len && length <= len - offset;
}

static void walk(const struct frame *f, size_t offset)
{
    struct fuseworld_forget_one pair;
    struct fuseworld_dirent dirent;
    struct fuseworld_direntplus plus;
    size_t place = offset, before = offset;
    while (answer(fuseworld_next_pair(f->bytes, f->len, &place, &pair)) == FUSEWORLD_OK) {
        ask(place == before + 16 && place <= f->len, "a pair has 16 bytes");
        before = place;
    }
    for (place = before = offset; answer(fuseworld_next_record(f->bytes, f->len, &place, &dirent)) == 0; before = place)
        ask(place > before && place <= f->len && lies_within(dirent.name_offset, dirent.name_length, f->len),
            "a record lies within the frame");
    ask(place == before, "an offset stays where no record is");
    for (place = before = offset; answer(fuseworld_next_record_plus(f->bytes, f->len, &place, &plus)) == 0;
         before = place)
        ask(place > before && place <= f->len
                && lies_within(plus.dirent.name_offset, plus.dirent.name_length, f->len),
            "a pair of an entry and a record lies within the frame");
    ask(place == before, "an offset stays where no pair is");
}

/* Writes into a buffer of some length, and looks at what the header says of it. */
static void check_written(uint32_t status, size_t capacity, size_t wanted, const uint8_t *buffer)
{
    size_t from = status == FUSEWORLD_OK ? wanted : 0;
    if (status == FUSEWORLD_OK)
        ask(wanted <= capacity && wanted <= FUSEWORLD_MAX_FRAME, "a frame fits the buffer");
    else if (status == FUSEWORLD_ROOM)
        ask(wanted > capacity && wanted <= FUSEWORLD_MAX_FRAME, "more room is wanted");
    else
        ask(wanted == 0, "nothing is wanted");
    for (size_t i = from; i < capacity; i++)
        ask(buffer[i] == 0xa5, "the rest of the buffer stays");
}

static size_t some_capacity(void)
{
    return below(3) == 0 ? below(200) : FUSEWORLD_MAX_FRAME + below(3);
}

static void write_request(uint32_t minor, const struct fuseworld_request *request, const struct frame *f, int was_read)
{
    size_t capacity = some_capacity(), wanted = 77;
    uint8_t *buffer = block(capacity);
    struct fuseworld_request again;
    memset(buffer, 0xa5, capacity);
    uint32_t status = answer(fuseworld_write_request(minor, request, f->bytes, f->len, buffer, capacity, &wanted));
    check_written(status, capacity, wanted, buffer);
    if (was_read)
        ask(status == FUSEWORLD_OK || status == FUSEWORLD_ROOM, "a request that was read is written");
    if (status == FUSEWORLD_OK)
        ask(answer(fuseworld_read_request(minor, buffer, wanted, &again)) == FUSEWORLD_OK
                && again.unique == request->unique && again.nodeid == request->nodeid
                && again.opcode == request->opcode && (!was_read || memcmp(&again, request, sizeof again) == 0),
            "a request that is written is read");
    release(buffer);
}

static void write_reply(uint32_t minor, const struct fuseworld_reply *reply, const struct frame *f, int was_read)
{
    size_t capacity = some_capacity(), wanted = 77;
    uint8_t *buffer = block(capacity);
    struct fuseworld_reply again;
    memset(buffer, 0xa5, capacity);
    uint32_t status = answer(fuseworld_write_reply(minor, reply, f->bytes, f->len, buffer, capacity, &wanted));
    check_written(status, capacity, wanted, buffer);
    if (was_read)
        ask(status == FUSEWORLD_OK || status == FUSEWORLD_ROOM, "a reply that was read is written");
    if (status == FUSEWORLD_OK)
        ask(answer(fuseworld_read_reply(minor, reply->opcode, buffer, wanted, &again)) == FUSEWORLD_OK
                && again.unique == reply->unique && again.error == reply->error,
            "a reply that is written is read");
    release(buffer);
}

/* A struct with numbers drawn at will, of which some are likely to fit. */
static void scramble(void *place, size_t size)
{
    uint8_t *bytes = place;
    for (size_t changes = 1 + below(4); changes > 0; changes--)
        bytes[below(size)] = below(2) ? 0 : (uint8_t)draw();
}

static void try_request(uint32_t minor, const struct frame *f)
{
    struct fuseworld_request request, before;
    memset(&request, 0x5a, sizeof request);
    before = request;
    uint32_t status = answer(fuseworld_read_request(minor, f->bytes, f->len, &request));
    if (status != FUSEWORLD_OK) {
        ask(memcmp(&request, &before, sizeof request) == 0, "the struct stays");
        return;
    }
    ask(lies_within(request.name_offset, request.name_length, f->len)
            && lies_within(request.newname_offset, request.newname_length, f->len)
            && lies_within(request.data_offset, request.data_length, f->len),
        "names and data lie within the frame");
    write_request(minor, &request, f, 1);
    scramble(&request, sizeof request);
    write_request(minor, &request, f, 0);
}

static void try_reply(uint32_t minor, uint32_t opcode, const struct frame *f)
{
    struct fuseworld_reply reply, before;
    memset(&reply, 0x5a, sizeof reply);
    before = reply;
    uint32_t status = answer(fuseworld_read_reply(minor, opcode, f->bytes, f->len, &reply));
    if (status != FUSEWORLD_OK) {
        ask(memcmp(&reply, &before, sizeof reply) == 0, "the struct stays");
        return;
    }
    ask(reply.opcode == opcode && lies_within(reply.data_offset, reply.data_length, f->len),
        "data lie within the frame");
    write_reply(minor, &reply, f, 1);
    scramble(&reply, sizeof reply);
    write_reply(minor, &reply, f, 0);
}

static void try_names(void)
{
    size_t capacity = below(20);
    uint8_t *buffer = block(capacity);
    memset(buffer, 0xa5, capacity);
    uint32_t number = (uint32_t)below(50);
    size_t len = below(2) ? fuseworld_opcode_name(number, buffer, capacity)
                          : fuseworld_fault_name(number, buffer, capacity);
    ask(len < 16 && (len == 0 || len >= capacity ? capacity == 0 || buffer[0] == 0xa5 : buffer[len] == 0),
        "a name ends in NUL, or the buffer stays");
    ask(fuseworld_version(buffer, capacity) == 5, "the version has 5 characters");
    release(buffer);
}

int main(int argc, char **argv)
{
    static const uint32_t opcodes[] = {1, 2, 3, 9, 10, 11, 12, 13, 14, 15, 16, 18, 26, 28, 35, 36, 42, 44, 0, 7};
    struct fuseworld_request_head request_head;
    struct fuseworld_reply_head reply_head;
    if (argc != 4)
        return 2;
    load(argv[1]);
    unsigned long count = strtoul(argv[2], NULL, 10);
    state = strtoull(argv[3], NULL, 10) | 1;
    for (unsigned long i = 0; i < count; i++) {
        struct frame f = mutated();
        uint32_t minor = below(64) == 0 ? (uint32_t)draw() : below(2) ? 31 : 15;
        answer(fuseworld_read_request_head(f.bytes, f.len, &request_head));
        answer(fuseworld_read_reply_head(f.bytes, f.len, &reply_head));
        try_request(minor, &f);
        for (size_t k = 0; k < 3; k++)
            try_reply(minor, opcodes[below(sizeof opcodes / sizeof *opcodes)], &f);
        walk(&f, below(4) == 0 ? below(f.len + 8) : below(2) ? 16 : 48);
        try_names();
        release(f.bytes);
    }
    for (size_t i = 0; i < seed_count; i++)
        free(seeds[i].bytes);
    printf("%lu frames;", count);
    for (size_t i = 0; i <= FUSEWORLD_END; i++)
        printf(" %zu:%" PRIu64, i, answers[i]);
    printf("\n");
    return 0;
}
