/*
 * What reading a request costs: by the library of include/fuseworld.h, by a decoder in C with the same checks, and by
 * libfuse's session, which also keeps a record of each request and calls a handler.
 *
 *     time_codec FRAMES [ROUNDS]
 *
 * FRAMES has a line for each frame, as tests/codec_vectors.c reads them: of those that spell a request of 7.31, INIT
 * and INTERRUPT aside, each is read ROUNDS times. Built with -DLIBFUSE and `pkg-config --cflags --libs fuse3`, it has
 * the third. Each is timed seven times in turn, and the shortest time counts.
 */
#define _GNU_SOURCE
#include <inttypes.h>
#include <stdio.h>
#include <stdlib.h>
#include <string.h>
#include <time.h>

#include "fuseworld.h"

#ifdef LIBFUSE
#define FUSE_USE_VERSION 314
#include <fcntl.h>
#include <fuse_lowlevel.h>
#include <sys/uio.h>
#endif

struct frame {
    uint8_t *bytes;
    size_t len;
};

static struct frame frames[4096];
static size_t frame_count;
static uint64_t sum;

/* ---- a decoder in C */

static uint32_t u32(const uint8_t *p)
{
    uint32_t value;
    memcpy(&value, p, 4);
    return value;
}

static uint64_t u64(const uint8_t *p)
{
    uint64_t value;
    memcpy(&value, p, 8);
    return value;
}

static int is_name(const uint8_t *name, size_t len)
{
    if (len == 0 || len > 255 || (len == 1 && name[0] == '.') || (len == 2 && name[0] == '.' && name[1] == '.'))
        return 0;
    for (size_t i = 0; i < len; i++)
        if (name[i] == 0 || name[i] == '/')
            return 0;
    return 1;
}

static uint32_t last_name(const uint8_t *b, size_t len, size_t place, size_t *offset, size_t *length)
{
    if (len < place)
        return FUSEWORLD_BODY;
    if (len == place || b[len - 1] != 0 || !is_name(b + place, len - place - 1))
        return FUSEWORLD_NAME;
    *offset = place;
    *length = len - place - 1;
    return FUSEWORLD_OK;
}

static uint32_t two_names(const uint8_t *b, size_t len, struct fuseworld_request *r)
{
    if (len < 48)
        return FUSEWORLD_BODY;
    const uint8_t *end = memchr(b + 48, 0, len - 48);
    if (end == NULL || !is_name(b + 48, (size_t)(end - b) - 48))
        return FUSEWORLD_NAME;
    r->newdir = u64(b + 40);
    r->name_offset = 48;
    r->name_length = (size_t)(end - b) - 48;
    return last_name(b, len, (size_t)(end - b) + 1, &r->newname_offset, &r->newname_length);
}

static uint32_t decode(const uint8_t *b, size_t len, struct fuseworld_request *out)
{
    struct fuseworld_request r;
    memset(&r, 0, sizeof r);
    uint32_t fault = FUSEWORLD_OK;
    if (len < 40)
        return FUSEWORLD_SHORT;
    if (u32(b) != len)
        return FUSEWORLD_LENGTH;
    r.opcode = u32(b + 4);
    r.unique = u64(b + 8);
    r.nodeid = u64(b + 16);
    switch (r.opcode) {
    case 1: case 10: case 11: case 9: case 13: case 35: case 12: case 2: case 36: case 3: case 14: case 15: case 28:
    case 44: case 16: case 18: case 26: case 42:
        break;
    default:
        return FUSEWORLD_OPCODE;
    }
    if (len > FUSEWORLD_MAX_FRAME)
        return FUSEWORLD_BODY;
    switch (r.opcode) {
    case 1: case 10: case 11:
        fault = last_name(b, len, 40, &r.name_offset, &r.name_length);
        break;
    case 9: case 13:
        fault = last_name(b, len, 48, &r.name_offset, &r.name_length);
        if (r.opcode == 13)
            r.oldnodeid = len >= 48 ? u64(b + 40) : 0;
        break;
    case 35:
        fault = last_name(b, len, 56, &r.name_offset, &r.name_length);
        break;
    case 12:
        fault = two_names(b, len, &r);
        break;
    case 2:
        fault = len == 48 ? FUSEWORLD_OK : FUSEWORLD_BODY;
        r.nlookup = fault ? 0 : u64(b + 40);
        break;
    case 36:
        fault = len == 48 ? FUSEWORLD_OK : FUSEWORLD_BODY;
        r.interrupted = fault ? 0 : u64(b + 40);
        r.nodeid = 0;
        break;
    case 3:
        fault = len == 56 ? FUSEWORLD_OK : FUSEWORLD_BODY;
        break;
    case 14:
        fault = len == 48 ? FUSEWORLD_OK : FUSEWORLD_BODY;
        break;
    case 15: case 28: case 44:
        if (len != 80)
            return FUSEWORLD_BODY;
        r.fh = r.opcode == 15 ? u64(b + 40) : 0;
        r.offset = u64(b + 48);
        r.size = u32(b + 56);
        break;
    case 16:
        if (len < 80 || u32(b + 56) != len - 80)
            return FUSEWORLD_BODY;
        r.fh = u64(b + 40);
        r.offset = u64(b + 48);
        r.data_offset = 80;
        r.data_length = len - 80;
        break;
    case 18:
        fault = len == 64 ? FUSEWORLD_OK : FUSEWORLD_BODY;
        r.fh = fault ? 0 : u64(b + 40);
        break;
    case 26:
        if (len != 56)
            return FUSEWORLD_BODY;
        r.nodeid = 0;
        r.major = u32(b + 40);
        r.minor = u32(b + 44);
        r.flags = u32(b + 52) & 0x42001;
        break;
    case 42:
        if (len < 48 || (uint64_t)u32(b + 40) * 16 != len - 48)
            return FUSEWORLD_BODY;
        r.nodeid = 0;
        r.data_offset = 48;
        r.data_length = len - 48;
        break;
    }
    if (fault == FUSEWORLD_OK)
        *out = r;
    return fault;
}

/* ---- what is timed: every frame once */

static void by_library(void)
{
    struct fuseworld_request request;
    for (size_t i = 0; i < frame_count; i++)
        if (fuseworld_read_request(31, frames[i].bytes, frames[i].len, &request) == FUSEWORLD_OK)
            sum += request.unique + request.name_length;
}

static void by_hand(void)
{
    struct fuseworld_request request;
    for (size_t i = 0; i < frame_count; i++)
        if (decode(frames[i].bytes, frames[i].len, &request) == FUSEWORLD_OK)
            sum += request.unique + request.name_length;
}

#ifdef LIBFUSE
static struct fuse_session *session;

static void none(fuse_req_t req)
{
    sum++;
    fuse_reply_none(req);
}

static void on_name(fuse_req_t req, fuse_ino_t dir, const char *name)
{
    sum += dir + (name[0] != 0);
    none(req);
}

static void on_forget(fuse_req_t req, fuse_ino_t node, uint64_t count)
{
    sum += node + count;
    none(req);
}

static void on_file(fuse_req_t req, fuse_ino_t node, struct fuse_file_info *file)
{
    sum += node + (file != NULL);
    none(req);
}

static void on_mkdir(fuse_req_t req, fuse_ino_t dir, const char *name, mode_t mode)
{
    sum += dir + mode + (name[0] != 0);
    none(req);
}

static void on_rename(fuse_req_t req, fuse_ino_t dir, const char *old, fuse_ino_t newdir, const char *new,
                      unsigned flags)
{
    sum += dir + newdir + flags + (old[0] != 0) + (new[0] != 0);
    none(req);
}

static void on_link(fuse_req_t req, fuse_ino_t node, fuse_ino_t dir, const char *name)
{
    sum += node + dir + (name[0] != 0);
    none(req);
}

static void on_range(fuse_req_t req, fuse_ino_t node, size_t size, off_t offset, struct fuse_file_info *file)
{
    sum += node + size + (uint64_t)offset + file->fh;
    none(req);
}

static void on_write(fuse_req_t req, fuse_ino_t node, const char *bytes, size_t size, off_t offset,
                     struct fuse_file_info *file)
{
    sum += node + size + (uint64_t)offset + file->fh + (bytes != NULL);
    none(req);
}

static void on_create(fuse_req_t req, fuse_ino_t dir, const char *name, mode_t mode, struct fuse_file_info *file)
{
    sum += dir + mode + (name[0] != 0) + (file != NULL);
    none(req);
}

static void on_forgets(fuse_req_t req, size_t count, struct fuse_forget_data *pairs)
{
    sum += count + (count > 0 ? pairs[0].ino : 0);
    none(req);
}

static const struct fuse_lowlevel_ops handlers = {
    .lookup = on_name, .forget = on_forget, .getattr = on_file, .mkdir = on_mkdir, .unlink = on_name, .rmdir = on_name,
    .rename = on_rename, .link = on_link, .open = on_file, .read = on_range, .write = on_write, .release = on_file,
    .readdir = on_range, .readdirplus = on_range, .create = on_create, .forget_multi = on_forgets,
};

static ssize_t swallow(int fd, struct iovec *iov, int count, void *data)
{
    ssize_t len = 0;
    (void)fd;
    (void)data;
    for (int i = 0; i < count; i++)
        len += (ssize_t)iov[i].iov_len;
    return len;
}

static ssize_t no_read(int fd, void *buf, size_t len, void *data)
{
    (void)fd;
    (void)buf;
    (void)len;
    (void)data;
    return 0;
}

static void process(uint8_t *bytes, size_t len)
{
    struct fuse_buf buf = {.mem = bytes, .size = len};
    fuse_session_process_buf(session, &buf);
}

static int open_session(void)
{
    static const struct fuse_custom_io io = {.writev = swallow, .read = no_read};
    static uint8_t init[56] = {56, 0, 0, 0, 26, 0, 0, 0, 2, [40] = 7, [44] = 31};
    char *words[] = {"time_codec", NULL};
    struct fuse_args args = FUSE_ARGS_INIT(1, words);
    session = fuse_session_new(&args, &handlers, sizeof handlers, NULL);
    if (session == NULL || fuse_session_custom_io(session, &io, open("/dev/null", O_RDWR)) != 0)
        return -1;
    process(init, sizeof init);
    return 0;
}

static void by_libfuse(void)
{
    for (size_t i = 0; i < frame_count; i++)
        process(frames[i].bytes, frames[i].len);
}
#endif

/* The shortest of so many rounds, in nanoseconds a frame. */
static double measured(void (*run)(void), unsigned long rounds)
{
    struct timespec from, to;
    clock_gettime(CLOCK_MONOTONIC, &from);
    for (unsigned long i = 0; i < rounds; i++)
        run();
    clock_gettime(CLOCK_MONOTONIC, &to);
    double spent = (double)(to.tv_sec - from.tv_sec) * 1e9 + (double)(to.tv_nsec - from.tv_nsec);
    return spent / (double)rounds / (double)frame_count;
}

static void load(const char *path)
{
    static char hex[131074];
    char direction;
    unsigned opcode, minor, fault;
    FILE *file = fopen(path, "r");
    if (file == NULL)
        exit(1);
    while (fscanf(file, " %c %u %u %u %131073s", &direction, &opcode, &minor, &fault, hex) == 5) {
        if (direction != '>' || minor != 31 || fault != 0 || opcode == FUSEWORLD_INIT || opcode == FUSEWORLD_INTERRUPT)
            continue;
        struct frame *f = &frames[frame_count++];
        f->len = strlen(hex) / 2;
        f->bytes = malloc(f->len);
        for (size_t i = 0; f->bytes != NULL && i < f->len; i++) {
            unsigned byte = 0;
            sscanf(hex + 2 * i, "%2x", &byte);
            f->bytes[i] = (uint8_t)byte;
        }
    }
    fclose(file);
}

/* Where the decoder and the library differ, their times say nothing. */
static int agree(void)
{
    for (size_t i = 0; i < frame_count; i++) {
        struct fuseworld_request a, b;
        memset(&a, 0, sizeof a);
        memset(&b, 0, sizeof b);
        if (decode(frames[i].bytes, frames[i].len, &a) != fuseworld_read_request(31, frames[i].bytes, frames[i].len, &b)
            || memcmp(&a, &b, sizeof a) != 0)
            return 0;
    }
    return 1;
}

int main(int argc, char **argv)
{
    if (argc < 2)
        return 2;
    load(argv[1]);
    unsigned long rounds = argc > 2 ? strtoul(argv[2], NULL, 10) : 2000;
    if (!agree()) {
        printf("the decoder in C and the library differ\n");
        return 1;
    }
    double library = 1e9, hand = 1e9;
#ifdef LIBFUSE
    double libfuse = 1e9;
    if (open_session() != 0)
        return 1;
#endif
    for (int i = 0; i < 7; i++) {
        double time = measured(by_library, rounds);
        library = time < library ? time : library;
        time = measured(by_hand, rounds);
        hand = time < hand ? time : hand;
#ifdef LIBFUSE
        time = measured(by_libfuse, rounds / 10 + 1);
        libfuse = time < libfuse ? time : libfuse;
#endif
    }
    printf("%zu frames: the library %.1f ns a frame, %.1f million a second\n", frame_count, library, 1e3 / library);
    printf("the decoder in C %.1f ns, %.2f of the library\n", hand, hand / library);
#ifdef LIBFUSE
    printf("libfuse's session %.1f ns, %.2f of the library\n", libfuse, libfuse / library);
#endif
    return sum == 0;
}
