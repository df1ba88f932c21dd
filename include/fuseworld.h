/*
 * The codec of fuseworld: frames of FUSE 7.31 and 7.15, read and written, exact to the byte.
 *
 * Each call reads or writes one frame, or one record of one. It allocates nothing, keeps nothing, calls no
 * function of the caller's or of the C library, and ends no process. So any number of threads may call it at
 * once, each on memory of its own.
 *
 * What a frame may be is said in docs/PROTOCOL.md, by the structs of linux/fuse.h. A call that reads answers 0
 * exactly where the bytes spell a message, and else the first fault. A call that writes puts the one written
 * spelling of a message. Both are proved of the code that is called here; that this header says the same structs
 * and calls as that code is not.
 *
 * The caller's side, which nothing checks:
 *
 *   - A pointer is to memory that is the caller's for the time of the call, and is never NULL: also bytes of
 *     length 0 have an address.
 *   - What a call writes into does not overlap what it reads, nor another thing that it writes into.
 *   - A struct that is passed to a call that writes has each field set: start from one that is all zeros.
 *
 * Names and data stand in the structs as an offset and a length, in bytes, within the bytes that the call was
 * given. They are not copied. A name has no NUL byte there, nor at its end.
 *
 * For little-endian machines of 64 bits.
 */
#ifndef FUSEWORLD_H
#define FUSEWORLD_H

#include <stddef.h>
#include <stdint.h>

#ifdef __cplusplus
extern "C" {
#endif

/* ---- what a call answers */

enum fuseworld_status {
    /* The call did what it says. */
    FUSEWORLD_OK = 0,

    /* The faults of frames, judged in the order Short, Length, ErrorRange, Opcode, Body, Name. */

    /* Fewer bytes than a header has: 40 of a request, 16 of a reply. */
    FUSEWORLD_SHORT = 1,
    /* The field `len` is not the frame's length. */
    FUSEWORLD_LENGTH = 2,
    /* The opcode is not known at the minor version, or has no replies. */
    FUSEWORLD_OPCODE = 3,
    /* A name is missing, ends in no NUL byte or breaks the rules of names. */
    FUSEWORLD_NAME = 4,
    /* The body has not the parts that its opcode asks for, or a number in it is out of range. */
    FUSEWORLD_BODY = 5,
    /* The error of a reply is neither 0 nor between -511 and -1. */
    FUSEWORLD_ERROR_RANGE = 6,

    /* This library's own. 7 is no status. */

    /* The minor version is neither 15 nor 31. */
    FUSEWORLD_MINOR = 8,
    /* The buffer is too small: `*wanted` says how many bytes the frame has. */
    FUSEWORLD_ROOM = 9,
    /* An offset and its length, which count for the opcode, lead beyond the bytes. */
    FUSEWORLD_PLACE = 10,
    /* No pair or record is left. */
    FUSEWORLD_END = 11
};

/* ---- the opcodes that are known, as `enum fuse_opcode` of linux/fuse.h numbers them */

enum fuseworld_opcode {
    FUSEWORLD_LOOKUP = 1,
    FUSEWORLD_FORGET = 2, /* has no reply */
    FUSEWORLD_GETATTR = 3,
    FUSEWORLD_MKDIR = 9,
    FUSEWORLD_UNLINK = 10,
    FUSEWORLD_RMDIR = 11,
    FUSEWORLD_RENAME = 12,
    FUSEWORLD_LINK = 13,
    FUSEWORLD_OPEN = 14,
    FUSEWORLD_READ = 15,
    FUSEWORLD_WRITE = 16,
    FUSEWORLD_RELEASE = 18,
    FUSEWORLD_INIT = 26,
    FUSEWORLD_READDIR = 28,
    FUSEWORLD_CREATE = 35,
    FUSEWORLD_INTERRUPT = 36,
    FUSEWORLD_BATCH_FORGET = 42, /* has no reply; not at 7.15 */
    FUSEWORLD_READDIRPLUS = 44   /* not at 7.15 */
};

/* ---- the flags of INIT that are known; others are dropped when read and not written */

#define FUSEWORLD_ASYNC_READ 0x1u
#define FUSEWORLD_DO_READDIRPLUS 0x2000u
#define FUSEWORLD_PARALLEL_DIROPS 0x40000u

/* How many bytes a frame has at most: a WRITE of 4,096 bytes. */
#define FUSEWORLD_MAX_FRAME 4176

/* ---- heads */

/* The head of a request frame: of `struct fuse_in_header` these two. */
struct fuseworld_request_head {
    uint64_t unique;  /* the number that the reply gives back */
    uint32_t opcode;  /* known or not */
    uint32_t padding; /* 0 */
};

/* The head of a reply frame: `struct fuse_out_header` but `len`. */
struct fuseworld_reply_head {
    uint64_t unique;  /* the number of the request */
    int32_t error;    /* 0, or a negated error number down to -511 */
    uint32_t padding; /* 0 */
};

/* ---- requests */

/*
 * A request: the fields of its struct of linux/fuse.h that are not free, in one struct for all opcodes. Behind
 * each are the opcodes under which it counts. Under the others it is 0 when read and is not looked at when written.
 *
 * Under GETATTR and OPEN, `unique` and `nodeid` alone count.
 */
struct fuseworld_request {
    uint64_t unique;       /* all: the number that the reply gives back */
    uint64_t nodeid;       /* all; 0 under INIT, INTERRUPT and BATCH_FORGET, which are about no node */
    uint64_t fh;           /* READ, WRITE, RELEASE: the open file */
    uint64_t offset;       /* READ, WRITE: in bytes; READDIR, READDIRPLUS: the `off` where the list goes on */
    uint64_t nlookup;      /* FORGET: how many lookups of the node are forgotten */
    uint64_t newdir;       /* RENAME: the directory that the name moves to; it moves out of `nodeid` */
    uint64_t oldnodeid;    /* LINK: the file that gets a further name in the directory `nodeid` */
    uint64_t interrupted;  /* INTERRUPT: the `unique` of the request that is interrupted */
    size_t name_offset;    /* LOOKUP, MKDIR, UNLINK, RMDIR, LINK, CREATE; RENAME: the old name */
    size_t name_length;    /* 1 to 255, without the NUL byte */
    size_t newname_offset; /* RENAME: the new name */
    size_t newname_length; /* 1 to 255, without the NUL byte */
    size_t data_offset;    /* WRITE: the data; BATCH_FORGET: the pairs, for fuseworld_next_pair */
    size_t data_length;    /* WRITE: also the field `size`; BATCH_FORGET: 16 bytes a pair */
    uint32_t opcode;       /* all: enum fuseworld_opcode */
    uint32_t size;         /* READ, READDIR, READDIRPLUS: how many bytes are asked for at most */
    uint32_t major;        /* INIT */
    uint32_t minor;        /* INIT */
    uint32_t flags;        /* INIT: what the kernel offers, FUSEWORLD_ASYNC_READ .. */
    uint32_t padding;      /* 0 */
};

/* ---- replies */

/* The attributes of a file: the fields of `struct fuse_attr` that are not free. */
struct fuseworld_attr {
    uint64_t ino;
    uint64_t size;  /* in bytes */
    uint32_t mode;  /* the file's kind is in the bits 0170000: 040000 a directory, 0100000 a file */
    uint32_t nlink; /* how many names the file has */
};

/* The file of a name: the fields of `struct fuse_entry_out` that are not free. */
struct fuseworld_entry {
    uint64_t nodeid;           /* 0: no file has the name, and `generation` and `attr` do not count */
    uint64_t generation;       /* which of the files it is that had this node id in turn */
    uint64_t entry_valid;      /* for how many seconds the name is valid */
    uint32_t entry_valid_nsec; /* and nanoseconds, at most 999,999,999 */
    uint32_t padding;          /* 0 */
    struct fuseworld_attr attr;
};

/*
 * A reply: the fields of its struct of linux/fuse.h that are not free, in one struct for all opcodes. With an
 * error other than 0, the first three alone count.
 *
 * Under UNLINK, RMDIR, RENAME, RELEASE and INTERRUPT the first three alone count as well. Under another opcode than
 * those behind it, or an error, a field is 0 when read and is not looked at when written.
 */
struct fuseworld_reply {
    uint64_t unique;              /* all: the number of the request */
    int32_t error;                /* all: 0, or a negated error number down to -511 */
    uint32_t opcode;              /* all: that of the request */
    struct fuseworld_entry entry; /* LOOKUP, MKDIR, LINK, CREATE; GETATTR: entry.attr alone */
    uint64_t fh;                  /* OPEN, CREATE: the open file */
    size_t data_offset;           /* READ: the bytes; READDIR, READDIRPLUS: the records */
    size_t data_length;           /* their length in bytes */
    uint32_t size;                /* WRITE: how many bytes were written */
    uint32_t major;               /* INIT */
    uint32_t minor;               /* INIT; with major 7 and minor 15 the frame has 40 bytes, else 80 */
    uint32_t flags;               /* INIT: what the server takes up */
};

/* ---- pairs and records */

/* `struct fuse_forget_one`: a node, and how many lookups of it are forgotten. */
struct fuseworld_forget_one {
    uint64_t nodeid;
    uint64_t nlookup;
};

/* `struct fuse_dirent`: a name in a directory. */
struct fuseworld_dirent {
    uint64_t ino;
    uint64_t off;       /* where a list that goes on behind this record starts */
    size_t name_offset; /* the name may be `.` or `..` */
    size_t name_length; /* 1 to 255 */
    uint32_t type;      /* 4 a directory, 8 a file */
    uint32_t padding;   /* 0 */
};

/* `struct fuse_direntplus`: a name in a directory, and its file. */
struct fuseworld_direntplus {
    struct fuseworld_entry entry;
    struct fuseworld_dirent dirent;
};

/* ---- reading
 *
 * `bytes` and `len` are the frame. Of a kernel of 7.36 or later, an INIT request has 104 bytes: set its field
 * `len` to 56 and give its first 56 bytes, which are the INIT of 7.31.
 *
 * Where the answer is not 0, `*out` stays as it was.
 */

/* Reads the opcode, known or not, and the unique of a request. Answers SHORT or LENGTH. */
uint32_t fuseworld_read_request_head(const uint8_t *bytes, size_t len, struct fuseworld_request_head *out);

/* Reads the error and the unique of a reply. Answers SHORT, LENGTH or ERROR_RANGE. */
uint32_t fuseworld_read_reply_head(const uint8_t *bytes, size_t len, struct fuseworld_reply_head *out);

/* Reads a request. `minor` is 31 or 15. Answers the first of SHORT, LENGTH, OPCODE, BODY and NAME; or MINOR. */
uint32_t fuseworld_read_request(uint32_t minor, const uint8_t *bytes, size_t len, struct fuseworld_request *out);

/*
 * Reads a reply to a request of this opcode. Answers the first of SHORT, LENGTH, ERROR_RANGE, OPCODE, BODY and
 * NAME; or MINOR. An opcode that is not known has no replies.
 */
uint32_t fuseworld_read_reply(uint32_t minor, uint32_t opcode, const uint8_t *bytes, size_t len,
                              struct fuseworld_reply *out);

/* ---- reading pairs and records, one at a time
 *
 * `bytes` and `len` are the frame, and `*offset` is at first the `data_offset` of its struct. Each call reads what
 * is there, whose name lies before the new `*offset`, and moves `*offset` behind it. Where the answer is not 0,
 * `*offset` and `*out` stay as they were: END where the bytes are at their end, BODY where there is no whole record or
 * its entry's nanoseconds are a second or more, NAME where its name breaks the rules, PLACE where `*offset` is greater
 * than `len`. In a frame that was read, there is no answer but 0 and END.
 */

/* The next pair of a BATCH_FORGET. */
uint32_t fuseworld_next_pair(const uint8_t *bytes, size_t len, size_t *offset, struct fuseworld_forget_one *out);

/* The next record of a READDIR's reply. */
uint32_t fuseworld_next_record(const uint8_t *bytes, size_t len, size_t *offset, struct fuseworld_dirent *out);

/* The next record of a READDIRPLUS's reply. */
uint32_t fuseworld_next_record_plus(const uint8_t *bytes, size_t len, size_t *offset,
                                    struct fuseworld_direntplus *out);

/* ---- writing
 *
 * `bytes` and `len` are those within which the struct's offsets lie; for a struct that was read they are its
 * frame. The frame is put at the beginning of `buffer`, which has room for `capacity` bytes; behind it the buffer
 * stays as it was. `*wanted` is then the frame's length.
 *
 * Where the answer is not 0, the buffer stays as it was. With ROOM, `*wanted` says how long the frame is; with any
 * other answer `*wanted` is 0. FUSEWORLD_MAX_FRAME bytes are enough for each frame.
 *
 * Fields that are free are written with one fixed value, mostly 0 (docs/PROTOCOL.md).
 */

/*
 * Writes a request. Answers the first that applies of MINOR; OPCODE, for a number of no opcode; PLACE; OPCODE, BODY and
 * NAME, as of a frame; and ROOM. The pairs of a BATCH_FORGET are 16 bytes each, nodeid and nlookup in the order of
 * `struct fuse_forget_one`; other data are BODY, also at 7.15.
 */
uint32_t fuseworld_write_request(uint32_t minor, const struct fuseworld_request *request, const uint8_t *bytes,
                                 size_t len, uint8_t *buffer, size_t capacity, size_t *wanted);

/*
 * Writes a reply to a request of the opcode in the struct. Answers the first that applies of MINOR, ERROR_RANGE,
 * OPCODE, PLACE, BODY and ROOM. The records of a READDIR or READDIRPLUS are bytes as of a frame, and their padding is
 * written as zeros; data that are no whole records, or have a name that is none of a record, are BODY.
 */
uint32_t fuseworld_write_reply(uint32_t minor, const struct fuseworld_reply *reply, const uint8_t *bytes, size_t len,
                               uint8_t *buffer, size_t capacity, size_t *wanted);

/* ---- names
 *
 * Each puts a text and a NUL byte into `buffer` where it has room for both, and else leaves it as it was. The answer
 * is the text's length without the NUL byte, or 0 for a number that has no name. 16 bytes are enough for each.
 */

/* The name of an opcode in capitals, as `BATCH_FORGET`. */
size_t fuseworld_opcode_name(uint32_t opcode, uint8_t *buffer, size_t capacity);

/* The name of a fault, 1 to 6, as `ErrorRange`. */
size_t fuseworld_fault_name(uint32_t fault, uint8_t *buffer, size_t capacity);

/* The version of fuseworld, as `1.0.0`. */
size_t fuseworld_version(uint8_t *buffer, size_t capacity);

#ifdef __cplusplus
}
#endif

#endif
