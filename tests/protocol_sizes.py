#!/usr/bin/env python3
"""Writes a C program that compares the protocol's tables, as the definitions have them, with linux/fuse.h.

tests/protocol_sizes.sh compiles and runs it. The tables are read line by line; what stands here by hand is only which
struct an opcode has, and which field of it a column of the table means.
"""
import re
import sys
from pathlib import Path

CRATES = Path(sys.argv[1])
# The request's struct behind each opcode that has one.
REQUEST = {
    "FORGET": "forget_in", "GETATTR": "getattr_in", "SETATTR": "setattr_in", "MKNOD": "mknod_in", "MKDIR": "mkdir_in",
    "RENAME": "rename_in", "LINK": "link_in", "OPEN": "open_in", "READ": "read_in", "WRITE": "write_in",
    "RELEASE": "release_in", "FSYNC": "fsync_in", "SETXATTR": "setxattr_in", "GETXATTR": "getxattr_in",
    "LISTXATTR": "getxattr_in", "FLUSH": "flush_in", "INIT": "init_in", "OPENDIR": "open_in", "READDIR": "read_in",
    "RELEASEDIR": "release_in", "FSYNCDIR": "fsync_in", "GETLK": "lk_in", "SETLK": "lk_in", "SETLKW": "lk_in",
    "ACCESS": "access_in", "CREATE": "create_in", "INTERRUPT": "interrupt_in", "BMAP": "bmap_in", "IOCTL": "ioctl_in",
    "POLL": "poll_in", "NOTIFY_REPLY": "notify_retrieve_in", "BATCH_FORGET": "batch_forget_in",
    "FALLOCATE": "fallocate_in", "READDIRPLUS": "read_in", "RENAME2": "rename2_in", "LSEEK": "lseek_in",
    "COPY_FILE_RANGE": "copy_file_range_in", "SETUPMAPPING": "setupmapping_in", "REMOVEMAPPING": "removemapping_in",
    "SYNCFS": "syncfs_in", "TMPFILE": "create_in", "STATX": "statx_in", "COPY_FILE_RANGE_64": "copy_file_range_in",
}
# The reply's struct where its size is in the table, and the field that is a number.
REPLY = {
    "WRITE": ("write_out", "size"), "STATFS": ("statfs_out", None), "GETLK": ("lk_out", None),
    "BMAP": ("bmap_out", "block"), "POLL": ("poll_out", "revents"), "LSEEK": ("lseek_out", "offset"),
    "COPY_FILE_RANGE": ("write_out", "size"), "STATX": ("statx_out", None),
    "COPY_FILE_RANGE_64": ("copy_file_range_out", "bytes_copied"),
}
# The field behind a column, where it has another name than the column.
FIELD = {
    ("WRITE", "tail"): "size", ("SETXATTR", "tail"): "size", ("IOCTL", "tail"): "in_size",
    ("NOTIFY_REPLY", "tail"): "size",
    ("BATCH_FORGET", "tail"): "count", ("REMOVEMAPPING", "tail"): "count", ("RENAME", "node"): "newdir",
    ("RENAME2", "node"): "newdir", ("LINK", "node"): "oldnodeid", ("COPY_FILE_RANGE", "node"): "nodeid_out",
    ("COPY_FILE_RANGE_64", "node"): "nodeid_out", ("FORGET", "forgotten"): "nlookup",
    ("INTERRUPT", "interrupted"): "unique",
    ("GETATTR", "flags"): "getattr_flags", ("SETATTR", "flags"): "valid", ("FSYNC", "flags"): "fsync_flags",
    ("FSYNCDIR", "flags"): "fsync_flags", ("GETLK", "flags"): "lk_flags", ("SETLK", "flags"): "lk_flags",
    ("SETLKW", "flags"): "lk_flags", ("STATX", "flags"): "getattr_flags", ("IOCTL", "size"): "in_size",
    ("FALLOCATE", "size"): "length", ("COPY_FILE_RANGE", "size"): "len", ("COPY_FILE_RANGE_64", "size"): "len",
    ("SETUPMAPPING", "size"): "len", ("GETLK", "offset"): "lk.start", ("SETLK", "offset"): "lk.start",
    ("SETLKW", "offset"): "lk.start", ("COPY_FILE_RANGE", "offset"): "off_in",
    ("COPY_FILE_RANGE_64", "offset"): "off_in",
    ("SETUPMAPPING", "offset"): "foffset", ("ACCESS", "mode"): "mask",
}
NOTIFICATION = {
    "POLL": ("notify_poll_wakeup_out", None), "INVAL_INODE": ("notify_inval_inode_out", None),
    "INVAL_ENTRY": ("notify_inval_entry_out", "namelen"), "STORE": ("notify_store_out", "size"),
    "RETRIEVE": ("notify_retrieve_out", None), "DELETE": ("notify_delete_out", "namelen"), "RESEND": (None, None),
    "INC_EPOCH": (None, None), "PRUNE": ("notify_prune_out", "count"),
}
# Definitions whose lines are fields of one struct at a place: the struct, and how the definition's names differ.
STRUCTS = {
    ("fuse_replies/specs/Entries.antt", "attributes_at"): ("attr", 0, {}),
    ("fuse_replies/specs/Entries.antt", "valid_attributes_at"):
        ("attr_out", 0, {"seconds": "attr_valid", "nanoseconds": "attr_valid_nsec"}),
    ("fuse_replies/specs/Entries.antt", "opened_at"): ("open_out", 0, {"handle": "fh", "flags": "open_flags"}),
    ("fuse_replies/specs/Record.antt", "record_at"): ("dirent", 0, {"kind": "type", "name": "namelen"}),
    ("fuse_protocol/specs/Init.antt", "init_request_at"): ("init_in", 40, {}),
    ("fuse_protocol/specs/Init.antt", "init_reply_at"): ("init_out", 16, {}),
}
LATER = {"STATX": 39, "RESEND": 40, "INC_EPOCH": 44, "COPY_FILE_RANGE_64": 45, "PRUNE": 45}  # after the oldest header


def lines_of(path):
    """The lines of a file of definitions, each with those that go on with it."""
    whole = []
    for line in (CRATES / path).read_text().splitlines():
        if line.startswith("    ") and whole:
            whole[-1] += " " + line.strip()
        else:
            whole.append(line)
    return whole


def same(what, table, header):
    print(f'    same("{what}", {table}, {header});')


def place_in(text):
    found = re.search(r"\d+", text)
    return found and found[0]


def same_field(what, struct, field, place, start, width=None):
    same(what, place, f"{start} + offsetof(struct fuse_{struct}, {field})")
    if width:
        same(f"width of {what}", width, f"sizeof(((struct fuse_{struct} *) 0)->{field})")


def guarded(name, body):
    """Runs what compares a row, unless the header is older than the row."""
    since = LATER.get(name)
    if since:
        print(f'#if FUSE_KERNEL_MINOR_VERSION < {since}\n    puts("{name}: this linux/fuse.h is older");\n#else')
    body()
    if since:
        print("#endif")


def request_row(number, name, fixed, tail, node, handle, answer):
    def body():
        same(f"number of {name}", number, f"FUSE_{name}")
        if name in REQUEST and name != "INIT":
            same(f"request of {name}", fixed.split()[-1], f"sizeof(struct fuse_{REQUEST[name]})")
        elif name != "INIT":
            assert fixed.split()[-1] == "0", name
        for what, text in (("tail", tail), ("node", node)):
            field = FIELD.get((name, what))
            assert (place_in(text) is None) == (field is None), (name, what)
            if field:
                same_field(f"{what} of {name}", REQUEST[name], field, place_in(text), 40)
        if any(word in answer for word in ("AtMost", "Records", "Sized")):
            same_field(f"asked of {name}", REQUEST[name], "size", place_in(answer), 40)
        if "None" not in handle:
            field = "fh_in" if "TwoFiles" in handle else "fh"
            same_field(f"handle of {name}", REQUEST[name], field, 48 if "FileIf" in handle else 40, 40)
        if "Number" in answer:
            struct, field = REPLY[name]
            same(f"reply of {name}", 8, f"sizeof(struct fuse_{struct})")
            same_field(f"reply of {name}", struct, field, 0, 0, 4 if "Four" in answer else 8)
        elif "Fixed" in answer:
            same(f"reply of {name}", place_in(answer), f"sizeof(struct fuse_{REPLY[name][0]})")

    guarded(name, body)


def places_row(name, text):
    def body():
        for column, width, at in re.findall(r"(\w+) = (four|eight) (\d+)", text):
            field = FIELD.get((name, column), column)
            same_field(f"{column} of {name}", REQUEST[name], field, at, 0, 4 if width == "four" else 8)

    guarded(name, body)


def notification_row(number, name, fixed, tail):
    struct, field = NOTIFICATION[name]

    def body():
        same(f"code of {name}", number, f"FUSE_NOTIFY_{name}")
        same(f"notification of {name}", fixed, f"sizeof(struct fuse_{struct})" if struct else 0)
        assert (place_in(tail) is None) == (field is None), name
        if field:
            same_field(f"tail of {name}", struct, field, place_in(tail), 16)

    guarded(name, body)


def definition(path, name, struct, start, names):
    text = (CRATES / path).read_text()
    body = re.search(rf"^{name} .*?(?=\n\n|\Z)", text, re.S | re.M)[0]
    number = r"number_(?:at|or_none) (?:\(place \+ (\d+)\)|place|(\d+)) (\d) bytes"
    fields = re.findall(r"(\w+) = (?:\w+ \()?" + number, body)
    assert fields, name
    for field, behind, at, width in fields:
        place = behind or at or "0"
        same_field(f"{field} of {name}", struct, names.get(field, field), place, start, width)


print('#include <linux/fuse.h>\n#include <stddef.h>\n#include <stdio.h>\nstatic int wrong, right;\n'
      'static void same(const char *what, unsigned long table, unsigned long header) {\n'
      '    if (table == header) { right++; return; }\n'
      '    wrong++; printf("%s: %lu in the table, %lu in linux/fuse.h\\n", what, table, header);\n}\n'
      'int main(void) {')
same("struct fuse_in_header", 40, "sizeof(struct fuse_in_header)")
same("total_extlen", 36, "offsetof(struct fuse_in_header, total_extlen)")
same("INIT before flags2", 16, "offsetof(struct fuse_init_in, flags2)")
same("flags2 of INIT", 56, "40 + offsetof(struct fuse_init_in, flags2)")
same("flags2 of INIT's reply", 48, "16 + offsetof(struct fuse_init_out, flags2)")
same("reply of INIT", 64, "sizeof(struct fuse_init_out)")
same("reply of INIT below 7.23", 24, "FUSE_COMPAT_22_INIT_OUT_SIZE")
same("reply of INIT below 7.5", 8, "FUSE_COMPAT_INIT_OUT_SIZE")
same("reply with an entry", 128, "sizeof(struct fuse_entry_out)")
same("reply with attributes", 104, "sizeof(struct fuse_attr_out)")
same("reply of OPEN", 16, "sizeof(struct fuse_open_out)")
same("reply of GETXATTR", 8, "sizeof(struct fuse_getxattr_out)")
same("reply of IOCTL", 16, "sizeof(struct fuse_ioctl_out)")
same("flags of IOCTL", 8, "offsetof(struct fuse_ioctl_in, flags)")
same("directory's IOCTL", 16, "FUSE_IOCTL_DIR")
same("second handle", 24, "offsetof(struct fuse_copy_file_range_in, fh_out)")
same("GETATTR's flag", 1, "FUSE_GETATTR_FH")
same("MKNOD below 7.12", 8, "FUSE_COMPAT_MKNOD_IN_SIZE")
same("SETXATTR without SETXATTR_EXT", 8, "FUSE_COMPAT_SETXATTR_IN_SIZE")
same("struct fuse_forget_one", 16, "sizeof(struct fuse_forget_one)")
same("struct fuse_removemapping_one", 16, "sizeof(struct fuse_removemapping_one)")
same("attributes in struct fuse_attr_out", 16, "offsetof(struct fuse_attr_out, attr)")
same("entry in struct fuse_direntplus", 128, "offsetof(struct fuse_direntplus, dirent)")
same("name in struct fuse_dirent", 24, "offsetof(struct fuse_dirent, name)")
for field, at, width in (("nodeid", 0, 8), ("generation", 8, 8), ("entry_valid", 16, 8), ("attr_valid", 24, 8),
                         ("entry_valid_nsec", 32, 4), ("attr_valid_nsec", 36, 4), ("attr", 40, None)):
    same_field(f"{field} of an entry", "entry_out", field, at, 0, width)
for word, flag in (("export_support", "EXPORT_SUPPORT"), ("max_pages", "MAX_PAGES"), ("setxattr_ext", "SETXATTR_EXT"),
                   ("init_ext", "INIT_EXT"), ("security_ctx", "SECURITY_CTX")):
    value = re.search(rf"^{word} = (\d+)$", (CRATES / "fuse_protocol/specs/Agreement.antt").read_text(), re.M)[1]
    same(f"flag {flag}", f"{value}UL", f"FUSE_{flag}")

ROW = re.compile(r'^table op\.(\w+) = row (\d+) \(codes "(\w+)"\) \d+ \(fixed\.(\w+ [\d ]+)\) names\.\w+ '
                 r"(\(tail\.\w+ \d+\)|tail\.\w+) (None|\(Some \d+\)) (\(handle\.\w+ \d+\)|handle\.\w+) "
                 r"(\(reply\.\w+ [\w.]+\)|reply\.\w+)$")
names = {}
for line in lines_of("fuse_protocol/specs/Table.antt"):
    if line.startswith("table op."):
        match = ROW.match(line)
        assert match, line
        names[match[1]] = match[3]
        request_row(*match.groups()[1:])
assert len(names) == 51, len(names)
for line in lines_of("fuse_protocol/specs/Places.antt"):
    match = re.match(r"^places_at op\.(\w+) = record nowhere (.*)$", line)
    if match:
        places_row(names[match[1]], match[2])
for line in lines_of("fuse_replies/specs/NotificationTable.antt"):
    match = re.match(r'^table kind\.\w+ = row (\d+) \(codes "(\w+)"\) \d+ (\d+) (\(tail\.\w+ \d+\)|tail\.\w+)$', line)
    if match:
        notification_row(*match.groups())
for (path, name), (struct, start, renamed) in STRUCTS.items():
    definition(path, name, struct, start, renamed)
print('    printf("%d passed, %d failed\\n", right, wrong);\n    return wrong != 0;\n}')
