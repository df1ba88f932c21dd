"""FUSE servers that others wrote: their packages, their command words, and the folders they serve. drive_servers.py drives
them, and watch_servers.py watches them on mounts.

In the words of a server FOLDER is its folder, BUILT where `build` put the programs, MOUNT its mount point.
"""
import os
import shutil
import subprocess
from pathlib import Path

TOP = Path(__file__).resolve().parent.parent
DRIVE = TOP / "examples/drive"
LIBFUSE = Path("/usr/share/doc/libfuse3-dev/examples")
GO_FUSE = Path("/usr/share/gocode/src/github.com/hanwen/go-fuse")
GO_LOOPBACK = Path("/usr/share/doc/golang-github-hanwen-go-fuse-dev/examples/loopback/main.go")
SFTP_SERVER = Path("/usr/lib/openssh/sftp-server")
HELLO = b"Hello World!\n"


def quiet(words, **more):
    """Runs a command that has to end well."""
    subprocess.run(words, check=True, stdin=subprocess.DEVNULL, stdout=subprocess.DEVNULL, stderr=subprocess.DEVNULL, **more)


class Server:
    """A server: its package, what has to be there for it, its command words, and how its folder is prepared."""

    def __init__(self, name, package, needs, words, prepare=lambda folder: None, has_addresses=False):
        self.name, self.package, self.needs, self.words, self.prepare = name, package, needs, words, prepare
        # Whether its node ids are addresses.
        self.has_addresses = has_addresses

    def is_there(self):
        return all(shutil.which(need) or Path(need).exists() for need in self.needs)

    def command(self, built, folder):
        return [word.replace("FOLDER", str(folder)).replace("BUILT", str(built)) for word in self.words]


def put_folder(folder):
    (folder / "files").mkdir()


def put_mount(folder):
    """And one more, for a server that looks at its mount point."""
    put_folder(folder)
    (folder / "mount").mkdir()


def put_two_folders(folder):
    put_mount(folder)
    (folder / "other").mkdir()


def put_volume(folder):
    """A volume of glusterfs that is a folder here."""
    put_mount(folder)
    (folder / "volume").write_text(f"volume posix\ntype storage/posix\noption directory {folder}/files\nend-volume\n")


def put_layers(folder):
    for name in ("lower", "upper", "work", "mount"):
        (folder / name).mkdir()


def put_image(folder):
    """An image of the folder `image`, which gets the file `hello` if it is not there."""
    if not (folder / "image").exists():
        (folder / "image").mkdir()
        (folder / "image/hello").write_bytes(HELLO)
    quiet(["mksquashfs", folder / "image", folder / "image.sqfs", "-all-root", "-no-progress"])


def put_disk(make):
    """A file system of 300 MB, made by these words."""
    def put(folder):
        (folder / "mount").mkdir()
        with open(folder / "disk", "wb") as disk:
            disk.truncate(300 << 20)
        quiet([*make, folder / "disk"])
    return put


def put_cipher(folder):
    (folder / "cipher").mkdir()
    (folder / "password").write_text("secret\n")
    quiet(["gocryptfs", "-init", "-q", "-scryptn", "10", "-passfile", folder / "password", folder / "cipher"])


def example(name, words=(), prepare=lambda folder: None, has_addresses=False):
    """An example of libfuse."""
    needs = ["pkg-config", "cc", f"{LIBFUSE}/{name}.c"]
    return Server(name, "libfuse3-dev", needs, [f"BUILT/{name}", "-f", *words, "MOUNT"], prepare, has_addresses)


# Examples of libfuse that send notifications.
NOTIFYING = ["notify_inval_entry", "notify_inval_inode", "notify_store_retrieve", "invalidate_path"]
OVERLAY = "lowerdir=FOLDER/lower,upperdir=FOLDER/upper,workdir=FOLDER/work"
SUBFOLDER = ["-o", "modules=subdir,subdir=FOLDER/files"]
SHIM = ["env", "LD_PRELOAD=BUILT/shim.so"]
SERVERS = {server.name: server for server in [
    # It listens at a socket, BUILT/uds.sock.
    Server("hello_ll_uds", "libfuse3-dev", example("hello_ll_uds").needs, None),
    example("hello_ll"),
    example("hello"),
    Server("squashfuse_ll", "squashfuse, squashfs-tools", ["squashfuse_ll", "mksquashfs"],
           ["squashfuse_ll", "-f", "FOLDER/image.sqfs", "MOUNT"], put_image),
    example("passthrough", SUBFOLDER, put_folder),
    example("passthrough_fh", SUBFOLDER, put_folder),
    example("passthrough_ll", ["-o", "source=FOLDER/files"], put_folder, has_addresses=True),
    Server("loopback", "golang-github-hanwen-go-fuse-dev, golang-go", ["go", str(GO_LOOPBACK)],
           ["BUILT/loopback", "MOUNT", "FOLDER/files"], put_folder),
    Server("fuse-overlayfs", "fuse-overlayfs", ["fuse-overlayfs", "cc"],
           [*SHIM, "fuse-overlayfs", "-f", "-o", OVERLAY, "FOLDER/mount"], put_layers, has_addresses=True),
    Server("gocryptfs", "gocryptfs", ["gocryptfs"],
           ["gocryptfs", "-fg", "-q", "-passfile", "FOLDER/password", "FOLDER/cipher", "MOUNT"], put_cipher),
    Server("bindfs", "bindfs", ["bindfs", "cc"], [*SHIM, "bindfs", "-f", "FOLDER/files", "FOLDER/mount"], put_mount),
    Server("unionfs", "unionfs-fuse", ["unionfs", "cc"], [*SHIM, "unionfs", "-f", "-o", "cow", "FOLDER/files=RW", "FOLDER/mount"], put_mount),
    Server("mergerfs", "mergerfs", ["mergerfs", "cc"], [*SHIM, "mergerfs", "-f", "FOLDER/files:FOLDER/other", "FOLDER/mount"], put_two_folders),
    Server("fuse2fs", "fuse2fs, e2fsprogs", ["fuse2fs", "mkfs.ext4", "cc"], [*SHIM, "fuse2fs", "-f", "FOLDER/disk", "FOLDER/mount"],
           put_disk(["mkfs.ext4", "-q"])),
    Server("ntfs-3g", "ntfs-3g", ["ntfs-3g", "mkntfs", "cc"], [*SHIM, "ntfs-3g", "-o", "no_detach", "FOLDER/disk", "FOLDER/mount"],
           put_disk(["mkntfs", "-F", "-Q"])),
    Server("glusterfs", "glusterfs-client", ["glusterfs", "cc"], [*SHIM, "glusterfs", "-N", "-f", "FOLDER/volume", "-l", "FOLDER/log", "FOLDER/mount"],
           put_volume),
    *(example(name, ["--update-interval=1"]) for name in NOTIFYING),
    Server("sshfs", "sshfs, openssh-sftp-server", ["sshfs", str(SFTP_SERVER)],
           ["sshfs", "-f", "-o", "ssh_command=BUILT/sftp", "host:FOLDER/files", "MOUNT"], put_folder),
]}


def build_example(built, name):
    # hello_ll_uds listens at a path of its own in /tmp.
    source = (LIBFUSE / f"{name}.c").read_text().replace("/tmp/libfuse-hello-ll.sock", f"{built}/uds.sock")
    (built / f"{name}.c").write_text(source)
    flags = subprocess.run(["pkg-config", "fuse3", "--cflags", "--libs"], check=True, capture_output=True, text=True).stdout
    quiet(["cc", "-w", f"-I{built}", f"-I{LIBFUSE}", "-o", built / name, built / f"{name}.c", *flags.split(), "-lpthread"])


def build(built, names):
    """The shim, sshfs's way to its server, and the examples of libfuse and go-fuse that are among the names."""
    quiet(["cc", "-O2", "-shared", "-fPIC", "-o", built / "shim.so", DRIVE / "shim.c"])
    (built / "fuse_kernel.h").write_text("#include <linux/fuse.h>\n")
    (built / "sftp").write_text(f"#!/bin/sh\nexec {SFTP_SERVER}\n")
    (built / "sftp").chmod(0o755)
    for name in names:
        if (LIBFUSE / f"{name}.c").exists():
            build_example(built, name)
    if "loopback" in names:
        source = built / "go/src/github.com/hanwen/go-fuse"
        source.mkdir(parents=True)
        (source / "v2").symlink_to(GO_FUSE)
        quiet(["go", "build", "-o", built / "loopback", GO_LOOPBACK],
              env={**os.environ, "GO111MODULE": "off", "GOFLAGS": "", "GOPATH": f"{built}/go:/usr/share/gocode", "GOCACHE": f"{built}/cache"})
