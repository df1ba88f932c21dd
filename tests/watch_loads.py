"""Loads of a mount, for watch_servers.py: each is a list of shell scripts that run at once in the mounted folder, and its
name. What they say is not looked at: a server may refuse what it does not have.

In a script OUTSIDE is a folder beside the mount, with the tree OUTSIDE/tree, and TESTS the folder of this file.
"""

# Names, links, files and folders that are made, read, renamed and removed, by two shells at once.
SHELL = """mkdir -p shell ME && cd ME
for i in $(seq 40); do
    mkdir d$i; echo hello > d$i/f; cat d$i/f; mv d$i/f d$i/g; ln d$i/g d$i/h; ln -s g d$i/l; cat d$i/l; ls -l d$i
    cp d$i/g ../shell/of-both; echo more >> ../shell/of-both; cat ../shell/of-both
    mv ../shell/of-both ../shell/of-both-too; ls -l ../shell; rm -f ../shell/of-both-too
    touch d$i/g; chmod 600 d$i/g; truncate -s 100000 d$i/g; dd if=d$i/g of=d$i/copy bs=5000; stat -f .
    mkfifo d$i/pipe; : > d$i/x; rm d$i/*; rmdir d$i
done"""
TAR = """tar -C OUTSIDE -cf - tree | tar -xf - && diff -r OUTSIDE/tree tree; tar -cf - tree | cat > /dev/null
cp -r tree copy; find copy -type f -newer tree; du -s copy; grep -r fuse copy > /dev/null; mv copy moved; rm -r moved tree"""
GIT = """export HOME=OUTSIDE GIT_CONFIG_NOSYSTEM=1; git init -q git && cd git && cp -r OUTSIDE/tree . || exit
git config user.name a; git config user.email a@b; git config gc.auto 0
git add -A && git commit -qm tree; git mv tree moved; git commit -qm moved; git branch second; git rm -rq moved/linux
git commit -qm fewer; git checkout -q second; git status --short; git gc -q; git fsck; git log --stat > /dev/null
git clone -q . ../clone; cd ..; rm -rf git clone"""
READ = """for i in $(seq 25); do find . -type f | xargs cat > /dev/null; ls -lR . > /dev/null; tar -cf - . | cat > /dev/null
find . -links +1; stat -f .; stat none; cat hello; ls hello/below; find . -xattr; getfattr -d -m . hello; du -s .; done"""
# Of files that were there before the mount, which fuse-overlayfs copies when they change.
CHANGE = """find there -type f | head -n 300 > OUTSIDE/names
while read -r name; do
    stat $name; echo more >> $name; stat $name; chmod 600 $name; ln $name linked; mv linked $name.link; cat $name.link
done < OUTSIDE/names; ls -lR there; du -s there; mv there/tree moved-tree
find moved-tree -type f | xargs touch; ls -lR moved-tree; rm -r moved-tree"""
STATS = "python3 TESTS/watch_load.py stats ."
KILL = "python3 TESTS/watch_load.py signals . SECONDS"
CHURN = "python3 TESTS/watch_load.py churn . SECONDS"


def stress(*names):
    """Stressors of stress-ng, one process each, with small files."""
    sizes = {"hdd": "--hdd-bytes 4m", "seek": "--seek-size 4m", "copy-file": "--copy-file-bytes 4m",
             "fallocate": "--fallocate-bytes 4m", "iomix": "--iomix-bytes 4m", "sync-file": "--sync-file-bytes 4m",
             "readahead": "--readahead-bytes 4m", "dirdeep": "--dirdeep-inodes 2000"}
    words = " ".join(f"--{name} 1 {sizes.get(name, '')}" for name in names)
    return f"stress-ng --temp-path . -t SECONDS {words}"


LOADS = {
    "shells": [SHELL.replace("ME", "one"), SHELL.replace("ME", "two")],
    "changes": [CHANGE],
    "tar": [TAR],
    "git": [GIT],
    "stress-ng of names": [stress("dir", "link", "rename", "symlink")],
    "stress-ng of files": [stress("hdd", "seek", "fallocate", "copy-file")],
    "stress-ng of attributes": [stress("chmod", "utime", "xattr", "touch")],
    "stress-ng of locks": [stress("lockf", "flock", "fcntl", "locka")],
    "stress-ng of directories": [stress("dentry", "getdent", "dirdeep", "dirmany")],
    "stress-ng of all else": [stress("iomix", "sync-file", "filename", "fstat"), stress("access", "mknod", "open", "readahead")],
    "churn": [CHURN],
    "signals": [KILL],
    "readers": [READ, READ],
    "stats": [STATS],
}
WRITES = [name for name in LOADS if name not in ("readers", "stats")]
READS = ["readers", "stats"]
