/* Mounts a directory that the command `serve` of fuseworld serves, until it is unmounted or a signal comes.
 *
 * mount DIR PROGRAM [ARGUMENTS..]: PROGRAM is run as `PROGRAM serve ARGUMENTS..`, with /dev/fuse as its standard input
 * and output. Its exit status is that of `mount`. Needs the right to mount. */
#define _GNU_SOURCE
#include <errno.h>
#include <fcntl.h>
#include <signal.h>
#include <stdio.h>
#include <stdlib.h>
#include <string.h>
#include <sys/mount.h>
#include <sys/wait.h>
#include <unistd.h>

static const char *folder;

/* Unmounts, also where files are open; the server then reads that its mount has gone, and ends. */
static void unmount(int number) {
    (void)number;
    umount2(folder, MNT_DETACH);
}

static int fail(const char *what) {
    fprintf(stderr, "mount: %s: %s\n", what, strerror(errno));
    return 1;
}

/* The server ends with its mount: a signal from a terminal is for the launcher alone. */
static void serve(int device, char **words) {
    signal(SIGINT, SIG_IGN);
    if (dup2(device, 0) < 0 || dup2(device, 1) < 0)
        _exit(fail("dup2"));
    close(device);
    execv(words[0], words);
    _exit(fail(words[0]));
}

int main(int count, char **words) {
    if (count < 3) {
        fprintf(stderr, "usage: mount DIR PROGRAM [ARGUMENTS..]\n");
        return 2;
    }
    int device = open("/dev/fuse", O_RDWR | O_CLOEXEC);
    if (device < 0)
        return fail("/dev/fuse");
    /* Reads of more than a page are split: the server speaks of 4,096 bytes at most. */
    char options[100];
    snprintf(options, sizeof options, "fd=%d,rootmode=40000,user_id=%d,group_id=%d,max_read=4096", device, (int)getuid(),
             (int)getgid());
    folder = words[1];
    struct sigaction action = {.sa_handler = unmount};
    sigaction(SIGINT, &action, NULL);
    sigaction(SIGTERM, &action, NULL);
    sigaction(SIGHUP, &action, NULL);
    if (mount("fuseworld", folder, "fuse", MS_NOSUID | MS_NODEV, options) < 0)
        return fail(folder);
    /* The program's own words: PROGRAM serve ARGUMENTS.. */
    words[1] = words[2];
    words[2] = "serve";
    pid_t server = fork();
    if (server == 0)
        serve(device, words + 1);
    close(device);
    int status = 0;
    while (server > 0 && waitpid(server, &status, 0) < 0 && errno == EINTR)
        ;
    unmount(0);
    if (server < 0)
        return fail("fork");
    return WIFEXITED(status) ? WEXITSTATUS(status) : 128 + WTERMSIG(status);
}
