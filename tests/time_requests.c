/* Asks the attributes of a file so many times of who serves it, past what the kernel remembers, and prints the
 * nanoseconds that one took.
 *
 * time_requests FILE COUNT: each is a GETATTR where FILE is on a FUSE mount. */
#define _GNU_SOURCE
#include <fcntl.h>
#include <stdio.h>
#include <stdlib.h>
#include <sys/stat.h>
#include <time.h>

int main(int count, char **words) {
    if (count != 3)
        return 2;
    long most = atol(words[2]);
    int file = open(words[1], O_RDONLY);
    struct timespec from, to;
    struct statx told;
    clock_gettime(CLOCK_MONOTONIC, &from);
    for (long i = 0; i < most; i++) {
        if (statx(file, "", AT_EMPTY_PATH | AT_STATX_FORCE_SYNC, STATX_BASIC_STATS, &told) < 0) {
            perror(words[1]);
            return 1;
        }
    }
    clock_gettime(CLOCK_MONOTONIC, &to);
    double nanoseconds = (to.tv_sec - from.tv_sec) * 1e9 + (to.tv_nsec - from.tv_nsec);
    printf("%.0f\n", nanoseconds / most);
    return 0;
}
