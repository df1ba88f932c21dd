/* How long a line there and its answer back take, over pipes: of `cat`, of the kernel and of the server by themselves.
   cc -O2 -o time_sides time_sides.c && ./time_sides path/to/fuseworld [ROUNDS] */
#include <stdio.h>
#include <stdlib.h>
#include <string.h>
#include <sys/resource.h>
#include <sys/wait.h>
#include <time.h>
#include <unistd.h>

static double now(void)
{
    struct timespec t;
    clock_gettime(CLOCK_MONOTONIC, &t);
    return t.tv_sec + t.tv_nsec / 1e9;
}

/* Starts a program, and gives its input and its output. */
static pid_t start(char *const words[], int *to, int *from)
{
    int in[2], out[2];
    if (pipe(in) || pipe(out))
        exit(1);
    pid_t child = fork();
    if (child == 0) {
        dup2(in[0], 0);
        dup2(out[1], 1);
        close(in[1]);
        close(out[0]);
        execvp(words[0], words);
        _exit(127);
    }
    close(in[0]);
    close(out[1]);
    *to = in[1];
    *from = out[0];
    return child;
}

/* Says a line so often, each time once the answer is there. Prints the microseconds of a round, and the most memory. */
static double time_line(char *const words[], const char *line, long rounds)
{
    int to, from, status;
    char answer[4096];
    struct rusage used;
    pid_t child = start(words, &to, &from);
    double begun = now();
    for (long round = 0; round < rounds; round++) {
        if (write(to, line, strlen(line)) < 0)
            exit(1);
        do {
            ssize_t n = read(from, answer, sizeof answer);
            if (n <= 0)
                exit(1);
            status = answer[n - 1];
        } while (status != '\n');
    }
    double each = (now() - begun) / rounds * 1e6;
    close(to);
    wait4(child, &status, 0, &used);
    printf("%-8s %-8.*s %8.2f us, %ld KB\n", words[1] ? words[1] : words[0], (int)strlen(line) - 1, line, each, used.ru_maxrss);
    return each;
}

int main(int count, char **words)
{
    char *program = count > 1 ? words[1] : "fuseworld";
    long rounds = count > 2 ? atol(words[2]) : 100000;
    double cat = time_line((char *[]){"cat", 0}, "tick 1\n", rounds);
    double kernel = time_line((char *[]){program, "kernel", 0}, "tick 1\n", rounds);
    double server = time_line((char *[]){program, "server", 0}, "show\n", rounds);
    printf("beside cat: kernel %.2f, server %.2f\n", kernel / cat, server / cat);
    return 0;
}
