/* The proved kernel and the proved server, each a process of its own, played against each other; what they print is
   compared with a run of both in one process. cc -o both_sides both_sides.c && ./both_sides path/to/fuseworld */
#include <stdarg.h>
#include <stdio.h>
#include <stdlib.h>
#include <string.h>
#include <unistd.h>

enum { LINE = 20000 };

struct side { FILE *to, *from; };

static void fail(const char *why, const char *line)
{
    fprintf(stderr, "%s: %s\n", why, line);
    exit(1);
}

/* A text that stands until the next one is made. */
static const char *text(const char *format, ...)
{
    static char made[2 * LINE];
    va_list words;
    va_start(words, format);
    vsnprintf(made, sizeof made, format, words);
    va_end(words);
    return made;
}

/* Starts the program as one side, or without a command on a script. */
static struct side start(const char *program, const char *command)
{
    int to[2], from[2];
    if (pipe(to) || pipe(from))
        fail("no pipe", program);
    if (fork() == 0) {
        dup2(to[0], 0), dup2(from[1], 1);
        close(to[1]), close(from[0]);
        execl(program, program, command, (char *)0);
        _exit(127);
    }
    close(to[0]), close(from[1]);
    return (struct side){fdopen(to[1], "w"), fdopen(from[0], "r")};
}

static void get(struct side *side, char *line)
{
    if (!fgets(line, LINE, side->from))
        fail("the program ended", "");
    line[strcspn(line, "\n")] = 0;
}

/* Says a line, and reads the first line of what it came to. */
static void say(struct side *side, const char *line, char *said)
{
    fprintf(side->to, "%s\n", line);
    fflush(side->to);
    get(side, said);
}

/* What the run prints next has to be this. */
static void expect(struct side *run, const char *line)
{
    char wanted[LINE];
    get(run, wanted);
    if (strcmp(line, wanted))
        fail(line, wanted);
}

/* Answers of calls follow what a write came to: `show` is asked, to see where they end. */
static void write_reply(struct side *kernel, struct side *run, const char *frame, const char *unique)
{
    char said[LINE];
    say(kernel, text("write %s", frame + strlen("frame ")), said);
    expect(run, text("written %s%s", unique, said + strlen("written")));
    for (say(kernel, "show", said); strncmp(said, "kernel", 6); get(kernel, said))
        expect(run, said);
}

/* One request goes from the kernel to the server, and its reply back. */
static void trip(struct side *kernel, struct side *server, struct side *run)
{
    char said[LINE], frame[LINE], copy[LINE], unique[32];
    say(kernel, "read p 0", said);
    expect(run, said);
    sscanf(said, "read %31s", unique);
    get(kernel, frame);
    say(server, text("take %s", frame + strlen("frame ")), said);
    expect(run, said);
    say(server, text("do %s", unique), said);
    expect(run, said);
    get(server, frame);
    get(server, copy);
    write_reply(kernel, run, frame, unique);
    say(server, text("settle %s 0", copy + strlen("copy ")), said);
    expect(run, text("settled %s 0", unique));
}

int main(int count, char **words)
{
    const char *program = count > 1 ? words[1] : "fuseworld";
    static const char *const calls[] = {"mkdir /d", "create /d/f", "write 2 0 68656c6c6f", "read 2 0 9", "list / 0"};
    char said[LINE];
    struct side kernel = start(program, "kernel"), server = start(program, "server"), run = start(program, 0);
    fprintf(run.to, "mount 1000 0\nread p 0\ntake 0\ndo 2\nwrite 0\nsettle 0\n");
    for (int i = 0; i < 5; i++)
        fprintf(run.to, "call %s\nread p 0\ntake 0\ndo %d\nwrite 0\nsettle 0\n", calls[i], 4 + 2 * i);
    fclose(run.to);
    say(&server, "mount 1000 0", said);
    say(&kernel, "mount", said);
    expect(&run, said);
    trip(&kernel, &server, &run);
    for (int i = 0; i < 5; i++) {
        say(&kernel, text("call %s", calls[i]), said);
        expect(&run, said);
        trip(&kernel, &server, &run);
    }
    printf("both sides did what the run did\n");
    return 0;
}
