/* Runs a program and a FUSE server on the two ends of a socket pair, in the place of a mount.
 *
 *   launcher [-t MS] PROGRAM-WORDS .. -- SERVER-WORDS ..
 *
 * The program has its end as standard input and output; what it prints on standard error goes to standard output. It
 * waits MS milliseconds for a reply, or for ever. The server inherits the other end as descriptor N, and has /dev/fd/N
 * in the place of the word MOUNT, and N in that of the variable FUSE_SOCKET; what it prints goes to standard error.
 * Ends with the program's status, and kills the server then. Status 125 where neither can be run.
 */
#include <fcntl.h>
#include <signal.h>
#include <stdio.h>
#include <stdlib.h>
#include <string.h>
#include <sys/prctl.h>
#include <sys/socket.h>
#include <sys/time.h>
#include <sys/wait.h>
#include <unistd.h>

static pid_t run(char **words, void (*prepare)(int), int end)
{
	pid_t child = fork();
	if (child != 0)
		return child;
	prepare(end);
	execvp(words[0], words);
	perror(words[0]);
	_exit(125);
}

static void as_program(int end)
{
	dup2(1, 2);
	dup2(end, 0);
	dup2(end, 1);
}

static void as_server(int end)
{
	char number[16];
	snprintf(number, sizeof number, "%d", end);
	dup2(2, 1);
	setenv("FUSE_SOCKET", number, 1);
	fcntl(end, F_SETFD, 0);
	setpgid(0, 0);
	prctl(PR_SET_PDEATHSIG, SIGKILL);
}

int main(int argc, char **argv)
{
	int at = 1, ends[2], status = 125 << 8;
	char mount[32];
	struct timeval wait = {0, 0};
	if (argc > 2 && strcmp(argv[1], "-t") == 0) {
		wait.tv_sec = atol(argv[2]) / 1000;
		wait.tv_usec = atol(argv[2]) % 1000 * 1000;
		at = 3;
	}
	int split = at;
	while (split < argc && strcmp(argv[split], "--") != 0)
		split++;
	if (split == at || split + 1 >= argc || socketpair(AF_UNIX, SOCK_SEQPACKET | SOCK_CLOEXEC, 0, ends) != 0) {
		fprintf(stderr, "usage: %s [-t MS] PROGRAM-WORDS .. -- SERVER-WORDS ..\n", argv[0]);
		return 125;
	}
	argv[split] = NULL;
	snprintf(mount, sizeof mount, "/dev/fd/%d", ends[1]);
	for (int word = split + 1; word < argc; word++)
		if (strcmp(argv[word], "MOUNT") == 0)
			argv[word] = mount;
	setsockopt(ends[0], SOL_SOCKET, SO_RCVTIMEO, &wait, sizeof wait);
	pid_t server = run(argv + split + 1, as_server, ends[1]);
	setpgid(server, server);
	close(ends[1]);
	pid_t program = run(argv + at, as_program, ends[0]);
	close(ends[0]);
	waitpid(program, &status, 0);
	kill(-server, SIGKILL);
	waitpid(server, NULL, 0);
	return WIFEXITED(status) ? WEXITSTATUS(status) : 128 + WTERMSIG(status);
}
