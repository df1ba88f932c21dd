/* Mounts a folder by a FUSE server, stands between the device and the server, and writes down every frame: a capture.
 *
 *   watch [-l FILE] [-s BYTES] [-t] [-k] [-o OPTIONS] DIR -- SERVER-WORDS ..
 *
 *   -l FILE     the capture goes to FILE, else to standard output
 *   -s BYTES    data of WRITE requests and READ replies is cut to so many bytes behind the fixed part
 *   -t          each frame has its time, in nanoseconds of CLOCK_MONOTONIC
 *   -k          a request is read once the server has taken the one before, so that signals find requests unread
 *   -o OPTIONS  behind the options of mount(2): max_read=.., allow_other, default_permissions
 *
 * The server has one end of a socket pair of packets as /dev/fd/N in the place of the word MOUNT, and N in the variable
 * FUSE_SOCKET; or, where a word is STDIO, as standard input and output, without that word. README.md has the lines.
 * Ends, and unmounts, when the server ends, at umount and at a signal. Status 1: the capture is not whole; 2: wrong words.
 */
#define _GNU_SOURCE
#include <errno.h>
#include <fcntl.h>
#include <linux/sockios.h>
#include <poll.h>
#include <pthread.h>
#include <signal.h>
#include <stdatomic.h>
#include <stdint.h>
#include <stdio.h>
#include <stdlib.h>
#include <string.h>
#include <sys/ioctl.h>
#include <sys/mount.h>
#include <sys/prctl.h>
#include <sys/signalfd.h>
#include <sys/socket.h>
#include <sys/stat.h>
#include <sys/wait.h>
#include <time.h>
#include <unistd.h>

enum {
	READ = 15, WRITE = 16, OUT_HEADER = 16, IN_HEADER = 40, WRITE_IN = 40,
	SOCKET_BUFFER = 16 << 20, ROOM = 8 << 20,   /* Linux sends no packet of much more than 4 MiB */
	/* What a server splices comes in pieces of 16 pipe buffers. What is shorter is the device's to refuse. */
	SHORTEST_PIECE = 32768,
	/* Replies wait so many nanoseconds for a notification before them, which may wait in the kernel for one of them. */
	NOTIFICATION_WAIT = 20 * 1000 * 1000 };

/* A line of the capture. Those behind it wait for its result. */
struct line { struct line *next; char *text; size_t length; int is_settled; };

static char *folder;
static uint64_t mounted;               /* the device number of the mount */
static int device, server, signals;    /* descriptors; `server` is our end of the pair */
static pid_t server_process, guardian;
static sigset_t told, told_before;     /* the signals that end all, blocked, and what was blocked before */
static FILE *capture;
static int is_timed, is_keen, is_held; /* the options -t and -k; the server has no room for the request */
static size_t data_kept = SIZE_MAX, request_length, reply_length;
static unsigned char request[ROOM] __attribute__((aligned(8))), reply[ROOM] __attribute__((aligned(8)));
static pthread_mutex_t lines_lock = PTHREAD_MUTEX_INITIALIZER;
static struct line *lines, **lines_end = &lines;
static int notes[2];                   /* a pipe of notifications, each an iovec, for the second thread */
static atomic_int notes_waiting, is_not_whole;
static int64_t last_note;              /* when the last notification came, in nanoseconds */
static uint64_t reads[4096];           /* numbers of READs. One that another took the place of has its reply uncut */

static int fail(const char *what)
{
	fprintf(stderr, "watch: %s: %s\n", what, strerror(errno));
	return 1;
}

static void *need(void *memory)
{
	if (memory == NULL)
		exit(fail("memory"));          /* the guardian unmounts */
	return memory;
}

static const char *name_of(int number)
{
	return strerrorname_np(number) ?: "EUNKNOWN";
}

static int64_t now(void)
{
	struct timespec time;
	clock_gettime(CLOCK_MONOTONIC, &time);
	return time.tv_sec * 1000000000LL + time.tv_nsec;
}

/* A line stands where this is called; `settle` ends it. */
static struct line *begin_line(char sign, const unsigned char *frame, size_t length, size_t fixed)
{
	static const char digits[] = "0123456789abcdef";
	size_t kept = length > fixed && length - fixed > data_kept ? fixed + data_kept : length;
	struct line *line = need(malloc(sizeof *line));
	char *text = need(malloc(2 * kept + 96)), *end = text + sprintf(text, "%c ", sign);
	if (is_timed)
		end += sprintf(end, "@%lld ", (long long) now());
	for (size_t at = 0; at < kept; at++) {
		*end++ = digits[frame[at] >> 4];
		*end++ = digits[frame[at] & 15];
	}
	if (kept < length)
		end += sprintf(end, " +%zu", length - kept);
	*line = (struct line) {NULL, text, end - text, 0};
	pthread_mutex_lock(&lines_lock);
	*lines_end = line;
	lines_end = &line->next;
	pthread_mutex_unlock(&lines_lock);
	return line;
}

/* The result of a line, 0 or an errno. Writes the lines that wait for no other. */
static void settle(struct line *line, int result)
{
	pthread_mutex_lock(&lines_lock);
	if (result != 0)
		line->length += sprintf(line->text + line->length, " %s", name_of(result));
	line->text[line->length++] = '\n';
	line->is_settled = 1;
	while (lines != NULL && lines->is_settled) {
		struct line *written = lines;
		fwrite(written->text, 1, written->length, capture);
		lines = written->next;
		free(written->text);
		free(written);
	}
	if (lines == NULL)
		lines_end = &lines;
	if (fflush(capture) != 0 || ferror(capture))
		is_not_whole = 1;
	pthread_mutex_unlock(&lines_lock);
}

static void write_frame(const unsigned char *frame, size_t length, size_t fixed)
{
	struct line *line = begin_line('<', frame, length, fixed);
	settle(line, write(device, frame, length) < 0 ? errno : 0);
}

/* The second writer: a notification may wait in the kernel for a lock that a request holds, whose reply we have. */
static void *write_notes(void *unused)
{
	for (struct iovec note; read(notes[0], &note, sizeof note) == sizeof note; notes_waiting--) {
		write_frame(note.iov_base, note.iov_len, note.iov_len);
		free(note.iov_base);
	}
	return unused;
}

/* Waits until all notifications are written, or until that time. */
static void await_notes(int64_t end)
{
	while (notes_waiting > 0 && now() < end)
		usleep(100);
}

/* Sends the request to the server, or holds it while there is no room. A server that is gone is seen at its replies. */
static void hand_on(void)
{
	ssize_t sent = send(server, request, request_length, MSG_NOSIGNAL | MSG_DONTWAIT);
	is_held = sent < 0 && (errno == EAGAIN || errno == EINTR);
	if (sent < 0 && !is_held && errno != EPIPE && errno != ECONNRESET)
		is_not_whole = fail("a request does not fit the socket");
}

/* Reads a request. Gives 0, or the errno that is the device's end. */
static int read_request(void)
{
	ssize_t length = read(device, request, ROOM);
	if (length < 0)
		return errno == EAGAIN || errno == EINTR || errno == ENOENT ? 0 : errno;
	uint32_t opcode = ((const uint32_t *) request)[1];
	uint64_t unique = ((const uint64_t *) request)[1];
	if (opcode == READ)
		reads[unique / 2 % 4096] = unique;
	request_length = length;
	settle(begin_line('>', request, length, opcode == WRITE ? IN_HEADER + WRITE_IN : length), 0);
	hand_on();
	return 0;
}

static void pass_reply(void)
{
	size_t length = reply_length;
	uint64_t unique = length < OUT_HEADER ? 1 : ((const uint64_t *) reply)[1];
	reply_length = 0;
	if (unique == 0) {
		struct iovec note = {memcpy(need(malloc(length)), reply, length), length};
		notes_waiting++;
		last_note = now();
		if (write(notes[1], &note, sizeof note) < 0)
			is_not_whole = fail("notification");
		return;
	}
	await_notes(last_note + NOTIFICATION_WAIT);
	write_frame(reply, length, reads[unique / 2 % 4096] == unique ? OUT_HEADER : length);
}

/* Reads what the server wrote, and gives whether it has not ended. */
static int read_reply(void)
{
	int is_first = reply_length == 0;
	ssize_t length = recv(server, reply + reply_length, ROOM - reply_length, MSG_DONTWAIT);
	if (length < 0 && (errno == EAGAIN || errno == EINTR))
		return 1;
	reply_length += length > 0 ? length : 0;
	uint32_t whole = ((const uint32_t *) reply)[0];
	int is_piece = length > 0 && (!is_first || length >= SHORTEST_PIECE) && reply_length < whole && whole <= ROOM;
	if (reply_length > 0 && !is_piece)
		pass_reply();
	return length > 0;
}

/* No request goes to the server for this, so it never waits. */
static uint64_t device_number(void)
{
	struct statx found;
	if (statx(AT_FDCWD, folder, AT_STATX_DONT_SYNC | AT_NO_AUTOMOUNT, STATX_INO, &found) != 0)
		return 0;
	return (uint64_t) found.stx_dev_major << 32 | found.stx_dev_minor;
}

/* Aborts the connection and unmounts, if that mount is still there. What waits in the kernel for the server ends. */
static void detach(void)
{
	if (device_number() == mounted)
		umount2(folder, MNT_FORCE | MNT_DETACH);
}

/* A process that unmounts when the watcher says so, which forwards what that needs, or is gone. */
static void guard(pid_t watcher)
{
	int number;
	setsid();
	close(device);
	fclose(capture);
	prctl(PR_SET_PDEATHSIG, SIGTERM);
	int is_gone = getppid() != watcher || sigwait(&told, &number) != 0 || number == SIGTERM;
	if (is_gone || (device_number() == mounted && umount2(folder, 0) != 0))
		detach();
	_exit(0);
}

/* Hands frames on until an end: `closed`, or `ended` with the device's errno in `end`. At a signal, and two seconds after
 * each step that led to no end, it takes the next step to one; behind the last it gives NULL. */
static const char *forward(int *end)
{
	int step = 0;
	for (time_t next = 0;;) {
		int untaken = 0;
		if (is_keen && !is_held)
			ioctl(server, SIOCOUTQ, &untaken);
		struct pollfd polled[] = {{device, is_held || untaken ? 0 : POLLIN, 0},
					  {server, is_held ? POLLIN | POLLOUT : POLLIN, 0}, {signals, POLLIN, 0}};
		poll(polled, 3, untaken ? 1 : step > 0 || is_not_whole ? 100 : -1);
		struct signalfd_siginfo signal;
		int is_told = read(signals, &signal, sizeof signal) > 0 || (is_not_whole && step == 0);
		if (is_told || (step > 0 && time(NULL) >= next)) {
			next = time(NULL) + 2;
			switch (++step) {
			case 1: kill(guardian, SIGHUP); break;
			case 2: detach(); break;
			case 3: kill(-server_process, SIGKILL); break;
			default: return NULL;
			}
		}
		if (polled[1].revents & POLLOUT)
			hand_on();
		if (polled[1].revents & ~POLLOUT && !read_reply())
			return "closed";
		if (polled[0].revents && (*end = read_request()) != 0)
			return "ended";
	}
}

static void serve(int end, int is_standard, char **words)
{
	fcntl(end, F_SETFD, 0);
	dup2(is_standard ? end : 0, 0);
	dup2(is_standard ? end : 2, 1);
	setpgid(0, 0);
	prctl(PR_SET_PDEATHSIG, SIGKILL);
	signal(SIGPIPE, SIG_DFL);
	sigprocmask(SIG_SETMASK, &told_before, NULL);
	execvp(words[0], words);
	_exit(fail(words[0]));
}

/* Puts the server's end in the place of MOUNT, takes STDIO out, and runs the server. */
static int start_server(char **words)
{
	int ends[2], is_standard = 0, room = SOCKET_BUFFER;
	char mount[32], **kept = words;
	if (socketpair(AF_UNIX, SOCK_SEQPACKET | SOCK_CLOEXEC, 0, ends) != 0)
		return -1;
	for (int at = 0; at < 2; at++)
		if (setsockopt(ends[at], SOL_SOCKET, SO_SNDBUFFORCE, &room, sizeof room) != 0)
			setsockopt(ends[at], SOL_SOCKET, SO_SNDBUF, &room, sizeof room);
	snprintf(mount, sizeof mount, "/dev/fd/%d", ends[1]);
	setenv("FUSE_SOCKET", mount + strlen("/dev/fd/"), 1);
	for (char **word = words; *word != NULL; word++)
		if (strcmp(*word, "STDIO") == 0)
			is_standard = 1;
		else
			*kept++ = strcmp(*word, "MOUNT") == 0 ? mount : *word;
	*kept = NULL;
	server = ends[0];
	if ((server_process = fork()) == 0)
		serve(ends[1], is_standard, words);
	close(ends[1]);
	return server_process;
}

static int start_mount(const char *options)
{
	char all[4096];
	if ((device = open("/dev/fuse", O_RDWR | O_CLOEXEC | O_NONBLOCK)) < 0)
		return fail("/dev/fuse");
	snprintf(all, sizeof all, "fd=%d,rootmode=40000,user_id=%u,group_id=%u,%s", device, getuid(), getgid(), options);
	if (mount("watch", folder, "fuse", MS_NOSUID | MS_NODEV, all) < 0)
		return fail("mount");
	mounted = device_number();
	pid_t watcher = getpid();
	if ((guardian = fork()) == 0)
		guard(watcher);
	if (guardian < 0)
		detach();
	return guardian < 0 ? fail("fork") : 0;
}

/* The server reads what is there, then the end. It has two seconds to end by itself, and one more after a SIGTERM. */
static void end_server(void)
{
	int status = 0;
	shutdown(server, SHUT_WR);
	for (int step = 0; waitpid(server_process, &status, WNOHANG) == 0; step++) {
		if (step == 200 || step == 300)
			kill(-server_process, step == 200 ? SIGTERM : SIGKILL);
		usleep(10000);
	}
	if (status != 0)
		fprintf(stderr, "watch: the server ended: %d\n", WIFEXITED(status) ? WEXITSTATUS(status) : 128 + WTERMSIG(status));
}

static int watch(char **words)
{
	pthread_t notifier;
	int end = 0;
	if (pipe2(notes, O_CLOEXEC) != 0 || start_server(words) < 0 || pthread_create(&notifier, NULL, write_notes, NULL) != 0) {
		detach();
		return fail("server");
	}
	fcntl(notes[1], F_SETPIPE_SZ, 1 << 20);
	const char *how = forward(&end);
	await_notes(now() + 1000000000);
	detach();
	close(notes[1]);
	pthread_join(notifier, NULL);
	int is_end = how != NULL && (end == 0 || end == ENODEV || end == ECONNABORTED);
	if (!is_end || fprintf(capture, "= %s%s%s\n", how, end == 0 ? "" : " ", end == 0 ? "" : name_of(end)) < 0)
		is_not_whole = 1;
	end_server();
	if (fclose(capture) != 0 || is_not_whole)
		fprintf(stderr, "watch: the capture is not whole\n");
	return is_not_whole;
}

int main(int count, char **words)
{
	const char *file = NULL, *options = "";
	for (int letter; (letter = getopt(count, words, "+l:s:tko:")) != -1;)
		switch (letter) {
		case 'l': file = optarg; break;
		case 's': data_kept = strtoul(optarg, NULL, 10); break;
		case 't': is_timed = 1; break;
		case 'k': is_keen = 1; break;
		case 'o': options = optarg; break;
		default: optind = count;
		}
	if (optind + 2 >= count || strcmp(words[optind + 1], "--") != 0) {
		fprintf(stderr, "usage: watch [-l FILE] [-s BYTES] [-t] [-k] [-o OPTIONS] DIR -- SERVER-WORDS ..\n");
		return 2;
	}
	sigemptyset(&told);
	for (int at = 0; at < 3; at++)
		sigaddset(&told, (int[]) {SIGINT, SIGTERM, SIGHUP}[at]);
	sigprocmask(SIG_BLOCK, &told, &told_before);
	signals = signalfd(-1, &told, SFD_CLOEXEC | SFD_NONBLOCK);
	signal(SIGPIPE, SIG_IGN);
	if ((folder = realpath(words[optind], NULL)) == NULL)
		return fail(words[optind]);
	if ((capture = file == NULL ? stdout : fopen(file, "we")) == NULL)
		return fail(file);
	int status = start_mount(options) != 0 || watch(words + optind + 2) != 0;
	if (guardian > 0 && kill(guardian, SIGKILL) == 0)
		waitpid(guardian, NULL, 0);
	return status;
}
