/* Puts a socket in the place of a server's mount, where the server does not take the mount point /dev/fd/N.
 *
 *   cc -shared -fPIC -o shim.so shim.c
 *   launcher PROGRAM-WORDS .. -- env LD_PRELOAD=./shim.so SERVER-WORDS .. FOLDER
 *
 * Opening /dev/fuse gives the descriptor whose number is in FUSE_SOCKET, which the launcher sets. Mounting and unmounting
 * do nothing, and succeed: no right to mount is needed. All else is the C library's. For servers over libfuse 2 or 3, and
 * for others that open /dev/fuse by open(3) and mount by mount(2).
 */
#define _GNU_SOURCE
#include <dlfcn.h>
#include <errno.h>
#include <fcntl.h>
#include <stdarg.h>
#include <stdlib.h>
#include <string.h>
#include <sys/mount.h>

typedef int opening(const char *path, int flags, ...);

static int open_socket(int flags)
{
	const char *number = getenv("FUSE_SOCKET");
	if (number == NULL) {
		errno = ENOENT;
		return -1;
	}
	return fcntl(atoi(number), flags & O_CLOEXEC ? F_DUPFD_CLOEXEC : F_DUPFD, 3);
}

static int open_by(const char *name, const char *path, int flags, mode_t mode)
{
	if (strcmp(path, "/dev/fuse") == 0)
		return open_socket(flags);
	return ((opening *) dlsym(RTLD_NEXT, name))(path, flags, mode);
}

#define OPENING(name) \
	int name(const char *path, int flags, ...) \
	{ \
		va_list rest; \
		va_start(rest, flags); \
		mode_t mode = flags & (O_CREAT | __O_TMPFILE) ? va_arg(rest, mode_t) : 0; \
		va_end(rest); \
		return open_by(#name, path, flags, mode); \
	}

OPENING(open)
OPENING(open64)

int mount(const char *source, const char *target, const char *type, unsigned long flags, const void *data)
{
	(void)source, (void)target, (void)type, (void)flags, (void)data;
	return 0;
}

int umount2(const char *target, int flags)
{
	(void)target, (void)flags;
	return 0;
}

int umount(const char *target)
{
	return umount2(target, 0);
}
