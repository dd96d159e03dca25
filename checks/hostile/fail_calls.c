// A library to be loaded before a program (LD_PRELOAD). The call number FAULT_AT, from 0, of the function FAULT_CALL fails
// with the error FAULT_ERROR. With FAULT_LENGTH each read and each write is of so many bytes at most. With FAULT_CLOCK, the
// number of a clock, this clock jumps by FAULT_JUMP milliseconds at its reading number FAULT_AT. With FAULT_TELL, the name
// of a file, it writes there at the end how often each function was called. Programs that this one starts are without it.
#define _GNU_SOURCE
#include <dlfcn.h>
#include <errno.h>
#include <fcntl.h>
#include <poll.h>
#include <spawn.h>
#include <stdarg.h>
#include <stdio.h>
#include <stdlib.h>
#include <string.h>
#include <sys/epoll.h>
#include <sys/eventfd.h>
#include <sys/ioctl.h>
#include <sys/socket.h>
#include <sys/stat.h>
#include <sys/syscall.h>
#include <sys/uio.h>
#include <sys/wait.h>
#include <time.h>
#include <unistd.h>

enum { MOST = 128 };
static const char *names[MOST];
static long calls[MOST];
static int count;
static const char *wanted;
static long at = -1;
static int error;
static size_t longest = (size_t)-1;
static long jumping = -1, jump, readings;
static char told[4096], named[64];

static int place_of(const char *name) {
    for (int i = 0; i < count; i++)
        if (!strcmp(names[i], name)) return i;
    if (count == MOST) abort();
    names[count] = name;
    return count++;
}

static int fails(int place) {
    long number = calls[place]++;
    if (!wanted || number != at || strcmp(wanted, names[place])) return 0;
    errno = error;
    return 1;
}

static size_t at_most(size_t length) { return length < longest ? length : longest; }

// a function that fails with -1 and an error, its parameters, and how they are given on
#define CALL(type, name, parameters, given)                              \
    type name parameters {                                               \
        static type(*next) parameters;                                   \
        static int place;                                                \
        if (!next) {                                                     \
            next = (type(*) parameters)dlsym(RTLD_NEXT, #name);          \
            place = place_of(#name);                                     \
        }                                                                \
        if (fails(place)) return (type)-1;                               \
        return next given;                                               \
    }

// one that returns its error
#define ANSWER(name, parameters, given)                                  \
    int name parameters {                                                \
        static int(*next) parameters;                                    \
        static int place;                                                \
        if (!next) {                                                     \
            next = (int(*) parameters)dlsym(RTLD_NEXT, #name);           \
            place = place_of(#name);                                     \
        }                                                                \
        if (fails(place)) return error;                                  \
        return next given;                                               \
    }

// one with a third argument that may be missing
#define OPEN(name, first, types, given)                                  \
    int name types {                                                     \
        static int(*next) types;                                         \
        static int place;                                                \
        va_list more;                                                    \
        va_start(more, first);                                           \
        long argument = va_arg(more, long);                              \
        va_end(more);                                                    \
        if (!next) {                                                     \
            next = (int(*) types)dlsym(RTLD_NEXT, #name);                \
            place = place_of(#name);                                     \
        }                                                                \
        if (fails(place)) return -1;                                     \
        return next given;                                               \
    }

OPEN(open, flags, (const char *path, int flags, ...), (path, flags, argument))
OPEN(open64, flags, (const char *path, int flags, ...), (path, flags, argument))
OPEN(openat, flags, (int folder, const char *path, int flags, ...), (folder, path, flags, argument))
OPEN(openat64, flags, (int folder, const char *path, int flags, ...), (folder, path, flags, argument))
OPEN(fcntl, what, (int file, int what, ...), (file, what, argument))
OPEN(fcntl64, what, (int file, int what, ...), (file, what, argument))
OPEN(ioctl, what, (int file, unsigned long what, ...), (file, what, argument))
CALL(ssize_t, read, (int file, void *data, size_t length), (file, data, at_most(length)))
CALL(ssize_t, write, (int file, const void *data, size_t length), (file, data, at_most(length)))
CALL(ssize_t, readv, (int file, const struct iovec *pieces, int number), (file, pieces, number))
CALL(ssize_t, writev, (int file, const struct iovec *pieces, int number), (file, pieces, number))
CALL(ssize_t, pread64, (int file, void *data, size_t length, off64_t from), (file, data, at_most(length), from))
CALL(ssize_t, recv, (int file, void *data, size_t length, int flags), (file, data, at_most(length), flags))
CALL(ssize_t, send, (int file, const void *data, size_t length, int flags), (file, data, at_most(length), flags))
CALL(ssize_t, recvfrom, (int file, void *data, size_t length, int flags, struct sockaddr *from, socklen_t *size),
     (file, data, at_most(length), flags, from, size))
CALL(ssize_t, sendto, (int file, const void *data, size_t length, int flags, const struct sockaddr *to, socklen_t size),
     (file, data, at_most(length), flags, to, size))
CALL(ssize_t, sendmsg, (int file, const struct msghdr *message, int flags), (file, message, flags))
CALL(ssize_t, recvmsg, (int file, struct msghdr *message, int flags), (file, message, flags))

// the system closes a file also where it then tells of an error
int close(int file) {
    static int (*next)(int);
    static int place;
    if (!next) {
        next = (int (*)(int))dlsym(RTLD_NEXT, "close");
        place = place_of("close");
    }
    int closed = next(file);
    return fails(place) ? -1 : closed;
}

int clock_gettime(clockid_t clock, struct timespec *now) {
    static int (*next)(clockid_t, struct timespec *);
    static int place;
    if (!next) {
        next = (int (*)(clockid_t, struct timespec *))dlsym(RTLD_NEXT, "clock_gettime");
        place = place_of("clock_gettime");
    }
    if (fails(place)) return -1;
    int told = next(clock, now);
    if (told || clock != jumping || readings++ < at) return told;
    long parts = now->tv_nsec + jump % 1000 * 1000000;
    now->tv_sec += jump / 1000 + (parts >= 1000000000) - (parts < 0);
    now->tv_nsec = (parts + 1000000000) % 1000000000;
    return told;
}

CALL(int, fsync, (int file), (file))
CALL(int, fdatasync, (int file), (file))
CALL(int, fstat, (int file, struct stat *seen), (file, seen))
CALL(int, fstat64, (int file, struct stat64 *seen), (file, seen))
CALL(int, stat, (const char *path, struct stat *seen), (path, seen))
CALL(int, stat64, (const char *path, struct stat64 *seen), (path, seen))
CALL(int, lstat, (const char *path, struct stat *seen), (path, seen))
CALL(int, lstat64, (const char *path, struct stat64 *seen), (path, seen))
CALL(int, statx, (int folder, const char *path, int flags, unsigned mask, struct statx *seen),
     (folder, path, flags, mask, seen))
CALL(off_t, lseek, (int file, off_t to, int from), (file, to, from))
CALL(off64_t, lseek64, (int file, off64_t to, int from), (file, to, from))
CALL(int, ftruncate64, (int file, off64_t length), (file, length))
CALL(int, chmod, (const char *path, mode_t mode), (path, mode))
CALL(int, fchmod, (int file, mode_t mode), (file, mode))
CALL(int, fchown, (int file, uid_t user, gid_t group), (file, user, group))
CALL(int, rename, (const char *from, const char *to), (from, to))
CALL(int, renameat, (int folder, const char *from, int other, const char *to), (folder, from, other, to))
CALL(int, unlink, (const char *path), (path))
CALL(int, unlinkat, (int folder, const char *path, int flags), (folder, path, flags))
CALL(int, socket, (int family, int type, int protocol), (family, type, protocol))
CALL(int, bind, (int file, const struct sockaddr *to, socklen_t size), (file, to, size))
CALL(int, listen, (int file, int backlog), (file, backlog))
CALL(int, accept, (int file, struct sockaddr *from, socklen_t *size), (file, from, size))
CALL(int, accept4, (int file, struct sockaddr *from, socklen_t *size, int flags), (file, from, size, flags))
CALL(int, connect, (int file, const struct sockaddr *to, socklen_t size), (file, to, size))
CALL(int, getsockname, (int file, struct sockaddr *from, socklen_t *size), (file, from, size))
CALL(int, getpeername, (int file, struct sockaddr *from, socklen_t *size), (file, from, size))
CALL(int, setsockopt, (int file, int level, int name, const void *value, socklen_t size), (file, level, name, value, size))
CALL(int, getsockopt, (int file, int level, int name, void *value, socklen_t *size), (file, level, name, value, size))
CALL(int, shutdown, (int file, int how), (file, how))
CALL(int, epoll_create1, (int flags), (flags))
CALL(int, epoll_ctl, (int poll, int what, int file, struct epoll_event *event), (poll, what, file, event))
CALL(int, epoll_wait, (int poll, struct epoll_event *events, int most, int wait), (poll, events, most, wait))
CALL(int, epoll_pwait, (int poll, struct epoll_event *events, int most, int wait, const sigset_t *mask),
     (poll, events, most, wait, mask))
CALL(int, poll, (struct pollfd *files, nfds_t number, int wait), (files, number, wait))
CALL(int, eventfd, (unsigned begin, int flags), (begin, flags))
CALL(int, pipe2, (int files[2], int flags), (files, flags))
CALL(int, pipe, (int files[2]), (files))
CALL(int, socketpair, (int family, int type, int protocol, int files[2]), (family, type, protocol, files))
CALL(int, dup, (int file), (file))
CALL(int, dup2, (int file, int to), (file, to))
CALL(int, dup3, (int file, int to, int flags), (file, to, flags))
CALL(pid_t, fork, (void), ())
CALL(pid_t, waitpid, (pid_t child, int *status, int flags), (child, status, flags))
CALL(int, waitid, (idtype_t kind, id_t child, siginfo_t *seen, int flags), (kind, child, seen, flags))
CALL(pid_t, wait4, (pid_t child, int *status, int flags, struct rusage *used), (child, status, flags, used))
CALL(int, kill, (pid_t child, int signal), (child, signal))
CALL(int, nanosleep, (const struct timespec *wait, struct timespec *left), (wait, left))
ANSWER(clock_nanosleep, (clockid_t clock, int flags, const struct timespec *wait, struct timespec *left),
       (clock, flags, wait, left))
ANSWER(posix_spawn, (pid_t *child, const char *path, const posix_spawn_file_actions_t *actions,
       const posix_spawnattr_t *attributes, char *const *words, char *const *scope),
       (child, path, actions, attributes, words, scope))
ANSWER(posix_spawnp, (pid_t *child, const char *path, const posix_spawn_file_actions_t *actions,
       const posix_spawnattr_t *attributes, char *const *words, char *const *scope),
       (child, path, actions, attributes, words, scope))

__attribute__((constructor)) static void begin(void) {
    const char *number = getenv("FAULT_AT"), *code = getenv("FAULT_ERROR"), *length = getenv("FAULT_LENGTH");
    const char *name = getenv("FAULT_CALL"), *file = getenv("FAULT_TELL");
    const char *clock = getenv("FAULT_CLOCK"), *by = getenv("FAULT_JUMP");
    if (name) wanted = named, snprintf(named, sizeof named, "%s", name);
    at = number ? atol(number) : -1;
    error = code ? atoi(code) : 0;
    if (length) longest = strtoul(length, 0, 10);
    if (clock && by) jumping = atol(clock), jump = atol(by);
    if (file) snprintf(told, sizeof told, "%s", file);
    memset(calls, 0, sizeof calls);
    unsetenv("LD_PRELOAD");
}

__attribute__((destructor)) static void tell(void) {
    // by the system's own calls, so that it counts none
    long file = told[0] ? syscall(SYS_open, told, O_WRONLY | O_CREAT | O_TRUNC, 0644) : -1;
    for (int i = 0; i < count && file >= 0; i++) {
        char line[80];
        int length = snprintf(line, sizeof line, "%s %ld\n", names[i], calls[i]);
        if (syscall(SYS_write, file, line, length) != length) return;
    }
}
