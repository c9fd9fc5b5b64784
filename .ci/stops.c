/* Is loaded before the C library (LD_PRELOAD) and makes the calls of a program fail, as if a disk,
 * a pipe or a client were gone.
 *
 * STOP_FILES=db|wal|both  which of the two files of the store club.db fails, in the folder where
 * the program runs; `both` counts the calls on both, and on their folder STOP_AT=k from its call
 * number k on every call on it answers EIO and does nothing STOP_NOTES=file         gets what is
 * done with the two files, call by call, so that their bytes at each sync can be told STOP_INPUT=k
 * standard input gives k bytes and fails then STOP_OUTPUT=k           standard output takes k bytes
 * and fails then STOP_REQUEST=k          the first client gives k bytes and is gone then
 * STOP_ANSWER=k           the first client takes k bytes and is gone then
 * STOP_MAP=k              the map's file map.toml gives k bytes and fails then
 * STOP_PIECE=n            one read or write moves at most n bytes, of these four and of the map's
 * file STOP_SIGNAL=k           a signal interrupts the call number k of these, before it does
 * anything; 0 for each of them STOP_SIGNALS=n          so many signals, one after the other,
 * instead of one
 *
 * A note is a line, `write db 4096 24`, with so many bytes after it; or `size db 4096 0`, `sync
 * db`, `made db`, `half db 4096 24` of a write that failed, with its bytes, `stop` when the first
 * call failed, and `calls 17` and `moves 9` at the end. Bytes by chance are the same in each run,
 * so the files of two runs are alike up to where one is stopped. */
#define _GNU_SOURCE
#include <dlfcn.h>
#include <errno.h>
#include <fcntl.h>
#include <limits.h>
#include <stdarg.h>
#include <stdio.h>
#include <stdlib.h>
#include <string.h>
#include <sys/random.h>
#include <sys/socket.h>
#include <sys/stat.h>
#include <sys/syscall.h>
#include <sys/uio.h>
#include <unistd.h>

enum { NONE, DB, WAL, FOLDER, MAP };
static const char *const NAMES[] = {"none", "db", "wal", "folder", "map"};

static char folder[PATH_MAX];
static unsigned char of[4096];
static int fails[5], notes = -1, client = -1, clients, stopped;
static long calls, stop_at, input, piece, output, request, answer, map, moves, signal_at, signals,
    came;

static long number(const char *name) {
    const char *text = getenv(name);
    return text ? atol(text) : -1;
}

static void note(const char *text) {
    if (notes >= 0) syscall(SYS_write, notes, text, strlen(text));
}

static void note_bytes(const char *what, int which, long at, const void *bytes, size_t size) {
    char line[80];
    if (notes < 0) return;
    snprintf(line, sizeof line, "%s %s %ld %zu\n", what, NAMES[which], at, size);
    struct iovec parts[2] = {{line, strlen(line)}, {(void *)bytes, size}};
    syscall(SYS_writev, notes, parts, 2);
}

static void note_file(const char *what, int which) {
    char line[80];
    snprintf(line, sizeof line, "%s %s\n", what, NAMES[which]);
    note(line);
}

__attribute__((constructor)) static void begin(void) {
    const char *files = getenv("STOP_FILES"), *path = getenv("STOP_NOTES");
    stop_at = number("STOP_AT");
    input = number("STOP_INPUT");
    piece = number("STOP_PIECE");
    output = number("STOP_OUTPUT");
    request = number("STOP_REQUEST");
    answer = number("STOP_ANSWER");
    map = number("STOP_MAP");
    signal_at = number("STOP_SIGNAL");
    signals = signal_at < 0 ? 0 : getenv("STOP_SIGNALS") ? number("STOP_SIGNALS") : 1;
    if (files) {
        fails[DB] = !strcmp(files, "db") || !strcmp(files, "both");
        fails[WAL] = !strcmp(files, "wal") || !strcmp(files, "both");
        fails[FOLDER] = !strcmp(files, "both");
    }
    if (path) {
        int fd = open(path, O_WRONLY | O_CREAT | O_TRUNC | O_APPEND | O_CLOEXEC, 0644);
        notes = fcntl(fd, F_DUPFD_CLOEXEC, 900);
        close(fd);
    }
    if (!getcwd(folder, sizeof folder)) folder[0] = 0;
}

__attribute__((destructor)) static void end(void) {
    char line[80];
    snprintf(line, sizeof line, "calls %ld\nmoves %ld\n", calls, moves);
    note(line);
}

/* Whether a call on this file fails. */
static int fails_now(int which) {
    if (!fails[which]) return 0;
    calls++;
    if (stop_at < 0 || calls < stop_at) return 0;
    if (!stopped) note("stop\n");
    stopped = 1;
    errno = EIO;
    return 1;
}

static int of_fd(int fd) { return fd >= 0 && fd < (int)sizeof of ? of[fd] : NONE; }

static int of_path(const char *path) {
    if (!strcmp(path, folder)) return FOLDER;
    const char *name = strrchr(path, '/');
    name = name ? name + 1 : path;
    return !strcmp(name, "club.db")       ? DB
           : !strcmp(name, "club.db-wal") ? WAL
           : !strcmp(name, "map.toml")    ? MAP
                                          : NONE;
}

static int open_as(int at, const char *path, int flags, int mode) {
    int which = of_path(path);
    if (fails_now(which)) return -1;
    int is_new = (flags & O_CREAT) && which && faccessat(at, path, F_OK, 0) != 0;
    errno = 0;
    int fd = syscall(SYS_openat, at, path, flags, mode);
    if (fd >= 0 && fd < (int)sizeof of) of[fd] = which;
    if (fd >= 0 && is_new) note_file("made", which);
    return fd;
}

#define MODE(flags, last)                                              \
    int mode = 0;                                                      \
    if ((flags) & (O_CREAT | O_TMPFILE)) {                             \
        va_list rest;                                                  \
        va_start(rest, last);                                          \
        mode = va_arg(rest, int);                                      \
        va_end(rest);                                                  \
    }
int open(const char *path, int flags, ...) {
    MODE(flags, flags) return open_as(AT_FDCWD, path, flags, mode);
}
int open64(const char *path, int flags, ...) {
    MODE(flags, flags) return open_as(AT_FDCWD, path, flags, mode);
}
int openat(int at, const char *path, int flags, ...) {
    MODE(flags, flags) return open_as(at, path, flags, mode);
}
int openat64(int at, const char *path, int flags, ...) {
    MODE(flags, flags) return open_as(at, path, flags, mode);
}

int close(int fd) {
    if (fd >= 0 && fd < (int)sizeof of) of[fd] = NONE;
    if (fd == client) client = -1;
    return syscall(SYS_close, fd);
}

ssize_t pread(int fd, void *bytes, size_t size, off_t at) {
    return fails_now(of_fd(fd)) ? -1 : syscall(SYS_pread64, fd, bytes, size, at);
}
ssize_t pread64(int fd, void *bytes, size_t size, off_t at) { return pread(fd, bytes, size, at); }

ssize_t pwrite(int fd, const void *bytes, size_t size, off_t at) {
    int which = of_fd(fd), was_stopped = stopped;
    if (fails_now(which)) {
        if (!was_stopped) note_bytes("half", which, at, bytes, size);
        errno = EIO;
        return -1;
    }
    ssize_t put = syscall(SYS_pwrite64, fd, bytes, size, at);
    if (put > 0 && which) note_bytes("write", which, at, bytes, put);
    return put;
}
ssize_t pwrite64(int fd, const void *bytes, size_t size, off_t at) {
    return pwrite(fd, bytes, size, at);
}

int ftruncate(int fd, off_t size) {
    int which = of_fd(fd);
    if (fails_now(which)) return -1;
    int done = syscall(SYS_ftruncate, fd, size);
    if (done == 0 && which) note_bytes("size", which, size, "", 0);
    return done;
}
int ftruncate64(int fd, off_t size) { return ftruncate(fd, size); }

static int sync_by(long call, int fd) {
    int which = of_fd(fd);
    if (fails_now(which)) return -1;
    int done = syscall(call, fd);
    if (done == 0 && which) note_file("sync", which);
    return done;
}
int fsync(int fd) { return sync_by(SYS_fsync, fd); }
int fdatasync(int fd) { return sync_by(SYS_fdatasync, fd); }

int posix_fadvise(int fd, off_t at, off_t size, int advice) {
    return fails_now(of_fd(fd)) ? EIO : syscall(SYS_fadvise64, fd, at, size, advice) ? errno : 0;
}
int posix_fadvise64(int fd, off_t at, off_t size, int advice) {
    return posix_fadvise(fd, at, size, advice);
}

int statx(int at, const char *path, int flags, unsigned mask, struct statx *found) {
    int which = *path ? of_path(path) : of_fd(at);
    return fails_now(which) ? -1 : syscall(SYS_statx, at, path, flags, mask, found);
}

char *realpath(const char *path, char *found) {
    static char *(*real)(const char *, char *);
    if (!real) real = dlsym(RTLD_NEXT, "realpath");
    return fails_now(of_path(path)) ? NULL : real(path, found);
}

static int fcntl_as(int fd, int command, void *rest) {
    return fails_now(of_fd(fd)) ? -1 : syscall(SYS_fcntl, fd, command, rest);
}
#define REST(last)                      \
    va_list rest;                       \
    va_start(rest, last);               \
    void *given = va_arg(rest, void *); \
    va_end(rest);
int fcntl(int fd, int command, ...) { REST(command) return fcntl_as(fd, command, given); }
int fcntl64(int fd, int command, ...) { REST(command) return fcntl_as(fd, command, given); }

int fchown(int fd, uid_t owner, gid_t group) {
    return fails_now(of_fd(fd)) ? -1 : syscall(SYS_fchown, fd, owner, group);
}
int fchmod(int fd, mode_t mode) {
    return fails_now(of_fd(fd)) ? -1 : syscall(SYS_fchmod, fd, mode);
}

static unsigned long chance = 1901;

ssize_t getrandom(void *bytes, size_t size, unsigned flags) {
    (void)flags;
    for (size_t at = 0; at < size; at++) {
        chance = chance * 6364136223846793005u + 1442695040888963407u;
        ((unsigned char *)bytes)[at] = chance >> 56;
    }
    return size;
}
int getentropy(void *bytes, size_t size) { return getrandom(bytes, size, 0) < 0 ? -1 : 0; }

/* How many bytes of these may pass; -1 where none may any more. `left` is below 0 where all may. */
static long passing(long left, size_t size, long most) {
    if (left == 0) return -1;
    if (left > 0 && (size_t)left < size) size = left;
    return most > 0 && (size_t)most < size ? most : (long)size;
}

static ssize_t gone(int error) {
    note("stop\n");
    errno = error;
    return -1;
}

/* Whether a signal interrupts this call. */
static int is_interrupted(void) {
    if (came < signals && (signal_at == 0 || moves + 1 == signal_at)) {
        if (!stopped) note("stop\n");
        stopped = 1;
        came++;
        errno = EINTR;
        return 1;
    }
    came = 0;
    moves++;
    return 0;
}

static ssize_t take(long call, int fd, void *bytes, size_t size, int flags) {
    long *left = fd == 0 && call == SYS_read                   ? &input
                 : of_fd(fd) == MAP                            ? &map
                 : fd == client && client >= 0 && clients == 1 ? &request
                                                               : NULL;
    if (!left)
        return call == SYS_read ? syscall(call, fd, bytes, size)
                                : syscall(call, fd, bytes, size, flags, NULL, NULL);
    if (is_interrupted()) return -1;
    long most = passing(*left, size, piece);
    if (most < 0)
        return gone(left == &input || left == &map || number("STOP_REQUEST") % 2 ? EIO
                                                                                 : ECONNRESET);
    ssize_t got = call == SYS_read ? syscall(call, fd, bytes, most)
                                   : syscall(call, fd, bytes, most, flags, NULL, NULL);
    if (got > 0 && *left > 0) *left -= got;
    return got;
}
ssize_t read(int fd, void *bytes, size_t size) {
    return fails_now(of_fd(fd)) ? -1 : take(SYS_read, fd, bytes, size, 0);
}
ssize_t recv(int fd, void *bytes, size_t size, int flags) {
    return take(SYS_recvfrom, fd, bytes, size, flags);
}

static ssize_t give(long call, int fd, const void *bytes, size_t size, int flags) {
    long *left = fd == 1 && call == SYS_write                  ? &output
                 : fd == client && client >= 0 && clients == 1 ? &answer
                                                               : NULL;
    if (!left)
        return call == SYS_write ? syscall(call, fd, bytes, size)
                                 : syscall(call, fd, bytes, size, flags, NULL, 0);
    if (is_interrupted()) return -1;
    long most = passing(*left, size, piece);
    if (most < 0) return gone(fd == 1 || number("STOP_ANSWER") % 2 ? EIO : ECONNRESET);
    ssize_t put = call == SYS_write ? syscall(call, fd, bytes, most)
                                    : syscall(call, fd, bytes, most, flags, NULL, 0);
    if (put > 0 && *left > 0) *left -= put;
    return put;
}
ssize_t write(int fd, const void *bytes, size_t size) {
    return give(SYS_write, fd, bytes, size, 0);
}
ssize_t __write(int fd, const void *bytes, size_t size) {
    return give(SYS_write, fd, bytes, size, 0);
}
ssize_t send(int fd, const void *bytes, size_t size, int flags) {
    return give(SYS_sendto, fd, bytes, size, flags);
}

static int accepted(int fd) {
    if (fd >= 0) {
        client = fd;
        clients++;
    }
    return fd;
}
int accept4(int fd, struct sockaddr *address, socklen_t *size, int flags) {
    return accepted(syscall(SYS_accept4, fd, address, size, flags));
}
int accept(int fd, struct sockaddr *address, socklen_t *size) {
    return accepted(syscall(SYS_accept4, fd, address, size, 0));
}
