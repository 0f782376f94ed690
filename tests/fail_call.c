// Makes calls of the system fail in a process that LD_PRELOAD loads it into. Variables of the environment say which, and how:
//
//   FAIL_CALL   `read:3` is the third read. `open` is for opening a file, `write` for a write to any descriptor but standard
//               error, and `error` for a write to standard error. Calls of no other name fail.
//   FAIL_TIMES  how many of these calls fail, from that one on; 0 stands for all. `999/1000`: 999 of each 1,000.
//   FAIL_WITH   the name of an error, such as EIO. Or `short`, and such a call moves one byte at most. Or `none`, and it moves
//               none.
//   FAIL_ROOM   how many bytes such calls may move in all before they fail by the error: 0 if it is not given.
//
// A byte on descriptor 3 tells that there was such a call. A process that tries again for ever ends at its 100,000th error, with
// status 99.
#define _GNU_SOURCE
#include <errno.h>
#include <fcntl.h>
#include <limits.h>
#include <stdarg.h>
#include <stddef.h>
#include <stdlib.h>
#include <string.h>
#include <sys/syscall.h>
#include <unistd.h>

#define NAMED(code) {#code, code}

static const struct {
    const char *name;
    int code;
} errors[] = {
    NAMED(EACCES), NAMED(EAGAIN), NAMED(EBADF),  NAMED(EINTR),  NAMED(EIO),
    NAMED(EMFILE), NAMED(ENOENT), NAMED(ENOMEM), NAMED(ENOSPC), NAMED(EPIPE), NAMED(ETIMEDOUT),
};

// The error with this name. If it is not known, the process ends.
static int error_named(const char *name) {
    for (size_t at = 0; at < sizeof errors / sizeof *errors; at++)
        if (!strcmp(name, errors[at].name))
            return errors[at].code;
    _exit(98);
}

// Whether the call that is made now, of this name, is one of those that fail.
static int is_chosen(const char *name) {
    static long calls = 0;
    const char *chosen = getenv("FAIL_CALL"), *times = getenv("FAIL_TIMES");
    size_t length = strlen(name);
    if (!chosen || !times || strncmp(chosen, name, length) || chosen[length] != ':')
        return 0;
    char *rest;
    long first = atol(chosen + length + 1), many = strtol(times, &rest, 10);
    long each = *rest == '/' ? atol(rest + 1) : LONG_MAX;
    calls++;
    return first <= calls && (many == 0 || (calls - first) % each < many);
}

// Tells, once, that there was such a call.
static void tell(void) {
    static int is_told = 0;
    if (!is_told)
        syscall(SYS_write, 3, ".", 1);
    is_told = 1;
}

// How many bytes this call may move of those that it is asked to, or -1 if it fails, with the error in `errno`.
static ssize_t granted(const char *name, size_t asked) {
    static size_t moved = 0;
    static long failed = 0;
    const char *with = getenv("FAIL_WITH"), *room = getenv("FAIL_ROOM");
    if (!with || !is_chosen(name))
        return (ssize_t)asked;
    tell();
    if (!strcmp(with, "none"))
        return 0;
    size_t left = !strcmp(with, "short") ? 1 : room ? (size_t)atol(room) - moved : 0;
    if (left == 0) {
        if (++failed == 100000)
            _exit(99);
        errno = error_named(with);
        return -1;
    }
    size_t most = asked < left ? asked : left;
    moved += most;
    return (ssize_t)most;
}

ssize_t read(int descriptor, void *bytes, size_t length) {
    ssize_t most = granted("read", length);
    return most < 0 ? -1 : syscall(SYS_read, descriptor, bytes, (size_t)most);
}

ssize_t write(int descriptor, const void *bytes, size_t length) {
    ssize_t most = granted(descriptor == STDERR_FILENO ? "error" : "write", length);
    return most < 0 ? -1 : syscall(SYS_write, descriptor, bytes, (size_t)most);
}

int open(const char *path, int flags, ...) {
    va_list rest;
    va_start(rest, flags);
    int mode = flags & O_CREAT ? va_arg(rest, int) : 0;
    va_end(rest);
    return granted("open", 0) < 0 ? -1 : (int)syscall(SYS_openat, AT_FDCWD, path, flags, mode);
}
