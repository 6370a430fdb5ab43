// Preloaded by robust.sh: a C library whose malloc, read and write fail as the environment asks.
//   MALLOC_FAILS=n    the n-th malloc finds no memory, and MALLOC_FAILS=-n: the n-th and all after it
//   READ_MOST=n, WRITE_MOST=n       no more than n bytes at a time
//   READ_FAILS=n, WRITE_FAILS=n     the n-th call fails (EIO)
//   READ_STOPS=n, WRITE_STOPS=n     the n-th call is interrupted (EINTR)
#include <errno.h>
#include <stddef.h>
#include <stdlib.h>
#include <sys/syscall.h>
#include <sys/types.h>
#include <unistd.h>

extern void *__libc_malloc(size_t size);

static long asked(const char *name) {
    const char *text = getenv(name);
    return text ? atol(text) : 0;
}

void *malloc(size_t size) {
    static long calls;
    long fails = asked("MALLOC_FAILS");
    calls++;
    if (fails == calls || (fails < 0 && calls >= -fails)) {
        errno = ENOMEM;
        return NULL;
    }
    return __libc_malloc(size);
}

// Whether call number `call` goes wrong.
static int goes_wrong(long call, const char *fails, const char *stops) {
    if (asked(fails) == call) {
        errno = EIO;
        return 1;
    }
    if (asked(stops) == call) {
        errno = EINTR;
        return 1;
    }
    return 0;
}

static size_t at_most(size_t size, const char *name) {
    long most = asked(name);
    return most > 0 && (size_t)most < size ? (size_t)most : size;
}

ssize_t read(int fd, void *bytes, size_t size) {
    static long calls;
    if (goes_wrong(++calls, "READ_FAILS", "READ_STOPS")) return -1;
    return syscall(SYS_read, fd, bytes, at_most(size, "READ_MOST"));
}

ssize_t write(int fd, const void *bytes, size_t size) {
    static long calls;
    if (goes_wrong(++calls, "WRITE_FAILS", "WRITE_STOPS")) return -1;
    return syscall(SYS_write, fd, bytes, at_most(size, "WRITE_MOST"));
}
