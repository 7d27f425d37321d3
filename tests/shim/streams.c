/* A read and a write for LD_PRELOAD, in the place of the C library's, with the faults that the environment asks for. Of standard
 * input: a call moves at most READ_MOST bytes, and call READ_FAILS (the first is 1) fails. Of standard output: at most WRITE_MOST
 * bytes, call WRITE_FAILS fails, and call WRITE_STOPS takes nothing. A number that is not given, or 0, asks for nothing.
 * NONBLOCKING is a descriptor that is made non-blocking at the start. */
#define _GNU_SOURCE
#include <errno.h>
#include <fcntl.h>
#include <stdlib.h>
#include <sys/syscall.h>
#include <unistd.h>

static size_t asked(const char *name) {
    const char *value = getenv(name);
    return value ? strtoul(value, NULL, 10) : 0;
}

static size_t least(size_t count, size_t most) {
    return most && most < count ? most : count;
}

static ssize_t failed(void) {
    errno = EIO;
    return -1;
}

__attribute__((constructor)) static void start(void) {
    if (getenv("NONBLOCKING")) {
        int fd = (int)asked("NONBLOCKING");
        fcntl(fd, F_SETFL, fcntl(fd, F_GETFL) | O_NONBLOCK);
    }
}

ssize_t read(int fd, void *buffer, size_t count) {
    static size_t calls;
    if (fd == 0) {
        if (++calls == asked("READ_FAILS")) {
            return failed();
        }
        count = least(count, asked("READ_MOST"));
    }
    return syscall(SYS_read, fd, buffer, count);
}

ssize_t write(int fd, const void *buffer, size_t count) {
    static size_t calls;
    if (fd == 1) {
        calls++;
        if (calls == asked("WRITE_FAILS")) {
            return failed();
        }
        if (calls == asked("WRITE_STOPS")) {
            return 0;
        }
        count = least(count, asked("WRITE_MOST"));
    }
    return syscall(SYS_write, fd, buffer, count);
}
