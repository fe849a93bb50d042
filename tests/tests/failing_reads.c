/* Preloaded into a program: the file that OSEK_FAILING names gives its first four bytes, and every further read of it is an
 * I/O error. Programs that call read and programs that go through stdio get the same. */
#define _GNU_SOURCE
#include <errno.h>
#include <fcntl.h>
#include <stdint.h>
#include <stdio.h>
#include <stdlib.h>
#include <string.h>
#include <sys/syscall.h>
#include <unistd.h>

static int fails(int fd)
{
    char link[64], path[4096];
    const char *failing = getenv("OSEK_FAILING");
    snprintf(link, sizeof link, "/proc/self/fd/%d", fd);
    ssize_t len = readlink(link, path, sizeof path - 1);
    if (failing == NULL || len < 0)
        return 0;
    path[len] = 0;
    return strcmp(strrchr(path, '/') + 1, failing) == 0;
}

ssize_t read(int fd, void *bytes, size_t len)
{
    if (fails(fd)) {
        if (lseek(fd, 0, SEEK_CUR) > 0) {
            errno = EIO;
            return -1;
        }
        len = len < 4 ? len : 4;
    }
    return syscall(SYS_read, fd, bytes, len);
}

static ssize_t stream_read(void *fd, char *bytes, size_t len) { return read((int)(intptr_t)fd, bytes, len); }

static int stream_close(void *fd) { return close((int)(intptr_t)fd); }

/* stdio's own reads can't be replaced, so a stream over `read` stands in for the file. */
FILE *fopen(const char *name, const char *mode)
{
    cookie_io_functions_t calls = {stream_read, NULL, NULL, stream_close};
    int fd = open(name, O_RDONLY);
    return fd < 0 ? NULL : fopencookie((void *)(intptr_t)fd, mode, calls);
}
