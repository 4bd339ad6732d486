/* A read that fails at first, to be put before the C library's (LD_PRELOAD). READS has the errno, how
 * many reads succeed before it fails, and how many times it then fails; of a read that succeeds, one
 * byte at most comes. */
#define _GNU_SOURCE
#include <errno.h>
#include <stdio.h>
#include <stdlib.h>
#include <sys/syscall.h>
#include <unistd.h>

ssize_t read(int fd, void *buffer, size_t size)
{
    static int error, good, bad = -1;
    const char *word = getenv("READS");
    if (bad < 0 && (!word || sscanf(word, "%d %d %d", &error, &good, &bad) != 3))
        abort();
    if (good > 0) {
        good--;
        return syscall(SYS_read, fd, buffer, size < 1 ? size : 1);
    }
    if (bad > 0) {
        bad--;
        errno = error;
        return -1;
    }
    return syscall(SYS_read, fd, buffer, size);
}
