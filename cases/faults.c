/* What cases/faults loads before the program (LD_PRELOAD): each read and each write moves one byte.
   The k-th read fails where BAD_READ is k, the k-th write to standard output where BAD_OUTPUT is k,
   and to standard error where BAD_ERRORS is k. */
#define _GNU_SOURCE
#include <errno.h>
#include <stdlib.h>
#include <sys/syscall.h>
#include <unistd.h>

/* How many calls there were: reads, and writes by the number of their file. */
static long reads, writes[3];

/* Whether a call is the one that a word of the environment names. */
static int is_bad(const char *name, long call) {
    const char *text = getenv(name);
    return text && atol(text) == call;
}

static ssize_t failed(void) {
    errno = EIO;
    return -1;
}

ssize_t read(int file, void *bytes, size_t count) {
    if (is_bad("BAD_READ", ++reads)) return failed();
    return syscall(SYS_read, file, bytes, count > 1 ? 1 : count);
}

ssize_t write(int file, const void *bytes, size_t count) {
    const char *name = file == 1 ? "BAD_OUTPUT" : "BAD_ERRORS";
    if ((file == 1 || file == 2) && is_bad(name, ++writes[file])) return failed();
    return syscall(SYS_write, file, bytes, count > 1 ? 1 : count);
}

ssize_t __write(int file, const void *bytes, size_t count) { return write(file, bytes, count); }
