/* Loaded before a program (LD_PRELOAD) by cases/refusals, to refuse it memory.
     REFUSED=K  the K-th request for memory is refused, counted from 1
     ONWARD=1   and so are all behind it
     MARKED=1   counted, and refused, are only requests behind a write of the line "call" and before
                one of the line "called"
     OF=first   so are only requests of the thread that the process began with; OF=others: of others
     TOLD=F     how many requests were counted is written to the open file F at the end */
#define _GNU_SOURCE
#include <errno.h>
#include <stdio.h>
#include <stdlib.h>
#include <string.h>
#include <sys/syscall.h>
#include <unistd.h>

extern void *__libc_malloc(size_t);
extern void *__libc_calloc(size_t, size_t);
extern void *__libc_realloc(void *, size_t);
extern void *__libc_memalign(size_t, size_t);

static long requests, refused_request;
static int ready, onward, counts, first, others;

static long number(const char *name) {
    const char *text = getenv(name);
    return text ? atol(text) : -1;
}

static void begin(void) {
    if (ready) return;
    ready = 1;
    refused_request = number("REFUSED");
    onward = number("ONWARD") > 0;
    counts = number("MARKED") <= 0;
    const char *of = getenv("OF");
    first = of && !strcmp(of, "first");
    others = of && !strcmp(of, "others");
}

static int refused(void) {
    begin();
    if (!__atomic_load_n(&counts, __ATOMIC_SEQ_CST)) return 0;
    if ((first || others) && (gettid() == getpid()) != first) return 0;
    long request = __atomic_add_fetch(&requests, 1, __ATOMIC_SEQ_CST);
    if (request != refused_request && !(onward && refused_request > 0 && request > refused_request))
        return 0;
    errno = ENOMEM;
    return 1;
}

void *malloc(size_t size) { return refused() ? 0 : __libc_malloc(size); }

void *calloc(size_t count, size_t size) { return refused() ? 0 : __libc_calloc(count, size); }

void *realloc(void *old, size_t size) { return refused() ? 0 : __libc_realloc(old, size); }

void *memalign(size_t align, size_t size) { return refused() ? 0 : __libc_memalign(align, size); }

void *aligned_alloc(size_t align, size_t size) { return memalign(align, size); }

int posix_memalign(void **place, size_t align, size_t size) {
    void *made = memalign(align, size);
    if (!made) return ENOMEM;
    *place = made;
    return 0;
}

static int is_line(const void *bytes, size_t count, const char *line) {
    return count == strlen(line) && !memcmp(bytes, line, count);
}

ssize_t write(int file, const void *bytes, size_t count) {
    begin();
    if (is_line(bytes, count, "call\n")) __atomic_store_n(&counts, 1, __ATOMIC_SEQ_CST);
    if (is_line(bytes, count, "called\n")) __atomic_store_n(&counts, 0, __ATOMIC_SEQ_CST);
    return syscall(SYS_write, file, bytes, count);
}

__attribute__((destructor)) static void tell(void) {
    char text[24];
    long file = number("TOLD");
    if (file >= 0) syscall(SYS_write, file, text, snprintf(text, sizeof text, "%ld\n", requests));
}

ssize_t __write(int file, const void *bytes, size_t count) { return write(file, bytes, count); }

void _exit(int status) {
    tell();
    syscall(SYS_exit_group, status);
    __builtin_unreachable();
}
