// Stands before the C library's allocator in a process, counts its allocations, and lets some of them fail.
//
//     FAIL_FROM=N       the Nth allocation fails, counted from 1; none where it is not set or 0
//     FAIL_ALL=1        and so do all after it
//     COUNT_INTO=FILE   the number of allocations is written there at the end of the process
//
// The `__libc` functions are glibc's own names of its allocator.
#define _GNU_SOURCE
#include <errno.h>
#include <fcntl.h>
#include <stdatomic.h>
#include <stddef.h>
#include <stdio.h>
#include <stdlib.h>
#include <sys/syscall.h>
#include <unistd.h>

extern void *__libc_malloc(size_t size);
extern void *__libc_calloc(size_t count, size_t size);
extern void *__libc_realloc(void *block, size_t size);
extern void *__libc_memalign(size_t alignment, size_t size);

static atomic_ulong made;
static unsigned long fail_from;
static int fail_all;
static int counting;

static unsigned long number_in(const char *name) {
    const char *text = getenv(name);
    return text ? strtoul(text, NULL, 10) : 0;
}

// What is allocated before the program begins does not count.
__attribute__((constructor)) static void begin(void) {
    fail_from = number_in("FAIL_FROM");
    fail_all = number_in("FAIL_ALL") == 1;
    counting = 1;
}

static void write_count(void) {
    const char *file = getenv("COUNT_INTO");
    counting = 0;
    if (!file) return;
    int into = open(file, O_WRONLY | O_CREAT | O_TRUNC, 0600);
    if (into < 0) return;
    dprintf(into, "%lu\n", atomic_load(&made));
    close(into);
}

__attribute__((destructor)) static void end(void) {
    write_count();
}

// A program may end without what is to be run at its end.
void _exit(int status) {
    write_count();
    for (;;) syscall(SYS_exit_group, status);
}

static int fails(void) {
    if (!counting) return 0;
    unsigned long nth = atomic_fetch_add(&made, 1) + 1;
    if (fail_from == 0 || nth < fail_from || (nth > fail_from && !fail_all)) return 0;
    errno = ENOMEM;
    return 1;
}

void *malloc(size_t size) {
    return fails() ? NULL : __libc_malloc(size);
}

void *calloc(size_t count, size_t size) {
    return fails() ? NULL : __libc_calloc(count, size);
}

void *realloc(void *block, size_t size) {
    return fails() ? NULL : __libc_realloc(block, size);
}

void *aligned_alloc(size_t alignment, size_t size) {
    return fails() ? NULL : __libc_memalign(alignment, size);
}

int posix_memalign(void **block, size_t alignment, size_t size) {
    if (fails()) return ENOMEM;
    *block = __libc_memalign(alignment, size);
    return *block ? 0 : ENOMEM;
}
