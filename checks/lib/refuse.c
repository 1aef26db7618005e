// Makes chosen calls of the C library fail. checks/faults builds this file into a library and has the loader put it before
// the C library in the built program (LD_PRELOAD), so that the program itself is the one that is shipped.
//
// REFUSE names the calls that are counted: `allocation`, `thread` (the start of one), `read` (of standard input) or `write` (to
// standard output or standard error). Those with a number from REFUSE_FIRST to REFUSE_LAST fail, counted from 1: an allocation
// gives NULL, a thread isn't started (EAGAIN), a read or a write gives -1 with the error REFUSE_ERROR (`EIO` or `EINTR`), or 0
// bytes with `NOTHING`. With REFUSE_SHORT the reads and writes that don't fail pass one byte at a time. When the program ends, two numbers go to
// the file REFUSE_COUNTS: how many calls there were, and how many of them failed.
//
// Counting begins in a constructor, which runs when the loader has set up the libraries and just before main is called.
// What the loader and the C library allocate before that is none of the program's, and they may do it differently on each
// machine. After that each allocation is the program's own, as it uses nothing of the C library that allocates by itself.
// The program asks for memory by malloc and realloc alone (`nm -D` lists what it calls); the other three are here so
// that a later one that calls them isn't overlooked.
#define _GNU_SOURCE
#include <dlfcn.h>
#include <errno.h>
#include <fcntl.h>
#include <pthread.h>
#include <stdatomic.h>
#include <stdio.h>
#include <stdlib.h>
#include <string.h>
#include <sys/syscall.h>
#include <unistd.h>

// The C library's own allocators, under the names by which it gives them to those who put others before them.
void *__libc_malloc(size_t size);
void *__libc_calloc(size_t count, size_t size);
void *__libc_realloc(void *block, size_t size);
void *__libc_memalign(size_t alignment, size_t size);

// The C library's own start of a thread, which has no other name.
typedef int start_of_thread(pthread_t *, const pthread_attr_t *, void *(*)(void *), void *);
static start_of_thread *start_thread = NULL;

static const char *counted = "";
static const char *counts = NULL;
static long first = 0;
static long last = 0;
static int error = 0;
static int is_short = 0;
// The command `host` calls from several threads.
static atomic_long calls = 0;
static atomic_long failed = 0;

static const char *setting(const char *name) {
    const char *value = getenv(name);
    return value == NULL ? "" : value;
}

__attribute__((constructor)) static void begin(void) {
    const char *named = setting("REFUSE_ERROR");
    error = strcmp(named, "EIO") == 0 ? EIO : strcmp(named, "EINTR") == 0 ? EINTR : 0;
    first = atol(setting("REFUSE_FIRST"));
    last = atol(setting("REFUSE_LAST"));
    is_short = *setting("REFUSE_SHORT") != 0;
    counts = getenv("REFUSE_COUNTS");
    start_thread = (start_of_thread *)dlsym(RTLD_NEXT, "pthread_create");
    counted = setting("REFUSE");
}

// By system calls alone, as write below is counted.
__attribute__((destructor)) static void end(void) {
    counted = "";
    char line[64];
    int length = snprintf(line, sizeof line, "%ld %ld\n", atomic_load(&calls), atomic_load(&failed));
    int file = counts == NULL ? -1 : open(counts, O_WRONLY | O_CREAT | O_TRUNC, 0600);
    if (file >= 0) {
        syscall(SYS_write, file, line, length);
        close(file);
    }
}

// Counts a call of this kind, and answers whether it fails.
static int refuses(const char *kind) {
    if (strcmp(counted, kind) != 0) {
        return 0;
    }
    long call = atomic_fetch_add(&calls, 1) + 1;
    if (call < first || call > last) {
        return 0;
    }
    atomic_fetch_add(&failed, 1);
    return 1;
}

// A program that may start threads leaves by this call, which runs no destructor.
void _exit(int status) {
    end();
    for (;;) {
        syscall(SYS_exit_group, status);
    }
}

// What a read or a write that fails gives.
static ssize_t failure(void) {
    if (error == 0) {
        return 0;
    }
    errno = error;
    return -1;
}

// Whether an allocation is refused, as the C library itself refuses one: its threads look at the error.
static int no_memory(void) {
    if (!refuses("allocation")) {
        return 0;
    }
    errno = ENOMEM;
    return 1;
}

void *malloc(size_t size) {
    return no_memory() ? NULL : __libc_malloc(size);
}

void *calloc(size_t count, size_t size) {
    return no_memory() ? NULL : __libc_calloc(count, size);
}

void *realloc(void *block, size_t size) {
    return no_memory() ? NULL : __libc_realloc(block, size);
}

void *aligned_alloc(size_t alignment, size_t size) {
    return no_memory() ? NULL : __libc_memalign(alignment, size);
}

int posix_memalign(void **block, size_t alignment, size_t size) {
    void *taken = aligned_alloc(alignment, size);
    if (taken == NULL) {
        return ENOMEM;
    }
    *block = taken;
    return 0;
}

int pthread_create(pthread_t *thread, const pthread_attr_t *settings, void *(*start)(void *), void *argument) {
    return start_thread == NULL || refuses("thread") ? EAGAIN : start_thread(thread, settings, start, argument);
}

ssize_t read(int file, void *bytes, size_t size) {
    if (file == STDIN_FILENO && refuses("read")) {
        return failure();
    }
    return syscall(SYS_read, file, bytes, is_short && size > 1 ? 1 : size);
}

ssize_t write(int file, const void *bytes, size_t size) {
    if ((file == STDOUT_FILENO || file == STDERR_FILENO) && refuses("write")) {
        return failure();
    }
    return syscall(SYS_write, file, bytes, is_short && size > 1 ? 1 : size);
}

// The other name by which the program calls it.
ssize_t __write(int file, const void *bytes, size_t size) {
    return write(file, bytes, size);
}
