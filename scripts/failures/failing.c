/* Loaded in front of the C library by LD_PRELOAD: counts the calls of one kind, and fails those of some numbers.

   FAILING in the environment has six words: KIND (memory, open, system, read, write or thread), FIRST and LAST (the numbers of
   the calls that fail, from 1 on), ERROR (the number of the error that they report), MARK (a file descriptor) and MOST (how many
   bytes a read or a write may move at a time; 0 for no limit). Each call that fails appends a byte to MARK, so that whoever began
   the program knows of it, though the program ends by _exit. If FIRST is 0 no call fails, and each call of the kind appends its
   byte.

   Calls are counted from the start of the program's own code on; what the loader does before that is not. The system's own files,
   below /proc and /sys, are opened by calls of the kind system, and what is read of them is not counted. */
#define _GNU_SOURCE
#include <dlfcn.h>
#include <errno.h>
#include <fcntl.h>
#include <pthread.h>
#include <stdarg.h>
#include <stddef.h>
#include <stdio.h>
#include <stdlib.h>
#include <string.h>
#include <sys/syscall.h>
#include <sys/types.h>
#include <unistd.h>

extern void *__libc_malloc(size_t size);
extern void *__libc_calloc(size_t count, size_t size);
extern void *__libc_realloc(void *old, size_t size);
extern void *__libc_memalign(size_t align, size_t size);

typedef int starter(pthread_t *, const pthread_attr_t *, void *(*)(void *), void *);

static char kind[16];
static unsigned long first, last, calls;
static int error, mark = -1, system_file = -1;
static size_t most;
static starter *start_thread;

__attribute__((constructor)) static void begin(void) {
    char asked[16] = "";
    const char *failing = getenv("FAILING");
    start_thread = (starter *)dlsym(RTLD_NEXT, "pthread_create");
    if (failing != NULL && sscanf(failing, "%15s %lu %lu %d %d %zu", asked, &first, &last, &error, &mark, &most) == 6)
        memcpy(kind, asked, sizeof kind);
}

/* Whether this call is to fail. */
static int fails(const char *of_kind) {
    unsigned long number;
    if (strcmp(kind, of_kind) != 0)
        return 0;
    number = __atomic_add_fetch(&calls, 1, __ATOMIC_SEQ_CST);
    if (first != 0 && (number < first || last < number))
        return 0;
    syscall(SYS_write, mark, "x", (size_t)1);
    if (first == 0)
        return 0;
    errno = error;
    return 1;
}

/* What a read or a write that fails returns: with no error it has moved nothing. */
static ssize_t moved(void) {
    return error == 0 ? 0 : -1;
}

static size_t at_most(size_t count) {
    return most != 0 && most < count ? most : count;
}

void *malloc(size_t size) {
    return fails("memory") ? NULL : __libc_malloc(size);
}

void *calloc(size_t count, size_t size) {
    return fails("memory") ? NULL : __libc_calloc(count, size);
}

void *realloc(void *old, size_t size) {
    return fails("memory") ? NULL : __libc_realloc(old, size);
}

void *aligned_alloc(size_t align, size_t size) {
    return fails("memory") ? NULL : __libc_memalign(align, size);
}

void *memalign(size_t align, size_t size) {
    return fails("memory") ? NULL : __libc_memalign(align, size);
}

int posix_memalign(void **to, size_t align, size_t size) {
    void *made = fails("memory") ? NULL : __libc_memalign(align, size);
    if (made == NULL)
        return ENOMEM;
    *to = made;
    return 0;
}

static int open_in(int folder, const char *path, int flags, mode_t mode) {
    int is_system = strncmp(path, "/proc/", 6) == 0 || strncmp(path, "/sys/", 5) == 0, file;
    if (fails(is_system ? "system" : "open"))
        return -1;
    file = (int)syscall(SYS_openat, folder, path, flags, mode);
    if (is_system)
        system_file = file;
    else if (file == system_file)
        system_file = -1;
    return file;
}

/* The mode, which is there only if a file may be made. */
#define MODE_OF(flags, mode) \
    do { \
        va_list rest; \
        va_start(rest, flags); \
        if ((flags) & (O_CREAT | O_TMPFILE)) \
            (mode) = va_arg(rest, mode_t); \
        va_end(rest); \
    } while (0)

int open(const char *path, int flags, ...) {
    mode_t mode = 0;
    MODE_OF(flags, mode);
    return open_in(AT_FDCWD, path, flags, mode);
}

int open64(const char *path, int flags, ...) {
    mode_t mode = 0;
    MODE_OF(flags, mode);
    return open_in(AT_FDCWD, path, flags, mode);
}

int openat(int folder, const char *path, int flags, ...) {
    mode_t mode = 0;
    MODE_OF(flags, mode);
    return open_in(folder, path, flags, mode);
}

ssize_t read(int from, void *to, size_t count) {
    if (from == system_file)
        return syscall(SYS_read, from, to, count);
    return fails("read") ? moved() : syscall(SYS_read, from, to, at_most(count));
}

/* What is said on standard error is not what the run writes. */
ssize_t write(int to, const void *from, size_t count) {
    if (to == STDERR_FILENO)
        return syscall(SYS_write, to, from, count);
    return fails("write") ? moved() : syscall(SYS_write, to, from, at_most(count));
}

int pthread_create(pthread_t *thread, const pthread_attr_t *how, void *(*body)(void *), void *with) {
    return fails("thread") ? error : start_thread(thread, how, body, with);
}
