/* LD_PRELOAD puts this before a program. It refuses growths of the program's memory, as a system does that has no more.

   A growth is a call of malloc, calloc, aligned_alloc or posix_memalign, and a realloc to more bytes than the block has
   room for. Growths are counted from 1.

     REFUSE_AT=N     the growth of that number is refused
     REFUSE_FROM=N   this one and all after it are refused
     REFUSE_COUNT=F  the count is written to the file F when the program exits
     REFUSE_SWITCH=1 growths are only counted and refused between the first byte that the program writes to standard error
                     and the second, between the third and the fourth, and so on: each write there turns a switch, which
                     is off at first

   A realloc to fewer bytes goes through as it is: no program needs memory for it. */
#define _GNU_SOURCE
#include <dlfcn.h>
#include <errno.h>
#include <fcntl.h>
#include <malloc.h>
#include <stdatomic.h>
#include <stddef.h>
#include <stdio.h>
#include <stdlib.h>
#include <string.h>
#include <sys/syscall.h>
#include <unistd.h>

/* glibc's own, by the names that need no look-up: dlsym may itself ask for memory. */
extern void *__libc_malloc(size_t);
extern void *__libc_calloc(size_t, size_t);
extern void *__libc_realloc(void *, size_t);
extern void *__libc_memalign(size_t, size_t);

static atomic_ulong growths;
static atomic_bool counting;
static unsigned long at, from;
static int has_switch;
static int (*program_main)(int, char **, char **);

static unsigned long number_of(const char *name) {
    const char *text = getenv(name);
    return text ? strtoul(text, NULL, 10) : 0;
}

static int is_refused(void) {
    if (!counting)
        return 0;
    unsigned long number = atomic_fetch_add(&growths, 1) + 1;
    if (number != at && (from == 0 || number < from))
        return 0;
    errno = ENOMEM;
    return 1;
}

void *malloc(size_t size) {
    return is_refused() ? NULL : __libc_malloc(size);
}

void *calloc(size_t count, size_t size) {
    return is_refused() ? NULL : __libc_calloc(count, size);
}

void *realloc(void *block, size_t size) {
    int grows = block == NULL || size > malloc_usable_size(block);
    return grows && is_refused() ? NULL : __libc_realloc(block, size);
}

void *aligned_alloc(size_t align, size_t size) {
    return is_refused() ? NULL : __libc_memalign(align, size);
}

int posix_memalign(void **block, size_t align, size_t size) {
    if (is_refused())
        return ENOMEM;
    void *got = __libc_memalign(align, size);
    if (got == NULL)
        return ENOMEM;
    *block = got;
    return 0;
}

ssize_t write(int file, const void *bytes, size_t count) {
    if (has_switch && file == STDERR_FILENO)
        counting = !counting;
    return syscall(SYS_write, file, bytes, count);
}

static void write_count(void) {
    counting = 0;
    has_switch = 0;
    const char *path = getenv("REFUSE_COUNT");
    if (path == NULL)
        return;
    char text[24];
    int length = snprintf(text, sizeof text, "%lu\n", (unsigned long)growths);
    int file = open(path, O_WRONLY | O_CREAT | O_TRUNC | O_CLOEXEC, 0644);
    if (file < 0 || write(file, text, length) != length)
        _exit(99);
    close(file);
}

/* Counting begins where main does. What the loader and the C library ask for before it isn't the program's: a program
   has no say in how it ends if that is refused. */
static int counted_main(int count, char **words, char **environment) {
    at = number_of("REFUSE_AT");
    from = number_of("REFUSE_FROM");
    has_switch = getenv("REFUSE_SWITCH") != NULL;
    atexit(write_count);
    counting = !has_switch;
    return program_main(count, words, environment);
}

int __libc_start_main(int (*main)(int, char **, char **), int count, char **words, void (*init)(void),
                      void (*fini)(void), void (*loader_fini)(void), void *stack_end) {
    int (*start)(int (*)(int, char **, char **), int, char **, void (*)(void), void (*)(void), void (*)(void), void *);
    *(void **)&start = dlsym(RTLD_NEXT, "__libc_start_main");
    program_main = main;
    return start(counted_main, count, words, init, fini, loader_fini, stack_end);
}
