/* The heap over glibc's own. */
#include "heap.h"

#include <errno.h>
#include <malloc.h>
#include <stddef.h>

/* glibc's own. */
extern void *__libc_malloc(size_t);
extern void *__libc_calloc(size_t, size_t);
extern void *__libc_realloc(void *, size_t);
extern void __libc_free(void *);

heap_state heap;

static bool is_refused(void) {
    if (!heap.is_counting)
        return false;
    heap.growths++;
    if (!heap.refuses || !heap.refuses())
        return false;
    heap.refused++;
    errno = ENOMEM;
    return true;
}

static void *counted(void *block) {
    heap.blocks += heap.is_counting && block;
    return block;
}

void *malloc(size_t size) {
    return is_refused() ? NULL : counted(__libc_malloc(size));
}

void *calloc(size_t number, size_t size) {
    return is_refused() ? NULL : counted(__libc_calloc(number, size));
}

void *realloc(void *block, size_t size) {
    if (!block)
        return malloc(size);
    bool grows = size > malloc_usable_size(block);
    return grows && is_refused() ? NULL : __libc_realloc(block, size);
}

void free(void *block) {
    heap.blocks -= heap.is_counting && block;
    __libc_free(block);
}
