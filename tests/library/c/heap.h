/* The heap, some of whose growths are refused: a program's own malloc, realloc and free come before those of the C library,
 * also for the library under test. A growth is a malloc or calloc, or a realloc to more bytes than the block has room for. */
#ifndef HEAP_H
#define HEAP_H

#include <stdbool.h>
#include <stdint.h>

typedef struct {
    bool is_counting;          /* growths and blocks are counted, and growths refused, only if this is true */
    uint64_t growths, refused; /* how many there were */
    int64_t blocks;            /* how many are held */
    bool (*refuses)(void);     /* whether the growth that was counted last is refused; NULL: none is */
} heap_state;

extern heap_state heap;

#endif
