/* Bytes that grow. */
#include "script.h"

#include <stdarg.h>
#include <stdio.h>
#include <stdlib.h>
#include <string.h>

void fault(const char *form, ...) {
    va_list words;
    va_start(words, form);
    fputs("script: ", stderr);
    vfprintf(stderr, form, words);
    fputc('\n', stderr);
    va_end(words);
    exit(3);
}

void *room_for(size_t count, size_t size) {
    void *room = calloc(count ? count : 1, size);
    if (!room)
        fault("no memory for the test itself");
    return room;
}

static void grow(bytes *to, size_t more) {
    if (to->room - to->length > more)
        return;
    to->room = 2 * (to->length + more) + 64;
    to->at = realloc(to->at, to->room);
    if (!to->at)
        fault("no memory for the test itself");
}

void put(bytes *to, const void *from, size_t length) {
    grow(to, length);
    if (length)
        memcpy(to->at + to->length, from, length);
    to->length += length;
}

void put_form(bytes *to, const char *form, ...) {
    va_list words;
    va_start(words, form);
    int length = vsnprintf(NULL, 0, form, words);
    va_end(words);
    grow(to, (size_t)length + 1);
    va_start(words, form);
    vsnprintf((char *)to->at + to->length, (size_t)length + 1, form, words);
    va_end(words);
    to->length += (size_t)length;
}

bool is_same(const bytes *one, const bytes *other) {
    return one->length == other->length && (one->length == 0 || memcmp(one->at, other->at, one->length) == 0);
}
