/* waits TRACE: reads a trace by a stream of the library, piece by piece, and prints how many waits there are and how long
 * they are together. Its time is what the engine takes by itself. */
#include <fcntl.h>
#include <inttypes.h>
#include <stdio.h>
#include <unistd.h>

#include "histdesk.h"

static uint8_t piece[1 << 20];
static histdesk_wait waits[1 << 10];
static uint64_t told, micros;

/* Adds up the waits that the last call reported. */
static void add_told(histdesk *desk)
{
    uint64_t count;

    for (uint64_t from = 0; (count = histdesk_waits_copy(desk, from, waits, sizeof waits / sizeof *waits)) > 0; from += count)
        for (uint64_t at = 0; at < count; at++, told++)
            micros += waits[at].ended.stamp - waits[at].began.stamp;
}

int main(int count, char **words)
{
    histdesk desk;
    histdesk_waits_read found;
    uint64_t known;
    ssize_t length;
    int file = count == 2 ? open(words[1], O_RDONLY) : -1;

    if (file < 0 || histdesk_new(&desk) != HISTDESK_OK || histdesk_waits_new(&desk, false) != HISTDESK_OK)
        return 2;
    while ((length = read(file, piece, sizeof piece)) > 0) {
        if (histdesk_waits_feed(&desk, piece, (size_t)length, &known) != HISTDESK_OK)
            return 2;
        add_told(&desk);
    }
    if (length < 0 || histdesk_waits_finish(&desk, &found, &known) != HISTDESK_OK)
        return 2;
    add_told(&desk);
    printf("%" PRIu64 " waits, %" PRIu64 " us\n", told, micros);
    histdesk_free(&desk);
    return 0;
}
