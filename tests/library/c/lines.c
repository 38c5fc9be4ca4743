/* lines: what each line of a text is and where it ends, and what the lines report as lost: lines of each kind, in no order of
 * time, with and without a last line break. What is wanted was worked out by hand. Lines and holes are copied into room of
 * each size, with nothing written beside it; the desk, its stream and its other answers stay as they were; each growth of
 * memory is refused in turn; and histdesk_forget gives the memory back. What is wrong is printed with its line in this file;
 * the last line says how many of the tests hold. */
#include "heap.h"
#include "histdesk.h"
#include "holds.h"

#include <stdio.h>
#include <stdlib.h>
#include <string.h>

#ifdef HEAP_IS_PLAIN /* for valgrind, which has a heap of its own: no growth is refused or counted */
heap_state heap;
#endif

#define WAKE "comm=w pid=42 prio=120 target_cpu=000\n"

/* Each line, and what it is: where it ends is the sum of the lengths up to it. */
static const struct {
    const char *line;
    histdesk_text_line want;
} known[] = {
    {"# entries-in-buffer/entries-written: 7/7   #P:2\n", {.event = HISTDESK_LINE_SKIPPED}},
    {"##### CPU 3 buffer started ####\n", {.event = HISTDESK_LINE_SKIPPED}},
    {"a-1 [001] 2.000100: sched_waking: " WAKE, {.stamp = 2000100, .cpu = 1, .event = HISTDESK_WAKING}},
    {"CPU:1 [LOST 5 EVENTS]\n", {.event = HISTDESK_LINE_SKIPPED}},
    {"\n", {.event = HISTDESK_LINE_SKIPPED}},
    {"not a line\n", {.event = HISTDESK_LINE_BAD, .fault = 1}},
    {"CPU:1 [LOST 6 EVENTS\n", {.event = HISTDESK_LINE_BAD, .fault = 1}},
    {"<idle>-0 [001] d..2. 1.000100: sched_switch: prev_comm=s prev_pid=0 prev_prio=120 prev_state=R ==> next_comm=w "
     "next_pid=42 next_prio=19\n", {.stamp = 1000100, .cpu = 1, .event = HISTDESK_SWITCH}},
    {"a-1   (      9) [000] 3.000000: sched_wakeup: " WAKE, {.stamp = 3000000, .event = HISTDESK_WAKEUP}},
    {"a-1 [000] 3.000000: sched_wakeup_new: " WAKE, {.stamp = 3000000, .event = HISTDESK_WAKEUP_NEW}},
    {"a-1 [000] 3.000000: sched_waking: comm=w\n", {.event = HISTDESK_LINE_BAD, .fault = 4}},
    {"CPU:0 [LOST EVENTS]\n", {.event = HISTDESK_LINE_SKIPPED}},
    {"a-1 [8192] 1.000000: x: y\n", {.event = HISTDESK_LINE_BAD, .fault = 2}},
    {"a-1 [8191] 4294967295.999999: wakeup_latency: lat=1\n",
     {.stamp = 4294967295999999, .cpu = 8191, .event = HISTDESK_OTHER}},
    {"a-1 [000] 0.000000: x: y", {.event = HISTDESK_OTHER}},
};
enum { LINES = sizeof known / sizeof *known, HOLES = 3 };

static const histdesk_hole holes[HOLES] = {
    {4, 2000100, 1000100, 5, 1, true, true, true, true},
    {12, 3000000, 0, 0, 0, true, true, false, true},
    {2, 0, 0, 0, 3, false, false, false, true},
};

static char text[2048];
static size_t text_length;
static histdesk_text_line wanted[LINES];

static void write_text(void) {
    for (size_t at = 0; at < LINES; at++) {
        strcpy(text + text_length, known[at].line);
        text_length += strlen(known[at].line);
        wanted[at] = known[at].want;
        wanted[at].end = text_length;
    }
}

/* ---- Questions; the text has exactly its size on the heap, so that valgrind sees each byte read beside it. */

static uint32_t ask_lines(histdesk *desk, const char *bytes, size_t length, uint64_t *count) {
    uint8_t *own = malloc(length); /* also of no bytes */
    if (!own)
        abort();
    memcpy(own, bytes, length);
    uint32_t code = histdesk_lines(desk, own, length, count);
    free(own);
    return code;
}

static uint32_t ask_losses(histdesk *desk, const char *bytes, size_t length, histdesk_losses_read *read) {
    uint8_t *own = malloc(length);
    if (!own)
        abort();
    memcpy(own, bytes, length);
    uint32_t code = histdesk_losses(desk, own, length, read);
    free(own);
    return code;
}

static bool is_same_hole(const histdesk_hole *a, const histdesk_hole *b) {
    return a->line == b->line && a->after == b->after && a->before == b->before && a->count == b->count &&
           a->cpu == b->cpu && a->has_after == b->has_after && a->has_before == b->has_before &&
           a->has_count == b->has_count;
}

static bool is_read(const histdesk_losses_read *read, uint64_t count, uint64_t held, uint64_t written, bool has_written) {
    return read->holes == count && read->held == held && read->written == written && read->has_written == has_written;
}

/* Whether a copy from this place on, into room of this size, is exactly what is there, and nothing is written after it. */
static bool copies(histdesk *desk, size_t from, size_t room, bool is_of_holes) {
    size_t size = is_of_holes ? sizeof(histdesk_hole) : sizeof(histdesk_text_line);
    size_t there = is_of_holes ? HOLES : LINES;
    size_t want = from > there ? 0 : there - from;
    uint8_t *own = malloc(room * size + 1);
    bool holds;
    if (!own)
        abort();
    memset(own, 0xa5, room * size + 1);
    size_t count = is_of_holes ? histdesk_losses_copy(desk, from, (histdesk_hole *)own, room)
                               : histdesk_lines_copy(desk, from, (histdesk_text_line *)own, room);
    holds = count == (want < room ? want : room);
    for (size_t at = 0; holds && at < count; at++)
        holds = is_of_holes ? is_same_hole((histdesk_hole *)own + at, &holes[from + at])
                            : memcmp(own + at * size, &wanted[from + at], size) == 0;
    for (size_t at = count * size; holds && at <= room * size; at++)
        holds = own[at] == 0xa5;
    free(own);
    return holds;
}

static bool are_there(histdesk *desk) {
    return copies(desk, 0, LINES + 1, false) && copies(desk, 0, HOLES + 1, true);
}

static bool are_gone(histdesk *desk) {
    histdesk_text_line line;
    histdesk_hole hole;
    return histdesk_lines_copy(desk, 0, &line, 1) == 0 && histdesk_losses_copy(desk, 0, &hole, 1) == 0;
}

/* ---- Texts. */

static void each_kind(histdesk *desk) {
    uint64_t count = 77;
    histdesk_losses_read read = {.holes = 78};
    size_t wrong = 0;
    HOLDS(are_gone(desk));
    HOLDS(ask_lines(desk, text, text_length, &count) == HISTDESK_OK && count == LINES);
    HOLDS(ask_losses(desk, text, text_length, &read) == HISTDESK_OK && is_read(&read, HOLES, 7, 7, true));
    for (size_t from = 0; from <= LINES + 1; from++)
        for (size_t room = 0; room <= LINES + 1; room++)
            wrong += !copies(desk, from, room, false);
    for (size_t from = 0; from <= HOLES + 1; from++)
        for (size_t room = 0; room <= HOLES + 1; room++)
            wrong += !copies(desk, from, room, true);
    HOLDS(wrong == 0);
}

/* Each beginning of the text: the last line ends where the text ends, and is what it is when it stands alone. */
static void each_beginning(histdesk *desk) {
    size_t wrong = 0;
    for (size_t length = 0; length <= text_length; length++) {
        histdesk_text_line last, alone;
        size_t lines = 0;
        uint64_t count = 77;
        while (lines < LINES && wanted[lines].end <= length)
            lines++;
        size_t start = lines ? wanted[lines - 1].end : 0;
        wrong += ask_lines(desk, text + start, length - start, &count) != HISTDESK_OK || count != (start < length);
        bool has_more = count == 1 && histdesk_lines_copy(desk, 0, &alone, 1) == 1;
        wrong += ask_lines(desk, text, length, &count) != HISTDESK_OK || count != lines + has_more;
        if (lines)
            wrong += histdesk_lines_copy(desk, lines - 1, &last, 1) != 1 || memcmp(&last, &wanted[lines - 1], sizeof last) != 0;
        if (has_more) {
            alone.end += start;
            wrong += histdesk_lines_copy(desk, lines, &last, 1) != 1 || memcmp(&last, &alone, sizeof last) != 0;
            wrong += last.end != length;
        }
    }
    HOLDS(wrong == 0);
}

static void lengths(histdesk *desk) {
    enum { MANY = 100000 };
    static char long_line[4098], many[MANY * 20];
    static const char short_line[] = "a-1 [001] 1.000002:\n";
    histdesk_text_line line;
    histdesk_losses_read read = {.holes = 78};
    uint64_t count = 77;
    HOLDS(ask_lines(desk, text, 0, &count) == HISTDESK_OK && count == 0);
    HOLDS(ask_losses(desk, text, 0, &read) == HISTDESK_OK && is_read(&read, 0, 0, 0, false) && are_gone(desk));
    memset(long_line, '#', sizeof long_line);
    HOLDS(ask_lines(desk, long_line, 4096, &count) == HISTDESK_OK && histdesk_lines_copy(desk, 0, &line, 1) == 1);
    HOLDS(count == 1 && line.event == HISTDESK_LINE_SKIPPED && line.end == 4096);
    HOLDS(ask_lines(desk, long_line, 4097, &count) == HISTDESK_OK && histdesk_lines_copy(desk, 0, &line, 1) == 1);
    HOLDS(count == 1 && line.event == HISTDESK_LINE_BAD && line.fault == 7 && line.end == 4097);
    for (size_t at = 0; at < MANY; at++)
        memcpy(many + at * 20, short_line, 20);
    HOLDS(ask_lines(desk, many, sizeof many, &count) == HISTDESK_OK && count == MANY);
    HOLDS(histdesk_lines_copy(desk, MANY - 1, &line, 1) == 1 && line.end == sizeof many && line.stamp == 1000002);
}

/* ---- The desk, its stream and its other answers. */

static void beside(histdesk *desk) {
    static const char trace[] = "a-1 [000] 1.000100: sched_waking: " WAKE;
    uint64_t count = 77;
    histdesk_losses_read read;
    histdesk_refusal refusal;
    histdesk_place place;
    HOLDS(histdesk_load(desk, (const uint8_t *)trace, sizeof trace - 1, &count) == HISTDESK_OK && count == 1);
    HOLDS(histdesk_events(desk, &count) == HISTDESK_OK && histdesk_waits_new(desk, false) == HISTDESK_OK);
    HOLDS(histdesk_strike(desk, 7, 1) == HISTDESK_NO_LANE);
    HOLDS(ask_lines(desk, text, text_length, &count) == HISTDESK_OK && count == LINES);
    HOLDS(histdesk_refused(desk, &refusal) == HISTDESK_OK && refusal.number == HISTDESK_OK);
    HOLDS(histdesk_strike(desk, 7, 1) == HISTDESK_NO_LANE);
    HOLDS(ask_losses(desk, text, text_length, &read) == HISTDESK_OK && read.holes == HOLES);
    HOLDS(histdesk_refused(desk, &refusal) == HISTDESK_OK && refusal.number == HISTDESK_OK);
    HOLDS(histdesk_places_copy(desk, 0, &place, 1) == 1 && place.stamp == 1000100);
    HOLDS(histdesk_waits_feed(desk, (const uint8_t *)trace, sizeof trace - 1, &count) == HISTDESK_OK);
    HOLDS(histdesk_strike(desk, 0, 1) == HISTDESK_OK && histdesk_unload(desk, 0, &count) == HISTDESK_OK && are_there(desk));
    histdesk_forget(desk);
    HOLDS(are_gone(desk));
}

static void closed(void) {
    histdesk none = {0};
    uint64_t count = 77;
    histdesk_losses_read read = {.holes = 78};
    HOLDS(histdesk_lines(&none, (const uint8_t *)text, text_length, &count) == HISTDESK_CLOSED && count == 77);
    HOLDS(histdesk_losses(&none, (const uint8_t *)text, text_length, &read) == HISTDESK_CLOSED && read.holes == 78);
    HOLDS(are_gone(&none) && none.at == NULL);
}

/* ---- Growths that are refused. */

#ifndef HEAP_IS_PLAIN

static uint64_t refuse_at;

static bool refuses(void) {
    return heap.growths == refuse_at;
}

static bool is_refused(histdesk *desk) {
    histdesk_refusal refusal;
    return histdesk_refused(desk, &refusal) == HISTDESK_OK && refusal.number == HISTDESK_MEMORY;
}

/* Asks about another text with a growth refused: memory ran out, and what was asked for before is there, or it didn't. */
static bool survives(histdesk *desk, bool is_of_holes, bool *has_run_out) {
    static const char other[] = "CPU:2 [LOST 1 EVENTS]\n";
    uint64_t count = 77;
    histdesk_losses_read read = {.holes = 78};
    heap = (heap_state){.is_counting = true, .refuses = refuses};
    uint32_t code = is_of_holes ? histdesk_losses(desk, (const uint8_t *)other, sizeof other - 1, &read)
                                : histdesk_lines(desk, (const uint8_t *)other, sizeof other - 1, &count);
    heap.is_counting = false;
    *has_run_out = code == HISTDESK_MEMORY;
    if (code == HISTDESK_OK)
        return is_of_holes ? read.holes == 1 : count == 1;
    return *has_run_out && is_refused(desk) && are_there(desk) && count == 77 && read.holes == 78;
}

static void refused_growths(histdesk *desk) {
    for (int is_of_holes = 0; is_of_holes < 2; is_of_holes++) {
        size_t wrong = 0, ran_out = 0;
        bool has_run_out = true;
        for (refuse_at = 1; has_run_out && refuse_at < 100; refuse_at++) {
            uint64_t count;
            histdesk_losses_read read;
            wrong += ask_lines(desk, text, text_length, &count) != HISTDESK_OK;
            wrong += ask_losses(desk, text, text_length, &read) != HISTDESK_OK;
            wrong += !survives(desk, is_of_holes, &has_run_out);
            ran_out += has_run_out;
        }
        HOLDS(wrong == 0 && ran_out > 0);
    }
}

/* What is held of the heap is given back. */
static void freed(void) {
    histdesk desk = {0};
    uint64_t count;
    histdesk_losses_read read;
    heap = (heap_state){.is_counting = true};
    bool holds = histdesk_new(&desk) == HISTDESK_OK;
    int64_t empty = heap.blocks;
    holds &= histdesk_lines(&desk, (const uint8_t *)text, text_length, &count) == HISTDESK_OK && heap.blocks == empty + 1;
    holds &= histdesk_losses(&desk, (const uint8_t *)text, text_length, &read) == HISTDESK_OK && heap.blocks == empty + 2;
    histdesk_forget(&desk);
    holds &= heap.blocks == empty && histdesk_lines(&desk, (const uint8_t *)text, text_length, &count) == HISTDESK_OK;
    holds &= histdesk_losses(&desk, (const uint8_t *)text, text_length, &read) == HISTDESK_OK && heap.blocks == empty + 2;
    histdesk_free(&desk);
    heap.is_counting = false;
    HOLDS(holds && heap.blocks == 0);
}

#endif

int main(void) {
    histdesk desk = {0};
    write_text();
    if (histdesk_new(&desk) != HISTDESK_OK)
        return 1;
    each_kind(&desk);
    each_beginning(&desk);
    lengths(&desk);
    beside(&desk);
    closed();
#ifndef HEAP_IS_PLAIN
    refused_growths(&desk);
    freed();
#endif
    histdesk_free(&desk);
    printf("%u of %u tests hold\n", good, tests);
    return good < tests;
}
