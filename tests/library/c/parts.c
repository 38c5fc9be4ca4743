/* parts: a text is read in parts, each by a stream of its own desk, and the parts are joined in order. The text is random:
 * tasks are woken, created and switched on three CPUs, many events have one stamp, some events are lost, and some lines
 * can't be read. It is cut at random into 2 to 5 parts where the stamp changes. What the parts and the joins tell, at places
 * that are moved as the header says, is compared with what one stream tells of the whole text: each wait once, all holes, and
 * all that was read. Each reason for which a part isn't joined comes, except that of 4,294,967,295 lines, and both streams go on as
 * before; each growth of memory is refused in turn; and the parts are read side by side in threads. What is wrong is printed
 * with its line in this file; the last line says how many of the tests hold. */
#include "heap.h"
#include "histdesk.h"
#include "holds.h"

#include <inttypes.h>
#include <pthread.h>
#include <stdio.h>
#include <stdlib.h>
#include <string.h>

#ifdef HEAP_IS_PLAIN /* for valgrind, which has a heap of its own: no growth is refused or counted */
heap_state heap;
#endif

enum { LINES = 400, CPUS = 3, TASKS = 9, PARTS = 5, MOST_WAITS = LINES, MOST_HOLES = 2 * LINES, EVERY_CPU = 8192 };

/* ---- A text. */

static char text[LINES * 160];
static size_t text_length, seams[LINES], seam_count;

static uint32_t seed;

/* A number below this one. */
static uint32_t below(uint32_t end) {
    seed = seed * 1664525 + 1013904223;
    return (seed >> 8) % end;
}

/* Writes a text. A CPU that lost events has an event soon after, so that few places to cut lie in between. */
static void write_text(uint32_t number) {
    uint32_t running[CPUS] = {0};
    uint64_t stamp = 1000000;
    int lost = -1;
    seed = number;
    text_length = seam_count = 0;
    for (size_t at = 0; at < LINES; at++) {
        uint32_t cpu = lost < 0 ? below(CPUS) : (uint32_t)lost, task = 1 + below(TASKS), kind = lost < 0 ? below(20) : 1;
        char *to = text + text_length;
        uint32_t step = below(3);
        stamp += step;
        if (step && lost < 0)
            seams[seam_count++] = text_length;
        lost = kind == 0 ? (int)cpu : -1;
        if (kind == 0)
            text_length += (size_t)sprintf(to, "CPU:%" PRIu32 " [LOST %" PRIu32 " EVENTS]\n", cpu, task);
        else if (kind == 2 && step)
            text_length += (size_t)sprintf(to, "not a line\n");
        else {
            to += sprintf(to, "t-%" PRIu32 " [%03" PRIu32 "] %" PRIu64 ".%06" PRIu64 ": ", running[cpu], cpu, stamp / 1000000,
                          stamp % 1000000);
            if (kind < 8)
                to += sprintf(to, "sched_waking: comm=t%" PRIu32 " pid=%" PRIu32 " prio=9 target_cpu=000\n", task, task);
            else if (kind == 8)
                to += sprintf(to, "sched_wakeup: comm=t%" PRIu32 " pid=%" PRIu32 " prio=9 target_cpu=000\n", task, task);
            else if (kind == 9)
                to += sprintf(to, "sched_wakeup_new: comm=t%" PRIu32 " pid=%" PRIu32 " prio=9 target_cpu=000\n", task, task);
            else {
                uint32_t next = below(4) ? task : 0;
                to += sprintf(to, "sched_switch: prev_comm=t prev_pid=%" PRIu32 " prev_prio=9 prev_state=%s ==> ", running[cpu],
                              (const char *[]){"R", "R+", "S"}[below(3)]);
                to += sprintf(to, "next_comm=t%" PRIu32 " next_pid=%" PRIu32 " next_prio=9\n", next, next);
                running[cpu] = next;
            }
            text_length = (size_t)(to - text);
        }
    }
}

/* ---- What is told of it. */

typedef struct {
    histdesk_wait waits[MOST_WAITS];
    size_t count;
    histdesk_hole holes[MOST_HOLES];
    histdesk_waits_read read;
} answer;

/* Copies the waits that were told, `count` of them. */
static bool takes(histdesk *desk, uint64_t count, answer *own) {
    size_t room = MOST_WAITS - own->count;
    if (count > room || histdesk_waits_copy(desk, 0, own->waits + own->count, room) != count)
        return false;
    own->count += count;
    return true;
}

/* Feeds a part of the text in pieces of this size. Returns the first code that isn't 0, or HISTDESK_CLOSED if a copy is
 * wrong. */
static uint32_t feeds(histdesk *desk, size_t from, size_t end, size_t cut, answer *own) {
    uint64_t count;
    uint32_t code = HISTDESK_OK;
    for (size_t at = from; code == HISTDESK_OK && at < end; at += cut) {
        code = histdesk_waits_feed(desk, (const uint8_t *)text + at, end - at < cut ? end - at : cut, &count);
        if (code == HISTDESK_OK && !takes(desk, count, own))
            return HISTDESK_CLOSED;
    }
    return code;
}

static uint32_t ends(histdesk *desk, answer *own) {
    uint64_t count;
    uint32_t code = histdesk_waits_finish(desk, &own->read, &count);
    if (code != HISTDESK_OK)
        return code;
    memset(own->holes, 0, sizeof own->holes);
    bool has_holes = histdesk_waits_holes(desk, 0, own->holes, MOST_HOLES) == own->read.holes;
    return has_holes && takes(desk, count, own) ? HISTDESK_OK : HISTDESK_CLOSED;
}

/* Leaves some wakings out, if that is wanted. */
static uint32_t leaves_out(histdesk *desk, bool wanted) {
    static const char filter[] = "pid < 4";
    return wanted ? histdesk_waits_without(desk, HISTDESK_WAKING, (const uint8_t *)filter, sizeof filter - 1) : HISTDESK_OK;
}

/* One stream reads the whole text. */
static uint32_t reads_whole(histdesk *desk, bool without, answer *own) {
    own->count = 0;
    uint32_t code = histdesk_waits_new(desk, true);
    if (code == HISTDESK_OK)
        code = leaves_out(desk, without);
    if (code == HISTDESK_OK)
        code = feeds(desk, 0, text_length, 1000, own);
    return code == HISTDESK_OK ? ends(desk, own) : code;
}

/* ---- Parts. */

typedef struct {
    histdesk desk;
    size_t from, end;
    bool without;
    answer own;
    uint32_t code;
} part;

static part parts[PARTS];

/* Reads a part, the first one as the beginning of the text. */
static void *reads_part(void *given) {
    part *one = given;
    one->own.count = 0;
    one->code = one == parts ? histdesk_waits_new(&one->desk, true) : histdesk_waits_part(&one->desk, true);
    if (one->code == HISTDESK_OK)
        one->code = leaves_out(&one->desk, one->without);
    if (one->code == HISTDESK_OK)
        one->code = feeds(&one->desk, one->from, one->end, 1 + one->from % 300, &one->own);
    return NULL;
}

/* Moves the places of a part's waits by how many events each CPU had before it. */
static void move_behind(answer *own, const uint32_t *before) {
    for (size_t at = 0; at < own->count; at++) {
        histdesk_wait *wait = &own->waits[at];
        wait->ended.line += before[wait->ended.cpu];
        wait->began.line += before[wait->began.cpu];
    }
}

/* Adds the waits of one answer to another one. */
static void add(answer *own, const answer *more) {
    memcpy(own->waits + own->count, more->waits, more->count * sizeof *more->waits);
    own->count += more->count;
}

/* Joins a part that was read. Adds the waits that the join tells, and those that the part told. */
static uint32_t joins(part *one, answer *own) {
    static uint32_t before[EVERY_CPU];
    static answer told;
    uint64_t count = 0;
    if (histdesk_waits_events(&parts->desk, 0, before, EVERY_CPU) != EVERY_CPU)
        return HISTDESK_CLOSED;
    uint32_t code = histdesk_waits_join(&parts->desk, &one->desk, &count);
    if (code != HISTDESK_OK)
        return code;
    told.count = 0;
    if (!takes(&parts->desk, count, &told))
        return HISTDESK_CLOSED;
    if (histdesk_waits_feed(&one->desk, (const uint8_t *)text, 1, &count) != HISTDESK_NO_STREAM) /* it has no stream any more */
        return HISTDESK_CLOSED;
    for (size_t at = 1; at < told.count; at++) /* in the order of their ends */
        if (told.waits[at - 1].ended.stamp > told.waits[at].ended.stamp)
            return HISTDESK_CLOSED;
    add(own, &told);
    move_behind(&one->own, before);
    add(own, &one->own);
    return HISTDESK_OK;
}

/* Cuts the text at random into so many parts, and reads them, in threads or one after the other. */
static uint32_t reads_parts(size_t many, bool without, bool in_threads) {
    pthread_t threads[PARTS];
    size_t last = 0;
    for (size_t at = 0; at < many; at++) {
        size_t left = seam_count - last - (many - at - 1);
        parts[at].without = without;
        parts[at].from = at == 0 ? 0 : parts[at - 1].end;
        last += at + 1 < many ? 1 + below((uint32_t)(left / (many - at))) : 0;
        parts[at].end = at + 1 < many ? seams[last] : text_length;
        if (!in_threads)
            reads_part(&parts[at]);
        else if (pthread_create(&threads[at], NULL, reads_part, &parts[at]) != 0)
            abort();
    }
    for (size_t at = 0; in_threads && at < many; at++)
        pthread_join(threads[at], NULL);
    for (size_t at = 0; at < many; at++)
        if (parts[at].code != HISTDESK_OK)
            return parts[at].code;
    return HISTDESK_OK;
}

/* Joins the parts that were read. */
static uint32_t joins_all(size_t many, answer *own) {
    uint32_t code = HISTDESK_OK;
    own->count = 0;
    add(own, &parts->own);
    for (size_t at = 1; code == HISTDESK_OK && at < many; at++)
        code = joins(&parts[at], own);
    return code == HISTDESK_OK ? ends(&parts->desk, own) : code;
}

static int by_end(const void *a, const void *b) {
    const histdesk_place *one = &((const histdesk_wait *)a)->ended, *other = &((const histdesk_wait *)b)->ended;
    if (one->stamp != other->stamp)
        return one->stamp < other->stamp ? -1 : 1;
    if (one->cpu != other->cpu)
        return one->cpu < other->cpu ? -1 : 1;
    return (one->line > other->line) - (one->line < other->line);
}

static bool is_same_read(const histdesk_waits_read *a, const histdesk_waits_read *b) {
    return a->lines == b->lines && a->bad == b->bad && a->bad_line == b->bad_line && a->bad_fault == b->bad_fault &&
           a->missing == b->missing && memcmp(&a->missing_at, &b->missing_at, sizeof a->missing_at) == 0 &&
           a->holes == b->holes && a->has_first == b->has_first && a->first == b->first && a->last == b->last;
}

/* Whether an answer has the same waits, in whatever order, and the same was read, with the same holes. */
static bool is_same(answer *own, const answer *whole) {
    qsort(own->waits, own->count, sizeof *own->waits, by_end);
    return own->count == whole->count && memcmp(own->waits, whole->waits, own->count * sizeof *own->waits) == 0 &&
           is_same_read(&own->read, &whole->read) && memcmp(own->holes, whole->holes, sizeof own->holes) == 0;
}

static answer whole, joined;

static void random_parts(bool in_threads) {
    size_t wrong = 0, told = 0, told_apart = 0;
    for (uint32_t number = 1; number <= 60; number++) {
        bool without = number % 3 == 0;
        size_t many = 2 + number % (PARTS - 1);
        write_text(number);
        wrong += reads_whole(&parts->desk, without, &whole) != HISTDESK_OK || whole.count < 20;
        wrong += reads_parts(many, without, in_threads) != HISTDESK_OK;
        for (size_t at = 0; at < many; at++)
            told_apart += parts[at].own.count;
        wrong += joins_all(many, &joined) != HISTDESK_OK || !is_same(&joined, &whole);
        told += joined.count;
    }
    HOLDS(wrong == 0 && told > told_apart + 100);
}

/* ---- Parts that are not joined. */

#define WAKING(stamp, task) "a-1 [000] " stamp ": sched_waking: comm=t pid=" task " prio=9 target_cpu=000\n"
#define SWITCH(stamp, task) \
    "a-1 [000] " stamp ": sched_switch: prev_comm=a prev_pid=1 prev_prio=9 prev_state=S ==> next_comm=t next_pid=" task \
    " next_prio=9\n"
static const char front[] = WAKING("1.000001", "7");
static const char back[] = SWITCH("1.000002", "7") WAKING("1.000003", "8") SWITCH("1.000004", "8");

static uint32_t feed(histdesk *desk, const char *piece) {
    uint64_t count;
    return histdesk_waits_feed(desk, (const uint8_t *)piece, strlen(piece), &count);
}

static bool is_refused(histdesk *desk, uint32_t number, uint32_t fault) {
    histdesk_refusal refusal = {.number = HISTDESK_CLOSED, .line = 9};
    return histdesk_waits_refused(desk, &refusal) == HISTDESK_OK && refusal.number == number && refusal.fault == fault &&
           refusal.line == 0 && refusal.filter_fault == 0 && !refusal.has_place;
}

/* Two desks, with the beginning of a text in one and a part of it in the other. */
static bool begins(histdesk *desk, histdesk *other) {
    return histdesk_waits_new(desk, false) == HISTDESK_OK && histdesk_waits_part(other, false) == HISTDESK_OK &&
           feed(desk, front) == HISTDESK_OK && feed(other, back) == HISTDESK_OK;
}

/* Whether a join is refused like this, and writes nothing. */
static bool refuses(histdesk *desk, histdesk *other, uint32_t code, uint32_t fault) {
    uint64_t count = 77;
    return histdesk_waits_join(desk, other, &count) == code && count == 77 && is_refused(desk, code, fault);
}

/* Whether both go on as before: the part is joined, and has the wait that the text before it began. */
static bool go_on(histdesk *desk, histdesk *other) {
    histdesk_wait wait;
    histdesk_waits_read read;
    uint64_t count;
    return histdesk_waits_join(desk, other, &count) == HISTDESK_OK && count == 1 && histdesk_waits_copy(desk, 0, &wait, 1) == 1 &&
           wait.pid == 7 && wait.began.stamp == 1000001 && wait.ended.stamp == 1000002 && wait.ended.line == 2 &&
           histdesk_waits_finish(desk, &read, &count) == HISTDESK_OK && count == 1 && read.lines == 4;
}

static void not_joined(histdesk *desk, histdesk *other) {
    uint64_t count = 77;
    histdesk_waits_read read = {.lines = 78};
    histdesk_waits_free(desk);
    histdesk_waits_free(other);
    HOLDS(refuses(desk, other, HISTDESK_NO_STREAM, 0));
    HOLDS(histdesk_waits_new(desk, false) == HISTDESK_OK && refuses(desk, other, HISTDESK_NO_STREAM, 0));
    HOLDS(histdesk_waits_new(other, false) == HISTDESK_OK && refuses(desk, other, HISTDESK_NO_STREAM, 0));
    HOLDS(histdesk_waits_finish(other, &read, &count) == HISTDESK_OK && refuses(desk, other, HISTDESK_NO_STREAM, 0));
    HOLDS(refuses(other, desk, HISTDESK_NO_STREAM, 0));
    HOLDS(begins(desk, other) && refuses(other, desk, HISTDESK_NO_STREAM, 0) && go_on(desk, other));
    /* What a part doesn't do. */
    count = 77, read.lines = 78;
    HOLDS(begins(desk, other) && histdesk_waits_finish(other, &read, &count) == HISTDESK_NO_STREAM);
    HOLDS(count == 77 && read.lines == 78 && is_refused(other, HISTDESK_NO_STREAM, 0));
    HOLDS(histdesk_waits_sum_up(other) == HISTDESK_NO_STREAM && is_refused(other, HISTDESK_NO_STREAM, 0));
    HOLDS(histdesk_waits_holes(other, 0, &(histdesk_hole){0}, 1) == 0 && go_on(desk, other));
    /* Each reason, and then the two go on. */
    HOLDS(begins(desk, other) && feed(desk, "#") == HISTDESK_OK && refuses(desk, other, HISTDESK_NOT_JOINED, HISTDESK_UNENDED));
    HOLDS(feed(desk, "\n") == HISTDESK_OK && histdesk_waits_join(desk, other, &count) == HISTDESK_OK && count == 1);
    HOLDS(begins(desk, other) && histdesk_waits_new(desk, true) == HISTDESK_OK && feed(desk, front) == HISTDESK_OK);
    HOLDS(refuses(desk, other, HISTDESK_NOT_JOINED, HISTDESK_DIFFERS));
    HOLDS(histdesk_waits_new(desk, false) == HISTDESK_OK && leaves_out(desk, true) == HISTDESK_OK);
    HOLDS(refuses(desk, other, HISTDESK_NOT_JOINED, HISTDESK_DIFFERS));
    HOLDS(histdesk_waits_new(desk, false) == HISTDESK_OK && histdesk_waits_sum_up(desk) == HISTDESK_OK);
    HOLDS(feed(desk, front) == HISTDESK_OK && refuses(desk, other, HISTDESK_NOT_JOINED, HISTDESK_SUMMED));
    HOLDS(histdesk_waits_new(desk, false) == HISTDESK_OK && feed(desk, front) == HISTDESK_OK && go_on(desk, other));
    HOLDS(begins(desk, other) && feed(desk, WAKING("1.000002", "9")) == HISTDESK_OK);
    HOLDS(refuses(desk, other, HISTDESK_NOT_JOINED, HISTDESK_OVERLAPS));
    HOLDS(begins(desk, other) && feed(desk, "CPU:1 [LOST 2 EVENTS]\n") == HISTDESK_OK);
    HOLDS(refuses(desk, other, HISTDESK_NOT_JOINED, HISTDESK_TORN));
    HOLDS(begins(desk, other) && feed(other, "not a line\n") == HISTDESK_BAD_LINE);
    HOLDS(refuses(desk, other, HISTDESK_NOT_JOINED, HISTDESK_PART_REFUSED));
    HOLDS(feed(other, back) == HISTDESK_BAD_LINE && histdesk_waits_part(other, false) == HISTDESK_OK);
    HOLDS(feed(other, back) == HISTDESK_OK && go_on(desk, other));
    HOLDS(begins(desk, other) && feed(desk, "not a line\n") == HISTDESK_BAD_LINE);
    HOLDS(histdesk_waits_join(desk, other, &count) == HISTDESK_BAD_LINE);
    HOLDS(feed(desk, front) == HISTDESK_BAD_LINE && histdesk_waits_new(desk, false) == HISTDESK_OK);
    HOLDS(feed(desk, front) == HISTDESK_OK && go_on(desk, other));
}

static void closed(histdesk *desk, histdesk *other) {
    histdesk none = {0}, nothing = {0};
    uint64_t count = 77;
    HOLDS(begins(desk, other) && histdesk_waits_part(&none, false) == HISTDESK_CLOSED);
    HOLDS(histdesk_waits_join(&none, other, &count) == HISTDESK_CLOSED);
    HOLDS(histdesk_waits_join(desk, &none, &count) == HISTDESK_CLOSED);
    HOLDS(histdesk_waits_join(&none, &nothing, &count) == HISTDESK_CLOSED && count == 77 && !none.at && !nothing.at);
    HOLDS(go_on(desk, other));
}

/* Parts of nothing, and a part of which nothing is told. */
static void small(histdesk *desk, histdesk *other) {
    uint64_t count = 77;
    histdesk_waits_read read;
    HOLDS(histdesk_waits_new(desk, false) == HISTDESK_OK && histdesk_waits_part(other, false) == HISTDESK_OK);
    HOLDS(histdesk_waits_join(desk, other, &count) == HISTDESK_OK && count == 0);
    HOLDS(feed(desk, front) == HISTDESK_OK && histdesk_waits_part(other, false) == HISTDESK_OK);
    HOLDS(feed(other, "# ") == HISTDESK_OK);
    HOLDS(histdesk_waits_join(desk, other, &count) == HISTDESK_OK && count == 0 && feed(desk, "a comment\n") == HISTDESK_OK);
    HOLDS(histdesk_waits_part(other, false) == HISTDESK_OK && feed(other, back) == HISTDESK_OK);
    HOLDS(histdesk_waits_join(desk, other, &count) == HISTDESK_OK && count == 1);
    HOLDS(histdesk_waits_finish(desk, &read, &count) == HISTDESK_OK && count == 1 && read.lines == 5);
}

/* ---- Growths that are refused. */

#ifndef HEAP_IS_PLAIN

static uint64_t refuse_at;
static bool is_for_good;

static bool is_refused_growth(void) {
    return heap.growths == refuse_at || (is_for_good && heap.growths > refuse_at);
}

/* Whether memory that ran out in the text's stream stays so, and a part that was joined then is gone. */
static bool stays_refused(void) {
    uint64_t count = 77;
    histdesk_wait wait;
    histdesk_waits_read read;
    return histdesk_waits_copy(&parts->desk, 0, &wait, 1) == 0 &&
           histdesk_waits_finish(&parts->desk, &read, &count) == HISTDESK_MEMORY &&
           histdesk_waits_join(&parts->desk, &parts[1].desk, &count) == HISTDESK_MEMORY && count == 77;
}

/* Reads and joins once with a growth refused, or with it and all after it refused: all is told, or memory ran out. */
static bool survives(bool *has_run_out, size_t *in_joins) {
    heap.growths = 0;
    heap.is_counting = true;
    seed = 1;
    uint32_t code = reads_parts(3, true, false), later = code;
    if (code == HISTDESK_OK)
        later = joins_all(3, &joined);
    heap.is_counting = false;
    *has_run_out = later == HISTDESK_MEMORY;
    *in_joins += code == HISTDESK_OK && *has_run_out;
    if (later == HISTDESK_OK)
        return is_same(&joined, &whole);
    return *has_run_out && (code != HISTDESK_OK || stays_refused());
}

static void refused_growths(void) {
    size_t wrong = 0, ran_out = 0, in_joins = 0;
    write_text(6);
    for (int way = 0; way < 2; way++) {
        bool has_run_out = true;
        is_for_good = way == 1;
        for (refuse_at = 1; has_run_out && refuse_at < 1000; refuse_at++) {
            heap.refuses = NULL;
            wrong += reads_whole(&parts->desk, true, &whole) != HISTDESK_OK;
            for (size_t at = 0; at < 3; at++)
                histdesk_waits_free(&parts[at].desk);
            heap.refuses = is_refused_growth;
            wrong += !survives(&has_run_out, &in_joins);
            heap.refuses = NULL;
            ran_out += has_run_out;
        }
    }
    HOLDS(wrong == 0 && ran_out > 30 && in_joins > 4);
}

/* What is held of the heap is given back. */
static void freed(void) {
    histdesk desk = {0}, other = {0};
    uint64_t count;
    bool holds = true;
    heap.blocks = 0;
    heap.refuses = NULL;
    heap.is_counting = true;
    holds &= histdesk_new(&desk) == HISTDESK_OK && histdesk_new(&other) == HISTDESK_OK;
    int64_t empty = heap.blocks;
    holds &= begins(&desk, &other) && heap.blocks > empty;
    histdesk_waits_free(&other);
    holds &= begins(&desk, &other) && histdesk_waits_join(&desk, &other, &count) == HISTDESK_OK;
    histdesk_waits_free(&desk);
    histdesk_waits_free(&other);
    holds &= heap.blocks == empty && begins(&desk, &other);
    histdesk_free(&desk);
    histdesk_free(&other);
    heap.is_counting = false;
    HOLDS(holds && heap.blocks == 0);
}

#endif

int main(void) {
    for (size_t at = 0; at < PARTS; at++)
        if (histdesk_new(&parts[at].desk) != HISTDESK_OK)
            return 1;
    random_parts(false);
    random_parts(true);
    not_joined(&parts[0].desk, &parts[1].desk);
    closed(&parts[0].desk, &parts[1].desk);
    small(&parts[0].desk, &parts[1].desk);
#ifndef HEAP_IS_PLAIN
    refused_growths();
    freed();
#endif
    for (size_t at = 0; at < PARTS; at++)
        histdesk_free(&parts[at].desk);
    printf("%u of %u tests hold\n", good, tests);
    return good < tests;
}
