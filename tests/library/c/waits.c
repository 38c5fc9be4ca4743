/* waits: the text of a recording with each kind of wait, hole and odd line, read by a stream. What is wanted was worked out
 * by hand. The text is cut into pieces of each size; lines that can't be read are skipped or refused; each code comes, except
 * that of 4,294,967,295 lines; waits and holes are copied into room of each size, with nothing written beside it; each growth
 * of memory is refused in turn; and two threads read with a desk each. Short texts have holes that no line reports, and a wait
 * that begins before a sleep. What is wrong is printed with its line in this file; the last line says how many of the tests
 * hold. */
#include "heap.h"
#include "histdesk.h"
#include "holds.h"

#include <inttypes.h>
#include <pthread.h>
#include <stdio.h>
#include <stdlib.h>
#include <string.h>

#ifdef HEAP_IS_PLAIN /* for valgrind, which has a heap of its own: no growth is refused or counted */
heap_state heap;
#endif

#define IDLE "<idle>-0 [00"
#define SWITCH "sched_switch: prev_comm="
#define FRONT \
    "# entries-in-buffer/entries-written: 7/9   #P:2\n" \
    IDLE "0] 1.000100: sched_waking: comm=w pid=42 prio=120 target_cpu=000\n" \
    IDLE "0] 1.000150: " SWITCH "s prev_pid=0 prev_prio=120 prev_state=R ==> next_comm=w next_pid=42 next_prio=19\n" \
    "w-42 [000] 1.000200: sched_wakeup_new: comm=n pid=43 prio=120 target_cpu=000\n" \
    "w-42 [000] 1.000300: " SWITCH "w prev_pid=42 prev_prio=19 prev_state=R+ ==> next_comm=n next_pid=43 next_prio=120\n" \
    "CPU:0 [LOST 5 EVENTS]\n" \
    "n-43 [000] 1.000400: sched_waking: comm=w pid=42 prio=19 target_cpu=000\n"
#define BACK \
    "n-43 [000] 1.000500: " SWITCH "n prev_pid=43 prev_prio=120 prev_state=R ==> next_comm=w next_pid=42 next_prio=19\n" \
    IDLE "1] 1.000500: sched_waking: comm=x pid=44 prio=5 target_cpu=001\n" \
    "CPU:1 [LOST EVENTS]\n" \
    "w-42 [000] 1.000600: sched_waking: comm=y pid=45 prio=1 target_cpu=000\n" \
    IDLE "1] 1.000700: " SWITCH "s prev_pid=0 prev_prio=120 prev_state=R ==> next_comm=x next_pid=44 next_prio=5\n" \
    "w-42 [000] 1.000800: " SWITCH "w prev_pid=42 prev_prio=19 prev_state=S ==> next_comm=n next_pid=43 next_prio=1\n" \
    "z-77 [001] 1.000900: x: y\n" \
    "# CPU 1: 0 events overwritten\n" \
    "CPU:1 [LOST 3 EVENTS]"
#define SWITCHED(task, cpu, us, comm, pid, state, next_comm, next_pid) \
    task " [00" cpu "] 1.0000" us ": " SWITCH comm " prev_pid=" pid " prev_prio=9 prev_state=" state " ==> next_comm=" next_comm \
    " next_pid=" next_pid " next_prio=9\n"
static const char text[] = FRONT "not a line\n" BACK;
static const char good_text[] = FRONT BACK; /* as a desk loads it */

enum { WAITS = 5, HOLES = 3, BAD_LINE = 8, CPUS = 8192 };

static const histdesk_wait wanted[WAITS] = {
    {{1000150, 0, 2}, {1000100, 0, 1}, 42, 19, HISTDESK_WOKEN, 0, 0, 0, {"w", 1}},
    {{1000300, 0, 4}, {1000200, 0, 3}, 43, 120, HISTDESK_CREATED, 0, 0, 0, {"n", 1}},
    {{1000500, 0, 6}, {1000400, 0, 5}, 42, 19, HISTDESK_WOKEN, 0, 0, 0, {"w", 1}},
    {{1000700, 1, 2}, {1000500, 1, 1}, 44, 5, HISTDESK_WOKEN, 0, 0, 0, {"x", 1}},
    {{1000800, 0, 8}, {1000500, 0, 6}, 43, 1, HISTDESK_PREEMPTED, 0, 0, 0, {"n", 1}},
};
static const uint32_t doubts[WAITS] = {HISTDESK_SURE, HISTDESK_SURE, HISTDESK_SURE, HISTDESK_DOUBTFUL, HISTDESK_LIKELY};
static const histdesk_hole holes[HOLES] = {
    {6, 1000300, 1000400, 5, 0, true, true, true, true},
    {11, 1000500, 1000700, 0, 1, true, true, false, true},
    {17, 1000900, 0, 3, 1, true, false, true, true},
};
/* The wait of task 42 if nothing wakes it: it was left while it could run, and runs again. */
static const histdesk_wait unwoken = {
    {1000500, 0, 6}, {1000300, 0, 4}, 42, 19, HISTDESK_PREEMPTED, 0, 0, 0, {"w", 1},
};
static const histdesk_waits_read wanted_read = {
    .lines = 17, .bad = 1, .bad_line = BAD_LINE, .bad_fault = 1, .missing = 1, .missing_at = {1000900, 1, 3}, .holes = HOLES,
    .has_written = true, .held = 7, .written = 9, .has_first = true, .first = 1000100, .last = 1000900,
};

/* What a call without room is given. */
static histdesk_wait no_wait;
static histdesk_hole no_hole;

/* ---- A text that is read. */

typedef struct {
    histdesk_wait waits[WAITS + 1];
    size_t count;
    histdesk_waits_read read;
} answer;

static bool is_same_hole(const histdesk_hole *a, const histdesk_hole *b) {
    return a->line == b->line && a->after == b->after && a->before == b->before && a->count == b->count &&
           a->cpu == b->cpu && a->has_after == b->has_after && a->has_before == b->has_before &&
           a->has_count == b->has_count && a->has_cpu == b->has_cpu;
}

static bool is_same_read(const histdesk_waits_read *a, const histdesk_waits_read *b) {
    return a->lines == b->lines && a->bad == b->bad && a->bad_line == b->bad_line && a->bad_fault == b->bad_fault &&
           a->missing == b->missing && memcmp(&a->missing_at, &b->missing_at, sizeof a->missing_at) == 0 &&
           a->holes == b->holes && a->has_written == b->has_written && a->held == b->held && a->written == b->written &&
           a->has_first == b->has_first && a->first == b->first && a->last == b->last;
}

/* Copies the waits that were told, `count` of them, into an answer. */
static bool takes(histdesk *desk, uint64_t count, answer *own) {
    if (count > WAITS - own->count || histdesk_waits_copy(desk, 0, own->waits + own->count, WAITS + 1 - own->count) != count)
        return false;
    own->count += count;
    return true;
}

/* Leaves out the events of a name that pass a filter. */
static uint32_t leaves_out(histdesk *desk, uint32_t event, const char *filter) {
    return histdesk_waits_without(desk, event, (const uint8_t *)filter, strlen(filter));
}

/* Reads the text in pieces of this size in a stream that has begun. Returns the first code that isn't 0, or HISTDESK_CLOSED
 * if a copy is wrong. */
static uint32_t reads_on(histdesk *desk, size_t cut, answer *own) {
    uint64_t count;
    uint32_t code = HISTDESK_OK;
    own->count = 0;
    for (size_t at = 0; code == HISTDESK_OK && at < sizeof text - 1; at += cut) {
        size_t rest = sizeof text - 1 - at;
        code = histdesk_waits_feed(desk, (const uint8_t *)text + at, rest < cut ? rest : cut, &count);
        if (code == HISTDESK_OK && !takes(desk, count, own))
            return HISTDESK_CLOSED;
    }
    if (code == HISTDESK_OK)
        code = histdesk_waits_finish(desk, &own->read, &count);
    return code == HISTDESK_OK && !takes(desk, count, own) ? HISTDESK_CLOSED : code;
}

/* The same for a stream that begins. If the pieces have an even size, there is a filter that no event passes; if 4 divides
 * the size, the text is summed up too. */
static uint32_t reads(histdesk *desk, bool skips, size_t cut, answer *own) {
    uint32_t code = histdesk_waits_new(desk, skips);
    if (code == HISTDESK_OK && cut % 2 == 0)
        code = leaves_out(desk, HISTDESK_SWITCH, "next_comm ~ \"none*\" || !next_pid < 99");
    if (code == HISTDESK_OK && cut % 4 == 0)
        code = histdesk_waits_sum_up(desk);
    return code == HISTDESK_OK ? reads_on(desk, cut, own) : code;
}

static bool is_wanted(const answer *own) {
    return own->count == WAITS && memcmp(own->waits, wanted, sizeof wanted) == 0 && is_same_read(&own->read, &wanted_read);
}

static void each_cut(histdesk *desk) {
    answer own;
    size_t wrong = 0;
    for (size_t cut = 1; cut <= sizeof text; cut++)
        wrong += reads(desk, true, cut, &own) != HISTDESK_OK || !is_wanted(&own);
    HOLDS(wrong == 0);
}

/* ---- How sure waits are. */

static void doubted(histdesk *desk) {
    answer own;
    histdesk_wait waits[WAITS];
    HOLDS(reads(desk, true, 100, &own) == HISTDESK_OK);
    memcpy(waits, own.waits, sizeof waits);
    HOLDS(histdesk_waits_doubt(desk, waits, WAITS) == HISTDESK_OK);
    for (size_t at = 0; at < WAITS; at++) {
        histdesk_wait want = wanted[at];
        want.doubt = doubts[at];
        HOLDS(memcmp(&waits[at], &want, sizeof want) == 0);
    }
    for (size_t at = 0; at < WAITS; at++) { /* what began before a sleep is likely at most */
        histdesk_wait want = wanted[at];
        waits[at].doubt = 0;
        waits[at].slept = want.slept = at == 0 ? 1 : UINT32_MAX;
        want.doubt = doubts[at] == HISTDESK_SURE ? HISTDESK_LIKELY : doubts[at];
        HOLDS(histdesk_waits_doubt(desk, &waits[at], 1) == HISTDESK_OK && memcmp(&waits[at], &want, sizeof want) == 0);
    }
    waits[0] = wanted[3];
    waits[0].cause = 4; /* no cause */
    waits[1] = waits[0];
    HOLDS(histdesk_waits_doubt(desk, waits, 1) == HISTDESK_OK && memcmp(&waits[0], &waits[1], sizeof waits[0]) == 0);
    waits[0] = wanted[3];
    waits[1] = wanted[3];
    HOLDS(histdesk_waits_doubt(desk, waits, 1) == HISTDESK_OK && waits[0].doubt == HISTDESK_DOUBTFUL && waits[1].doubt == 0);
    HOLDS(histdesk_waits_doubt(desk, waits, 0) == HISTDESK_OK && waits[1].doubt == 0);
}

/* ---- Room of each size, on the heap, so that valgrind sees each byte beside it. */

static bool copies(histdesk *desk, size_t from, size_t room, bool is_of_holes) {
    size_t size = is_of_holes ? sizeof(histdesk_hole) : sizeof(histdesk_wait);
    size_t there = is_of_holes ? HOLES : WAITS;
    size_t want = from > there ? 0 : there - from;
    uint8_t *own = malloc(room * size + 1);
    bool holds;
    if (!own)
        abort();
    memset(own, 0xa5, room * size + 1);
    size_t count = is_of_holes ? histdesk_waits_holes(desk, from, (histdesk_hole *)own, room)
                               : histdesk_waits_copy(desk, from, (histdesk_wait *)own, room);
    holds = count == (want < room ? want : room);
    for (size_t at = 0; holds && at < count; at++)
        holds = is_of_holes ? is_same_hole((histdesk_hole *)own + at, &holes[from + at])
                            : memcmp(own + at * size, &wanted[from + at], size) == 0;
    for (size_t at = count * size; holds && at <= room * size; at++)
        holds = own[at] == 0xa5;
    free(own);
    return holds;
}

/* All waits are told by one feed, except those of the last microsecond, of which there are none. */
static void rooms(histdesk *desk) {
    uint64_t count = 0;
    histdesk_waits_read read;
    size_t wrong = 0;
    HOLDS(histdesk_waits_new(desk, true) == HISTDESK_OK && histdesk_waits_copy(desk, 0, &no_wait, 1) == 0);
    HOLDS(histdesk_waits_feed(desk, (const uint8_t *)text, sizeof text - 1, &count) == HISTDESK_OK && count == WAITS);
    for (size_t from = 0; from <= WAITS + 1; from++)
        for (size_t room = 0; room <= WAITS + 1; room++)
            wrong += !copies(desk, from, room, false);
    HOLDS(histdesk_waits_holes(desk, 0, &no_hole, 1) == 0);
    HOLDS(histdesk_waits_finish(desk, &read, &count) == HISTDESK_OK && count == 0 && is_same_read(&read, &wanted_read));
    for (size_t from = 0; from <= HOLES + 1; from++)
        for (size_t room = 0; room <= HOLES + 1; room++)
            wrong += !copies(desk, from, room, true);
    HOLDS(wrong == 0);
}

/* Only the header says that CPUs that begin late may have lost events, and a line says of one of them that it has lost none. */
static void late(histdesk *desk) {
    static const char lines[] = "# entries-in-buffer/entries-written: 3/9\na-1 [005] 1.000100: x: y\n"
                                "b-2 [002] 1.000100: x: y\nc-3 [001] 1.000200: x: y\nd-4 [000] 1.000300: x: y\n"
                                "# CPU 1: 0 events overwritten\n";
    static const histdesk_hole want = {1, 0, 1000300, 0, 0, false, true, false, true};
    histdesk_hole found[2];
    histdesk_waits_read read;
    uint64_t count;
    HOLDS(histdesk_waits_new(desk, false) == HISTDESK_OK);
    HOLDS(histdesk_waits_feed(desk, (const uint8_t *)lines, sizeof lines - 1, &count) == HISTDESK_OK);
    HOLDS(histdesk_waits_finish(desk, &read, &count) == HISTDESK_OK && read.holes == 1);
    HOLDS(histdesk_waits_holes(desk, 0, found, 2) == 1 && is_same_hole(found, &want));
}

/* Whether these lines have this one wait, as sure as its `doubt` says, and this hole, or none. */
static bool tells(histdesk *desk, const char *lines, histdesk_wait want, const histdesk_hole *hole) {
    histdesk_wait wait[2];
    histdesk_hole found[2];
    histdesk_waits_read read;
    uint64_t count, holes = hole ? 1 : 0;
    uint32_t doubt = want.doubt;
    bool holds = histdesk_waits_new(desk, false) == HISTDESK_OK;
    holds &= histdesk_waits_feed(desk, (const uint8_t *)lines, strlen(lines), &count) == HISTDESK_OK && count == 0;
    holds &= histdesk_waits_finish(desk, &read, &count) == HISTDESK_OK && count == 1 && read.holes == holes;
    want.doubt = 0;
    holds &= histdesk_waits_copy(desk, 0, wait, 2) == 1 && memcmp(wait, &want, sizeof want) == 0;
    want.doubt = doubt;
    holds &= histdesk_waits_doubt(desk, wait, 1) == HISTDESK_OK && memcmp(wait, &want, sizeof want) == 0;
    return holds && histdesk_waits_holes(desk, 0, found, 2) == holes && (!hole || is_same_hole(found, hole));
}

#define WAKES(us, pid) "a-1 [000] 1.0000" us ": sched_waking: comm=p pid=" pid " prio=9 target_cpu=000\n"

/* Holes that no line reports, and a wait that begins before a sleep. */
static void unreported(histdesk *desk) {
    /* Task 22 is woken twice, so it ran in between; CPU 1 begins with a task that was woken before; and task 21 goes to sleep. */
    static const char unseen[] = WAKES("10", "22") WAKES("20", "21") WAKES("30", "22")
        SWITCHED("a-1", "0", "40", "a", "1", "R", "p", "21");
    static const char begun[] = WAKES("10", "21") WAKES("20", "2") SWITCHED("b-2", "1", "30", "b", "2", "S", "c", "3")
        SWITCHED("a-1", "0", "40", "a", "1", "R", "p", "21");
    static const char asleep[] = WAKES("10", "21") SWITCHED("p-21", "0", "20", "p", "21", "S", "a", "1")
        SWITCHED("a-1", "0", "40", "a", "1", "R", "p", "21");
    static const histdesk_hole unknown = {0, 1000010, 1000030, 0, 0, true, true, false, false};
    static const histdesk_hole beginning = {0, 0, 1000030, 0, 1, false, true, false, true};
    histdesk_wait want = {{1000040, 0, 4}, {1000020, 0, 2}, 21, 9, HISTDESK_WOKEN, HISTDESK_LIKELY, 0, 0, {"p", 1}};
    HOLDS(tells(desk, unseen, want, &unknown));
    want.began = (histdesk_place){1000010, 0, 1};
    want.ended.line = 3;
    HOLDS(tells(desk, begun, want, &beginning));
    want.slept = 1;
    HOLDS(tells(desk, asleep, want, NULL));
}

static void events(histdesk *desk) {
    static uint32_t counts[CPUS + 1];
    bool holds = true;
    memset(counts, 0xa5, sizeof counts);
    HOLDS(histdesk_waits_events(desk, 0, counts, CPUS + 1) == CPUS && counts[0] == 8 && counts[1] == 3);
    for (size_t cpu = 2; cpu < CPUS; cpu++)
        holds &= counts[cpu] == 0;
    HOLDS(holds && counts[CPUS] == 0xa5a5a5a5);
    HOLDS(histdesk_waits_events(desk, 1, counts, 1) == 1 && counts[0] == 3 && counts[1] == 3);
    HOLDS(histdesk_waits_events(desk, CPUS, counts, 1) == 0 && counts[0] == 3);
}

/* ---- Events that are left out. */

/* Whether counts of events that were left out are these, in room of each size on the heap, with nothing written beside them. */
static bool counts_left_out(histdesk *desk, const histdesk_left_out *want, size_t there) {
    bool holds = true;
    for (size_t from = 0; from <= there + 1; from++)
        for (size_t room = 0; room <= there + 1; room++) {
            size_t rest = from > there ? 0 : there - from, count = rest < room ? rest : room;
            size_t size = room * sizeof *want;
            uint8_t *own = malloc(size + 1);
            if (!own)
                abort();
            memset(own, 0xa5, size + 1);
            holds &= histdesk_waits_left_out(desk, from, (histdesk_left_out *)own, room) == count;
            holds &= memcmp(own, want + (from > there ? there : from), count * sizeof *want) == 0;
            for (size_t at = count * sizeof *want; at <= size; at++)
                holds &= own[at] == 0xa5;
            free(own);
        }
    return holds;
}

/* Whether these waits are left, whatever the size of the pieces, and what is told of the text is as it was. */
static bool leaves(histdesk *desk, size_t filters, const uint32_t *events, const char *const *texts,
                   const histdesk_wait *const *left, size_t count, const histdesk_left_out *counts) {
    answer own;
    size_t wrong = 0;
    for (size_t cut = 1; cut <= sizeof text; cut += cut < 200 ? 1 : 300) {
        wrong += histdesk_waits_new(desk, true) != HISTDESK_OK;
        for (size_t at = 0; at < filters; at++)
            wrong += leaves_out(desk, events[at], texts[at]) != HISTDESK_OK;
        wrong += reads_on(desk, cut, &own) != HISTDESK_OK || own.count != count || !is_same_read(&own.read, &wanted_read);
        for (size_t at = 0; at < count && at < own.count; at++)
            wrong += memcmp(&own.waits[at], left[at], sizeof own.waits[at]) != 0;
    }
    return wrong == 0 && counts_left_out(desk, counts, filters);
}

static void without(histdesk *desk) {
    const uint32_t wakings[] = {HISTDESK_WAKING, HISTDESK_WAKING}, all[] = {HISTDESK_SWITCH, HISTDESK_WAKEUP};
    const char *const texts[] = {"pid == 42", "pid > 41 && pid < 45"}, *const nothing[] = {"", "pid == 42"};
    const histdesk_wait *const one[] = {&wanted[1], &unwoken, &wanted[3], &wanted[4]}, *const two[] = {one[0], one[1], one[3]};
    HOLDS(leaves(desk, 1, wakings, texts, one, 4, (histdesk_left_out[1]){{4, 2}}));
    HOLDS(leaves(desk, 2, wakings, texts, two, 3, (histdesk_left_out[2]){{4, 2}, {4, 3}}));
    HOLDS(leaves(desk, 2, all, nothing, NULL, 0, (histdesk_left_out[2]){{5, 5}, {0, 0}}));
    HOLDS(histdesk_waits_new(desk, true) == HISTDESK_OK && counts_left_out(desk, NULL, 0));
    histdesk_waits_free(desk);
}

static bool is_refused_as(histdesk *desk, uint32_t code, uint32_t fault, uint64_t place) {
    histdesk_refusal refusal = {.number = HISTDESK_CLOSED, .line = 9};
    return histdesk_waits_refused(desk, &refusal) == HISTDESK_OK && refusal.number == code && refusal.filter_fault == fault &&
           refusal.place == place && refusal.has_place == (fault != 0) && refusal.line == 0 && refusal.fault == 0;
}

/* A filter is refused, and the stream goes on as before. */
static void without_refused(histdesk *desk) {
    answer own;
    uint64_t count = 0;
    histdesk_waits_free(desk);
    HOLDS(leaves_out(desk, HISTDESK_OTHER, "x") == HISTDESK_NO_STREAM && is_refused_as(desk, HISTDESK_NO_STREAM, 0, 0));
    HOLDS(histdesk_waits_new(desk, true) == HISTDESK_OK && leaves_out(desk, HISTDESK_WAKING, "pid == 42") == HISTDESK_OK);
    HOLDS(leaves_out(desk, HISTDESK_WAKING, "pid == ") == HISTDESK_BAD_FILTER);
    HOLDS(is_refused_as(desk, HISTDESK_BAD_FILTER, 2, 7));
    HOLDS(leaves_out(desk, HISTDESK_WAKING, "1 && next_pid == 1") == HISTDESK_BAD_FILTER);
    HOLDS(leaves_out(desk, HISTDESK_WAKING, "next_pid == 1") == HISTDESK_BAD_FILTER);
    HOLDS(is_refused_as(desk, HISTDESK_BAD_FILTER, 3, 0));
    HOLDS(leaves_out(desk, HISTDESK_OTHER, "") == HISTDESK_BAD_COMMAND && is_refused_as(desk, HISTDESK_BAD_COMMAND, 0, 0));
    HOLDS(leaves_out(desk, 77, "pid == 1") == HISTDESK_BAD_COMMAND);
    HOLDS(histdesk_waits_feed(desk, (const uint8_t *)text, 0, &count) == HISTDESK_OK && leaves_out(desk, 3, "") == HISTDESK_OK);
    HOLDS(reads_on(desk, 100, &own) == HISTDESK_OK && own.count == 0 && is_same_read(&own.read, &wanted_read));
    HOLDS(counts_left_out(desk, (histdesk_left_out[2]){{4, 2}, {5, 5}}, 2) && leaves_out(desk, 0, "") == HISTDESK_NO_STREAM);
    HOLDS(histdesk_waits_new(desk, true) == HISTDESK_OK);
    HOLDS(histdesk_waits_feed(desk, (const uint8_t *)text, 1, &count) == HISTDESK_OK);
    HOLDS(leaves_out(desk, HISTDESK_WAKING, "x") == HISTDESK_NO_STREAM && is_refused_as(desk, HISTDESK_NO_STREAM, 0, 0));
    histdesk_waits_free(desk);
}

/* ---- What a text sums up to. */

#define WOKEN(us) "b-2 [001] 1.0000" us ": sched_waking: comm=a pid=1 prio=9 target_cpu=000\n"
/* CPU 0 idles for 30 microseconds, in which task 1 waits from the waking on, and again for 30, in which it waits for 10. */
#define IDLE_TEXT(woken) \
    SWITCHED("a-1", "0", "00", "a", "1", "S", "s", "0") WOKEN(woken) SWITCHED("s-0", "0", "30", "s", "0", "R", "a", "1") \
    SWITCHED("a-1", "0", "40", "a", "1", "D", "s", "0") WOKEN("50") SWITCHED("s-0", "1", "60", "s", "0", "R", "a", "1") \
    SWITCHED("s-0", "0", "70", "s", "0", "R", "c", "3")

/* Whether the sums are these, in room of each size on the heap, with nothing written beside them. */
static bool sums_are(histdesk *desk, const void *want, size_t size, size_t there) {
    bool holds = true;
    for (size_t from = 0; from <= there + 1; from++)
        for (size_t room = 0; room <= there + 1; room++) {
            size_t rest = from > there ? 0 : there - from, count = rest < room ? rest : room;
            uint8_t *own = malloc(room * size + 1);
            if (!own)
                abort();
            memset(own, 0xa5, room * size + 1);
            holds &= count == (size == sizeof(histdesk_task_sum) ? histdesk_waits_tasks(desk, from, (histdesk_task_sum *)own, room)
                                                                 : histdesk_waits_cpus(desk, from, (histdesk_cpu_sum *)own, room));
            holds &= count == 0 || memcmp(own, (const uint8_t *)want + from * size, count * size) == 0;
            for (size_t at = count * size; at <= room * size; at++)
                holds &= own[at] == 0xa5;
            free(own);
        }
    return holds;
}

static bool are_summed_up(histdesk *desk, const histdesk_task_sum *tasks, size_t many, const histdesk_cpu_sum *cpus, size_t few) {
    return sums_are(desk, tasks, sizeof *tasks, many) && sums_are(desk, cpus, sizeof *cpus, few);
}

static void summed_up(histdesk *desk) {
    static const histdesk_task_sum all[] = {{450, 2, 1, 1, 0, 0, 42, 0}, {200, 2, 1, 0, 0, 0, 43, 0}, {0, 1, 0, 0, 0, 0, 44, 0},
                                            {0, 0, 0, 0, 0, 0, 45, 0}};
    static const histdesk_task_sum some[] = {{0, 0, 0, 0, 0, 0, 42, 0}, {0, 0, 0, 0, 0, 0, 43, 0}, {0, 0, 0, 0, 0, 0, 44, 0},
                                             {0, 0, 0, 0, 0, 0, 45, 0}};
    static const histdesk_cpu_sum two[] = {{0, 0, 0, 0, 0, 0, 0}, {0, 0, 0, 0, 0, 1, 0}};
    /* The longer idle time with waiters is that of the first run, is the same in both, and is that of the second run. */
    static const histdesk_cpu_sum idle[][2] = {{{60, 0, 30, 20, 1000000, 0, 0}, {0, 0, 0, 0, 0, 1, 0}},
                                               {{60, 0, 20, 10, 1000000, 0, 0}, {0, 0, 0, 0, 0, 1, 0}},
                                               {{60, 0, 15, 10, 1000040, 0, 0}, {0, 0, 0, 0, 0, 1, 0}}};
    static const histdesk_task_sum moved[] = {{10, 2, 0, 1, 1, 1, 1, 0}, {0, 1, 0, 0, 0, 0, 3, 0}};
    answer own;
    size_t wrong = 0;
    for (size_t cut = 1; cut <= sizeof text; cut += cut < 100 ? 1 : 300) {
        wrong += histdesk_waits_new(desk, true) != HISTDESK_OK || histdesk_waits_sum_up(desk) != HISTDESK_OK;
        wrong += reads_on(desk, cut, &own) != HISTDESK_OK || !is_wanted(&own) || !are_summed_up(desk, all, 4, two, 2);
    }
    HOLDS(wrong == 0);
    HOLDS(histdesk_waits_new(desk, true) == HISTDESK_OK && leaves_out(desk, HISTDESK_SWITCH, "") == HISTDESK_OK);
    HOLDS(histdesk_waits_sum_up(desk) == HISTDESK_OK && reads_on(desk, 100, &own) == HISTDESK_OK && own.count == 0);
    HOLDS(are_summed_up(desk, some, 4, NULL, 0));
    uint64_t count = 0;
    for (size_t i = 0; i < 3; i++) {
        const char *idle_text = (const char *[]){IDLE_TEXT("10"), IDLE_TEXT("20"), IDLE_TEXT("25")}[i];
        HOLDS(histdesk_waits_new(desk, false) == HISTDESK_OK && histdesk_waits_sum_up(desk) == HISTDESK_OK);
        HOLDS(histdesk_waits_sum_up(desk) == HISTDESK_OK);
        HOLDS(histdesk_waits_feed(desk, (const uint8_t *)idle_text, strlen(idle_text), &count) == HISTDESK_OK && count == 2);
        HOLDS(are_summed_up(desk, NULL, 0, NULL, 0));
        HOLDS(histdesk_waits_finish(desk, &own.read, &count) == HISTDESK_OK && are_summed_up(desk, moved, 2, idle[i], 2));
    }
    histdesk_waits_free(desk);
    HOLDS(are_summed_up(desk, NULL, 0, NULL, 0));
}

/* Sums that are asked for late, or not at all. */
static void not_summed_up(histdesk *desk) {
    answer own;
    uint64_t count = 0;
    histdesk_waits_free(desk);
    HOLDS(histdesk_waits_sum_up(desk) == HISTDESK_NO_STREAM && is_refused_as(desk, HISTDESK_NO_STREAM, 0, 0));
    HOLDS(reads(desk, true, 102, &own) == HISTDESK_OK && are_summed_up(desk, NULL, 0, NULL, 0));
    HOLDS(histdesk_waits_sum_up(desk) == HISTDESK_NO_STREAM && is_refused_as(desk, HISTDESK_NO_STREAM, 0, 0));
    HOLDS(histdesk_waits_new(desk, true) == HISTDESK_OK);
    HOLDS(histdesk_waits_feed(desk, (const uint8_t *)text, 0, &count) == HISTDESK_OK && histdesk_waits_sum_up(desk) == HISTDESK_OK);
    HOLDS(histdesk_waits_feed(desk, (const uint8_t *)text, 1, &count) == HISTDESK_OK);
    HOLDS(histdesk_waits_sum_up(desk) == HISTDESK_NO_STREAM && is_refused_as(desk, HISTDESK_NO_STREAM, 0, 0));
    histdesk_waits_free(desk);
}

/* What a stream knows between pieces: of lines that have ended, whatever the size of the pieces. */

/* Whether so many events of the first two CPUs were in lines that have ended, the last one with this stamp. */
static bool knows(histdesk *desk, uint32_t first, uint32_t second, uint64_t last) {
    uint32_t counts[2] = {77, 77};
    uint64_t stamp = 77;
    bool has = last == 0;
    return histdesk_waits_events(desk, 0, counts, 2) == 2 && counts[0] == first && counts[1] == second &&
           histdesk_waits_last(desk, &stamp, &has) == HISTDESK_OK && stamp == last && has == (last != 0);
}

static void so_far(histdesk *desk) {
    static const struct {
        uint64_t stamp;
        uint32_t cpu;
    } lines[] = {{0, 0}, {1000100, 0}, {1000150, 0}, {1000200, 0}, {1000300, 0}, {0, 0}, {1000400, 0}, {0, 0}, {1000500, 0},
                 {1000500, 1}, {0, 0}, {1000600, 0}, {1000700, 1}, {1000800, 0}, {1000900, 1}, {0, 0}, {0, 0}};
    uint64_t count = 0, last = 0;
    uint32_t counts[2] = {0, 0};
    size_t line = 0, wrong = 0;
    histdesk_waits_read read;
    HOLDS(histdesk_waits_new(desk, true) == HISTDESK_OK && knows(desk, 0, 0, 0));
    for (size_t at = 0; at < sizeof text - 1; at++) {
        wrong += histdesk_waits_feed(desk, (const uint8_t *)text + at, 1, &count) != HISTDESK_OK;
        if (text[at] == '\n') {
            if (lines[line].stamp)
                counts[lines[line].cpu]++, last = lines[line].stamp;
            line++;
        }
        wrong += !knows(desk, counts[0], counts[1], last);
    }
    HOLDS(wrong == 0 && line == 16 && counts[0] == 8 && counts[1] == 3 && last == 1000900);
    HOLDS(histdesk_waits_finish(desk, &read, &count) == HISTDESK_OK && knows(desk, 8, 3, 1000900));
    HOLDS(histdesk_waits_new(desk, true) == HISTDESK_OK && histdesk_waits_finish(desk, &read, &count) == HISTDESK_OK);
    HOLDS(knows(desk, 0, 0, 0));
}

/* ---- Codes. */

static bool is_refused(histdesk *desk, uint32_t number, uint64_t line, uint32_t fault) {
    histdesk_refusal refusal = {.number = HISTDESK_CLOSED, .cpu = 9, .has_place = true, .place = 9};
    return histdesk_waits_refused(desk, &refusal) == HISTDESK_OK && refusal.number == number && refusal.line == line &&
           refusal.fault == fault && refusal.filter_fault == 0 && refusal.cpu == 0 && refusal.trigger == 0 &&
           !refusal.has_place && refusal.place == 0;
}

/* Whether a stream that was refused answers the same to each call, and writes nothing. */
static bool stays_refused(histdesk *desk, uint32_t code, uint64_t line, uint32_t fault) {
    uint64_t count = 77;
    histdesk_waits_read read = {.lines = 78};
    histdesk_wait one;
    bool holds = is_refused(desk, code, line, fault) && histdesk_waits_copy(desk, 0, &one, 1) == 0;
    holds &= histdesk_waits_feed(desk, (const uint8_t *)text, sizeof text - 1, &count) == code && count == 77;
    holds &= is_refused(desk, code, line, fault);
    holds &= histdesk_waits_finish(desk, &read, &count) == code && count == 77 && read.lines == 78;
    holds &= is_refused(desk, code, line, fault);
    holds &= histdesk_waits_feed(desk, (const uint8_t *)text, 0, &count) == code && count == 77;
    uint64_t stamp = 79;
    bool has = true;
    holds &= histdesk_waits_last(desk, &stamp, &has) == code && stamp == 79 && has && is_refused(desk, code, line, fault);
    holds &= histdesk_waits_events(desk, 0, &(uint32_t){0}, 1) == 0;
    holds &= leaves_out(desk, HISTDESK_WAKING, "pid ==") == code && is_refused(desk, code, line, fault);
    holds &= histdesk_waits_left_out(desk, 0, &(histdesk_left_out){0, 0}, 1) == 0;
    holds &= histdesk_waits_sum_up(desk) == code && is_refused(desk, code, line, fault) && sums_are(desk, NULL, sizeof(histdesk_task_sum), 0);
    return holds && histdesk_waits_holes(desk, 0, &no_hole, 1) == 0;
}

static void codes(histdesk *desk) {
    static const char back[] = " a-1 [000] 1.000002: x: y\n# none\n a-1 [001] 1.000001: x: y\n";
    answer own;
    histdesk_wait one = wanted[0];
    uint64_t count = 0;
    histdesk_waits_free(desk);
    HOLDS(stays_refused(desk, HISTDESK_OK, 0, 0) == false && stays_refused(desk, HISTDESK_NO_STREAM, 0, 0));
    HOLDS(histdesk_waits_doubt(desk, &one, 1) == HISTDESK_NO_STREAM && memcmp(&one, &wanted[0], sizeof one) == 0);
    for (size_t cut = 1; cut <= sizeof text; cut += 50)
        HOLDS(reads(desk, false, cut, &own) == HISTDESK_BAD_LINE && stays_refused(desk, HISTDESK_BAD_LINE, BAD_LINE, 1));
    HOLDS(histdesk_waits_new(desk, true) == HISTDESK_OK && is_refused(desk, 0, 0, 0));
    HOLDS(histdesk_waits_doubt(desk, &one, 1) == HISTDESK_NO_STREAM && is_refused(desk, HISTDESK_NO_STREAM, 0, 0));
    HOLDS(histdesk_waits_feed(desk, (const uint8_t *)back, sizeof back - 1, &count) == HISTDESK_BACKWARDS);
    HOLDS(stays_refused(desk, HISTDESK_BACKWARDS, 3, 0));
    HOLDS(reads(desk, true, 1000, &own) == HISTDESK_OK && is_wanted(&own) && is_refused(desk, 0, 0, 0));
    HOLDS(histdesk_waits_feed(desk, (const uint8_t *)text, 1, &count) == HISTDESK_NO_STREAM);
    HOLDS(histdesk_waits_holes(desk, HOLES, &no_hole, 1) == 0 && histdesk_waits_doubt(desk, &one, 1) == HISTDESK_OK);
    histdesk_waits_free(desk);
    HOLDS(histdesk_waits_doubt(desk, &one, 1) == HISTDESK_NO_STREAM);
}

static void closed(void) {
    histdesk none = {0};
    uint64_t count = 77;
    histdesk_waits_read read = {.lines = 78};
    histdesk_wait one = wanted[0];
    histdesk_hole hole = holes[0];
    histdesk_refusal refusal = {.number = 79};
    HOLDS(histdesk_waits_new(&none, true) == HISTDESK_CLOSED);
    HOLDS(histdesk_waits_feed(&none, (const uint8_t *)text, 1, &count) == HISTDESK_CLOSED && count == 77);
    HOLDS(histdesk_waits_finish(&none, &read, &count) == HISTDESK_CLOSED && count == 77 && read.lines == 78);
    HOLDS(histdesk_waits_copy(&none, 0, &one, 1) == 0 && histdesk_waits_holes(&none, 0, &hole, 1) == 0);
    HOLDS(histdesk_waits_events(&none, 0, &refusal.cpu, 1) == 0);
    bool has = true;
    HOLDS(leaves_out(&none, HISTDESK_WAKING, "") == HISTDESK_CLOSED);
    HOLDS(histdesk_waits_left_out(&none, 0, &(histdesk_left_out){0, 0}, 1) == 0);
    HOLDS(histdesk_waits_last(&none, &count, &has) == HISTDESK_CLOSED && count == 77 && has);
    HOLDS(histdesk_waits_held(&none, &count) == HISTDESK_CLOSED && count == 77);
    HOLDS(histdesk_waits_doubt(&none, &one, 1) == HISTDESK_CLOSED && memcmp(&one, &wanted[0], sizeof one) == 0);
    HOLDS(histdesk_waits_sum_up(&none) == HISTDESK_CLOSED && are_summed_up(&none, NULL, 0, NULL, 0));
    HOLDS(histdesk_waits_refused(&none, &refusal) == HISTDESK_CLOSED && refusal.number == 79);
    histdesk_waits_free(&none);
    HOLDS(none.at == NULL);
}

/* ---- The desk beside its stream. */

static void beside(histdesk *desk) {
    uint64_t events = 0, count = 0;
    answer own;
    histdesk_refusal refusal;
    HOLDS(histdesk_load(desk, (const uint8_t *)good_text, sizeof good_text - 1, &events) == HISTDESK_OK && events == 11);
    HOLDS(histdesk_strike(desk, 7, 1) == HISTDESK_NO_LANE);
    HOLDS(reads(desk, true, 64, &own) == HISTDESK_OK && is_wanted(&own));
    HOLDS(histdesk_refused(desk, &refusal) == HISTDESK_OK && refusal.number == HISTDESK_NO_LANE && refusal.cpu == 7);
    histdesk_forget(desk);
    HOLDS(histdesk_waits_holes(desk, 0, (histdesk_hole[HOLES]){{0}}, HOLES) == HOLES);
    HOLDS(histdesk_events(desk, &count) == HISTDESK_OK && count == 11);
}

/* The waits of held events, while a stream is in the middle of its text, and once a switch was struck. */
static void held(histdesk *desk) {
    answer own = {.count = 0};
    uint64_t count = 0;
    size_t half = sizeof FRONT - 1;
    HOLDS(histdesk_waits_new(desk, true) == HISTDESK_OK);
    HOLDS(histdesk_waits_feed(desk, (const uint8_t *)text, half, &count) == HISTDESK_OK && takes(desk, count, &own));
    HOLDS(histdesk_waits_held(desk, &count) == HISTDESK_OK && count == WAITS);
    HOLDS(copies(desk, 0, WAITS, false));
    HOLDS(histdesk_waits_feed(desk, (const uint8_t *)text + half, sizeof text - 1 - half, &count) == HISTDESK_OK);
    HOLDS(takes(desk, count, &own));
    HOLDS(histdesk_waits_finish(desk, &own.read, &count) == HISTDESK_OK && takes(desk, count, &own) && is_wanted(&own));
    HOLDS(histdesk_strike(desk, 0, 2) == HISTDESK_OK);
    HOLDS(histdesk_waits_held(desk, &count) == HISTDESK_OK && count == WAITS - 1);
    HOLDS(histdesk_waits_copy(desk, 0, own.waits, 1) == 1 && memcmp(own.waits, &wanted[1], sizeof wanted[1]) == 0);
    histdesk_waits_free(desk);
    HOLDS(histdesk_waits_copy(desk, 0, own.waits, 1) == 0);
}

/* ---- Growths that are refused. */

#ifndef HEAP_IS_PLAIN

static uint64_t refuse_at;
static bool is_for_good;

static bool refuses(void) {
    return heap.growths == refuse_at || (is_for_good && heap.growths > refuse_at);
}

/* Reads once with a growth refused, or with it and all after it refused: memory runs out and stays so, and there is enough
 * again for a stream that begins anew. */
static bool survives(histdesk *desk, bool *has_run_out) {
    answer own;
    heap.growths = 0;
    heap.is_counting = true;
    uint32_t code = reads(desk, true, 100, &own);
    heap.is_counting = false;
    *has_run_out = code == HISTDESK_MEMORY;
    if (code == HISTDESK_OK)
        return is_wanted(&own);
    return code == HISTDESK_MEMORY && is_refused(desk, HISTDESK_MEMORY, 0, 0) &&
           reads(desk, true, 100, &own) == HISTDESK_OK && is_wanted(&own);
}

static void refused_growths(void) {
    size_t wrong = 0, ran_out = 0;
    for (int way = 0; way < 2; way++) {
        bool has_run_out = true;
        is_for_good = way == 1;
        for (refuse_at = 1; has_run_out && refuse_at < 1000; refuse_at++) {
            histdesk desk = {0};
            heap.is_counting = true;
            heap.blocks = 0;
            heap.refuses = NULL;
            wrong += histdesk_new(&desk) != HISTDESK_OK;
            heap.refuses = refuses;
            wrong += !survives(&desk, &has_run_out);
            heap.is_counting = true;
            heap.refuses = NULL;
            histdesk_waits_free(&desk);
            histdesk_free(&desk);
            heap.is_counting = false;
            ran_out += has_run_out;
        }
    }
    HOLDS(wrong == 0 && ran_out > 10);
}

/* What is held of the heap is given back. */
static void freed(void) {
    histdesk desk = {0};
    answer own;
    heap.blocks = 0;
    heap.refuses = NULL;
    heap.is_counting = true;
    bool holds = histdesk_new(&desk) == HISTDESK_OK;
    int64_t empty = heap.blocks;
    for (size_t cut = 1; holds && cut < 200; cut += 66) {
        holds &= reads(&desk, true, cut, &own) == HISTDESK_OK && heap.blocks > empty;
        histdesk_waits_free(&desk);
        holds &= heap.blocks == empty && reads(&desk, false, cut, &own) == HISTDESK_BAD_LINE;
        histdesk_waits_free(&desk);
        holds &= heap.blocks == empty && reads(&desk, true, cut, &own) == HISTDESK_OK;
    }
    histdesk_free(&desk);
    heap.is_counting = false;
    HOLDS(holds && heap.blocks == 0);
}

#endif

/* ---- Two desks in two threads. */

static void *work(void *given) {
    histdesk desk = {0};
    answer own;
    bool holds = histdesk_new(&desk) == HISTDESK_OK;
    for (size_t cut = 1; cut < 100; cut++)
        holds &= reads(&desk, true, cut, &own) == HISTDESK_OK && is_wanted(&own);
    histdesk_free(&desk);
    *(bool *)given = holds;
    return NULL;
}

static void in_threads(void) {
    pthread_t threads[2];
    bool holds[2] = {false, false};
    for (int at = 0; at < 2; at++)
        if (pthread_create(&threads[at], NULL, work, &holds[at]) != 0)
            abort();
    for (int at = 0; at < 2; at++)
        pthread_join(threads[at], NULL);
    HOLDS(holds[0] && holds[1]);
}

int main(void) {
    histdesk desk = {0};
    if (histdesk_new(&desk) != HISTDESK_OK)
        return 1;
    each_cut(&desk);
    doubted(&desk);
    rooms(&desk);
    events(&desk);
    so_far(&desk);
    late(&desk);
    unreported(&desk);
    without(&desk);
    without_refused(&desk);
    summed_up(&desk);
    not_summed_up(&desk);
    codes(&desk);
    closed();
    beside(&desk);
    held(&desk);
    histdesk_free(&desk);
#ifndef HEAP_IS_PLAIN
    refused_growths();
    freed();
#endif
    in_threads();
    printf("%u of %u tests hold\n", good, tests);
    return good < tests;
}
