/* freed: what tables keep of events goes from the heap as the events go. A desk with triggers and one without get the same
 * events, half of them loaded and half inserted, each with a key that no other event has, and each is struck again. Then the
 * desk with triggers holds a few blocks of the heap more than the other, as many for few events as for many. What is wrong is
 * printed with its line in this file; the last line says how many of the tests hold. */
#include "heap.h"
#include "histdesk.h"
#include "holds.h"

#include <inttypes.h>
#include <stdio.h>
#include <string.h>

/* More blocks than the tables of three triggers take without hits, and fewer than a tree takes that still has a key for
 * each of MANY tasks: a block has at most 15 keys. */
enum { FEW = 256, MANY = 2048, MOST_LEFT = 64 };

static histdesk desk;
/* ---- Two lines of each task, which is numbered from 1: it is woken and gets the processor. */

static int write_waking(char *to, size_t room, uint32_t task) {
    return snprintf(to, room, "a-1 [000] %" PRIu32 ".000100: sched_waking: comm=t pid=%" PRIu32 " prio=120 target_cpu=000\n",
                    task, task);
}

static int write_switch(char *to, size_t room, uint32_t task) {
    return snprintf(to, room,
                    "<idle>-0 [000] %" PRIu32 ".000150: sched_switch: prev_comm=swapper/0 prev_pid=0 prev_prio=120 "
                    "prev_state=R ==> next_comm=t next_pid=%" PRIu32 " next_prio=120\n",
                    task, task);
}

static bool is_loaded(uint32_t tasks) {
    static char trace[MANY * 256];
    size_t length = 0;
    uint64_t events = 0;
    for (uint32_t task = 1; task <= tasks; task++) {
        length += (size_t)write_waking(trace + length, sizeof trace - length, task);
        length += (size_t)write_switch(trace + length, sizeof trace - length, task);
    }
    return histdesk_load(&desk, (const uint8_t *)trace, length, &events) == HISTDESK_OK && events == 2ull * tasks;
}

/* A line of the next number on CPU 0, which comes without its line break. */
static bool is_inserted(const char *line, int length, uint32_t number) {
    histdesk_line at;
    return histdesk_insert(&desk, (const uint8_t *)line, (size_t)length - 1, &at) == HISTDESK_OK && at.line == number;
}

static bool are_inserted(uint32_t first, uint32_t last) {
    char line[256];
    bool holds = true;
    for (uint32_t task = first; task <= last; task++) {
        holds &= is_inserted(line, write_waking(line, sizeof line, task), 2 * task - 1);
        holds &= is_inserted(line, write_switch(line, sizeof line, task), 2 * task);
    }
    return holds;
}

static bool are_struck(uint32_t tasks) {
    bool holds = true;
    for (uint32_t line = 1; line <= 2 * tasks; line++)
        holds &= histdesk_strike(&desk, 0, line) == HISTDESK_OK;
    return holds;
}

/* ---- A saver, a reader, and one that counts what readings make, all of them by task. */

static bool is_attached(uint32_t event, const char *trigger) {
    uint32_t id;
    return histdesk_attach(&desk, event, (const uint8_t *)trigger, strlen(trigger), &id) == HISTDESK_OK;
}

static bool are_attached(void) {
    return is_attached(HISTDESK_WAKING, "hist:keys=pid:ts0=common_timestamp.usecs")
        && is_attached(HISTDESK_SWITCH, "hist:keys=next_pid:vals=$lat:lat=common_timestamp.usecs-$ts0:"
                                        "onmatch(sched.sched_waking).wakeup_latency($lat,next_pid,next_prio)")
        && is_attached(HISTDESK_WAKEUP_LATENCY, "hist:keys=pid");
}

static bool have_hits(uint64_t hits) {
    histdesk_totals totals;
    bool holds = !histdesk_is_deferred(&desk);
    for (uint32_t id = 1; id <= 3; id++)
        holds &= histdesk_totals_of(&desk, id, &totals) == HISTDESK_OK && totals.hits == hits && totals.entries == hits;
    return holds;
}

/* How many blocks a desk holds after all its events came and went. */
static int64_t blocks_left(uint32_t tasks, bool has_triggers) {
    int64_t left;
    heap = (heap_state){.is_counting = true};
    HOLDS(histdesk_new(&desk) == HISTDESK_OK);
    HOLDS(is_loaded(tasks / 2));
    if (has_triggers)
        HOLDS(are_attached());
    HOLDS(are_inserted(tasks / 2 + 1, tasks));
    if (has_triggers)
        HOLDS(have_hits(tasks));
    HOLDS(are_struck(tasks));
    if (has_triggers)
        HOLDS(have_hits(0));
    histdesk_forget(&desk);
    left = heap.blocks;
    histdesk_free(&desk);
    HOLDS(heap.blocks == 0);
    heap.is_counting = false;
    return left;
}

int main(void) {
    static const uint32_t numbers[] = {FEW, MANY};
    setvbuf(stdout, NULL, _IONBF, 0); /* a buffer would be a block */
    for (size_t number = 0; number < sizeof numbers / sizeof *numbers; number++) {
        int64_t bare = blocks_left(numbers[number], false), kept = blocks_left(numbers[number], true) - bare;
        HOLDS(kept <= MOST_LEFT);
        printf("%" PRIu32 " tasks: %" PRId64 " blocks, and %" PRId64 " for triggers\n", numbers[number], bare, kept);
    }
    printf("%u of %u tests hold\n", good, tests);
    return good < tests;
}
