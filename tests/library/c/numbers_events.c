/* Events, places and latencies as numbers. */
#include "script.h"

#include <inttypes.h>
#include <stdlib.h>
#include <string.h>

static const char *const names[] = {"sched_waking", "sched_wakeup", "sched_wakeup_new", "sched_switch"};

static int by_place(const void *left, const void *right) {
    const histdesk_place *one = left, *other = right;
    if (one->stamp != other->stamp)
        return one->stamp < other->stamp ? -1 : 1;
    if (one->cpu != other->cpu)
        return one->cpu < other->cpu ? -1 : 1;
    return one->line < other->line ? -1 : one->line > other->line;
}

static void put_name(bytes *to, const char *title, const histdesk_name *name) {
    put_form(to, "%s", title);
    put(to, name->bytes, name->length);
    for (size_t at = name->length; at < sizeof name->bytes; at++)
        if (name->bytes[at])
            fault("a name with bytes after its end");
}

static void put_target(bytes *to, int64_t cpu) {
    put_form(to, " target_cpu=%s%03" PRId64, cpu < 0 ? "-" : "", cpu < 0 ? -cpu : cpu);
}

/* The event's line, as docs/REFERENCE.md, List lines has it. `own` becomes the event with no more than its name has. */
static void put_event(bytes *to, const histdesk_event *event, histdesk_event *own) {
    const histdesk_place *place = &event->place;
    own->name = event->name;
    own->common_pid = event->common_pid;
    own->task = event->task;
    put_form(to, "%" PRIu32 ":%" PRIu32, place->cpu, place->line);
    put_name(to, " ", &event->task);
    put_form(to, "-%" PRId32 " [%03" PRIu32 "] %" PRIu64 ".%06" PRIu64 ":", event->common_pid, place->cpu,
             place->stamp / 1000000, place->stamp % 1000000);
    if (event->name <= HISTDESK_SWITCH) {
        put_form(to, " %s:", names[event->name]);
        own->pid = event->pid;
        own->prio = event->prio;
        own->comm = event->comm;
    }
    if (event->name <= HISTDESK_WAKEUP_NEW) {
        own->target_cpu = event->target_cpu;
        put_name(to, " comm=", &event->comm);
        put_form(to, " pid=%" PRId32 " prio=%" PRId32, event->pid, event->prio);
        put_target(to, event->target_cpu);
    } else if (event->name == HISTDESK_SWITCH) {
        own->prev_pid = event->prev_pid;
        own->prev_prio = event->prev_prio;
        own->prev_comm = event->prev_comm;
        own->prev_state = event->prev_state;
        put_name(to, " prev_comm=", &event->prev_comm);
        put_form(to, " prev_pid=%" PRId32 " prev_prio=%" PRId32, event->prev_pid, event->prev_prio);
        put_name(to, " prev_state=", &event->prev_state);
        put_name(to, " ==> next_comm=", &event->comm);
        put_form(to, " next_pid=%" PRId32 " next_prio=%" PRId32, event->pid, event->prio);
    } else if (event->name != HISTDESK_OTHER) {
        fault("an event of name %" PRIu32 " at %" PRIu32 ":%" PRIu32, event->name, place->cpu, place->line);
    }
    put_form(to, "\n");
}

/* Whether they are the same in all but the four bytes after their last field. */
static bool is_same_event(const histdesk_event *one, const histdesk_event *other) {
    return memcmp(one, other, offsetof(histdesk_event, prev_state) + sizeof one->prev_state) == 0;
}

static void check_event(histdesk *desk, bytes *to, const histdesk_place *place, const histdesk_event *event) {
    histdesk_event own, at;
    memset(&own, 0, sizeof own);
    own.place = *place;
    put_event(to, event, &own);
    if (histdesk_event_at(desk, place->cpu, place->line, &at) != HISTDESK_OK || !is_same_event(event, &at))
        fault("another event at %" PRIu32 ":%" PRIu32, place->cpu, place->line);
    if (!is_same_event(&own, event))
        fault("the event at %" PRIu32 ":%" PRIu32 " stands elsewhere, or has more than its name has", place->cpu, place->line);
}

/* The lines of the events of a lane from a line on, and how many they are. */
static uint64_t put_lane(histdesk *desk, uint32_t cpu, uint32_t line, bytes *to) {
    uint64_t count;
    if (histdesk_lane(desk, cpu, line, &count) != HISTDESK_OK)
        fault("no lane of CPU %" PRIu32, cpu);
    histdesk_place *places = whole_places(desk, count);
    histdesk_event *events = whole_events(desk, count);
    for (uint64_t at = 0; at < count; at++) {
        if (places[at].cpu != cpu || places[at].line < line || (at > 0 && places[at - 1].line >= places[at].line))
            fault("CPU %" PRIu32 ": places that are not by line", cpu);
        check_event(desk, to, &places[at], &events[at]);
    }
    free(places);
    free(events);
    return count;
}

void check_list(histdesk *desk, uint32_t cpu, const bytes *list) {
    bytes anew = {0}, after = {0};
    put_lane(desk, cpu, 0, &anew);
    if (!is_same(&anew, list))
        fault("CPU %" PRIu32 ": the events don't give the list:\n%.*s", cpu, (int)anew.length, (char *)anew.at);
    put_lane(desk, cpu, 3, &after);
    if (after.length > anew.length ||
        (after.length && memcmp(anew.at + anew.length - after.length, after.at, after.length) != 0))
        fault("CPU %" PRIu32 ": the events from line 3 on don't end the list", cpu);
    free(anew.at);
    free(after.at);
}

void check_events(histdesk *desk) {
    uint64_t count, of_lanes = 0;
    bytes lines = {0};
    if (histdesk_events(desk, &count) != HISTDESK_OK)
        fault("no events");
    histdesk_place *places = whole_places(desk, count);
    histdesk_event *events = whole_events(desk, count);
    static bool is_held[8192];
    memset(is_held, 0, sizeof is_held);
    for (uint64_t at = 0; at < count; at++) {
        if (at > 0 && by_place(&places[at - 1], &places[at]) >= 0)
            fault("events that are not in merged order");
        check_event(desk, &lines, &places[at], &events[at]);
        is_held[places[at].cpu] = true;
    }
    free(lines.at);
    lines = (bytes){0};
    for (uint32_t cpu = 0; cpu < 8192; cpu++)
        if (is_held[cpu])
            of_lanes += put_lane(desk, cpu, 1, &lines);
    if (of_lanes != count)
        fault("%" PRIu64 " events, %" PRIu64 " in their lanes", count, of_lanes);
    free(lines.at);
    free(places);
    free(events);
}

/* The reading events are in merged order, none stands before the one that saved, and all are held. */
void check_latencies(histdesk *desk, uint32_t id) {
    uint64_t count, events;
    if (histdesk_latencies(desk, id, &count) != HISTDESK_OK || histdesk_events(desk, &events) != HISTDESK_OK)
        fault("trigger %" PRIu32 ": no latencies", id);
    histdesk_latency *latencies = whole_latencies(desk, count);
    histdesk_place *places = whole_places(desk, events);
    uint64_t next = 0;
    for (uint64_t at = 0; at < count; at++) {
        const histdesk_latency *one = &latencies[at];
        while (next < events && by_place(&places[next], &one->read) < 0)
            next++;
        /* A trigger may read what another saves at the same event. */
        if (next == events || by_place(&places[next], &one->read) != 0 || by_place(&one->saved, &one->read) > 0 ||
            (at > 0 && by_place(&latencies[at - 1].read, &one->read) >= 0))
            fault("trigger %" PRIu32 ": latencies that are not in the order of their events", id);
        if (one->micros != one->read.stamp - one->saved.stamp ||
            !bsearch(&one->saved, places, events, sizeof *places, by_place))
            fault("trigger %" PRIu32 ": a latency without its saving event, or of other stamps", id);
    }
    free(latencies);
    free(places);
}
