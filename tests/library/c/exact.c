/* exact: each text that is handed in and each buffer that is copied to has exactly its size on the heap, so that valgrind sees
 * each byte read or written beside it: copies with no room, too little, enough and too much, from each place on and from
 * after the end; handles without a desk; each refusal and its words. What is wrong is printed with its line in this file;
 * the last line says how many of the tests hold. */
#include "histdesk.h"
#include "holds.h"

#include <inttypes.h>
#include <stdio.h>
#include <stdlib.h>
#include <string.h>

#define NO_EVENT "there is no event on that line"

static histdesk *desk;

static void *exact(const void *bytes, size_t size) {
    void *own = malloc(size); /* also of no bytes */
    if (!own)
        abort();
    if (bytes && size)
        memcpy(own, bytes, size);
    return own;
}

/* ---- Calls whose texts have exactly their size. */

static uint32_t load(const char *trace, uint64_t *events) {
    uint8_t *own = exact(trace, strlen(trace));
    uint32_t code = histdesk_load(desk, own, strlen(trace), events);
    free(own);
    return code;
}

static uint32_t insert(const char *line, histdesk_line *at) {
    uint8_t *own = exact(line, strlen(line));
    uint32_t code = histdesk_insert(desk, own, strlen(line), at);
    free(own);
    return code;
}

static uint32_t attach(uint32_t event, const char *trigger, uint32_t *id) {
    uint8_t *own = exact(trigger, strlen(trigger));
    uint32_t code = histdesk_attach(desk, event, own, strlen(trigger), id);
    free(own);
    return code;
}

static uint32_t refilter(uint32_t id, const char *filter) {
    uint8_t *own = exact(filter, strlen(filter));
    uint32_t code = histdesk_refilter(desk, id, own, strlen(filter));
    free(own);
    return code;
}

static uint32_t matching(uint32_t event, const char *filter, uint64_t *count) {
    uint8_t *own = exact(filter, strlen(filter));
    uint32_t code = histdesk_matching(desk, event, own, strlen(filter), count);
    free(own);
    return code;
}

static uint32_t lines_in(const char *text, uint64_t *count) {
    uint8_t *own = exact(text, strlen(text));
    uint32_t code = histdesk_lines(desk, own, strlen(text), count);
    free(own);
    return code;
}

static uint32_t losses_in(const char *text, histdesk_losses_read *read) {
    uint8_t *own = exact(text, strlen(text));
    uint32_t code = histdesk_losses(desk, own, strlen(text), read);
    free(own);
    return code;
}

/* ---- Copies. */

/* Each copy, from each place on, into room of each size: exactly what is there, and nothing is written after it. */
#define COPIES(type, copy, count)                                                                          \
    static bool type##_##copy(void) {                                                                      \
        uint64_t all = (count), froms[] = {0, 1, 2, all / 2, all - 1, all, all + 1, 1ull << 32, UINT64_MAX - 1, UINT64_MAX}; \
        type *whole = exact(NULL, all * sizeof *whole);                                                    \
        bool holds = histdesk_##copy(desk, 0, whole, all) == all;                                          \
        for (size_t number = 0; number < sizeof froms / sizeof *froms; number++)                           \
            for (size_t room = 0; room <= all + 2; room++) {                                               \
                uint64_t from = froms[number];                                                             \
                size_t there = from < all ? all - from : 0, want = there < room ? there : room;            \
                type *to = exact(NULL, room * sizeof *to);                                                 \
                memset(to, 0xa5, room * sizeof *to);                                                       \
                holds &= histdesk_##copy(desk, from, to, room) == want;                                    \
                for (size_t at = 0; at < room * sizeof *to; at++)                                          \
                    if (at >= want * sizeof *to)                                                           \
                        holds &= ((uint8_t *)to)[at] == 0xa5;                                              \
                for (size_t at = 0; at < want; at++)                                                       \
                    holds &= is_same(&whole[from + at], &to[at], sizeof *to);                              \
                free(to);                                                                                  \
            }                                                                                              \
        free(whole);                                                                                       \
        return holds;                                                                                      \
    }

/* The bytes after the last field of an event mean nothing. */
static bool is_same(const void *one, const void *other, size_t size) {
    if (size == sizeof(histdesk_event))
        size = offsetof(histdesk_event, prev_state) + sizeof(histdesk_name);
    return memcmp(one, other, size) == 0;
}

static uint64_t texts, rows, latencies, places, triggers, rows_changed, made_changed, lines, holes;

COPIES(uint8_t, text_copy, texts)
COPIES(histdesk_row, rows_copy, rows)
COPIES(histdesk_latency, latencies_copy, latencies)
COPIES(histdesk_place, places_copy, places)
COPIES(histdesk_event, events_copy, places)
COPIES(histdesk_trigger, triggers_copy, triggers)
COPIES(histdesk_changed, rows_changed_copy, rows_changed)
COPIES(histdesk_changed, made_changed_copy, made_changed)
COPIES(histdesk_text_line, lines_copy, lines)
COPIES(histdesk_hole, losses_copy, holes)

static void copy_all(void) {
    HOLDS(uint8_t_text_copy());
    HOLDS(histdesk_row_rows_copy());
    HOLDS(histdesk_latency_latencies_copy());
    HOLDS(histdesk_place_places_copy());
    HOLDS(histdesk_event_events_copy());
    HOLDS(histdesk_trigger_triggers_copy());
    HOLDS(histdesk_changed_rows_changed_copy());
    HOLDS(histdesk_changed_made_changed_copy());
    HOLDS(histdesk_text_line_lines_copy());
    HOLDS(histdesk_hole_losses_copy());
}

static const char trace[] = "a-1 [000] 1.000100: sched_waking: comm=w pid=42 prio=120 target_cpu=000\n"
                            "a-1 [000] 1.000110: sched_waking: comm=v pid=43 prio=-1 target_cpu=001\n"
                            "a-1 [001] 1.000120: x: y\n"
                            "<idle>-0 [000] 1.000150: sched_switch: prev_comm=swapper/0 prev_pid=0 prev_prio=120 "
                            "prev_state=R+ ==> next_comm=w next_pid=42 next_prio=120\n"
                            "w-42 [000] 1.000160: sched_switch: prev_comm=w prev_pid=42 prev_prio=120 "
                            "prev_state=S ==> next_comm=v next_pid=43 next_prio=-1";
static const char torn[] = "CPU:1 [LOST 5 EVENTS]\na-1 [001] 2.000000: x: y\nCPU:1 [LOST EVENTS]\nno line";
static const char reader[] = "hist:keys=next_pid:vals=$lat:lat=common_timestamp.usecs-$ts0:"
                             "onmatch(sched.sched_waking).wakeup_latency($lat,next_pid,next_prio)";

static void fill(void) {
    uint64_t events;
    uint32_t id;
    HOLDS(histdesk_new(desk) == HISTDESK_OK);
    HOLDS(load(trace, &events) == HISTDESK_OK && events == 5);
    HOLDS(attach(HISTDESK_WAKING, "hist:keys=pid:ts0=common_timestamp.usecs", &id) == HISTDESK_OK && id == 1);
    HOLDS(attach(HISTDESK_SWITCH, reader, &id) == HISTDESK_OK && id == 2);
    HOLDS(attach(HISTDESK_WAKEUP_LATENCY, "hist:keys=lat.buckets=7,pid.hex,prio.log2:vals=prio", &id) == HISTDESK_OK);
    HOLDS(attach(HISTDESK_WAKING, "hist:keys=comm", &id) == HISTDESK_OK && id == 4);
}

/* Which rows the strike changes: that of pid 42 in triggers 1 and 2, that of w in trigger 4, and the first one in trigger 3. */
static void strike(void) {
    histdesk_report report;
    HOLDS(histdesk_strike(desk, 0, 1) == HISTDESK_OK);
    HOLDS(histdesk_report_of(desk, &report) == HISTDESK_OK && report.has_rows && report.has_made);
    rows_changed = report.rows;
    made_changed = report.made;
    HOLDS(rows_changed >= 3 && made_changed >= 1);
}

static void ask_and_copy(void) {
    static const histdesk_row row_of_43 = {{3, {{.bucket = 49, .kind = HISTDESK_BUCKET},
                                                {.number = 43, .kind = HISTDESK_NUMBER},
                                                {.number = 64, .kind = HISTDESK_LOG2}}}, 1, {UINT64_MAX}};
    static const histdesk_row row_of_v = {{1, {{.text = {"v", 1}, .kind = HISTDESK_TEXT}}}, 1, {0}};
    histdesk_row row;
    histdesk_losses_read read;
    fill();
    HOLDS(histdesk_rows(desk, 4, &rows) == HISTDESK_OK && rows == 2 && histdesk_rows_copy(desk, 0, &row, 1) == 1);
    HOLDS(memcmp(&row, &row_of_v, sizeof row) == 0);
    HOLDS(histdesk_rows(desk, 3, &rows) == HISTDESK_OK && rows == 2 && histdesk_rows_copy(desk, 1, &row, 1) == 1);
    HOLDS(memcmp(&row, &row_of_43, sizeof row) == 0);
    HOLDS(histdesk_latencies(desk, 2, &latencies) == HISTDESK_OK && latencies == 2);
    HOLDS(histdesk_triggers(desk, &triggers) == HISTDESK_OK && triggers == 4);
    HOLDS(histdesk_list(desk, 1, &texts) == HISTDESK_OK && texts == strlen("1:1 a-1 [001] 1.000120:\n"));
    HOLDS(histdesk_events(desk, &places) == HISTDESK_OK && places == 5);
    HOLDS(lines_in(torn, &lines) == HISTDESK_OK && lines == 4);
    HOLDS(losses_in(torn, &read) == HISTDESK_OK && (holes = read.holes) == 2 && !read.has_written);
    strike();
    copy_all();
    HOLDS(histdesk_lane(desk, 0, 2, &places) == HISTDESK_OK && places == 3);
    copy_all();
    HOLDS(histdesk_lane(desk, 0, UINT32_MAX, &places) == HISTDESK_OK && places == 0);
    HOLDS(histdesk_hist(desk, 3, &texts) == HISTDESK_OK);
    copy_all();
    HOLDS(matching(HISTDESK_SWITCH, "next_pid >= 42", &places) == HISTDESK_OK && places == 2);
    HOLDS(histdesk_trigger_text(desk, 2, &texts) == HISTDESK_OK);
    copy_all();
    HOLDS(matching(HISTDESK_WAKEUP_LATENCY, "lat >= 0", &places) == HISTDESK_OK && places == 0);
    histdesk_forget(desk);
    texts = rows = latencies = places = triggers = rows_changed = made_changed = lines = holes = 0;
    copy_all();
}

/* What was asked for stays after edits, and events are those that are held at the places now: there is none if an event of
 * another stamp came to the line. */
static void ask_and_edit(void) {
    histdesk_line at;
    histdesk_event event;
    histdesk_row row;
    uint8_t list[64];
    uint64_t count, rows_before = 77;
    fill();
    HOLDS(histdesk_events(desk, &count) == HISTDESK_OK && count == 5);
    HOLDS(histdesk_list(desk, 1, &count) == HISTDESK_OK && histdesk_rows(desk, 4, &count) == HISTDESK_OK);
    HOLDS(histdesk_unload(desk, 1, &count) == HISTDESK_OK && count == 1);
    HOLDS(histdesk_strike(desk, 0, 1) == HISTDESK_OK && histdesk_remove(desk, 4) == HISTDESK_OK);
    HOLDS(histdesk_text_copy(desk, 0, list, sizeof list) == 24 && memcmp(list, "1:1 a-1 [001] 1.000120:\n", 24) == 0);
    HOLDS(histdesk_rows_copy(desk, 1, &row, 1) == 1 && row.key.part[0].text.bytes[0] == 'w' && row.hitcount == 1);
    HOLDS(histdesk_events_copy(desk, 0, &event, 1) == 1 && event.name == HISTDESK_NONE && event.comm.length == 0);
    HOLDS(event.place.stamp == 1000100 && event.place.cpu == 0 && event.place.line == 1 && event.pid == 0);
    HOLDS(histdesk_events_copy(desk, 2, &event, 1) == 1 && event.name == HISTDESK_NONE && event.place.cpu == 1);
    HOLDS(histdesk_events_copy(desk, 4, &event, 1) == 1 && event.name == HISTDESK_SWITCH && event.prio == -1);
    HOLDS(insert("b-1 [001] 1.000120: x: y", &at) == HISTDESK_OK && at.cpu == 1 && at.line == 1);
    HOLDS(histdesk_events_copy(desk, 2, &event, 1) == 1 && event.name == HISTDESK_OTHER && event.task.bytes[0] == 'b');
    HOLDS(histdesk_unload(desk, 1, &count) == HISTDESK_OK && load("c-1 [001] 1.000121: x: y", &count) == HISTDESK_OK);
    HOLDS(histdesk_event_at(desk, 1, 1, &event) == HISTDESK_OK && event.place.stamp == 1000121);
    HOLDS(histdesk_events_copy(desk, 2, &event, 1) == 1 && event.name == HISTDESK_NONE && event.task.length == 0);
    HOLDS(event.place.stamp == 1000120 && event.place.cpu == 1 && event.place.line == 1 && event.common_pid == 0);
    HOLDS(histdesk_rows(desk, 4, &rows_before) == HISTDESK_NO_TRIGGER && rows_before == 77);
    HOLDS(histdesk_rows_copy(desk, 1, &row, 1) == 1 && row.key.part[0].text.bytes[0] == 'w');
}

static uint32_t strike_events(const histdesk_place *places, size_t count, bool reports, uint64_t *struck) {
    histdesk_place *own = exact(places, count * sizeof *places);
    uint32_t code = histdesk_strike_events(desk, own, count, reports, struck);
    free(own);
    return code;
}

/* Whether the report has so many rows, or more, and none twice. */
static bool is_reported(uint64_t rows, uint64_t made) {
    histdesk_report report;
    histdesk_changed changed[16];
    bool holds = histdesk_report_of(desk, &report) == HISTDESK_OK && report.has_rows && report.has_made;
    size_t count = histdesk_rows_changed_copy(desk, 0, changed, 16);
    holds &= count == report.rows && count >= rows && report.made >= made;
    for (size_t one = 0; one < count; one++)
        for (size_t other = 0; other < one; other++)
            holds &= memcmp(&changed[one], &changed[other], sizeof *changed) != 0;
    return holds;
}

/* One call strikes the events at places up to the first one that is refused, such as a place that comes twice. */
static void strike_many(void) {
    histdesk_place places[] = {{1000100, 0, 1}, {0, 0, 2}, {1000100, 0, 1}};
    histdesk_report report;
    uint64_t count, struck = 77;
    fill();
    HOLDS(strike_events(places, 0, true, &struck) == HISTDESK_OK && struck == 0);
    HOLDS(histdesk_report_of(desk, &report) == HISTDESK_OK && !report.has_rows && !report.has_made);
    HOLDS(strike_events(places, 3, true, &struck) == HISTDESK_NO_EVENT && struck == 2);
    HOLDS(is_reported(6, 2));
    HOLDS(histdesk_latencies(desk, 2, &count) == HISTDESK_OK && count == 0);
    HOLDS(strike_events(places, 1, true, &struck) == HISTDESK_NO_EVENT && struck == 0 && is_reported(6, 2));
    HOLDS(matching(HISTDESK_SWITCH, "next_pid >= 42", &count) == HISTDESK_OK && count == 2);
    HOLDS(histdesk_places_copy(desk, 0, places, 2) == 2 && strike_events(places, 2, false, &struck) == HISTDESK_OK);
    HOLDS(struck == 2 && histdesk_report_of(desk, &report) == HISTDESK_OK && !report.has_rows && !report.has_made);
    HOLDS(histdesk_events(desk, &count) == HISTDESK_OK && count == 1 && report.rows == 0 && report.made == 0);
    places[0].cpu = 7;
    HOLDS(strike_events(places, 2, false, &struck) == HISTDESK_NO_LANE && struck == 0);
}

/* What one desk holds and tells is kept apart from what another one does. */
static void keep_apart(void) {
    histdesk *first = desk, *second = exact(&(histdesk){0}, sizeof *second);
    histdesk_refusal refusal;
    uint64_t count;
    fill();
    desk = second;
    HOLDS(histdesk_new(second) == HISTDESK_OK && load("a-1 [000] 1.000000:", &count) == HISTDESK_OK && count == 1);
    HOLDS(histdesk_hist(second, 1, &count) == HISTDESK_NO_TRIGGER);
    HOLDS(histdesk_refused(first, &refusal) == HISTDESK_OK && refusal.number == HISTDESK_OK);
    HOLDS(histdesk_events(first, &count) == HISTDESK_OK && count == 5);
    HOLDS(histdesk_events(second, &count) == HISTDESK_OK && count == 1);
    histdesk_free(first);
    HOLDS(histdesk_events(second, &count) == HISTDESK_OK && count == 1);
    histdesk_free(second);
    free(second);
    desk = first;
}

/* ---- Handles without a desk. */

static void are_closed(void) {
    uint64_t number = 77;
    uint32_t id = 77;
    histdesk_line at = {77, 77};
    histdesk_event event = {.name = 77};
    histdesk_totals totals = {77, 77, 77};
    histdesk_report report = {.rows = 77};
    histdesk_refusal refusal = {.number = 77};
    histdesk_losses_read read = {.holes = 77};
    HOLDS(lines_in(torn, &number) == HISTDESK_CLOSED && losses_in(torn, &read) == HISTDESK_CLOSED && read.holes == 77);
    HOLDS(load(trace, &number) == HISTDESK_CLOSED && histdesk_unload(desk, 0, &number) == HISTDESK_CLOSED);
    HOLDS(insert("a-1 [000] 1.000100:", &at) == HISTDESK_CLOSED && histdesk_strike(desk, 0, 1) == HISTDESK_CLOSED);
    HOLDS(strike_events(&(histdesk_place){0, 0, 1}, 1, true, &number) == HISTDESK_CLOSED);
    HOLDS(attach(HISTDESK_WAKING, "hist:keys=pid", &id) == HISTDESK_CLOSED && refilter(1, "") == HISTDESK_CLOSED);
    HOLDS(histdesk_unfilter(desk, 1) == HISTDESK_CLOSED && histdesk_remove(desk, 1) == HISTDESK_CLOSED);
    HOLDS(histdesk_totals_of(desk, 1, &totals) == HISTDESK_CLOSED && histdesk_hist(desk, 1, &number) == HISTDESK_CLOSED);
    HOLDS(histdesk_list(desk, 0, &number) == HISTDESK_CLOSED && histdesk_trigger_text(desk, 1, &number) == HISTDESK_CLOSED);
    HOLDS(histdesk_rows(desk, 1, &number) == HISTDESK_CLOSED && histdesk_latencies(desk, 1, &number) == HISTDESK_CLOSED);
    HOLDS(histdesk_events(desk, &number) == HISTDESK_CLOSED && histdesk_lane(desk, 0, 1, &number) == HISTDESK_CLOSED);
    HOLDS(matching(0, "", &number) == HISTDESK_CLOSED && histdesk_triggers(desk, &number) == HISTDESK_CLOSED);
    HOLDS(histdesk_event_at(desk, 0, 1, &event) == HISTDESK_CLOSED && histdesk_report_of(desk, &report) == HISTDESK_CLOSED);
    HOLDS(histdesk_refused(desk, &refusal) == HISTDESK_CLOSED && !histdesk_is_deferred(desk));
    HOLDS(number == 77 && id == 77 && at.cpu == 77 && at.line == 77 && event.name == 77 && refusal.number == 77);
    HOLDS(totals.hits == 77 && totals.entries == 77 && totals.dropped == 77 && report.rows == 77);
    copy_all();
    histdesk_forget(desk);
    histdesk_free(desk);
    HOLDS(desk->at == NULL);
}

/* ---- Refusals. */

typedef size_t (*writing)(const histdesk_refusal *, uint8_t *, size_t);

/* Whether a refusal is written like this, into room of each size. */
static bool is_written(writing write, const histdesk_refusal *refusal, const char *want) {
    bool holds = true;
    for (size_t room = 0; room <= strlen(want) + 2; room++) {
        size_t length = strlen(want) < room ? strlen(want) : room;
        uint8_t *to = exact(NULL, room);
        memset(to, 0xa5, room);
        holds &= write(refusal, to, room) == length && (length == 0 || memcmp(to, want, length) == 0);
        for (size_t at = length; at < room; at++)
            holds &= to[at] == 0xa5;
        free(to);
    }
    return holds;
}

/* Whether a call is refused with this: the whole refusal, its text and its words. */
static bool is_refused(uint32_t code, histdesk_refusal want, const char *text, const char *words) {
    histdesk_refusal *own = exact(NULL, sizeof *own);
    histdesk_refused(desk, own);
    bool holds = code == want.number && own->number == code && own->fault == want.fault && own->line == want.line &&
                 own->filter_fault == want.filter_fault && own->cpu == want.cpu && own->trigger == want.trigger &&
                 own->has_place == want.has_place && own->place == want.place;
    holds &= is_written(histdesk_refusal_text, own, text) && is_written(histdesk_refusal_words, own, words);
    free(own);
    return holds;
}
#define REFUSED(call, text, words, ...) HOLDS(is_refused(call, (histdesk_refusal){__VA_ARGS__}, text, words))

static void refuse_edits(void) {
    static const char third[] = "kernel syntax that histdesk does not support";
    uint64_t count = 77;
    uint32_t id = 77;
    histdesk_line at = {77, 77};
    fill();
    REFUSED(HISTDESK_OK, "", "", .number = 0);
    REFUSED(load("\nhello", &count), "refused 3: line 2 fault 1",
            "line 2: expected TASK-PID [CPU] and a space at the start of the line",
            .number = HISTDESK_BAD_LINE, .line = 2, .fault = 1);
    REFUSED(insert("a-1 [8192] 1.000000:", &at), "refused 3: line 1 fault 2", "line 1: the CPU number is above 8191",
            .number = HISTDESK_BAD_LINE, .line = 1, .fault = 2);
    REFUSED(load(trace, &count), "refused 4: cpu 0", "events of CPU 0 are already held", .number = HISTDESK_LANE_HELD);
    REFUSED(load("a-1 [001] 1.000000:", &count), "refused 4: cpu 1", "events of CPU 1 are already held",
            .number = HISTDESK_LANE_HELD, .cpu = 1);
    REFUSED(histdesk_unload(desk, UINT32_MAX, &count), "refused 5: cpu 4294967295", "no events of CPU 4294967295 are held",
            .number = HISTDESK_NO_LANE, .cpu = UINT32_MAX);
    REFUSED(histdesk_strike(desk, 7, 1), "refused 5: cpu 7", "no events of CPU 7 are held", .number = HISTDESK_NO_LANE, .cpu = 7);
    REFUSED(histdesk_strike(desk, 0, 5), "refused 6", NO_EVENT, .number = HISTDESK_NO_EVENT);
    REFUSED(insert("", &at), "refused 6", NO_EVENT, .number = HISTDESK_NO_EVENT);
    REFUSED(attach(HISTDESK_WAKING, "", &id), "refused 8: fault 2 at 0", "the trigger can't be read: unexpected token",
            .number = HISTDESK_BAD_TRIGGER, .fault = 2, .has_place = true);
    REFUSED(attach(HISTDESK_WAKING, "hist:keys=pids", &id), "refused 8: fault 3",
            "the trigger can't be read: the event has no such field, or the trigger has no such variable",
            .number = HISTDESK_BAD_TRIGGER, .fault = 3);
    char words[128] = "the trigger can't be read: ";
    REFUSED(attach(HISTDESK_WAKING, "hist:keys=pid:pause", &id), "refused 8: fault 10 at 14", strcat(words, third),
            .number = HISTDESK_BAD_TRIGGER, .fault = 10, .has_place = true, .place = 14);
    REFUSED(attach(HISTDESK_WAKING, "hist:keys=pid if comm ~ \"[a\"", &id), "refused 8: fault 11 filter 5 at 7",
            "the trigger can't be read: its filter: invalid glob pattern",
            .number = HISTDESK_BAD_TRIGGER, .fault = 11, .filter_fault = 5, .has_place = true, .place = 7);
    REFUSED(refilter(1, "pid = 1"), "refused 9: filter 2 at 4", "the filter can't be read: unexpected token",
            .number = HISTDESK_BAD_FILTER, .filter_fault = 2, .has_place = true, .place = 4);
    REFUSED(refilter(1, "!!!!!!!!!!!!!!!!!!!!!!!!!!!!!!!!!pid==1"), "refused 9: filter 7",
            "the filter can't be read: more than 32 nested ( and !", .number = HISTDESK_BAD_FILTER, .filter_fault = 7);
    REFUSED(refilter(9, "pid == 1"), "refused 10", "no such trigger is attached", .number = HISTDESK_NO_TRIGGER);
    REFUSED(histdesk_remove(desk, 1), "refused 11: trigger 2", "trigger 2 reads the variable that this one saves",
            .number = HISTDESK_IN_USE, .trigger = 2);
    HOLDS(count == 77 && id == 77 && at.cpu == 77 && at.line == 77);
}

static void refuse_questions(void) {
    uint64_t count = 77;
    uint32_t id = 77;
    histdesk_event event = {.name = 77};
    fill();
    REFUSED(attach(HISTDESK_WAKEUP, "hist:keys=pid:ts0=common_timestamp.usecs", &id), "refused 12: trigger 1",
            "trigger 1 already saves a variable of that name", .number = HISTDESK_NAME_TAKEN, .trigger = 1);
    REFUSED(attach(HISTDESK_SWITCH, "hist:keys=next_pid:a=common_timestamp.usecs-$b", &id), "refused 13",
            "no attached trigger saves the variable that it reads", .number = HISTDESK_NO_VARIABLE);
    REFUSED(attach(HISTDESK_SWITCH, "hist:keys=next_comm:a=common_timestamp.usecs-$ts0", &id), "refused 14",
            "its keys don't match those of the trigger that saves what it reads", .number = HISTDESK_KEY_MISMATCH);
    REFUSED(attach(HISTDESK_OTHER, "hist:keys=common_pid", &id), "refused 16", "there is no such command or event",
            .number = HISTDESK_BAD_COMMAND);
    REFUSED(attach(HISTDESK_NONE, "hist:keys=pid", &id), "refused 16", "there is no such command or event",
            .number = HISTDESK_BAD_COMMAND);
    REFUSED(matching(UINT32_MAX, "pid == 1", &count), "refused 16", "there is no such command or event",
            .number = HISTDESK_BAD_COMMAND);
    REFUSED(matching(HISTDESK_SWITCH, "pid == 1", &count), "refused 9: filter 3 at 0",
            "the filter can't be read: the event has no such field",
            .number = HISTDESK_BAD_FILTER, .filter_fault = 3, .has_place = true);
    REFUSED(histdesk_latencies(desk, 1, &count), "refused 17", "the trigger reads no variable, so it measures no latencies",
            .number = HISTDESK_NOT_READING);
    REFUSED(histdesk_hist(desk, 0, &count), "refused 10", "no such trigger is attached", .number = HISTDESK_NO_TRIGGER);
    REFUSED(histdesk_list(desk, 2, &count), "refused 5: cpu 2", "no events of CPU 2 are held",
            .number = HISTDESK_NO_LANE, .cpu = 2);
    REFUSED(histdesk_event_at(desk, 0, 5, &event), "refused 6", NO_EVENT, .number = HISTDESK_NO_EVENT);
    HOLDS(count == 77 && id == 77 && event.name == 77);
    for (int number = 5; number <= 64; number++)
        attach(HISTDESK_WAKING, "hist:keys=pid", &id);
    HOLDS(id == 64);
    REFUSED(attach(HISTDESK_WAKING, "hist:keys=pid", &id), "refused 15", "64 triggers are attached, or the ids are used up",
            .number = HISTDESK_TOO_MANY_TRIGGERS);
    REFUSED(histdesk_events(desk, &count), "", "", .number = 0);
}

/* Refusals that no desk has told. */
static void write_refusals(void) {
    static const struct {
        histdesk_refusal refusal;
        const char *text, *words;
    } all[] = {
        {{.number = 2}, "refused 2", "no trace has that number"},
        {{.number = 7}, "refused 7", "more than 1048576 events would be held, or a line number would pass 4294967295"},
        {{.number = 16}, "refused 16", "there is no such command or event"},
        {{.number = 3, .line = UINT64_MAX, .fault = 3}, "refused 3: line 18446744073709551615 fault 3",
         "line 18446744073709551615: expected a timestamp SECONDS.MICROSECONDS: here, or the flags exceed 16 bytes"},
        {{.number = 3, .line = 1, .fault = 7}, "refused 3: line 1 fault 7", "line 1: the line is longer than 4096 bytes"},
        {{.number = 0}, "", ""},
        {{.number = 18}, "", ""},
        {{.number = HISTDESK_CLOSED}, "", ""},
        {{.number = 3, .line = 1}, "", ""},
        {{.number = 3, .line = 1, .fault = 8}, "", ""},
        {{.number = 8}, "", ""},
        {{.number = 8, .fault = 12}, "", ""},
        {{.number = 8, .fault = 11, .filter_fault = 8}, "", ""},
        {{.number = 9}, "", ""},
        {{.number = 9, .filter_fault = UINT32_MAX}, "", ""},
        {{.number = 9, .filter_fault = 5}, "", ""},
        {{.number = 9, .filter_fault = 7, .has_place = true}, "", ""},
        {{.number = 10, .line = 1}, "", ""},
    };
    for (size_t at = 0; at < sizeof all / sizeof *all; at++) {
        histdesk_refusal *own = exact(&all[at].refusal, sizeof *own);
        test(__LINE__, all[at].text, is_written(histdesk_refusal_text, own, all[at].text));
        test(__LINE__, all[at].words, is_written(histdesk_refusal_words, own, all[at].words));
        free(own);
    }
}

int main(void) {
    desk = exact(&(histdesk){0}, sizeof *desk);
    are_closed(); /* never made */
    ask_and_copy();
    ask_and_edit();
    strike_many();
    keep_apart();
    refuse_edits();
    refuse_questions();
    write_refusals();
    histdesk_free(desk);
    rows = latencies = places = triggers = texts = rows_changed = made_changed = lines = holes = 0;
    are_closed(); /* ended */
    free(desk);
    printf("%u of %u tests hold\n", good, tests);
    return good < tests;
}
