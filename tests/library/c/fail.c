/* fail: a session that makes each call, with each growth of the library's memory refused in turn: by itself, or with all after
 * it. If a call answers that memory ran out, it is given memory and made again, and answers what it should. In the end nothing
 * is held of the heap. What is wrong is printed with its line in this file; the last line says how many sessions held. */
#include "heap.h"
#include "histdesk.h"

#include <inttypes.h>
#include <stdarg.h>
#include <stdio.h>
#include <string.h>

static uint64_t refuse_at;
static bool is_for_good, is_given; /* is_given: no growth is refused for now */

static bool refuses(void) {
    return !is_given && (heap.growths == refuse_at || (is_for_good && heap.growths > refuse_at));
}

/* ---- One session. */

static histdesk desk;
static uint64_t wants; /* how often a call wanted memory */
static char wrongs[4096]; /* what is wrong, printed after the session */
static size_t wrongs_length;

static void wrong(int line, const char *form, ...) {
    va_list words;
    if (wrongs_length + 256 > sizeof wrongs)
        return;
    wrongs_length += (size_t)sprintf(wrongs + wrongs_length, "  line %d: ", line);
    va_start(words, form);
    wrongs_length += (size_t)vsnprintf(wrongs + wrongs_length, 160, form, words);
    va_end(words);
    wrongs[wrongs_length++] = '\n';
}

/* Whether memory ran out, which the refusal says too; from here on there is memory until `done`. */
static bool wants_memory(int line, uint32_t code) {
    histdesk_refusal refusal = {.number = HISTDESK_CLOSED};
    if (code != HISTDESK_MEMORY)
        return false;
    wants++;
    if (histdesk_refused(&desk, &refusal) != HISTDESK_OK || refusal.number != HISTDESK_MEMORY)
        wrong(line, "memory ran out, the refusal is of %" PRIu32, refusal.number);
    is_given = true;
    return true;
}

static void done(int line, uint32_t want, uint32_t code) {
    is_given = false;
    if (code != want)
        wrong(line, "code %" PRIu32 ", not %" PRIu32, code, want);
}

/* A call with this code. If memory ran out, `same` says what must be as it was, and the call is made again. */
#define KEEPS(want, call, same)                                \
    do {                                                       \
        uint32_t code = (call);                                \
        if (wants_memory(__LINE__, code)) {                    \
            HOLDS(same);                                       \
            code = (call);                                     \
        }                                                      \
        done(__LINE__, want, code);                            \
    } while (0)
#define GIVES(want, call) KEEPS(want, call, true)
/* A call that never wants memory. */
#define ALWAYS(want, call) done(__LINE__, want, call)
/* What must be. */
#define HOLDS(what)                                  \
    do {                                             \
        if (!(what))                                 \
            wrong(__LINE__, "not so: %s", #what);    \
    } while (0)

#define BYTES(literal) (const uint8_t *)(literal), sizeof(literal) - 1

static const char trace[] = "a-1 [000] 1.000100: sched_waking: comm=w pid=42 prio=120 target_cpu=000\n"
                            "# not an event\n"
                            "a-1 [001] 1.000120: x: y\n"
                            "<idle>-0 [000] 1.000150: sched_switch: prev_comm=swapper/0 prev_pid=0 prev_prio=120 "
                            "prev_state=R ==> next_comm=w next_pid=42 next_prio=120\n";
static const char saver[] = "hist:keys=pid:ts0=common_timestamp.usecs";
static const char whole_saver[] = "hist:keys=pid:vals=hitcount:ts0=common_timestamp.usecs:sort=hitcount:size=2048";
static const char reader[] = "hist:keys=next_pid:vals=$lat:lat=common_timestamp.usecs-$ts0:"
                             "onmatch(sched.sched_waking).wakeup_latency($lat,next_pid,next_prio)";
static const char reader_hist[] =
    "# event histogram\n#\n"
    "# trigger info: hist:keys=next_pid:vals=hitcount,$lat:lat=common_timestamp.usecs-$ts0:sort=hitcount:size=2048:"
    "onmatch(sched.sched_waking).wakeup_latency($lat,next_pid,next_prio) [active]\n#\n\n"
    "{ next_pid:         42 } hitcount:          1  lat:         50\n"
    "\nTotals:\n    Hits: 1\n    Entries: 1\n    Dropped: 0\n";

/* Whether the text that was asked for last is this one. Copies take no memory, here and below. */
static bool is_text(uint64_t length, const char *want) {
    uint8_t own[1024];
    uint64_t before = heap.growths;
    size_t copied = histdesk_text_copy(&desk, 0, own, sizeof own);
    return length == strlen(want) && copied == length && memcmp(own, want, copied) == 0 && before == heap.growths;
}

static bool is_row(uint64_t count, uint64_t kind, int64_t number, uint64_t hitcount, uint64_t sum) {
    histdesk_row rows[2];
    uint64_t before = heap.growths;
    size_t copied = histdesk_rows_copy(&desk, 0, rows, 2);
    const histdesk_row want = {{1, {{.number = number, .kind = kind}}}, hitcount, {sum}};
    return count == 1 && copied == 1 && memcmp(&rows[0], &want, sizeof want) == 0 && before == heap.growths;
}

/* Whether there is one latency, from this line of CPU 0, with this stamp, to line 2 of CPU 0. */
static bool is_latency(uint64_t count, uint32_t line, uint64_t stamp) {
    histdesk_latency own[2];
    uint64_t before = heap.growths;
    size_t copied = histdesk_latencies_copy(&desk, 0, own, 2);
    const histdesk_latency want = {{stamp, 0, line}, {1000150, 0, 2}, 1000150 - stamp};
    return count == 1 && copied == 1 && memcmp(own, &want, sizeof want) == 0 && before == heap.growths;
}

static bool are_totals(const histdesk_totals *own, uint64_t hits, uint64_t entries) {
    return own->hits == hits && own->entries == entries && own->dropped == 0;
}

/* Whether these are the places that were asked for last, and the names of the events there. */
static bool are_places(uint64_t count, uint64_t want, const histdesk_place *places, const uint32_t *names) {
    histdesk_place own[4];
    histdesk_event events[4];
    uint64_t before = heap.growths;
    size_t copied = histdesk_places_copy(&desk, 0, own, 4), events_copied = histdesk_events_copy(&desk, 0, events, 4);
    if (count != want || copied != want || events_copied != want || before != heap.growths)
        return false;
    for (size_t at = 0; at < want; at++)
        if (memcmp(&own[at], &places[at], sizeof *own) != 0 || events[at].name != names[at])
            return false;
    return true;
}

static bool are_triggers(uint64_t count, uint64_t want) {
    static const histdesk_trigger all[] = {{1, HISTDESK_WAKING}, {2, HISTDESK_SWITCH}, {3, HISTDESK_WAKEUP_LATENCY}};
    histdesk_trigger own[4];
    uint64_t before = heap.growths;
    size_t copied = histdesk_triggers_copy(&desk, 0, own, 4);
    return count == want && copied == want && memcmp(own, all, want * sizeof *own) == 0 && before == heap.growths;
}

/* Whether a row of one number is among those that an edit named, if it named them. */
static bool is_named(bool has, uint64_t count, size_t (*copy)(histdesk *, uint64_t, histdesk_changed *, size_t), uint32_t id,
                     uint64_t kind, int64_t number) {
    histdesk_changed own[16];
    const histdesk_key key = {1, {{.number = number, .kind = kind}}};
    uint64_t before = heap.growths;
    size_t copied = copy(&desk, 0, own, 16);
    if (copied != count || before != heap.growths)
        return false;
    for (size_t at = 0; at < copied; at++)
        if (own[at].id == id && memcmp(&own[at].key, &key, sizeof key) == 0)
            return true;
    return !has && count == 0;
}

static void make(void) {
    void *old = desk.at;
    uint32_t code = histdesk_new(&desk);
    if (code == HISTDESK_MEMORY) {
        HOLDS(desk.at == old);
        wants++;
        is_given = true;
        code = histdesk_new(&desk);
    }
    done(__LINE__, HISTDESK_OK, code);
}

static void load_and_attach(void) {
    uint64_t events = 77;
    uint32_t id = 77;
    KEEPS(HISTDESK_OK, histdesk_load(&desk, BYTES(trace), &events), events == 77);
    HOLDS(events == 3);
    KEEPS(HISTDESK_OK, histdesk_attach(&desk, HISTDESK_WAKING, BYTES(saver), &id), id == 77);
    HOLDS(id == 1);
    KEEPS(HISTDESK_OK, histdesk_attach(&desk, HISTDESK_SWITCH, BYTES(reader), &id), id == 1);
    HOLDS(id == 2);
    GIVES(HISTDESK_OK, histdesk_attach(&desk, HISTDESK_WAKEUP_LATENCY, BYTES("hist:keys=lat.log2"), &id));
    HOLDS(id == 3);
}

static void ask_triggers(void) {
    uint64_t count = 77, old;
    histdesk_totals totals = {77, 77, 77};
    GIVES(HISTDESK_OK, histdesk_trigger_text(&desk, 1, &count));
    HOLDS(is_text(count, whole_saver));
    old = count;
    KEEPS(HISTDESK_OK, histdesk_hist(&desk, 2, &count), is_text(old, whole_saver) && count == old);
    HOLDS(is_text(count, reader_hist));
    old = count;
    KEEPS(HISTDESK_OK, histdesk_list(&desk, 1, &count), is_text(old, reader_hist) && count == old);
    HOLDS(is_text(count, "1:1 a-1 [001] 1.000120:\n"));
    GIVES(HISTDESK_OK, histdesk_rows(&desk, 3, &count));
    HOLDS(is_row(count, HISTDESK_LOG2, 6, 1, 0));
    KEEPS(HISTDESK_OK, histdesk_rows(&desk, 2, &count), is_row(count, HISTDESK_LOG2, 6, 1, 0));
    HOLDS(is_row(count, HISTDESK_NUMBER, 42, 1, 50));
    GIVES(HISTDESK_OK, histdesk_latencies(&desk, 2, &count));
    HOLDS(is_latency(count, 1, 1000100));
    KEEPS(HISTDESK_OK, histdesk_totals_of(&desk, 1, &totals), totals.hits == 77 && totals.dropped == 77);
    HOLDS(are_totals(&totals, 1, 1));
    GIVES(HISTDESK_OK, histdesk_triggers(&desk, &count));
    HOLDS(are_triggers(count, 3));
}

static void ask_events(void) {
    static const histdesk_place all[] = {{1000100, 0, 1}, {1000120, 1, 1}, {1000150, 0, 2}};
    static const uint32_t names[] = {HISTDESK_WAKING, HISTDESK_OTHER, HISTDESK_SWITCH};
    histdesk_event event;
    uint64_t count;
    ALWAYS(HISTDESK_OK, histdesk_event_at(&desk, 0, 2, &event));
    HOLDS(event.name == HISTDESK_SWITCH && event.pid == 42 && event.place.stamp == 1000150);
    GIVES(HISTDESK_OK, histdesk_events(&desk, &count));
    HOLDS(are_places(count, 3, all, names));
    KEEPS(HISTDESK_OK, histdesk_lane(&desk, 0, 2, &count), are_places(3, 3, all, names));
    HOLDS(are_places(count, 1, all + 2, names + 2));
    KEEPS(HISTDESK_OK, histdesk_matching(&desk, HISTDESK_WAKING, BYTES("pid == 42 && comm ~ 'w*'"), &count),
          are_places(1, 1, all + 2, names + 2));
    HOLDS(are_places(count, 1, all, names));
}

/* Whether these are the lines of the trace, or of its front. */
static bool are_lines(uint64_t count, uint64_t want) {
    static const histdesk_text_line all[] = {
        {72, 1000100, 0, HISTDESK_WAKING, 0, 0},
        {87, 0, 0, HISTDESK_LINE_SKIPPED, 0, 0},
        {112, 1000120, 1, HISTDESK_OTHER, 0, 0},
        {sizeof trace - 1, 1000150, 0, HISTDESK_SWITCH, 0, 0},
    };
    histdesk_text_line own[5];
    uint64_t before = heap.growths;
    size_t copied = histdesk_lines_copy(&desk, 0, own, 5);
    return count == want && copied == want && memcmp(own, all, want * sizeof *own) == 0 && before == heap.growths;
}

/* Whether there is the hole that a line in front of all others reports, if one is wanted. */
static bool are_losses(const histdesk_losses_read *read, uint64_t want, uint32_t cpu) {
    histdesk_hole own[2];
    uint64_t before = heap.growths;
    size_t copied = histdesk_losses_copy(&desk, 0, own, 2);
    return read->holes == want && copied == want && (want == 0 || own[0].cpu == cpu) && before == heap.growths;
}

static void ask_text(void) {
    static const char torn[] = "CPU:1 [LOST 5 EVENTS]\n", other[] = "CPU:2 [LOST 5 EVENTS]\n";
    histdesk_losses_read read = {.holes = 77};
    uint64_t count = 77;
    GIVES(HISTDESK_OK, histdesk_lines(&desk, (const uint8_t *)trace, 112, &count));
    HOLDS(are_lines(count, 3));
    KEEPS(HISTDESK_OK, histdesk_lines(&desk, BYTES(trace), &count), are_lines(count, 3));
    HOLDS(are_lines(count, 4));
    GIVES(HISTDESK_OK, histdesk_losses(&desk, BYTES(torn), &read));
    HOLDS(are_losses(&read, 1, 1));
    KEEPS(HISTDESK_OK, histdesk_losses(&desk, BYTES(other), &read), are_losses(&read, 1, 1));
    HOLDS(are_losses(&read, 1, 2) && are_lines(4, 4));
}

/* What triggers 1 and 2 count, and the power of two of the latency that trigger 3 counts. */
static void ask_all(uint64_t wakings, uint32_t line, uint64_t stamp, int64_t power) {
    histdesk_totals totals = {0, 0, 0};
    uint64_t count;
    GIVES(HISTDESK_OK, histdesk_totals_of(&desk, 1, &totals));
    HOLDS(are_totals(&totals, wakings, 1));
    GIVES(HISTDESK_OK, histdesk_latencies(&desk, 2, &count));
    HOLDS(is_latency(count, line, stamp));
    GIVES(HISTDESK_OK, histdesk_rows(&desk, 3, &count));
    HOLDS(is_row(count, HISTDESK_LOG2, power, 1, 0));
    HOLDS(!histdesk_is_deferred(&desk));
}

/* The report of an edit that changes one row of each trigger, or takes one away and brings one. If memory ran out, it may be
 * left out. */
static void ask_report(bool had_memory) {
    histdesk_report report;
    ALWAYS(HISTDESK_OK, histdesk_report_of(&desk, &report));
    HOLDS(is_named(report.has_rows, report.rows, histdesk_rows_changed_copy, 1, HISTDESK_NUMBER, 42));
    HOLDS(is_named(report.has_rows, report.rows, histdesk_rows_changed_copy, 2, HISTDESK_NUMBER, 42));
    HOLDS(is_named(report.has_made, report.made, histdesk_made_changed_copy, 3, HISTDESK_LOG2, 5));
    HOLDS(is_named(report.has_made, report.made, histdesk_made_changed_copy, 3, HISTDESK_LOG2, 6));
    HOLDS(!had_memory || (report.has_rows && report.has_made));
    HOLDS(!had_memory || !histdesk_is_deferred(&desk));
}

static void edit_events(void) {
    histdesk_line at = {77, 77};
    uint64_t refused_before = heap.refused;
    KEEPS(HISTDESK_OK,
          histdesk_insert(&desk, BYTES("a-1 [000] 1.000130: sched_waking: comm=w pid=42 prio=120 target_cpu=000"), &at),
          at.cpu == 77 && at.line == 77);
    HOLDS(at.cpu == 0 && at.line == 3);
    ask_report(heap.refused == refused_before);
    ask_all(2, 3, 1000130, 5);
    refused_before = heap.refused;
    ALWAYS(HISTDESK_OK, histdesk_strike(&desk, 0, 3));
    ask_report(heap.refused == refused_before);
    ask_all(1, 1, 1000100, 6);
}

/* Many strikes in one call never want memory, and their report may be left out, as that of one may. */
static void strike_many(void) {
    histdesk_line at = {77, 77};
    uint64_t struck = 77;
    KEEPS(HISTDESK_OK,
          histdesk_insert(&desk, BYTES("a-1 [000] 1.000130: sched_waking: comm=w pid=42 prio=120 target_cpu=000"), &at),
          at.cpu == 77 && at.line == 77);
    ask_all(2, 4, 1000130, 5);
    histdesk_place places[] = {{0, at.cpu, at.line}, {0, at.cpu, at.line}};
    uint64_t refused_before = heap.refused;
    ALWAYS(HISTDESK_NO_EVENT, histdesk_strike_events(&desk, places, 2, true, &struck));
    HOLDS(struck == 1);
    ask_report(heap.refused == refused_before);
    ask_all(1, 1, 1000100, 6);
}

static void edit_triggers(void) {
    uint64_t count;
    GIVES(HISTDESK_OK, histdesk_refilter(&desk, 1, BYTES("pid == 41")));
    GIVES(HISTDESK_OK, histdesk_latencies(&desk, 2, &count));
    HOLDS(count == 0);
    GIVES(HISTDESK_OK, histdesk_unfilter(&desk, 1));
    ask_all(1, 1, 1000100, 6);
    ALWAYS(HISTDESK_IN_USE, histdesk_remove(&desk, 1));
    ALWAYS(HISTDESK_OK, histdesk_remove(&desk, 3));
    GIVES(HISTDESK_OK, histdesk_triggers(&desk, &count));
    HOLDS(are_triggers(count, 2));
}

/* Whether the text or the words of a refusal are these; they may want memory, and then come when they are asked for again. */
static bool is_written(size_t (*write)(const histdesk_refusal *, uint8_t *, size_t), const histdesk_refusal *refusal,
                       const char *want) {
    uint8_t own[160];
    uint64_t before = heap.refused;
    size_t length = write(refusal, own, sizeof own);
    if (length == 0 && heap.refused > before) {
        wants++;
        is_given = true;
        length = write(refusal, own, sizeof own);
        is_given = false;
    }
    return length == strlen(want) && memcmp(own, want, length) == 0;
}

static void ask_refusals(void) {
    histdesk_refusal refusal;
    uint32_t id = 77;
    uint64_t count = 77;
    GIVES(HISTDESK_BAD_TRIGGER, histdesk_attach(&desk, HISTDESK_WAKING, BYTES("hist:keys=pid if comm ~ '[a'"), &id));
    ALWAYS(HISTDESK_OK, histdesk_refused(&desk, &refusal));
    HOLDS(is_written(histdesk_refusal_text, &refusal, "refused 8: fault 11 filter 5 at 7"));
    HOLDS(is_written(histdesk_refusal_words, &refusal, "the trigger can't be read: its filter: invalid glob pattern"));
    GIVES(HISTDESK_BAD_LINE, histdesk_load(&desk, BYTES("\nhello\n"), &count));
    ALWAYS(HISTDESK_OK, histdesk_refused(&desk, &refusal));
    HOLDS(is_written(histdesk_refusal_text, &refusal, "refused 3: line 2 fault 1"));
    GIVES(HISTDESK_LANE_HELD, histdesk_load(&desk, BYTES(trace), &count));
    GIVES(HISTDESK_BAD_FILTER, histdesk_refilter(&desk, 1, BYTES("pid = 1")));
    GIVES(HISTDESK_NOT_READING, histdesk_latencies(&desk, 1, &count));
    GIVES(HISTDESK_NO_LANE, histdesk_list(&desk, 7, &count));
    ALWAYS(HISTDESK_NO_EVENT, histdesk_strike(&desk, 0, 3));
    HOLDS(id == 77 && count == 77);
}

static void end_all(void) {
    uint64_t events;
    int64_t held = heap.blocks;
    histdesk_forget(&desk);
    /* A text, rows, latencies, places, triggers, lines and losses were held, each in one block or more. */
    HOLDS(heap.blocks <= held - 7);
    ALWAYS(HISTDESK_OK, histdesk_unload(&desk, 1, &events));
    HOLDS(events == 1);
    ALWAYS(HISTDESK_OK, histdesk_remove(&desk, 2));
    ALWAYS(HISTDESK_OK, histdesk_remove(&desk, 1));
    ALWAYS(HISTDESK_OK, histdesk_unload(&desk, 0, &events));
    HOLDS(events == 2);
    make();
    ALWAYS(HISTDESK_NO_LANE, histdesk_unload(&desk, 0, &events));
    histdesk_free(&desk);
    HOLDS(desk.at == NULL);
    HOLDS(heap.blocks == 0);
    histdesk_free(&desk);
}

/* How many growths a session makes, of which one, or each from one on, is refused. */
static uint64_t session(uint64_t at, bool for_good) {
    heap = (heap_state){.is_counting = true, .refuses = refuses};
    refuse_at = at;
    is_for_good = for_good;
    make();
    load_and_attach();
    ask_triggers();
    ask_events();
    ask_text();
    edit_events();
    strike_many();
    edit_triggers();
    ask_refusals();
    end_all();
    heap.is_counting = false;
    return heap.growths;
}

int main(void) {
    uint64_t last = session(0, false), sessions = 1, good = wrongs_length == 0;
    printf("%s", wrongs);
    for (int for_good = 0; for_good < 2; for_good++)
        for (uint64_t at = 1; at <= last; at++) {
            wrongs_length = 0;
            wrongs[0] = 0;
            session(at, for_good);
            sessions++;
            good += wrongs_length == 0;
            if (wrongs_length)
                printf("growth %" PRIu64 " refused%s:\n%.*s", at, for_good ? ", and all after it" : "", (int)wrongs_length,
                       wrongs);
        }
    if (last == 0 || wants == 0)
        printf("no growth came here, or no call wanted memory\n");
    else
        printf("%" PRIu64 " growths; memory ran out in %" PRIu64 " calls\n", last, wants);
    printf("%" PRIu64 " of %" PRIu64 " sessions hold\n", last && wants ? good : 0, sessions);
    return good < sessions;
}
