/* script [--numbers|--refusing] SCRIPT [TRACE]...: runs a script through the library and prints what the program `histdesk`
 * prints, with its status. With --numbers the rows, latencies, events, triggers and reports that the library answers as
 * numbers are compared with its texts and with each other; if they don't agree, it says so and ends with status 3. With
 * --refusing a part of the library's growths of memory is refused, by chance from a fixed start: a call that runs out of
 * memory is made again, with memory, and the output is the same. */
#include "heap.h"
#include "script.h"

#include <inttypes.h>
#include <stdio.h>
#include <stdlib.h>
#include <string.h>

typedef struct {
    histdesk desk;
    bytes *traces; /* that of number 1 first */
    size_t trace_count;
    bool has_numbers, was_refused;
    bytes out; /* of one command */
} session;

/* ---- Growths that are refused. */

static bool is_refusing; /* --refusing */
static uint32_t code_told;

/* Every fourth growth or so. */
static bool refuses(void) {
    static uint64_t state = 1;
    state = state * 6364136223846793005u + 1442695040888963407u;
    return state >> 62 == 0;
}

static void refuse_growths(void) {
    heap.refuses = refuses;
    heap.is_counting = is_refusing;
}

/* Whether memory ran out in a call with that code. From here on there is memory. */
static bool ran_out(uint32_t code) {
    heap.is_counting = false;
    code_told = code;
    return is_refusing && code == HISTDESK_MEMORY;
}

/* The code of a call, which is made again if memory ran out; and of one that never wants memory. */
#define TRIED(call) (refuse_growths(), ran_out(call) ? (call) : code_told)
#define SURE(call) (refuse_growths(), (void)ran_out(call), code_told)

/* ---- The script. */

static _Noreturn void end(const char *why) {
    fflush(stdout);
    fprintf(stderr, "histdesk: %s\n", why);
    exit(2);
}

static bytes read_whole(FILE *file, const char *fault) {
    bytes whole = {0};
    static uint8_t part[65536];
    if (!file)
        end(fault);
    for (size_t length; (length = fread(part, 1, sizeof part, file)) > 0;)
        put(&whole, part, length);
    if (ferror(file))
        end(fault);
    fclose(file);
    put(&whole, "", 1); /* so that its bytes are somewhere */
    whole.length--;
    return whole;
}

/* A refusal, as the library writes it. */
static void put_refusal(session *run, const histdesk_refusal *refusal) {
    uint8_t line[64], words[160];
    size_t length = histdesk_refusal_text(refusal, line, sizeof line);
    put(&run->out, line, length);
    put(&run->out, "\n", 1);
    run->was_refused = true;
    if (length == 0 || (run->has_numbers && histdesk_refusal_words(refusal, words, sizeof words) == 0))
        fault("refusal %" PRIu32 " has no text, or no words", refusal->number);
}

/* Whether a call's code says that what was asked is accepted; if not, the refusal is written. */
static bool accepts(session *run, uint32_t code) {
    histdesk_refusal refusal;
    if (code == HISTDESK_MEMORY)
        end("out of memory");
    if (histdesk_refused(&run->desk, &refusal) != HISTDESK_OK || refusal.number != code)
        fault("the refusal of a call with code %" PRIu32 " is not of it", code);
    if (code != HISTDESK_OK)
        put_refusal(run, &refusal);
    return code == HISTDESK_OK;
}

static void put_text(session *run, const command *asked, uint64_t length) {
    bytes whole = {0};
    whole_text(&run->desk, length, &whole);
    put(&run->out, whole.at, whole.length);
    if (run->has_numbers && asked->kind == HIST)
        check_hist(&run->desk, asked->number, &whole);
    else if (run->has_numbers)
        check_list(&run->desk, asked->number, &whole);
    free(whole.at);
}

static void put_latencies(session *run, uint32_t id, uint64_t count) {
    histdesk_latency *latencies = whole_latencies(&run->desk, count);
    for (uint64_t at = 0; at < count; at++) {
        const histdesk_latency *one = &latencies[at];
        put_form(&run->out, "%" PRIu32 ":%" PRIu32 " -> %" PRIu32 ":%" PRIu32 ": %" PRIu64 " us\n", one->saved.cpu,
                 one->saved.line, one->read.cpu, one->read.line, one->micros);
    }
    put_form(&run->out, "Latencies: %" PRIu64 "\n", count);
    free(latencies);
    if (run->has_numbers)
        check_latencies(&run->desk, id);
}

/* The questions. */
static void answer(session *run, const command *asked) {
    histdesk *desk = &run->desk;
    uint64_t count = 0;
    histdesk_totals totals;
    if (asked->kind == HIST && accepts(run, TRIED(histdesk_hist(desk, asked->number, &count))))
        put_text(run, asked, count);
    else if (asked->kind == LIST && accepts(run, TRIED(histdesk_list(desk, asked->number, &count))))
        put_text(run, asked, count);
    else if (asked->kind == LATENCIES && accepts(run, TRIED(histdesk_latencies(desk, asked->number, &count))))
        put_latencies(run, asked->number, count);
    else if (asked->kind == TOTALS && accepts(run, TRIED(histdesk_totals_of(desk, asked->number, &totals))))
        put_form(&run->out, "hits %" PRIu64 " entries %" PRIu64 " dropped %" PRIu64 "\n", totals.hits, totals.entries,
                 totals.dropped);
}

static void load(session *run, uint32_t number) {
    histdesk_refusal none = {.number = HISTDESK_NO_FILE};
    uint64_t events;
    if (number == 0 || number > run->trace_count) {
        put_refusal(run, &none);
        return;
    }
    const bytes *trace = &run->traces[number - 1];
    if (accepts(run, TRIED(histdesk_load(&run->desk, trace->at, trace->length, &events))))
        put_form(&run->out, "loaded %" PRIu64 "\n", events);
}

/* The edits of triggers. */
static void edit_triggers(session *run, const command *asked) {
    histdesk *desk = &run->desk;
    uint32_t id = asked->number;
    const char *done = "refiltered";
    uint32_t code;
    if (asked->kind == ATTACH) {
        done = "attached";
        code = TRIED(histdesk_attach(desk, asked->number, asked->rest.at, asked->rest.length, &id));
    } else if (asked->kind == REFILTER) {
        code = TRIED(histdesk_refilter(desk, id, asked->rest.at, asked->rest.length));
    } else if (asked->kind == UNFILTER) {
        code = TRIED(histdesk_unfilter(desk, id));
    } else {
        done = "removed";
        code = SURE(histdesk_remove(desk, id));
    }
    if (accepts(run, code))
        put_form(&run->out, "%s %" PRIu32 "\n", done, id);
}

/* An insert or a strike. */
static void edit_one_event(session *run, const command *asked) {
    bool is_insert = asked->kind == INSERT;
    histdesk_line at = {asked->number, asked->line};
    if (run->has_numbers)
        before_edit(&run->desk);
    uint32_t code = is_insert ? TRIED(histdesk_insert(&run->desk, asked->rest.at, asked->rest.length, &at))
                              : SURE(histdesk_strike(&run->desk, at.cpu, at.line));
    bool is_accepted = accepts(run, code);
    if (is_accepted)
        put_form(&run->out, "%s %" PRIu32 ":%" PRIu32 "\n", is_insert ? "inserted" : "struck", at.cpu, at.line);
    if (run->has_numbers)
        after_edit(&run->desk);
}

static void perform(session *run, const command *asked) {
    histdesk_refusal no_form = {.number = HISTDESK_BAD_COMMAND};
    uint64_t events;
    switch (asked->kind) {
    case NOTHING:
        break;
    case NO_FORM:
        put_refusal(run, &no_form);
        break;
    case LOAD:
        load(run, asked->number);
        break;
    case UNLOAD:
        if (accepts(run, SURE(histdesk_unload(&run->desk, asked->number, &events))))
            put_form(&run->out, "unloaded %" PRIu64 "\n", events);
        break;
    case INSERT:
    case STRIKE:
        edit_one_event(run, asked);
        break;
    case ATTACH:
    case REFILTER:
    case UNFILTER:
    case REMOVE:
        edit_triggers(run, asked);
        break;
    case HIST:
    case TOTALS:
    case LATENCIES:
    case LIST:
        answer(run, asked);
    }
}

static void run_line(session *run, text line) {
    command asked = read_command(line);
    perform(run, &asked);
    if (fwrite(run->out.at, 1, run->out.length, stdout) != run->out.length)
        end("write failed");
    run->out.length = 0;
    if (run->has_numbers && (asked.kind == LOAD || asked.kind == UNLOAD))
        check_events(&run->desk);
}

static void run_script(session *run, const bytes *script) {
    for (size_t at = 0; at < script->length;) {
        const uint8_t *start = script->at + at, *line_break = memchr(start, '\n', script->length - at);
        size_t length = line_break ? (size_t)(line_break - start) : script->length - at;
        run_line(run, (text){start, length});
        at += length + 1;
    }
    if (run->has_numbers)
        check_events(&run->desk);
}

int main(int count, char **words) {
    session run = {0};
    int first = 1;
    if (count > first && strncmp(words[first], "--", 2) == 0) {
        run.has_numbers = strcmp(words[first], "--numbers") == 0;
        is_refusing = strcmp(words[first++], "--refusing") == 0;
    }
    if (count <= first)
        end("bad words");
    run.trace_count = (size_t)(count - first - 1);
    run.traces = room_for(run.trace_count, sizeof *run.traces);
    for (size_t at = 0; at < run.trace_count; at++)
        run.traces[at] = read_whole(fopen(words[first + 1 + (int)at], "rb"), "cannot read a trace");
    bytes script = read_whole(fopen(words[first], "rb"), "cannot read the script");
    if (histdesk_new(&run.desk) != HISTDESK_OK)
        end("out of memory");
    run_script(&run, &script);
    histdesk_free(&run.desk);
    for (size_t at = 0; at < run.trace_count; at++)
        free(run.traces[at].at);
    free(run.traces);
    free(script.at);
    free(run.out.at);
    if (fflush(stdout) != 0)
        end("write failed");
    return run.was_refused;
}
