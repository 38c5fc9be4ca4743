/* waits TRACE: the longest waits of a trace, from a task's waking to the switch that runs it.
 *
 *     cc -o waits waits.c $(pkg-config --cflags --libs histdesk) */
#include <histdesk.h>
#include <inttypes.h>
#include <stdio.h>
#include <stdlib.h>

#define TEXT(literal) (const uint8_t *)(literal), sizeof(literal) - 1
enum { MOST_WAITS = 20 };

/* Ends the program if a call was refused, with the library's words. */
static void must(uint32_t code, histdesk *desk, const char *what) {
    histdesk_refusal refusal = {.number = code};
    uint8_t words[160];
    if (code == HISTDESK_OK)
        return;
    histdesk_refused(desk, &refusal);
    size_t length = histdesk_refusal_words(&refusal, words, sizeof words);
    fprintf(stderr, "waits: %s: %.*s\n", what, (int)length, (const char *)words);
    exit(1);
}

static void load(histdesk *desk, const char *path) {
    FILE *file = fopen(path, "rb");
    uint8_t *trace = NULL, *larger = NULL;
    size_t length = 0, room = 0;
    uint64_t events;
    do {
        room = 2 * room + 65536;
        if (!file || !(larger = realloc(trace, room)))
            break;
        trace = larger;
        length += fread(trace + length, 1, room - length, file);
    } while (length == room);
    if (!file || !larger || ferror(file)) {
        perror(path);
        exit(1);
    }
    must(histdesk_load(desk, trace, length, &events), desk, path);
    free(trace);
    fclose(file);
}

/* The longest first, and of equal ones the earlier one. */
static int by_length(const void *left, const void *right) {
    const histdesk_latency *one = left, *other = right;
    if (one->micros != other->micros)
        return one->micros < other->micros ? 1 : -1;
    return (one->read.stamp > other->read.stamp) - (one->read.stamp < other->read.stamp);
}

int main(int words, char **word) {
    histdesk desk = {0};
    histdesk_event event;
    uint32_t id;
    uint64_t count;
    must(histdesk_new(&desk), &desk, "a desk");
    load(&desk, words == 2 ? word[1] : "/dev/stdin");
    must(histdesk_attach(&desk, HISTDESK_WAKING, TEXT("hist:keys=pid:ts0=common_timestamp.usecs"), &id), &desk, "wakings");
    must(histdesk_attach(&desk, HISTDESK_SWITCH, TEXT("hist:keys=next_pid:wait=common_timestamp.usecs-$ts0"), &id), &desk,
         "switches");
    must(histdesk_latencies(&desk, id, &count), &desk, "waits");
    histdesk_latency *waits = calloc(count + 1, sizeof *waits);
    if (!waits)
        return 1;
    histdesk_latencies_copy(&desk, 0, waits, count);
    qsort(waits, count, sizeof *waits, by_length);
    printf("%10s  %-16s %7s  %s\n", "us", "task", "pid", "CPU:line of waking and switch");
    for (uint64_t at = 0; at < count && at < MOST_WAITS; at++) {
        const histdesk_place *saved = &waits[at].saved, *read = &waits[at].read;
        must(histdesk_event_at(&desk, read->cpu, read->line, &event), &desk, "a switch");
        printf("%10" PRIu64 "  %-16.*s %7" PRId32 "  %" PRIu32 ":%" PRIu32 " -> %" PRIu32 ":%" PRIu32 "\n", waits[at].micros,
               event.comm.length, (const char *)event.comm.bytes, event.pid, saved->cpu, saved->line, read->cpu, read->line);
    }
    free(waits);
    histdesk_free(&desk);
    return 0;
}
