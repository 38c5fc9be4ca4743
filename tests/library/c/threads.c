/* threads: four threads, each with a desk of its own, and one desk that all of them use under a lock. Each thread inserts,
 * asks and strikes, and all answers are those of its own edits. The last line says how many threads hold; helgrind would see
 * what they have in common. */
#include "histdesk.h"

#include <inttypes.h>
#include <pthread.h>
#include <stdio.h>

enum { THREADS = 4, ROUNDS = 100 };

static histdesk shared;
static pthread_mutex_t lock = PTHREAD_MUTEX_INITIALIZER;

typedef struct {
    uint32_t cpu; /* of its events */
    uint32_t trigger; /* on the shared desk */
    bool holds;
} worker;

static uint32_t attach(histdesk *desk, uint32_t cpu) {
    char trigger[64];
    uint32_t id = 0;
    int length = snprintf(trigger, sizeof trigger, "hist:keys=pid if common_cpu == %" PRIu32, cpu);
    return histdesk_attach(desk, HISTDESK_WAKING, (const uint8_t *)trigger, (size_t)length, &id) == HISTDESK_OK ? id : 0;
}

/* Whether an event is inserted, counted beside `kept` others, and perhaps struck again. */
static bool edit(histdesk *desk, uint32_t id, uint32_t cpu, uint64_t kept, bool strikes) {
    char line[96];
    histdesk_line at;
    histdesk_totals totals;
    int length = snprintf(line, sizeof line, "a-1 [%03" PRIu32 "] 1.000000: sched_waking: comm=w pid=%" PRIu32
                          " prio=1 target_cpu=000", cpu, (uint32_t)kept);
    return histdesk_insert(desk, (const uint8_t *)line, (size_t)length, &at) == HISTDESK_OK && at.cpu == cpu &&
           histdesk_totals_of(desk, id, &totals) == HISTDESK_OK && totals.hits == kept + 1 &&
           (!strikes || histdesk_strike(desk, cpu, at.line) == HISTDESK_OK);
}

static void *work(void *given) {
    worker *own = given;
    histdesk desk = {0};
    uint64_t kept = 0;
    own->holds = histdesk_new(&desk) == HISTDESK_OK;
    uint32_t id = attach(&desk, own->cpu);
    for (int round = 0; round < ROUNDS; round++) {
        bool strikes = round % 3 == 0;
        own->holds &= edit(&desk, id, own->cpu, kept, strikes);
        pthread_mutex_lock(&lock);
        own->holds &= edit(&shared, own->trigger, own->cpu, kept, strikes);
        pthread_mutex_unlock(&lock);
        kept += !strikes;
    }
    histdesk_free(&desk);
    return NULL;
}

int main(void) {
    pthread_t threads[THREADS];
    worker workers[THREADS] = {{0, 0, false}};
    int good = 0;
    if (histdesk_new(&shared) != HISTDESK_OK)
        return 1;
    for (uint32_t at = 0; at < THREADS; at++)
        workers[at] = (worker){at, attach(&shared, at), false};
    for (int at = 0; at < THREADS; at++)
        if (pthread_create(&threads[at], NULL, work, &workers[at]) != 0)
            return 1;
    for (int at = 0; at < THREADS; at++) {
        pthread_join(threads[at], NULL);
        good += workers[at].holds;
    }
    histdesk_free(&shared);
    printf("%d of %d threads hold\n", good, THREADS);
    return good < THREADS;
}
