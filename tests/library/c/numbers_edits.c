/* The report of an insert or strike: each row that changed is named, by the rows of all triggers before and after it. */
#include "script.h"

#include <inttypes.h>
#include <stdlib.h>
#include <string.h>

enum { MOST_TRIGGERS = 64 };

/* The rows of one trigger, by the bytes of their keys. */
typedef struct {
    histdesk_trigger trigger;
    histdesk_row *rows;
    uint64_t count;
} table;

typedef struct {
    table tables[MOST_TRIGGERS];
    uint64_t count;
} base;

static base before;

static int by_key(const void *one, const void *other) {
    return memcmp(one, other, sizeof(histdesk_key));
}

static void read_base(histdesk *desk, base *to) {
    if (histdesk_triggers(desk, &to->count) != HISTDESK_OK || to->count > MOST_TRIGGERS)
        fault("%" PRIu64 " triggers", to->count);
    histdesk_trigger *triggers = whole_triggers(desk, to->count);
    for (uint64_t at = 0; at < to->count; at++) {
        table *own = &to->tables[at];
        own->trigger = triggers[at];
        if (histdesk_rows(desk, own->trigger.id, &own->count) != HISTDESK_OK)
            fault("no rows of trigger %" PRIu32, own->trigger.id);
        own->rows = whole_rows(desk, own->count);
        qsort(own->rows, own->count, sizeof *own->rows, by_key);
    }
    free(triggers);
}

static void free_base(base *gone) {
    for (uint64_t at = 0; at < gone->count; at++)
        free(gone->tables[at].rows);
    gone->count = 0;
}

/* Which rows the edit may have changed. */
typedef struct {
    histdesk_report report;
    histdesk_changed *rows, *made;
} named;

static void is_named(const named *names, const histdesk_trigger *trigger, const histdesk_key *key) {
    bool is_made = trigger->event == HISTDESK_WAKEUP_LATENCY;
    const histdesk_changed *changed = is_made ? names->made : names->rows;
    uint64_t count = is_made ? names->report.made : names->report.rows;
    for (uint64_t at = 0; at < count; at++)
        if (changed[at].id == trigger->id && memcmp(&changed[at].key, key, sizeof *key) == 0)
            return;
    if (is_made ? names->report.has_made : names->report.has_rows)
        fault("trigger %" PRIu32 ": a row changed that no report names", trigger->id);
}

/* Goes through the rows of both tables side by side, by key. */
static void compare(const table *old, const table *new, const named *names) {
    uint64_t gone = 0, come = 0;
    while (gone < old->count || come < new->count) {
        int order = gone == old->count   ? 1
                    : come == new->count ? -1
                                         : by_key(&old->rows[gone].key, &new->rows[come].key);
        if (order < 0)
            is_named(names, &old->trigger, &old->rows[gone].key);
        else if (order > 0 || memcmp(&old->rows[gone], &new->rows[come], sizeof(histdesk_row)) != 0)
            is_named(names, &new->trigger, &new->rows[come].key);
        gone += order <= 0;
        come += order >= 0;
    }
}

static void check_names(const histdesk_changed *changed, uint64_t count, const base *own, bool is_made) {
    for (uint64_t at = 0; at < count; at++) {
        bool is_attached = false;
        for (uint64_t other = 0; other < at; other++)
            if (memcmp(&changed[other], &changed[at], sizeof *changed) == 0)
                fault("a report names a row twice");
        for (uint64_t number = 0; number < own->count; number++) {
            const histdesk_trigger *trigger = &own->tables[number].trigger;
            is_attached |= trigger->id == changed[at].id && is_made == (trigger->event == HISTDESK_WAKEUP_LATENCY);
        }
        if (!is_attached)
            fault("a report names a row of trigger %" PRIu64, changed[at].id);
    }
}

void before_edit(histdesk *desk) {
    read_base(desk, &before);
}

/* This is also called after an edit that was refused, which changed no row. */
void after_edit(histdesk *desk) {
    named names = {0};
    histdesk_refusal refusal;
    if (histdesk_refused(desk, &refusal) != HISTDESK_OK)
        fault("no refusal");
    base own;
    if (refusal.number != HISTDESK_OK) {
        names.report = (histdesk_report){.has_rows = true, .has_made = true};
    } else if (histdesk_report_of(desk, &names.report) != HISTDESK_OK || histdesk_is_deferred(desk)) {
        fault("an edit without a report, or deferred, though there is memory");
    }
    names.rows = refusal.number ? NULL : whole_rows_changed(desk, names.report.rows);
    names.made = refusal.number ? NULL : whole_made_changed(desk, names.report.made);
    read_base(desk, &own);
    if (own.count != before.count || !names.report.has_rows || !names.report.has_made)
        fault("an edit without a report of all its rows, though there is memory");
    for (uint64_t at = 0; at < own.count; at++)
        compare(&before.tables[at], &own.tables[at], &names);
    check_names(names.rows, names.report.rows, &own, false);
    check_names(names.made, names.report.made, &own, true);
    free(names.rows);
    free(names.made);
    free_base(&own);
    free_base(&before);
}
