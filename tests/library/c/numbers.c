/* A trigger's table and latencies as numbers: the text of the table is written anew from them, and must be the library's. */
#include "script.h"

#include <inttypes.h>
#include <stdlib.h>
#include <string.h>

typedef struct {
    text name, modifier;
} key_item;

/* What a trigger's canonical text says. */
typedef struct {
    bytes whole;
    text head, filter;
    key_item keys[3];
    text titles[3];
    size_t key_count, title_count;
} trigger_text;

/* What stands before the byte, or all; `rest` becomes what stands after it. */
static text cut(text *rest, char at) {
    const uint8_t *end = rest->length ? memchr(rest->at, at, rest->length) : NULL;
    text first = {rest->at, end ? (size_t)(end - rest->at) : rest->length};
    size_t gone = end ? first.length + 1 : first.length;
    *rest = (text){rest->at + gone, rest->length - gone};
    return first;
}

static bool begins(text whole, const char *front) {
    return whole.length >= strlen(front) && memcmp(whole.at, front, strlen(front)) == 0;
}

static text behind_front(text whole, const char *front) {
    if (!begins(whole, front))
        fault("a canonical text without %s", front);
    return (text){whole.at + strlen(front), whole.length - strlen(front)};
}

static void read_trigger(histdesk *desk, uint32_t id, trigger_text *to) {
    uint64_t length;
    *to = (trigger_text){0};
    if (histdesk_trigger_text(desk, id, &length) != HISTDESK_OK)
        fault("no text of trigger %" PRIu32, id);
    whole_text(desk, length, &to->whole);
    text rest = {to->whole.at, to->whole.length};
    to->head = cut(&rest, ' ');
    if (rest.length)
        to->filter = behind_front(rest, "if ");
    text head = behind_front(to->head, "hist:keys=");
    text keys = cut(&head, ':'), values = behind_front(cut(&head, ':'), "vals=hitcount");
    while (keys.length) {
        text modifier = cut(&keys, ','), name = cut(&modifier, '.');
        to->keys[to->key_count++] = (key_item){name, modifier};
    }
    cut(&values, ',');
    while (values.length) {
        text title = cut(&values, ',');
        to->titles[to->title_count++] = begins(title, "$") ? behind_front(title, "$") : title;
    }
}

static uint64_t number_of(text digits) {
    uint64_t value = 0;
    for (size_t at = 0; at < digits.length; at++)
        value = 10 * value + (uint64_t)(digits.at[at] - '0');
    return value;
}

static bool is_zero(const void *at, size_t size) {
    const uint8_t *byte = at;
    for (size_t number = 0; number < size; number++)
        if (byte[number])
            return false;
    return true;
}

static void put_part(bytes *to, const key_item *item, const histdesk_part *part) {
    histdesk_part own = {.kind = part->kind};
    put(to, item->name.at, item->name.length);
    put_form(to, ": ");
    if (begins(item->modifier, "log2") && part->kind == HISTDESK_LOG2) {
        own.number = part->number;
        put_form(to, "~ 2^%-2" PRId64, part->number);
    } else if (begins(item->modifier, "buckets=") && part->kind == HISTDESK_BUCKET) {
        uint64_t size = number_of(behind_front(item->modifier, "buckets="));
        own.bucket = part->bucket;
        uint64_t last = part->bucket > UINT64_MAX - (size - 1) ? UINT64_MAX : part->bucket + size - 1;
        put_form(to, "~ %" PRIu64 "-%" PRIu64, part->bucket, last);
    } else if (begins(item->modifier, "hex") && part->kind == HISTDESK_NUMBER) {
        own.number = part->number;
        put_form(to, "%" PRIx64, (uint64_t)part->number);
    } else if (item->modifier.length == 0 && part->kind == HISTDESK_NUMBER) {
        own.number = part->number;
        put_form(to, "%10" PRIu64, (uint64_t)part->number);
    } else if (item->modifier.length == 0 && part->kind == HISTDESK_TEXT) {
        own.text = part->text;
        put(to, part->text.bytes, part->text.length);
        put_form(to, "%*s", 50 - part->text.length, "");
        if (!is_zero(part->text.bytes + part->text.length, sizeof part->text.bytes - part->text.length))
            fault("a text with bytes after its end");
    } else {
        fault("a part of another kind than its key: %" PRIu64, part->kind);
    }
    if (memcmp(&own, part, sizeof own) != 0)
        fault("a part of kind %" PRIu64 " with more than its kind has", part->kind);
}

static void put_row(bytes *to, const trigger_text *trigger, const histdesk_row *row) {
    size_t parts = trigger->key_count, sums = trigger->title_count;
    if (row->key.parts != parts)
        fault("a key of %" PRIu64 " parts, not %zu", row->key.parts, parts);
    for (size_t at = 0; at < parts; at++) {
        put_form(to, at == 0 ? "{ " : ", ");
        put_part(to, &trigger->keys[at], &row->key.part[at]);
    }
    put_form(to, " } hitcount: %10" PRIu64, row->hitcount);
    for (size_t at = 0; at < sums; at++) {
        put_form(to, "  ");
        put(to, trigger->titles[at].at, trigger->titles[at].length);
        put_form(to, ": %10" PRIu64, row->sums[at]);
    }
    put_form(to, "\n");
    if (!is_zero(row->key.part + parts, (3 - parts) * sizeof *row->key.part) ||
        !is_zero(row->sums + sums, (3 - sums) * sizeof *row->sums))
        fault("a row with more than its trigger has");
}

static uint32_t event_of(histdesk *desk, uint32_t id) {
    uint64_t count;
    if (histdesk_triggers(desk, &count) != HISTDESK_OK)
        fault("no triggers");
    histdesk_trigger *triggers = whole_triggers(desk, count);
    uint32_t event = HISTDESK_NONE;
    for (uint64_t at = 0; at < count; at++) {
        if (at > 0 && triggers[at - 1].id >= triggers[at].id)
            fault("triggers that are not by id");
        if (triggers[at].id == id)
            event = triggers[at].event;
    }
    free(triggers);
    return event;
}

/* How often a trigger is hit: by each event of its name that passes its filter, or by each latency. No event that is held
 * hits a trigger on made events. */
static void check_hits(histdesk *desk, uint32_t id, const trigger_text *trigger, const histdesk_totals *totals) {
    uint32_t event = event_of(desk, id);
    uint64_t count, hits = totals->hits + totals->dropped;
    text filter = trigger->filter;
    if (filter.length == 0)
        filter = (text){(const uint8_t *)"common_cpu >= 0", strlen("common_cpu >= 0")};
    if (histdesk_matching(desk, event, filter.at, filter.length, &count) != HISTDESK_OK)
        fault("trigger %" PRIu32 ": no events that match its filter", id);
    if (event == HISTDESK_WAKEUP_LATENCY)
        hits = 0;
    uint64_t matching = count;
    bool is_reader = histdesk_latencies(desk, id, &count) == HISTDESK_OK;
    if (is_reader ? matching < hits || count != hits : matching != hits)
        fault("trigger %" PRIu32 ": %" PRIu64 " hits, %" PRIu64 " events that match", id, hits, matching);
}

void check_hist(histdesk *desk, uint32_t id, const bytes *hist) {
    trigger_text trigger;
    bytes anew = {0};
    uint64_t count;
    histdesk_totals totals;
    read_trigger(desk, id, &trigger);
    if (histdesk_rows(desk, id, &count) != HISTDESK_OK || histdesk_totals_of(desk, id, &totals) != HISTDESK_OK)
        fault("trigger %" PRIu32 " has a text, but no rows or totals", id);
    histdesk_row *rows = whole_rows(desk, count);
    put_form(&anew, "# event histogram\n#\n# trigger info: ");
    put(&anew, trigger.whole.at, trigger.whole.length);
    put_form(&anew, " [active]\n#\n\n");
    for (uint64_t at = 0; at < count; at++)
        put_row(&anew, &trigger, &rows[at]);
    put_form(&anew, "\nTotals:\n    Hits: %" PRIu64 "\n    Entries: %" PRIu64 "\n    Dropped: %" PRIu64 "\n", totals.hits,
             totals.entries, totals.dropped);
    if (!is_same(&anew, hist))
        fault("trigger %" PRIu32 ": the rows and totals don't give its text:\n%.*s", id, (int)anew.length, (char *)anew.at);
    check_hits(desk, id, &trigger, &totals);
    free(rows);
    free(anew.at);
    free(trigger.whole.at);
}
