/* Whole answers, which are copied a part at a time: one item, then a few, then more. */
#include "script.h"

#include <stdlib.h>

/* How many items to ask for next: fewer than the whole answer has, if it has several. */
static size_t part_of(uint64_t from) {
    return from == 0 ? 1 : from < 64 ? 7 : 4096;
}

#define WHOLE(name, type, copy)                                                        \
    type *name(histdesk *desk, uint64_t count) {                                       \
        type *whole = room_for(count, sizeof *whole);                                  \
        uint64_t from = 0;                                                             \
        while (from < count) {                                                         \
            size_t part = part_of(from), room = count - from < part ? count - from : part; \
            if (copy(desk, from, whole + from, room) != room)                          \
                fault(#copy ": not as much as there is");                              \
            from += room;                                                              \
        }                                                                              \
        type after;                                                                   \
        if (copy(desk, count, &after, 1) != 0)                                        \
            fault(#copy ": more than there is");                                       \
        return whole;                                                                  \
    }

static WHOLE(whole_bytes, uint8_t, histdesk_text_copy)
WHOLE(whole_rows, histdesk_row, histdesk_rows_copy)
WHOLE(whole_latencies, histdesk_latency, histdesk_latencies_copy)
WHOLE(whole_places, histdesk_place, histdesk_places_copy)
WHOLE(whole_events, histdesk_event, histdesk_events_copy)
WHOLE(whole_triggers, histdesk_trigger, histdesk_triggers_copy)
WHOLE(whole_rows_changed, histdesk_changed, histdesk_rows_changed_copy)
WHOLE(whole_made_changed, histdesk_changed, histdesk_made_changed_copy)

void whole_text(histdesk *desk, uint64_t length, bytes *to) {
    uint8_t *text = whole_bytes(desk, length);
    put(to, text, length);
    free(text);
}
