/* What the parts of the test program `script` share. */
#ifndef SCRIPT_H
#define SCRIPT_H

#include "histdesk.h"

#include <stdbool.h>
#include <stddef.h>
#include <stdint.h>

/* Some of somebody else's bytes. */
typedef struct {
    const uint8_t *at;
    size_t length;
} text;

/* Bytes of its own, which grow. */
typedef struct {
    uint8_t *at;
    size_t length, room;
} bytes;

/* What a script line asks for. */
typedef enum {
    NOTHING, NO_FORM, LOAD, UNLOAD, INSERT, STRIKE, LIST, ATTACH, REFILTER, UNFILTER, REMOVE, HIST, TOTALS, LATENCIES
} kind;

typedef struct {
    kind kind;
    uint32_t number; /* the trace, the CPU, the id, or the event's name */
    uint32_t line;   /* of a strike */
    text rest;       /* the trace line, the trigger or the filter */
} command;

/* bytes.c. What fails ends the program. */
_Noreturn void fault(const char *form, ...) __attribute__((format(printf, 1, 2)));
void *room_for(size_t count, size_t size);
void put(bytes *to, const void *from, size_t length);
void put_form(bytes *to, const char *form, ...) __attribute__((format(printf, 2, 3)));
bool is_same(const bytes *one, const bytes *other);

/* commands.c */
command read_command(text line);

/* whole.c: whole answers, which are copied a part at a time and are the caller's to free. */
void whole_text(histdesk *desk, uint64_t length, bytes *to);
histdesk_row *whole_rows(histdesk *desk, uint64_t count);
histdesk_latency *whole_latencies(histdesk *desk, uint64_t count);
histdesk_place *whole_places(histdesk *desk, uint64_t count);
histdesk_event *whole_events(histdesk *desk, uint64_t count);
histdesk_trigger *whole_triggers(histdesk *desk, uint64_t count);
histdesk_changed *whole_rows_changed(histdesk *desk, uint64_t count);
histdesk_changed *whole_made_changed(histdesk *desk, uint64_t count);

/* numbers.c, numbers_events.c, numbers_edits.c: the numbers that the library answers are compared with its texts and with each
 * other. */
void check_hist(histdesk *desk, uint32_t id, const bytes *hist);
void check_latencies(histdesk *desk, uint32_t id);
void check_list(histdesk *desk, uint32_t cpu, const bytes *list);
void check_events(histdesk *desk);
void before_edit(histdesk *desk);
void after_edit(histdesk *desk);

#endif
