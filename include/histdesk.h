/* histdesk: the scheduler trace desk, for C.
 *
 * A desk holds the events of texts of the kernel's tracefs `trace` file, by CPU and line number, and the hist triggers
 * attached to them. Its answers are what replaying the events that it holds now gives for the triggers that are attached
 * now. REFERENCE.md, one of histdesk's documents, defines the forms of texts and what they mean.
 *
 *     histdesk desk = {0};
 *     uint64_t events;
 *     if (histdesk_new(&desk) == HISTDESK_OK && histdesk_load(&desk, trace, length, &events) == HISTDESK_OK)
 *         ..
 *     histdesk_free(&desk);
 *
 * Codes. A call that can be refused returns a code: HISTDESK_OK, the number of the refusal, or HISTDESK_CLOSED if the handle
 * has no desk. If the code isn't HISTDESK_OK, what is held and attached, and what was asked for before, stays as it was, and
 * none of the call's outputs is written; only histdesk_strike_events may have struck some events, and says how many. The
 * comment of each call lists its codes in the order in which they are tested. Two codes are not listed: any call may return
 * HISTDESK_MEMORY instead of an answer, unless its comment says never, and may then be repeated; and each call with a code,
 * except histdesk_new, may return HISTDESK_CLOSED.
 *
 * Answers. Anything larger than a number is asked for by one call, which says how large it is, and copied by another. The
 * desk keeps one answer of each kind (a text, rows, latencies, places, triggers, lines, losses) as it was when it was asked
 * for, even across edits, until the next of its kind is asked for or histdesk_forget is called. It is copied a part at a
 * time: a .._copy call takes the items from number `from` on, counted from 0, writes to `to` as many of them as there are and
 * as fit into `room`, and returns how many it wrote. It returns 0 at the end, if nothing was asked for, and if there is no
 * desk. The memory after the items in `to` stays as it was. A copy needs no memory and changes nothing.
 *
 *     for (uint64_t from = 0; (count = histdesk_rows_copy(&desk, from, rows, 64)) > 0; from += count)
 *         ..
 *
 * Units. Stamps and differences of stamps are microseconds. Lengths and places in texts are bytes; places count from 0, lines
 * and ids from 1. Texts are bytes without an encoding. They have no terminating zero byte, neither when they are passed in
 * nor when they are returned.
 *
 * What the caller owes.
 * - A handle is all zero before its first call. After that, only the library writes to it, and no copy of it is used.
 * - Only one call at a time uses a handle: it is used by the thread that made the desk, or under one lock. Desks share
 *   nothing, so each thread may have its own.
 * - No pointer is null, even if its length or room is 0: any other pointer is good then. Each points to as much memory as
 *   stated, and memory that a call reads doesn't overlap memory that it writes. Lengths are at most PTRDIFF_MAX.
 * - A bool that a call reads is 0 or 1: the has_place of a refusal that is passed to histdesk_refusal_text or
 *   histdesk_refusal_words, and those of histdesk_strike_events, histdesk_waits_new and histdesk_waits_part. Memory that a call
 *   only writes may hold anything before.
 * - The two handles of histdesk_waits_join are different, and each is used as described here.
 * - One allocator: malloc, realloc and free, which the library takes from the program, belong together and stay the same
 *   while there is a desk, and all calls with one handle go to one copy of the library.
 * - No call is made from a signal handler, nor in a forked child of a process that had several threads.
 * - histdesk_free ends a desk. Copied data belongs to the caller; the library keeps no pointer that is passed to it. */
#ifndef HISTDESK_H
#define HISTDESK_H

#include <stdbool.h>
#include <stddef.h>
#include <stdint.h>

#ifdef __cplusplus
extern "C" {
#endif

/* In the sources of histdesk, build/schema makes what is below each of these headings of the folder schema. */

/* ---- Numbers. */

/* Codes of calls. 1 to 17 are the numbers after `refused` in the output of scripts. */
enum {
    HISTDESK_OK = 0,
    HISTDESK_MEMORY = 1,             /* memory ran out */
    HISTDESK_NO_FILE = 2,            /* only in scripts: no such trace file */
    HISTDESK_BAD_LINE = 3,           /* a trace line has a fault: line, fault */
    HISTDESK_LANE_HELD = 4,          /* events of the CPU are already held: cpu */
    HISTDESK_NO_LANE = 5,            /* no lane of the CPU is held: cpu */
    HISTDESK_NO_EVENT = 6,           /* no event is there, or the line to insert is one that is skipped */
    HISTDESK_FULL = 7,               /* over 1,048,576 events would be held, or a line number would pass 4,294,967,295 */
    HISTDESK_BAD_TRIGGER = 8,        /* the trigger's text has a fault: fault; place or filter_fault, if it has one */
    HISTDESK_BAD_FILTER = 9,         /* the filter's text has a fault: filter_fault; place, if it has one */
    HISTDESK_NO_TRIGGER = 10,        /* no attached trigger has the id */
    HISTDESK_IN_USE = 11,            /* a trigger reads what this one saves: trigger, the smallest such id */
    HISTDESK_NAME_TAKEN = 12,        /* a trigger already saves a variable of that name: trigger */
    HISTDESK_NO_VARIABLE = 13,       /* no attached trigger saves the variable that is read, or not on the event named */
    HISTDESK_KEY_MISMATCH = 14,      /* the keys don't match those of the trigger that saves what is read */
    HISTDESK_TOO_MANY_TRIGGERS = 15, /* 64 triggers are attached, or the ids are used up */
    HISTDESK_BAD_COMMAND = 16,       /* no such event; in scripts also: no such command */
    HISTDESK_NOT_READING = 17,       /* the trigger reads no variable, so it has no latencies */
    HISTDESK_BACKWARDS = 18,         /* of waits: a stamp is earlier than that of the event above: line */
    HISTDESK_NO_STREAM = 19,         /* of waits: no stream takes pieces, none has ended, or it has already taken a piece */
    HISTDESK_NOT_JOINED = 20,        /* of waits: the part can't follow the text: fault */
    HISTDESK_CLOSED = 255            /* the handle has no desk */
};

/* Why a part can't follow the text that another stream has read: the fault of HISTDESK_NOT_JOINED. */
enum {
    HISTDESK_PART_REFUSED = 1, /* the part was refused */
    HISTDESK_UNENDED = 2,      /* the text doesn't end with a line break */
    HISTDESK_DIFFERS = 3,      /* only one of the two skips bad lines, or not as many calls left events out */
    HISTDESK_SUMMED = 4,       /* the text is being summed up */
    HISTDESK_TOO_LONG = 5,     /* over 4,294,967,295 lines together */
    HISTDESK_OVERLAPS = 6,     /* the part's first event has the stamp of the text's last one, or an earlier one */
    HISTDESK_TORN = 7          /* a CPU has lost events and has had none since */
};

/* Causes of a wait. */
enum {
    HISTDESK_WOKEN = 1,    /* the task was woken: sched_waking */
    HISTDESK_CREATED = 2,  /* it is new: sched_wakeup_new */
    HISTDESK_PREEMPTED = 3 /* the CPU was taken from it while it could run: sched_switch */
};

/* How sure a wait is. */
enum {
    HISTDESK_SURE = 0,    /* no hole overlaps it, and its `slept` is 0 */
    HISTDESK_LIKELY = 1,  /* a hole overlaps it, but none of the CPUs on which it began and ended; or its `slept` is 1 */
    HISTDESK_DOUBTFUL = 2 /* a hole of one of these CPUs overlaps it: the wait may be false */
};

/* Names of events. Triggers are attached to the first five. For any other event, only the task, PID, CPU and stamp are held. */
enum {
    HISTDESK_WAKING = 0,         /* sched_waking */
    HISTDESK_WAKEUP = 1,         /* sched_wakeup */
    HISTDESK_WAKEUP_NEW = 2,     /* sched_wakeup_new */
    HISTDESK_SWITCH = 3,         /* sched_switch */
    HISTDESK_WAKEUP_LATENCY = 4, /* wakeup_latency, which triggers make; none is ever held */
    HISTDESK_OTHER = 5,          /* any other event */
    HISTDESK_NONE = 255          /* in a histdesk_event: no event is held at the place any more */
};

/* Used instead of an event's name if a line of a text has no event that can be read. */
enum {
    HISTDESK_LINE_SKIPPED = 253, /* it holds no event, and nothing is wrong with it */
    HISTDESK_LINE_BAD = 254      /* it can't be read */
};

/* Kinds of a key's parts. */
enum {
    HISTDESK_NUMBER = 0, /* number is the field's value, also if it is printed as .hex */
    HISTDESK_LOG2 = 1,   /* number is the power n of .log2, from 0 to 64 */
    HISTDESK_BUCKET = 2, /* bucket is the smallest value of the bucket of .buckets=N */
    HISTDESK_TEXT = 3    /* text is the field's text */
};

/* ---- Structs. */

/* A desk's handle: {0} has no desk. */
typedef struct histdesk {
    void *at;
} histdesk;

/* The name of a task, or a state: `length` bytes. The bytes after them are zero; there may be none. */
typedef struct histdesk_name {
    uint8_t bytes[31];
    uint8_t length; /* in bytes */
} histdesk_name;

/* Where an event is: its CPU, and its line number in the CPU's lane. */
typedef struct histdesk_line {
    uint32_t cpu;
    uint32_t line;
} histdesk_line;

/* A place in the merged order, which is by stamp, then CPU, then line. */
typedef struct histdesk_place {
    uint64_t stamp;
    uint32_t cpu;
    uint32_t line;
} histdesk_place;

/* Of one trigger: the hits that were counted, the keys in its table, the hits for which the table had no space. */
typedef struct histdesk_totals {
    uint64_t hits;
    uint64_t entries;
    uint64_t dropped;
} histdesk_totals;

/* One part of a key. Members that its kind doesn't use are zero. */
typedef struct histdesk_part {
    int64_t number;
    uint64_t bucket;
    histdesk_name text;
    uint64_t kind; /* HISTDESK_NUMBER .. */
} histdesk_part;

/* A key of 1 to 3 parts, in the trigger's order; unused parts are zero. Equal keys have equal bytes. */
typedef struct histdesk_key {
    uint64_t parts;
    histdesk_part part[3];
} histdesk_key;

/* A row of a table: the key, its hits, and the sum modulo 2^64 of each value besides hitcount, in the trigger's order; unused
 * sums are zero. Equal rows have equal bytes. */
typedef struct histdesk_row {
    histdesk_key key;
    uint64_t hitcount;
    uint64_t sums[3];
} histdesk_row;

/* A latency: the places of the event whose stamp was saved and of the one that read it, and the difference of their stamps. */
typedef struct histdesk_latency {
    histdesk_place saved;
    histdesk_place read;
    uint64_t micros; /* in microseconds */
} histdesk_latency;

/* An event. Members that its name doesn't have are zero; if the name is HISTDESK_NONE, all but the place are. */
typedef struct histdesk_event {
    histdesk_place place;
    uint32_t name;            /* HISTDESK_WAKING .. */
    int32_t common_pid;       /* the task that ran */
    int32_t pid;              /* the task woken, or switched to */
    int32_t prio;
    int32_t target_cpu;       /* of a waking or wakeup */
    int32_t prev_pid;         /* of a switch: the task switched from */
    int32_t prev_prio;
    histdesk_name task;       /* of the task that ran */
    histdesk_name comm;       /* of the task woken, or switched to */
    histdesk_name prev_comm;  /* of the task switched from */
    histdesk_name prev_state; /* its state, such as R+ */
} histdesk_event;

/* An attached trigger: its id, and the name of the event that it is attached to. */
typedef struct histdesk_trigger {
    uint32_t id;
    uint32_t event; /* HISTDESK_WAKING .. */
} histdesk_trigger;

/* A row that an edit may have changed: the trigger's id, and the row's key. */
typedef struct histdesk_changed {
    uint64_t id;
    histdesk_key key;
} histdesk_changed;

/* How many rows the last accepted insert or strike may have changed, or the strikes of one histdesk_strike_events together.
 * `rows` is about the triggers that count held events: each of their rows that changed, appeared or disappeared is among the
 * reported ones. `made` is the same for the triggers on wakeup_latency. If has_rows or has_made is false, there is no such
 * list, its number is 0, and any row may have changed. */
typedef struct histdesk_report {
    bool has_rows;
    bool has_made;
    uint64_t rows;
    uint64_t made;
} histdesk_report;

/* Why a call was refused. number is its code, 0 if it was accepted. Members that the number doesn't use are 0. */
typedef struct histdesk_refusal {
    uint32_t number;       /* HISTDESK_OK .. */
    uint32_t fault;        /* of 3: the line's; of 8: the trigger's; both as in REFERENCE.md, Line faults and Trigger faults; of
                            * 20: HISTDESK_PART_REFUSED .. */
    uint32_t filter_fault; /* of 8 with fault 11, and of 9: the filter's, as in Filter faults */
    uint32_t cpu;          /* of 4 and 5 */
    uint32_t trigger;      /* of 11 and 12 */
    bool has_place;        /* of 8 and 9: whether the fault has a place */
    uint64_t line;         /* of 3 and 18: the text's line, from 1 */
    uint64_t place;        /* of 8 and 9: the byte, from 0; in the filter's own text if the fault is the filter's */
} histdesk_refusal;

/* A wait for a processor: a switch runs a task that something made runnable before. */
typedef struct histdesk_wait {
    histdesk_place ended; /* of the switch that runs the task; lines are numbered by CPU, as in a desk */
    histdesk_place began; /* of the event that the wait began with */
    int32_t pid;          /* not 0 */
    int32_t prio;         /* with which the task runs */
    uint32_t cause;       /* HISTDESK_WOKEN .. */
    uint32_t doubt;       /* HISTDESK_SURE ..; histdesk_waits_copy writes 0, and histdesk_waits_doubt the actual value */
    uint32_t slept;       /* 1 if the task was left asleep after the wait began, so that what woke it is unknown; else 0 */
    uint32_t zero;        /* 0 */
    histdesk_name name;   /* of the task, as the switch has it */
} histdesk_wait;

/* A stretch of time in which a CPU lost events, as reported by lines of the text or shown by its events. It overlaps a wait if
 * it begins before the wait ends and ends after the wait began. Members that it doesn't have are 0. */
typedef struct histdesk_hole {
    uint64_t line;   /* of the first line that reports it, from 1; 0 if none does */
    uint64_t after;  /* where it begins: the stamp of the CPU's last event before it; has_after is false if there is none */
    uint64_t before; /* where it ends: the stamp of the CPU's first event after it; has_before is false if there is none */
    uint64_t count;  /* how many events were lost; has_count is false if no line says */
    uint32_t cpu;    /* has_cpu is false if it isn't known: then a task ran somewhere, unseen, between the two stamps */
    bool has_after;
    bool has_before;
    bool has_count;
    bool has_cpu;
} histdesk_hole;

/* What was read of a text. What isn't there is 0. */
typedef struct histdesk_waits_read {
    uint64_t lines;            /* how many lines it has */
    uint64_t bad;              /* how many of them can't be read, if such lines are skipped */
    uint64_t bad_line;         /* the first of these, from 1 */
    uint64_t missing;          /* how many events show that a switch is missing before them, though no line reports a loss */
    uint64_t holes;            /* how many holes there are */
    uint64_t held;             /* if has_written: how many events the kernel's buffers held, of those written to them */
    uint64_t written;          /* if has_written: how many events the kernel wrote to its buffers */
    uint64_t first;            /* if has_first: the stamp of the first event */
    uint64_t last;             /* if has_first: that of the last event */
    histdesk_place missing_at; /* of the first event that shows a missing switch */
    uint32_t bad_fault;        /* of bad_line, as in REFERENCE.md, Line faults */
    bool has_first;            /* whether the text has an event */
    bool has_written;          /* whether the text has the kernel's header with both numbers */
} histdesk_waits_read;

/* A line of a text. */
typedef struct histdesk_text_line {
    uint64_t end;   /* how long the text is up to the line's end, including its line break; in bytes */
    uint64_t stamp; /* of its event; 0 if it has none */
    uint32_t cpu;   /* of its event; 0 if it has none */
    uint32_t event; /* HISTDESK_WAKING ..; or HISTDESK_LINE_SKIPPED, HISTDESK_LINE_BAD */
    uint32_t fault; /* of a line that can't be read, as in REFERENCE.md, Line faults; else 0 */
    uint32_t zero;  /* 0 */
} histdesk_text_line;

/* What the lines of a text report as lost. What isn't there is 0. */
typedef struct histdesk_losses_read {
    uint64_t holes;   /* how many holes there are */
    uint64_t held;    /* if has_written: how many events the kernel's buffers held, of those written to them */
    uint64_t written; /* if has_written: how many events the kernel wrote to its buffers */
    bool has_written; /* whether the text has the kernel's header with both numbers */
} histdesk_losses_read;

/* How many events one histdesk_waits_without left out of a text. */
typedef struct histdesk_left_out {
    uint64_t events;   /* how many events of the name it has */
    uint64_t left_out; /* how many of them pass the filter */
} histdesk_left_out;

/* The sums of a text for one task. Each figure stops at the largest 64-bit number. */
typedef struct histdesk_task_sum {
    uint64_t run_time;  /* how long it ran, in runs whose two switches are both known; in microseconds */
    uint64_t switches;  /* how often a CPU switched to it */
    uint64_t preempted; /* how often a switch to another task left it while it could run: in state R or R+ */
    uint64_t slept;     /* how often one left it asleep: in a state that begins with S or I */
    uint64_t blocked;   /* how often one left it blocked: in a state that begins with D */
    uint64_t moved;     /* how often it was run on another CPU than the one on which it last ran or was left */
    int32_t pid;        /* the task, not 0 */
    uint32_t zero;      /* 0 */
} histdesk_task_sum;

/* The sums of a text for one CPU. Each figure stops at the largest 64-bit number. */
typedef struct histdesk_cpu_sum {
    uint64_t idle;              /* how long it ran task 0, in runs whose two switches are both known; in microseconds */
    uint64_t unknown;           /* for how long it isn't known what it ran: a switch left another task than the last one ran; in
                                 * microseconds */
    uint64_t idle_with_waiters; /* for how much of the time of task 0 some task waited for a processor; in microseconds */
    uint64_t longest;           /* the most of idle_with_waiters that one such run has; in microseconds */
    uint64_t longest_from;      /* the stamp at which the first run began that has so much; 0 if longest is 0 */
    uint32_t cpu;               /* the CPU */
    uint32_t zero;              /* 0 */
} histdesk_cpu_sum;

/* ---- A desk. */

/* Puts a new desk, which holds nothing, into the handle, and frees the desk that was there. HISTDESK_MEMORY (the handle is as
 * it was). */
uint32_t histdesk_new(histdesk *desk);

/* Frees the desk with everything that it keeps, and sets the handle to zero. Without a desk, it does nothing. */
void histdesk_free(histdesk *desk);

/* ---- Edits. */

/* Loads the text of a trace: a lane for each CPU that has events in it. `events` is how many events were loaded.
 * HISTDESK_BAD_LINE (the first line with a fault), HISTDESK_LANE_HELD, HISTDESK_FULL. */
uint32_t histdesk_load(histdesk *desk, const uint8_t *trace, size_t length, uint64_t *events);

/* Removes a CPU's lane. `events` is how many events it had. HISTDESK_NO_LANE; never HISTDESK_MEMORY. */
uint32_t histdesk_unload(histdesk *desk, uint32_t cpu, uint64_t *events);

/* Inserts the event of one trace line, passed without a line break, at the next line number of its CPU's lane. If the CPU has
 * no lane, one is made. `at` is where the event is then. HISTDESK_BAD_LINE, HISTDESK_NO_EVENT, HISTDESK_FULL. */
uint32_t histdesk_insert(histdesk *desk, const uint8_t *line, size_t length, histdesk_line *at);

/* Removes one event. Its line number is not given again while the lane is held. HISTDESK_NO_LANE, HISTDESK_NO_EVENT; never
 * HISTDESK_MEMORY. */
uint32_t histdesk_strike(histdesk *desk, uint32_t cpu, uint32_t line);

/* Removes the events at `count` places, one after the other, each by its CPU and line as histdesk_strike does; stamps are not
 * looked at, so that the places may be those of histdesk_matching. It stops at the first event that is refused, such as one
 * that is among them twice, and the code is that refusal's; `struck` is how many events are struck then, and they stay struck.
 * HISTDESK_NO_LANE, HISTDESK_NO_EVENT; never HISTDESK_MEMORY. If `reports`, the report has each row that these strikes together
 * may have changed; otherwise there is no report, which takes less memory. If no event is struck, the last report stays. The
 * order of the places doesn't matter for the time it takes, if there is memory for a list of them. */
uint32_t histdesk_strike_events(histdesk *desk, const histdesk_place *places, size_t count, bool reports, uint64_t *struck);

/* Attaches the trigger in the text to the event of that name, HISTDESK_WAKING to HISTDESK_WAKEUP_LATENCY. `id` is its id.
 * HISTDESK_BAD_COMMAND (no such name), HISTDESK_BAD_TRIGGER, HISTDESK_TOO_MANY_TRIGGERS, HISTDESK_NAME_TAKEN,
 * HISTDESK_NO_VARIABLE, HISTDESK_KEY_MISMATCH. */
uint32_t histdesk_attach(histdesk *desk, uint32_t event, const uint8_t *trigger, size_t length, uint32_t *id);

/* Gives an attached trigger the filter in the text, which is without `if`. HISTDESK_NO_TRIGGER, HISTDESK_BAD_FILTER (also for
 * an empty text). */
uint32_t histdesk_refilter(histdesk *desk, uint32_t id, const uint8_t *filter, size_t length);

/* Removes the filter of an attached trigger. HISTDESK_NO_TRIGGER. */
uint32_t histdesk_unfilter(histdesk *desk, uint32_t id);

/* Removes an attached trigger. HISTDESK_NO_TRIGGER, HISTDESK_IN_USE; never HISTDESK_MEMORY. */
uint32_t histdesk_remove(histdesk *desk, uint32_t id);

/* How many rows the last accepted insert or strike may have changed, or the last strikes of many events; before the first one,
 * there is no list. The lists stay until the next one is accepted, or until histdesk_forget. Never HISTDESK_MEMORY. */
uint32_t histdesk_report_of(histdesk *desk, histdesk_report *report);

/* Copies the rows that the report counts as `rows`, without duplicates. */
size_t histdesk_rows_changed_copy(histdesk *desk, uint64_t from, histdesk_changed *to, size_t room);

/* Copies the rows that the report counts as `made`, without duplicates. */
size_t histdesk_made_changed_copy(histdesk *desk, uint64_t from, histdesk_changed *to, size_t room);

/* Whether the last edits found no memory for the tables: the edits took effect, and the next histdesk_totals_of, histdesk_hist,
 * histdesk_rows or histdesk_latencies builds the tables anew. False without a desk. */
bool histdesk_is_deferred(histdesk *desk);

/* ---- Questions about triggers. */

/* The totals of a trigger. HISTDESK_NO_TRIGGER. */
uint32_t histdesk_totals_of(histdesk *desk, uint32_t id, histdesk_totals *totals);

/* Asks for the text of a trigger's table, in the form of the kernel's `hist` file. `length` is its length in bytes.
 * HISTDESK_NO_TRIGGER. */
uint32_t histdesk_hist(histdesk *desk, uint32_t id, uint64_t *length);

/* Asks for the text of a trigger including all defaults, as shown in the third line of its table. HISTDESK_NO_TRIGGER. */
uint32_t histdesk_trigger_text(histdesk *desk, uint32_t id, uint64_t *length);

/* Asks for the text of a CPU's lane: each event's line, by line number. HISTDESK_NO_LANE. */
uint32_t histdesk_list(histdesk *desk, uint32_t cpu, uint64_t *length);

/* Copies from the text that one of these three calls asked for last. */
size_t histdesk_text_copy(histdesk *desk, uint64_t from, uint8_t *to, size_t room);

/* Asks for the rows of a trigger's table, in the order of its text. `count` is how many. HISTDESK_NO_TRIGGER. */
uint32_t histdesk_rows(histdesk *desk, uint32_t id, uint64_t *count);

/* Copies these rows. */
size_t histdesk_rows_copy(histdesk *desk, uint64_t from, histdesk_row *to, size_t room);

/* Asks for the latencies of a trigger that reads a variable, in merged order of the reading events. `count` is how many.
 * HISTDESK_NO_TRIGGER, HISTDESK_NOT_READING. */
uint32_t histdesk_latencies(histdesk *desk, uint32_t id, uint64_t *count);

/* Copies these latencies. */
size_t histdesk_latencies_copy(histdesk *desk, uint64_t from, histdesk_latency *to, size_t room);

/* Asks for the attached triggers, by id. `count` is how many. No refusal except HISTDESK_MEMORY. */
uint32_t histdesk_triggers(histdesk *desk, uint64_t *count);

/* Copies these triggers. */
size_t histdesk_triggers_copy(histdesk *desk, uint64_t from, histdesk_trigger *to, size_t room);

/* ---- Questions about events. */

/* The event that is held at a CPU's line. HISTDESK_NO_LANE, HISTDESK_NO_EVENT; never HISTDESK_MEMORY. */
uint32_t histdesk_event_at(histdesk *desk, uint32_t cpu, uint32_t line, histdesk_event *event);

/* Asks for the places of all held events, in merged order. `count` is how many. No refusal except HISTDESK_MEMORY. */
uint32_t histdesk_events(histdesk *desk, uint64_t *count);

/* Asks for the places of a CPU's events from a line on, by line number; from line 1 on, these are all. `count` is how many.
 * HISTDESK_NO_LANE. */
uint32_t histdesk_lane(histdesk *desk, uint32_t cpu, uint32_t line, uint64_t *count);

/* Asks for the places of the events of that name that pass the filter, in merged order. A filter that every event passes is
 * common_cpu >= 0. `count` is how many. HISTDESK_BAD_COMMAND (not a name that triggers are attached to),
 * HISTDESK_BAD_FILTER. */
uint32_t histdesk_matching(histdesk *desk, uint32_t event, const uint8_t *filter, size_t length, uint64_t *count);

/* Copies the places that one of these three calls asked for last. */
size_t histdesk_places_copy(histdesk *desk, uint64_t from, histdesk_place *to, size_t room);

/* Copies the events that are held at these places now, each with its place; HISTDESK_NONE if none is there any more, also if
 * the event now at the CPU and line has another stamp. */
size_t histdesk_events_copy(histdesk *desk, uint64_t from, histdesk_event *to, size_t room);

/* ---- Questions about a text, which the desk doesn't keep: its lines may be in any order of time, some may be unreadable, and
 * there may be any number of them. */

/* Asks for the lines of a text: what each is, and where it ends. The last line needs no line break. `count` is how many. No
 * refusal except HISTDESK_MEMORY. */
uint32_t histdesk_lines(histdesk *desk, const uint8_t *text, size_t length, uint64_t *count);

/* Copies these lines. */
size_t histdesk_lines_copy(histdesk *desk, uint64_t from, histdesk_text_line *to, size_t room);

/* Asks where events were lost, as reported by the lines of a text: each hole is between two events of a CPU that follow one
 * another in the text, whatever their stamps. A line that can't be read reports nothing. Holes come in the order of
 * histdesk_waits_holes. `read` is how many there are, and what the kernel's header says. No refusal except HISTDESK_MEMORY. */
uint32_t histdesk_losses(histdesk *desk, const uint8_t *text, size_t length, histdesk_losses_read *read);

/* Copies these holes. */
size_t histdesk_losses_copy(histdesk *desk, uint64_t from, histdesk_hole *to, size_t room);

/* Frees the memory of everything that was asked for, including lines and losses of texts, and of the report. What is held and
 * attached stays. */
void histdesk_forget(histdesk *desk);

/* ---- Waits of a recording.
 *
 * A stream reads the text of a trace in pieces of any size and reports who waited for a processor: each time that a switch
 * runs a task which was woken, created, or left while it could run. Each desk has one stream. It keeps what it needs for
 * waits to come, and no events. Except for histdesk_waits_held, the stream is independent of what the desk holds, and its
 * calls change nothing else.
 *
 *     histdesk_waits_new(&desk, false);
 *     while ((length = fread(piece, 1, sizeof piece, file)) > 0)
 *         if ((code = histdesk_waits_feed(&desk, piece, length, &count)) != HISTDESK_OK)
 *             ..
 *         for (uint64_t from = 0; (count = histdesk_waits_copy(&desk, from, waits, 64)) > 0; from += count)
 *             ..
 *     histdesk_waits_finish(&desk, &read, &count);
 *
 * Waits come in the order of their ends, by stamp, CPU and line, however the text is cut. Those of the last microsecond
 * come once it is over.
 *
 * A long text may be read in parts, each by a stream of another desk, side by side in several threads. Each part except the
 * first is begun with histdesk_waits_part, and all parts are joined in order. The text must be cut at the end of a line after
 * which the stamp changes. The waits that the first stream, the parts and the joins report are together those that one stream
 * would report for the whole text, each once. They don't come in order:
 *
 *     histdesk_waits_new(&desk, false), histdesk_waits_part(&part, false);
 *     ..                                            feed both
 *     histdesk_waits_events(&desk, 0, before, 8192); how far the places of the part's waits move
 *     histdesk_waits_join(&desk, &part, &count);     and then histdesk_waits_copy(&desk, ..)
 *     histdesk_waits_finish(&desk, &read, &count); */

/* Begins a stream, and ends the one that was there. Lines that can't be read are skipped and counted, or else the first of them
 * makes the text refused. HISTDESK_MEMORY (the stream that was there stays). */
uint32_t histdesk_waits_new(histdesk *desk, bool skips_bad_lines);

/* Begins a stream whose text is a part of a longer one, not its beginning, and ends the one that was there. Like any stream, it
 * takes pieces, leaves events out, and reports the events and the last stamp so far. It doesn't report a wait that ends with
 * the first switch to its task: that wait may have begun before the part, so histdesk_waits_join reports it. In the waits that
 * it reports, lines are counted from the part's own start. histdesk_waits_sum_up and histdesk_waits_finish return
 * HISTDESK_NO_STREAM. HISTDESK_MEMORY (the stream that was there stays). */
uint32_t histdesk_waits_part(histdesk *desk, bool skips_bad_lines);

/* Joins a part, which the stream of another desk has read, to the text that this stream has read, as if the part had been fed
 * here. `count` is how many waits became known. They are copied from `desk`: first those that end in the last microsecond
 * before the part, then those that end with a task's first switch in the part, each in the order of their ends, with lines of
 * the whole text. Of the waits that the part reported before, only the places move: by as many lines as the CPU had events in
 * this stream before the join, up to line 4,294,967,295. These waits may end before or after the ones that are reported now.
 * The other desk then has no stream, but the waits that it reported last can still be copied. The two streams must leave out
 * the same events, by the same calls; only the number of calls is compared. If the text here has been refused, the code is that
 * of histdesk_waits_feed. HISTDESK_NO_STREAM (no stream of a whole text takes pieces here, or no stream of a part takes them
 * there), HISTDESK_NOT_JOINED (its fault says why). After these, both streams go on as before, and histdesk_waits_refused of
 * `desk` says why. HISTDESK_MEMORY, if the text wasn't refused before: from then on, the text is refused for that, and the part
 * is gone. HISTDESK_CLOSED: one of the handles has no desk, and nothing happens. */
uint32_t histdesk_waits_join(histdesk *desk, histdesk *part, uint64_t *count);

/* Leaves events out of the text: those of a name that pass the filter in a text of `length` bytes, or all of the name if
 * `length` is 0. They wake, create and switch nothing, as if they weren't in the text. But they keep their line numbers, and
 * everything reported about the text itself counts them: lines, events, stamps, missing switches and holes, except those of a
 * task that ran unseen, which only the other events show. Each further call leaves out more. HISTDESK_NO_STREAM (no stream
 * takes pieces, or it has already taken one), HISTDESK_BAD_COMMAND (no such event, or HISTDESK_OTHER), HISTDESK_BAD_FILTER. If
 * the text has been refused, the code is that of histdesk_waits_feed. A refusal changes nothing, except what
 * histdesk_waits_refused reports: the stream goes on as before, even after HISTDESK_MEMORY, and a text that has ended keeps its
 * waits, holes, counts and sums. */
uint32_t histdesk_waits_without(histdesk *desk, uint32_t event, const uint8_t *filter, size_t length);

/* Also sums up the text by task and by CPU, without the events that are left out. HISTDESK_NO_STREAM (no stream of a whole text
 * takes pieces, or it has already taken one). If the text has been refused, the code is that of histdesk_waits_feed. Otherwise
 * never HISTDESK_MEMORY. A refusal changes nothing, except what histdesk_waits_refused reports. */
uint32_t histdesk_waits_sum_up(histdesk *desk);

/* Takes the next piece of the text. `count` is how many waits became known; they are copied until the next feed, finish or
 * join. HISTDESK_NO_STREAM, HISTDESK_BAD_LINE, HISTDESK_BACKWARDS, HISTDESK_FULL (over 4,294,967,295 lines). Except for
 * HISTDESK_NO_STREAM, a refusal, even HISTDESK_MEMORY, leaves no waits, and the stream returns the same code from then on. */
uint32_t histdesk_waits_feed(histdesk *desk, const uint8_t *piece, size_t length, uint64_t *count);

/* Ends the text: a line that has not ended is its last. The stream has then ended. `read` is what was read of the text. `count`
 * is how many waits were left. HISTDESK_NO_STREAM, HISTDESK_BAD_LINE, HISTDESK_BACKWARDS, HISTDESK_FULL. A refusal does what
 * one of histdesk_waits_feed does. */
uint32_t histdesk_waits_finish(histdesk *desk, histdesk_waits_read *read, uint64_t *count);

/* Copies the waits that the last feed, finish, join or histdesk_waits_held reported. */
size_t histdesk_waits_copy(histdesk *desk, uint64_t from, histdesk_wait *to, size_t room);

/* Once the stream has ended, copies the holes of the text, in this order: those of CPUs that begin late, by CPU, if only the
 * header says that events were overwritten; those that an event ended, the first one first; those that last to the end, by CPU;
 * and then those that no line reports: of CPUs that begin late or end early, and at last of CPUs that aren't known. */
size_t histdesk_waits_holes(histdesk *desk, uint64_t from, histdesk_hole *to, size_t room);

/* Once the stream has ended, copies how many events were left out: item n is for the n-th histdesk_waits_without, from 0. An
 * event that passes several filters counts for each. */
size_t histdesk_waits_left_out(histdesk *desk, uint64_t from, histdesk_left_out *to, size_t room);

/* Once the stream has ended, copies the sums of each task that a waking, a creation or a switch names, except task 0, by PID.
 * There are none if histdesk_waits_sum_up was not called. */
size_t histdesk_waits_tasks(histdesk *desk, uint64_t from, histdesk_task_sum *to, size_t room);

/* The same for each CPU that has a switch, by number. */
size_t histdesk_waits_cpus(histdesk *desk, uint64_t from, histdesk_cpu_sum *to, size_t room);

/* Copies how many events each CPU has had so far: item n is for CPU n, and there are 8192 items. While the stream runs, only
 * events in lines that have ended are counted. There are no items if the text is refused, or if no stream has begun. */
size_t histdesk_waits_events(histdesk *desk, uint64_t from, uint32_t *to, size_t room);

/* Writes the stamp of the last event so far, in the same lines. `has` is false, and `stamp` 0, if there is no event.
 * HISTDESK_NO_STREAM (no stream has begun). If the text has been refused, the code is that of histdesk_waits_feed. */
uint32_t histdesk_waits_last(histdesk *desk, uint64_t *stamp, bool *has);

/* Asks for the waits of the events that the desk holds now, in the order of their ends. The stream goes on as before. `count`
 * is how many. No refusal except HISTDESK_MEMORY. */
uint32_t histdesk_waits_held(histdesk *desk, uint64_t *count);

/* Writes into `doubt` how sure waits of this text are, once the stream has ended: by the holes that overlap them, and by
 * `slept`, of which any number except 0 counts as 1. Nothing else is written. A wait whose cause is none of the three stays as
 * it is. HISTDESK_NO_STREAM; never HISTDESK_MEMORY. */
uint32_t histdesk_waits_doubt(histdesk *desk, histdesk_wait *waits, size_t count);

/* Why the last of histdesk_waits_new, _part, _join, _without, _sum_up, _feed, _finish, _last, _held and _doubt was refused:
 * number; line and fault; or filter_fault and place. Never HISTDESK_MEMORY. */
uint32_t histdesk_waits_refused(histdesk *desk, histdesk_refusal *refusal);

/* Ends the stream, if there is one, and frees its memory. histdesk_free also does this; histdesk_forget doesn't. */
void histdesk_waits_free(histdesk *desk);

/* ---- Refusals. */

/* Why the last edit or question was refused: the last call with a code, except for histdesk_new, histdesk_report_of, the calls
 * of waits, and this one. Never HISTDESK_MEMORY. */
uint32_t histdesk_refused(histdesk *desk, histdesk_refusal *refusal);

/* Writes a refusal as scripts print it, `refused 8: fault 3`, without a line break: as much as fits into `room`, of at most 64
 * bytes. Returns how many bytes it wrote, or 0 if the numbers are of no refusal or memory ran out. It needs no desk. */
size_t histdesk_refusal_text(const histdesk_refusal *refusal, uint8_t *to, size_t room);

/* The same as a message in words, of at most 160 bytes. */
size_t histdesk_refusal_words(const histdesk_refusal *refusal, uint8_t *to, size_t room);

/* ---- Sizes and offsets in bytes, which the library was built with. */

#if defined(__cplusplus) ? __cplusplus >= 201103L : defined(__STDC_VERSION__) && __STDC_VERSION__ >= 201112L
#ifdef __cplusplus
#define HISTDESK_ASSERT_(holds) static_assert(holds, #holds)
#else
#define HISTDESK_ASSERT_(holds) _Static_assert(holds, #holds)
#endif
#define HISTDESK_AT_(type, field, offset) HISTDESK_ASSERT_(offsetof(type, field) == (offset))

HISTDESK_ASSERT_(sizeof(bool) == 1);
HISTDESK_ASSERT_(sizeof(histdesk) == 8);
HISTDESK_ASSERT_(sizeof(histdesk_name) == 32);
HISTDESK_AT_(histdesk_name, length, 31);
HISTDESK_ASSERT_(sizeof(histdesk_line) == 8);
HISTDESK_AT_(histdesk_line, line, 4);
HISTDESK_ASSERT_(sizeof(histdesk_place) == 16);
HISTDESK_AT_(histdesk_place, cpu, 8);
HISTDESK_AT_(histdesk_place, line, 12);
HISTDESK_ASSERT_(sizeof(histdesk_totals) == 24);
HISTDESK_AT_(histdesk_totals, entries, 8);
HISTDESK_AT_(histdesk_totals, dropped, 16);
HISTDESK_ASSERT_(sizeof(histdesk_part) == 56);
HISTDESK_AT_(histdesk_part, bucket, 8);
HISTDESK_AT_(histdesk_part, text, 16);
HISTDESK_AT_(histdesk_part, kind, 48);
HISTDESK_ASSERT_(sizeof(histdesk_key) == 176);
HISTDESK_AT_(histdesk_key, part, 8);
HISTDESK_ASSERT_(sizeof(histdesk_row) == 208);
HISTDESK_AT_(histdesk_row, hitcount, 176);
HISTDESK_AT_(histdesk_row, sums, 184);
HISTDESK_ASSERT_(sizeof(histdesk_latency) == 40);
HISTDESK_AT_(histdesk_latency, read, 16);
HISTDESK_AT_(histdesk_latency, micros, 32);
HISTDESK_ASSERT_(sizeof(histdesk_event) == 176);
HISTDESK_AT_(histdesk_event, name, 16);
HISTDESK_AT_(histdesk_event, common_pid, 20);
HISTDESK_AT_(histdesk_event, pid, 24);
HISTDESK_AT_(histdesk_event, prio, 28);
HISTDESK_AT_(histdesk_event, target_cpu, 32);
HISTDESK_AT_(histdesk_event, prev_pid, 36);
HISTDESK_AT_(histdesk_event, prev_prio, 40);
HISTDESK_AT_(histdesk_event, task, 44);
HISTDESK_AT_(histdesk_event, comm, 76);
HISTDESK_AT_(histdesk_event, prev_comm, 108);
HISTDESK_AT_(histdesk_event, prev_state, 140);
HISTDESK_ASSERT_(sizeof(histdesk_trigger) == 8);
HISTDESK_AT_(histdesk_trigger, event, 4);
HISTDESK_ASSERT_(sizeof(histdesk_changed) == 184);
HISTDESK_AT_(histdesk_changed, key, 8);
HISTDESK_ASSERT_(sizeof(histdesk_report) == 24);
HISTDESK_AT_(histdesk_report, has_made, 1);
HISTDESK_AT_(histdesk_report, rows, 8);
HISTDESK_AT_(histdesk_report, made, 16);
HISTDESK_ASSERT_(sizeof(histdesk_refusal) == 40);
HISTDESK_AT_(histdesk_refusal, fault, 4);
HISTDESK_AT_(histdesk_refusal, filter_fault, 8);
HISTDESK_AT_(histdesk_refusal, cpu, 12);
HISTDESK_AT_(histdesk_refusal, trigger, 16);
HISTDESK_AT_(histdesk_refusal, has_place, 20);
HISTDESK_AT_(histdesk_refusal, line, 24);
HISTDESK_AT_(histdesk_refusal, place, 32);
HISTDESK_ASSERT_(sizeof(histdesk_wait) == 88);
HISTDESK_AT_(histdesk_wait, began, 16);
HISTDESK_AT_(histdesk_wait, pid, 32);
HISTDESK_AT_(histdesk_wait, prio, 36);
HISTDESK_AT_(histdesk_wait, cause, 40);
HISTDESK_AT_(histdesk_wait, doubt, 44);
HISTDESK_AT_(histdesk_wait, slept, 48);
HISTDESK_AT_(histdesk_wait, zero, 52);
HISTDESK_AT_(histdesk_wait, name, 56);
HISTDESK_ASSERT_(sizeof(histdesk_hole) == 40);
HISTDESK_AT_(histdesk_hole, after, 8);
HISTDESK_AT_(histdesk_hole, before, 16);
HISTDESK_AT_(histdesk_hole, count, 24);
HISTDESK_AT_(histdesk_hole, cpu, 32);
HISTDESK_AT_(histdesk_hole, has_after, 36);
HISTDESK_AT_(histdesk_hole, has_before, 37);
HISTDESK_AT_(histdesk_hole, has_count, 38);
HISTDESK_AT_(histdesk_hole, has_cpu, 39);
HISTDESK_ASSERT_(sizeof(histdesk_waits_read) == 96);
HISTDESK_AT_(histdesk_waits_read, bad, 8);
HISTDESK_AT_(histdesk_waits_read, bad_line, 16);
HISTDESK_AT_(histdesk_waits_read, missing, 24);
HISTDESK_AT_(histdesk_waits_read, holes, 32);
HISTDESK_AT_(histdesk_waits_read, held, 40);
HISTDESK_AT_(histdesk_waits_read, written, 48);
HISTDESK_AT_(histdesk_waits_read, first, 56);
HISTDESK_AT_(histdesk_waits_read, last, 64);
HISTDESK_AT_(histdesk_waits_read, missing_at, 72);
HISTDESK_AT_(histdesk_waits_read, bad_fault, 88);
HISTDESK_AT_(histdesk_waits_read, has_first, 92);
HISTDESK_AT_(histdesk_waits_read, has_written, 93);
HISTDESK_ASSERT_(sizeof(histdesk_text_line) == 32);
HISTDESK_AT_(histdesk_text_line, stamp, 8);
HISTDESK_AT_(histdesk_text_line, cpu, 16);
HISTDESK_AT_(histdesk_text_line, event, 20);
HISTDESK_AT_(histdesk_text_line, fault, 24);
HISTDESK_AT_(histdesk_text_line, zero, 28);
HISTDESK_ASSERT_(sizeof(histdesk_losses_read) == 32);
HISTDESK_AT_(histdesk_losses_read, held, 8);
HISTDESK_AT_(histdesk_losses_read, written, 16);
HISTDESK_AT_(histdesk_losses_read, has_written, 24);
HISTDESK_ASSERT_(sizeof(histdesk_left_out) == 16);
HISTDESK_AT_(histdesk_left_out, left_out, 8);
HISTDESK_ASSERT_(sizeof(histdesk_task_sum) == 56);
HISTDESK_AT_(histdesk_task_sum, switches, 8);
HISTDESK_AT_(histdesk_task_sum, preempted, 16);
HISTDESK_AT_(histdesk_task_sum, slept, 24);
HISTDESK_AT_(histdesk_task_sum, blocked, 32);
HISTDESK_AT_(histdesk_task_sum, moved, 40);
HISTDESK_AT_(histdesk_task_sum, pid, 48);
HISTDESK_AT_(histdesk_task_sum, zero, 52);
HISTDESK_ASSERT_(sizeof(histdesk_cpu_sum) == 48);
HISTDESK_AT_(histdesk_cpu_sum, unknown, 8);
HISTDESK_AT_(histdesk_cpu_sum, idle_with_waiters, 16);
HISTDESK_AT_(histdesk_cpu_sum, longest, 24);
HISTDESK_AT_(histdesk_cpu_sum, longest_from, 32);
HISTDESK_AT_(histdesk_cpu_sum, cpu, 40);
HISTDESK_AT_(histdesk_cpu_sum, zero, 44);

#undef HISTDESK_AT_
#undef HISTDESK_ASSERT_
#endif

#ifdef __cplusplus
}
#endif

#endif
