/* trace_cmd_lines RECORDING memory:FILE:PIPE: reads a recording of trace-cmd by its own libraries, for from-trace-cmd. Plain
 * events of the scheduler are converted here; any other one is printed as `trace-cmd report -N -t` prints it, with the flags
 * that -l prints. Both go to standard output as blocks (event_lines.h), in order; FILE and PIPE are the numbers of open files
 * for memory and for what is free of it.
 *
 * The first events of each kind, each new state and every 4096th event are compared with what the library prints of their
 * fields. If a recording has several buffers, or something that isn't known here, no last block is written, and the status is
 * 1: the recording is then converted from trace-cmd's text. */
#define _GNU_SOURCE
#include <stdarg.h>
#include <stdio.h>

#include <trace-cmd.h>
#include <trace-seq.h>

#include "event_lines.h"

/* How many events of each kind are compared at first, and of how many one is compared after that. */
enum { FIRST = 64, EVERY = 4096 };
/* The columns of trace-cmd's text for the number of a task and for seconds, and the nanoseconds of a second. */
enum { PID_WIDTH = 5, SECONDS_WIDTH = 5, NANOS = 1000000000 };
/* How much of what isn't converted here is written at once, if no converted line comes between. */
enum { TOLD_SIZE = 1 << 16 };

static struct tep_handle *tep;
static struct trace_seq info, told;
/* Whether the recording has something that isn't known here, so that it can't be converted here. */
static bool is_unknown;
static uint32_t events;

/* ---- Flags */

/* The texts of flags that were met, by the bytes that the kernel has for flags and for how often preemption is off. */
static struct {
    char text[15];
    uint8_t length;
} flag_texts[1 << 16];
/* Where these two bytes are; -1 if a text may depend on other fields too. */
static int flags_at = -1;

/* Finds out where the flags of each event are. */
static void find_flags(struct tep_event *event)
{
    struct tep_format_field *flags = tep_find_common_field(event, "common_flags");
    struct tep_format_field *count = tep_find_common_field(event, "common_preempt_count");
    bool is_pair = flags && count && flags->size == 1 && count->size == 1 && count->offset == flags->offset + 1;

    /* The type, these two and the task. */
    if (is_pair && event->format.nr_common == 4 && flags->offset >= 0 && flags->offset < 16)
        flags_at = flags->offset;
}

/* The flags of an event as the library prints them, with a blank. */
static char *put_flags(char *to, struct tep_record *record)
{
    uint16_t key = 0;

    if (flags_at >= 0) {
        memcpy(&key, (const char *)record->data + flags_at, sizeof key);
        if (flag_texts[key].length > 0)
            return put(to, flag_texts[key].text, flag_texts[key].length);
    }
    trace_seq_reset(&info);
    tep_print_event(tep, &info, record, "%s ", TEP_PRINT_LATENCY);
    if (info.len < 2 || info.len > sizeof flag_texts[0].text || strcspn(info.buffer, ": ") != info.len - 1 ||
        strchr("0123456789", info.buffer[0]))
        return NULL;
    memcpy(flag_texts[key].text, info.buffer, info.len);
    flag_texts[key].length = flags_at >= 0 ? (uint8_t)info.len : 0;
    return put(to, info.buffer, info.len);
}

/* ---- Kinds */

/* What the kernel's format says of a kind, and the fields that it names. */
static const char *const waking_fields[] = {"comm", "pid", "prio", "target_cpu", "success"};
static const char *const switch_fields[] = {"prev_comm", "prev_pid", "prev_prio", "prev_state",
                                            "next_comm", "next_pid", "next_prio"};

/* Sets the place of a field of a kind; returns whether it has the size that it should have. */
static bool find_field(struct kind *kind, struct tep_event *event, const char *name, int which, bool is_switch)
{
    struct tep_format_field *field = tep_find_field(event, name);
    int size = is_switch ? which == PREV_COMM || which == NEXT_COMM ? NAME_SIZE : 4 : which == COMM ? NAME_SIZE : 4;

    kind->at[which] = field ? field->offset : -1;
    if (!field)
        return !is_switch && which == SUCCESS;
    if (field->offset + field->size > (int)kind->size)
        kind->size = (uint32_t)(field->offset + field->size);
    if (is_switch && which == PREV_STATE) {
        kind->state_size = (uint32_t)field->size;
        return true;
    }
    return field->size == size;
}

/* Whether a waking's text has its success. */
static bool tells_success(const struct tep_event *event)
{
    return event->print_fmt.format && strstr(event->print_fmt.format, "success=");
}

static void find_kind(int which)
{
    struct tep_event *event = tep_find_event_by_name(tep, "sched", kind_names[which]);
    struct kind *kind = &kinds[which];
    bool is_switch = which == SWITCH, is_good = event != NULL;

    if (!event)
        return;
    find_flags(event);
    kind->id = (uint16_t)event->id;
    kind->size = sizeof kind->id;
    for (int field = 0; field < (is_switch ? FIELDS : SUCCESS + 1); field++)
        is_good = find_field(kind, event, (is_switch ? switch_fields : waking_fields)[field], field, is_switch) && is_good;
    if (!is_switch && !tells_success(event))
        kind->at[SUCCESS] = -1;
    kind->is_known = is_good && fits(kind, is_switch);
}

/* The index of the kind of a record, or -1. */
static int kind_of(const struct tep_record *record)
{
    uint16_t id;

    if (record->size < (int)sizeof id)
        return -1;
    memcpy(&id, record->data, sizeof id);
    for (int which = 0; which < KINDS; which++)
        if (kinds[which].is_known && kinds[which].id == id && record->size >= (int)kinds[which].size)
            return which;
    return -1;
}

/* ---- Lines */

/* A name of a task, as the library knows it: two stand for tasks that have none. */
static char *put_task(char *to, const char *name)
{
    if (!name)
        return NULL;
    if (strcmp(name, "<idle>") == 0 || strcmp(name, "<...>") == 0)
        return put(to, name, strlen(name));
    return put_name(to, name, NAME_SIZE);
}

static char *put_blanks(char *to, int count)
{
    while (count-- > 0)
        *to++ = ' ';
    return to;
}

/* A line up to its fields, in trace-cmd's columns. The library prints a stamp below one second in another form. */
static char *put_front(char *to, struct tep_record *record, int cpu, int which)
{
    int pid = tep_data_pid(tep, record);
    char stamp[32], *end = put_stamp(stamp, record->ts), *from;

    if (pid < 0 || cpu >= CPU_LIMIT || record->ts <= NANOS || !end)
        return NULL;
    to = put_task(to, tep_data_comm_from_pid(tep, pid));
    if (!to)
        return NULL;
    *to++ = '-';
    from = to;
    to = put_signed(to, pid);
    to = to ? put_blanks(to, PID_WIDTH - (int)(to - from)) : NULL;
    to = THEN(to, " [", put_cpu(to, cpu));
    if (!to)
        return NULL;
    to = PUT(to, "] ");
    to = put_flags(to, record);
    if (!to)
        return NULL;
    to = put_blanks(to, SECONDS_WIDTH - (int)(strchr(stamp, '.') - stamp));
    to = put(to, stamp, (size_t)(end - stamp));
    to = PUT(to, ": ");
    to = put(to, kind_names[which], strlen(kind_names[which]));
    return PUT(to, ": ");
}

/* What the library prints of the fields. */
static void print_info(struct tep_record *record)
{
    trace_seq_reset(&info);
    tep_print_event(tep, &info, record, "%s", TEP_PRINT_INFO);
    trace_seq_terminate(&info);
}

/* Whether the library prints these fields in this way. */
static bool is_printed(struct tep_record *record, const char *text, size_t length)
{
    print_info(record);
    return info.len == length && memcmp(info.buffer, text, length) == 0;
}

/* The text of a state that wasn't met before: what the library prints between the fields around it. */
static bool learn_state(int slot, int64_t value, struct tep_record *record, const struct kind *kind)
{
    char room[LINE_ROOM], *prev = put_prev(room, kind, record->data), *next = prev ? put_next(prev, kind, record->data) : NULL;
    size_t before, after;

    if (!next)
        return false;
    before = (size_t)(prev - room);
    after = (size_t)(next - prev);
    print_info(record);
    if (info.len <= before + after || info.len - before - after >= sizeof states[0].text)
        return false;
    if (memcmp(info.buffer, room, before) != 0 || memcmp(info.buffer + info.len - after, prev, after) != 0)
        return false;
    set_state(slot, value, info.buffer + before, info.len - before - after);
    if (memchr(states[slot].text, ' ', states[slot].length))
        return false;
    states[slot].is_used = true;
    return true;
}

static char *put_switch(char *to, struct tep_record *record, const struct kind *kind)
{
    int64_t value = state_at(kind, record->data);
    int slot = state_slot(value);

    if (slot < 0 || (!states[slot].is_used && !learn_state(slot, value, record, kind)))
        return NULL;
    to = put_prev(to, kind, record->data);
    return to ? put_next(put(to, states[slot].text, states[slot].length), kind, record->data) : NULL;
}

/* A whole line; NULL if it isn't plain, or if the library prints it differently: then its kind isn't known from now on. */
static char *put_line(char *to, struct tep_record *record, int cpu, int which)
{
    struct kind *kind = &kinds[which];
    char *fields = put_front(to, record, cpu, which), *end;

    if (!fields)
        return NULL;
    end = which == SWITCH ? put_switch(fields, record, kind) : put_waking(fields, kind, record->data);
    if (!end)
        return NULL;
    if (++kind->seen <= FIRST || kind->seen % EVERY == 0)
        kind->is_known = is_printed(record, fields, (size_t)(end - fields));
    if (!kind->is_known)
        return NULL;
    *end++ = '\n';
    return end;
}

/* ---- What is not converted here */

static void flush_told(void)
{
    if (told.len == 0)
        return;
    flush_lines();
    write_block(TOLD, told.buffer, told.len, 0);
    trace_seq_reset(&told);
}

/* Prints an event as trace-cmd does. What the kernel's tracers write is printed by handlers of trace-cmd's own. */
static void print_event(struct tep_record *record)
{
    struct tep_event *event = tep_find_event_by_record(tep, record);
    int width = event ? 20 - (int)strlen(event->name) : 0;

    if (!event || strcmp(event->system, "ftrace") == 0) {
        is_unknown = true;
        return;
    }
    tep_print_event(tep, &told, record, "%16s-%-5d [%03d] ", TEP_PRINT_COMM, TEP_PRINT_PID, TEP_PRINT_CPU);
    tep_print_event(tep, &told, record, "%s %9d: ", TEP_PRINT_LATENCY, TEP_PRINT_TIME);
    trace_seq_printf(&told, "%s: %*s", event->name, width > 0 ? width : 0, "");
    tep_print_event(tep, &told, record, "%s\n", TEP_PRINT_INFO);
}

static void print_lost(const struct tep_record *record, int cpu)
{
    if (record->missed_events > 0)
        trace_seq_printf(&told, "CPU:%d [%lld EVENTS DROPPED]\n", cpu, record->missed_events);
    else
        trace_seq_printf(&told, "CPU:%d [EVENTS DROPPED]\n", cpu);
}

/* ---- The recording */

/* What the library calls for each event; a result other than 0 ends it. */
static int take_record(struct tracecmd_input *handle, struct tep_record *record, int cpu, void *data)
{
    int which = kind_of(record);
    char *end = NULL;

    (void)handle;
    (void)data;
    events++;
    if (record->missed_events != 0)
        print_lost(record, cpu);
    if (which >= 0) {
        flush_told();
        end = put_line(block + block_used, record, cpu, which);
    }
    if (end)
        take_line(end);
    else
        print_event(record);
    if (told.len >= TOLD_SIZE)
        flush_told();
    return is_unknown || is_broken ? -1 : 0;
}

/* Whether a recording is one that is converted here: one buffer, and this machine's order of bytes. */
static bool is_taken(struct tracecmd_input *handle)
{
    tep = tracecmd_get_tep(handle);
    if (!tep || tracecmd_buffer_instances(handle) > 0 || tep_is_file_bigendian(tep) != tep_is_local_bigendian(tep))
        return false;
    for (int which = 0; which < KINDS; which++)
        find_kind(which);
    return true;
}

int main(int count, char **words)
{
    struct tracecmd_input *handle = count == 3 ? tracecmd_open(words[1], TRACECMD_FL_LOAD_NO_PLUGINS) : NULL;
    int status;

    if (!handle || !is_taken(handle) || strncmp(words[2], "memory:", 7) != 0 || !take_memory(words[2] + 7))
        return 1;
    set_plain();
    blocks_to = STDOUT_FILENO;
    trace_seq_init(&info);
    trace_seq_init(&told);
    status = tracecmd_iterate_events(handle, NULL, 0, take_record, NULL);
    flush_told();
    flush_lines();
    if (status != 0 || is_unknown || is_broken)
        return 1;
    write_end(events);
    return is_broken;
}
