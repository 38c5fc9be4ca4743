/* perf_filter.so: a filter for `perf script --dlfilter`, by which from-perf converts a recording. perf hands it each event
 * before it prints it. A plain event of the scheduler, or another one whose text is simple, is converted here, and perf prints
 * nothing; any other one is left to perf.
 *
 * What goes to perf's standard output is blocks (event_lines.h): converted lines, and what perf itself prints, in order. The
 * first events of each kind, each new state and every 4096th event are converted here and printed by perf too: the reader
 * compares them. Each --dlarg is one of these:
 *
 *   NAME:ID:SIZE:STATE_SIZE:OFFSET,..   where the fields of a kind of event are, in the order of event_lines.h
 *   states:MASK:PLUS:BIT=TEXT,..        how the kernel's format prints a state
 *   other:SYSTEM:NAME:ID:SIZE:TEXT      the text of an event of another kind, in which %d24.4; stands for four bytes at offset
 *                                       24 as a number, %u and %x likewise, %s8.16; for a text of at most 16 bytes, and
 *                                       %t8.4; for one whose place and length are there
 *   strange                             the numbers of events' tasks are of another PID namespace: each event is of the task
 *                                       to which its CPU has switched
 *   memory:FILE:PIPE                    open files for memory and for what is free of it */
#define _GNU_SOURCE
#include <perf/perf_dlfilter.h>
#include <stdio.h>
#include <stdio_ext.h>

#include "event_lines.h"

/* perf fills it in. */
struct perf_dlfilter_fns perf_dlfilter_fns;

/* How many events of each kind are compared at first, and of how many one is compared after that. */
enum { FIRST = 64, EVERY = 4096 };
/* If of WINDOW events more than MOST_LEFT are left to perf, so are the NEXT ones: what perf prints is converted faster in one
 * go. */
enum { WINDOW = 1024, MOST_LEFT = 640, NEXT = 8192 };
/* How much of what perf prints is handed on, even if no event is converted after it. */
enum { TOLD_SIZE = 1 << 17 };
enum { BITS = 24, BIT_TEXT = 8 };
/* perf prints less than this for one event, and its standard output is looked at between two events. */
enum { TOLD_ROOM = 1 << 20 };

/* How many other kinds there are at most, and how many parts the text of one has; the room for a text within it, for a number,
 * and for the whole; and the most bytes of a label. */
enum { OTHERS = 64, PARTS = 16, TEXT_ROOM = 64, DIGITS = 20, OTHER_ROOM = 320, LONGEST_LABEL = 48 };

/* A part of an event's text: some text, and what follows it: d, u or x for a number, s or t for a text, or 0 for nothing. */
struct part {
    const char *text;
    size_t length;
    char what;
    uint32_t at, size;
};

/* Another kind of event, with its name as perf has it, and the label of its lines. */
struct other {
    struct kind kind;
    const char *name, *label;
    struct part parts[PARTS];
    int count;
};

static struct other others[OTHERS];
static int other_count;

/* perf's own text of a kind's name, by which it is found again: first those of event_lines.h, and then the others. */
static const char *texts[KINDS + OTHERS];

/* What each CPU runs, by its last switch; it is known if its age is the present one. */
static struct {
    unsigned age;
    int tid;
    char name[NAME_SIZE];
} running[CPU_LIMIT];
static unsigned age = 1;

static int64_t state_mask, state_plus;
static struct {
    int64_t bit;
    char text[BIT_TEXT];
} state_bits[BITS];
static int bit_count;

/* Whether the numbers of events' tasks are of another PID namespace. */
static bool is_strange;

/* What stands in perf's line about lost events. */
static const char LOSS[] = "PERF_RECORD_LOST";

/* What perf prints stays in its stream, which has this room; nothing is ever written into the file of memory behind it. */
static char told[TOLD_ROOM];
static int told_by_perf = -1;

/* How many events were seen in this window, how many of them were left to perf, and how many more are to be. */
static unsigned seen, left, skipped;

/* ---- What perf prints itself */

/* Hands on what perf has printed, which is in its stream. If it reports lost events, no CPU's task is known any more. */
static void hand_on(void)
{
    size_t length = __fpending(stdout);

    flush_lines();
    if (length > 0)
        write_block(TOLD, told, length, 0);
    if (memmem(told, length, LOSS, sizeof LOSS - 1))
        age++;
    __fpurge(stdout);
}

/* ---- Lines */

/* A kind by its index in `texts`, and the label of its lines. */
static struct kind *kind_at(int which)
{
    return which < KINDS ? &kinds[which] : &others[which - KINDS].kind;
}

static const char *label_at(int which)
{
    return which < KINDS ? kind_names[which] : others[which - KINDS].label;
}

/* Whether a kind has the name by which perf calls an event. */
static bool is_named(int which, const char *event)
{
    if (which >= KINDS)
        return strcmp(event, others[which - KINDS].name) == 0;
    return kinds[which].is_known && strncmp(event, "sched:", 6) == 0 && strcmp(event + 6, kind_names[which]) == 0;
}

/* The index of an event's kind, or -1. */
static int kind_of(const struct perf_dlfilter_sample *sample)
{
    if (!sample->event)
        return -1;
    for (int which = 0; which < KINDS + other_count; which++)
        if (sample->event == texts[which])
            return which;
    for (int which = 0; which < KINDS + other_count; which++)
        if (is_named(which, sample->event)) {
            texts[which] = sample->event;
            return which;
        }
    return -1;
}

/* Whether the raw bytes of an event are those of its kind. */
static bool is_whole(const struct perf_dlfilter_sample *sample, const struct kind *kind)
{
    uint16_t id;

    if (!sample->raw_data || sample->raw_size < kind->size)
        return false;
    memcpy(&id, sample->raw_data, sizeof id);
    return id == kind->id && sample->cpu >= 0 && sample->cpu < CPU_LIMIT;
}

/* Whether an event is one of a virtual machine's, which perf prints differently. Older versions of perf don't say. */
static bool is_of_guest(const struct perf_dlfilter_sample *sample)
{
#ifdef PERF_DLFILTER_HAS_MACHINE_PID
    const size_t end = offsetof(struct perf_dlfilter_sample, machine_pid) + sizeof sample->machine_pid;

    return sample->size >= end && sample->machine_pid > 0;
#else
    (void)sample;
    return false;
#endif
}

/* The name and number of a task that perf knows. */
static char *put_known(char *to, int tid, void *ctx)
{
    const struct perf_dlfilter_al *al = perf_dlfilter_fns.resolve_ip(ctx);

    if (!al || al->size < offsetof(struct perf_dlfilter_al, comm) + sizeof al->comm || !al->comm)
        return NULL;
    to = put_name(to, al->comm, LONGEST_TASK + 1);
    return THEN(to, "-", put_signed(to, tid));
}

/* The name and number of a task that perf doesn't know: its last switch has them itself, and any other event is of the task to
 * which its CPU has switched. */
static char *put_unknown(char *to, const struct perf_dlfilter_sample *sample, int which)
{
    const char *raw = sample->raw_data;
    const int *at = kinds[SWITCH].at;
    int tid = which == SWITCH ? number_at(raw, at[PREV_PID]) : running[sample->cpu].tid;

    if (which != SWITCH && running[sample->cpu].age != age)
        return NULL;
    to = put_name(to, which == SWITCH ? raw + at[PREV_COMM] : running[sample->cpu].name, NAME_SIZE);
    return tid < 0 ? NULL : THEN(to, "-", put_signed(to, tid));
}

/* The text of a state; if it is the first of its value, `fresh` is where it may be kept. */
static char *put_state(char *to, int64_t value, int *fresh)
{
    int64_t left = value & state_mask;
    int slot = state_slot(value);
    char text[sizeof states[0].text], *end = text;

    if (slot < 0)
        return NULL;
    if (states[slot].is_used)
        return put(to, states[slot].text, states[slot].length);
    if (left == 0)
        *end++ = 'R';
    for (int at = 0; at < bit_count; at++)
        if (left & state_bits[at].bit) {
            if (end - text > (int)sizeof text - BIT_TEXT - 2)
                return NULL;
            if (end > text)
                *end++ = '|';
            end = stpcpy(end, state_bits[at].text);
            left &= ~state_bits[at].bit;
        }
    if (left != 0)
        return NULL;
    if (value & state_plus)
        *end++ = '+';
    set_state(slot, value, text, (size_t)(end - text));
    *fresh = slot;
    return put(to, text, (size_t)(end - text));
}

static char *put_switch(char *to, const struct kind *kind, const char *raw, int *fresh)
{
    to = put_prev(to, kind, raw);
    to = to ? put_state(to, state_at(kind, raw), fresh) : NULL;
    return to ? put_next(to, kind, raw) : NULL;
}

/* A text of an event, of at most so many bytes or up to its zero. */
static char *put_text(char *to, const char *from, size_t most)
{
    size_t length = strnlen(from, most);

    if (length > TEXT_ROOM)
        return NULL;
    for (size_t at = 0; at < length; at++)
        if (from[at] < ' ' || from[at] > '~')
            return NULL;
    return put(to, from, length);
}

/* A text whose place and length are in a word of the event. */
static char *put_text_at(char *to, uint32_t word, const struct perf_dlfilter_sample *sample)
{
    uint32_t at = word & 0xffff, length = word >> 16;

    return at + length > sample->raw_size ? NULL : put_text(to, (const char *)sample->raw_data + at, length);
}

static char *put_hex(char *to, uint64_t value)
{
    int digits = 1;

    while (digits < 16 && value >> 4 * digits)
        digits++;
    while (digits-- > 0)
        *to++ = "0123456789abcdef"[value >> 4 * digits & 15];
    return to;
}

/* What follows the text of a part. */
static char *put_value(char *to, const struct part *part, const struct perf_dlfilter_sample *sample)
{
    const char *from = (const char *)sample->raw_data + part->at;
    uint64_t value = 0;

    if (part->what == 's')
        return put_text(to, from, part->size);
    memcpy(&value, from, part->size);
    if (part->what == 't')
        return put_text_at(to, (uint32_t)value, sample);
    if (part->what == 'x')
        return put_hex(to, value);
    if (part->what == 'd' && value >> (8 * part->size - 1)) {
        *to++ = '-';
        value = part->size == sizeof value ? -value : (uint32_t)-value;
    }
    return put_number(to, value);
}

/* The fields of an event of another kind. */
static char *put_parts(char *to, const struct other *other, const struct perf_dlfilter_sample *sample)
{
    for (int at = 0; to && at < other->count; at++) {
        const struct part *part = &other->parts[at];

        to = put(to, part->text, part->length);
        if (part->what)
            to = put_value(to, part, sample);
    }
    return to;
}

/* A whole line. */
static char *put_line(char *to, const struct perf_dlfilter_sample *sample, int which, void *ctx, int *fresh)
{
    const char *raw = sample->raw_data, *name = label_at(which);
    bool is_unknown = is_strange || sample->tid == -1;

    to = is_unknown ? put_unknown(to, sample, which) : sample->tid < 0 ? NULL : put_known(to, sample->tid, ctx);
    to = THEN(to, " [", put_cpu(to, sample->cpu));
    to = THEN(to, "] ", put_stamp(to, sample->time));
    to = THEN(to, ": ", put(to, name, strlen(name)));
    if (!to)
        return NULL;
    to = PUT(to, ": ");
    if (which == SWITCH)
        to = put_switch(to, &kinds[which], raw, fresh);
    else
        to = which < KINDS ? put_waking(to, &kinds[which], raw) : put_parts(to, &others[which - KINDS], sample);
    if (to)
        *to++ = '\n';
    return to;
}

/* Notes that a CPU runs another task after a switch. Which one is known only if the switch is converted. */
static void note_switch(const struct perf_dlfilter_sample *sample, bool is_turned)
{
    const char *raw = sample->raw_data;

    running[sample->cpu].age = is_turned ? age : 0;
    if (!is_turned)
        return;
    running[sample->cpu].tid = number_at(raw, kinds[SWITCH].at[NEXT_PID]);
    memcpy(running[sample->cpu].name, raw + kinds[SWITCH].at[NEXT_COMM], NAME_SIZE);
}

/* The line at the end of the block, up to `end`, is what Python is to make of the event that perf prints next. */
static void await(const char *end)
{
    const char *line = block + block_used;
    size_t length = (size_t)(end - line);

    flush_lines();
    write_block(AWAITED, line, length, 1);
}

/* ---- What perf calls */

/* Whether an event is to be left to perf because many before it were. */
static bool is_skipped(void)
{
    if (skipped > 0) {
        skipped--;
        return true;
    }
    if (++seen == WINDOW) {
        skipped = left > MOST_LEFT ? NEXT : 0;
        seen = left = 0;
    }
    return false;
}

/* Leaves an event to perf, which may be a switch of any CPU. */
static char *left_unread(void)
{
    age++;
    return NULL;
}

/* Converts an event at the end of the block; returns the end of its line, or NULL. */
static char *turned(const struct perf_dlfilter_sample *sample, int which, void *ctx, int *fresh)
{
    char *end;

    if (is_of_guest(sample) || which < 0 || !is_whole(sample, kind_at(which)))
        return left_unread();
    if (__fpending(stdout) > 0)
        hand_on();
    end = put_line(block + block_used, sample, which, ctx, fresh);
    if (which == SWITCH)
        note_switch(sample, end != NULL);
    return end;
}

/* 0 leaves the event to perf, 1 has it print nothing, and a negative number ends perf. */
int filter_event_early(void *data, const struct perf_dlfilter_sample *sample, void *ctx)
{
    struct kind *kind;
    char *end;
    int which, fresh = -1;

    (void)data;
    if (sample->size < offsetof(struct perf_dlfilter_sample, event) + sizeof sample->event)
        return -1;
    if (__fpending(stdout) >= TOLD_SIZE)
        hand_on();
    which = kind_of(sample);
    end = is_skipped() ? left_unread() : turned(sample, which, ctx, &fresh);
    if (is_broken)
        return -1;
    if (!end) {
        left++;
        return 0;
    }
    kind = kind_at(which);
    kind->seen++;
    if (fresh < 0 && kind->seen > FIRST && kind->seen % EVERY != 0) {
        take_line(end);
        return 1;
    }
    if (fresh >= 0)
        states[fresh].is_used = true;
    await(end);
    return 0;
}

static bool take_states(char *text)
{
    char *mask = strsep(&text, ":"), *plus = text ? strsep(&text, ":") : NULL, *part;

    if (!plus)
        return false;
    state_mask = strtoll(mask, NULL, 0);
    state_plus = strtoll(plus, NULL, 0);
    while ((part = strsep(&text, ",")) != NULL) {
        char *name = strchr(part, '=');

        if (!name || strlen(name + 1) >= BIT_TEXT || bit_count == BITS)
            return false;
        state_bits[bit_count].bit = strtoll(part, NULL, 0);
        strcpy(state_bits[bit_count++].text, name + 1);
    }
    return true;
}

static bool take_kind(struct kind *kind, char *text, bool is_switch)
{
    long numbers[3];
    char *part;
    int count;

    for (count = 0; count < 3 && (part = strsep(&text, ":")) != NULL; count++)
        numbers[count] = strtol(part, NULL, 10);
    if (count < 3 || !text)
        return false;
    kind->id = (uint16_t)numbers[0];
    kind->size = (uint32_t)numbers[1];
    kind->state_size = (uint32_t)numbers[2];
    for (count = 0; count < FIELDS && (part = strsep(&text, ",")) != NULL; count++)
        kind->at[count] = (int)strtol(part, NULL, 10);
    kind->is_known = count == (is_switch ? FIELDS : SUCCESS + 1) && !text && kind->size >= 2 && fits(kind, is_switch);
    return kind->is_known;
}

/* Whether the fields of a part lie within its event. */
static bool is_part(const struct part *part, uint32_t size)
{
    bool is_number = part->size == sizeof(uint32_t) || part->size == sizeof(uint64_t);

    if (part->at > size || part->size > size - part->at || !part->what || !strchr("duxst", part->what))
        return false;
    return part->what == 's' || (is_number && (part->what != 't' || part->size == sizeof(uint32_t)));
}

/* Cuts the text of another kind into parts. */
static bool take_parts(struct other *other, char *text)
{
    size_t room = 0;

    while (other->count < PARTS) {
        struct part *part = &other->parts[other->count++];

        part->text = text;
        part->length = strcspn(text, "%");
        text += part->length;
        room += part->length;
        if (*text == 0)
            return room <= OTHER_ROOM;
        part->what = text[1];
        part->at = (uint32_t)strtoul(text[1] ? text + 2 : text + 1, &text, 10);
        part->size = *text == '.' ? (uint32_t)strtoul(text + 1, &text, 10) : 0;
        if (*text++ != ';' || !is_part(part, other->kind.size))
            return false;
        room += part->what == 's' || part->what == 't' ? TEXT_ROOM : DIGITS;
    }
    return false;
}

static bool take_other(char *text)
{
    struct other *other = &others[other_count];
    /* Its words are kept to the end. */
    char *words = strdup(text), *rest = words, *name, *id, *size;

    if (other_count == OTHERS || !strsep(&rest, ":") || !(name = strsep(&rest, ":")) || !(id = strsep(&rest, ":")))
        return false;
    size = strsep(&rest, ":");
    if (!size || !rest || strlen(words) + strlen(name) > LONGEST_LABEL)
        return false;
    other->kind.id = (uint16_t)strtol(id, NULL, 10);
    other->kind.size = (uint32_t)strtoul(size, NULL, 10);
    if (other->kind.size < sizeof other->kind.id || !take_parts(other, rest))
        return false;
    /* In a line, the scheduler's own events have no system. */
    other->label = strcmp(words, "sched") == 0 ? name : words;
    name[-1] = ':';
    other->name = words;
    other_count++;
    return true;
}

static bool take_word(char *text)
{
    const char *name = strsep(&text, ":");

    if (!text)
        return is_strange = strcmp(name, "strange") == 0;
    if (strcmp(name, "memory") == 0)
        return take_memory(text);
    if (strcmp(name, "other") == 0)
        return take_other(text);
    if (strcmp(name, "states") == 0)
        return take_states(text);
    for (int which = 0; which < KINDS; which++)
        if (strcmp(name, kind_names[which]) == 0)
            return take_kind(&kinds[which], text, which == SWITCH);
    return false;
}

/* From here on what perf prints goes into memory. */
static bool take_output(void)
{
    told_by_perf = memfd_create("perf", MFD_CLOEXEC);
    blocks_to = dup(STDOUT_FILENO);
    if (told_by_perf < 0 || blocks_to < 0 || fflush(stdout) != 0 || dup2(told_by_perf, STDOUT_FILENO) < 0)
        return false;
    return setvbuf(stdout, told, _IOFBF, sizeof told) == 0;
}

int start(void **data, void *ctx)
{
    int count = 0;
    char **words = perf_dlfilter_fns.args(ctx, &count);

    (void)data;
    set_plain();
    for (int at = 0; at < count; at++)
        if (!take_word(words[at]))
            return -1;
    if (!take_output())
        return -1;
    write_block(LINES, "", 0, 0);
    flush_output();
    return is_broken ? -1 : 0;
}

int stop(void *data, void *ctx)
{
    (void)data;
    (void)ctx;
    hand_on();
    /* What perf has written by itself is in no block. */
    if (lseek(told_by_perf, 0, SEEK_END) != 0)
        return -1;
    write_end(0);
    if (dup2(blocks_to, STDOUT_FILENO) < 0)
        return -1;
    return is_broken ? -1 : 0;
}

const char *filter_description(const char **more)
{
    *more = "Turns the scheduler's events into lines of a trace, for tools/from-perf of histdesk.";
    return "histdesk's lines of a trace";
}
