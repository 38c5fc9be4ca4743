/* event_lines.h: the text of the scheduler's four events, made from their raw bytes, for perf_filter.c and trace_cmd_lines.c;
 * and the blocks in which both of them hand it to blocks.py. If a field isn't plain, there is no text: the tool itself
 * then prints the event, and Python converts what it prints. */
#ifndef EVENT_LINES_H
#define EVENT_LINES_H

#include <errno.h>
#include <stdbool.h>
#include <stddef.h>
#include <stdint.h>
#include <stdlib.h>
#include <string.h>
#include <sys/mman.h>
#include <sys/stat.h>
#include <unistd.h>

enum { WAKING, WAKEUP, WAKEUP_NEW, SWITCH, KINDS };
/* Where fields of a waking and of a switch are, as indices of `at`. A waking of an older kernel has SUCCESS. */
enum { COMM, PID, PRIO, TARGET, SUCCESS };
enum { PREV_COMM, PREV_PID, PREV_PRIO, PREV_STATE, NEXT_COMM, NEXT_PID, NEXT_PRIO, FIELDS };

static const char *const kind_names[KINDS] = {"sched_waking", "sched_wakeup", "sched_wakeup_new", "sched_switch"};

/* The most bytes of a name in the kernel, with the zero that ends it, and of a task's name in a line. */
enum { NAME_SIZE = 16, LONGEST_TASK = 30 };
/* The room for a line, which none exceeds, and how many bytes go into a block before it is written. */
enum { LINE_ROOM = 512, BLOCK_SIZE = 1 << 18 };
/* How many pieces of memory blocks are written into, in turn; the room of each; and the length below which text goes with its
 * head. */
enum { PIECES = 32, PIECE_ROOM = BLOCK_SIZE + LINE_ROOM, SHORT = 1 << 14 };
/* Numbers and CPUs from these on are left to the tool: the desk may not read them. */
enum { NUMBER_LIMIT = 1000000000, CPU_LIMIT = 8000 };

/* A kind of event as a recording has it: the offset of each field, or -1. */
struct kind {
    bool is_known;
    uint16_t id;
    uint32_t size, state_size;
    int at[FIELDS];
    unsigned long seen;
};

static struct kind kinds[KINDS];

/* ---- Text. Each of these appends to `to` and returns the end; NULL if there is no plain text. */

static inline char *put(char *to, const char *text, size_t length)
{
    memcpy(to, text, length);
    return to + length;
}

#define PUT(to, text) put(to, text, sizeof(text) - 1)

static const char digit_pairs[] = "00010203040506070809101112131415161718192021222324252627282930313233343536373839"
                                  "40414243444546474849505152535455565758596061626364656667686970717273747576777879"
                                  "8081828384858687888990919293949596979899";

static inline char *put_pair(char *to, unsigned value)
{
    return put(to, digit_pairs + 2 * value, 2);
}

static inline char *put_number(char *to, uint64_t value)
{
    char digits[20], *from = digits + sizeof digits;

    for (; value >= 100; value /= 100) {
        from -= 2;
        put_pair(from, value % 100);
    }
    if (value >= 10) {
        from -= 2;
        put_pair(from, (unsigned)value);
    } else {
        *--from = (char)('0' + value);
    }
    return put(to, from, (size_t)(digits + sizeof digits - from));
}

static inline char *put_signed(char *to, int value)
{
    if (value <= -NUMBER_LIMIT || value >= NUMBER_LIMIT)
        return NULL;
    if (value < 0)
        *to++ = '-';
    return put_number(to, (uint64_t)(value < 0 ? -value : value));
}

/* A CPU has at least three digits. */
static inline char *put_cpu(char *to, int value)
{
    if (value < 0 || value >= NUMBER_LIMIT)
        return NULL;
    if (value >= 1000)
        return put_number(to, (uint64_t)value);
    *to++ = (char)('0' + value / 100);
    return put_pair(to, (unsigned)value % 100);
}

/* A stamp, in microseconds, rounded as the kernel rounds it. */
static inline char *put_stamp(char *to, uint64_t nanos)
{
    uint64_t micros = nanos / 1000 + (nanos % 1000 >= 500);
    unsigned fraction = (unsigned)(micros % 1000000);

    if (micros / 1000000 >= NUMBER_LIMIT)
        return NULL;
    to = put_number(to, micros / 1000000);
    *to++ = '.';
    return put_pair(put_pair(put_pair(to, fraction / 10000), fraction / 100 % 100), fraction % 100);
}

/* The characters of a plain name, which mislead nobody who reads the line. */
static bool is_plain[256];

static inline void set_plain(void)
{
    for (int sign = '!'; sign <= '~'; sign++)
        is_plain[sign] = !strchr("[]#=>\"\\", sign);
    is_plain[' '] = true;
}

/* A plain name that ends within so many bytes. */
static inline char *put_name(char *to, const char *name, int most)
{
    int length = 0;

    for (; length < most && name[length]; length++) {
        if (!is_plain[(unsigned char)name[length]])
            return NULL;
        to[length] = name[length];
    }
    return length == 0 || length == most || name[0] == ' ' || name[length - 1] == ' ' ? NULL : to + length;
}

/* ---- Fields */

static inline int number_at(const char *raw, int at)
{
    int value;

    memcpy(&value, raw + at, sizeof value);
    return value;
}

static inline int64_t state_at(const struct kind *kind, const char *raw)
{
    int64_t value;

    if (kind->state_size != sizeof value)
        return number_at(raw, kind->at[PREV_STATE]);
    memcpy(&value, raw + kind->at[PREV_STATE], sizeof value);
    return value;
}

/* The texts of states that were met. */
static struct {
    int64_t value;
    char text[24];
    uint8_t length;
    bool is_used;
} states[256];

/* The place of a state: where it is, or where it may be put; -1 if there is no more room. */
static inline int state_slot(int64_t value)
{
    unsigned slot = (unsigned)(value ^ value >> 8) & 255;

    for (int tries = 0; tries < 255; tries++, slot = (slot + 1) & 255)
        if (!states[slot].is_used || states[slot].value == value)
            return (int)slot;
    return -1;
}

/* Sets the text of a state, which is used once the event is seen to be plain. */
static inline void set_state(int slot, int64_t value, const char *text, size_t length)
{
    memcpy(states[slot].text, text, length);
    states[slot].length = (uint8_t)length;
    states[slot].value = value;
}

/* The text `before`, and what `next` appends after it; NULL if `to` is. */
#define THEN(to, before, next) ((to) && ((to) = PUT(to, before)) ? (next) : NULL)

static inline char *put_waking(char *to, const struct kind *kind, const char *raw)
{
    const int *at = kind->at;

    to = THEN(to, "comm=", put_name(to, raw + at[COMM], NAME_SIZE));
    to = THEN(to, " pid=", put_signed(to, number_at(raw, at[PID])));
    to = THEN(to, " prio=", put_signed(to, number_at(raw, at[PRIO])));
    if (at[SUCCESS] >= 0)
        to = THEN(to, " success=", put_signed(to, number_at(raw, at[SUCCESS])));
    return THEN(to, " target_cpu=", put_cpu(to, number_at(raw, at[TARGET])));
}

/* A switch up to the text of its state, and from there on. */
static inline char *put_prev(char *to, const struct kind *kind, const char *raw)
{
    to = THEN(to, "prev_comm=", put_name(to, raw + kind->at[PREV_COMM], NAME_SIZE));
    to = THEN(to, " prev_pid=", put_signed(to, number_at(raw, kind->at[PREV_PID])));
    to = THEN(to, " prev_prio=", put_signed(to, number_at(raw, kind->at[PREV_PRIO])));
    return to ? PUT(to, " prev_state=") : NULL;
}

static inline char *put_next(char *to, const struct kind *kind, const char *raw)
{
    to = THEN(to, " ==> next_comm=", put_name(to, raw + kind->at[NEXT_COMM], NAME_SIZE));
    to = THEN(to, " next_pid=", put_signed(to, number_at(raw, kind->at[NEXT_PID])));
    return THEN(to, " next_prio=", put_signed(to, number_at(raw, kind->at[NEXT_PRIO])));
}

/* Whether the fields of a kind lie within its events: what was said of them may be wrong. */
static inline bool fits(const struct kind *kind, bool is_switch)
{
    for (int field = 0; field < (is_switch ? FIELDS : SUCCESS + 1); field++) {
        bool is_name = is_switch ? field == PREV_COMM || field == NEXT_COMM : field == COMM;
        int size = is_name ? NAME_SIZE : is_switch && field == PREV_STATE ? (int)kind->state_size : 4;
        bool is_absent = !is_switch && field == SUCCESS && kind->at[field] == -1;

        if (!is_absent && (kind->at[field] < 0 || kind->at[field] > 4096 || (uint32_t)(kind->at[field] + size) > kind->size))
            return false;
    }
    return !is_switch || kind->state_size == 4 || kind->state_size == 8;
}

/* ---- Blocks: a head of 16 bytes, and as many bytes of text as it says. Long text is in the next piece of memory that the
 * reader has mapped too, if there is any; a pipe has a byte for each piece that is free again. */

enum {
    LINES = 'L',   /* converted lines */
    MAPPED = 'M',  /* converted lines, in the next piece of memory */
    AWAITED = 'A', /* the converted line of the event that the tool prints next */
    TOLD = 'T',    /* what the tool itself printed */
    END = 'E',     /* all is written; the head counts events, or has 0 */
};

struct head {
    char mark[4]; /* "\0hd" and what it is */
    uint32_t length, lines, spare;
};

static int blocks_to = -1;
static bool is_broken;
static char own_block[PIECE_ROOM], *block = own_block;
static size_t block_used;
/* The memory, what says that pieces are free, the piece that is written into, and how many aren't free. */
static char *memory;
static int freed_by = -1;
static unsigned piece, taken;
static uint32_t block_lines;

/* What is not written yet. */
static char output[1 << 16];
static size_t output_size;

static inline void write_now(const char *from, size_t length)
{
    while (length > 0 && !is_broken) {
        ssize_t count = write(blocks_to, from, length);

        if (count < 0 && errno != EINTR)
            is_broken = true;
        if (count > 0) {
            from += count;
            length -= (size_t)count;
        }
    }
}

static inline void flush_output(void)
{
    write_now(output, output_size);
    output_size = 0;
}

static inline void write_all(const char *from, size_t length)
{
    if (length > sizeof output - output_size)
        flush_output();
    if (length > sizeof output) {
        write_now(from, length);
        return;
    }
    memcpy(output + output_size, from, length);
    output_size += length;
}

static inline void write_block(char what, const char *from, size_t length, uint32_t lines)
{
    struct head head = {{0, 'h', 'd', what}, (uint32_t)length, lines, 0};

    write_all((const char *)&head, sizeof head);
    write_all(from, length);
}

/* Takes memory by an argument FILE:PIPE, the numbers of two open files. */
static inline bool take_memory(const char *word)
{
    char *end;
    long file = strtol(word, &end, 10);
    struct stat told;

    if (*end != ':' || fstat((int)file, &told) != 0 || told.st_size < PIECES * PIECE_ROOM)
        return false;
    freed_by = (int)strtol(end + 1, NULL, 10);
    memory = mmap(NULL, PIECES * PIECE_ROOM, PROT_READ | PROT_WRITE, MAP_SHARED, (int)file, 0);
    block = memory;
    return memory != MAP_FAILED;
}

/* Goes on to the next piece of memory, once it is free. */
static inline void next_piece(void)
{
    char told[PIECES];

    taken++;
    while (taken == PIECES && !is_broken) {
        ssize_t count = read(freed_by, told, sizeof told);

        if (count > 0 && (unsigned)count <= taken)
            taken -= (unsigned)count;
        else if (count >= 0 || errno != EINTR)
            is_broken = true;
    }
    piece = (piece + 1) % PIECES;
    block = memory + (size_t)piece * PIECE_ROOM;
}

/* Writes the lines that are converted, if any. */
static inline void flush_lines(void)
{
    if (memory && block_used >= SHORT) {
        struct head head = {{0, 'h', 'd', MAPPED}, (uint32_t)block_used, block_lines, 0};

        write_all((const char *)&head, sizeof head);
        flush_output();
        next_piece();
    } else if (block_used > 0) {
        write_block(LINES, block, block_used, block_lines);
    }
    block_used = 0;
    block_lines = 0;
}

/* Ends the blocks, of which so many events were made, or 0 if that isn't counted. */
static inline void write_end(uint32_t events)
{
    write_block(END, "", 0, events);
    flush_output();
}

/* Takes a line that stands at the end of the block, up to `end`. */
static inline void take_line(const char *end)
{
    block_used = (size_t)(end - block);
    block_lines++;
    if (block_used >= BLOCK_SIZE)
        flush_lines();
}

#endif
