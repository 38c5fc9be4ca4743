/* What a script line asks for: docs/REFERENCE.md, Commands. */
#include "script.h"

#include <string.h>

enum { LINE_LIMIT = 8192, MOST_DIGITS = 10 };

static bool is_word(text word, const char *own) {
    return word.length == strlen(own) && memcmp(word.at, own, word.length) == 0;
}

static text after(text whole, size_t length) {
    return (text){whole.at + length, whole.length - length};
}

static text trim_start(text whole) {
    while (whole.length && whole.at[0] == ' ')
        whole = after(whole, 1);
    return whole;
}

static text trim(text whole) {
    while (whole.length && whole.at[whole.length - 1] == ' ')
        whole.length--;
    return trim_start(whole);
}

/* The first word of a text that begins with no space; `rest` becomes what follows the word and the spaces after it. */
static text first_word(text whole, text *rest) {
    size_t length = 0;
    while (length < whole.length && whole.at[length] != ' ')
        length++;
    *rest = trim_start(after(whole, length));
    return (text){whole.at, length};
}

static bool read_number(text digits, uint32_t *number) {
    uint64_t value = 0;
    if (digits.length == 0 || digits.length > MOST_DIGITS)
        return false;
    for (size_t at = 0; at < digits.length; at++) {
        if (digits.at[at] < '0' || digits.at[at] > '9')
            return false;
        value = 10 * value + (uint64_t)(digits.at[at] - '0');
    }
    *number = (uint32_t)value;
    return value <= UINT32_MAX;
}

static bool read_load(text rest, command *asked) {
    return rest.length && rest.at[0] == '@' && read_number(after(rest, 1), &asked->number);
}

static bool read_strike(text rest, command *asked) {
    const uint8_t *colon = rest.length ? memchr(rest.at, ':', rest.length) : NULL;
    if (!colon)
        return false;
    size_t length = (size_t)(colon - rest.at);
    return read_number((text){rest.at, length}, &asked->number) && read_number(after(rest, length + 1), &asked->line);
}

static bool read_attach(text rest, command *asked) {
    static const struct {
        const char *word;
        uint32_t name;
    } names[] = {{"sched_waking", HISTDESK_WAKING}, {"sched_wakeup", HISTDESK_WAKEUP},
                 {"sched_wakeup_new", HISTDESK_WAKEUP_NEW}, {"sched_switch", HISTDESK_SWITCH},
                 {"wakeup_latency", HISTDESK_WAKEUP_LATENCY}};
    text word = first_word(rest, &asked->rest);
    for (size_t at = 0; at < sizeof names / sizeof *names; at++) {
        asked->number = names[at].name;
        if (is_word(word, names[at].word))
            return true;
    }
    return false;
}

static bool read_filter(text rest, command *asked) {
    if (!read_number(first_word(rest, &rest), &asked->number))
        return false;
    if (is_word(rest, "none")) {
        asked->kind = UNFILTER;
        return true;
    }
    return is_word(first_word(rest, &asked->rest), "if");
}

static const struct {
    const char *word;
    kind kind;
    bool (*read)(text rest, command *asked); /* NULL: only a number */
} forms[] = {{"load", LOAD, read_load}, {"strike", STRIKE, read_strike}, {"attach", ATTACH, read_attach},
             {"filter", REFILTER, read_filter}, {"unload", UNLOAD, NULL}, {"remove", REMOVE, NULL}, {"hist", HIST, NULL},
             {"totals", TOTALS, NULL}, {"lat", LATENCIES, NULL}, {"list", LIST, NULL}};

command read_command(text line) {
    command asked = {NO_FORM, 0, 0, {line.at, 0}};
    if (line.length > LINE_LIMIT)
        return asked;
    if (trim(line).length == 0 || line.at[0] == '#')
        return (command){.kind = NOTHING};
    size_t insert = strlen("insert");
    if (line.length >= insert && memcmp(line.at, "insert", insert) == 0 && (line.length == insert || line.at[insert] == ' '))
        return (command){INSERT, 0, 0, after(line, line.length == insert ? insert : insert + 1)};
    text rest, word = first_word(trim(line), &rest);
    for (size_t at = 0; at < sizeof forms / sizeof *forms; at++)
        if (is_word(word, forms[at].word)) {
            asked.kind = forms[at].kind;
            if (forms[at].read ? forms[at].read(rest, &asked) : read_number(rest, &asked.number))
                return asked;
        }
    return (command){.kind = NO_FORM};
}
