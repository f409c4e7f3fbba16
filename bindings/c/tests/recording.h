/* What a handle was told, as a script, and the output that its answers make (docs/SCRIPT.md), which zugrenja_run_script has to write too. */
#ifndef RECORDING_H
#define RECORDING_H

#include "zugrenja.h"
#include <assert.h>
#include <inttypes.h>
#include <stdarg.h>
#include <stdio.h>
#include <stdlib.h>
#include <string.h>

typedef struct {
    const uint8_t *bytes;
    size_t len;
} text;

typedef struct {
    uint8_t *bytes;
    size_t len, room;
} buffer;

/* An open element: the number of its start tag, and the value that it was given. */
typedef struct {
    size_t number;
    uint64_t value;
} element;

typedef struct {
    buffer script, output;
    buffer waits; /* the fields of the start tag that waits, if any */
    element *open;
    size_t open_len, open_room, tags;
    int explains;
    size_t first_line; /* that of the first selector */
} recording;

/* How many runs of scripts were compared; with how many tags that were answered, how many of them under some id, how many elements closed,
   and how many reasons. */
static unsigned long compared_runs, compared_tags, compared_reports, compared_closed, compared_reasons;

static void append(buffer *b, const void *bytes, size_t len) {
    if (b->len + len > b->room) {
        b->room = 2 * (b->len + len);
        b->bytes = realloc(b->bytes, b->room);
        assert(b->bytes != NULL);
    }
    if (len > 0) {
        memcpy(b->bytes + b->len, bytes, len);
    }
    b->len += len;
}

static void appendf(buffer *b, const char *form, ...) {
    char line[128];
    va_list rest;
    va_start(rest, form);
    int len = vsnprintf(line, sizeof line, form, rest);
    va_end(rest);
    assert(len >= 0 && (size_t)len < sizeof line);
    append(b, line, (size_t)len);
}

/* A selector's text: a script has no LF in it, and a form feed means the same. */
static void append_selector(buffer *b, uint32_t id, text t) {
    appendf(b, "select\t%" PRIu32 "\t", id);
    for (size_t place = 0; place < t.len; place++) {
        append(b, t.bytes[place] == '\n' ? "\f" : (const char *)t.bytes + place, 1);
    }
    append(b, "\n", 1);
}

/* A tag's name: one that no script can have becomes `?` and its bytes in hexadecimal, and so does each that begins with `?`. No selector has
   such a name. */
static void append_name(buffer *b, text name) {
    int is_sayable = name.len > 0 && memchr(name.bytes, '\t', name.len) == NULL && memchr(name.bytes, '\n', name.len) == NULL;
    if (is_sayable && name.bytes[0] != '?') {
        append(b, name.bytes, name.len);
        return;
    }
    append(b, "?", 1);
    for (size_t place = 0; place < name.len; place++) {
        uint8_t byte = name.bytes[place];
        appendf(b, "%02x", byte >= 'A' && byte <= 'Z' ? byte + 32u : byte);
    }
}

/* Where the line begins in which two outputs differ first. */
static size_t line_of_difference(const buffer *a, const buffer *b) {
    size_t line = 0;
    for (size_t place = 0; place < a->len && place < b->len && a->bytes[place] == b->bytes[place]; place++) {
        line = a->bytes[place] == '\n' ? place + 1 : line;
    }
    return line;
}

static int line_len(const buffer *b, size_t line) {
    const uint8_t *end = line < b->len ? memchr(b->bytes + line, '\n', b->len - line) : NULL;
    return (int)(end != NULL ? (size_t)(end - b->bytes) - line : b->len - line);
}

/* Runs a script: its status has to be as is wanted, and its output. */
static void run_as(const buffer *script, uint32_t status, const buffer *wanted) {
    buffer out = {NULL, 0, wanted->len + 64};
    out.bytes = malloc(out.room);
    assert(out.bytes != NULL);
    uint32_t ended = zugrenja_run_script(script->bytes, script->len, out.bytes, out.room, &out.len);
    if (ended != status || out.len != wanted->len || (out.len > 0 && memcmp(out.bytes, wanted->bytes, out.len) != 0)) {
        out.len = out.len < out.room ? out.len : out.room;
        size_t line = line_of_difference(&out, wanted);
        fprintf(stderr, "%.*sThe script ends with %u, the handle's answers with %u. They differ in\n%.*s\n%.*s\n", (int)script->len,
                script->bytes, ended, status, line_len(&out, line), out.bytes + line, line_len(wanted, line), wanted->bytes + line);
        abort();
    }
    free(out.bytes);
    compared_runs++;
}

/* The limit of a script, whose elements are charged 64 bytes, under which as many have room: 8 (or 128 bytes) at first, then twice as many
   each time that it is full (docs/TESTED.md, "A limit"). */
static size_t limit_of(size_t max_memory, size_t element_bytes) {
    size_t charged = element_bytes > 0 ? element_bytes : 1;
    size_t fits = max_memory / charged, slots = charged < 16 ? 128 / charged : 8;
    if (slots > fits) {
        return 0;
    }
    while (slots <= fits / 2) {
        slots *= 2;
    }
    return slots > SIZE_MAX / 64 ? SIZE_MAX : slots * 64;
}

static void record_new(recording *r, size_t max_memory, size_t element_bytes, uint32_t esi, int explains) {
    r->script.len = r->output.len = r->waits.len = r->open_len = r->tags = 0;
    r->explains = explains;
    r->first_line = 3u + (esi != 0) + (explains != 0);
    appendf(&r->script, "tries\nlimit\t%zu\n%s%s", limit_of(max_memory, element_bytes), esi ? "esi\n" : "", explains ? "explain\n" : "");
}

/* A text that isn't accepted: a script with it is bad for the same cause. */
static void check_refused(text t, const char *cause, uint32_t combinator) {
    buffer script = {0}, wanted = {0};
    append_selector(&script, 0, t);
    appendf(&wanted, combinator ? "bad line 1: %s(%c)\n" : "bad line 1: %s\n", cause, (int)combinator);
    run_as(&script, ZUGRENJA_BAD_LINE, &wanted);
    free(script.bytes);
    free(wanted.bytes);
}

static const char *const SPACES[] = {"html", "svg", "mathml"};

/* A tag that waits is dropped. */
static void record_dropped(recording *r) {
    if (r->waits.len > 0) {
        append(&r->script, "drop\t", 5);
        append(&r->script, r->waits.bytes, r->waits.len);
        append(&r->script, "\n", 1);
        append(&r->output, "dropped\n", 8);
        r->waits.len = 0;
        r->tags++;
    }
}

static void record_waiting(recording *r, uint32_t name_space, text name) {
    record_dropped(r);
    appendf(&r->waits, "%s\t", SPACES[name_space]);
    append_name(&r->waits, name);
}

/* Why the handle's last start tag is reported. */
static void record_reasons(recording *r, zugrenja_matcher *m) {
    size_t count = 99, all = 99, again = 99, total = 99;
    assert(zugrenja_explain(m, NULL, 0, NULL, 0, &count, &all) == ZUGRENJA_GOOD);
    zugrenja_reason *reasons = malloc((count + 1) * sizeof *reasons);
    size_t *numbers = malloc((all + 1) * sizeof *numbers);
    assert(reasons != NULL && numbers != NULL);
    assert(zugrenja_explain(m, reasons, count, numbers, all, &again, &total) == ZUGRENJA_GOOD && again == count && total == all);
    for (size_t place = 0; place < count; place++) {
        const zugrenja_reason *why = &reasons[place];
        assert(why->numbers_start == (place > 0 ? reasons[place - 1].numbers_start + reasons[place - 1].numbers_len : 0));
        appendf(&r->output, "why\t%" PRIu32 "\t%zu\t%zu\t", why->id, why->text + r->first_line, why->item);
        for (size_t number = 0; number < why->numbers_len; number++) {
            appendf(&r->output, "%s%zu", number > 0 ? "," : "", numbers[why->numbers_start + number]);
        }
        append(&r->output, "\n", 1);
    }
    free(reasons);
    free(numbers);
    compared_reasons += count;
}

/* What the handle says of its last start tag, which is reported. */
static void record_report(recording *r, zugrenja_matcher *m, int asked, size_t matched) {
    uint32_t opened = 99, *ids = malloc((matched + 1) * sizeof *ids);
    uint64_t names = 99, attributes = 99;
    size_t count = 99;
    assert(ids != NULL && zugrenja_ids(m, ids, matched, &count) == ZUGRENJA_GOOD && count == matched);
    assert(zugrenja_has_opened(m, &opened) == ZUGRENJA_GOOD && opened <= 1);
    assert(zugrenja_tries(m, &names, &attributes) == ZUGRENJA_GOOD);
    appendf(&r->output, "start\t%s", matched == 0 ? "-" : "");
    for (size_t place = 0; place < matched; place++) {
        appendf(&r->output, "%s%" PRIu32 "%s", place > 0 ? "," : "", ids[place], opened ? "" : "/");
    }
    appendf(&r->output, "%s\ttries %" PRIu64 " %" PRIu64 "\n", asked ? "\tasked" : "", names, attributes);
    free(ids);
    if (r->explains) {
        record_reasons(r, m);
    }
    compared_reports += matched > 0;
    if (opened) {
        if (r->open_len == r->open_room) {
            r->open_room = 2 * r->open_room + 8;
            r->open = realloc(r->open, r->open_room * sizeof *r->open);
            assert(r->open != NULL);
        }
        r->open[r->open_len++] = (element){r->tags, 0};
    }
    r->tags++;
}

/* A start tag whose fields end the script is refused: so is the script's run. The tag is taken out of the script again. */
static void record_refused(recording *r, size_t script_len, uint32_t status) {
    size_t output_len = r->output.len;
    appendf(&r->output, "refused %s\n", status == ZUGRENJA_LIMIT ? "limit" : "counter");
    run_as(&r->script, ZUGRENJA_REFUSED, &r->output);
    r->script.len = script_len;
    r->output.len = output_len;
}

/* A start tag that didn't wait, and was answered so. */
static void record_start(recording *r, zugrenja_matcher *m, uint32_t name_space, text name, uint32_t status, size_t matched) {
    record_dropped(r);
    size_t script_len = r->script.len;
    appendf(&r->script, "start\t%s\t", SPACES[name_space]);
    append_name(&r->script, name);
    append(&r->script, "\n", 1);
    if (status == ZUGRENJA_GOOD) {
        record_report(r, m, 0, matched);
    } else {
        record_refused(r, script_len, status);
    }
}

/* A start tag that waited was handed attributes in these places of a text, and answered so. */
static void record_finish(recording *r, zugrenja_matcher *m, const uint8_t *in, const zugrenja_attribute *places, size_t count, int closes,
                          uint32_t status, size_t matched) {
    size_t script_len = r->script.len;
    size_t space_len = strcspn((const char *)r->waits.bytes, "\t");
    append(&r->script, "start\t", 6);
    append(&r->script, r->waits.bytes, space_len);
    append(&r->script, "/", closes != 0);
    append(&r->script, r->waits.bytes + space_len, r->waits.len - space_len);
    for (size_t place = 0; place < count; place++) {
        const zugrenja_attribute *a = &places[place];
        append(&r->script, "\t", 1);
        append(&r->script, in + a->name_start, a->name_end - a->name_start);
        if (a->has_value) {
            append(&r->script, "=", 1);
            append(&r->script, in + a->value_start, a->value_end - a->value_start);
        }
    }
    append(&r->script, "\n", 1);
    r->waits.len = 0;
    if (status == ZUGRENJA_GOOD) {
        record_report(r, m, 1, matched);
    } else {
        record_refused(r, script_len, status);
    }
}

/* An end tag that closed so many elements, with as many of their values as there was room for. */
static void record_end(recording *r, text name, size_t closed, const uint64_t *values, size_t room) {
    record_dropped(r);
    assert(closed <= r->open_len);
    const element *first = r->open + (r->open_len - closed);
    append(&r->script, "end\t", 4);
    append_name(&r->script, name);
    append(&r->script, "\n", 1);
    appendf(&r->output, "end\t%s", closed == 0 ? "-" : "");
    for (size_t place = 0; place < closed; place++) {
        appendf(&r->output, "%s%zu", place > 0 ? "," : "", first[place].number);
        assert(place >= room || values[place] == first[place].value);
    }
    append(&r->output, "\n", 1);
    r->open_len -= closed;
    r->tags++;
    compared_closed += closed;
}

/* The script of all that the handle was told has to be answered as the handle answered. */
static void record_done(recording *r) {
    record_dropped(r);
    run_as(&r->script, ZUGRENJA_GOOD, &r->output);
    compared_tags += r->tags;
}

static void record_free(recording *r) {
    free(r->script.bytes);
    free(r->output.bytes);
    free(r->waits.bytes);
    free(r->open);
}

#endif
