/* Makes the calls of a script of selectors and tags (docs/SCRIPT.md): it is read from standard input and cut into calls beforehand, so that
   `make_calls` does nothing else. Writes how many tags were told, how many ids were reported and elements closed, and the seconds.
   With a number N it makes no script's calls but N start tags that are reported under nothing. Each line has to be of the right form. */
#define _POSIX_C_SOURCE 199309L
#include "zugrenja.h"
#include <stdbool.h>
#include <stdio.h>
#include <stdlib.h>
#include <string.h>
#include <time.h>

typedef struct {
    const char *bytes;
    size_t len;
} text;

/* One line as a call: its name or selector, and the attributes of a start tag as places in `fields`. */
typedef struct {
    enum { SELECTOR, START, END } kind;
    uint32_t id, name_space;
    text name, fields;
    size_t first, count;
    bool closes;
} call;

typedef struct {
    call *calls;
    size_t count;
    zugrenja_attribute *places;
    uint32_t *ids;
    size_t room;
} work;

typedef struct {
    size_t tags, reported, closed;
} told;

/* Cuts the next piece off before a separator, which goes too. */
static text cut(text *rest, char separator) {
    text piece = *rest;
    const char *end = rest->len ? memchr(rest->bytes, separator, rest->len) : NULL;
    if (end != NULL) {
        piece.len = (size_t)(end - rest->bytes);
    }
    size_t gone = piece.len + (end != NULL);
    rest->bytes += gone;
    rest->len -= gone;
    return piece;
}

static bool is(text piece, const char *word) {
    return piece.len == strlen(word) && memcmp(piece.bytes, word, piece.len) == 0;
}

static const uint8_t *bytes_of(text piece) {
    return (const uint8_t *)piece.bytes;
}

/* Memory for so many, or the end of the program. */
static void *room_for(size_t count, size_t bytes) {
    void *at = calloc(count + 1, bytes);
    if (at == NULL) {
        exit(4);
    }
    return at;
}

/* Standard input to its end. */
static text read_input(void) {
    size_t room = 1 << 16, len = 0, count;
    char *bytes = malloc(room);
    while (bytes != NULL && (count = fread(bytes + len, 1, room - len, stdin)) > 0) {
        len += count;
        if (len == room) {
            bytes = realloc(bytes, room *= 2);
        }
    }
    if (bytes == NULL || ferror(stdin)) {
        exit(4);
    }
    return (text){bytes, len};
}

/* The places of the attributes in the rest of a line, after those of the lines before. Returns how many. */
static size_t cut_attributes(zugrenja_attribute *places, text fields) {
    const char *start = fields.bytes;
    size_t count = 0;
    while (fields.len > 0) {
        text field = cut(&fields, '\t');
        text name = cut(&field, '=');
        zugrenja_attribute *a = &places[count++];
        a->name_start = (size_t)(name.bytes - start);
        a->name_end = a->name_start + name.len;
        a->value_start = (size_t)(field.bytes - start);
        a->value_end = a->value_start + field.len;
        a->has_value = field.bytes != name.bytes + name.len;
    }
    return count;
}

/* The calls of a script, and room for what they answer. */
static work cut_calls(text script) {
    size_t lines = 1, fields = 1, place = 0;
    for (size_t at = 0; at < script.len; at++) {
        lines += script.bytes[at] == '\n';
        fields += script.bytes[at] == '\t';
    }
    work w = {room_for(lines, sizeof(call)), 0, room_for(fields, sizeof(zugrenja_attribute)), room_for(lines, sizeof(uint32_t)), lines};
    while (script.len > 0) {
        text line = cut(&script, '\n'), kind = cut(&line, '\t');
        call *c = &w.calls[w.count++];
        if (is(kind, "select")) {
            *c = (call){.kind = SELECTOR, .id = (uint32_t)strtoul(cut(&line, '\t').bytes, NULL, 10), .name = line};
        } else if (is(kind, "end")) {
            *c = (call){.kind = END, .name = line};
        } else {
            text ns = cut(&line, '\t');
            bool closes = ns.len > 0 && ns.bytes[ns.len - 1] == '/';
            ns.len -= closes;
            *c = (call){.kind = START, .name = cut(&line, '\t'), .first = place, .closes = closes};
            c->name_space = is(ns, "svg") ? ZUGRENJA_SVG : is(ns, "mathml") ? ZUGRENJA_MATHML : ZUGRENJA_HTML;
            c->fields = line;
            c->count = cut_attributes(w.places + place, line);
            place += c->count;
        }
    }
    return w;
}

/* A start tag, with its attributes if they are asked for; what is opened gets the tag's number, and the ids are fetched. */
static uint32_t start(zugrenja_matcher *m, const work *w, const call *c, told *t) {
    size_t matched;
    uint32_t opened, status = zugrenja_start(m, bytes_of(c->name), c->name.len, c->name_space, &matched);
    if (status == ZUGRENJA_NEEDS_ATTRIBUTES) {
        status = zugrenja_finish(m, bytes_of(c->fields), c->fields.len, w->places + c->first, c->count, c->closes, &matched);
    }
    if (status == ZUGRENJA_GOOD && matched > 0) {
        status = zugrenja_ids(m, w->ids, w->room, &matched);
    }
    t->reported += matched;
    if (status == ZUGRENJA_GOOD && zugrenja_has_opened(m, &opened) == ZUGRENJA_GOOD && opened) {
        status = zugrenja_set_value(m, t->tags);
    }
    return status;
}

/* All calls, from the first to zugrenja_free: what was told, or the end of the program at a status that isn't good. */
static __attribute__((noinline)) told make_calls(const work *w) {
    zugrenja_matcher m = {0};
    zugrenja_refusal refusal;
    told t = {0, 0, 0};
    size_t closed;
    bool built = false;
    uint32_t status = zugrenja_new(&m, SIZE_MAX, 64, 0);
    for (const call *c = w->calls; c < w->calls + w->count && status == ZUGRENJA_GOOD; c++) {
        if (c->kind == SELECTOR) {
            status = zugrenja_add(&m, c->id, bytes_of(c->name), c->name.len, &refusal);
            continue;
        }
        if (!built) {
            status = zugrenja_build(&m);
            built = true;
        }
        if (c->kind == START) {
            status = start(&m, w, c, &t);
        } else {
            status = zugrenja_end(&m, bytes_of(c->name), c->name.len, NULL, 0, &closed);
            t.closed += closed;
        }
        t.tags++;
    }
    if (status != ZUGRENJA_GOOD) {
        exit(3);
    }
    zugrenja_free(&m);
    return t;
}

/* Start tags of a matcher with one selector, which doesn't match them; as they are void nothing is opened. */
static __attribute__((noinline)) told report_nothing(zugrenja_matcher *m, size_t count) {
    told t = {0, 0, 0};
    size_t matched;
    for (; t.tags < count && zugrenja_start(m, (const uint8_t *)"br", 2, ZUGRENJA_HTML, &matched) == ZUGRENJA_GOOD; t.tags++) {
        t.reported += matched;
    }
    return t;
}

int main(int argc, char **argv) {
    struct timespec before, after;
    zugrenja_matcher m = {0};
    zugrenja_refusal refusal;
    work w = {0};
    size_t count = argc > 1 ? strtoul(argv[1], NULL, 10) : 0;
    if (count == 0) {
        w = cut_calls(read_input());
    } else if (zugrenja_new(&m, SIZE_MAX, 64, 0) || zugrenja_add(&m, 0, (const uint8_t *)"a[href]", 7, &refusal) || zugrenja_build(&m)) {
        return 3;
    }
    clock_gettime(CLOCK_MONOTONIC, &before);
    told t = count == 0 ? make_calls(&w) : report_nothing(&m, count);
    clock_gettime(CLOCK_MONOTONIC, &after);
    double seconds = (double)(after.tv_sec - before.tv_sec) + (double)(after.tv_nsec - before.tv_nsec) / 1e9;
    printf("%zu tags, %zu ids, %zu closed in %.6f seconds\n", t.tags, t.reported, t.closed, seconds);
    return 0;
}
