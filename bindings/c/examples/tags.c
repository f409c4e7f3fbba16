/* Reads a script of selectors and tags (docs/SCRIPT.md) from standard input, tells a matcher of the tags one by one, and writes what
   lol_match writes; with -t, how long the tags took too, to standard error. Each line has to be of the right form. */
#define _POSIX_C_SOURCE 199309L
#include "zugrenja.h"
#include <stdbool.h>
#include <stdio.h>
#include <stdlib.h>
#include <string.h>
#include <time.h>

typedef struct {
    const char *bytes;
    size_t len;
} text;

/* The causes by their numbers, as lol_match writes them. */
static const char *const CAUSES[] = {
    "UnexpectedToken", "UnexpectedEnd", "MissingAttributeName", "EmptySelector", "DanglingCombinator", "UnexpectedTokenInAttribute",
    "UnsupportedPseudoClassOrElement", "NestedNegation", "NamespacedSelector", "InvalidClassName", "EmptyNegation",
    "UnsupportedCombinator", "UnsupportedSyntax"};

/* A matcher, what was told so far, and room for what it answers. */
typedef struct {
    zugrenja_matcher matcher;
    bool tries;
    bool explains;
    bool rows;
    size_t fewest; /* nodes from which there are rows */
    bool built;
    uint64_t number;
    size_t open;
    uint32_t *ids;
    size_t ids_len;
    uint64_t *values;
    zugrenja_attribute *attributes;
    size_t *lines; /* those of the selectors' texts */
    size_t texts;
} run;

/* Cuts the next piece off before a separator, which goes too. */
static text cut(text *rest, char separator) {
    text piece = *rest;
    const char *end = rest->len ? memchr(rest->bytes, separator, rest->len) : NULL;
    if (end != NULL) {
        piece.len = (size_t)(end - rest->bytes);
    }
    size_t gone = piece.len + (end != NULL);
    rest->bytes += gone;
    rest->len -= gone;
    return piece;
}

static bool is(text piece, const char *word) {
    return piece.len == strlen(word) && memcmp(piece.bytes, word, piece.len) == 0;
}

static unsigned long long number_of(text digits) {
    unsigned long long number = 0;
    for (size_t place = 0; place < digits.len; place++) {
        number = number * 10 + (unsigned long long)(digits.bytes[place] - '0');
    }
    return number;
}

static const uint8_t *bytes_of(text piece) {
    return (const uint8_t *)piece.bytes;
}

/* Standard input to its end. Ends the program if memory or the read fails. */
static text read_input(void) {
    size_t room = 1 << 16, len = 0, count;
    char *bytes = malloc(room);
    while (bytes != NULL && (count = fread(bytes + len, 1, room - len, stdin)) > 0) {
        len += count;
        if (len == room) {
            bytes = realloc(bytes, room *= 2);
        }
    }
    if (bytes == NULL || ferror(stdin)) {
        exit(4);
    }
    return (text){bytes, len};
}

/* Makes the matcher by the script's settings, and room for as many ids and open elements as there are lines. */
static void make(run *r, text script) {
    size_t max_memory = SIZE_MAX, lines = 1, fields = 1;
    bool esi = false;
    for (size_t place = 0; place < script.len; place++) {
        lines += script.bytes[place] == '\n';
        fields += script.bytes[place] == '\t';
    }
    while (script.len > 0) {
        text line = cut(&script, '\n'), kind = cut(&line, '\t');
        if (is(kind, "limit")) {
            max_memory = number_of(line);
        }
        esi = esi || is(kind, "esi");
        r->tries = r->tries || is(kind, "tries");
        r->explains = r->explains || is(kind, "explain");
        if (is(kind, "rows")) {
            r->rows = true;
            r->fewest = line.len > 0 ? number_of(line) : ZUGRENJA_ROWS_PAY_FROM;
        }
    }
    r->ids_len = lines;
    r->ids = malloc(lines * sizeof *r->ids);
    r->values = malloc(lines * sizeof *r->values);
    r->attributes = malloc(fields * sizeof *r->attributes);
    r->lines = malloc(lines * sizeof *r->lines);
    if (r->ids == NULL || r->values == NULL || r->attributes == NULL || r->lines == NULL) {
        exit(3);
    }
    if ((r->explains ? zugrenja_new_explaining : zugrenja_new)(&r->matcher, max_memory, 64, esi) != ZUGRENJA_GOOD) {
        exit(3);
    }
}

/* Adds a selector. Ends the run if its text isn't accepted. */
static int add(run *r, size_t line, text fields) {
    uint32_t id = (uint32_t)number_of(cut(&fields, '\t'));
    zugrenja_refusal refusal;
    uint32_t status = zugrenja_add(&r->matcher, id, bytes_of(fields), fields.len, &refusal);
    if (status == ZUGRENJA_NOT_ACCEPTED) {
        printf("bad line %zu: %s", line, CAUSES[refusal.cause]);
        if (refusal.cause == ZUGRENJA_UNSUPPORTED_COMBINATOR) {
            printf("(%c)", (char)refusal.combinator);
        }
        puts("");
        return 2;
    }
    r->lines[r->texts++] = line;
    return status == ZUGRENJA_GOOD ? 0 : 3;
}

/* Builds the matcher, with rows if the script asks for them. One that explains has none. */
static uint32_t build(run *r) {
    if (r->rows && !r->explains) {
        uint32_t status = zugrenja_with_rows(&r->matcher, r->fewest);
        if (status != ZUGRENJA_GOOD) {
            return status;
        }
    }
    return zugrenja_build(&r->matcher);
}

/* The attributes' places in the rest of a line. */
static size_t attributes_in(run *r, text fields) {
    const char *start = fields.bytes;
    size_t count = 0;
    while (fields.len > 0) {
        text field = cut(&fields, '\t');
        text name = cut(&field, '=');
        zugrenja_attribute *a = &r->attributes[count++];
        a->name_start = (size_t)(name.bytes - start);
        a->name_end = a->name_start + name.len;
        a->value_start = (size_t)(field.bytes - start);
        a->value_end = a->value_start + field.len;
        a->has_value = field.bytes != name.bytes + name.len;
    }
    return count;
}

/* Writes the report of a start tag, and notes its number as its element's value. */
static void write_start(run *r, bool asked) {
    uint32_t opened = 0;
    size_t matched = 0;
    uint64_t names = 0, attributes = 0;
    zugrenja_has_opened(&r->matcher, &opened);
    zugrenja_ids(&r->matcher, r->ids, r->ids_len, &matched);
    printf("start\t%s", matched == 0 ? "-" : "");
    for (size_t place = 0; place < matched; place++) {
        printf("%s%u%s", place > 0 ? "," : "", r->ids[place], opened ? "" : "/");
    }
    if (asked) {
        printf("\tasked");
    }
    if (r->tries) {
        zugrenja_tries(&r->matcher, &names, &attributes);
        printf("\ttries %llu %llu", (unsigned long long)names, (unsigned long long)attributes);
    }
    puts("");
    if (opened) {
        zugrenja_set_value(&r->matcher, r->number);
        r->open++;
    }
}

/* Writes why the last start tag was reported: 0, or the exit status. */
static int write_reasons(run *r) {
    size_t count, all;
    if (zugrenja_explain(&r->matcher, NULL, 0, NULL, 0, &count, &all) != ZUGRENJA_GOOD) {
        return 3;
    }
    if (count == 0) {
        return 0;
    }
    zugrenja_reason *reasons = malloc(count * sizeof *reasons);
    size_t *numbers = malloc(all * sizeof *numbers);
    int status = 3;
    if (reasons != NULL && numbers != NULL
        && zugrenja_explain(&r->matcher, reasons, count, numbers, all, &count, &all) == ZUGRENJA_GOOD) {
        for (const zugrenja_reason *why = reasons; why < reasons + count; why++) {
            printf("why\t%u\t%zu\t%zu\t", why->id, r->lines[why->text], why->item);
            for (size_t place = 0; place < why->numbers_len; place++) {
                printf("%s%zu", place > 0 ? "," : "", numbers[why->numbers_start + place]);
            }
            puts("");
        }
        status = 0;
    }
    free(reasons);
    free(numbers);
    return status;
}

static int refused(uint32_t status) {
    if (status == ZUGRENJA_LIMIT || status == ZUGRENJA_COUNTER) {
        printf("refused %s\n", status == ZUGRENJA_LIMIT ? "limit" : "counter");
    }
    return 3;
}

static int start(run *r, text fields, bool drops) {
    text ns = cut(&fields, '\t'), name = cut(&fields, '\t');
    bool closes = ns.len > 0 && ns.bytes[ns.len - 1] == '/';
    ns.len -= closes;
    uint32_t name_space = is(ns, "svg") ? ZUGRENJA_SVG : is(ns, "mathml") ? ZUGRENJA_MATHML : ZUGRENJA_HTML;
    size_t matched;
    uint32_t status = zugrenja_start(&r->matcher, bytes_of(name), name.len, name_space, &matched);
    bool asked = status == ZUGRENJA_NEEDS_ATTRIBUTES;
    if (asked && drops) {
        puts("dropped");
        return 0;
    }
    if (asked) {
        size_t count = attributes_in(r, fields);
        status = zugrenja_finish(&r->matcher, bytes_of(fields), fields.len, r->attributes, count, closes, &matched);
    }
    if (status != ZUGRENJA_GOOD) {
        return refused(status);
    }
    write_start(r, asked);
    return r->explains ? write_reasons(r) : 0;
}

static int end(run *r, text name) {
    size_t closed;
    if (zugrenja_end(&r->matcher, bytes_of(name), name.len, r->values, r->open, &closed) != ZUGRENJA_GOOD) {
        return 3;
    }
    printf("end\t%s", closed == 0 ? "-" : "");
    for (size_t place = 0; place < closed; place++) {
        printf("%s%llu", place > 0 ? "," : "", (unsigned long long)r->values[place]);
    }
    puts("");
    r->open -= closed;
    return 0;
}

/* Runs one line: 0, or the exit status of the program. */
static int run_line(run *r, size_t number, text line) {
    text kind = cut(&line, '\t');
    if (is(kind, "select")) {
        return add(r, number, line);
    }
    if (!is(kind, "start") && !is(kind, "drop") && !is(kind, "end")) {
        return 0;
    }
    if (!r->built && build(r) != ZUGRENJA_GOOD) {
        return 3;
    }
    r->built = true;
    int status = is(kind, "end") ? end(r, line) : start(r, line, is(kind, "drop"));
    r->number++;
    return status;
}

int main(int argc, char **argv) {
    run r = {0};
    text input = read_input(), rest = input;
    struct timespec before, after;
    int status = 0;
    make(&r, input);
    clock_gettime(CLOCK_MONOTONIC, &before);
    for (size_t number = 1; rest.len > 0 && status == 0; number++) {
        status = run_line(&r, number, cut(&rest, '\n'));
    }
    clock_gettime(CLOCK_MONOTONIC, &after);
    if (argc > 1 && strcmp(argv[1], "-t") == 0) {
        double seconds = (double)(after.tv_sec - before.tv_sec) + (double)(after.tv_nsec - before.tv_nsec) / 1e9;
        fprintf(stderr, "%llu tags in %.6f seconds\n", (unsigned long long)r.number, seconds);
    }
    zugrenja_free(&r.matcher);
    free((void *)input.bytes);
    free(r.ids);
    free(r.values);
    free(r.attributes);
    free(r.lines);
    return status;
}
