/* Makes the calls of a table (bindings/calls.txt says how it is written), and checks what each answers: calls FILE. */
#include "zugrenja.h"
#include <inttypes.h>
#include <stdarg.h>
#include <stdio.h>
#include <stdlib.h>
#include <string.h>

enum { WORDS = 32, ROOM = 1 << 16 };

static const char *const STATUSES[] = {
    "GOOD", "NEEDS_ATTRIBUTES", "BAD_LINE", "REFUSED", "OUT_OF_MEMORY", "NO_MATCHER", "IN_USE", "NOT_BUILT", "BUILT", "NOT_UTF8",
    "NOT_ACCEPTED", "NO_NAMESPACE", "LIMIT", "COUNTER", "TAG_OUT_OF_MEMORY", "FAILED", "NOT_ASKED", "OUTSIDE", "NOT_OPENED",
    "NOT_EXPLAINING", "TOO_MANY_ITEMS", "EXPLAINS"};
static const char *const CAUSES[] = {
    "UnexpectedToken", "UnexpectedEnd", "MissingAttributeName", "EmptySelector", "DanglingCombinator", "UnexpectedTokenInAttribute",
    "UnsupportedPseudoClassOrElement", "NestedNegation", "NamespacedSelector", "InvalidClassName", "EmptyNegation",
    "UnsupportedCombinator", "UnsupportedSyntax"};

typedef struct {
    const uint8_t *bytes;
    size_t len;
} word;

/* The words of a line up to `=`, and the bytes of those in quotes; an empty one is null. */
static word words[WORDS];
static size_t count;
static uint8_t bytes[ROOM];
static char answer[ROOM];
static uint8_t output[ROOM];

static void out_of_form(const char *line) {
    fprintf(stderr, "not of the table's form: %s\n", line);
    exit(2);
}

static void answers(const char *form, ...) {
    va_list rest;
    size_t length = strlen(answer);
    va_start(rest, form);
    vsnprintf(answer + length, sizeof answer - length, form, rest);
    va_end(rest);
}

/* Reads the piece in quotes that begins at `at` to its end, and to the end of `*N` after it. */
static const char *read_piece(const char *at, size_t *length) {
    size_t start = *length;
    for (at++; *at != '"'; at++) {
        unsigned byte = (uint8_t)*at;
        if (byte == '\\' && at[1] == 'x') {
            sscanf(at + 2, "%2x", &byte);
            at += 3;
        } else if (byte == '\\') {
            byte = (uint8_t)*++at;
        }
        if (*at == 0) {
            out_of_form("a text has no end");
        }
        bytes[(*length)++] = (uint8_t)byte;
    }
    at++;
    size_t piece = *length - start;
    unsigned long times = *at == '*' ? strtoul(at + 1, (char **)&at, 10) : 1;
    for (; times > 1; times--) {
        memcpy(bytes + *length, bytes + start, piece);
        *length += piece;
    }
    return at;
}

/* Cuts a line into words, and returns what stands after `= `. */
static const char *read_words(const char *line) {
    size_t length = 0;
    for (count = 0; strncmp(line, "= ", 2) != 0; count++) {
        if (*line == 0 || count == WORDS) {
            out_of_form(line);
        }
        words[count].bytes = (const uint8_t *)line;
        if (*line == '"') {
            words[count].bytes = bytes + length;
            while (*line == '"') {
                line = read_piece(line, &length);
            }
            words[count].len = (size_t)(bytes + length - words[count].bytes);
            words[count].bytes = words[count].len > 0 ? words[count].bytes : NULL;
        } else {
            words[count].len = strcspn(line, " ");
            line += words[count].len;
        }
        line += strspn(line, " ");
    }
    return line + 2;
}

static int is(word w, const char *text) {
    return w.len == strlen(text) && memcmp(w.bytes, text, w.len) == 0;
}

static uint64_t number(size_t place) {
    return is(words[place], "max") ? UINT64_MAX : strtoull((const char *)words[place].bytes, NULL, 10);
}

static void list64(const uint64_t *numbers, size_t length) {
    for (size_t place = 0; place < length; place++) {
        answers("%s%" PRIu64, place > 0 ? "," : " ", numbers[place]);
    }
    if (length == 0) {
        answers(" -");
    }
}

static void list_ids(const uint32_t *ids, size_t length, const char *mark) {
    for (size_t place = 0; place < length; place++) {
        answers("%s%" PRIu32 "%s", place > 0 ? "," : " ", ids[place], mark);
    }
    if (length == 0) {
        answers(" -");
    }
}

/* What is reported of a start tag. `matched` and zugrenja_ids have to agree. */
static void report(zugrenja_matcher *m, uint32_t status, size_t matched) {
    uint32_t ids[256], opened = 0;
    size_t reported = 0;
    answers("%s", STATUSES[status]);
    if (status == ZUGRENJA_GOOD) {
        zugrenja_ids(m, ids, 256, &reported);
        zugrenja_has_opened(m, &opened);
        list_ids(ids, reported, opened ? "" : "/");
    }
    if (matched != reported) {
        answers(" but matched is %zu", matched);
    }
}

static void add(zugrenja_matcher *m) {
    zugrenja_refusal why = {99, 99, 99, 99};
    uint32_t status = zugrenja_add(m, (uint32_t)number(1), words[2].bytes, words[2].len, &why);
    answers("%s", STATUSES[status]);
    if (status == ZUGRENJA_NOT_ACCEPTED && why.cause == ZUGRENJA_UNSUPPORTED_COMBINATOR) {
        answers(" %s(%c) %zu %zu", CAUSES[why.cause], (char)why.combinator, why.item, why.offset);
    } else if (status == ZUGRENJA_NOT_ACCEPTED) {
        answers(" %s %zu %zu", CAUSES[why.cause], why.item, why.offset);
    } else if (why.cause != 99 || why.offset != 99) {
        answers(" but the refusal is written");
    }
}

static void start(zugrenja_matcher *m) {
    static const char *const SPACES[] = {"html", "svg", "mathml"};
    uint32_t space = (uint32_t)number(1);
    for (uint32_t known = 0; known < 3; known++) {
        space = is(words[1], SPACES[known]) ? known : space;
    }
    size_t matched = 99;
    uint32_t status = zugrenja_start(m, words[2].bytes, words[2].len, space, &matched);
    report(m, status, matched);
}

/* Attributes as words: each place is the word's. */
static void finish(zugrenja_matcher *m) {
    zugrenja_attribute places[WORDS] = {0};
    size_t matched = 99, given = 0;
    for (size_t place = 2; place < count; place++) {
        word w = words[place];
        size_t from = w.len > 0 ? (size_t)(w.bytes - bytes) : 0;
        const uint8_t *equals = w.len > 0 ? memchr(w.bytes, '=', w.len) : NULL;
        size_t name_end = equals == NULL ? from + w.len : (size_t)(equals - bytes);
        places[given++] = (zugrenja_attribute){from, name_end, name_end + 1, from + w.len, equals != NULL};
    }
    uint32_t status = zugrenja_finish(m, bytes, ROOM, places, given, (uint32_t)number(1), &matched);
    report(m, status, matched);
}

/* Attributes by places, `0-4` or `0-4:5-9`, in a text. */
static void finish_in(zugrenja_matcher *m) {
    zugrenja_attribute places[WORDS] = {0};
    size_t matched = 99, given = 0;
    for (size_t place = 3; place < count; place++, given++) {
        zugrenja_attribute *a = &places[given];
        char *rest;
        a->name_start = strtoull((const char *)words[place].bytes, &rest, 10);
        a->name_end = strtoull(rest + 1, &rest, 10);
        a->has_value = *rest == ':';
        if (a->has_value) {
            a->value_start = strtoull(rest + 1, &rest, 10);
            a->value_end = strtoull(rest + 1, &rest, 10);
        }
    }
    uint32_t status = zugrenja_finish(m, words[1].bytes, words[1].len, given > 0 ? places : NULL, given, (uint32_t)number(2), &matched);
    report(m, status, matched);
}

/* An end tag, with room for all values or for some. */
static void end(zugrenja_matcher *m, size_t room, int is_bounded) {
    static uint64_t values[ROOM];
    size_t closed = 99;
    values[room] = 99;
    uint32_t status = zugrenja_end(m, words[1].bytes, words[1].len, room > 0 ? values : NULL, room, &closed);
    answers("%s", STATUSES[status]);
    if (status == ZUGRENJA_GOOD && is_bounded) {
        answers(" %zu", closed);
    }
    if (status == ZUGRENJA_GOOD) {
        list64(values, closed < room ? closed : room);
    }
    if (values[room] != 99 || (status != ZUGRENJA_GOOD && closed != 0)) {
        answers(" but what is written is wrong");
    }
}

static void ids(zugrenja_matcher *m, size_t room, int is_bounded) {
    uint32_t ids[257];
    size_t matched = 99;
    ids[room] = 99;
    uint32_t status = zugrenja_ids(m, room > 0 ? ids : NULL, room, &matched);
    answers("%s", STATUSES[status]);
    if (status == ZUGRENJA_GOOD && is_bounded) {
        answers(" %zu", matched);
    }
    if (status == ZUGRENJA_GOOD) {
        list_ids(ids, matched < room ? matched : room, "");
    }
    if (ids[room] != 99) {
        answers(" but it is written beyond the room");
    }
}

static void opened(zugrenja_matcher *m) {
    uint32_t opened = 99;
    uint32_t status = zugrenja_has_opened(m, &opened);
    answers("%s", STATUSES[status]);
    if (status == ZUGRENJA_GOOD) {
        answers(" %" PRIu32, opened);
    }
}

static void tries(zugrenja_matcher *m) {
    uint64_t tries[2] = {99, 99};
    uint32_t status = zugrenja_tries(m, &tries[0], &tries[1]);
    answers("%s", STATUSES[status]);
    if (status == ZUGRENJA_GOOD) {
        answers(" %" PRIu64 " %" PRIu64, tries[0], tries[1]);
    }
}

/* The reasons of the last tag, with room for all. */
static void explain(zugrenja_matcher *m) {
    static zugrenja_reason reasons[256];
    static size_t numbers[ROOM];
    size_t reasons_count = 99, numbers_count = 99;
    uint32_t status = zugrenja_explain(m, reasons, 256, numbers, ROOM, &reasons_count, &numbers_count);
    answers("%s", STATUSES[status]);
    if (status == ZUGRENJA_GOOD && reasons_count == 0) {
        answers(" -");
    }
    for (size_t place = 0; place < reasons_count; place++) {
        const zugrenja_reason *r = &reasons[place];
        answers("%s%" PRIu32 " %zu %zu ", place > 0 ? "|" : " ", r->id, r->text, r->item);
        for (size_t number = 0; number < r->numbers_len; number++) {
            answers("%s%zu", number > 0 ? "," : "", numbers[r->numbers_start + number]);
        }
    }
}

/* The same, with room for so many reasons and numbers. */
static void explain_in(zugrenja_matcher *m, size_t reasons_room, size_t numbers_room) {
    zugrenja_reason reasons[65];
    size_t numbers[65], reasons_count = 99, numbers_count = 99;
    reasons[reasons_room].id = 99;
    numbers[numbers_room] = 99;
    uint32_t status = zugrenja_explain(m, reasons_room > 0 ? reasons : NULL, reasons_room, numbers_room > 0 ? numbers : NULL, numbers_room,
                                       &reasons_count, &numbers_count);
    answers("%s", STATUSES[status]);
    if (status == ZUGRENJA_GOOD) {
        answers(" %zu %zu", reasons_count, numbers_count);
        for (size_t place = 0; place < reasons_count && place < reasons_room; place++) {
            const zugrenja_reason *r = &reasons[place];
            answers("%s%" PRIu32 "/%zu/%zu/%zu+%zu", place > 0 ? "," : " ", r->id, r->text, r->item, r->numbers_start, r->numbers_len);
        }
        answers(reasons_count > 0 && reasons_room > 0 ? "" : " -");
        for (size_t place = 0; place < numbers_count && place < numbers_room; place++) {
            answers("%s%zu", place > 0 ? "," : " ", numbers[place]);
        }
        answers(numbers_count > 0 && numbers_room > 0 ? "" : " -");
    } else if (reasons_count != 0 || numbers_count != 0) {
        answers(" but counts are written");
    }
    if (reasons[reasons_room].id != 99 || numbers[numbers_room] != 99) {
        answers(" but it is written beyond the room");
    }
}

/* Bytes of the output in one line: `|` for LF and a blank for TAB. */
static void list_bytes(size_t length) {
    for (size_t place = 0; place < length; place++) {
        output[place] = output[place] == '\n' ? '|' : output[place] == '\t' ? ' ' : output[place];
    }
    answers("%.*s", (int)length, (const char *)output);
}

static void explain_text(zugrenja_matcher *m, size_t room) {
    size_t written = 99;
    output[room] = '!';
    uint32_t status = zugrenja_explain_text(m, room > 0 ? output : NULL, room, &written);
    answers("%s", STATUSES[status]);
    if (status == ZUGRENJA_GOOD) {
        answers(" %zu %s", written, written > 0 && room > 0 ? "" : "-");
        list_bytes(written < room ? written : room);
    }
    if (output[room] != '!' || (status != ZUGRENJA_GOOD && written != 0)) {
        answers(" but what is written is wrong");
    }
}

static void script(void) {
    size_t written = 0;
    uint32_t status = zugrenja_run_script(words[1].bytes, words[1].len, output, sizeof output, &written);
    answers("%s ", STATUSES[status]);
    list_bytes(written);
}

static void text(void) {
    size_t length = zugrenja_text((uint32_t)number(1), (uint32_t)number(2), (uint32_t)number(3), output, ZUGRENJA_TEXT);
    answers("%.*s", (int)length, (const char *)output);
}

/* Makes the call of the words. */
static void call(zugrenja_matcher *m, const char *line) {
    word kind = words[0];
    answer[0] = 0;
    if (is(kind, "new")) {
        answers("%s", STATUSES[zugrenja_new(m, number(1), number(2), (uint32_t)number(3))]);
    } else if (is(kind, "new_explaining")) {
        answers("%s", STATUSES[zugrenja_new_explaining(m, number(1), number(2), (uint32_t)number(3))]);
    } else if (is(kind, "with_rows")) {
        answers("%s", STATUSES[zugrenja_with_rows(m, number(1))]);
    } else if (is(kind, "build")) {
        answers("%s", STATUSES[zugrenja_build(m)]);
    } else if (is(kind, "value")) {
        answers("%s", STATUSES[zugrenja_set_value(m, number(1))]);
    } else if (is(kind, "free")) {
        answers("%s", STATUSES[zugrenja_free(m)]);
    } else if (is(kind, "add")) {
        add(m);
    } else if (is(kind, "start")) {
        start(m);
    } else if (is(kind, "finish")) {
        finish(m);
    } else if (is(kind, "finish_in")) {
        finish_in(m);
    } else if (is(kind, "end")) {
        end(m, 4096, 0);
    } else if (is(kind, "end_in")) {
        end(m, number(2), 1);
    } else if (is(kind, "ids")) {
        ids(m, 256, 0);
    } else if (is(kind, "ids_in")) {
        ids(m, number(1), 1);
    } else if (is(kind, "opened")) {
        opened(m);
    } else if (is(kind, "tries")) {
        tries(m);
    } else if (is(kind, "explain")) {
        explain(m);
    } else if (is(kind, "explain_in")) {
        explain_in(m, number(1), number(2));
    } else if (is(kind, "explain_text")) {
        explain_text(m, number(1));
    } else if (is(kind, "script")) {
        script();
    } else if (is(kind, "text")) {
        text();
    } else {
        out_of_form(line);
    }
}

int main(int argc, char **argv) {
    static char line[ROOM];
    char name[256] = "";
    zugrenja_matcher m = {0};
    unsigned cases = 0, calls = 0, wrong = 0;
    FILE *table = argc > 1 ? fopen(argv[1], "r") : NULL;
    while (table != NULL && fgets(line, sizeof line, table) != NULL) {
        line[strcspn(line, "\n")] = 0;
        if (strncmp(line, "case ", 5) == 0) {
            zugrenja_free(&m);
            m = (zugrenja_matcher){0};
            snprintf(name, sizeof name, "%.250s", line + 5);
            cases++;
        } else if (line[0] != 0 && line[0] != '#') {
            const char *wanted = read_words(line);
            call(&m, line);
            calls++;
            if (strcmp(answer, wanted) != 0) {
                wrong++;
                printf("%s: %s\n  but answered: %s\n", name, line, answer);
            }
        }
    }
    zugrenja_free(&m);
    printf("%u cases: %u of %u calls answered as the table says\n", cases, calls - wrong, calls);
    return wrong > 0 || calls == 0;
}
