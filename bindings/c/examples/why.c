/* Reads tags as words, `main`, `p`, `/p`, and says of each element by which selectors it is matched, and by which elements each compound of
   these is passed: why SELECTOR.. < TAGS. Elements are of HTML, and have no attributes. */
#include "zugrenja.h"
#include <stdio.h>
#include <stdlib.h>
#include <string.h>

enum { TAGS = 4096, NAME = 64, ROOM = 256 };

static char names[TAGS][NAME];

static const uint8_t *bytes(const char *text) {
    return (const uint8_t *)text;
}

/* Writes what a status says, or why a text isn't accepted, and ends the program. */
static void fail(const char *of, uint32_t status, const zugrenja_refusal *refusal) {
    uint8_t text[ZUGRENJA_TEXT];
    size_t length = zugrenja_text(status, refusal->cause, refusal->combinator, text, sizeof text);
    fprintf(stderr, "%s: %.*s\n", of, (int)length, (const char *)text);
    exit(1);
}

/* Writes the reasons of the last tag: a line for each, with the elements, the outermost first, and the numbers of their tags. */
static void explain(zugrenja_matcher *m, char **selectors, size_t tag) {
    zugrenja_reason reasons[ROOM];
    size_t numbers[ROOM * 8], count, all;
    uint32_t status = zugrenja_explain(m, reasons, ROOM, numbers, ROOM * 8, &count, &all);
    if (status != ZUGRENJA_GOOD || count > ROOM || all > ROOM * 8) {
        fail("explain", status != ZUGRENJA_GOOD ? status : ZUGRENJA_OUT_OF_MEMORY, &(zugrenja_refusal){0});
    }
    for (const zugrenja_reason *why = reasons; why < reasons + count; why++) {
        printf("%zu %s by item %zu of `%s`:", tag, names[tag], why->item, selectors[why->text]);
        for (size_t place = 0; place < why->numbers_len; place++) {
            size_t number = numbers[why->numbers_start + place];
            printf(" %s(%zu)", names[number], number);
        }
        puts("");
    }
}

/* Tells of a tag. Attributes that are asked for are none. */
static uint32_t tell(zugrenja_matcher *m, const char *name) {
    size_t count;
    if (name[0] == '/') {
        return zugrenja_end(m, bytes(name + 1), strlen(name + 1), NULL, 0, &count);
    }
    uint32_t status = zugrenja_start(m, bytes(name), strlen(name), ZUGRENJA_HTML, &count);
    return status == ZUGRENJA_NEEDS_ATTRIBUTES ? zugrenja_finish(m, NULL, 0, NULL, 0, 0, &count) : status;
}

int main(int argc, char **argv) {
    zugrenja_matcher m = {0};
    zugrenja_refusal refusal = {0};
    uint32_t status = zugrenja_new_explaining(&m, SIZE_MAX, 64, 0);
    for (int place = 1; place < argc && status == ZUGRENJA_GOOD; place++) {
        status = zugrenja_add(&m, (uint32_t)place, bytes(argv[place]), strlen(argv[place]), &refusal);
        if (status != ZUGRENJA_GOOD) {
            fail(argv[place], status, &refusal);
        }
    }
    status = status == ZUGRENJA_GOOD ? zugrenja_build(&m) : status;
    for (size_t tag = 0; tag < TAGS && status == ZUGRENJA_GOOD && scanf("%63s", names[tag]) == 1; tag++) {
        status = tell(&m, names[tag]);
        if (status == ZUGRENJA_GOOD) {
            explain(&m, argv + 1, tag);
        }
    }
    if (status != ZUGRENJA_GOOD) {
        fail("why", status, &refusal);
    }
    zugrenja_free(&m);
    return 0;
}
