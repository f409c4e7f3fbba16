/* Output for which there is room or isn't: its beginning is written, and all after it stays as it was. */
#include "zugrenja.h"
#include <assert.h>
#include <stdio.h>
#include <string.h>

/* `div p` and `div > p`, on a paragraph in a section in a division. */
static const char SCRIPT[] = "select\t0\tdiv p\nselect\t1\tdiv > p\nstart\thtml\tdiv\nstart\thtml\tsection\nstart\thtml\tp\nend\tdiv\n";
static const char OUTPUT[] = "start\t-\nstart\t-\nstart\t0\nend\t0,1,2\n";

static uint8_t out[97];

static const uint8_t *bytes(const char *text) {
    return (const uint8_t *)text;
}

static void fill_with_dots(void) {
    memset(out, '.', sizeof out);
}

/* Whether this text was written, and only dots stand after it. */
static int is_written(const char *text) {
    size_t length = strlen(text), place = length;
    while (place < sizeof out && out[place] == '.') {
        place++;
    }
    return memcmp(out, text, length) == 0 && place == sizeof out;
}

static void run(const char *script, size_t room, uint32_t status, size_t length, const char *wanted) {
    size_t written = 99;
    fill_with_dots();
    assert(zugrenja_run_script(bytes(script), strlen(script), out, room, &written) == status);
    assert(written == length && is_written(wanted));
}

static void run_scripts(void) {
    run(SCRIPT, 64, ZUGRENJA_GOOD, strlen(OUTPUT), OUTPUT);
    run(SCRIPT, 10, ZUGRENJA_GOOD, strlen(OUTPUT), "start\t-\nst");
    run("select\t0\ta + b\n", 64, ZUGRENJA_BAD_LINE, 37, "bad line 1: UnsupportedCombinator(+)\n");
    run("limit\t0\nselect\t0\tp\nstart\thtml\tp\n", 64, ZUGRENJA_REFUSED, 14, "refused limit\n");
}

/* Words that are cut stand over the beginning of those before them. */
static void write_words(void) {
    fill_with_dots();
    assert(zugrenja_text(ZUGRENJA_OUT_OF_MEMORY, 0, 0, out, 16) == 13 && is_written("out of memory"));
    assert(zugrenja_text(ZUGRENJA_NO_MATCHER, 9, 9, out, 6) == 25 && is_written("the ha memory"));
    assert(zugrenja_text(ZUGRENJA_NOT_ACCEPTED, UINT32_MAX, 0, out, 0) == 13 && is_written("the ha memory"));
    assert(zugrenja_text(UINT32_MAX, 0, 0, out, 16) == 14 && is_written("unknown status"));
    const uint8_t refused[] = "p>", latin[] = {0xe4};
    const zugrenja_refusal dangling = {ZUGRENJA_DANGLING_COMBINATOR, 0, 0, 2}, none = {99, 0, 0, 0};
    assert(zugrenja_message(refused, 2, &dangling, out, 8) == 47 && is_written("Danglingstatus"));
    assert(zugrenja_message(refused, 2, &none, out, 16) == 0 && zugrenja_message(latin, 1, &dangling, out, 16) == 0);
}

static void explain(zugrenja_matcher *m, size_t room, uint32_t status, size_t length, const char *wanted) {
    size_t written = 99;
    fill_with_dots();
    assert(zugrenja_explain_text(m, out, room, &written) == status);
    assert(written == length && is_written(wanted));
}

static void add(zugrenja_matcher *m, uint32_t id, const char *text) {
    zugrenja_refusal refusal;
    assert(zugrenja_add(m, id, bytes(text), strlen(text), &refusal) == ZUGRENJA_GOOD);
}

static void explain_tags(void) {
    zugrenja_matcher m = {0};
    size_t matched = 99;
    explain(&m, 8, ZUGRENJA_NO_MATCHER, 0, "");
    assert(zugrenja_new(&m, 100, 8, 0) == ZUGRENJA_GOOD);
    explain(&m, 8, ZUGRENJA_NOT_BUILT, 0, "");
    assert(zugrenja_build(&m) == ZUGRENJA_GOOD);
    explain(&m, 8, ZUGRENJA_NOT_EXPLAINING, 0, "");
    assert(zugrenja_free(&m) == ZUGRENJA_GOOD);
    assert(zugrenja_new_explaining(&m, SIZE_MAX, 64, 0) == ZUGRENJA_GOOD);
    explain(&m, 8, ZUGRENJA_NOT_BUILT, 0, "");
    add(&m, 1, "p p p");
    add(&m, 2, "p");
    assert(zugrenja_build(&m) == ZUGRENJA_GOOD);
    explain(&m, 8, ZUGRENJA_GOOD, 0, "");
    for (int tag = 0; tag < 3; tag++) {
        assert(zugrenja_start(&m, bytes("p"), 1, ZUGRENJA_HTML, &matched) == ZUGRENJA_GOOD);
    }
    explain(&m, 96, ZUGRENJA_GOOD, 28, "why\t1\t0\t0\t0,1,2\nwhy\t2\t1\t0\t2\n");
    explain(&m, 6, ZUGRENJA_GOOD, 28, "why\t1\t");
    assert(zugrenja_free(&m) == ZUGRENJA_GOOD);
}

int main(void) {
    run_scripts();
    write_words();
    explain_tags();
    puts("what is written and cut: all as it has to be");
    return 0;
}
