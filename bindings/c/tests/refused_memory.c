/* Refuses each allocation in turn below the calls: each call answers a status of its own, and all memory is given back. */
#include "zugrenja.h"
#include <assert.h>
#include <stdio.h>
#include <stdlib.h>
#include <string.h>

static size_t allocations, refused_at, live;

static int is_refused(void) {
    return ++allocations == refused_at;
}

void *__real_malloc(size_t size);
void *__real_realloc(void *at, size_t size);
void __real_free(void *at);

void *__wrap_malloc(size_t size) {
    void *at = is_refused() ? NULL : __real_malloc(size);
    live += at != NULL;
    return at;
}

void *__wrap_realloc(void *at, size_t size) {
    return is_refused() ? NULL : __real_realloc(at, size);
}

void __wrap_free(void *at) {
    live -= at != NULL;
    __real_free(at);
}

static const uint8_t *bytes(const char *text) {
    return (const uint8_t *)text;
}

/* Adds a selector, twice if memory was refused the first time. */
static uint32_t add(zugrenja_matcher *m, uint32_t id, const char *text) {
    zugrenja_refusal refusal;
    uint32_t status = zugrenja_add(m, id, bytes(text), strlen(text), &refusal);
    return status == ZUGRENJA_OUT_OF_MEMORY ? zugrenja_add(m, id, bytes(text), strlen(text), &refusal) : status;
}

/* Asks why the last tag was reported, twice if memory was refused the first time: then nothing is written. */
static void explain(zugrenja_matcher *m, int explains) {
    zugrenja_reason reasons[4] = {{99, 99, 99, 99, 99}};
    size_t numbers[16] = {99}, reasons_count = 99, numbers_count = 99, written = 99;
    uint8_t line[64] = "!";
    uint32_t status = zugrenja_explain(m, reasons, 4, numbers, 16, &reasons_count, &numbers_count);
    if (status == ZUGRENJA_OUT_OF_MEMORY) {
        assert(reasons[0].id == 99 && numbers[0] == 99 && reasons_count == 0 && numbers_count == 0);
        status = zugrenja_explain(m, reasons, 4, numbers, 16, &reasons_count, &numbers_count);
    }
    assert(status == (explains ? ZUGRENJA_GOOD : ZUGRENJA_NOT_EXPLAINING) && (reasons_count > 0) == (reasons[0].id != 99));
    status = zugrenja_explain_text(m, line, sizeof line, &written);
    if (status == ZUGRENJA_OUT_OF_MEMORY) {
        assert(line[0] == '!' && written == 0);
        status = zugrenja_explain_text(m, line, sizeof line, &written);
    }
    assert(status == (explains ? ZUGRENJA_GOOD : ZUGRENJA_NOT_EXPLAINING) && (written > 0) == (reasons_count > 0));
}

/* Tells of a tag with one attribute: the status. */
static uint32_t tell(zugrenja_matcher *m, const char *name, int explains) {
    static const zugrenja_attribute HREF = {0, 4, 5, 9, 1};
    size_t matched;
    uint32_t status = zugrenja_start(m, bytes(name), strlen(name), ZUGRENJA_HTML, &matched);
    for (int tries = 0; tries < 2 && (status == ZUGRENJA_NEEDS_ATTRIBUTES || status == ZUGRENJA_OUT_OF_MEMORY); tries++) {
        status = zugrenja_finish(m, bytes("href=page"), 9, &HREF, 1, 0, &matched);
    }
    if (status == ZUGRENJA_GOOD) {
        uint32_t ids[4];
        assert(zugrenja_ids(m, ids, 4, &matched) == ZUGRENJA_GOOD);
        explain(m, explains);
        assert(zugrenja_set_value(m, 7) == ZUGRENJA_GOOD);
    }
    return status;
}

/* A life of a matcher. Returns how many of its calls were refused. */
static int live_once(int explains) {
    zugrenja_matcher m = {0};
    int refused = 0;
    while ((explains ? zugrenja_new_explaining : zugrenja_new)(&m, SIZE_MAX, 64, 0) == ZUGRENJA_OUT_OF_MEMORY) {
        refused++;
    }
    assert(add(&m, 400, "div a[href^='p' i]:not(.b, #c), a") == ZUGRENJA_GOOD);
    assert(add(&m, 5000, "div > a") == ZUGRENJA_GOOD && add(&m, 1, "a + b") == ZUGRENJA_NOT_ACCEPTED);
    assert(zugrenja_with_rows(&m, 0) == (explains ? ZUGRENJA_EXPLAINS : ZUGRENJA_GOOD));
    if (zugrenja_build(&m) == ZUGRENJA_OUT_OF_MEMORY) {
        assert(m.live == 0 && zugrenja_free(&m) == ZUGRENJA_NO_MATCHER && live == 0);
        return refused + 1;
    }
    int failed = 0;
    for (int tag = 0; tag < 20; tag++) {
        uint32_t status = tell(&m, tag % 2 ? "a" : "div", explains);
        assert(status == (failed ? ZUGRENJA_FAILED : ZUGRENJA_GOOD) || (!failed && status == ZUGRENJA_TAG_OUT_OF_MEMORY));
        failed = status != ZUGRENJA_GOOD;
        refused += status == ZUGRENJA_TAG_OUT_OF_MEMORY;
    }
    uint64_t values[20];
    size_t closed;
    while (zugrenja_end(&m, bytes("div"), 3, values, 20, &closed) == ZUGRENJA_OUT_OF_MEMORY) {
        refused++;
    }
    assert(zugrenja_free(&m) == ZUGRENJA_GOOD && live == 0);
    return refused;
}

/* Lives of a matcher, in each of which another allocation is refused. Whether there were enough. */
static int refuse_each(int explains) {
    int refusals = 0;
    allocations = refused_at = 0;
    live_once(explains);
    size_t needed = allocations;
    for (refused_at = 1; refused_at <= needed; refused_at++) {
        allocations = 0;
        refusals += live_once(explains) > 0;
    }
    printf("%zu allocations refused in turn: %d lives had a call that was refused\n", needed, refusals);
    return needed >= 20;
}

int main(void) {
    return !refuse_each(0) || !refuse_each(1);
}
