/* Random calls in random order on a hundred handles: random_calls COUNT SEED. Each status is as a model of the handle wants it, each report
   and what each end tag closes as in the script of what the handle was told, and each value as it was given. */
#include "recording.h"
#include "zugrenja.h"
#include <assert.h>
#include <stdio.h>
#include <stdlib.h>
#include <string.h>

enum { HANDLES = 100, ROOM = 8 };

/* What is known of a handle. */
typedef struct {
    zugrenja_matcher matcher;
    enum { NONE, ADDING, BUILT } stage;
    int explains, has_nodes, failed, waits, opened;
    size_t matched;
    recording told;
} model;

static uint64_t state;

static uint32_t draw(uint32_t below) {
    state = state * 6364136223846793005u + 1442695040888963407u;
    return (uint32_t)(state >> 33) % below;
}

static const char *const TEXTS[] = {
    "div", "p", "div > p", "a[href]", "*", "p:nth-child(2)", ".b", "#c, div a", "a + b", "", "[", "svg|a", "p::before", "\xff\xfe", ":not(p)",
    "div p a b", "a:nth-of-type(odd)", "a[href^='p' i] > *", "div *:not(#c, .b)", ":is(p, svg) rect", "esi\\:include, b i", "[class~=x] a[href=page]",
    ", a", "p:hover", "div\n>\ti:nth-of-type(2)"};
static const char *const NAMES[] = {"div", "p", "a", "br", "DIV", "svg", "rect", "", "b", "i", "esi:include", "A"};
static const char *const CAUSES[] = {
    "UnexpectedToken", "UnexpectedEnd", "MissingAttributeName", "EmptySelector", "DanglingCombinator", "UnexpectedTokenInAttribute",
    "UnsupportedPseudoClassOrElement", "NestedNegation", "NamespacedSelector", "InvalidClassName", "EmptyNegation",
    "UnsupportedCombinator", "UnsupportedSyntax"};

/* One of some words, or null, or random bytes. */
static text word(const char *const *words, uint32_t count) {
    static uint8_t noise[64];
    uint32_t kind = draw(20);
    if (kind == 0) {
        return (text){NULL, 0};
    }
    if (kind == 1) {
        size_t len = draw(sizeof noise);
        for (size_t place = 0; place < len; place++) {
            noise[place] = (uint8_t)draw(256);
        }
        return (text){noise, len};
    }
    const char *chosen = words[draw(count)];
    return (text){(const uint8_t *)chosen, strlen(chosen)};
}

static void call_new(model *m) {
    static const size_t LIMITS[] = {SIZE_MAX, SIZE_MAX, SIZE_MAX, 100000, 100000, 3000, 512, 0};
    static const size_t BYTES[] = {64, 64, 64, 64, 0, 1, 1000, SIZE_MAX};
    size_t max_memory = LIMITS[draw(8)], element_bytes = BYTES[draw(8)];
    uint32_t esi = draw(3);
    int explains = draw(2) == 0;
    uint32_t status = (explains ? zugrenja_new_explaining : zugrenja_new)(&m->matcher, max_memory, element_bytes, esi);
    assert(status == (m->stage == NONE ? ZUGRENJA_GOOD : ZUGRENJA_IN_USE));
    if (status == ZUGRENJA_GOOD) {
        m->stage = ADDING;
        m->explains = explains;
        m->has_nodes = m->failed = m->waits = m->opened = 0;
        m->matched = 0;
        record_new(&m->told, max_memory, element_bytes, esi, explains);
    }
}

static void call_add(model *m) {
    zugrenja_refusal refusal = {99, 99, 99, 99};
    text t = word(TEXTS, sizeof TEXTS / sizeof *TEXTS);
    uint32_t ids[] = {draw(300), draw(300), UINT32_MAX - draw(3), draw(UINT32_MAX) * 2 + draw(2)};
    uint32_t id = ids[draw(4)], status = zugrenja_add(&m->matcher, id, t.bytes, t.len, &refusal);
    if (m->stage != ADDING) {
        assert(status == (m->stage == NONE ? ZUGRENJA_NO_MATCHER : ZUGRENJA_BUILT));
    } else if (status == ZUGRENJA_GOOD) {
        append_selector(&m->told.script, id, t);
        m->has_nodes = 1;
    } else if (status == ZUGRENJA_NOT_UTF8) {
        check_refused(t, "form", 0);
    } else {
        assert(status == ZUGRENJA_NOT_ACCEPTED && refusal.cause <= ZUGRENJA_UNSUPPORTED_SYNTAX);
        check_refused(t, CAUSES[refusal.cause], refusal.combinator);
    }
    assert(status == ZUGRENJA_NOT_ACCEPTED ? refusal.cause <= ZUGRENJA_UNSUPPORTED_SYNTAX && refusal.offset <= t.len : refusal.cause == 99);
}

/* Rows always, from one node on, or never: a script then has them always, or not by this call. */
static void call_with_rows(model *m) {
    static const size_t FEWEST[] = {0, 1, SIZE_MAX};
    size_t fewest = FEWEST[draw(3)];
    uint32_t status = zugrenja_with_rows(&m->matcher, fewest);
    if (m->stage != ADDING || m->explains) {
        assert(status == (m->stage == NONE ? ZUGRENJA_NO_MATCHER : m->stage == BUILT ? ZUGRENJA_BUILT : ZUGRENJA_EXPLAINS));
        return;
    }
    assert(status == ZUGRENJA_GOOD);
    if (fewest == 0 || (fewest == 1 && m->has_nodes)) {
        append(&m->told.script, "rows\t0\n", 7);
    }
}

static void call_build(model *m) {
    uint32_t status = zugrenja_build(&m->matcher);
    assert(status == (m->stage == NONE ? ZUGRENJA_NO_MATCHER : m->stage == BUILT ? ZUGRENJA_BUILT : ZUGRENJA_GOOD));
    if (status == ZUGRENJA_GOOD) {
        m->stage = BUILT;
    }
}

/* Whether a call was answered as in a stage before the matcher is built. */
static int is_early(const model *m, uint32_t status) {
    if (m->stage != BUILT) {
        assert(status == (m->stage == NONE ? ZUGRENJA_NO_MATCHER : ZUGRENJA_NOT_BUILT));
    }
    return m->stage != BUILT;
}

/* Notes what became of a start tag. */
static void note(model *m, uint32_t status, size_t matched) {
    uint32_t opened;
    m->waits = status == ZUGRENJA_NEEDS_ATTRIBUTES;
    m->failed = m->failed || status == ZUGRENJA_LIMIT || status == ZUGRENJA_COUNTER;
    m->matched = matched;
    assert(zugrenja_has_opened(&m->matcher, &opened) == ZUGRENJA_GOOD && opened <= (status == ZUGRENJA_GOOD));
    m->opened = (int)opened;
}

static void call_start(model *m) {
    size_t matched = 99;
    text name = word(NAMES, sizeof NAMES / sizeof *NAMES);
    uint32_t name_space = draw(8) ? draw(2) : draw(2) ? UINT32_MAX : 2 + draw(3);
    uint32_t status = zugrenja_start(&m->matcher, name.bytes, name.len, name_space, &matched);
    assert(status == ZUGRENJA_GOOD || matched == 0);
    if (is_early(m, status)) {
        return;
    }
    if (name_space > ZUGRENJA_MATHML) {
        assert(status == ZUGRENJA_NO_NAMESPACE);
        return;
    }
    assert((status == ZUGRENJA_FAILED) == m->failed);
    if (m->failed) {
        return;
    }
    assert(status <= ZUGRENJA_NEEDS_ATTRIBUTES || status == ZUGRENJA_LIMIT || status == ZUGRENJA_COUNTER);
    note(m, status, matched);
    if (m->waits) {
        record_waiting(&m->told, name_space, name);
    } else {
        record_start(&m->told, &m->matcher, name_space, name, status, matched);
    }
}

static void call_finish(model *m) {
    static const uint8_t TEXT[] = "href=page class='b x' id=c";
    static const zugrenja_attribute PLACES[] = {{22, 24, 25, 26, 7}, {10, 15, 17, 20, 1}, {0, 4, 5, 9, 1}, {10, 15, 17, 18, 1}, {0, 4, 7, 7, 1},
                                                {22, 24, 17, 18, 1}, {0, 1, 9, 0, 0}, {0, 4, 5, 99, 1}, {9, SIZE_MAX, 0, 0, 0}};
    uint32_t end = draw(4) ? 7 : 9;
    size_t first = draw(end), count = draw(end - (uint32_t)first + 1), matched = 99;
    int outside = first + count > 7 && count > 0;
    uint32_t closes = draw(3);
    const zugrenja_attribute *places = count > 0 ? PLACES + first : NULL;
    uint32_t status = zugrenja_finish(&m->matcher, TEXT, sizeof TEXT - 1, places, count, closes, &matched);
    assert(status == ZUGRENJA_GOOD || matched == 0);
    if (is_early(m, status)) {
        return;
    }
    if (m->failed || outside || !m->waits) {
        assert(status == (m->failed ? ZUGRENJA_FAILED : outside ? ZUGRENJA_OUTSIDE : ZUGRENJA_NOT_ASKED));
        return;
    }
    assert(status == ZUGRENJA_GOOD || status == ZUGRENJA_LIMIT || status == ZUGRENJA_COUNTER);
    note(m, status, matched);
    record_finish(&m->told, &m->matcher, TEXT, places, count, closes != 0, status, matched);
}

static void call_end(model *m) {
    uint64_t values[ROOM];
    size_t room = draw(ROOM + 1), closed = 99;
    text name = word(NAMES, sizeof NAMES / sizeof *NAMES);
    uint32_t status = zugrenja_end(&m->matcher, name.bytes, name.len, room ? values : NULL, room, &closed);
    if (is_early(m, status)) {
        assert(closed == 0);
        return;
    }
    assert(status == ZUGRENJA_GOOD);
    record_end(&m->told, name, closed, values, room);
    m->waits = m->opened = 0;
    m->matched = 0;
}

static void call_report(model *m) {
    uint32_t ids[ROOM] = {0};
    size_t room = draw(ROOM + 1), matched = 99;
    uint64_t names = 99, attributes = 99;
    uint32_t status = zugrenja_ids(&m->matcher, room ? ids : NULL, room, &matched);
    assert(zugrenja_tries(&m->matcher, &names, &attributes) == status);
    if (is_early(m, status)) {
        assert(matched == 0 && names == 0 && attributes == 0);
        return;
    }
    assert(status == ZUGRENJA_GOOD && matched == m->matched);
    for (size_t place = 1; place < matched && place < room; place++) {
        assert(ids[place - 1] < ids[place]);
    }
}

/* Reasons, as far as there is room: with less of it what is written is the beginning of the same. */
static void call_explain(model *m) {
    static zugrenja_reason reasons[2][ROOM];
    static size_t numbers[2][ROOM];
    static uint8_t lines[2][16 * ROOM];
    size_t room = draw(ROOM + 1), counts[2][2], written[2] = {99, 99};
    uint32_t status = zugrenja_explain(&m->matcher, room ? reasons[0] : NULL, room, numbers[0], ROOM, &counts[0][0], &counts[0][1]);
    assert(zugrenja_explain(&m->matcher, reasons[1], ROOM, room ? numbers[1] : NULL, room, &counts[1][0], &counts[1][1]) == status);
    assert(zugrenja_explain_text(&m->matcher, room ? lines[0] : NULL, room, &written[0]) == status);
    assert(zugrenja_explain_text(&m->matcher, lines[1], sizeof lines[1], &written[1]) == status);
    assert(counts[0][0] == counts[1][0] && counts[0][1] == counts[1][1] && written[0] == written[1]);
    if (m->stage != BUILT || !m->explains || m->matched == 0) {
        assert(counts[0][0] == 0 && counts[0][1] == 0 && written[0] == 0);
    }
    if (is_early(m, status)) {
        return;
    }
    assert(status == (m->explains ? ZUGRENJA_GOOD : ZUGRENJA_NOT_EXPLAINING));
    assert(counts[0][0] >= (m->explains ? m->matched : 0) && counts[0][1] >= counts[0][0]);
    for (size_t place = 0; place < counts[0][0] && place < room; place++) {
        assert(memcmp(&reasons[0][place], &reasons[1][place], offsetof(zugrenja_reason, id)) == 0);
        assert(reasons[0][place].id == reasons[1][place].id);
    }
    assert(memcmp(numbers[0], numbers[1], (counts[0][1] < room ? counts[0][1] : room) * sizeof numbers[0][0]) == 0);
    assert(memcmp(lines[0], lines[1], written[0] < room ? written[0] : room) == 0);
}

static void call_value(model *m) {
    uint64_t value = ((uint64_t)draw(UINT32_MAX) << 32) + draw(1000);
    uint32_t status = zugrenja_set_value(&m->matcher, value);
    if (is_early(m, status)) {
        return;
    }
    assert(status == (m->opened ? ZUGRENJA_GOOD : ZUGRENJA_NOT_OPENED));
    if (m->opened) {
        m->told.open[m->told.open_len - 1].value = value;
    }
}

static void call_text(model *m) {
    uint8_t text[ZUGRENJA_TEXT + 1];
    size_t room = draw(sizeof text);
    memset(text, 0, sizeof text);
    size_t length = zugrenja_text(m->stage == NONE ? draw(UINT32_MAX) : draw(23), draw(14), draw(2) ? '+' : draw(128), room ? text : NULL, room);
    assert(length > 0 && length <= ZUGRENJA_TEXT);
    assert(strlen((const char *)text) == (length < room ? length : room));
}

static void call_free(model *m) {
    if (m->stage != NONE) {
        record_done(&m->told);
    }
    assert(zugrenja_free(&m->matcher) == (m->stage == NONE ? ZUGRENJA_NO_MATCHER : ZUGRENJA_GOOD));
    m->stage = NONE;
}

int main(int argc, char **argv) {
    static void (*const CALLS[])(model *) = {call_new,    call_add,   call_build, call_start,   call_finish,   call_end,
                                             call_report, call_value, call_text,  call_explain, call_with_rows};
    static model models[HANDLES];
    unsigned long count = argc > 1 ? strtoul(argv[1], NULL, 10) : 100000;
    state = argc > 2 ? strtoull(argv[2], NULL, 10) : 1;
    for (unsigned long call = 0; call < count; call++) {
        model *m = &models[draw(HANDLES)];
        uint32_t kind = draw(300);
        if (kind == 0) {
            call_free(m);
        } else if (kind < 10 && m->stage == ADDING) {
            call_build(m);
        } else if (kind < 15 && m->stage == ADDING) {
            call_with_rows(m);
        } else {
            uint32_t chosen = draw(m->stage == ADDING && draw(40) ? 2 : 15);
            chosen = m->waits && draw(2) ? 4 : chosen < 11 ? chosen : 3 + chosen % 2;
            CALLS[chosen](m);
        }
    }
    for (int place = 0; place < HANDLES; place++) {
        call_free(&models[place]);
        assert(zugrenja_free(&models[place].matcher) == ZUGRENJA_NO_MATCHER);
        record_free(&models[place].told);
    }
    printf("%lu random calls, seed %s: all as the model wants; as in %lu scripts %lu tags, %lu of them under ids, %lu elements closed, "
           "and %lu reasons\n",
           count, argc > 2 ? argv[2] : "1", compared_runs, compared_tags, compared_reports, compared_closed, compared_reasons);
}
