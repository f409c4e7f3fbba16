/* Zugrenja for C: CSS selectors against the start tags of a document, as its tags come.

   The archive is libzugrenja_c.a (docs/BINDINGS.md). The contract of each function stands, proved, in crates/zugrenja_c/src.
   What a caller owes is said here, and nothing of it can be checked there:
   - a handle starts as zeros, changes only by these calls, is never used as two copies, and stays on its thread; other threads may use
     handles of their own at the same time;
   - a pointer beside a length points to so many bytes, numbers or structs, or is null where the length is 0; all others aren't null;
   - what a call writes to overlaps nothing else that it is given.
   All else is allowed: each call answers for whatever numbers and bytes it gets, in whatever order the calls come, and all but zugrenja_text
   answer a status, which that call puts into words. */
#ifndef ZUGRENJA_H
#define ZUGRENJA_H

#include <stddef.h>
#include <stdint.h>

#ifdef __cplusplus
extern "C" {
#endif

/* What a call answers. */
enum {
    ZUGRENJA_GOOD = 0,
    /* The start tag's attributes are asked for: zugrenja_finish is called next. */
    ZUGRENJA_NEEDS_ATTRIBUTES = 1,
    /* zugrenja_run_script alone: a line was bad; a tag was refused. */
    ZUGRENJA_BAD_LINE = 2,
    ZUGRENJA_REFUSED = 3,
    /* Memory was refused, and nothing has changed (but see zugrenja_build). */
    ZUGRENJA_OUT_OF_MEMORY = 4,
    /* The handle has no matcher: it is all zeros, or was freed. */
    ZUGRENJA_NO_MATCHER = 5,
    /* The handle has a matcher already. */
    ZUGRENJA_IN_USE = 6,
    /* The matcher isn't built yet, or is built already. */
    ZUGRENJA_NOT_BUILT = 7,
    ZUGRENJA_BUILT = 8,
    /* The text isn't UTF-8, or isn't accepted as a selector. */
    ZUGRENJA_NOT_UTF8 = 9,
    ZUGRENJA_NOT_ACCEPTED = 10,
    /* No namespace has this number. */
    ZUGRENJA_NO_NAMESPACE = 11,
    /* The tag is refused, and each start tag after it: for the memory limit, for a parent with 2,147,483,647 children, for want of memory. */
    ZUGRENJA_LIMIT = 12,
    ZUGRENJA_COUNTER = 13,
    ZUGRENJA_TAG_OUT_OF_MEMORY = 14,
    /* An earlier start tag was refused. */
    ZUGRENJA_FAILED = 15,
    /* No start tag waits for its attributes. */
    ZUGRENJA_NOT_ASKED = 16,
    /* A name or a value lies outside the text. A tag that waits still does. */
    ZUGRENJA_OUTSIDE = 17,
    /* The last tag has opened no element. */
    ZUGRENJA_NOT_OPENED = 18,
    /* The matcher doesn't explain: it was made by zugrenja_new. */
    ZUGRENJA_NOT_EXPLAINING = 19,
    /* There are more items of selectors than ids, 4,294,967,296. (zugrenja_build of a matcher that explains; then it is freed) */
    ZUGRENJA_TOO_MANY_ITEMS = 20,
    /* The matcher explains, and has no rows. (zugrenja_with_rows) */
    ZUGRENJA_EXPLAINS = 21
};

/* The bytes that each text of zugrenja_text fits into. */
enum { ZUGRENJA_TEXT = 96 };

/* The nodes from which rows pay (zugrenja_with_rows). */
enum { ZUGRENJA_ROWS_PAY_FROM = 256 };

/* Namespaces of elements. */
enum { ZUGRENJA_HTML = 0, ZUGRENJA_SVG = 1, ZUGRENJA_MATHML = 2 };

/* Why a text isn't accepted as a selector. */
enum {
    ZUGRENJA_UNEXPECTED_TOKEN = 0,
    ZUGRENJA_UNEXPECTED_END = 1,
    ZUGRENJA_MISSING_ATTRIBUTE_NAME = 2,
    ZUGRENJA_EMPTY_SELECTOR = 3,
    ZUGRENJA_DANGLING_COMBINATOR = 4,
    ZUGRENJA_UNEXPECTED_TOKEN_IN_ATTRIBUTE = 5,
    ZUGRENJA_UNSUPPORTED_PSEUDO_CLASS_OR_ELEMENT = 6,
    ZUGRENJA_NESTED_NEGATION = 7,
    ZUGRENJA_NAMESPACED_SELECTOR = 8,
    ZUGRENJA_INVALID_CLASS_NAME = 9,
    ZUGRENJA_EMPTY_NEGATION = 10,
    ZUGRENJA_UNSUPPORTED_COMBINATOR = 11,
    ZUGRENJA_UNSUPPORTED_SYNTAX = 12
};

/* A handle: `zugrenja_matcher m = {0};`. Its fields are no business of C's. */
typedef struct zugrenja_matcher {
    void *at;
    uint8_t live;
} zugrenja_matcher;

/* The cause for which a text isn't accepted; for an unsupported combinator, which one, as a code point; and where: the item of the list
   and the byte offset in the text, both from 0. */
typedef struct zugrenja_refusal {
    uint32_t cause;
    uint32_t combinator;
    size_t item;
    size_t offset;
} zugrenja_refusal;

/* Where an attribute stands in a text: bytes from `start` up to `end`. Without a value `has_value` is 0. */
typedef struct zugrenja_attribute {
    size_t name_start;
    size_t name_end;
    size_t value_start;
    size_t value_end;
    uint32_t has_value;
} zugrenja_attribute;

/* Why the last tag was reported, by one item of a list of selectors. */
typedef struct zugrenja_reason {
    size_t text;          /* the number of the text, in the order of adding, from 0 */
    size_t item;          /* the item of its list, from 0 */
    size_t numbers_start; /* where its numbers begin among those of all reasons */
    size_t numbers_len;   /* how many they are: one for each compound, the element's own last */
    uint32_t id;          /* the id that the text was added under */
} zugrenja_reason;

/* Makes a matcher without selectors. Its open elements may be charged for at most `max_memory` bytes (SIZE_MAX is no bound), each for
   `element_bytes` (64 fits most; 0 counts as 1). With `esi` other than 0, `esi:include` and `esi:comment` are void names.
   GOOD, IN_USE, OUT_OF_MEMORY. The matcher is given back by zugrenja_free alone. */
uint32_t zugrenja_new(zugrenja_matcher *matcher, size_t max_memory, size_t element_bytes, uint32_t esi);

/* The same, but the matcher explains (zugrenja_explain). It takes all other calls too, and some more time and memory for each tag. */
uint32_t zugrenja_new_explaining(zugrenja_matcher *matcher, size_t max_memory, size_t element_bytes, uint32_t esi);

/* Adds the selectors of a text, a list of them with commas, under an id. Several texts may have one id. The text isn't kept. `refusal` is
   written if the status is NOT_ACCEPTED alone.
   GOOD, NOT_ACCEPTED, NOT_UTF8, BUILT, NO_MATCHER, OUT_OF_MEMORY. */
uint32_t zugrenja_add(zugrenja_matcher *matcher, uint32_t id, const uint8_t *text, size_t text_len, zugrenja_refusal *refusal);

/* Has the matcher made with rows if at least `fewest` nodes were added: call it after the selectors were added, with
   ZUGRENJA_ROWS_PAY_FROM, from where rows pay, or with 0 for rows always. A selector gives as many nodes as it has compounds, but for those
   that begin as another one does. With rows the answers stay the same, and nodes that a tag's name, id, classes and attributes rule out
   aren't tried. A second call takes no rows away. It takes no memory; zugrenja_build takes more for each node then.
   GOOD (with too few nodes too), EXPLAINS, BUILT, NO_MATCHER. */
uint32_t zugrenja_with_rows(zugrenja_matcher *matcher, size_t fewest);

/* Builds the matcher: from now on it is told of tags, and takes no selector.
   GOOD, BUILT, NO_MATCHER; and OUT_OF_MEMORY and TOO_MANY_ITEMS: then the matcher is freed, with its selectors. */
uint32_t zugrenja_build(zugrenja_matcher *matcher);

/* A start tag. GOOD: it is reported under `matched` ids, which zugrenja_ids gives. NEEDS_ATTRIBUTES: it waits for zugrenja_finish, and is
   dropped by any other call that tells of a tag: then its element counts as a child, and is neither reported nor opened. A tag outside
   HTML always waits. Names are compared without case. `matched` is 0 with each other status.
   GOOD, NEEDS_ATTRIBUTES, LIMIT, COUNTER, TAG_OUT_OF_MEMORY, FAILED, NO_NAMESPACE, NOT_BUILT, NO_MATCHER. */
uint32_t zugrenja_start(zugrenja_matcher *matcher, const uint8_t *name, size_t name_len, uint32_t name_space, size_t *matched);

/* The attributes of the start tag that waits, by their places in `text`, which may be the document itself; with `self_closing` other than 0
   the tag closes itself, which counts outside HTML. Nothing of it is kept. `matched` is as at zugrenja_start.
   GOOD, NOT_ASKED, OUTSIDE, LIMIT, COUNTER, TAG_OUT_OF_MEMORY, FAILED, NOT_BUILT, NO_MATCHER, OUT_OF_MEMORY. */
uint32_t zugrenja_finish(zugrenja_matcher *matcher, const uint8_t *text, size_t text_len, const zugrenja_attribute *attributes,
                         size_t attributes_len, uint32_t self_closing, size_t *matched);

/* An end tag: the last open element of its name is closed, and all inside it; none if none is open. `closed` is how many are closed.
   `values` gets the values that they were given, the outermost first, 0 if none was; those for which there is no room are lost. So many
   as are open are always room enough. Room for none takes no memory.
   GOOD, NOT_BUILT, NO_MATCHER, OUT_OF_MEMORY. */
uint32_t zugrenja_end(zugrenja_matcher *matcher, const uint8_t *name, size_t name_len, uint64_t *values, size_t values_len, size_t *closed);

/* Gives a value to the element that the last tag has opened, in the place of the one that it had. It takes no memory.
   GOOD, NOT_OPENED, NOT_BUILT, NO_MATCHER. */
uint32_t zugrenja_set_value(zugrenja_matcher *matcher, uint64_t value);

/* The ids that the last tag was reported under, ascending, each once, as far as there is room. `matched` is how many there are: none
   after an end tag, or where a tag waits or is refused.
   GOOD, NOT_BUILT, NO_MATCHER. */
uint32_t zugrenja_ids(zugrenja_matcher *matcher, uint32_t *ids, size_t ids_len, size_t *matched);

/* Whether the last tag has opened its element, which has content then: 1, else 0.
   GOOD, NOT_BUILT, NO_MATCHER. */
uint32_t zugrenja_has_opened(zugrenja_matcher *matcher, uint32_t *opened);

/* How many nodes of the selectors' tree were tried for the last start tag, by their names and by their attributes.
   GOOD, NOT_BUILT, NO_MATCHER. */
uint32_t zugrenja_tries(zugrenja_matcher *matcher, uint64_t *names, uint64_t *attributes);

/* Why the last tag was reported: a reason for each item that matches its element, in the order of adding and of the list. `numbers` has for
   each compound the number of the start tag whose element it is passed by, the outermost first and that of the element itself last, reason
   after reason. Tags are numbered from 0, end tags and dropped tags too; one that was refused has no number. Both get as many as there is
   room for; `reasons_count` and `numbers_count` are how many there are, 0 with each other status. There is none after an end tag, or where
   a tag waits or was refused.
   GOOD, NOT_EXPLAINING, NOT_BUILT, NO_MATCHER, OUT_OF_MEMORY. */
uint32_t zugrenja_explain(zugrenja_matcher *matcher, zugrenja_reason *reasons, size_t reasons_len, size_t *numbers, size_t numbers_len,
                          size_t *reasons_count, size_t *numbers_count);

/* The same as text: for each reason a line `why<TAB>ID<TAB>TEXT<TAB>ITEM<TAB>NUMBERS`, as a script's `explain` writes it (docs/SCRIPT.md),
   with the text's number in the place of the line's. The beginning that fits is written; `written` is the length of all of it, 0 with each
   other status.
   GOOD, NOT_EXPLAINING, NOT_BUILT, NO_MATCHER, OUT_OF_MEMORY. */
uint32_t zugrenja_explain_text(zugrenja_matcher *matcher, uint8_t *out, size_t out_len, size_t *written);

/* Frees the matcher. The handle may be used again.
   GOOD, NO_MATCHER. */
uint32_t zugrenja_free(zugrenja_matcher *matcher);

/* Writes the beginning that fits of what a status says, and returns the length of all of it, at most ZUGRENJA_TEXT. If the status is
   NOT_ACCEPTED it is what the refusal's cause says, in the words of lol_html; `cause` and `combinator` count for nothing else, and may be 0.
   It is English, and no 0 ends it. It needs no handle and no memory. */
size_t zugrenja_text(uint32_t status, uint32_t cause, uint32_t combinator, uint8_t *out, size_t out_len);

/* Writes the beginning that fits of what people are told of a text that isn't accepted, and returns the length of all of it: the cause, the
   text's line, and under it a caret at the place, beside which stands what is refused and, for some causes, what to write in its place.
   `refusal` is what zugrenja_add wrote for the text. The length is 0 where the text isn't UTF-8 and where no text is refused for such a
   cause. It is English, and no 0 ends it. It needs no handle and no memory. */
size_t zugrenja_message(const uint8_t *text, size_t text_len, const zugrenja_refusal *refusal, uint8_t *out, size_t out_len);

/* Runs a script (docs/SCRIPT.md), and writes the beginning of its output that fits into `out`, whole if it fits. Bytes after the output
   stay as they were. `written` is the length of the whole output: if it is greater than `out_len` the rest is lost, and a call with so many
   bytes gets it. It needs no handle, and no call depends on another.
   GOOD, BAD_LINE (the output is the line's number and the cause), REFUSED (the output ends with `refused limit` or `refused counter`),
   OUT_OF_MEMORY (`out` stays as it was, and `written` is 0). */
uint32_t zugrenja_run_script(const uint8_t *script, size_t script_len, uint8_t *out, size_t out_len, size_t *written);

#ifdef __cplusplus
}
#endif

#endif
