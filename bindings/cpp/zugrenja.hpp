// Zugrenja for C++17, one header over bindings/c/zugrenja.h: CSS selectors against the start tags of a document, as its tags come.
//
//     zugrenja::matcher matcher;
//     matcher.add(7, "main > a[href^='https:']");
//     matcher.build();
//     matcher.start("main");
//     if (matcher.start("a")) {
//         matcher.finish({{"href", "https://example.org/"}});
//     }
//     for (std::uint32_t id : matcher.ids()) { .. } // 7
//
// A matcher that is made with settings::explain says why the last tag was reported: `explain`.
//
// Each call that may be refused has two forms: `add` throws, and isn't there under -fno-exceptions; `try_add` returns a status. What
// was refused has changed nothing, unless it is said at the call. Two matchers may be used at once by two threads, one by one at a time.
#ifndef ZUGRENJA_HPP
#define ZUGRENJA_HPP

#include "zugrenja.h"

#include <algorithm>
#include <cstddef>
#include <cstdint>
#include <memory>
#include <new>
#include <optional>
#include <stdexcept>
#include <string>
#include <string_view>
#include <utility>
#include <vector>

namespace zugrenja {

// What a call answers: the statuses of zugrenja.h.
enum class status : std::uint32_t {
    good = ZUGRENJA_GOOD,
    needs_attributes = ZUGRENJA_NEEDS_ATTRIBUTES,
    out_of_memory = ZUGRENJA_OUT_OF_MEMORY,
    no_matcher = ZUGRENJA_NO_MATCHER, // moved away, or memory was refused for it
    in_use = ZUGRENJA_IN_USE,
    not_built = ZUGRENJA_NOT_BUILT,
    built = ZUGRENJA_BUILT,
    not_utf8 = ZUGRENJA_NOT_UTF8,
    not_accepted = ZUGRENJA_NOT_ACCEPTED,
    no_namespace = ZUGRENJA_NO_NAMESPACE,
    limit = ZUGRENJA_LIMIT,
    counter = ZUGRENJA_COUNTER,
    tag_out_of_memory = ZUGRENJA_TAG_OUT_OF_MEMORY,
    failed = ZUGRENJA_FAILED,
    not_asked = ZUGRENJA_NOT_ASKED,
    outside = ZUGRENJA_OUTSIDE,
    not_opened = ZUGRENJA_NOT_OPENED,
    not_explaining = ZUGRENJA_NOT_EXPLAINING,
    too_many_items = ZUGRENJA_TOO_MANY_ITEMS,
    explains = ZUGRENJA_EXPLAINS
};

// Why a text isn't accepted as a selector: the causes of zugrenja.h.
enum class cause : std::uint32_t {
    unexpected_token = ZUGRENJA_UNEXPECTED_TOKEN,
    unexpected_end = ZUGRENJA_UNEXPECTED_END,
    missing_attribute_name = ZUGRENJA_MISSING_ATTRIBUTE_NAME,
    empty_selector = ZUGRENJA_EMPTY_SELECTOR,
    dangling_combinator = ZUGRENJA_DANGLING_COMBINATOR,
    unexpected_token_in_attribute = ZUGRENJA_UNEXPECTED_TOKEN_IN_ATTRIBUTE,
    unsupported_pseudo_class_or_element = ZUGRENJA_UNSUPPORTED_PSEUDO_CLASS_OR_ELEMENT,
    nested_negation = ZUGRENJA_NESTED_NEGATION,
    namespaced_selector = ZUGRENJA_NAMESPACED_SELECTOR,
    invalid_class_name = ZUGRENJA_INVALID_CLASS_NAME,
    empty_negation = ZUGRENJA_EMPTY_NEGATION,
    unsupported_combinator = ZUGRENJA_UNSUPPORTED_COMBINATOR,
    unsupported_syntax = ZUGRENJA_UNSUPPORTED_SYNTAX
};

// Why a text isn't accepted, for an unsupported combinator which one, and where: the item of the list and the byte offset, both from 0.
struct refusal {
    zugrenja::cause cause = cause::unexpected_token;
    char32_t combinator = 0;
    std::size_t item = 0;
    std::size_t offset = 0;
};

// What a status says.
inline std::string message(status status, const refusal &why = {}) {
    std::uint8_t text[ZUGRENJA_TEXT];
    std::size_t length = zugrenja_text(std::uint32_t(status), std::uint32_t(why.cause), why.combinator, text, sizeof text);
    return std::string(reinterpret_cast<const char *>(text), length);
}

// What a refusal says: its cause, and where.
inline std::string message(const refusal &why) {
    return message(status::not_accepted, why) + " (item " + std::to_string(why.item) + ", byte " + std::to_string(why.offset) + ")";
}

// What people are told of a text that isn't accepted: why, and under the text's line a caret at the place.
inline std::string message(std::string_view text, const refusal &why) {
    const zugrenja_refusal c{std::uint32_t(why.cause), why.combinator, why.item, why.offset};
    const auto *bytes = reinterpret_cast<const std::uint8_t *>(text.data());
    std::string told(zugrenja_message(bytes, text.size(), &c, nullptr, 0), '\0');
    zugrenja_message(bytes, text.size(), &c, reinterpret_cast<std::uint8_t *>(told.data()), told.size());
    return told;
}

#if defined(__cpp_exceptions)
// A call was refused. Where memory was refused std::bad_alloc is thrown instead.
class error : public std::runtime_error {
public:
    explicit error(zugrenja::status status) : error(status, message(status)) {}

    zugrenja::status code() const noexcept { return status_; }

protected:
    error(zugrenja::status status, const std::string &what) : std::runtime_error(what), status_(status) {}

private:
    zugrenja::status status_;
};

// A text isn't accepted as a selector.
class selector_error : public error {
public:
    explicit selector_error(const zugrenja::refusal &refusal)
        : error(status::not_accepted, message(refusal)), refusal_(refusal) {}

    const zugrenja::refusal &refusal() const noexcept { return refusal_; }
    zugrenja::cause cause() const noexcept { return refusal_.cause; }
    std::size_t offset() const noexcept { return refusal_.offset; }

private:
    zugrenja::refusal refusal_;
};
#endif

enum class name_space : std::uint32_t { html = ZUGRENJA_HTML, svg = ZUGRENJA_SVG, mathml = ZUGRENJA_MATHML };

// The most bytes that open elements may be charged for, how many each is charged for (0 counts as 1), whether `esi:include` and
// `esi:comment` are void names, and whether the matcher explains its reports, which takes more memory and time at each tag.
struct settings {
    std::size_t max_memory = SIZE_MAX;
    std::size_t element_bytes = 64;
    bool esi = false;
    bool explain = false;
};

// The nodes from which rows pay (matcher::with_rows).
constexpr std::size_t rows_pay_from = ZUGRENJA_ROWS_PAY_FROM;

// An attribute of a start tag: its name, and its value if it has one.
struct attribute {
    std::string_view name;
    std::optional<std::string_view> value = std::nullopt;
};

// How many nodes of the selectors' tree were tried for a start tag, by their names and by their attributes.
struct tries {
    std::uint64_t names = 0;
    std::uint64_t attributes = 0;
};

// Why a tag was reported: the id, the number of the text that was added under it, in the order of adding, and of the item of its list that
// matches, both from 0; and for each compound of the item the number of the start tag whose element it is passed by, the outermost first,
// that of the tag itself last.
struct reason {
    std::uint32_t id = 0;
    std::size_t text = 0;
    std::size_t item = 0;
    std::vector<std::size_t> witness;
};

// A reason's line in explain_text, without the line's end.
inline std::string to_string(const reason &why) {
    std::string line = "why\t" + std::to_string(why.id) + "\t" + std::to_string(why.text) + "\t" + std::to_string(why.item);
    char sign = '\t';
    for (std::size_t number : why.witness) {
        line += sign + std::to_string(number);
        sign = ',';
    }
    return line;
}

// Matches selectors against the start tags of a document. It can be moved and not copied; one that was moved away has no matcher.
class matcher {
public:
    // One without selectors. If memory is refused, throws std::bad_alloc; under -fno-exceptions each call answers no_matcher then.
    explicit matcher(const settings &settings = {}) : handle_(new (std::nothrow) zugrenja_matcher{}) {
        status made = status::out_of_memory;
        if (handle_) {
            auto make = settings.explain ? zugrenja_new_explaining : zugrenja_new;
            made = status(make(at(), settings.max_memory, settings.element_bytes, settings.esi));
        }
#if defined(__cpp_exceptions)
        check(made);
#else
        static_cast<void>(made);
#endif
    }

    // Adds the selectors of a text, a list of them with commas, under an id. Several texts may have one id. The text isn't kept. If it is
    // not_accepted, `why` is written.
    status try_add(std::uint32_t id, std::string_view text, refusal &why) noexcept {
        if (!handle_) {
            return status::no_matcher;
        }
        zugrenja_refusal refused{};
        status added = status(zugrenja_add(at(), id, bytes(text), text.size(), &refused));
        if (added == status::not_accepted) {
            why = refusal{cause(refused.cause), char32_t(refused.combinator), refused.item, refused.offset};
        }
        return added;
    }

    // Has the matcher made with rows if at least so many nodes were added, always with 0: call it after the selectors were added. A
    // selector gives as many nodes as it has compounds, but for those that begin as another one does. With rows the answers stay the same,
    // and nodes that a tag's name, id, classes and attributes rule out aren't tried. A matcher that explains has none: explains.
    status try_with_rows(std::size_t fewest = rows_pay_from) noexcept {
        return handle_ ? status(zugrenja_with_rows(at(), fewest)) : status::no_matcher;
    }

    // Builds the matcher: from now on it is told of tags, and takes no selector. After out_of_memory and too_many_items it is gone.
    status try_build() noexcept { return handle_ ? status(zugrenja_build(at())) : status::no_matcher; }

    // A start tag: good, then it is reported; or needs_attributes, then it waits for try_finish, and is dropped by any other call that
    // tells of a tag. A tag outside HTML always waits. Names are compared without case. After limit, counter and tag_out_of_memory each
    // later start tag is answered failed.
    status try_start(std::string_view name, name_space space = name_space::html) noexcept {
        if (!handle_) {
            return status::no_matcher;
        }
        std::size_t matched = 0;
        return opened(status(zugrenja_start(at(), bytes(name), name.size(), std::uint32_t(space), &matched)));
    }

    // The attributes of the start tag that waits, by their places in a text, which may be the document itself; whether it closes itself
    // counts outside HTML. After not_asked, outside and out_of_memory a tag that waits still does.
    status try_finish_in(std::string_view text, const zugrenja_attribute *places, std::size_t count, bool self_closing = false) noexcept {
        if (!handle_) {
            return status::no_matcher;
        }
        std::size_t matched = 0;
        return opened(status(zugrenja_finish(at(), bytes(text), text.size(), places, count, self_closing, &matched)));
    }

    // The same with the attributes as they are.
    status try_finish(const std::vector<attribute> &attributes, bool self_closing = false) {
        text_.clear();
        places_.clear();
        for (const attribute &attribute : attributes) {
            std::size_t start = text_.size();
            text_.append(attribute.name);
            std::size_t name_end = text_.size();
            text_.append(attribute.value.value_or(std::string_view()));
            places_.push_back({start, name_end, name_end, text_.size(), attribute.value.has_value()});
        }
        return try_finish_in(text_, places_.data(), places_.size(), self_closing);
    }

    // An end tag: the last open element of its name is closed, and all inside it; none if none is open. `values` becomes their values, the
    // outermost first, 0 for one that was given none.
    status try_end(std::string_view name, std::vector<std::uint64_t> &values) {
        if (!handle_) {
            return status::no_matcher;
        }
        values.clear();
        values.reserve(open_);
        if (room_.size() < open_) {
            room_.resize(open_);
        }
        std::size_t closed = 0;
        status ended = status(zugrenja_end(at(), bytes(name), name.size(), room_.data(), room_.size(), &closed));
        values.assign(room_.begin(), room_.begin() + std::ptrdiff_t(closed));
        open_ -= closed;
        return ended;
    }

    // Gives a value to the element that the last tag has opened, in the place of the one that it had. It takes no memory.
    status try_set_value(std::uint64_t value) noexcept {
        if (!handle_) {
            return status::no_matcher;
        }
        return status(zugrenja_set_value(at(), value));
    }

    // Why the last tag was reported: `reasons` becomes a reason for each item of a text that matches its element, in the order of adding
    // and of the list. There are none after an end tag, or where a tag waits or is refused. Tags are numbered from 0 in the order in which
    // they are told, end tags and dropped tags too; one that was refused has no number.
    status try_explain(std::vector<reason> &reasons) {
        reasons.clear();
        if (!handle_) {
            return status::no_matcher;
        }
        std::size_t count = 0;
        status explained = read_reasons(count);
        reasons.reserve(count);
        for (std::size_t place = 0; place < count; place++) {
            const zugrenja_reason &why = reasons_[place];
            auto first = numbers_.begin() + std::ptrdiff_t(why.numbers_start);
            reasons.push_back({why.id, why.text, why.item, {first, first + std::ptrdiff_t(why.numbers_len)}});
        }
        return explained;
    }

    // The same as text: for each reason its line, as to_string has it. It is what a script's `explain` writes (docs/SCRIPT.md), with the
    // text's number in the place of its line's.
    status try_explain_text(std::string &text) {
        text.clear();
        if (!handle_) {
            return status::no_matcher;
        }
        std::size_t written = text.capacity();
        status explained = status::good;
        do {
            text.resize(written);
            explained = status(zugrenja_explain_text(at(), reinterpret_cast<std::uint8_t *>(&text[0]), text.size(), &written));
        } while (written > text.size());
        text.resize(written);
        return explained;
    }

#if defined(__cpp_exceptions)
    // Throws selector_error, and error for a text that isn't UTF-8 or for a matcher that is built.
    void add(std::uint32_t id, std::string_view text) {
        refusal why;
        status added = try_add(id, text, why);
        if (added == status::not_accepted) {
            throw selector_error(why);
        }
        check(added);
    }

    // Throws error for a matcher that explains or is built.
    void with_rows(std::size_t fewest = rows_pay_from) { check(try_with_rows(fewest)); }

    void build() { check(try_build()); }

    // Whether the attributes are asked for, by finish.
    bool start(std::string_view name, name_space space = name_space::html) {
        status started = try_start(name, space);
        if (started == status::needs_attributes) {
            return true;
        }
        check(started);
        return false;
    }

    void finish(const std::vector<attribute> &attributes, bool self_closing = false) { check(try_finish(attributes, self_closing)); }

    void finish_in(std::string_view text, const std::vector<zugrenja_attribute> &places, bool self_closing = false) {
        check(try_finish_in(text, places.data(), places.size(), self_closing));
    }

    std::vector<std::uint64_t> end(std::string_view name) {
        std::vector<std::uint64_t> values;
        check(try_end(name, values));
        return values;
    }

    void set_value(std::uint64_t value) { check(try_set_value(value)); }

    std::vector<reason> explain() {
        std::vector<reason> reasons;
        check(try_explain(reasons));
        return reasons;
    }

    std::string explain_text() {
        std::string text;
        check(try_explain_text(text));
        return text;
    }
#endif

    // The ids that the last tag was reported under, ascending, each once: none after an end tag, where a tag waits or is refused, or before
    // the first tag.
    std::vector<std::uint32_t> ids() {
        std::size_t matched = 0;
        if (handle_) {
            zugrenja_ids(at(), nullptr, 0, &matched);
        }
        std::vector<std::uint32_t> ids(matched);
        if (matched > 0) {
            zugrenja_ids(at(), ids.data(), ids.size(), &matched);
        }
        return ids;
    }

    // Whether the last tag has opened its element, which has content then.
    bool has_opened() noexcept {
        std::uint32_t opened = 0;
        if (handle_) {
            zugrenja_has_opened(at(), &opened);
        }
        return opened != 0;
    }

    // For the last start tag.
    zugrenja::tries tries() noexcept {
        zugrenja::tries tries;
        if (handle_) {
            zugrenja_tries(at(), &tries.names, &tries.attributes);
        }
        return tries;
    }

private:
    struct freed {
        void operator()(zugrenja_matcher *handle) const noexcept {
            zugrenja_free(handle);
            delete handle;
        }
    };

    static const std::uint8_t *bytes(std::string_view text) noexcept { return reinterpret_cast<const std::uint8_t *>(text.data()); }

    zugrenja_matcher *at() noexcept { return handle_.get(); }

    // Counts the element that a tag with this answer has opened.
    status opened(status answer) noexcept {
        open_ += answer == status::good && has_opened();
        return answer;
    }

    // Reads the reasons for the last tag, so many, and their numbers.
    status read_reasons(std::size_t &count) {
        std::size_t numbers = 0;
        status explained = status::good;
        do {
            reasons_.resize(std::max(reasons_.size(), count));
            numbers_.resize(std::max(numbers_.size(), numbers));
            zugrenja_reason *reasons = reasons_.data();
            explained = status(zugrenja_explain(at(), reasons, reasons_.size(), numbers_.data(), numbers_.size(), &count, &numbers));
        } while (count > reasons_.size() || numbers > numbers_.size());
        return explained;
    }

#if defined(__cpp_exceptions)
    static void check(status status) {
        if (status == status::out_of_memory || status == status::tag_out_of_memory) {
            throw std::bad_alloc();
        }
        if (status != status::good) {
            throw error(status);
        }
    }
#endif

    std::unique_ptr<zugrenja_matcher, freed> handle_; // at an address that never changes
    std::size_t open_ = 0;                            // how many elements are open
    std::vector<std::uint64_t> room_;                 // for the values of as many as were ever open at an end tag
    std::string text_;
    std::vector<zugrenja_attribute> places_;
    std::vector<zugrenja_reason> reasons_; // for as many as there ever were, and their numbers
    std::vector<std::size_t> numbers_;
};

} // namespace zugrenja

#endif
