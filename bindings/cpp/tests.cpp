// The calls of zugrenja.hpp. Under -fno-exceptions those that throw are left out; with REFUSE each allocation below the calls is refused
// in turn (link with --wrap for malloc, realloc and free).
#include "zugrenja.hpp"

#include <atomic>
#include <cstdio>
#include <cstdlib>
#include <thread>
#include <type_traits>

using zugrenja::cause;
using zugrenja::matcher;
using zugrenja::name_space;
using zugrenja::status;
using ids = std::vector<std::uint32_t>;
using values = std::vector<std::uint64_t>;
using witness = std::vector<std::size_t>;

#define WANT(fact) ((fact) ? void() : (std::fprintf(stderr, "line %d: %s\n", __LINE__, #fact), std::exit(1)))

static_assert(!std::is_copy_constructible_v<matcher> && !std::is_copy_assignable_v<matcher>);
static_assert(std::is_nothrow_move_constructible_v<matcher> && std::is_nothrow_move_assignable_v<matcher>);

// A matcher for texts under the ids 0, 1, .., built.
static matcher built(std::initializer_list<std::string_view> texts, const zugrenja::settings &settings = {}) {
    matcher matcher(settings);
    zugrenja::refusal why;
    std::uint32_t id = 0;
    for (std::string_view text : texts) {
        WANT(matcher.try_add(id++, text, why) == status::good);
    }
    WANT(matcher.try_build() == status::good);
    return matcher;
}

// Tells of a tag with its attributes.
static status tell(matcher &matcher, std::string_view name, const std::vector<zugrenja::attribute> &attributes = {},
                   name_space space = name_space::html, bool self_closing = false) {
    status started = matcher.try_start(name, space);
    return started == status::needs_attributes ? matcher.try_finish(attributes, self_closing) : started;
}

static values ended(matcher &matcher, std::string_view name) {
    values closed;
    WANT(matcher.try_end(name, closed) == status::good);
    return closed;
}

static void goes_tag_by_tag() {
    matcher matcher = built({"div > p, a[href]", "*"});
    WANT(matcher.try_start("DIV") == status::good && matcher.ids() == ids{1} && matcher.has_opened());
    WANT(matcher.try_set_value(UINT64_MAX) == status::good);
    WANT(matcher.try_start("a") == status::needs_attributes && matcher.ids().empty() && !matcher.has_opened());
    WANT(matcher.try_finish({{"class"}, {"href", "x"}}) == status::good && (matcher.ids() == ids{0, 1}));
    WANT(matcher.try_start("a") == status::needs_attributes && matcher.try_start("p") == status::good);
    WANT(matcher.try_finish({}) == status::not_asked && matcher.tries().names > 0);
    WANT((ended(matcher, "div") == values{UINT64_MAX, 0, 0}) && matcher.try_set_value(1) == status::not_opened);
    WANT(matcher.ids().empty() && ended(matcher, "div").empty());
    WANT(tell(matcher, "p") == status::good && ended(matcher, "P") == values{0});
}

static void places_lie_in_the_text() {
    matcher matcher = built({"[id=a]"});
    zugrenja_attribute id = {3, 5, 6, 7, 1}, outside = {3, 5, 6, 8, 1}, reversed = {5, 3, 0, 0, 0};
    WANT(matcher.try_start("p") == status::needs_attributes);
    WANT(matcher.try_finish_in("<p id=a", &outside, 1) == status::outside);
    WANT(matcher.try_finish_in("<p id=a", &reversed, 1) == status::outside);
    WANT(matcher.try_finish_in("<p id=a", &id, 1) == status::good && matcher.ids() == ids{0});
    WANT(tell(matcher, "p") == status::good && matcher.ids().empty());
}

static void content_depends_on_name_namespace_and_slash() {
    zugrenja::settings settings;
    settings.esi = true;
    matcher matcher = built({"*"}, settings);
    WANT(tell(matcher, "div", {}, name_space::html, true) == status::good && matcher.has_opened());
    WANT(tell(matcher, "br") == status::good && !matcher.has_opened());
    WANT(tell(matcher, "esi:include") == status::good && !matcher.has_opened());
    WANT(tell(matcher, "path", {}, name_space::svg) == status::good && matcher.has_opened());
    WANT(tell(matcher, "mi", {}, name_space::mathml, true) == status::good && !matcher.has_opened());
    WANT(matcher.try_start("a", name_space(3)) == status::no_namespace);
    WANT(ended(matcher, "div").size() == 2);
}

static zugrenja::settings explaining(std::size_t max_memory = SIZE_MAX) {
    zugrenja::settings settings;
    settings.explain = true;
    settings.max_memory = max_memory;
    return settings;
}

// The reasons of the last tag, which are those of explain_text.
static std::vector<zugrenja::reason> reasons_of(matcher &matcher) {
    std::vector<zugrenja::reason> reasons;
    std::string text, lines;
    WANT(matcher.try_explain(reasons) == status::good && matcher.try_explain_text(text) == status::good);
    for (const zugrenja::reason &why : reasons) {
        lines += to_string(why) + "\n";
    }
    WANT(text == lines);
    return reasons;
}

static void reasons_tell_the_elements_of_the_compounds() {
    matcher matcher = built({"div p", "div > p"}, explaining());
    for (std::string_view name : {"div", "section", "p"}) {
        WANT(tell(matcher, name) == status::good);
    }
    std::vector<zugrenja::reason> reasons = reasons_of(matcher);
    WANT(reasons.size() == 1 && reasons[0].id == 0 && reasons[0].text == 0 && reasons[0].item == 0);
    WANT((reasons[0].witness == witness{0, 2}) && to_string(reasons[0]) == "why\t0\t0\t0\t0,2");
    WANT(ended(matcher, "section").size() == 2 && reasons_of(matcher).empty() && tell(matcher, "p") == status::good);
    reasons = reasons_of(matcher);
    WANT(reasons.size() == 2 && reasons[1].id == 1 && reasons[1].text == 1 && (reasons[1].witness == witness{0, 4}));
}

static void reasons_name_each_item_of_each_text() {
    matcher matcher(explaining());
    zugrenja::refusal why;
    for (std::string_view text : {"em, p.new, p", "body > p, [class], body [class=new]"}) {
        WANT(matcher.try_add(7, text, why) == status::good);
    }
    WANT(matcher.try_build() == status::good && reasons_of(matcher).empty() && tell(matcher, "body") == status::good);
    WANT(tell(matcher, "p", {{"class", "new"}}) == status::good && matcher.ids() == ids{7});
    std::string text;
    WANT(reasons_of(matcher).size() == 5 && matcher.try_explain_text(text) == status::good);
    WANT(text == "why\t7\t0\t1\t1\nwhy\t7\t0\t2\t1\nwhy\t7\t1\t0\t0,1\nwhy\t7\t1\t1\t1\nwhy\t7\t1\t2\t0,1\n");
    WANT(matcher.try_start("p") == status::needs_attributes && reasons_of(matcher).empty());
    WANT(tell(matcher, "br", {{"class"}}) == status::good && !matcher.has_opened());
    WANT(reasons_of(matcher).size() == 1 && reasons_of(matcher)[0].item == 1 && reasons_of(matcher)[0].witness == witness{3});
}

static void reasons_are_as_many_and_as_long_as_they_come() {
    std::string deep = "p", list = "p";
    for (int more = 1; more < 100; more++) {
        deep += " p";
        list += ", p";
    }
    matcher matcher = built({deep, list}, explaining());
    for (std::size_t tag = 0; tag < 100; tag++) {
        WANT(tell(matcher, "p") == status::good && reasons_of(matcher).size() == (tag < 99 ? 100 : 101));
        WANT(reasons_of(matcher).back().witness == witness{tag});
    }
    WANT(reasons_of(matcher)[0].witness.size() == 100 && reasons_of(matcher)[0].witness[98] == 98);
}

static void reasons_are_none_where_they_are_not_told() {
    matcher plain = built({"p"}), unbuilt(explaining()), refused = built({"p"}, explaining(512));
    std::vector<zugrenja::reason> reasons(1);
    std::string text = "text";
    WANT(plain.try_explain(reasons) == status::not_explaining && reasons.empty());
    WANT(plain.try_explain_text(text) == status::not_explaining && text.empty());
    WANT(unbuilt.try_explain(reasons) == status::not_built && unbuilt.try_explain_text(text) == status::not_built);
    matcher moved(std::move(plain));
    WANT(plain.try_explain(reasons) == status::no_matcher && plain.try_explain_text(text) == status::no_matcher);
    while (tell(refused, "p") == status::good) {
        WANT(reasons_of(refused).size() == 1);
    }
    WANT(reasons_of(refused).empty());
}

// A matcher for `div p` under 0, with rows from so many nodes on.
static matcher with_rows(std::size_t fewest) {
    matcher matcher;
    zugrenja::refusal why;
    WANT(matcher.try_add(0, "div p", why) == status::good && matcher.try_with_rows(fewest) == status::good);
    WANT(matcher.try_build() == status::good);
    return matcher;
}

static void rows_spare_tries_alone() {
    const struct {
        std::string_view name;
        ids reported;
        std::uint64_t tries, tries_with_rows;
    } tags[] = {{"div", {}, 1, 1}, {"section", {}, 2, 0}, {"p", {0}, 2, 1}};
    matcher without = built({"div p"}), never = with_rows(SIZE_MAX), always = with_rows(0);
    for (const auto &tag : tags) {
        for (matcher *one : {&without, &never, &always}) {
            WANT(tell(*one, tag.name) == status::good && one->ids() == tag.reported && one->has_opened());
            WANT(one->tries().names == (one == &always ? tag.tries_with_rows : tag.tries));
        }
    }
}

static void rows_are_made_before_a_matcher_is_built() {
    matcher plain, explains(explaining());
    zugrenja::refusal why;
    std::string deep = "p";
    for (std::size_t node = 1; node < zugrenja::rows_pay_from; node++) {
        deep += " p";
    }
    WANT(plain.try_add(0, deep, why) == status::good && plain.try_with_rows() == status::good && plain.try_build() == status::good);
    WANT(tell(plain, "a") == status::good && plain.tries().names == 0 && plain.try_with_rows() == status::built);
    WANT(explains.try_with_rows(0) == status::explains && explains.try_with_rows() == status::explains);
    WANT(zugrenja::message(status::explains) == "the matcher explains, and has no rows");
    WANT(explains.try_build() == status::good && explains.try_with_rows() == status::built);
    matcher moved(std::move(plain));
    WANT(plain.try_with_rows() == status::no_matcher);
}

static void tells_each_cause_and_place() {
    const struct {
        std::string_view text;
        zugrenja::cause cause;
        std::size_t item, offset;
    } refused[] = {
        {"", cause::empty_selector, 0, 0},
        {"div >", cause::dangling_combinator, 0, 5},
        {"div.", cause::unexpected_end, 0, 4},
        {"div@", cause::unexpected_token, 0, 3},
        {"div[=\"foo\"]", cause::missing_attribute_name, 0, 4},
        {"p, [a=1]", cause::unexpected_token_in_attribute, 1, 6},
        {".foo()", cause::invalid_class_name, 0, 1},
        {"svg|img", cause::namespaced_selector, 0, 3},
        {"a:hover", cause::unsupported_pseudo_class_or_element, 0, 2},
        {"img, a + img", cause::unsupported_combinator, 1, 7},
    };
    matcher matcher;
    zugrenja::refusal why;
    for (const auto &one : refused) {
        WANT(matcher.try_add(0, one.text, why) == status::not_accepted);
        WANT(why.cause == one.cause && why.item == one.item && why.offset == one.offset);
    }
    WANT(why.combinator == U'+' && matcher.try_add(0, "\xff", why) == status::not_utf8);
}

static void answers_each_order_of_calls() {
    matcher first;
    zugrenja::refusal why;
    values closed;
    WANT(first.try_start("p") == status::not_built && first.try_finish({}) == status::not_built);
    WANT(first.try_end("p", closed) == status::not_built && first.try_set_value(1) == status::not_built);
    WANT(first.ids().empty() && !first.has_opened() && first.tries().names == 0);
    WANT(first.try_add(7, "p", why) == status::good && first.try_build() == status::good);
    WANT(first.try_build() == status::built && first.try_add(7, "p", why) == status::built);
    WANT(first.try_start("p") == status::good && first.try_set_value(5) == status::good);
    matcher second(std::move(first));
    WANT(first.try_add(7, "p", why) == status::no_matcher && first.try_build() == status::no_matcher);
    WANT(first.try_start("p") == status::no_matcher && first.try_finish({}) == status::no_matcher);
    WANT(first.try_end("p", closed) == status::no_matcher && first.try_set_value(1) == status::no_matcher);
    WANT(first.ids().empty() && !first.has_opened() && first.tries().names == 0);
    WANT(second.ids() == ids{7} && second.has_opened());
    first = std::move(second);
    WANT(second.try_start("p") == status::no_matcher && ended(first, "p") == values{5});
    first = matcher();
    WANT(first.try_start("p") == status::not_built);
}

static void a_refused_tag_fails_the_later_ones() {
    zugrenja::settings settings;
    settings.max_memory = 8 * 64;
    matcher matcher = built({"p"}, settings);
    for (int opened = 0; opened < 8; opened++) {
        WANT(matcher.try_start("p") == status::good);
    }
    WANT(matcher.try_start("p") == status::limit && matcher.ids().empty());
    WANT(matcher.try_start("p") == status::failed && matcher.try_finish({}) == status::failed);
    WANT(ended(matcher, "p") == values{0});
}

#if defined(__cpp_exceptions)
// The status that a call throws.
template <typename Call> static status thrown(Call call) {
    try {
        call();
    } catch (const zugrenja::error &error) {
        WANT(error.what() == zugrenja::message(error.code()));
        return error.code();
    }
    return status::good;
}

static void throws_what_is_refused() {
    zugrenja::settings settings;
    settings.max_memory = 0;
    matcher matcher(settings);
    WANT(thrown([&] { matcher.start("p"); }) == status::not_built);
    try {
        matcher.add(0, "img, a + img");
        WANT(false);
    } catch (const zugrenja::selector_error &error) {
        WANT(error.cause() == cause::unsupported_combinator && error.offset() == 7 && error.refusal().item == 1);
        WANT(error.what() == std::string("Unsupported combinator `+` in selector. (item 1, byte 7)"));
        const std::string told = zugrenja::message("img, a + img", error.refusal());
        WANT(told.rfind("Unsupported combinator `+` in selector.\n    img, a + img\n           ^ `+`", 0) == 0);
    }
    matcher.add(0, "b[x]");
    matcher.with_rows();
    matcher.build();
    WANT(thrown([&] { matcher.build(); }) == status::built && thrown([&] { matcher.with_rows(); }) == status::built);
    WANT(thrown([] { zugrenja::matcher(explaining()).with_rows(0); }) == status::explains);
    WANT(thrown([&] { matcher.finish({}); }) == status::not_asked && matcher.start("b"));
    WANT(thrown([&] { matcher.finish_in("b", {{0, 2, 0, 0, 0}}); }) == status::outside);
    WANT(thrown([&] { matcher.set_value(1); }) == status::not_opened);
    WANT(thrown([&] { matcher.explain(); }) == status::not_explaining);
    WANT(thrown([&] { matcher.explain_text(); }) == status::not_explaining);
    WANT(thrown([&] { matcher.finish({}); }) == status::limit && thrown([&] { matcher.start("p"); }) == status::failed);
    WANT(matcher.end("b").empty());
    zugrenja::matcher other = built({"a"});
    WANT(!other.start("a") && other.ids() == ids{0});
    other.set_value(3);
    WANT(other.end("a") == values{3});
    other = built({"a", "a[b], a"}, explaining());
    WANT(other.start("a"));
    other.finish({{"c"}});
    WANT(other.explain().size() == 2 && other.explain()[1].item == 1 && other.explain()[1].witness == witness{0});
    WANT(other.explain_text() == "why\t0\t0\t0\t0\nwhy\t1\t1\t1\t0\n");
}
#endif

// A random document is explained as the script of its tags is.
static void explains_as_scripts_do(std::uint32_t seed) {
    const std::string_view texts[] = {"div p, div > p", "p *, [id] br", "div div > a, a"}, names[] = {"div", "p", "a", "br"};
    matcher matcher = built({texts[0], texts[1], texts[2]}, explaining());
    std::string script = "explain\n", told, out(200000, ' ');
    for (std::size_t text = 0; text < 3; text++) {
        script.append("select\t").append(std::to_string(text)).append("\t").append(texts[text]).append("\n");
    }
    for (int tag = 0; tag < 500; tag++) {
        seed = seed * 1664525 + 1013904223;
        std::string name(names[seed >> 30]);
        bool ends = seed >> 28 & 1;
        script += ends ? "end\t" + name + "\n" : "start\thtml\t" + name + (seed >> 27 & 1 ? "\tid=x\n" : "\n");
        std::vector<zugrenja::attribute> attributes(seed >> 27 & 1, {"id", "x"});
        WANT(ends ? (ended(matcher, name), true) : tell(matcher, name, attributes) == status::good);
        for (zugrenja::reason &why : reasons_of(matcher)) {
            why.text += 2; // its line
            told += to_string(why) + "\n";
        }
    }
    std::size_t written = 0;
    auto bytes = [](const std::string &text) { return reinterpret_cast<const std::uint8_t *>(text.data()); };
    WANT(zugrenja_run_script(bytes(script), script.size(), reinterpret_cast<std::uint8_t *>(&out[0]), out.size(), &written) == 0);
    WANT(written <= out.size());
    out.resize(written);
    std::string wanted;
    for (std::size_t start = 0, end; (end = out.find('\n', start)) != out.npos; start = end + 1) {
        wanted += out.compare(start, 3, "why") == 0 ? out.substr(start, end + 1 - start) : "";
    }
    WANT(told == wanted && told.size() > 4000);
}

// A document's reports, as a number.
static std::uint64_t reports(std::uint32_t seed) {
    matcher matcher = built({"div p", "p > a[href]", "*:nth-child(2n+1)", "a:not([href])", "div div > a"});
    const std::string_view names[] = {"div", "p", "a", "br"};
    std::uint64_t sum = 0;
    for (int tag = 0; tag < 20000; tag++) {
        seed = seed * 1664525 + 1013904223;
        std::string_view name = names[seed >> 30];
        if (seed >> 28 & 1) {
            for (std::uint64_t value : ended(matcher, name)) {
                sum = sum * 31 + value;
            }
            continue;
        }
        std::vector<zugrenja::attribute> attributes(seed >> 27 & 1, {"href", "x"});
        WANT(tell(matcher, name, attributes) == status::good);
        WANT((matcher.try_set_value(std::uint64_t(tag)) == status::good) == matcher.has_opened());
        for (std::uint32_t id : matcher.ids()) {
            sum = sum * 31 + id;
        }
    }
    return sum;
}

static void two_threads_answer_as_one() {
    std::uint64_t alone[] = {reports(1), reports(2)}, both[] = {0, 0};
    std::thread first([&] { both[0] = reports(1); }), second([&] { both[1] = reports(2); });
    first.join();
    second.join();
    WANT(both[0] == alone[0] && both[1] == alone[1] && alone[0] != alone[1]);
}

#if defined(REFUSE)
static std::atomic<std::size_t> allocations, live;
static std::size_t refused_at;

extern "C" {
void *__real_malloc(std::size_t size);
void *__real_realloc(void *at, std::size_t size);
void __real_free(void *at);

void *__wrap_malloc(std::size_t size) {
    void *at = ++allocations == refused_at ? nullptr : __real_malloc(size);
    live += at != nullptr;
    return at;
}

void *__wrap_realloc(void *at, std::size_t size) { return ++allocations == refused_at ? nullptr : __real_realloc(at, size); }

void __wrap_free(void *at) {
    live -= at != nullptr;
    __real_free(at);
}
}

// A life of a matcher, which explains: whether one of its calls was refused.
static bool live_once() {
    try {
        matcher matcher(explaining());
        matcher.add(400, "div a[href^='p' i]:not(.b, #c), a");
        matcher.build();
        for (int tag = 0; tag < 20; tag++) {
            if (matcher.start(tag % 2 ? "a" : "div")) {
                matcher.finish({{"href", "page"}});
            }
            matcher.set_value(7);
            WANT(matcher.explain().size() == std::size_t(tag % 2 * 2) && (tag % 2 == 0) == matcher.explain_text().empty());
        }
        WANT(matcher.end("div").size() == 2);
    } catch (const std::bad_alloc &) {
        return true;
    }
    return false;
}

static void refuses_each_allocation() {
    allocations = 0;
    WANT(!live_once());
    std::size_t needed = allocations, refused = 0;
    for (refused_at = 1; refused_at <= needed; refused_at++) {
        allocations = 0;
        refused += live_once();
        WANT(live == 0);
    }
    WANT(needed > 20 && refused == needed);
    std::printf("%zu allocations refused in turn\n", needed);
}
#endif

int main() {
    goes_tag_by_tag();
    places_lie_in_the_text();
    content_depends_on_name_namespace_and_slash();
    reasons_tell_the_elements_of_the_compounds();
    reasons_name_each_item_of_each_text();
    reasons_are_as_many_and_as_long_as_they_come();
    reasons_are_none_where_they_are_not_told();
    explains_as_scripts_do(1);
    rows_spare_tries_alone();
    rows_are_made_before_a_matcher_is_built();
    tells_each_cause_and_place();
    answers_each_order_of_calls();
    a_refused_tag_fails_the_later_ones();
#if defined(__cpp_exceptions)
    throws_what_is_refused();
#endif
    two_threads_answer_as_one();
#if defined(REFUSE)
    refuses_each_allocation();
#endif
    std::puts("C++: all as wanted");
}
