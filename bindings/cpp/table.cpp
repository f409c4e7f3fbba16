// Makes the calls of a table (bindings/calls.txt says how it is written) by zugrenja.hpp, and checks what each answers: table FILE. Those
// that the header has no call for are counted.
#include "zugrenja.hpp"

#include <algorithm>
#include <cstdio>
#include <cstdlib>
#include <fstream>
#include <limits>

using zugrenja::status;
using words = std::vector<std::string>;

static const char *const STATUSES[] = {
    "GOOD", "NEEDS_ATTRIBUTES", "BAD_LINE", "REFUSED", "OUT_OF_MEMORY", "NO_MATCHER", "IN_USE", "NOT_BUILT", "BUILT", "NOT_UTF8",
    "NOT_ACCEPTED", "NO_NAMESPACE", "LIMIT", "COUNTER", "TAG_OUT_OF_MEMORY", "FAILED", "NOT_ASKED", "OUTSIDE", "NOT_OPENED",
    "NOT_EXPLAINING", "TOO_MANY_ITEMS", "EXPLAINS"};
static const char *const CAUSES[] = {
    "UnexpectedToken", "UnexpectedEnd", "MissingAttributeName", "EmptySelector", "DanglingCombinator", "UnexpectedTokenInAttribute",
    "UnsupportedPseudoClassOrElement", "NestedNegation", "NamespacedSelector", "InvalidClassName", "EmptyNegation",
    "UnsupportedCombinator", "UnsupportedSyntax"};

// A piece in quotes, with `*N` after it; `at` is at its first quote, and then after it.
static std::string read_piece(const std::string &line, std::size_t &at) {
    std::string piece, pieces;
    for (at++; line.at(at) != '"'; at++) {
        if (line[at] == '\\' && line.at(at + 1) == 'x') {
            piece += char(std::stoi(line.substr(at + 2, 2), nullptr, 16));
            at += 3;
        } else {
            at += line[at] == '\\';
            piece += line.at(at);
        }
    }
    std::size_t digits = 0, times = 1;
    if (line.at(++at) == '*') {
        times = std::stoul(line.substr(at + 1), &digits);
        at += 1 + digits;
    }
    for (; times > 0; times--) {
        pieces += piece;
    }
    return pieces;
}

// The words of a line up to `= `; `at` is then where the answer begins.
static words read_words(const std::string &line, std::size_t &at) {
    words words;
    while (line.compare(at, 2, "= ") != 0) {
        std::string word;
        if (line.at(at) == '"') {
            while (line.at(at) == '"') {
                word += read_piece(line, at);
            }
        } else {
            std::size_t end = line.find(' ', at);
            word = line.substr(at, end - at);
            at = end;
        }
        words.push_back(word);
        at++;
    }
    at += 2;
    return words;
}

static std::uint64_t number(const std::string &word) {
    return word == "max" ? std::numeric_limits<std::uint64_t>::max() : std::stoull(word);
}

template <typename T> static std::string joined(const std::vector<T> &all, std::size_t room, const char *mark = "") {
    std::string text;
    for (std::size_t place = 0; place < std::min(all.size(), room); place++) {
        text += (place > 0 ? "," : "") + std::to_string(all[place]) + mark;
    }
    return " " + (text.empty() ? "-" : text);
}

static std::string name_of(status status) { return STATUSES[std::uint32_t(status)]; }

static std::string report(zugrenja::matcher &m, status answered) {
    bool good = answered == status::good;
    return name_of(answered) + (good ? joined(m.ids(), SIZE_MAX, m.has_opened() ? "" : "/") : "");
}

static std::string add(zugrenja::matcher &m, const words &words) {
    zugrenja::refusal why;
    status added = m.try_add(std::uint32_t(number(words[1])), words[2], why);
    if (added != status::not_accepted) {
        return name_of(added);
    }
    std::string cause = CAUSES[std::uint32_t(why.cause)];
    cause += why.cause == zugrenja::cause::unsupported_combinator ? std::string("(") + char(why.combinator) + ")" : "";
    return name_of(added) + " " + cause + " " + std::to_string(why.item) + " " + std::to_string(why.offset);
}

static std::string start(zugrenja::matcher &m, const words &words) {
    static const std::vector<std::string> SPACES = {"html", "svg", "mathml"};
    auto known = std::find(SPACES.begin(), SPACES.end(), words[1]);
    std::uint64_t space = known == SPACES.end() ? number(words[1]) : std::uint64_t(known - SPACES.begin());
    return report(m, m.try_start(words[2], zugrenja::name_space(space)));
}

static std::string finish(zugrenja::matcher &m, const words &words) {
    std::vector<zugrenja::attribute> attributes;
    for (std::size_t place = 2; place < words.size(); place++) {
        std::string_view word = words[place];
        std::size_t equals = word.find('=');
        attributes.push_back({word.substr(0, equals)});
        if (equals != word.npos) {
            attributes.back().value = word.substr(equals + 1);
        }
    }
    return report(m, m.try_finish(attributes, number(words[1]) != 0));
}

static std::string finish_in(zugrenja::matcher &m, const words &words) {
    std::vector<zugrenja_attribute> places;
    for (std::size_t word = 3; word < words.size(); word++) {
        zugrenja_attribute a = {};
        const char *digits = words[word].c_str();
        char *rest = nullptr;
        a.name_start = std::strtoull(digits, &rest, 10);
        a.name_end = std::strtoull(rest + 1, &rest, 10);
        a.has_value = *rest == ':';
        if (a.has_value) {
            a.value_start = std::strtoull(rest + 1, &rest, 10);
            a.value_end = std::strtoull(rest + 1, &rest, 10);
        }
        places.push_back(a);
    }
    return report(m, m.try_finish_in(words[1], places.data(), places.size(), number(words[2]) != 0));
}

static std::string end(zugrenja::matcher &m, const words &words) {
    std::vector<std::uint64_t> values;
    status ended = m.try_end(words[1], values);
    if (ended != status::good) {
        return name_of(ended);
    }
    bool bounded = words[0] == "end_in";
    return "GOOD" + (bounded ? " " + std::to_string(values.size()) : "") + joined(values, bounded ? number(words[2]) : SIZE_MAX);
}

static std::string explain(zugrenja::matcher &m) {
    std::vector<zugrenja::reason> reasons;
    status explained = m.try_explain(reasons);
    std::string shown;
    for (const zugrenja::reason &why : reasons) {
        shown += (shown.empty() ? "" : "|") + std::to_string(why.id) + " " + std::to_string(why.text) + " " + std::to_string(why.item);
        shown += joined(why.witness, SIZE_MAX);
    }
    return name_of(explained) + (explained != status::good ? "" : shown.empty() ? " -" : " " + shown);
}

static std::string explain_text(zugrenja::matcher &m, std::size_t room) {
    std::string text;
    status explained = m.try_explain_text(text);
    std::string shown = text.substr(0, room);
    std::replace(shown.begin(), shown.end(), '\n', '|');
    std::replace(shown.begin(), shown.end(), '\t', ' ');
    std::string answer = " " + std::to_string(text.size()) + " " + (shown.empty() ? "-" : shown);
    return name_of(explained) + (explained == status::good ? answer : "");
}

// What a call is answered by a matcher, which may have been moved away; nothing if there is no such call, or none with a status.
static std::optional<std::string> call(zugrenja::matcher &m, bool &there, const words &words, bool good) {
    const std::string &kind = words[0];
    if (kind == "text") {
        zugrenja::refusal why = {zugrenja::cause(number(words[2])), char32_t(number(words[3])), 0, 0};
        return zugrenja::message(status(number(words[1])), why);
    }
    if ((kind == "new" || kind == "new_explaining") && !there) {
        m = zugrenja::matcher({number(words[1]), number(words[2]), number(words[3]) != 0, kind == "new_explaining"});
        there = true;
        return "GOOD";
    }
    if (kind == "free" && there) {
        zugrenja::matcher gone = std::move(m);
        there = false;
        return "GOOD";
    }
    if (kind == "new" || kind == "new_explaining" || kind == "free" || kind == "script" || kind == "explain_in") {
        return std::nullopt;
    }
    if (kind == "ids" || kind == "ids_in" || kind == "opened" || kind == "tries") {
        std::vector<std::uint32_t> ids = m.ids();
        zugrenja::tries tries = m.tries();
        std::string answer = kind == "ids"      ? joined(ids, SIZE_MAX)
                             : kind == "ids_in" ? " " + std::to_string(ids.size()) + joined(ids, number(words[1]))
                             : kind == "opened" ? m.has_opened() ? " 1" : " 0"
                                                : " " + std::to_string(tries.names) + " " + std::to_string(tries.attributes);
        return good ? std::optional("GOOD" + answer) : std::nullopt;
    }
    return kind == "add"            ? add(m, words)
           : kind == "with_rows"    ? name_of(m.try_with_rows(number(words[1])))
           : kind == "build"        ? name_of(m.try_build())
           : kind == "start"        ? start(m, words)
           : kind == "finish"       ? finish(m, words)
           : kind == "finish_in"    ? finish_in(m, words)
           : kind == "value"        ? name_of(m.try_set_value(number(words[1])))
           : kind == "explain"      ? explain(m)
           : kind == "explain_text" ? explain_text(m, number(words[1]))
                                    : end(m, words);
}

int main(int argc, char **argv) {
    std::ifstream table(argc > 1 ? argv[1] : "");
    std::string line, name;
    zugrenja::matcher m;
    bool there = true;
    unsigned made = 0, without = 0, wrong = 0;
    while (std::getline(table, line)) {
        if (line.rfind("case ", 0) == 0) {
            zugrenja::matcher gone = std::move(m);
            there = false;
            name = line;
        } else if (!line.empty() && line[0] != '#') {
            std::size_t at = 0;
            words words = read_words(line, at);
            std::string wanted = line.substr(at);
            std::optional<std::string> answer = call(m, there, words, wanted.rfind("GOOD", 0) == 0);
            made += answer.has_value();
            without += !answer;
            if (answer && *answer != wanted) {
                wrong++;
                std::printf("%s: %s\n  but answered: %s\n", name.c_str(), line.c_str(), answer->c_str());
            }
        }
    }
    std::printf("%u of %u calls of the table answered as it says, %u without a call in C++\n", made - wrong, made, without);
    return wrong > 0 || made == 0;
}
