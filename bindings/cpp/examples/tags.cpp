// Reads a script of selectors and tags (docs/SCRIPT.md) from standard input, tells a matcher of the tags one by one, and writes what
// lol_match writes. Each line has to be of the right form.
#include "zugrenja.hpp"

#include <iostream>
#include <iterator>

namespace {

using fields = std::vector<std::string_view>;

// The causes by their numbers, as lol_match writes them.
const char *const CAUSES[] = {"UnexpectedToken", "UnexpectedEnd", "MissingAttributeName", "EmptySelector", "DanglingCombinator",
                              "UnexpectedTokenInAttribute", "UnsupportedPseudoClassOrElement", "NestedNegation", "NamespacedSelector",
                              "InvalidClassName", "EmptyNegation", "UnsupportedCombinator", "UnsupportedSyntax"};

fields split(std::string_view text, char separator) {
    fields pieces;
    std::size_t start = 0, end;
    while ((end = text.find(separator, start)) != text.npos) {
        pieces.push_back(text.substr(start, end - start));
        start = end + 1;
    }
    pieces.push_back(text.substr(start));
    return pieces;
}

std::uint64_t number_of(std::string_view digits) { return std::stoull(std::string(digits)); }

template <typename Number> std::string joined(const std::vector<Number> &numbers, const char *mark) {
    std::string out;
    for (Number number : numbers) {
        out += (out.empty() ? "" : ",") + std::to_string(number) + mark;
    }
    return out.empty() ? "-" : out;
}

// A script that is being run: its output so far.
class run {
public:
    explicit run(const fields &lines) : matcher_(settings_of(lines)) {
        for (std::string_view line : lines) {
            shows_tries_ = shows_tries_ || line == "tries";
            explains_ = explains_ || line == "explain";
            if (line == "rows") {
                rows_ = zugrenja::rows_pay_from;
            } else if (line.substr(0, 5) == "rows\t") {
                rows_ = number_of(line.substr(5));
            }
        }
    }

    // Adds the selectors. Throws selector_error; `number` is the line's then.
    void select(const fields &lines, std::size_t &number) {
        for (number = 1; number <= lines.size(); number++) {
            std::string_view line = lines[number - 1];
            fields parts = split(line, '\t');
            if (parts[0] == "select") {
                matcher_.add(std::uint32_t(number_of(parts[1])), line.substr(parts[0].size() + parts[1].size() + 2));
                lines_.push_back(number);
            }
        }
        if (rows_ && !explains_) { // one that explains has no rows
            matcher_.with_rows(*rows_);
        }
        matcher_.build();
    }

    void tell(std::string_view line) {
        fields parts = split(line, '\t');
        if (parts[0] == "start" || parts[0] == "drop") {
            start(parts);
        } else if (parts[0] == "end") {
            out += "end\t" + joined(matcher_.end(parts[1]), "") + "\n";
        } else {
            return;
        }
        number_++;
    }

    std::string out;

private:
    static zugrenja::settings settings_of(const fields &lines) {
        zugrenja::settings settings;
        for (std::string_view line : lines) {
            settings.esi = settings.esi || line == "esi";
            settings.explain = settings.explain || line == "explain";
            if (line.substr(0, 6) == "limit\t") {
                settings.max_memory = number_of(line.substr(6));
            }
        }
        return settings;
    }

    void start(const fields &parts) {
        bool self_closing = parts[1].back() == '/';
        zugrenja::name_space space = parts[1][0] == 's'   ? zugrenja::name_space::svg
                                     : parts[1][0] == 'm' ? zugrenja::name_space::mathml
                                                          : zugrenja::name_space::html;
        bool asked = matcher_.start(parts[2], space);
        if (asked && parts[0] == "drop") {
            out += "dropped\n";
            return;
        }
        if (asked) {
            finish(parts, self_closing);
        }
        out += "start\t" + joined(matcher_.ids(), matcher_.has_opened() ? "" : "/") + (asked ? "\tasked" : "");
        if (shows_tries_) {
            zugrenja::tries tries = matcher_.tries();
            out += "\ttries " + std::to_string(tries.names) + " " + std::to_string(tries.attributes);
        }
        out += "\n";
        if (matcher_.has_opened()) {
            matcher_.set_value(number_);
        }
        if (explains_) {
            explain();
        }
    }

    // Writes why the last tag was reported, with the number of a text's line in the place of its own.
    void explain() {
        for (zugrenja::reason &why : matcher_.explain()) {
            why.text = lines_[why.text];
            out += to_string(why) + "\n";
        }
    }

    void finish(const fields &parts, bool self_closing) {
        std::vector<zugrenja::attribute> attributes;
        for (std::size_t place = 3; place < parts.size(); place++) {
            std::size_t sign = parts[place].find('=');
            attributes.push_back({parts[place].substr(0, sign)});
            if (sign != parts[place].npos) {
                attributes.back().value = parts[place].substr(sign + 1);
            }
        }
        matcher_.finish(attributes, self_closing);
    }

    zugrenja::matcher matcher_;
    bool shows_tries_ = false;
    bool explains_ = false;
    std::optional<std::size_t> rows_; // from so many nodes on
    std::vector<std::size_t> lines_; // of the selectors' texts
    std::uint64_t number_ = 0;
};

} // namespace

int main() {
    std::ios::sync_with_stdio(false);
    const std::string script(std::istreambuf_iterator<char>(std::cin), {});
    const fields lines = split(script, '\n');
    run run(lines);
    std::size_t number = 0;
    int status = 0;
    try {
        run.select(lines, number);
        for (std::string_view line : lines) {
            run.tell(line);
        }
    } catch (const zugrenja::selector_error &error) {
        std::string sign(1, char(error.refusal().combinator));
        run.out = "bad line " + std::to_string(number) + ": " + CAUSES[std::size_t(error.cause())];
        run.out += error.cause() == zugrenja::cause::unsupported_combinator ? "(" + sign + ")\n" : "\n";
        status = 2;
    } catch (const zugrenja::error &error) {
        run.out += error.code() == zugrenja::status::limit ? "refused limit\n" : "refused counter\n";
        status = 3;
    }
    std::cout << run.out;
    return status;
}
