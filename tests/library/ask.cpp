// Puts the questions of tests/library/questions.py by gtd.hpp, as ask.c does by gtd.h, and prints the same answers, but for what
// is answered before a number that is out of range.
#include "gtd.hpp"

#include <iostream>
#include <optional>
#include <set>
#include <sstream>
#include <string>
#include <vector>

namespace {

std::optional<gtd::Domain> domain, other;
std::optional<gtd::Records> records;
std::istringstream words;

template <class Number = std::int64_t> Number number() {
    Number found{};
    if (!(words >> found)) throw std::invalid_argument("a word is missing");
    return found;
}

std::uint8_t small_number() { return static_cast<std::uint8_t>(number<unsigned>()); }

std::string bytes() {
    std::string digits, found;
    words >> digits;
    for (std::size_t at = 1; at + 1 < digits.size(); at += 2)
        found.push_back(static_cast<char>(std::stoi(digits.substr(at, 2), nullptr, 16)));
    return found;
}

std::string hex(const std::string &text) {
    static const char digits[] = "0123456789abcdef";
    std::string found = "x";
    for (const char sign : text) {
        const auto byte = static_cast<unsigned char>(sign);
        found.push_back(digits[byte >> 4]);
        found.push_back(digits[byte & 15]);
    }
    return found;
}

std::string said(bool answer) { return answer ? "yes" : "no"; }
std::string said(const std::string &text) { return "yes " + hex(text); }
template <class Number> std::string said(const std::optional<Number> &found) {
    return found ? "yes " + std::to_string(*found) : "no";
}
std::string said(const std::optional<gtd::Apart> &apart) {
    if (!apart) return "yes";
    return "no " + std::to_string(apart->second) + ' ' + std::to_string(static_cast<unsigned>(apart->side));
}
std::string said(gtd::Spans spans) {
    std::string found = "yes";
    for (const auto &[from, until] : spans) found += ' ' + std::to_string(from) + ' ' + std::to_string(until);
    return found;
}
std::string said(const std::vector<std::uint32_t> &rows) {
    std::string found = "yes";
    for (const auto row : rows) found += ' ' + std::to_string(row);
    return found;
}
std::string said(const std::vector<std::uint8_t> &answers) {
    std::string found = "yes ";
    for (const auto answer : answers) found += static_cast<char>('0' + answer);
    return found;
}

struct Place {
    std::uint64_t element;
    gtd::Direction direction;
    std::uint8_t vehicle;
};

Place place() {
    const auto element = number<std::uint64_t>();
    const auto direction = gtd::Direction(number() != 0);
    return {element, direction, small_number()};
}

std::string ask_domain(const std::string &name) {
    if (name == "domain") return domain.emplace(bytes()), "yes";
    if (name == "other") return other.emplace(bytes()), "yes";
    if (name == "hours") return domain = gtd::Domain::from_hours(bytes()), "yes";
    if (name == "same") return said(domain.value().apart(other.value(), number()));
    if (name == "holds") return said(domain.value().holds(number()));
    if (name == "canon") return said(domain.value().canon());
    if (name == "words") return said(domain.value().words());
    if (name == "picture") return said(domain.value().picture(number<std::uint32_t>()));
    if (name == "ever") return said(domain.value().ever(number()));
    if (name == "holds_many") {
        std::vector<std::int64_t> seconds(number<std::size_t>());
        for (auto &second : seconds) second = number();
        return said(domain.value().holds(seconds));
    }
    const auto first = number(), last = number();
    if (name == "next") return said(domain.value().next(first, last));
    if (name == "spans") return said(domain.value().spans(first, last));
    throw std::invalid_argument("no such question: " + name);
}

std::string ask_records(const std::string &name) {
    if (name == "records") return records.emplace(bytes()), "yes";
    if (name == "count") return said(std::optional(records.value().count()));
    if (name == "element") return said(records.value().element(number<std::size_t>()));
    if (name == "share") return records = records.value().share(), "yes";
    if (name == "schedule") {
        const auto from = number(), until = number();
        return said(records.value().schedule(from, until, small_number()));
    }
    if (name == "closed_many") {
        std::vector<gtd::Question> questions(number<std::size_t>());
        for (auto &question : questions) {
            const auto [element, direction, vehicle] = place();
            question = {element, number(), vehicle, direction == gtd::Direction::negative};
        }
        return said(records.value().closed_at(questions));
    }
    const auto [element, direction, vehicle] = place();
    const auto first = number();
    if (name == "closed") return said(records.value().closed_at(element, direction, vehicle, first));
    if (name == "closers") return said(records.value().closers(element, direction, vehicle, first));
    if (name == "records_next") return said(records.value().next(element, direction, vehicle, first, number()));
    if (name == "records_spans") return said(records.value().spans(element, direction, vehicle, first, number()));
    throw std::invalid_argument("no such question: " + name);
}

std::string ask(const std::string &name) {
    if (name == "stamp") return said(gtd::stamp(number()));
    if (name == "version") return said(gtd::version());
    if (name == "second") {
        const auto year = number();
        std::uint32_t parts[5];
        for (auto &part : parts) part = number<std::uint32_t>();
        return said(std::optional(gtd::second_of(year, parts[0], parts[1], parts[2], parts[3], parts[4])));
    }
    static const std::set<std::string> of_domains{"domain", "holds", "holds_many", "next",  "ever",  "spans",
                                                  "canon",  "words", "picture",    "other", "hours", "same"};
    return of_domains.count(name) ? ask_domain(name) : ask_records(name);
}

std::string numbers_of(const gtd::TextError &error) {
    return std::to_string(static_cast<unsigned>(error.kind())) + ' ' + std::to_string(error.place());
}

std::string answer(const std::string &name) try {
    return ask(name);
} catch (const gtd::TextError &error) {
    return "no " + numbers_of(error);
} catch (const gtd::HoursError &error) {
    return "no " + std::to_string(static_cast<unsigned>(error.kind())) + ' ' + std::to_string(error.place());
} catch (const gtd::RecordError &error) {
    const auto text = error.text();
    return "no " + std::to_string(static_cast<unsigned>(error.kind())) + ' ' + std::to_string(error.row().value_or(0)) + ' ' +
           (text ? numbers_of(*text) : "0 0");
} catch (const gtd::RangeError &) {
    return "range";
} catch (const gtd::YearError &) {
    return "year";
} catch (const std::bad_optional_access &) {
    return "kind";
}

} // namespace

int main() {
    std::ios::sync_with_stdio(false);
    for (std::string line; std::getline(std::cin, line);) {
        words.clear();
        words.str(line);
        std::string name;
        words >> name;
        std::cout << answer(name) << '\n';
    }
}
