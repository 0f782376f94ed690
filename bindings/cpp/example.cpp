// What a planner does with a record file: reads it once, then asks. Usage: example FILE ELEMENT VEHICLE
#include "gtd.hpp"

#include <charconv>
#include <exception>
#include <fstream>
#include <iostream>
#include <iterator>
#include <stdexcept>
#include <string>

static std::string read_file(const char *name) {
    std::ifstream file(name, std::ios::binary);
    if (!file) throw std::runtime_error(std::string("cannot read ") + name);
    return {std::istreambuf_iterator<char>(file), std::istreambuf_iterator<char>()};
}

// The number of a word that has digits alone, and is at most the largest.
static std::uint64_t number_of(const std::string &word, std::uint64_t largest) {
    std::uint64_t number = 0;
    const char *const last = word.data() + word.size();
    const auto [end, error] = std::from_chars(word.data(), last, number);
    if (error != std::errc() || end != last || number > largest)
        throw std::invalid_argument(word + " is no number from 0 to " + std::to_string(largest));
    return number;
}

int main(int count, char **words) try {
    if (count != 4) return std::cerr << "usage: example FILE ELEMENT VEHICLE\n", 2;
    gtd::Records records(read_file(words[1]));
    const std::uint64_t element = number_of(words[2], 9'999'999'999);
    const auto vehicle = static_cast<std::uint8_t>(number_of(words[3], 99));
    const std::int64_t now = gtd::second_of(2024, 3, 15, 6, 50), today = gtd::day_of(now);

    const bool closed = records.closed_at(element, gtd::Direction::positive, vehicle, now);
    std::cout << (closed ? "closed at " : "open at ") << gtd::stamp(now);
    if (const auto change = records.next(element, gtd::Direction::positive, vehicle, now, today + 7))
        std::cout << ", which changes at " << gtd::stamp(*change);
    std::cout << '\n';
    for (const gtd::Span &span : records.spans(element, gtd::Direction::positive, vehicle, today, today + 7))
        std::cout << "open from " << gtd::stamp(span.from) << " until " << gtd::stamp(span.until) << '\n';
} catch (const gtd::RecordError &error) {
    std::cerr << error.what() << '\n';
    return 1;
} catch (const std::exception &error) {
    std::cerr << error.what() << '\n';
    return 3;
}
