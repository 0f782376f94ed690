// The time of the questions of main.c in KOpeningHours, a library of KDE: a line for each, its name and nanoseconds. Fewer are
// asked, since each takes longer.
// Usage: kopeninghours HOURS FILE    (the hours of one domain, and those of a record file as hours.py writes them)
#include <KOpeningHours/Interval>
#include <KOpeningHours/OpeningHours>

#include <QByteArray>
#include <QDateTime>
#include <QTimeZone>

#include <algorithm>
#include <chrono>
#include <cstdint>
#include <fstream>
#include <iostream>
#include <map>
#include <string>
#include <utility>
#include <vector>

using KOpeningHours::Interval;
using KOpeningHours::OpeningHours;

namespace {

constexpr int rounds = 3;
constexpr std::int64_t singles = 50000, questions = 20000, each = 64, monday = 19793, base = monday * 86400; // 2024-03-11
constexpr int every_type = 0, lorry = 11;

struct Row {
    int vehicle;
    OpeningHours hours;
};
using Place = std::pair<std::uint64_t, bool>; // an element, and whether the direction is negative
using Rows = std::map<Place, std::vector<Row>>;

std::uint64_t sum; // of the answers, so that none is left out

const QTimeZone &zone()
{
    static const QTimeZone utc("UTC");
    return utc;
}

OpeningHours hours_of(const std::string &text)
{
    OpeningHours hours(QByteArray::fromStdString(text));
    hours.setTimeZone(zone());
    if (hours.error() != OpeningHours::NoError) {
        std::cerr << "refused: " << text << '\n';
        std::exit(1);
    }
    return hours;
}

bool holds(const OpeningHours &hours, std::int64_t second)
{
    return hours.interval(QDateTime::fromSecsSinceEpoch(second, zone())).state() == Interval::Open;
}

Rows rows_of(const std::vector<std::string> &lines)
{
    Rows rows;
    for (const std::string &line : lines) {
        const auto first = line.find(','), second = line.find(',', first + 1), third = line.find(';');
        const std::string direction = line.substr(first + 1, second - first - 1);
        const Row row{std::stoi(line.substr(second + 1, third - second - 1)), hours_of(line.substr(third + 1))};
        const std::uint64_t element = std::stoull(line.substr(0, first));
        for (const bool negative : {false, true}) {
            if (direction == "both" || direction == (negative ? "negative" : "positive")) {
                rows[{element, negative}].push_back(row);
            }
        }
    }
    return rows;
}

bool is_closed(const Rows &rows, const Place &place, int vehicle, std::int64_t second)
{
    const auto found = rows.find(place);
    return found != rows.end() && std::any_of(found->second.begin(), found->second.end(), [=](const Row &row) {
        return (row.vehicle == every_type || row.vehicle == vehicle) && holds(row.hours, second);
    });
}

// The seconds of a week in which a row holds, interval by interval.
std::uint64_t week_of(const OpeningHours &hours)
{
    std::uint64_t held = 0;
    const QDateTime begin = QDateTime::fromSecsSinceEpoch(base, zone()), end = begin.addDays(7);
    for (QDateTime at = begin; at < end;) {
        const Interval interval = hours.interval(at);
        const bool ends = interval.isValid() && !interval.hasOpenEnd() && interval.end() > at && interval.end() < end;
        const QDateTime next = ends ? interval.end() : end;
        if (interval.state() == Interval::Open) {
            held += static_cast<std::uint64_t>(at.secsTo(next));
        }
        at = next;
    }
    return held;
}

template <typename Calls> void measure(const char *name, double number, Calls calls)
{
    double least = 1e30;
    for (int at = 0; at < rounds; at++) {
        const auto start = std::chrono::steady_clock::now();
        calls();
        least = std::min(least, std::chrono::duration<double, std::nano>(std::chrono::steady_clock::now() - start).count());
    }
    std::cout << name << ' ' << least / number << '\n';
}

} // namespace

int main(int argc, char **argv)
{
    if (argc != 3) {
        return 2;
    }
    const OpeningHours domain = hours_of(argv[1]);
    std::vector<std::string> lines;
    std::ifstream file(argv[2]);
    for (std::string line; std::getline(file, line);) {
        lines.push_back(line);
    }
    Rows rows = rows_of(lines);
    std::vector<std::uint64_t> elements;
    for (const auto &[place, _] : rows) {
        if (elements.empty() || elements.back() != place.first) {
            elements.push_back(place.first);
        }
    }
    measure("holds", singles, [&] {
        for (std::int64_t at = 0; at < singles; at++) {
            sum += holds(domain, base + at * 61 % 31536000);
        }
    });
    measure("closed_at", questions, [&] {
        for (std::uint64_t at = 0; at < questions; at++) {
            const auto second = base + static_cast<std::int64_t>(at * 61 % 31536000);
            sum += is_closed(rows, {elements[at * 7919 % elements.size()], at & 1}, static_cast<int>(1 + at % 12), second);
        }
    });
    measure("open", 1, [&] { rows = rows_of(lines); });
    // Each 64th element, as if all took as long.
    measure("week", 1.0 / each, [&] {
        for (std::size_t at = 0; at < elements.size(); at += each) {
            for (const bool negative : {false, true}) {
                const auto found = rows.find({elements[at], negative});
                for (std::size_t row = 0; found != rows.end() && row < found->second.size(); row++) {
                    const int vehicle = found->second[row].vehicle;
                    sum += vehicle == every_type || vehicle == lorry ? week_of(found->second[row].hours) : 0;
                }
            }
        }
    });
    std::cerr << "sum " << sum << '\n';
}
