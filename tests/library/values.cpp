// Values of gtd.hpp: moved, not copied; what they throw; ranges; records that threads share.
#include "gtd.hpp"

#include <algorithm>
#include <iostream>
#include <iterator>
#include <numeric>
#include <string>
#include <thread>
#include <type_traits>
#include <vector>

static_assert(!std::is_copy_constructible_v<gtd::Domain> && std::is_nothrow_move_constructible_v<gtd::Domain>);
static_assert(!std::is_copy_constructible_v<gtd::Records> && std::is_nothrow_move_assignable_v<gtd::Records>);
static_assert(!std::is_copy_constructible_v<gtd::Spans> && std::is_nothrow_move_constructible_v<gtd::Spans>);
static_assert(std::is_base_of_v<std::input_iterator_tag, std::iterator_traits<gtd::Spans::iterator>::iterator_category>);
static_assert(std::is_nothrow_copy_constructible_v<gtd::TextError> && std::is_nothrow_copy_constructible_v<gtd::RecordError>);
static_assert(std::is_nothrow_copy_constructible_v<gtd::HoursError>);

static int passed = 0, failed = 0;

static void expect(bool holds, const char *what) {
    holds ? passed++ : failed++;
    if (!holds) std::cout << "FAILED " << what << '\n';
}

template <class Error, class Call> static void throws(Call call, const char *what, const std::string &line) {
    try {
        call();
        expect(false, what);
    } catch (const Error &error) {
        expect(error.what() == line, what);
    }
}

static const char file[] = "element,direction,vehicle,domain\n17,both,0,(h10){h4}\n9,positive,11,\n17,both,11,\n";

static void try_domains() {
    gtd::Domain domain("[(M4d1){M3}]*[(h10){h4}]");
    const auto ten = gtd::second_of(2024, 4, 1, 10);
    expect(domain.holds(ten) && !domain.holds(ten - 1), "holds");
    gtd::Domain other(std::move(domain));
    expect(other.holds(ten), "a domain is moved");
    throws<gtd::MovedError>([&] { domain.holds(ten); }, "moved from", "gtd: the object was moved from");
    domain = std::move(other);
    expect(domain.holds(ten), "a domain is moved back");
    auto &same = domain;
    domain = std::move(same);
    expect(domain.holds(ten), "a domain is moved to itself");
    expect(domain.next(ten, gtd::day_of(2024, 4, 2)) == ten + 4 * 3600, "next");
    expect(!domain.next(gtd::second_of(2024, 7, 1), gtd::day_of(2024, 8, 1)), "no next");
    throws<gtd::TextError>([] { gtd::Domain wrong("[(h25){h1}]"); }, "a text at fault", "fault FieldRange at 2");
    throws<gtd::TextError>([] { gtd::Domain wrong(""); }, "an empty text", "fault Incomplete at 0");
    throws<gtd::RangeError>([&] { domain.holds(1LL << 60); }, "a second out of range", "gtd: out of range");
    throws<gtd::YearError>([] { gtd::Domain("(y2024){d1}").ever(0); }, "a year", "gtd: the domain gives a year");
    throws<gtd::RangeError>([] { gtd::second_of(2023, 2, 29); }, "no such date", "gtd: out of range");
}

static void try_two_domains() {
    gtd::Domain weekdays("[(t2t3t4t5t6h8){h9}]"), each_day("[(h8){h9}]");
    auto hours = gtd::Domain::from_hours("Mo-Fr 08:00-17:00");
    expect(hours.same(weekdays) && weekdays.same(hours), "hours are the same as their domain");
    expect(weekdays.same(weekdays), "a domain is the same as itself");
    const auto saturday = gtd::second_of(2024, 3, 16, 8);
    const auto found = weekdays.apart(each_day, gtd::second_of(2024, 3, 15, 12));
    expect(found && found->second == saturday && found->side == gtd::Side::second, "the other one has it alone");
    const auto turned = each_day.apart(weekdays, saturday + 60);
    expect(turned && turned->second == saturday + 60 && turned->side == gtd::Side::first, "this one has it alone");
    expect(!weekdays.same(each_day), "they are not the same");
    gtd::Domain year("(y2024){d1}"), again("[(y2024){h24}]");
    expect(year.same(again) && !year.same(weekdays), "domains that give a year");
    throws<gtd::RangeError>([&] { weekdays.same(weekdays, gtd::second_of(2200, 1, 1)); }, "2200", "gtd: out of range");
    throws<gtd::RangeError>([&] { weekdays.apart(hours, gtd::first_moment - 1); }, "1900", "gtd: out of range");
    expect(gtd::stamp(gtd::first_moment) == "1901-01-01T00:00:00", "the first moment");
    throws<gtd::HoursError>([] { gtd::Domain::from_hours("Mo,PH 08:00-17:00"); }, "hours at fault", "hours: Unsupported at 3");
    throws<gtd::HoursError>([] { gtd::Domain::from_hours(""); }, "no hours", "hours: Incomplete at 0");
    gtd::Domain gone(std::move(hours));
    throws<gtd::MovedError>([&] { weekdays.same(hours); }, "the other one was moved from", "gtd: the object was moved from");
}

static void try_ranges() {
    const auto first = gtd::day_of(2024, 4, 1);
    auto spans = gtd::Domain("(h10){h4}").spans(first, first + 30);
    auto begin = spans.begin();
    expect((*begin++).from == gtd::second_of(2024, 4, 1, 10), "the first span");
    expect(begin->until == gtd::second_of(2024, 4, 2, 14), "the second span");
    const auto seconds = std::accumulate(begin, spans.end(), std::int64_t{0}, [](std::int64_t sum, const gtd::Span &span) {
        return sum + span.until - span.from;
    });
    expect(seconds == 29 * 4 * 3600, "the seconds of the other spans");
    expect(spans.begin() == spans.end() && !spans.next(), "the end is the end");
}

static void try_records() {
    gtd::Records records(file);
    const auto noon = gtd::second_of(2024, 4, 1, 12);
    expect(records.elements() == std::vector<std::uint64_t>{9, 17}, "elements");
    expect(records.closers(17, gtd::Direction::negative, 11, noon) == std::vector<std::uint32_t>{1, 3}, "closers");
    expect(records.closers(17, gtd::Direction::negative, 12, noon + 7200).empty(), "no closers");
    expect(records.closed_at(std::vector<gtd::Question>{}).empty(), "no questions");
    std::string many = "element,direction,vehicle,domain\n";
    for (int row = 0; row < 500; row++) many += "17,both,0,\n";
    std::vector<std::uint32_t> rows(500);
    std::iota(rows.begin(), rows.end(), 1U);
    expect(gtd::Records(many).closers(17, gtd::Direction::positive, 1, noon) == rows, "500 closers");
    throws<gtd::RecordError>([] { gtd::Records wrong("element\n"); }, "a header at fault", "fault Header");
    const std::string wrong = std::string(file) + "1,both,0,(h1){x\n";
    throws<gtd::RecordError>([&] { gtd::Records records_of(wrong); }, "a row at fault", "fault row 4 Domain BadToken at 5");
    try {
        gtd::Records records_of(wrong);
    } catch (const gtd::RecordError &error) {
        expect(error.kind() == gtd::RecordFault::Domain && error.name() == "Domain" && error.row() == 4U, "its row");
        const auto text = error.text();
        expect(text && text->kind() == gtd::TextFault::BadToken && text->name() == "BadToken" && text->place() == 5, "its text");
    }
}

static void try_threads() {
    gtd::Records records(file);
    auto ask = [](gtd::Records own) {
        std::vector<bool> answers;
        for (std::int64_t at = 0; at < 20'000; at++)
            answers.push_back(own.closed_at(at % 2 ? 17 : 9, gtd::Direction(at % 3 == 0), 11, 4'001 * at));
        return answers;
    };
    std::vector<std::vector<bool>> found(4);
    std::vector<std::thread> threads;
    for (auto &own : found)
        threads.emplace_back([&own, &ask](gtd::Records shared) { own = ask(std::move(shared)); }, records.share());
    for (auto &thread : threads) thread.join();
    const auto alone = ask(std::move(records));
    expect(std::all_of(found.begin(), found.end(), [&](const auto &own) { return own == alone; }), "threads answer as one does");
}

int main() {
    try_domains();
    try_two_domains();
    try_ranges();
    try_records();
    try_threads();
    std::cout << "values: " << passed << " passed, " << failed << " failed\n";
    return failed != 0;
}
