// gtd.hpp: GDF time domains and timed road restrictions in C++17, over gtd.h. Link with -lgtd.
//
// A Domain, the Records of a file and Spans are values that close themselves; they are moved and not copied. Each is used by one
// thread at a time: `Records::share` makes one of the same records for another thread. Two objects never wait for each other.
//
// Seconds are of the local civil clock: 86,400 times the day number (1970-01-01 is day 0) plus the second of the day. Days and
// seconds that are asked about lie from 1901-01-01 up to 2700-01-01, horizons have 1 to 146,098 days, and vehicle types are 1 to
// 99: for any other number a call throws RangeError. Each call may throw std::bad_alloc.
#ifndef GTD_HPP
#define GTD_HPP

#include "gtd.h"

#include <cstddef>
#include <cstdint>
#include <iterator>
#include <new>
#include <optional>
#include <stdexcept>
#include <string>
#include <string_view>
#include <utility>
#include <vector>

namespace gtd {

// A number is out of its range: a day, a second, a horizon, a vehicle type, a date, the number of a fault.
class RangeError : public std::out_of_range {
public:
    RangeError() : std::out_of_range("gtd: out of range") {}
};

// The domain gives a year, so it cannot be asked about all later seconds.
class YearError : public std::domain_error {
public:
    YearError() : std::domain_error("gtd: the domain gives a year") {}
};

// The object was moved from.
class MovedError : public std::logic_error {
public:
    MovedError() : std::logic_error("gtd: the object was moved from") {}
};

namespace detail {

inline const std::uint8_t *bytes_of(std::string_view text) {
    static constexpr char none[1] = {};
    return reinterpret_cast<const std::uint8_t *>(text.empty() ? none : text.data());
}

// Throws what an answer other than those of the question stands for.
[[noreturn]] inline void refuse(std::uint32_t answer) {
    switch (answer) {
    case GTD_RANGE: throw RangeError();
    case GTD_MEMORY: throw std::bad_alloc();
    case GTD_YEAR: throw YearError();
    case GTD_KIND: throw MovedError();
    default: throw std::logic_error("gtd: answer " + std::to_string(answer));
    }
}

inline bool yes_or_no(std::uint32_t answer) {
    if (answer == GTD_YES || answer == GTD_NO) return answer == GTD_YES;
    refuse(answer);
}

// What the call has written, if it answered yes.
template <class Value> std::optional<Value> if_yes(std::uint32_t answer, const Value &value) {
    return yes_or_no(answer) ? std::optional<Value>(value) : std::nullopt;
}

inline void done(std::uint32_t answer) {
    if (answer != GTD_YES) refuse(answer);
}

// A text of unknown length, which `put(out, room, &length)` writes.
template <class Put> std::string text_of(Put put) {
    std::string text(64, '\0');
    std::size_t length = 0;
    std::uint32_t answer = put(reinterpret_cast<std::uint8_t *>(text.data()), text.size(), &length);
    if (answer == GTD_SHORT) {
        text.resize(length);
        answer = put(reinterpret_cast<std::uint8_t *>(text.data()), text.size(), &length);
    }
    done(answer);
    text.resize(length);
    return text;
}

// A handle that closes itself.
class Handle {
public:
    Handle() = default;
    Handle(Handle &&other) noexcept : handle_(std::exchange(other.handle_, gtd_handle GTD_NONE)) {}
    Handle &operator=(Handle &&other) noexcept {
        if (this != &other) {
            gtd_close(&handle_);
            handle_ = std::exchange(other.handle_, gtd_handle GTD_NONE);
        }
        return *this;
    }
    ~Handle() { gtd_close(&handle_); }
    gtd_handle *get() noexcept { return &handle_; }

private:
    gtd_handle handle_ = GTD_NONE;
};

inline std::string text_of(Handle text) {
    return text_of([&](std::uint8_t *out, std::size_t room, std::size_t *length) {
        return gtd_text_bytes(text.get(), out, room, length);
    });
}

inline std::string fault_name(std::uint32_t kind) {
    return text_of([&](std::uint8_t *out, std::size_t room, std::size_t *length) {
        return gtd_fault_name(kind, out, room, length);
    });
}

inline std::string record_fault_name(std::uint32_t kind) {
    return text_of([&](std::uint8_t *out, std::size_t room, std::size_t *length) {
        return gtd_record_fault_name(kind, out, room, length);
    });
}

inline std::string hours_fault_name(std::uint32_t kind) {
    return text_of([&](std::uint8_t *out, std::size_t room, std::size_t *length) {
        return gtd_hours_fault_name(kind, out, room, length);
    });
}

} // namespace detail

// The kinds of the first fault of a text, by the numbers of gtd_fault.
enum class TextFault : std::uint32_t {
    BadToken = 1, Fuzzy, TooDeep, TooMany, Repeated, FieldRange, Negative, Unexpected, Incomplete, TooLongDuration
};

// The kinds of the fault of a text of opening hours, by the numbers of gtd_hours_fault.
enum class HoursFault : std::uint32_t { BadToken = 1, Unsupported, Range, Unexpected, Incomplete, TooMany };

// The kinds of the first fault of a record file, by the numbers of gtd_record_fault.
enum class RecordFault : std::uint32_t {
    TooLarge = 2, Header, FieldCount, Element, Direction, Vehicle, Domain, TooManyRows
};

// A text is not a time domain: its first fault, and the number of bytes before it.
class TextError : public std::invalid_argument {
public:
    explicit TextError(gtd_fault fault) : TextError(fault, detail::fault_name(fault.kind)) {}
    TextFault kind() const noexcept { return static_cast<TextFault>(fault_.kind); }
    std::string name() const { return detail::fault_name(fault_.kind); }
    std::size_t place() const noexcept { return fault_.place; }

private:
    TextError(gtd_fault fault, const std::string &name)
        : std::invalid_argument("fault " + name + " at " + std::to_string(fault.place)), fault_(fault) {}
    gtd_fault fault_;
};

// A text is not opening hours: its first fault, and the number of bytes before it; or they would need more than 128 basic domains
// (TooMany).
class HoursError : public std::invalid_argument {
public:
    explicit HoursError(gtd_hours_fault fault) : HoursError(fault, detail::hours_fault_name(fault.kind)) {}
    HoursFault kind() const noexcept { return static_cast<HoursFault>(fault_.kind); }
    std::string name() const { return detail::hours_fault_name(fault_.kind); }
    std::size_t place() const noexcept { return fault_.place; }

private:
    HoursError(gtd_hours_fault fault, const std::string &name)
        : std::invalid_argument("hours: " + name + " at " + std::to_string(fault.place)), fault_(fault) {}
    gtd_hours_fault fault_;
};

// A file is not a record file: its first fault, the row, from 1, if a row is at fault, and of Domain the fault of its text.
class RecordError : public std::invalid_argument {
public:
    explicit RecordError(const gtd_record_fault &fault) : std::invalid_argument(line(fault)), fault_(fault) {}
    RecordFault kind() const noexcept { return static_cast<RecordFault>(fault_.kind); }
    std::string name() const { return detail::record_fault_name(fault_.kind); }
    std::optional<std::uint32_t> row() const noexcept { return fault_.row ? std::optional(fault_.row) : std::nullopt; }
    std::optional<TextError> text() const { return fault_.text.kind ? std::optional(TextError(fault_.text)) : std::nullopt; }

private:
    // The line that `gtd` writes.
    static std::string line(const gtd_record_fault &fault) {
        std::string said = "fault ";
        if (fault.row) said += "row " + std::to_string(fault.row) + " ";
        said += detail::record_fault_name(fault.kind);
        if (fault.text.kind) said += " " + detail::fault_name(fault.text.kind) + " at " + std::to_string(fault.text.place);
        return said;
    }
    gtd_record_fault fault_;
};

// A first second, and the first second after it.
struct Span {
    std::int64_t from;
    std::int64_t until;
    friend bool operator==(Span left, Span right) noexcept { return left.from == right.from && left.until == right.until; }
    friend bool operator!=(Span left, Span right) noexcept { return !(left == right); }
};

// Spans in order, none empty, none touching the next: an input range, which is gone through once.
class Spans {
public:
    // The next span, if there is one.
    std::optional<Span> next() {
        Span span{};
        return detail::if_yes(gtd_spans_next(handle_.get(), &span.from, &span.until), span);
    }

    class iterator {
    public:
        using iterator_category = std::input_iterator_tag;
        using value_type = Span;
        using difference_type = std::ptrdiff_t;
        using pointer = const Span *;
        using reference = const Span &;

        iterator() = default;
        explicit iterator(Spans &spans) : spans_(&spans) { ++*this; }
        reference operator*() const { return span_; }
        pointer operator->() const { return &span_; }
        iterator &operator++() {
            if (auto span = spans_->next())
                span_ = *span;
            else
                spans_ = nullptr;
            return *this;
        }
        // What *it++ needs: the span before the step.
        class Before {
        public:
            explicit Before(Span span) : span_(span) {}
            Span operator*() const { return span_; }

        private:
            Span span_;
        };
        Before operator++(int) {
            Before before(span_);
            ++*this;
            return before;
        }
        friend bool operator==(const iterator &left, const iterator &right) { return left.spans_ == right.spans_; }
        friend bool operator!=(const iterator &left, const iterator &right) { return !(left == right); }

    private:
        Spans *spans_ = nullptr;
        Span span_{};
    };

    // The spans from here on. Taking a second `begin` goes on where the first one stands.
    iterator begin() { return iterator(*this); }
    iterator end() { return {}; }

private:
    friend class Domain;
    friend class Records;
    Spans() = default;
    detail::Handle handle_;
};

// The first moment that may be asked about, 1901-01-01T00:00:00.
constexpr std::int64_t first_moment = -2'177'452'800;

// One of two domains, and a second that it has alone.
enum class Side : std::uint32_t { first = 1, second };
struct Apart {
    std::int64_t second;
    Side side;
};

// A time domain.
class Domain {
public:
    // The domain of a text. Throws TextError.
    explicit Domain(std::string_view text) {
        gtd_fault fault{};
        if (!detail::yes_or_no(gtd_domain_open(handle_.get(), detail::bytes_of(text), text.size(), &fault)))
            throw TextError(fault);
    }

    // The domain with exactly the seconds at which opening hours of OpenStreetMap are open. Throws HoursError.
    static Domain from_hours(std::string_view text) {
        Domain domain;
        gtd_hours_fault fault{};
        if (!detail::yes_or_no(gtd_domain_from_hours(domain.handle_.get(), detail::bytes_of(text), text.size(), &fault)))
            throw HoursError(fault);
        return domain;
    }

    bool holds(std::int64_t second) { return detail::yes_or_no(gtd_domain_holds(handle_.get(), second)); }

    // One answer, 0 or 1, for each second.
    std::vector<std::uint8_t> holds(const std::vector<std::int64_t> &seconds) {
        std::vector<std::uint8_t> answers(seconds.size());
        std::size_t count = 0;
        if (!seconds.empty()) {
            detail::done(gtd_domain_holds_many(handle_.get(), seconds.data(), seconds.size(), answers.data(), answers.size(),
                                               &count));
        }
        return answers;
    }

    // The first later second before the day at which membership changes.
    std::optional<std::int64_t> next(std::int64_t second, std::int64_t until_day) {
        std::int64_t change = 0;
        return detail::if_yes(gtd_domain_next(handle_.get(), second, until_day, &change), change);
    }

    // The same over all later seconds, for a second from 1901 to 2199. Throws YearError if the domain gives a year.
    std::optional<std::int64_t> ever(std::int64_t second) {
        std::int64_t change = 0;
        return detail::if_yes(gtd_domain_ever(handle_.get(), second, &change), change);
    }

    // The first second from a moment on, from 1901 to 2199, that this domain (Side::first) or the other one has alone. There is
    // none if each second of all time is in both or in neither; where one of them gives a year, if each one from the moment on
    // and before 2700-01-01 is.
    std::optional<Apart> apart(Domain &other, std::int64_t from = first_moment) {
        if (&other == this) { // two handles of a call must not be one
            Domain again(canon());
            return apart(again, from);
        }
        gtd_apart found{};
        const std::uint32_t answer = gtd_same(handle_.get(), other.handle_.get(), from, &found);
        if (answer == GTD_NO) return Apart{found.second, static_cast<Side>(found.domain)};
        if (answer != GTD_YEAR) detail::done(answer);
        return std::nullopt;
    }

    // Whether there is none.
    bool same(Domain &other, std::int64_t from = first_moment) { return !apart(other, from); }

    // Its seconds from one day up to another, which is not included.
    Spans spans(std::int64_t from_day, std::int64_t until_day) {
        Spans spans;
        detail::done(gtd_domain_spans(handle_.get(), from_day, until_day, spans.handle_.get()));
        return spans;
    }

    // Its canonical text: one for each domain, so that equal domains are found by comparing texts.
    std::string canon() {
        detail::Handle text;
        detail::done(gtd_domain_canon(handle_.get(), text.get()));
        return detail::text_of(std::move(text));
    }

    // What it says, in plain English: lines, each with a line end.
    std::string words() {
        detail::Handle text;
        detail::done(gtd_domain_words(handle_.get(), text.get()));
        return detail::text_of(std::move(text));
    }

    // The picture of a year from 1901 to 2199, as SVG.
    std::string picture(std::uint32_t year) {
        detail::Handle text;
        detail::done(gtd_domain_picture(handle_.get(), year, text.get()));
        return detail::text_of(std::move(text));
    }

private:
    Domain() = default;
    detail::Handle handle_;
};

// Positive goes from an element's From node to its To node.
enum class Direction : bool { positive = false, negative = true };

// A question to Records::closed_at.
using Question = gtd_question;

// The records of a file.
class Records {
public:
    // The records of the bytes of a whole file of either version. Throws RecordError.
    explicit Records(std::string_view bytes) {
        gtd_record_fault fault{};
        if (!detail::yes_or_no(gtd_records_open(handle_.get(), detail::bytes_of(bytes), bytes.size(), &fault)))
            throw RecordError(fault);
    }

    // The same records for another thread, which may use them at the same time.
    Records share() {
        Records other;
        detail::done(gtd_share(handle_.get(), other.handle_.get()));
        return other;
    }

    // How many elements the records name.
    std::size_t count() {
        std::size_t elements = 0;
        detail::done(gtd_records_count(handle_.get(), &elements));
        return elements;
    }

    // The element at a place, from 0, in ascending order.
    std::optional<std::uint64_t> element(std::size_t place) {
        std::uint64_t element = 0;
        return detail::if_yes(gtd_records_element(handle_.get(), place, &element), element);
    }

    // The elements that the records name, in ascending order.
    std::vector<std::uint64_t> elements() {
        std::vector<std::uint64_t> elements(count());
        for (std::size_t place = 0; place < elements.size(); place++) elements[place] = element(place).value();
        return elements;
    }

    // Whether some record closes the element. An element that no record names is open.
    bool closed_at(std::uint64_t element, Direction direction, std::uint8_t vehicle, std::int64_t second) {
        return detail::yes_or_no(gtd_records_closed_at(handle_.get(), element, is_negative(direction), vehicle, second));
    }

    // One answer, 1 closed or 0 open, for each question.
    std::vector<std::uint8_t> closed_at(const std::vector<Question> &questions) {
        std::vector<std::uint8_t> answers(questions.size());
        std::size_t count = 0;
        if (!questions.empty()) {
            detail::done(gtd_records_closed_many(handle_.get(), questions.data(), questions.size(), answers.data(),
                                                 answers.size(), &count));
        }
        return answers;
    }

    // The first later second before the day at which the element closes or opens.
    std::optional<std::int64_t> next(std::uint64_t element, Direction direction, std::uint8_t vehicle, std::int64_t second,
                                     std::int64_t until_day) {
        std::int64_t change = 0;
        return detail::if_yes(
            gtd_records_next(handle_.get(), element, is_negative(direction), vehicle, second, until_day, &change), change);
    }

    // The numbers of the rows that close the element, ascending, from 1: none if it is open.
    std::vector<std::uint32_t> closers(std::uint64_t element, Direction direction, std::uint8_t vehicle, std::int64_t second) {
        std::vector<std::uint32_t> rows(8);
        std::size_t count = 0;
        auto ask = [&] {
            return gtd_records_closers(handle_.get(), element, is_negative(direction), vehicle, second, rows.data(), rows.size(),
                                       &count);
        };
        std::uint32_t answer = ask();
        if (answer == GTD_SHORT) {
            rows.resize(count);
            answer = ask();
        }
        detail::done(answer);
        rows.resize(count);
        return rows;
    }

    // The spans in which the element is open, from one day up to another, which is not included.
    Spans spans(std::uint64_t element, Direction direction, std::uint8_t vehicle, std::int64_t from_day,
                std::int64_t until_day) {
        Spans spans;
        detail::done(gtd_records_spans(handle_.get(), element, is_negative(direction), vehicle, from_day, until_day,
                                       spans.handle_.get()));
        return spans;
    }

    // The whole schedule, as `gtd schedule` prints it.
    std::string schedule(std::int64_t from_day, std::int64_t until_day, std::uint8_t vehicle) {
        detail::Handle text;
        detail::done(gtd_records_schedule(handle_.get(), from_day, until_day, vehicle, text.get()));
        return detail::text_of(std::move(text));
    }

private:
    Records() = default;
    static bool is_negative(Direction direction) noexcept { return direction == Direction::negative; }
    detail::Handle handle_;
};

// The second of a date and a clock time. Throws RangeError if there is no such date or time from 1901 to 2699.
inline std::int64_t second_of(std::int64_t year, std::uint32_t month, std::uint32_t day, std::uint32_t hour = 0,
                              std::uint32_t minute = 0, std::uint32_t second = 0) {
    std::int64_t out = 0;
    detail::done(gtd_second(year, month, day, hour, minute, second, &out));
    return out;
}

// The day number of a second, or of a date.
constexpr std::int64_t seconds_of_day = 86'400;
constexpr std::int64_t day_of(std::int64_t second) noexcept {
    return second / seconds_of_day - (second % seconds_of_day < 0 ? 1 : 0);
}
inline std::int64_t day_of(std::int64_t year, std::uint32_t month, std::uint32_t day) {
    return day_of(second_of(year, month, day));
}

// The second as YYYY-MM-DDThh:mm:ss.
inline std::string stamp(std::int64_t second) {
    std::string text(19, '\0');
    detail::done(gtd_stamp(second, reinterpret_cast<std::uint8_t *>(text.data()), text.size()));
    return text;
}

// The version of the library.
inline std::string version() { return detail::text_of(gtd_version); }

} // namespace gtd

#endif
