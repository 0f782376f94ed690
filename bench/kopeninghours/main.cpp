// Reads opening hours, one on each line, and prints for each what KOpeningHours says of the minutes of some days: `error` and its
// number, or the first minute and the end of each run of open minutes, counted from the beginning of the first day.
//
// Usage: driver FIRST-DAY DAYS [STEP]
// With STEP it asks about each STEP-th minute by itself, and takes the answer for the minutes up to the next one. Without, it
// believes an interval that it is told, and asks again at its end.
#include <KOpeningHours/Interval>
#include <KOpeningHours/OpeningHours>

#include <QByteArray>
#include <QDateTime>
#include <QTimeZone>

#include <iostream>
#include <string>

using KOpeningHours::Interval;
using KOpeningHours::OpeningHours;

// The first minute after `minute` at which the state may change, or the next one if the interval does not say.
static qint64 next_change(const Interval &interval, const QDateTime &begin, qint64 minute, qint64 count)
{
    if (!interval.isValid() || interval.hasOpenEnd()) {
        return interval.isValid() ? count : minute + 1;
    }
    return qBound(minute + 1, begin.secsTo(interval.end()) / 60, count);
}

static void print_open(const OpeningHours &hours, const QDateTime &begin, qint64 count, qint64 step)
{
    qint64 opened = -1;
    for (qint64 minute = 0; minute < count;) {
        const Interval interval = hours.interval(begin.addSecs(60 * minute));
        const bool is_open = interval.state() == Interval::Open;
        if (is_open && opened < 0) {
            opened = minute;
        } else if (!is_open && opened >= 0) {
            std::cout << ' ' << opened << '-' << minute;
            opened = -1;
        }
        minute = step > 0 ? minute + step : next_change(interval, begin, minute, count);
    }
    if (opened >= 0) {
        std::cout << ' ' << opened << '-' << count;
    }
    std::cout << '\n';
}

int main(int argc, char **argv)
{
    if (argc != 3 && argc != 4) {
        std::cerr << "usage: driver FIRST-DAY DAYS [STEP]\n";
        return 2;
    }
    const QDate first = QDate::fromString(QString::fromLatin1(argv[1]), Qt::ISODate);
    const QDateTime begin(first, QTime(0, 0), QTimeZone("UTC"));
    for (std::string line; std::getline(std::cin, line);) {
        OpeningHours hours(QByteArray::fromStdString(line));
        hours.setTimeZone(QTimeZone("UTC"));
        if (hours.error() != OpeningHours::NoError) {
            std::cout << "error " << hours.error() << '\n';
        } else {
            std::cout << "open";
            print_open(hours, begin, 1440 * QByteArray(argv[2]).toLongLong(), argc == 4 ? QByteArray(argv[3]).toLongLong() : 0);
        }
    }
}
