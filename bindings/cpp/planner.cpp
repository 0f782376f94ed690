// Earliest arrival in a road network whose edges are elements of a record file, where a vehicle may wait until a street opens.
// Usage: planner NETWORK RESTRICTIONS FROM TO MOMENT VEHICLE
//
// NETWORK has the header from,to,element,direction,seconds: an edge passes its element in the direction, in so many seconds. It
// may be entered at a second if its element is open for all of those seconds; otherwise the vehicle waits in front of it. Who
// comes later never arrives earlier, since waiting keeps the order, so Dijkstra's search over arrivals finds the earliest one. It
// looks at the seven days from that of MOMENT on: with no way in them it prints "no way", and ends with status 1.
#include "gtd.hpp"

#include <algorithm>
#include <charconv>
#include <cstdio>
#include <exception>
#include <fstream>
#include <iostream>
#include <iterator>
#include <map>
#include <optional>
#include <queue>
#include <sstream>
#include <stdexcept>
#include <string>
#include <utility>
#include <vector>

namespace {

constexpr std::int64_t days_ahead = 7;

struct Edge {
    std::string from, to;
    std::uint64_t element;
    gtd::Direction direction;
    std::int64_t seconds;
};

// How a node is reached: on an edge that was entered at a second.
struct Arrival {
    std::int64_t second;
    std::int64_t entered;
    const Edge *edge;
};

std::string read_file(const char *name) {
    std::ifstream file(name, std::ios::binary);
    if (!file) throw std::runtime_error(std::string("cannot read ") + name);
    return {std::istreambuf_iterator<char>(file), std::istreambuf_iterator<char>()};
}

// The number of a word that has digits alone, and is at most the largest.
std::uint64_t number_of(const std::string &word, std::uint64_t largest) {
    std::uint64_t number = 0;
    const char *const last = word.data() + word.size();
    const auto [end, error] = std::from_chars(word.data(), last, number);
    if (error != std::errc() || end != last || number > largest)
        throw std::runtime_error(word + " is no number from 0 to " + std::to_string(largest));
    return number;
}

Edge edge_of(const std::string &line) {
    std::istringstream cells(line);
    std::string from, to, element, direction, seconds;
    std::getline(cells, from, ',') && std::getline(cells, to, ',') && std::getline(cells, element, ',') &&
        std::getline(cells, direction, ',') && std::getline(cells, seconds);
    if (direction != "positive" && direction != "negative") throw std::runtime_error("no edge: " + line);
    const auto lasts = static_cast<std::int64_t>(number_of(seconds, 9'999'999'999));
    Edge edge{from, to, number_of(element, 9'999'999'999), gtd::Direction(direction == "negative"), lasts};
    if (edge.seconds < 1) throw std::runtime_error("no edge: " + line);
    return edge;
}

std::vector<Edge> read_network(const char *name) {
    std::istringstream lines(read_file(name));
    std::string line;
    if (!std::getline(lines, line) || line != "from,to,element,direction,seconds")
        throw std::runtime_error(std::string(name) + ": not a network");
    std::vector<Edge> edges;
    while (std::getline(lines, line)) edges.push_back(edge_of(line));
    return edges;
}

std::int64_t second_of(const char *stamp) {
    long year;
    unsigned month, day, hour, minute, second;
    int length = 0;
    const int read = std::sscanf(stamp, "%4ld-%2u-%2uT%2u:%2u:%2u%n", &year, &month, &day, &hour, &minute, &second, &length);
    if (read != 6 || stamp[length] != '\0') throw std::runtime_error(std::string("no moment: ") + stamp);
    return gtd::second_of(year, month, day, hour, minute, second);
}

class Planner {
public:
    Planner(const std::vector<Edge> &edges, gtd::Records &records, std::uint8_t vehicle, std::int64_t moment)
        : records_(records), vehicle_(vehicle), moment_(moment) {
        for (const Edge &edge : edges) leaving_[edge.from].push_back(&edge);
    }

    // Whether there is a way.
    bool search(const std::string &from, const std::string &to) {
        using Reached = std::pair<std::int64_t, std::string>;
        std::priority_queue<Reached, std::vector<Reached>, std::greater<>> next;
        arrivals_[from] = {moment_, moment_, nullptr};
        next.push({moment_, from});
        while (!next.empty()) {
            const auto [second, node] = next.top();
            next.pop();
            if (node == to) return true;
            if (second != arrivals_.at(node).second) continue; // it was reached earlier
            for (const Edge *edge : leaving_[node]) {
                const auto entered = entry(*edge, second);
                if (!entered) continue;
                const std::int64_t there = *entered + edge->seconds;
                const auto known = arrivals_.find(edge->to);
                if (known != arrivals_.end() && known->second.second <= there) continue;
                arrivals_[edge->to] = {there, *entered, edge};
                next.push({there, edge->to});
            }
        }
        return false;
    }

    // A line for each wait and each drive, then the arrival.
    void print(const std::string &to) const {
        std::vector<const Arrival *> way;
        for (const Arrival *at = &arrivals_.at(to); at->edge; at = &arrivals_.at(at->edge->from)) way.push_back(at);
        std::int64_t now = moment_;
        for (auto step = way.rbegin(); step != way.rend(); ++step) {
            const Edge &edge = *(*step)->edge;
            const std::int64_t entered = (*step)->entered;
            if (now < entered) std::cout << gtd::stamp(now) << ' ' << edge.from << ": wait " << entered - now << " s\n";
            std::cout << gtd::stamp(entered) << ' ' << edge.from << ": drive on " << edge.element << " to " << edge.to << ", "
                      << edge.seconds << " s\n";
            now = (*step)->second;
        }
        std::cout << gtd::stamp(now) << ' ' << to << '\n';
    }

private:
    // The first second from this one on at which the edge may be entered.
    std::optional<std::int64_t> entry(const Edge &edge, std::int64_t second) {
        const std::int64_t today = gtd::day_of(moment_);
        for (const gtd::Span &open : records_.spans(edge.element, edge.direction, vehicle_, today, today + days_ahead)) {
            const std::int64_t entered = std::max(open.from, second);
            if (entered + edge.seconds <= open.until) return entered;
        }
        return std::nullopt;
    }

    gtd::Records &records_;
    std::uint8_t vehicle_;
    std::int64_t moment_;
    std::map<std::string, std::vector<const Edge *>> leaving_;
    std::map<std::string, Arrival> arrivals_;
};

} // namespace

int main(int count, char **words) try {
    if (count != 7) return std::cerr << "usage: planner NETWORK RESTRICTIONS FROM TO MOMENT VEHICLE\n", 2;
    const std::vector<Edge> edges = read_network(words[1]);
    gtd::Records records(read_file(words[2]));
    Planner planner(edges, records, static_cast<std::uint8_t>(number_of(words[6], 99)), second_of(words[5]));
    if (!planner.search(words[3], words[4])) return std::cout << "no way\n", 1;
    planner.print(words[4]);
} catch (const std::exception &error) {
    std::cerr << "planner: " << error.what() << '\n';
    return 3;
}
