#include "yard.hpp"
#include <algorithm>

namespace {

// The ends by number: a section's up and down end, then a point's stem, plus and minus.
constexpr int PORTS = 2 * SECTIONS, ENDS = PORTS + 3 * 16;

struct Lines {
    std::string_view rest;
    bool more = false;                              // a tab stood behind the last field: its line goes on

    std::string_view field() {                      // the next field, with the tab or line end behind it taken
        size_t end = rest.find_first_of("\t\n");
        more = rest[end] == '\t';
        std::string_view f = rest.substr(0, end);
        rest.remove_prefix(end + 1);
        return f;
    }
    static int number(std::string_view f) {
        int n = 0;
        for (char c : f) if (c >= '0' && c <= '9') n = 10 * n + (c - '0');
        return n;
    }
    int number() { return number(field()); }
    int end() {
        std::string_view f = field();
        int i = number(f) - 1;
        switch (f.back()) {
            case 'u': return 2 * i;
            case 'd': return 2 * i + 1;
            case 's': return PORTS + 3 * i;
            case '+': return PORTS + 3 * i + 1;
            default: return PORTS + 3 * i + 2;
        }
    }
};

struct Track {
    int joined[ENDS];
    bool signal[PORTS] = {};
    bool closed[SECTIONS] = {};

    Track() { std::fill(joined, joined + ENDS, -1); }
    void join(int a, int b) { joined[a] = b; joined[b] = a; }

    // The ways on from an end, over the points met so far. In an accepted railway they come to a section after four points at most, and meet none twice.
    void follow(int end, Way way, int from, int32_t stride, std::vector<Way>& ways) const {
        int to = joined[end];
        if (to < 0) return;
        if (to < PORTS) {
            if (closed[to / 2] || to / 2 == from) return;
            way.change = (to / 2 - from) * stride;
            ways.push_back(way);
            return;
        }
        int point = (to - PORTS) / 3, leg = (to - PORTS) % 3, stem = PORTS + 3 * point;
        way.met |= 1u << point;
        if (leg != 1) follow(leg == 0 ? stem + 2 : stem, way, from, stride, ways);
        way.plus |= 1u << point;
        if (leg != 2) follow(leg == 0 ? stem + 1 : stem, way, from, stride, ways);
    }

    Step step(int end, int32_t stride, std::vector<Way>& ways) const {
        Step s;
        s.signal = signal[end];
        s.free = !s.signal;
        s.first = ways.size();
        follow(end, {}, end / 2, stride, ways);
        s.last = ways.size();
        std::sort(ways.begin() + s.first, ways.end(), [](const Way& a, const Way& b) { return a.plus < b.plus; });
        for (u32 i = s.first; i < s.last; i++) s.met |= ways[i].met;
        return s;
    }
};

}

Yard read_yard(std::string_view text) {
    Yard y;
    Track track;
    Lines in{text};
    while (!in.rest.empty()) switch (in.field()[0]) {
        case 'H': y.sections = in.number(); y.points = in.number(); y.trains = in.number(); break;
        case 'P': in.field(); in.field(); break;    // the joins say all that moves depend on
        case 'J': { int a = in.end(), b = in.end(); track.join(a, b); break; }
        case 'G': { int e = in.end(); track.signal[e] = y.signal[e % 2][e / 2] = true; break; }
        case 'X': track.closed[in.number() - 1] = true; break;
        case 'T': {
            int t = in.number() - 1, heading = in.field() == "u" ? 0 : 1;
            y.heading[t] = heading;
            y.stride[t] = y.placements;
            y.start += (in.number() - 1) * y.stride[t];
            int destination = in.number() - 1;
            y.home += destination * y.stride[t];
            y.weight[t] = in.more ? in.number() : 1;
            y.most_weight = std::max(y.most_weight, y.weight[t]);
            y.placements *= y.sections;
            for (int x = 0; x < y.sections; x++) if (x != destination) y.step[t][x] = track.step(2 * x + heading, (int32_t)y.stride[t], y.ways);
        }
    }
    return y;
}
