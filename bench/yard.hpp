// A case text as the baselines see it: for each train and section, what a move does to the placement's code. They take an accepted text and
// test nothing.
#pragma once
#include <cstdint>
#include <string_view>
#include <vector>

using u8 = uint8_t;
using u32 = uint32_t;
using u64 = uint64_t;

constexpr int SECTIONS = 48, TRAINS = 4, WEIGHTS = 255;
constexpr u32 NONE = 0xFFFFFFFF;                    // no figure; no setting found

// A train leaves a section by the end it heads for. A way over the points ahead leads to another section that is not closed. What is no way here derails, enters
// a closed section, or comes round into the train's own: neither ends nearer to home. On its destination a train is parked: it is not free, and has no signal
// to open.
struct Way {
    u32 met = 0, plus = 0;                          // the bits of the points that are met, and of those that have to lie at plus
    int32_t change = 0;                             // of the code
    bool suits(u32 setting) const { return (setting & met) == plus; }
};
struct Step {
    u32 first = 0, last = 0;                        // its ways in the yard's list: from the first to before the last, by rising points at plus
    u32 met = 0;                                    // the points of all of them
    bool free = false;                              // no signal stands there
    bool signal = false;                            // one does
};

struct Yard {
    int sections = 0, points = 0, trains = 0;
    u32 placements = 1, start = 0, home = 0;        // how many codes; the codes of start and destinations
    u32 stride[TRAINS] = {};                        // what a section counts in the code
    u32 weight[TRAINS] = {}, most_weight = 0;       // what a move of the train counts in the figure; the largest
    int heading[TRAINS] = {};                       // 0 up, 1 down
    bool signal[2][SECTIONS] = {};                  // by heading: one holds trains that leave the section that way
    Step step[TRAINS][SECTIONS];
    std::vector<Way> ways;

    // A move of the train keeps figure n if it ends at a figure below this.
    u32 limit(int train, u32 n) const { return n < weight[train] ? 0 : n - weight[train] + 1; }
    const Way* begin(const Step& s) const { return ways.data() + s.first; }
    const Way* end(const Step& s) const { return ways.data() + s.last; }
    // How the code changes under a setting; 0, if it suits no way.
    int32_t change(const Step& s, u32 setting) const {
        for (const Way* w = begin(s); w < end(s); w++) if (w->suits(setting)) return w->change;
        return 0;
    }
    // One signal more, or one fewer. A train on its destination is parked, with it as without it.
    void set_signal(int way, int section, bool there) {
        signal[way][section] = there;
        for (int t = 0; t < trains; t++) {
            Step& s = step[t][section];
            if (heading[t] != way || !(s.free || s.signal)) continue;
            s.signal = there;
            s.free = !there;
        }
    }
};

Yard read_yard(std::string_view text);

// The sections of the trains, from code to code.
struct Sections {
    int sections, trains, at[TRAINS] = {};

    explicit Sections(const Yard& y) : sections(y.sections), trains(y.trains) {}
    void next() {
        for (int t = 0; t < trains && ++at[t] == sections; t++) at[t] = 0;
    }
    bool apart() const {
        for (int t = 1; t < trains; t++)
            for (int u = 0; u < t; u++) if (at[t] == at[u]) return false;
        return true;
    }
};

// The bit of the setting table that opens a train's signal.
inline u32 open_bit(int train) { return 1u << (16 + train); }
