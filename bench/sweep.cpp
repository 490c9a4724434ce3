// The plain sweep: in each round every placement without a figure is looked at. Round n gives figure n. It can give it only if a round that lies some train's
// weight before it gave a figure; others are passed over.
#include "solvers.hpp"

namespace {

struct Sweep {
    const Yard y;
    u32 *figures, *settings;
    u32 limit[TRAINS] = {};                         // in this round a move of the train has to end below

    // The sections of a placement; false if two trains share one.
    bool decode(u32 code, u32* x) const {
        bool apart = true;
        for (int t = 0; t < y.trains; t++) {
            x[t] = code % y.sections;
            code /= y.sections;
            for (int u = 0; u < t; u++) apart &= x[u] != x[t];
        }
        return apart;
    }

    bool below(u32 code, int32_t change, int t) const { return figures[code + change] < limit[t]; }

    // Of the points met, the first lie under which each of the free trains ends below its limit; or NONE. Every lie is tried.
    u32 try_points(u32 code, const u32* x) const {
        u32 met = 0, plus = 0;
        for (int t = 0; t < y.trains; t++) if (y.step[t][x[t]].free) met |= y.step[t][x[t]].met;
        do {
            bool all = true;
            for (int t = 0; t < y.trains; t++) if (const Step& s = y.step[t][x[t]]; s.free) all &= below(code, y.change(s, plus), t);
            if (all) return plus;
            plus = (plus - met) & met;
        } while (plus);
        return NONE;
    }

    // The first of the train's ways that ends below its limit, or null.
    const Way* first_way(u32 code, const u32* x, int t) const {
        const Step& s = y.step[t][x[t]];
        for (const Way* w = y.begin(s); w < y.end(s); w++) if (below(code, w->change, t)) return w;
        return nullptr;
    }

    // The first setting in the plan's order under which every move ends below its train's limit, or NONE. With free trains no signal is opened and each of
    // them must do so: where no two meet the same point, each by the first of its ways that does.
    u32 first_setting(u32 code, const u32* x) const {
        u32 plus = 0, met = 0;
        bool free = false;
        for (int t = 0; t < y.trains; t++) {
            const Step& s = y.step[t][x[t]];
            if (!s.free) continue;
            if (met & s.met) return try_points(code, x);
            free = true;
            met |= s.met;
            const Way* w = first_way(code, x, t);
            if (!w) return NONE;
            plus |= w->plus;
        }
        if (free) return plus;
        for (int t = 0; t < y.trains; t++)
            if (const Way* w = first_way(code, x, t)) return open_bit(t) | w->plus;
        return NONE;
    }

    bool round(u32 n) {
        bool added = false;
        for (int t = 0; t < y.trains; t++) limit[t] = y.limit(t, n);
        for (u32 code = 0; code < y.placements; code++) {
            u32 x[TRAINS];
            if (figures[code] != NONE || !decode(code, x)) continue;
            u32 entry = first_setting(code, x);
            if (entry == NONE) continue;
            figures[code] = n;
            settings[code] = entry;
            added = true;
        }
        return added;
    }

    void solve() {
        for (u32 code = 0; code < y.placements; code++) figures[code] = NONE, settings[code] = 0;
        figures[y.home] = 0;
        bool gave[WEIGHTS + 1] = {true};            // by figure, modulo their number: whether its round gave it to a placement
        for (u32 n = 1, last = 0; n - last <= y.most_weight; n++) {
            bool due = false;
            for (int t = 0; t < y.trains; t++) due |= gave[(n - y.weight[t]) % (WEIGHTS + 1)];
            bool& gives = gave[n % (WEIGHTS + 1)];
            gives = due && round(n);
            if (gives) last = n;
        }
    }
};

}

void solve_sweep(std::string_view text, Tables& tables) {
    Sweep{read_yard(text), tables.figures.data(), tables.settings.data()}.solve();
}
