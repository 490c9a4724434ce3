// The frontier: round n looks only at placements from which a move of a train leads to one of figure n less the train's weight. Besides the tables it has a
// buffer of a fixed size for the placements of this round, and for each figure so far back as the largest weight that some placement has: with weights 1 that
// makes two. A round that does not fit is found again by flags for stretches of the table.
#include "solvers.hpp"
#include <algorithm>

namespace {

constexpr u32 BUFFER = 1 << 16, STRETCHES = 1 << 12;
constexpr int MOST_WAYS = 16;                       // into a section: over four points, each with two legs

// The placements that got their figure in one round. It is cleared before it is used.
struct Round {
    u32 count;
    u8 stretch[STRETCHES];
    u32 code[BUFFER];

    bool fits() const { return count <= BUFFER; }
    void clear(u32 stretches) {
        std::fill(stretch, stretch + stretches, 0);
        count = 0;
    }
    void add(u32 c, int shift) {
        stretch[c >> shift] = 1;
        if (count < BUFFER) code[count] = c;
        count++;
    }
};
Round rounds[WEIGHTS + 1];                          // the system gives memory to those that are used

// A move into a section, backwards.
struct Back {
    int32_t change;                                 // of the code, from after the move to before it
    u32 from;                                       // the section before
    u32 entry;                                      // the setting that lets this train make this move and opens nothing else
    bool signal;
};

// K trains; ONE, if all have the same weight.
template <int K, bool ONE> struct Frontier {
    const Yard& y;
    u32 *figures, *settings;
    Back back[K][SECTIONS][MOST_WAYS];
    int backs[K][SECTIONS] = {};
    u32 inverse;                                    // of the number of sections, times 2^32, rounded up: exact for codes below 2^26
    int shift = 0;                                  // from codes to stretches
    u32 stretches;
    u32 together[K] = {};                           // the trains of this one's weight, a bit each; none if a lower train has the same weight
    u32 limit[K];                                   // in this round a move of the train has to end below
    Round* ring[WEIGHTS + 1] = {};                  // the placements of a figure, by the figure modulo their number, or null
    Round* spare[WEIGHTS + 1];
    int spares = 0;
    Round* next;                                    // those of this round

    Frontier(const Yard& yard, u32* f, u32* s) : y(yard), figures(f), settings(s) {
        inverse = (u32)(((u64(1) << 32) + y.sections - 1) / y.sections);
        while ((y.placements - 1) >> shift >= STRETCHES) shift++;
        stretches = ((y.placements - 1) >> shift) + 1;
        for (int t = 0; t < K; t++) together[std::find(y.weight, y.weight + t, y.weight[t]) - y.weight] |= 1u << t;
        for (int i = (int)y.most_weight; i >= 0; i--) spare[spares++] = rounds + i;
        for (int t = 0; t < K; t++)
            for (int x = 0; x < y.sections; x++) {
                const Step& step = y.step[t][x];
                for (const Way* w = y.begin(step); w < y.end(step); w++) {
                    int z = x + w->change / (int32_t)y.stride[t];
                    back[t][z][backs[t][z]++] = {-w->change, (u32)x, w->plus | (step.signal ? open_bit(t) : 0), step.signal};
                }
            }
    }

    void decode(u32 code, u32* x) const {
        for (int t = 0; t < K - 1; t++) {
            u32 rest = (u32)((u64)code * inverse >> 32);
            x[t] = code - rest * y.sections;
            code = rest;
        }
        x[K - 1] = code;
    }

    // In this round a move of train t may end there.
    bool below(u32 code, const Way& w, int t) const { return figures[code + w.change] < limit[ONE ? 0 : t]; }

    // The least points that bring each free train from t on below its limit, with those that are met so far lying so; or NONE. Every way of one train is tried
    // with every way of the next.
    template <int t> u32 combine(u32 code, const u32* x, u32 met, u32 plus) const {
        if constexpr (t == K) {
            return plus;
        } else {
            const Step& s = y.step[t][x[t]];
            if (!s.free) return combine<t + 1>(code, x, met, plus);
            u32 least = NONE;
            for (const Way* w = y.begin(s); w < y.end(s); w++) {
                if ((met & w->met & (plus ^ w->plus)) || !below(code, *w, t)) continue;
                least = std::min(least, combine<t + 1>(code, x, met | w->met, plus | w->plus));
            }
            return least;
        }
    }

    // The least points that bring each free train below its limit, or NONE. Where no two meet the same point each takes the first of its ways that does.
    u32 guide(u32 code, const u32* x) const {
        u32 plus = 0, met = 0;
        for (int t = 0; t < K; t++) {
            const Step& s = y.step[t][x[t]];
            if (!s.free) continue;
            if (met & s.met) return combine<0>(code, x, 0, 0);
            met |= s.met;
            const Way *w = y.begin(s), *end = y.end(s);
            while (w < end && !below(code, *w, t)) w++;
            if (w == end) return NONE;
            plus |= w->plus;
        }
        return plus;
    }

    void add(u32 code, u32 n, u32 entry) {
        figures[code] = n;
        settings[code] = entry;
        next->add(code, shift);
    }

    // The placements from which train t moves into placement q of figure n less its weight. If no other train is free the move is a setting's only one, and
    // the least such setting stays. If others are, a train that a signal holds is not let go.
    void look_back(u32 q, u32* x, int t, bool others_free, u64 taken, u32 n) {
        u32 z = x[t];
        for (int i = 0; i < backs[t][z]; i++) {
            const Back& b = back[t][z][i];
            if (others_free && b.signal) continue;
            u32 p = q + b.change, figure = figures[p];
            if (figure == n && !others_free && b.entry < settings[p]) settings[p] = b.entry;
            if (figure != NONE || (taken >> b.from & 1)) continue;
            if (!others_free) {
                add(p, n, b.entry);
                continue;
            }
            x[t] = b.from;
            u32 entry = guide(p, x);
            x[t] = z;
            if (entry != NONE) add(p, n, entry);
        }
    }

    // The placements from which one of these trains, all of one weight, moves into placement q.
    void expand(u32 q, u32 movers, u32 n) {
        u32 x[K];
        u64 taken = 0;
        int free = 0;
        decode(q, x);
        for (int t = 0; t < K; t++) {
            taken |= u64(1) << x[t];
            free += y.step[t][x[t]].free;
        }
        for (int t = 0; t < K; t++) if (ONE || movers >> t & 1) look_back(q, x, t, free > y.step[t][x[t]].free, taken, n);
    }

    void expand_stretch(u32 i, u32 figure, u32 movers, u32 n) {
        u32 from = i << shift, to = std::min((i + 1) << shift, y.placements);
        for (u32 q = from; q < to; q++) if (figures[q] == figure) expand(q, movers, n);
    }

    void expand_all(const Round& r, u32 figure, u32 movers, u32 n) {
        if (r.fits()) {
            for (u32 i = 0; i < r.count; i++) expand(r.code[i], movers, n);
        } else {
            for (u32 i = 0; i < stretches; i++) if (r.stretch[i]) expand_stretch(i, figure, movers, n);
        }
    }

    Round*& placements_of(u32 figure) { return ring[figure % (WEIGHTS + 1)]; }
    void take_spare() {
        next = spare[--spares];
        next->clear(stretches);
    }
    // The round's placements are kept under its figure, if there are any, and those from which no more moves are looked at are let go.
    bool end_round(u32 n) {
        Round*& past = placements_of(n - y.most_weight);
        if (past) spare[spares++] = past;
        past = nullptr;
        if (next->count == 0) return false;
        placements_of(n) = next;
        take_spare();
        return true;
    }

    bool round(u32 n) {
        for (int t = 0; t < K; t++) limit[t] = y.limit(t, n);
        for (int t = 0; t < K; t++) {
            u32 figure = n - y.weight[t];
            if (const Round* r = placements_of(figure); r && together[t]) expand_all(*r, figure, together[t], n);
        }
        return end_round(n);
    }

    void solve() {
        for (u32 code = 0; code < y.placements; code++) figures[code] = NONE, settings[code] = 0;
        take_spare();
        add(y.home, 0, 0);
        end_round(0);
        for (u32 n = 1, last = 0; n - last <= y.most_weight; n++) if (round(n)) last = n;
    }
};

template <int K> void solve(const Yard& y, u32* figures, u32* settings) {
    if (std::count(y.weight, y.weight + K, y.weight[0]) == K) Frontier<K, true>(y, figures, settings).solve();
    else Frontier<K, false>(y, figures, settings).solve();
}

}

void solve_frontier(std::string_view text, Tables& tables) { solve_frontier(read_yard(text), tables); }

void solve_frontier(const Yard& y, Tables& tables) {
    u32 *figures = tables.figures.data(), *settings = tables.settings.data();
    switch (y.trains) {
        case 1: solve<1>(y, figures, settings); break;
        case 2: solve<2>(y, figures, settings); break;
        case 3: solve<3>(y, figures, settings); break;
        default: solve<4>(y, figures, settings);
    }
}
