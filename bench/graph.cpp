// The way of source document 000, with all its three reductions of the game: the graph is generated from the start, in a hash table that has for each
// vertex how many of its successors are not yet won and the list of its predecessors; then a search goes backwards from home with a queue. A vertex of
// the signalman is a placement; a vertex of the trains is a placement with a setting, in which what matters to no train is left at minus or closed and
// at most one signal is open. That document knows no weights: here the queue has a list for each figure, and they are taken by rising figures.
#include "solvers.hpp"
#include <algorithm>
#include <unordered_map>

namespace {

// Low half: a byte for each train, its section counted from 1, or 0 once it has derailed. High half: the setting as in the table, and the top bit if the
// trains are to move.
using Vertex = u64;
constexpr Vertex TRAINS_TURN = u64(1) << 63;

u32 section(Vertex v, int t) { return v >> 8 * t & 255; }
u32 setting(Vertex v) { return v >> 32 & 0x7FFFFFFF; }
u32 placement(Vertex v) { return (u32)v; }

struct Hash {
    size_t operator()(Vertex v) const {
        v *= 0x9E3779B97F4A7C15;
        return v ^ v >> 32;
    }
};

struct Node {
    u32 not_won = 0;                                // successors
    u32 figure = NONE;                              // the weights that can be forced from here, if won
    u32 most = 0;                                   // of the trains: the largest weight and figure behind it, of the successors that are won
    std::vector<Vertex> before;
};

struct Graph {
    Yard y;
    Vertex start = 0, home = 0;
    std::unordered_map<Vertex, Node, Hash> nodes;
    std::vector<Vertex> successors;                 // of the vertex at hand

    explicit Graph(std::string_view text) : y(read_yard(text)), start(vertex(y.start)), home(vertex(y.home)) {}

    Vertex vertex(u32 code) const {
        Vertex v = 0;
        for (int t = 0; t < y.trains; t++, code /= y.sections) v |= u64(code % y.sections + 1) << 8 * t;
        return v;
    }
    const Step& step(Vertex v, int t) const { return y.step[t][section(v, t) - 1]; }

    // Home or lost: the play has ended.
    bool ended(Vertex v) const {
        if (placement(v) == home) return true;
        for (int t = 0; t < y.trains; t++) {
            if (section(v, t) == 0) return true;
            for (int u = 0; u < t; u++) if (section(v, u) == section(v, t)) return true;
        }
        return false;
    }

    // Every way to set the points that are met, with these signals open.
    void set_points(Vertex v, u32 open, u32 met) {
        u32 plus = 0;
        do {
            successors.push_back(v | u64(open | plus) << 32 | TRAINS_TURN);
            plus = (plus - met) & met;
        } while (plus);
    }
    void set(Vertex v) {
        u32 met = 0;
        for (int t = 0; t < y.trains; t++) if (step(v, t).free) met |= step(v, t).met;
        set_points(v, 0, met);
        for (int t = 0; t < y.trains; t++) if (step(v, t).signal) set_points(v, open_bit(t), met | step(v, t).met);
    }
    void move(Vertex v) {
        for (int t = 0; t < y.trains; t++) {
            const Step& s = step(v, t);
            if (!s.free && !(s.signal && setting(v) & open_bit(t))) continue;
            int32_t change = y.change(s, setting(v));
            u32 to = change == 0 ? 0 : section(v, t) + change / (int32_t)y.stride[t];
            successors.push_back((placement(v) & ~(u64(255) << 8 * t)) | u64(to) << 8 * t);
        }
        if (successors.empty()) successors.push_back(placement(v));
    }

    void generate() {
        std::vector<Vertex> found{start};
        nodes[start];
        while (!found.empty()) {
            Vertex v = found.back();
            found.pop_back();
            if (ended(v)) continue;
            successors.clear();
            if (v & TRAINS_TURN) move(v); else set(v);
            nodes[v].not_won = successors.size();
            for (Vertex w : successors) {
                auto [at, fresh] = nodes.try_emplace(w);
                at->second.before.push_back(v);
                if (fresh) found.push_back(w);
            }
        }
    }

    // The weight of the train that moves from one placement to another; an idle turn counts 1.
    u32 weight(Vertex from, Vertex to) const {
        for (int t = 0; t < y.trains; t++) if (section(from, t) != section(to, t)) return y.weight[t];
        return 1;
    }

    void search() {
        std::vector<Vertex> queue[WEIGHTS + 1];     // by figure, modulo their number
        auto won = [&](Vertex v, Node& node, u32 figure) {
            node.figure = figure;
            queue[figure % (WEIGHTS + 1)].push_back(v);
        };
        if (auto at = nodes.find(home); at != nodes.end()) won(home, at->second, 0);
        for (u32 n = 0, last = 0; n - last <= y.most_weight; n++) {
            std::vector<Vertex>& list = queue[n % (WEIGHTS + 1)];
            if (!list.empty()) last = n;
            for (size_t i = 0; i < list.size(); i++) {
                Vertex w = list[i];                 // the list may grow meanwhile
                for (Vertex v : nodes[w].before) {
                    Node& earlier = nodes[v];
                    if (v & TRAINS_TURN) {
                        earlier.most = std::max(earlier.most, n + weight(v, w));
                        if (--earlier.not_won == 0) won(v, earlier, earlier.most);
                    } else if (earlier.figure == NONE) {
                        won(v, earlier, n);
                    }
                }
            }
            list.clear();
        }
    }

    bool code_of(Vertex v, u32& code) const {
        code = 0;
        for (int t = 0; t < y.trains; t++) {
            if (section(v, t) == 0) return false;
            code += (section(v, t) - 1) * y.stride[t];
        }
        return true;
    }

    // Of the settings that keep a placement's figure the least as a number stays: with at most one signal open that is the plan's order.
    void write(Tables& tables) {
        u32 code;
        for (auto& [v, node] : nodes) {
            if (v & TRAINS_TURN || !code_of(v, code)) continue;
            tables.figures[code] = node.figure;
            tables.settings[code] = node.figure == NONE || node.figure == 0 ? 0 : NONE;
        }
        for (auto& [v, node] : nodes) {
            if (!(v & TRAINS_TURN) || node.figure == NONE || !code_of(v, code)) continue;
            if (node.figure != tables.figures[code]) continue;
            tables.settings[code] = std::min(tables.settings[code], setting(v));
        }
    }
};

Graph* last = nullptr;                              // freed for the next one

}

void solve_graph(std::string_view text, Tables&) {
    delete last;
    last = new Graph(text);
    last->generate();
    last->search();
}

void graph_tables(Tables& tables) { last->write(tables); }
