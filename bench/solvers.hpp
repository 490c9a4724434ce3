// The solvers that are run beside each other. Each takes an accepted case text and fills both tables, which have an entry for each placement.
#pragma once
#include "yard.hpp"
#include <vector>

struct Tables {
    std::vector<u32> figures, settings;
};

constexpr u32 NOT_LOOKED_AT = 0xFFFFFFFE;           // an entry that no solver has written: no figure is so large

void solve_proved(std::string_view text, Tables& tables);
void solve_sweep(std::string_view text, Tables& tables);
void solve_frontier(std::string_view text, Tables& tables);
void solve_frontier(const Yard& yard, Tables& tables);

// The game graph: this one builds and searches it, and writes no tables ..
void solve_graph(std::string_view text, Tables& tables);
// .. and this one writes what the last search has found, at the placements that can be reached from the start.
void graph_tables(Tables& tables);
