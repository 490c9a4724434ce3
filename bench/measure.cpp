// measure SOLVER CASE TABLES: solves the case, from its text to full tables, often enough to be timed, then writes both tables to file TABLES. Prints
// placements, seconds of processor time for one solving, bytes of both tables, and bytes at the process's peak beside them.
#include "solvers.hpp"
#include "timing.hpp"
#include <cstdio>
#include <cstdlib>
#include <cstring>

namespace {

struct Solver {
    const char* name;
    void (*solve)(std::string_view, Tables&);
    void (*write)(Tables&);                         // what is not timed, if anything
};
const Solver SOLVERS[] = {
    {"proved", solve_proved, nullptr},
    {"sweep", solve_sweep, nullptr},
    {"frontier", solve_frontier, nullptr},
    {"graph", solve_graph, graph_tables},
};

const Solver& solver(const char* name) {
    for (const Solver& s : SOLVERS) if (!strcmp(s.name, name)) return s;
    fprintf(stderr, "no solver %s\n", name);
    exit(2);
}

}

int main(int count, char** words) {
    if (count != 4) {
        fprintf(stderr, "usage: measure SOLVER CASE TABLES\n");
        return 2;
    }
    const Solver& s = solver(words[1]);
    std::string text = read_file(words[2]);
    u32 placements = read_yard(text).placements;

    long before = memory("VmRSS:");
    Tables tables;
    if (!s.write) tables = {std::vector<u32>(placements, NOT_LOOKED_AT), std::vector<u32>(placements, NOT_LOOKED_AT)};
    double seconds = least_time([&] { s.solve(text, tables); });
    long lent = (tables.figures.size() + tables.settings.size()) * sizeof(u32);
    long beside = std::max(0l, memory("VmHWM:") - before - lent);
    printf("%u %.9f %ld %ld\n", placements, seconds, lent, beside);

    if (s.write) {
        tables = {std::vector<u32>(placements, NOT_LOOKED_AT), std::vector<u32>(placements, NOT_LOOKED_AT)};
        s.write(tables);
    }
    std::ofstream out(words[3], std::ios::binary);
    for (auto* table : {&tables.figures, &tables.settings}) out.write((const char*)table->data(), table->size() * sizeof(u32));
    return out.flush() ? 0 : 2;
}
