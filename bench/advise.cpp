// What the proved program `advise` does, not proved: a case text on standard input, and a line on standard output. The case is solved by the frontier; where its start has no figure, so it is with a
// signal more at each end that has none, 1d, 1u, 2d and on, until the start has one. The yard is read once. It takes it that the text is right.
#include "solvers.hpp"
#include "streams.hpp"
#include <string>

int main() {
    Yard y = read_yard(read_all(STDIN_FILENO));
    Tables tables{std::vector<u32>(y.placements), std::vector<u32>(y.placements)};
    auto has_plan = [&] {
        solve_frontier(y, tables);
        return tables.figures[y.start] != NONE;
    };
    if (has_plan()) return write_all("no signal needed\n");
    for (int x = 0; x < y.sections; x++)
        for (int way : {1, 0}) {
            if (y.signal[way][x]) continue;
            y.set_signal(way, x, true);
            if (has_plan()) return write_all(std::to_string(x + 1) + (way ? "d\n" : "u\n"));
            y.set_signal(way, x, false);
        }
    return write_all("no single signal helps\n");
}
