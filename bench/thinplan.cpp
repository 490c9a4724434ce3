// What the proved program `thinplan` does, not proved: the case of file case.txt in the working folder and a plan on standard input; on standard output the plan with as few signals open as let
// somebody move, or why it does not pass. The plan is entered and tested by the plain checker, its settings are thinned in one pass, and the plain writer writes it. It takes it that the case is right.
#include "plans.hpp"
#include "streams.hpp"
#include <memory>
#include <string>

namespace {

// The trains that may move without a signal go anyway: then all signals are closed. Else the lowest train that is open stays so. (In a plan that passes, an open train may move.)
u32 lean(const Yard& y, const Sections& s, u32 setting) {
    u32 points = setting % open_bit(0), open = setting - points;
    for (int t = 0; t < y.trains; t++) if (y.step[t][s.at[t]].free) return points;
    return points | (open & -open);
}

}

int main() {
    Yard y = read_yard(read_case());
    std::string_view plan = read_all(STDIN_FILENO);
    Tables tables{std::vector<u32>(y.placements), std::vector<u32>(y.placements)};
    u8 refused = check_plain(y, plan, tables);
    if (refused) return write_all("refused\t" + std::to_string(refused) + "\n");

    size_t lines = 1;
    Sections s(y);
    for (u32 code = 0; code < y.placements; code++, s.next()) {
        if (tables.figures[code] == NONE) continue;
        lines++;
        if (code != y.home) tables.settings[code] = lean(y, s, tables.settings[code]);
    }
    std::unique_ptr<char[]> text(new char[lines * MOST_LINE_BYTES]);
    size_t bytes = write_plain(y, tables, {text.get(), lines * MOST_LINE_BYTES});
    return write_all({text.get(), bytes});
}
