// generous: the case of file case.txt in the working folder and a plan on standard input; on standard output a plan with the same placements, figures and points, in which every train that stands at
// a signal is let go where the plan still passes so: where its move leads to a listed placement whose figure is smaller by its weight at least.
#include "plans.hpp"
#include "streams.hpp"
#include <cstdio>
#include <string>

int main() {
    Yard y = read_yard(read_case());
    std::string_view plan = read_all(STDIN_FILENO);
    Tables tables{std::vector<u32>(y.placements), std::vector<u32>(y.placements)};
    u8 refused = check_plain(y, plan, tables);
    if (refused) {
        fprintf(stderr, "the plan is refused with %u\n", refused);
        return 1;
    }

    size_t lines = 1, more = 0;
    Sections s(y);
    for (u32 code = 0; code < y.placements; code++, s.next()) {
        u32 figure = tables.figures[code], setting = tables.settings[code];
        if (figure == NONE) continue;
        lines++;
        for (int t = 0; t < y.trains; t++) {
            const Step& step = y.step[t][s.at[t]];
            int32_t change = y.change(step, setting);
            if (step.signal && change != 0 && tables.figures[code + change] < y.limit(t, figure)) tables.settings[code] |= open_bit(t);
        }
        more += tables.settings[code] != setting;
    }
    std::string text(lines * MOST_LINE_BYTES, 0);
    text.resize(write_plain(y, tables, {text.data(), text.size()}));
    fprintf(stderr, "%zu of %zu lines open more than before\n", more, lines - 1);
    return write_all(text);
}
