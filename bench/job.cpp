// job MAKER CASE PLAN: the whole job, from a case text to tables, to the plan's text, to its verdict; each part often enough to be timed. Writes the text to
// file PLAN. Prints lines and bytes of the text; seconds of processor time for each part; bytes of tables and texts, and at the process's peak beside them;
// then the verdicts on the text, on the text without its last byte and without its last line.
// job MAKER CASE PLAN once: each part once, nothing is timed, and the text is checked alone.
#include "plans.hpp"
#include "timing.hpp"
#include <cstdio>
#include <cstdlib>
#include <cstring>

namespace {

struct Maker {
    const char* name;
    void (*solve)(std::string_view, Tables&);
    size_t (*write)(std::string_view, const Tables&, Buffer);
    u8 (*check)(std::string_view, std::string_view, Tables&);
};
const Maker MAKERS[] = {
    {"proved", solve_proved, write_proved, check_proved},
    {"plain", solve_frontier, write_plain, check_plain},
};

const Maker& maker(const char* name) {
    for (const Maker& m : MAKERS) if (!strcmp(m.name, name)) return m;
    fprintf(stderr, "no maker %s\n", name);
    exit(2);
}

Tables tables_of(u32 placements) {
    return {std::vector<u32>(placements, NOT_LOOKED_AT), std::vector<u32>(placements, NOT_LOOKED_AT)};
}

}

int main(int count, char** words) {
    bool once = count == 5 && !strcmp(words[4], "once");
    if (count != 4 && !once) {
        fprintf(stderr, "usage: job MAKER CASE PLAN [once]\n");
        return 2;
    }
    const Maker& m = maker(words[1]);
    std::string text = read_file(words[2]);
    u32 placements = read_yard(text).placements;
    auto timed = [&](auto work) {
        if (!once) return least_time(work);
        work();
        return 0.0;
    };

    long before = memory("VmRSS:");
    Tables solved = tables_of(placements), checked = tables_of(placements);
    double solving = timed([&] { m.solve(text, solved); });

    size_t lines = 1 + std::count_if(solved.figures.begin(), solved.figures.end(), [](u32 f) { return f != NONE; });
    Buffer out{(char*)malloc(lines * MOST_LINE_BYTES), lines * MOST_LINE_BYTES};
    size_t bytes = 0;
    double writing = timed([&] { bytes = m.write(text, solved, out); });

    std::string_view plan(out.text, bytes);
    u8 verdict = 0;
    double checking = timed([&] { verdict = m.check(text, plan, checked); });
    long lent = 4l * placements * sizeof(u32) + bytes;
    long beside = std::max(0l, memory("VmHWM:") - before - lent);
    printf("%zu %zu %.9f %.9f %.9f %ld %ld %u", lines, bytes, solving, writing, checking, lent, beside, verdict);
    if (!once) {
        u8 cut = m.check(text, plan.substr(0, bytes - 1), checked);
        u8 shorter = m.check(text, plan.substr(0, plan.rfind('\n', bytes - 2) + 1), checked);
        printf(",%u,%u", cut, shorter);
    }
    printf("\n");

    std::ofstream to(words[3], std::ios::binary);
    to.write(out.text, bytes);
    return to.flush() ? 0 : 2;
}
