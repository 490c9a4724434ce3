// What the proved program `showcounts` does, not proved: a case text on standard input; on standard output how many placements there are, how many lead home and how many do not, the largest figure,
// and a chart of the figures. The case is solved by the frontier, and the figures are counted in one pass. It takes it that the text is right.
#include "plans.hpp"
#include "streams.hpp"
#include <algorithm>
#include <cstring>

namespace {

constexpr u32 OWN = 255, ROWS = 17, LONGEST = 40;   // figures that have a count of their own; the most rows they have; marks in the longest bar

struct Chart {
    char text[2048], *to = text;

    void put(const char* word) {
        size_t n = strlen(word);
        memcpy(to, word, n);
        to += n;
    }
    void put(u32 n) { to = put_number(to, n); }
    void named(const char* word, u32 n) {
        put(word);
        put(n);
        put("\n");
    }
    // A row of `count` out of `all`, behind what it is of. A bar is rounded up.
    void bar(u32 count, u32 all) {
        put("\t");
        put(count);
        put("\t");
        size_t marks = ((u64)count * LONGEST + all - 1) / all;
        memset(to, '#', marks);
        to += marks;
        put("\n");
    }
};

}

int main() {
    Yard y = read_yard(read_all(STDIN_FILENO));
    Tables tables{std::vector<u32>(y.placements), std::vector<u32>(y.placements)};
    solve_frontier(y, tables);

    u32 count[OWN] = {}, greater = 0, none = 0, largest = 0;
    for (u32 f : tables.figures) {
        if (f == NONE) {
            none++;
            continue;
        }
        largest = std::max(largest, f);
        if (f < OWN) count[f]++;
        else greater++;
    }

    Chart chart;
    u32 home = y.placements - none;                 // never 0: home itself has figure 0
    chart.named("placements\t", y.placements);
    chart.named("lead home\t", home);
    chart.named("none\t", none);
    chart.named("largest figure\t", largest);
    u32 step = std::min(largest, OWN - 1) / ROWS + 1;
    for (u32 first = 0; first < OWN; first += step) {
        u32 sum = 0;
        for (u32 f = first; f < std::min(first + step, OWN); f++) sum += count[f];
        if (sum == 0) continue;
        chart.put(first);
        if (step > 1) {
            chart.put("-");
            chart.put(first + step - 1);
        }
        chart.bar(sum, home);
    }
    if (greater) {
        chart.put("more");
        chart.bar(greater, home);
    }
    return write_all({chart.text, (size_t)(chart.to - chart.text)});
}
