// search CASE TABLES: a search by the calls that a proved library exports, opened and asked for round after round to its end, often enough to be timed; then
// writes both tables to file TABLES. Prints placements, seconds of processor time for one search from the case text on, its rounds, those of them that bring
// figures, seconds of a round that brings none, and of the last, which is one of these and finds that none is to come.
// Each call reads and judges the case text anew. Where a round brings nothing there is little else to do: with very many rounds the reading counts.
#include "solvers.hpp"
#include "timing.hpp"
#include <cstdio>
#include <cstdlib>

// A slice is handed over as a pointer and a length in elements, an array as a pointer. Each answers 0, or the number of the refusal.
constexpr u8 ENDED = 255;                           // the search has ended: by this round, or before
constexpr size_t MARKS = 61440;                     // what the rounds note: for each stretch of codes a number for each train, and one more
extern "C" {
u8 open_search(const char* text, size_t bytes, u32* state, u32* figures, size_t figure_entries, u32* settings, size_t setting_entries, u32* marks);
u8 search_round(const char* text, size_t bytes, u32* state, u32* figures, size_t figure_entries, u32* settings, size_t setting_entries, u32* marks);
}

namespace {

struct Search {
    std::string text;
    Tables tables;
    std::vector<u32> marks = std::vector<u32>(MARKS, NOT_LOOKED_AT);
    u32 state[3];                                   // rounds finished, whether it has ended, and the coming one

    u8 call(u8 (*f)(const char*, size_t, u32*, u32*, size_t, u32*, size_t, u32*), const char* name) {
        std::vector<u32>&g = tables.figures, &s = tables.settings;
        u8 answer = f(text.data(), text.size(), state, g.data(), g.size(), s.data(), s.size(), marks.data());
        if (answer == 0 || answer == ENDED) return answer;
        fprintf(stderr, "%s answers %u\n", name, answer);
        exit(1);
    }
    void open() { call(open_search, "open_search"); }
    bool round() { return call(search_round, "search_round") == 0; }
    void run() {
        open();
        while (round()) {}
    }
};

}

int main(int count, char** words) {
    if (count != 3) {
        fprintf(stderr, "usage: search CASE TABLES\n");
        return 2;
    }
    Search search;
    search.text = read_file(words[1]);
    u32 placements = read_yard(search.text).placements;
    search.tables = {std::vector<u32>(placements, NOT_LOOKED_AT), std::vector<u32>(placements, NOT_LOOKED_AT)};
    double seconds = least_time([&] { search.run(); });

    // Round n brings the figures n. Home's, 0, is there before the first.
    u32 rounds = search.state[0];
    std::vector<bool> brings(rounds + 1);
    for (u32 f : search.tables.figures) if (f != NONE) brings.at(f) = true;
    u32 bringing = std::count(brings.begin() + 1, brings.end(), true), without = rounds - bringing;

    // The calls for the others alone. The clock is read where they begin and end, not at each.
    double least = 1e99, least_last = 1e99, spent = 0;
    while (spent < 0.5) {
        double begin = now(), from = 0, took = 0, last = 0;
        search.open();
        bool going = true, quiet = false;
        for (u32 n = 1; going; n++) {
            if (quiet != !brings[n]) {
                if (quiet) took += now() - from; else from = now();
                quiet = !quiet;
            }
            if (n == rounds) last = now();
            going = search.round();
        }
        double end = now();
        least = std::min(least, took + (end - from));
        least_last = std::min(least_last, end - last);
        spent += end - begin;
    }
    printf("%u %.9f %u %u %.12f %.12f\n", placements, seconds, rounds, bringing, least / without, least_last);

    std::ofstream out(words[2], std::ios::binary);
    for (auto* table : {&search.tables.figures, &search.tables.settings}) out.write((const char*)table->data(), table->size() * sizeof(u32));
    return out.flush() ? 0 : 2;
}
