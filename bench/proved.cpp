// The proved solver, emitter and checker, by the calls that their static library exports.
#include "plans.hpp"
#include <cstdio>
#include <cstdlib>

// A slice is handed over as a pointer and a length in elements. Each answers 0, or the number of the refusal.
constexpr u8 END = 255;                             // no line is left; 254 would say that there is no plan
extern "C" {
u8 solve_case(const char* text, size_t bytes, u32* figures, size_t figure_entries, u32* settings, size_t setting_entries);
u8 write_plan_lines(const char* text, size_t bytes, const u32* figures, size_t figure_entries, const u32* settings, size_t setting_entries, u64* place,
                    char* out, size_t room, size_t* written);
u8 begin_check(const char* text, size_t bytes, u32* state, u32* figures, size_t figure_entries, u32* settings, size_t setting_entries);
u8 take_plan_lines(const char* text, size_t bytes, u32* state, const char* plan, size_t plan_bytes, u32* figures, size_t figure_entries, u32* settings,
                   size_t setting_entries, size_t* taken);
u8 test_plan(const char* text, size_t bytes, const u32* state, const u32* figures, size_t figure_entries, const u32* settings, size_t setting_entries);
}

namespace {

void demand(u8 refused, const char* call) {
    if (refused == 0) return;
    fprintf(stderr, "%s answers %u\n", call, refused);
    exit(1);
}

}

void solve_proved(std::string_view text, Tables& tables) {
    demand(solve_case(text.data(), text.size(), tables.figures.data(), tables.figures.size(), tables.settings.data(), tables.settings.size()), "solve_case");
}

size_t write_proved(std::string_view text, const Tables& tables, Buffer out) {
    const std::vector<u32>&f = tables.figures, &s = tables.settings;
    u64 place = 0;
    size_t bytes = 0;
    for (;;) {
        size_t written = 0;
        u8 answer = write_plan_lines(text.data(), text.size(), f.data(), f.size(), s.data(), s.size(), &place, out.text + bytes, out.room - bytes, &written);
        if (answer == END) return bytes;
        demand(answer, "write_plan_lines");
        bytes += written;
    }
}

u8 check_proved(std::string_view text, std::string_view plan, Tables& tables) {
    std::vector<u32>&f = tables.figures, &s = tables.settings;
    u32 state[3];
    size_t taken = 0;
    demand(begin_check(text.data(), text.size(), state, f.data(), f.size(), s.data(), s.size()), "begin_check");
    demand(take_plan_lines(text.data(), text.size(), state, plan.data(), plan.size(), f.data(), f.size(), s.data(), s.size(), &taken), "take_plan_lines");
    if (taken < plan.size()) return 10;
    return test_plan(text.data(), text.size(), state, f.data(), f.size(), s.data(), s.size());
}
