// Plans, made of two tables and checked, by the proved calls and by a baseline. Each call begins with the case text, or, of the
// baseline's, with the yard that was read from it.
#pragma once
#include "solvers.hpp"

constexpr size_t MOST_LINE_BYTES = 45;

// A buffer for a plan's text; it is not written before it is used.
struct Buffer {
    char* text;
    size_t room;
};

// The plan of full tables, in a buffer with room for it: how many bytes it has.
size_t write_proved(std::string_view text, const Tables& tables, Buffer out);
size_t write_plain(std::string_view text, const Tables& tables, Buffer out);
size_t write_plain(const Yard& yard, const Tables& tables, Buffer out);

// A plan's text, entered into two tables and tested: 0 for a pass, 10 for plan form, 11 for plan fault.
u8 check_proved(std::string_view text, std::string_view plan, Tables& tables);
u8 check_plain(std::string_view text, std::string_view plan, Tables& tables);
u8 check_plain(const Yard& yard, std::string_view plan, Tables& tables);

// A number in decimal digits; the answer is where they end.
char* put_number(char* to, u32 n);
