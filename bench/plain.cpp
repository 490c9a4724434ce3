// A plain writer and a plain checker of plans: one pass over the tables, one over the text, and one over the tables for the test. They take it that the
// case text is right and the tables and the buffer long enough.
#include "plans.hpp"
#include <cstring>

char* put_number(char* to, u32 n) {
    char digits[10];
    int count = 0;
    do digits[count++] = '0' + n % 10; while (n /= 10);
    while (count) *to++ = digits[--count];
    return to;
}

namespace {

char* put_line(char* to, const Yard& y, const Sections& s, u32 figure, u32 setting) {
    for (int t = 0; t < y.trains; t++) {
        to = put_number(to, s.at[t] + 1);
        *to++ = '\t';
    }
    to = put_number(to, figure);
    *to++ = '\t';
    char* opens = to;
    for (int t = 0; t < y.trains; t++) if (setting & open_bit(t)) *to++ = '1' + t;
    if (to == opens) *to++ = '0';
    *to++ = '\t';
    for (int n = 0; n < y.points; n++) *to++ = setting >> n & 1 ? '+' : '-';
    if (y.points == 0) *to++ = '.';
    *to++ = '\n';
    return to;
}

// A text that is read from the front; what is asked for and does not stand there makes it out of form for good.
struct Reading {
    const char *at, *end;
    bool good = true;

    char peek() const { return at < end ? *at : 0; }
    bool take(char c) {
        if (peek() != c) return good = false;
        at++;
        return true;
    }
    u32 number(u32 most, char behind) {             // no leading zero, at most `most`
        const char* begin = at;
        u64 n = 0;
        while (at < end && *at >= '0' && *at <= '9' && n <= most) n = 10 * n + (*at++ - '0');
        if (at == begin || (*begin == '0' && at - begin > 1) || n > most) good = false;
        take(behind);
        return (u32)n;
    }
};

// The lines of a plan, entered where they are in form and their codes rise. Answers whether all are.
bool enter(const Yard& y, std::string_view plan, Tables& tables, u32& first) {
    Reading in{plan.data(), plan.data() + plan.size()};
    for (char c : {'p', 'l', 'a', 'n', '\t'}) if (!in.take(c)) return false;
    first = in.number(NONE - 1, '\n');
    for (u32 lowest = 0; in.good && in.at < in.end;) {
        u32 code = 0, setting = 0;
        for (int t = 0; t < y.trains; t++) {
            u32 section = in.number(y.sections, '\t');
            if (section == 0) return false;
            code += (section - 1) * y.stride[t];
        }
        u32 figure = in.number(NONE - 1, '\t');
        if (in.peek() == '0') {
            in.at++;
        } else {
            int opened = 0;
            while (in.peek() > '0' + opened && in.peek() <= '0' + y.trains) {
                opened = *in.at++ - '0';
                setting |= open_bit(opened - 1);
            }
            if (opened == 0) return false;
        }
        in.take('\t');
        for (int n = 0; n < y.points; n++) {
            if (in.peek() == '+') {
                setting |= 1u << n;
                in.at++;
            } else {
                in.take('-');
            }
        }
        if (y.points == 0) in.take('.');
        in.take('\n');
        if (!in.good || code < lowest) return false;
        tables.figures[code] = figure;
        tables.settings[code] = setting;
        lowest = code + 1;
    }
    return in.good;
}

// A listed placement that is not home: somebody may move, and whoever may comes to a listed one whose figure is smaller by his weight at least. (One where
// two trains share a section fails by itself, so a collision need not be looked for.)
bool keeps(const Yard& y, const Sections& s, u32 code, const Tables& tables) {
    u32 setting = tables.settings[code];
    bool some = code == y.home;
    for (int t = 0; t < y.trains; t++) {
        const Step& step = y.step[t][s.at[t]];
        bool opened = setting & open_bit(t);
        if (opened && !step.signal) return false;
        if (!opened && !step.free) continue;
        int32_t change = y.change(step, setting);
        if (change == 0 || tables.figures[code + change] >= y.limit(t, tables.figures[code])) return false;
        some = true;
    }
    return some;
}

}

size_t write_plain(std::string_view text, const Tables& tables, Buffer out) { return write_plain(read_yard(text), tables, out); }

size_t write_plain(const Yard& y, const Tables& tables, Buffer out) {
    char* to = out.text;
    memcpy(to, "plan\t", 5);
    to = put_number(to + 5, tables.figures[y.start]);
    *to++ = '\n';
    Sections s(y);
    for (u32 code = 0; code < y.placements; code++, s.next())
        if (tables.figures[code] != NONE) to = put_line(to, y, s, tables.figures[code], tables.settings[code]);
    return to - out.text;
}

u8 check_plain(std::string_view text, std::string_view plan, Tables& tables) { return check_plain(read_yard(text), plan, tables); }

u8 check_plain(const Yard& y, std::string_view plan, Tables& tables) {
    for (u32& f : tables.figures) f = NONE;
    for (u32& v : tables.settings) v = 0;
    u32 first;
    if (!enter(y, plan, tables, first)) return 10;
    if (first != tables.figures[y.start]) return 11;
    Sections s(y);
    for (u32 code = 0; code < y.placements; code++, s.next())
        if (tables.figures[code] != NONE && !(s.apart() && keeps(y, s, code, tables))) return 11;
    return 0;
}
