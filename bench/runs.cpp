// runs CASE: the tables of shortest runs of both headings, from a case text, by the call that a proved library exports and by a plain baseline, which takes an accepted text and tests nothing.
// Each often enough to be timed. Prints sections, seconds of processor time for both tables by the one and by the other, and seconds that the call takes to refuse the text with a byte more behind
// it: it has read all of it then, and makes no table. Ends with 1 where the tables differ.
#include "timing.hpp"
#include <cstdint>
#include <cstdio>
#include <cstring>
#include <sstream>
#include <vector>

using u8 = uint8_t;
constexpr int SECTIONS = 48, POINTS = 16, NOWHERE = 255;
struct Table { u8 entry[SECTIONS][SECTIONS]; };

// A slice is handed over as a pointer and a length in elements, an array as a pointer. It answers 0, or the number of the refusal.
extern "C" u8 runs_case(const char* text, size_t bytes, Table* up, Table* down);

namespace {

// Ends by number: a section's down and up end, then a point's stem, plus and minus.
struct Yard {
    int sections = 0, joined[2 * SECTIONS + 3 * POINTS];
    bool closed[SECTIONS] = {};
    std::vector<int> ahead[2][SECTIONS];            // by heading, down and up: the sections that can be entered

    int end(const std::string& word) const {
        int n = std::stoi(word) - 1;
        switch (word.back()) {
            case 'd': return 2 * n;
            case 'u': return 2 * n + 1;
            case 's': return 2 * SECTIONS + 3 * n;
            case '+': return 2 * SECTIONS + 3 * n + 1;
            default: return 2 * SECTIONS + 3 * n + 2;
        }
    }
    // All that can be entered past an end, whatever way the points lie. In an accepted yard no way meets a point twice.
    void follow(int end, std::vector<int>& found) const {
        int e = joined[end];
        if (e < 0) return;
        if (e < 2 * SECTIONS) {
            if (!closed[e / 2]) found.push_back(e / 2);
            return;
        }
        int stem = e - (e - 2 * SECTIONS) % 3;
        if (e == stem) {
            follow(stem + 2, found);
            follow(stem + 1, found);
        } else {
            follow(stem, found);
        }
    }
    explicit Yard(const std::string& text) {
        std::fill(std::begin(joined), std::end(joined), -1);
        std::istringstream in(text);
        std::string line, kind, a, b;
        while (std::getline(in, line)) {
            std::istringstream words(line);
            words >> kind >> a;
            if (kind == "H") sections = std::stoi(a);
            if (kind == "X") closed[std::stoi(a) - 1] = true;
            if (kind == "J") {
                words >> b;
                joined[end(a)] = end(b);
                joined[end(b)] = end(a);
            }
        }
        for (int side = 0; side < 2; side++)
            for (int x = 0; x < sections; x++) follow(2 * x + side, ahead[side][x]);
    }
    // Breadth first from each section, with a queue.
    void fill(int side, Table& t) const {
        memset(&t, NOWHERE, sizeof t);
        for (int x = 0; x < sections; x++) {
            u8* row = t.entry[x];
            int queue[SECTIONS], first = 0, last = 0;
            row[x] = 0;
            queue[last++] = x;
            while (first < last) {
                int y = queue[first++];
                for (int z : ahead[side][y]) if (row[z] == NOWHERE) {
                    row[z] = row[y] + 1;
                    queue[last++] = z;
                }
            }
        }
    }
};

}

int main(int count, char** words) {
    if (count != 2) {
        fprintf(stderr, "usage: runs CASE\n");
        return 2;
    }
    std::string text = read_file(words[1]), longer = text + "\n";
    static Table up, down, plain_up, plain_down, kept_up, kept_down;
    int sections = 0;
    u8 answer = 0, refused = 0;
    double proved = least_time([&] { answer |= runs_case(text.data(), text.size(), &up, &down); });
    double plain = least_time([&] {
        Yard yard(text);
        sections = yard.sections;
        yard.fill(1, plain_up);
        yard.fill(0, plain_down);
    });
    double reading = least_time([&] { refused = runs_case(longer.data(), longer.size(), &kept_up, &kept_down); });
    printf("%d %.9f %.9f %.9f\n", sections, proved, plain, reading);
    if (answer != 0 || refused != 2 || memcmp(&up, &plain_up, sizeof up) != 0 || memcmp(&down, &plain_down, sizeof down) != 0) {
        fprintf(stderr, "answers %u and %u, or the tables differ\n", answer, refused);
        return 1;
    }
}
