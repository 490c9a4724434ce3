// compare TABLES TABLES [part]: holds the second file's figures and settings to the first's, entry by entry. With `part`, placements that the second has not
// looked at are left out; else such an entry is a difference. Prints how many were compared; at a difference it prints the entry and answers 1.
#include "solvers.hpp"
#include <cstdio>
#include <cstring>
#include <fstream>
#include <iterator>

namespace {

std::vector<u32> read(const char* path) {
    std::ifstream in(path, std::ios::binary | std::ios::ate);
    if (!in) return {};
    std::vector<u32> entries(in.tellg() / sizeof(u32));
    in.seekg(0);
    in.read((char*)entries.data(), entries.size() * sizeof(u32));
    return entries;
}

}

int main(int count, char** words) {
    bool part = count == 4 && !strcmp(words[3], "part");
    if (count != 3 && !part) {
        fprintf(stderr, "usage: compare TABLES TABLES [part]\n");
        return 2;
    }
    std::vector<u32> one = read(words[1]), other = read(words[2]);
    if (one.empty() || one.size() != other.size()) {
        printf("tables missing or of different lengths\n");
        return 1;
    }
    size_t placements = one.size() / 2, compared = 0;
    for (size_t p = 0; p < placements; p++) {
        if (part && other[p] == NOT_LOOKED_AT) continue;
        compared++;
        const u32 *a = &one[p], *b = &other[p];
        if (a[0] == b[0] && a[placements] == b[placements]) continue;
        printf("at code %zu: figure %u, setting %u against figure %u, setting %u\n", p, a[0], a[placements], b[0], b[placements]);
        return 1;
    }
    printf("%zu\n", compared);
    return 0;
}
