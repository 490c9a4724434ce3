// What the plain programs read and write: a whole file, a text.
#pragma once
#include <cstdlib>
#include <fcntl.h>
#include <string_view>
#include <unistd.h>

// All of an open file, up to more than a plan for 8,192 placements can have. The memory is not written before it is used, and is never given back.
inline std::string_view read_all(int file) {
    constexpr size_t MOST = 1 << 20;
    char* text = (char*)malloc(MOST);
    size_t size = 0;
    for (ssize_t came; (came = read(file, text + size, MOST - size)) > 0;) size += came;
    return {text, size};
}
inline std::string_view read_case() { return read_all(open("case.txt", O_RDONLY)); }

// The answer is the program's: 0, or 1 where it could not be written.
inline int write_all(std::string_view text) {
    while (!text.empty()) {
        ssize_t went = write(STDOUT_FILENO, text.data(), text.size());
        if (went < 0) return 1;
        text.remove_prefix(went);
    }
    return 0;
}
