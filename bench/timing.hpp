// How the programs here measure: processor time of batches, and memory at the process's peak.
#pragma once
#include <algorithm>
#include <ctime>
#include <fstream>
#include <iterator>
#include <string>

// The machine may be shared: waiting for a core does not count.
inline double now() {
    timespec t;
    clock_gettime(CLOCK_THREAD_CPUTIME_ID, &t);
    return t.tv_sec + t.tv_nsec * 1e-9;
}

// A line of /proc/self/status, in bytes.
inline long memory(const char* line) {
    std::ifstream in("/proc/self/status");
    std::string word;
    long kilobytes = 0;
    while (in >> word) if (word == line) in >> kilobytes;
    return kilobytes * 1024;
}

inline std::string read_file(const char* path) {
    std::ifstream in(path, std::ios::binary);
    return {std::istreambuf_iterator<char>(in), {}};
}

// The least time of some batches of which each lasts a twentieth of a second at least: shorter ones are not counted, and grow.
template <class Work> double least_time(Work work) {
    double least = 1e99, spent = 0;
    for (int batch = 1; spent < 0.5;) {
        double begin = now();
        for (int i = 0; i < batch; i++) work();
        double took = now() - begin;
        if (took < 0.05) {
            batch *= 2;
            continue;
        }
        least = std::min(least, took / batch);
        spent += took;
    }
    return least;
}
