// Lists a log text as the program `sizing` does, as a C++ user would write it: getline, strtoul, a hash map of last
// reads and a Fenwick tree. It checks nothing of the text but its numbers.
#include "fenwick.hpp"
#include <cstdio>
#include <cstdlib>
#include <iostream>
#include <string>

int main() {
    std::ios::sync_with_stdio(false);
    FenwickEngine engine(size_t{1} << 20);
    std::vector<uint32_t> counts;
    std::string line;
    uint32_t reads = 0;
    while (std::getline(std::cin, line)) {
        if (line.compare(0, 7, " (read ") != 0) continue;
        uint32_t answer = engine.read(static_cast<uint32_t>(strtoul(line.c_str() + 7, nullptr, 10)));
        if (answer > COLD_BASE) {
            counts.push_back(0);
        } else {
            counts[answer - 1] += 1;
        }
        reads += 1;
    }
    uint32_t misses = reads;
    printf("(sizing\n (reads %u)\n (cold %zu)", reads, counts.size());
    for (size_t size = 1; size <= counts.size(); size++) {
        misses -= counts[size - 1];
        printf("\n (at %zu %u)", size, misses);
    }
    printf(")\n");
}
