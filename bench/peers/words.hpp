// The words of a summary and of distances, from an engine that answers one read at a time:
//   Engine(count)   for a trace of so many reads
//   read(extent)    the reuse distance, or COLD_BASE plus the number of a cold read
//   recent()        the extents by last read, the latest first
#pragma once
#include <algorithm>
#include <cstddef>
#include <cstdint>
#include <vector>

// A cold read is written as this plus its number: how many different extents the trace has had, its own included.
constexpr uint32_t COLD_BASE = 65536;

// The most different extents of a trace: what the peers that lay memory aside lay it aside for.
constexpr size_t MAX_EXTENTS = 1024;

template <class Engine> size_t summary_words(const uint32_t *reads, size_t count, uint32_t *out) {
    Engine engine(count);
    std::vector<uint32_t> first, counts;
    for (size_t i = 0; i < count; i++) {
        uint32_t answer = engine.read(reads[i]);
        if (answer > COLD_BASE) {
            first.push_back(reads[i]);
            counts.push_back(0);
        } else {
            counts[answer - 1] += 1;
        }
    }
    std::vector<uint32_t> recent = engine.recent();
    out[0] = static_cast<uint32_t>(count);
    out[1] = static_cast<uint32_t>(first.size());
    uint32_t *end = std::copy(first.begin(), first.end(), out + 2);
    end = std::copy(recent.begin(), recent.end(), end);
    end = std::copy(counts.begin(), counts.end(), end);
    return static_cast<size_t>(end - out);
}

template <class Engine> size_t distance_words(const uint32_t *reads, size_t count, uint32_t *out) {
    Engine engine(count);
    for (size_t i = 0; i < count; i++) out[i] = engine.read(reads[i]);
    return count;
}
