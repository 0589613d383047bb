// The peer of jemqolu_smallest. It tests the summary too, and refuses as the library does.
#pragma once
#include <cstddef>
#include <cstdint>

// The smallest size at which a cache that reads the summary's log misses at most `misses` times; -5 where the words are
// not a well-formed summary, else -12 where no size suffices.
int64_t smallest_by_list(const uint32_t *words, size_t count, uint32_t misses);
