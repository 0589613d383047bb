// The peer with the full list of misses: the summary is tested with a hash table of its extents, the misses of every
// size are written down, and the first of them that suffices is found by halving.
#include "miss_list.hpp"
#include "words.hpp"
#include <algorithm>
#include <numeric>
#include <vector>

namespace {

constexpr uint64_t MAX_READS = 1048576;

// The places of a list's extents by their hash. A slot that another extent has taken is passed over. At most a quarter
// of the slots is taken: of a half, a quarter and an eighth the quickest at 1,024 extents, while at 256 a half takes 1
// to 4 percent less.
class Places {
  public:
    Places(const uint32_t *extents, size_t count) : extents_(extents), slots_(slots_for(count), 0) {}

    // The slot of the extent: one that has its place, or the free one that its place goes into.
    uint32_t &slot_of(uint32_t extent) {
        size_t at = (extent * uint64_t{0x9E3779B97F4A7C15} >> 32) & (slots_.size() - 1);
        while (slots_[at] != 0 && extents_[slots_[at] - 1] != extent) at = (at + 1) & (slots_.size() - 1);
        return slots_[at];
    }

  private:
    static size_t slots_for(size_t count) {
        size_t slots = 4;
        while (slots < 4 * count) slots *= 2;
        return slots;
    }

    const uint32_t *extents_;
    std::vector<uint32_t> slots_; // a place counted from 1, or 0 for a free slot
};

// Whether the first list has no extent twice, and the second has the same extents.
bool same_extents(const uint32_t *first, const uint32_t *second, size_t count) {
    Places places(first, count);
    for (size_t i = 0; i < count; i++) {
        uint32_t &slot = places.slot_of(first[i]);
        if (slot != 0) return false;
        slot = static_cast<uint32_t>(i + 1);
    }
    std::vector<uint8_t> seen(count + 1, 0);
    // a free slot is a place that counts as seen
    seen[0] = 1;
    for (size_t i = 0; i < count; i++) {
        uint8_t &there = seen[places.slot_of(second[i])];
        if (there != 0) return false;
        there = 1;
    }
    return true;
}

bool well_formed(const uint32_t *words, size_t count) {
    if (count < 2 || words[0] > MAX_READS || words[1] > MAX_EXTENTS || count != 2 + 3 * size_t{words[1]}) return false;
    size_t extents = words[1];
    const uint32_t *first = words + 2, *counts = first + 2 * extents;
    if (std::accumulate(counts, counts + extents, uint64_t{extents}) != words[0]) return false;
    return same_extents(first, first + extents, extents);
}

// The misses of every size from 0 to the number of extents.
std::vector<uint32_t> misses_of(const uint32_t *words) {
    size_t extents = words[1];
    const uint32_t *counts = words + 2 + 2 * extents;
    std::vector<uint32_t> misses(extents + 1);
    misses[0] = words[0];
    for (size_t size = 1; size <= extents; size++) misses[size] = misses[size - 1] - counts[size - 1];
    return misses;
}

} // namespace

int64_t smallest_by_list(const uint32_t *words, size_t count, uint32_t misses) {
    if (!well_formed(words, count)) return -5;
    std::vector<uint32_t> all = misses_of(words);
    auto found = std::partition_point(all.begin(), all.end(), [misses](uint32_t some) { return some > misses; });
    return found == all.end() ? -12 : found - all.begin();
}
