// A Fenwick tree over time: each extent has a mark at its last read, and its distance is 1 plus the marks after that.
#pragma once
#include "words.hpp"
#include <algorithm>
#include <cstddef>
#include <cstdint>
#include <unordered_map>
#include <utility>
#include <vector>

// Counts at places from 0, with the sum of the first ones in steps by the logarithm.
class FenwickTree {
  public:
    explicit FenwickTree(size_t places) : sums_(places + 1, 0) {}

    void add(size_t place, uint32_t by) {
        for (size_t i = place + 1; i < sums_.size(); i += i & -i) sums_[i] += by;
    }

    // The sum of all places up to this one.
    uint32_t upto(size_t place) const {
        uint32_t sum = 0;
        for (size_t i = place + 1; i > 0; i -= i & -i) sum += sums_[i];
        return sum;
    }

    // As many places, with 1 in each of the first `ones` and 0 in the others.
    void reset(size_t places, size_t ones) {
        sums_.assign(places + 1, 0);
        for (size_t i = 1; i <= places; i++) {
            size_t before = i - (i & -i);
            sums_[i] = static_cast<uint32_t>(std::min(i, ones) - std::min(before, ones));
        }
    }

  private:
    std::vector<uint32_t> sums_;
};

// The tree has a place for each read of the trace.
class FenwickEngine {
  public:
    explicit FenwickEngine(size_t count) : tree_(count) { last_.reserve(MAX_EXTENTS); }

    uint32_t read(uint32_t extent) {
        auto [place, cold] = last_.try_emplace(extent, now_);
        uint32_t extents = static_cast<uint32_t>(last_.size());
        uint32_t answer = COLD_BASE + extents;
        if (!cold) {
            answer = extents - tree_.upto(place->second) + 1;
            tree_.add(place->second, -1u);
            place->second = now_;
        }
        tree_.add(now_, 1);
        now_ += 1;
        return answer;
    }

    std::vector<uint32_t> recent() const {
        std::vector<std::pair<uint32_t, uint32_t>> times;
        for (const auto &[extent, time] : last_) times.emplace_back(time, extent);
        std::sort(times.rbegin(), times.rend());
        std::vector<uint32_t> extents;
        for (const auto &[time, extent] : times) extents.push_back(extent);
        return extents;
    }

  private:
    FenwickTree tree_;
    std::unordered_map<uint32_t, uint32_t> last_;
    uint32_t now_ = 0;
};
