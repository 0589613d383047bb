// The peer with a hash map and a short Fenwick tree: where it is full, the marks move, in order, to its front, and free
// slots follow: four times as many as marks, but at least 1,024, which is quickest at 256 and at 1,024 extents.
#include "fenwick.hpp"
#include "peer.hpp"
#include "words.hpp"

namespace {

constexpr uint32_t LEAST_FRESH = 1024;

class CompactedEngine {
  public:
    explicit CompactedEngine(size_t) : tree_(LEAST_FRESH), held_(LEAST_FRESH) { number_.reserve(MAX_EXTENTS); }

    uint32_t read(uint32_t extent) {
        if (next_ == held_.size()) compact();
        auto [place, cold] = number_.try_emplace(extent, static_cast<uint32_t>(slot_.size()));
        uint32_t number = place->second;
        uint32_t answer = 0;
        if (cold) {
            slot_.push_back(next_);
            extent_.push_back(extent);
            answer = COLD_BASE + static_cast<uint32_t>(slot_.size());
        } else {
            answer = static_cast<uint32_t>(slot_.size()) - tree_.upto(slot_[number]) + 1;
            tree_.add(slot_[number], -1u);
            slot_[number] = next_;
        }
        tree_.add(next_, 1);
        held_[next_] = number;
        next_ += 1;
        return answer;
    }

    std::vector<uint32_t> recent() const {
        std::vector<uint32_t> extents;
        for (uint32_t s = next_; s-- > 0;) {
            if (slot_[held_[s]] == s) extents.push_back(extent_[held_[s]]);
        }
        return extents;
    }

  private:
    // The marks in order at the front, and the free slots after them.
    void compact() {
        uint32_t live = 0;
        for (uint32_t s = 0; s < next_; s++) {
            uint32_t number = held_[s];
            if (slot_[number] != s) continue;
            slot_[number] = live;
            held_[live] = number;
            live += 1;
        }
        next_ = live;
        held_.resize(live + std::max(LEAST_FRESH, 4 * live));
        tree_.reset(held_.size(), live);
    }

    FenwickTree tree_;
    std::unordered_map<uint32_t, uint32_t> number_; // an extent's number, counted from 0 by first read
    std::vector<uint32_t> extent_;                  // the extent of a number
    std::vector<uint32_t> slot_;                    // the slot of a number's last read
    std::vector<uint32_t> held_;                    // the number that was put into a slot
    uint32_t next_ = 0;
};

} // namespace

const Peer compacted_peer = {"Fenwick tree, compacted", summary_words<CompactedEngine>,
                             distance_words<CompactedEngine>};
