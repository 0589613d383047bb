// The peer with Olken's order-statistics tree: a hash map of last reads, and a red-black tree of the last read times
// with the sizes of its subtrees.
#include "peer.hpp"
#include "words.hpp"
#include <ext/pb_ds/assoc_container.hpp>
#include <ext/pb_ds/tree_policy.hpp>
#include <functional>
#include <unordered_map>

namespace {

// The extents by the time of their last read, the latest first.
using Times = __gnu_pbds::tree<uint32_t, uint32_t, std::greater<uint32_t>, __gnu_pbds::rb_tree_tag,
                               __gnu_pbds::tree_order_statistics_node_update>;

class TreeEngine {
  public:
    explicit TreeEngine(size_t) { last_.reserve(MAX_EXTENTS); }

    uint32_t read(uint32_t extent) {
        auto [place, cold] = last_.try_emplace(extent, now_);
        uint32_t answer = COLD_BASE + static_cast<uint32_t>(last_.size());
        if (!cold) {
            answer = static_cast<uint32_t>(times_.order_of_key(place->second)) + 1;
            times_.erase(place->second);
            place->second = now_;
        }
        times_.insert({now_, extent});
        now_ += 1;
        return answer;
    }

    std::vector<uint32_t> recent() const {
        std::vector<uint32_t> extents;
        for (const auto &entry : times_) extents.push_back(entry.second);
        return extents;
    }

  private:
    Times times_;
    std::unordered_map<uint32_t, uint32_t> last_;
    uint32_t now_ = 0;
};

} // namespace

const Peer tree_peer = {"order-statistics tree", summary_words<TreeEngine>, distance_words<TreeEngine>};
