// The peer with the published LRU stack as a linked list: an extent is looked for from the top, and comes to the top.
#include "peer.hpp"
#include "words.hpp"
#include <list>

namespace {

class LinkedStackEngine {
  public:
    explicit LinkedStackEngine(size_t) {}

    uint32_t read(uint32_t extent) {
        uint32_t depth = 1;
        for (auto node = stack_.begin(); node != stack_.end(); ++node, ++depth) {
            if (*node != extent) continue;
            stack_.splice(stack_.begin(), stack_, node);
            return depth;
        }
        stack_.push_front(extent);
        return COLD_BASE + static_cast<uint32_t>(stack_.size());
    }

    std::vector<uint32_t> recent() const { return {stack_.begin(), stack_.end()}; }

  private:
    std::list<uint32_t> stack_;
};

} // namespace

const Peer linked_stack_peer = {"stack as a linked list", summary_words<LinkedStackEngine>,
                                distance_words<LinkedStackEngine>};
