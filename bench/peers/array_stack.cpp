// The peer with the LRU stack as an array: std::find from the top, and what was passed moves one place down.
#include "peer.hpp"
#include "words.hpp"

namespace {

class ArrayStackEngine {
  public:
    explicit ArrayStackEngine(size_t) {}

    uint32_t read(uint32_t extent) {
        auto place = std::find(stack_.begin(), stack_.end(), extent);
        if (place == stack_.end()) {
            stack_.insert(stack_.begin(), extent);
            return COLD_BASE + static_cast<uint32_t>(stack_.size());
        }
        std::move_backward(stack_.begin(), place, place + 1);
        stack_.front() = extent;
        return static_cast<uint32_t>(place - stack_.begin()) + 1;
    }

    std::vector<uint32_t> recent() const { return stack_; }

  private:
    std::vector<uint32_t> stack_;
};

} // namespace

const Peer array_stack_peer = {"stack as an array", summary_words<ArrayStackEngine>,
                               distance_words<ArrayStackEngine>};
