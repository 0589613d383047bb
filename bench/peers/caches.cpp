// The peer with two caches, each a linked list of the extents held, the last read first, and a hash map of where they
// stand in it. What leaves hands its memory to what comes in.
#include "caches.hpp"
#include "words.hpp"
#include <iterator>
#include <list>
#include <unordered_map>
#include <utility>

namespace {

class Cache {
  public:
    explicit Cache(uint32_t size) : size_(size) { places_.reserve(MAX_EXTENTS); }

    void read(uint32_t extent) {
        auto found = places_.find(extent);
        if (found != places_.end()) {
            held_.splice(held_.begin(), held_, found->second);
            return;
        }
        misses_ += 1;
        if (held_.size() < size_) {
            held_.push_front(extent);
            places_.emplace(extent, held_.begin());
        } else if (size_ > 0) {
            replace_oldest(extent);
        }
    }

    void read_all(const uint32_t *reads, size_t count) {
        for (size_t i = 0; i < count; i++) read(reads[i]);
    }

    int64_t misses() const { return misses_; }

  private:
    void replace_oldest(uint32_t extent) {
        auto place = places_.extract(held_.back());
        held_.splice(held_.begin(), held_, std::prev(held_.end()));
        held_.front() = extent;
        place.key() = extent;
        places_.insert(std::move(place));
    }

    size_t size_;
    std::list<uint32_t> held_;
    std::unordered_map<uint32_t, std::list<uint32_t>::iterator> places_;
    int64_t misses_ = 0;
};

} // namespace

int64_t one_more_by_caches(const uint32_t *log, size_t count, size_t place, uint32_t extent, uint32_t size) {
    Cache with(size), without(size);
    without.read_all(log, count);
    with.read_all(log, place);
    with.read(extent);
    with.read_all(log + place, count - place);
    return with.misses() - without.misses();
}
