// A peer: the words of jemqolu_summarize and jemqolu_distances by another way. It refuses nothing: the caller keeps
// within the limits and lends enough.
#pragma once
#include <cstddef>
#include <cstdint>
#include <vector>

struct Peer {
    const char *name;
    size_t (*summarize)(const uint32_t *reads, size_t count, uint32_t *out);
    size_t (*distances)(const uint32_t *reads, size_t count, uint32_t *out);
};

extern const Peer fenwick_peer;
extern const Peer compacted_peer;
extern const Peer linked_stack_peer;
extern const Peer array_stack_peer;
extern const Peer tree_peer;

// What a user finds in the books first, COMMON_PEERS of them; then two that are made for few extents.
const size_t COMMON_PEERS = 3;

inline std::vector<const Peer *> all_peers() {
    return {&fenwick_peer, &linked_stack_peer, &tree_peer, &compacted_peer, &array_stack_peer};
}
