// The peer with a hash map of last reads and a Fenwick tree as long as the trace.
#include "fenwick.hpp"
#include "peer.hpp"
#include "words.hpp"

const Peer fenwick_peer = {"Fenwick tree", summary_words<FenwickEngine>, distance_words<FenwickEngine>};
