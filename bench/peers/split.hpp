// The peer of jemqolu_split. It refuses nothing: the caller keeps within the limits, hands over well-formed summaries
// end to end, and least shares that fit into the store.
#pragma once
#include <cstddef>
#include <cstdint>

// Writes a share for each customer and answers the misses in all.
uint32_t split_by_table(uint32_t store, const uint32_t *leasts, size_t customers, const uint32_t *summaries,
                        uint32_t *shares);
