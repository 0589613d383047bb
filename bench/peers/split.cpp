// The peer with a table: a row for each customer from the last back, in it for each room the fewest misses of this
// customer and those after it.
#include "split.hpp"
#include <algorithm>
#include <vector>

namespace {

using Row = std::vector<uint32_t>;

// Above any misses in all, and far enough below the largest word: the room is too small for the least shares.
constexpr uint32_t NO_ROOM = 1u << 30;

struct Customer {
    size_t least; // the smallest share
    Row misses;   // at each share from 0 to the number of extents, or to the least share where that is larger
};

Customer customer_of(const uint32_t *summary, uint32_t least) {
    uint32_t extents = summary[1];
    const uint32_t *counts = summary + 2 + 2 * extents;
    Row misses(std::max(extents, least) + 1, extents);
    for (size_t share = extents; share > 0; share--) misses[share - 1] = misses[share] + counts[share - 1];
    return {least, misses};
}

std::vector<Customer> customers_of(const uint32_t *leasts, size_t count, const uint32_t *summaries) {
    std::vector<Customer> all;
    for (size_t i = 0; i < count; i++) {
        all.push_back(customer_of(summaries, leasts[i]));
        summaries += 2 + 3 * summaries[1];
    }
    return all;
}

// The fewest misses of this customer and those after it in one room; `after` is the row of those.
uint32_t fewest(const Customer &customer, const Row &after, size_t room) {
    uint32_t best = NO_ROOM;
    size_t end = std::min(customer.misses.size(), room + 1);
    for (size_t share = customer.least; share < end; share++) {
        best = std::min(best, customer.misses[share] + after[room - share]);
    }
    return best;
}

// A row for each customer, and one of 0 after the last.
std::vector<Row> table_of(const std::vector<Customer> &customers, size_t store) {
    std::vector<Row> rows(customers.size() + 1, Row(store + 1, 0));
    for (size_t i = customers.size(); i-- > 0;) {
        for (size_t room = 0; room <= store; room++) rows[i][room] = fewest(customers[i], rows[i + 1], room);
    }
    return rows;
}

// The smallest share of this customer with which the misses stay the fewest.
size_t share_of(const Customer &customer, const Row &own, const Row &after, size_t room) {
    size_t share = customer.least;
    while (customer.misses[share] + after[room - share] != own[room]) share++;
    return share;
}

} // namespace

uint32_t split_by_table(uint32_t store, const uint32_t *leasts, size_t count, const uint32_t *summaries,
                        uint32_t *shares) {
    std::vector<Customer> customers = customers_of(leasts, count, summaries);
    std::vector<Row> rows = table_of(customers, store);
    uint32_t misses = rows[0][store];
    size_t room = static_cast<size_t>(std::find(rows[0].begin(), rows[0].end(), misses) - rows[0].begin());
    for (size_t i = 0; i < count; i++) {
        size_t share = share_of(customers[i], rows[i], rows[i + 1], room);
        shares[i] = static_cast<uint32_t>(share);
        room -= share;
    }
    return misses;
}
