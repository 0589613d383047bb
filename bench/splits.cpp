// A store split among customers by jemqolu_split, beside a table of the same kind in C++.
#include "ours.hpp"
#include "peers/split.hpp"
#include "tables.hpp"
#include "tasks.hpp"

static const size_t READS = 1000000;

// Customers of so many extents each, a store to split, and the calls of it that are timed together.
struct Problem {
    size_t customers;
    size_t extents;
    uint32_t store;
    size_t calls;
};

static void row(const Problem &problem) {
    Words leasts(problem.customers, 0);
    Words summaries = summaries_of(problem.customers, READS, problem.extents);
    size_t customers = problem.customers, calls = problem.calls;
    // the shares, then the misses in all
    Contestant ours = {"ours", [&](Words &out) {
                           for (size_t i = 0; i < calls; i++) {
                               out[customers] = split(problem.store, leasts, summaries, out);
                           }
                       }};
    Contestant peer = {"table in C++", [&](Words &out) {
                           for (size_t i = 0; i < calls; i++) {
                               out[customers] = split_by_table(problem.store, leasts.data(), customers,
                                                               summaries.data(), out.data());
                           }
                       }};
    std::string name = std::to_string(customers) + " customers of " + in_words(problem.extents) + ", store " +
                       std::to_string(problem.store);
    std::vector<Time> times = timed("split, " + name, customers + 1, {ours, peer});
    double unit = 1e3 / static_cast<double>(calls);
    print_row({name, number(times[0].least * unit), number(times[1].least * unit),
               number(times[0].least / times[1].least), spread(times)});
}

void split_table() {
    begin_table("The split of a store",
                "Milliseconds; each customer has a summary of 1,000,000 reads (skewed, uniform and scan in turn, each "
                "of its own seed) and the least share 0.",
                {"problem", "ours, ms", "table in C++, ms", "ours / table in C++", "spread: ours, table"});
    row({8, 256, 1024, 20});
    row({2, 256, 256, 200});
    row({8, 1024, 1024, 10});
    row({2, 1024, 1024, 20});
}
