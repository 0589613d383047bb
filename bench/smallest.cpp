// The smallest cache for a miss allowance by jemqolu_smallest, beside the full list of misses in C++, and beside the
// misses of that cache by jemqolu_misses, which makes the same test of the summary.
#include "ours.hpp"
#include "peers/miss_list.hpp"
#include "tables.hpp"
#include "tasks.hpp"

static const size_t READS = 1000000;
static const size_t CALLS = 5000;

// A row. Compared are the size and the words of H read, for which the peer leaves the size again.
static void row(const std::string &name, const Words &summary, uint32_t allowed) {
    uint32_t size = smallest(summary, allowed).size;
    Contestant ours = {"ours", [&](Words &out) {
                           for (size_t i = 0; i < CALLS; i++) {
                               Sizing found = smallest(summary, allowed);
                               out[0] = found.size, out[1] = found.words_read;
                           }
                       }};
    Contestant list = {"list in C++", [&](Words &out) {
                           for (size_t i = 0; i < CALLS; i++) {
                               int64_t found = smallest_by_list(summary.data(), summary.size(), allowed);
                               out[0] = out[1] = static_cast<uint32_t>(found);
                           }
                       }};
    Contestant one_size = {"misses", [&](Words &out) {
                               for (size_t i = 0; i < CALLS; i++) out[0] = misses(summary, size);
                           }};
    one_size.compared = false;
    std::vector<Time> times =
        timed("smallest, " + name + ", " + std::to_string(allowed) + " misses allowed", 2, {ours, list, one_size});
    double unit = 1e6 / static_cast<double>(CALLS);
    print_row({name, std::to_string(allowed), std::to_string(size), number(times[0].least * unit),
               number(times[1].least * unit), "**" + number(times[0].least / times[1].least) + "**",
               number(times[2].least * unit), number(times[0].least / times[2].least), spread(times)});
}

void smallest_table() {
    begin_table("The smallest cache for a miss allowance",
                "Microseconds per call, the test of the summary included, which all three make; 5,000 calls, 1,000,000 "
                "reads. Allowed are all reads, half way from them to the cold reads, and the cold reads alone. Beside "
                "the full list of misses with a search in it, and beside the misses of the size found.",
                {"summary", "misses allowed", "size", "ours, µs", "list in C++, µs", "**ours / list in C++**",
                 "misses, µs", "ours / misses", "spread: ours, others"});
    for (size_t extents : timed_extents()) {
        for (Kind kind : all_kinds()) {
            Words summary = full_summary(trace_of(kind, READS, extents, 1), extents);
            for (uint32_t allowed : {summary[0], half_way(summary), summary[1]}) {
                row(name_of(kind, extents), summary, allowed);
            }
        }
    }
}
