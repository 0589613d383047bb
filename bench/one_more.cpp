// One more read put into a log by jemqolu_one_more, beside two caches in C++, and beside the log's summary.
#include "ours.hpp"
#include "peers/caches.hpp"
#include "tables.hpp"
#include "tasks.hpp"

static const size_t READS = 250000;
static const size_t FEW_READS = 1000;

// A log of so many extents, its name, and the calls that are timed together.
struct Log {
    std::string name;
    Words reads;
    uint32_t extents;
    size_t calls;
};

// A place in a log, and its name.
struct Place {
    std::string name;
    size_t at;
};

static Log log_of(Kind kind, size_t extents, size_t reads) {
    std::string name = name_of(kind, extents) + (reads == READS ? "" : ", " + std::to_string(reads) + " reads");
    return {name, trace_of(kind, reads, extents, 1), static_cast<uint32_t>(extents), READS / reads};
}

// A row: a stray read, of an extent that the log has not, put in at the place.
static void row(const Log &log, const Place &place, uint32_t size) {
    uint32_t stray = 4096 * log.extents;
    // what is compared is the change plus 1, which is never below 0
    Contestant ours = {"ours", [&](Words &out) {
                           for (size_t i = 0; i < log.calls; i++) {
                               out[0] = static_cast<uint32_t>(one_more(log.reads, place.at, stray, size) + 1);
                           }
                       }};
    Contestant caches = {"two caches", [&](Words &out) {
                             for (size_t i = 0; i < log.calls; i++) {
                                 int64_t change =
                                     one_more_by_caches(log.reads.data(), log.reads.size(), place.at, stray, size);
                                 out[0] = static_cast<uint32_t>(change + 1);
                             }
                         }};
    Contestant summary = {"summary", [&](Words &out) {
                              for (size_t i = 0; i < log.calls; i++) summarize(log.reads, out);
                          }};
    summary.compared = false;
    std::string what = "one more read, " + log.name + ", " + place.name + ", size " + std::to_string(size);
    std::vector<Time> times = timed(what, JEMQOLU_SUMMARY_WORDS, {ours, caches, summary});
    double unit = 1e9 / static_cast<double>(log.reads.size() * log.calls);
    print_row({log.name, place.name, std::to_string(size), number(times[0].least * unit), number(times[1].least * unit),
               number(times[0].least / times[1].least), number(times[2].least * unit),
               "**" + number(times[0].least / times[2].least) + "**", spread(times)});
}

static void rows(const Log &log) {
    uint32_t quarter = (log.extents + 1) / 4;
    row(log, {"front", 0}, quarter);
    row(log, {"middle", log.reads.size() / 2}, quarter);
    row(log, {"end", log.reads.size()}, quarter);
    row(log, {"front", 0}, log.extents + 1);
}

void one_more_table() {
    begin_table("One more read",
                "Nanoseconds per read of the log; 250,000 reads, logs of 1,000 called again to as many. What is put in "
                "is an extent that the log has not. Beside a cache of the size simulated with the read and without it, "
                "and beside the log's summary.",
                {"log", "put in at the", "size", "ours, ns", "two caches, ns", "ours / two caches", "summary, ns",
                 "**ours / summary**", "spread: ours, others"});
    for (size_t extents : timed_extents()) {
        for (Kind kind : all_kinds()) rows(log_of(kind, extents - 1, READS));
        Log few = log_of(Kind::uniform, extents - 1, FEW_READS);
        row(few, {"middle", FEW_READS / 2}, (few.extents + 1) / 4);
    }
}
