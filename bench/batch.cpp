// Whole traces in one call, beside the peers: summaries, distances, and how the cost grows.
#include "ours.hpp"
#include "peers/peer.hpp"
#include "tables.hpp"
#include "tasks.hpp"
#include <algorithm>

static const size_t READS = 1000000;

// A trace, and the calls of it that are timed together.
struct Batch {
    std::string name;
    Words reads;
    size_t calls;
};

// The library and the peers, each doing the same calls.
static std::vector<Contestant> contestants(const Batch &batch, bool whole_summary) {
    const Words &reads = batch.reads;
    size_t calls = batch.calls;
    std::vector<Contestant> all;
    all.push_back({"ours", [&reads, calls, whole_summary](Words &out) {
                       static const Words none = {0, 0};
                       for (size_t i = 0; i < calls; i++) {
                           whole_summary ? summarize(reads, out) : distances(none, reads, out);
                       }
                   }});
    for (const Peer *peer : all_peers()) {
        auto call = whole_summary ? peer->summarize : peer->distances;
        all.push_back({peer->name, [&reads, calls, call](Words &out) {
                           for (size_t i = 0; i < calls; i++) call(reads.data(), reads.size(), out.data());
                       }});
    }
    return all;
}

static Row head(const std::string &first) {
    Row cells = {first, "ours"};
    std::vector<const Peer *> peers = all_peers();
    for (size_t i = 0; i < peers.size(); i++) {
        if (i == COMMON_PEERS) cells.push_back("**ours / fastest of these**");
        cells.push_back(peers[i]->name);
    }
    cells.insert(cells.end(), {"ours / fastest of all", "spread: ours, peers"});
    return cells;
}

// One row: nanoseconds per read of each contestant, and the ratio.
static void row(const Batch &batch, bool whole_summary) {
    size_t out_words = whole_summary ? JEMQOLU_SUMMARY_WORDS : batch.reads.size();
    std::string what = std::string(whole_summary ? "summary, " : "distances, ") + batch.name;
    std::vector<Time> times = timed(what, out_words, contestants(batch, whole_summary));
    double reads = static_cast<double>(batch.reads.size() * batch.calls);
    Row cells = {batch.name, number(times[0].least / reads * 1e9)};
    double fastest = 1e9;
    for (size_t i = 1; i < times.size(); i++) {
        if (i == 1 + COMMON_PEERS) cells.push_back("**" + number(times[0].least / fastest) + "**");
        cells.push_back(number(times[i].least / reads * 1e9));
        fastest = std::min(fastest, times[i].least);
    }
    cells.push_back(number(times[0].least / fastest));
    cells.push_back(spread(times));
    print_row(cells);
}

static void kinds(size_t extents, bool whole_summary) {
    std::string what = whole_summary ? "The summary" : "The distances";
    begin_table(what + " of a trace of " + in_words(extents), "Nanoseconds per read; 1,000,000 reads.", head("trace"));
    for (Kind kind : all_kinds()) row({name_of(kind), trace_of(kind, READS, extents, 1), 1}, whole_summary);
}

static void growth() {
    begin_table("The summary by the number of extents", "Nanoseconds per read; 1,000,000 reads, uniform.",
                head("extents"));
    for (size_t extents = 1; extents <= JEMQOLU_MAX_EXTENTS; extents *= 4) {
        row({std::to_string(extents), trace_of(Kind::uniform, READS, extents, 1), 1}, true);
    }
}

static void short_traces(size_t extents) {
    begin_table("The summary by the number of reads, " + in_words(extents),
                "Nanoseconds per read; uniform; short traces are called again to a million reads.", head("reads"));
    for (size_t reads = 1000; reads <= READS; reads *= 10) {
        row({std::to_string(reads), trace_of(Kind::uniform, reads, extents, 1), READS / reads}, true);
    }
}

void batch_tables() {
    for (size_t extents : timed_extents()) kinds(extents, true);
    for (size_t extents : timed_extents()) kinds(extents, false);
    growth();
    for (size_t extents : timed_extents()) short_traces(extents);
}
