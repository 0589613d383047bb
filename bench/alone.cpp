// One kind of work alone, for a profiler.
#include "ours.hpp"
#include "rounds.hpp"
#include "tasks.hpp"
#include <cstdio>

// The reads of each of the summaries that are joined, split or searched.
static const size_t SUMMED = 100000;

static void summary_of_kind(Kind kind, size_t extents, size_t reads) {
    Words out(JEMQOLU_SUMMARY_WORDS);
    summarize(trace_of(kind, reads, extents, 1), out);
}

static void distances_of_kind(Kind kind, size_t extents, size_t reads) {
    Words out(reads);
    distances({0, 0}, trace_of(kind, reads, extents, 1), out);
}

static void session_reads(size_t extents, size_t reads) {
    Words session = new_session();
    for (uint32_t extent : extents_of(extents, 1)) session_read(session, extent);
    for (uint32_t extent : trace_of(Kind::uniform, reads, extents, 1)) session_read(session, extent);
}

// Cold reads of extent 0 from one session: so many extents with it, and all slots but the last are taken.
static void cold_reads_of_0(size_t extents, size_t reads) {
    Words before = new_session(), session;
    for (size_t i = 0; i < 2 * JEMQOLU_MAX_EXTENTS - 1; i++) {
        session_read(before, static_cast<uint32_t>(4096 * (1 + i % (extents - 1))));
    }
    for (size_t i = 0; i < reads; i++) {
        session = before;
        session_read(session, 0);
    }
}

static void joins(size_t extents, size_t count) {
    Words a = full_summary(trace_of(Kind::uniform, SUMMED, extents, 1), extents);
    Words b = full_summary(trace_of(Kind::uniform, SUMMED, extents, 2), extents);
    Words out(JEMQOLU_SUMMARY_WORDS);
    for (size_t i = 0; i < count; i++) join(a, b, out);
}

static void splits(size_t extents, size_t count) {
    Words leasts(8, 0), shares(8);
    Words summaries = summaries_of(8, SUMMED, extents);
    for (size_t i = 0; i < count; i++) split(1024, leasts, summaries, shares);
}

static void searches(size_t extents, size_t count) {
    Words summary = full_summary(trace_of(Kind::uniform, SUMMED, extents, 1), extents);
    for (size_t i = 0; i < count; i++) smallest(summary, half_way(summary));
}

// A stray extent put in at the front, in a cache of a quarter of the extents.
static void one_more_of_kind(Kind kind, size_t extents, size_t reads) {
    uint32_t stray = static_cast<uint32_t>(4096 * (extents - 1));
    one_more(trace_of(kind, reads, extents - 1, 1), 0, stray, static_cast<uint32_t>(extents / 4));
}

void lone_work(const std::string &kind, size_t extents, size_t units) {
    if (kind == "summary-skewed") return summary_of_kind(Kind::skewed, extents, units);
    if (kind == "summary-uniform") return summary_of_kind(Kind::uniform, extents, units);
    if (kind == "distances-skewed") return distances_of_kind(Kind::skewed, extents, units);
    if (kind == "distances-uniform") return distances_of_kind(Kind::uniform, extents, units);
    if (kind == "one-more-skewed") return one_more_of_kind(Kind::skewed, extents, units);
    if (kind == "one-more-uniform") return one_more_of_kind(Kind::uniform, extents, units);
    if (kind == "session") return session_reads(extents, units);
    if (kind == "session-extent-0") return cold_reads_of_0(extents, units);
    if (kind == "join") return joins(extents, units);
    if (kind == "split-8") return splits(extents, units);
    if (kind == "smallest") return searches(extents, units);
    demand(false, "no such work: " + kind);
}
