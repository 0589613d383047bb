// Joins of two full summaries, and a plan of 16 parts, each beside the summary of the whole trace in one call.
#include "ours.hpp"
#include "tables.hpp"
#include "tasks.hpp"

static const size_t HALF = 500000;
static const size_t JOINS = 1000;
static const size_t PARTS = 16;

static void join_row(Kind kind, size_t extents) {
    Words first = trace_of(kind, HALF, extents, 1);
    Words second = trace_of(kind, HALF, extents, 2);
    Words a = full_summary(first, extents), b = full_summary(second, extents);
    Words whole = first;
    whole.insert(whole.end(), second.begin(), second.end());
    Contestant joining = {"join", [&](Words &out) {
                              for (size_t i = 0; i < JOINS; i++) join(a, b, out);
                          }};
    Contestant batch = {"batch", [&](Words &out) { summarize(whole, out); }};
    std::string name = name_of(kind, extents);
    std::vector<Time> times = timed("join, " + name, JEMQOLU_SUMMARY_WORDS, {joining, batch});
    double one = times[0].least / static_cast<double>(JOINS) * 1e6;
    double thousand = times[1].least / static_cast<double>(2 * HALF) * 1e9;
    print_row({name, number(one), number(thousand), number(one / thousand), spread(times)});
}

static std::string plan_text(size_t reads) {
    std::string text = "(join";
    for (size_t i = 0; i < PARTS; i++) text += "\n (seg " + std::to_string(reads / PARTS) + ")";
    return text + ")\n";
}

static void plan_row(Kind kind, size_t extents) {
    Words log = trace_of(kind, 2 * HALF, extents, 1);
    std::string text = plan_text(log.size());
    Words work(JEMQOLU_WORK_WORDS);
    Contestant planned = {"plan", [&](Words &out) { plan(text, log, work, out); }};
    Contestant batch = {"batch", [&](Words &out) { summarize(log, out); }};
    std::string name = name_of(kind, extents);
    std::vector<Time> times = timed("plan, " + name, JEMQOLU_SUMMARY_WORDS, {planned, batch});
    double unit = 1e9 / static_cast<double>(log.size());
    print_row({name, number(times[0].least * unit), number(times[1].least * unit),
               number(times[0].least / times[1].least), spread(times)});
}

void join_tables() {
    begin_table("The join of two full summaries",
                "Microseconds; both have the same extents in other orders, and 500,000 reads each; beside 1,000 reads "
                "of the whole trace's summary.",
                {"traces", "join, µs", "1,000 batch reads, µs", "join / 1,000 reads", "spread: join, batch"});
    for (size_t extents : timed_extents()) {
        for (Kind kind : all_kinds()) join_row(kind, extents);
    }
    begin_table("A plan of 16 parts",
                "Nanoseconds per read; 1,000,000 reads, a join of 16 segs; beside the trace's summary.",
                {"trace", "plan, ns", "summary, ns", "plan / summary", "spread: plan, summary"});
    for (size_t extents : timed_extents()) {
        for (Kind kind : all_kinds()) plan_row(kind, extents);
    }
}
