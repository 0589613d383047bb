// One read at a time through jemqolu_session_read, which tests each time whether the session is sound.
#include "ours.hpp"
#include "tables.hpp"
#include "tasks.hpp"
#include <map>

static const size_t READS = 50000;
static const size_t READS_AGAIN = 5000;
static const uint32_t SLOTS = 2 * JEMQOLU_MAX_EXTENTS;

// The reads before those that are timed, from a new session, and the timed ones.
struct Case {
    std::string name;
    Words before;
    Words reads;
};

// Each of so many extents once, then reads of them in no order.
static Case known_extents(size_t extents) {
    return {name_of(Kind::uniform, extents) + ", all known", extents_of(extents, 1),
            trace_of(Kind::uniform, READS, extents, 1)};
}

static Case from_new(Kind kind, size_t extents) {
    return {name_of(kind, extents) + ", from a new session", {}, trace_of(kind, READS, extents, 1)};
}

// The slot of each extent's last read.
using Marks = std::map<uint32_t, uint32_t>;

// Moves the marks, in order, to the slots from 0 on, and answers how many there are.
static uint32_t gather(Marks &marks) {
    std::map<uint32_t, uint32_t *> in_order;
    for (auto &[extent, slot] : marks) in_order[slot] = &slot;
    uint32_t count = 0;
    for (auto &[slot, place] : in_order) *place = count++;
    return count;
}

// The slots looked at by each read of a log, by the log alone.
static Words slots_looked_of(const Words &log) {
    Marks marks;
    uint32_t next = 0;
    Words looked;
    for (uint32_t extent : log) {
        if (next == SLOTS) next = gather(marks);
        auto mark = marks.find(extent);
        looked.push_back(mark == marks.end() ? next : next - mark->second);
        marks[extent] = next++;
    }
    return looked;
}

static Words session_of(const Words &log) {
    Words session = new_session();
    for (uint32_t extent : log) session_read(session, extent);
    return session;
}

// Every read, those before too, looks at as many slots as the log alone says.
static void compare_slots_looked(const Case &one) {
    Words log = one.before;
    log.insert(log.end(), one.reads.begin(), one.reads.end());
    Words session = new_session(), looked;
    for (uint32_t extent : log) looked.push_back(session_read(session, extent).slots_looked);
    demand(looked == slots_looked_of(log), one.name + ": a read looks at another number of slots");
}

static void row(const Case &one) {
    Words before = session_of(one.before), prefix = session_summary(before), session;
    Contestant reading = {"session", [&](Words &out) {
                              for (size_t i = 0; i < READS; i++) out[i] = session_read(session, one.reads[i]).word;
                          }};
    reading.prepare = [&] { session = before; };
    Contestant batch = {"batch", [&](Words &out) { distances(prefix, one.reads, out); }};
    std::vector<Time> times = timed("session, " + one.name, READS, {reading, batch});
    Words joined(JEMQOLU_SUMMARY_WORDS);
    joined.resize(join(prefix, summary_of(one.reads), joined));
    demand(session_summary(session) == joined, one.name + ": the session's summary is another");
    compare_slots_looked(one);
    double unit = 1e6 / static_cast<double>(READS);
    print_row({one.name, number(times[0].least * unit), number(times[1].least * unit),
               number(times[0].least / times[1].least), spread(times)});
}

// A log that takes all slots but the last: 255 extents other than 0 and 1, and a read of this extent in that slot, or none
// where there is no such slot below the last.
static Words log_around(uint32_t extent, size_t slot) {
    const size_t others = 255, taken = SLOTS - 1;
    Words log = extents_of(others, 1), more = trace_of(Kind::uniform, taken - others, others, 1);
    log.insert(log.end(), more.begin(), more.end());
    for (uint32_t &other : log) other += 4096;
    if (slot < taken) {
        log.insert(log.begin() + static_cast<ptrdiff_t>(slot), extent);
        log.pop_back();
    }
    return log;
}

// The same read again and again, each from the session of the log, whose words are copied back first.
static Contestant read_again(const std::string &name, const Words &log, uint32_t extent) {
    return {name, [extent, before = session_of(log)](Words &out) {
                Words session = before;
                for (uint32_t &word : out) {
                    session = before;
                    word = session_read(session, extent).word;
                }
            }};
}

static void extent_0_row(const std::string &name, size_t slot) {
    std::vector<Contestant> both;
    for (uint32_t extent : {0, 1}) {
        Words log = log_around(extent, slot);
        compare_slots_looked({name, log, {extent}});
        both.push_back(read_again("extent " + std::to_string(extent), log, extent));
    }
    std::vector<Time> times = timed("extent 0, " + name, READS_AGAIN, both);
    double unit = 1e6 / static_cast<double>(READS_AGAIN);
    print_row({name, number(times[0].least * unit), number(times[1].least * unit),
               number(times[0].least / times[1].least), spread(times)});
}

static void extent_0_table() {
    begin_table("One read of extent 0",
                "Microseconds per read, beside a read of extent 1 with its mark in the same slot: 0 is also the word of a "
                "slot without a mark. The session has 255 other extents, and all slots but the last are taken. Its words "
                "are copied back before each read, which is timed; 5,000 reads.",
                {"read", "extent 0, µs", "extent 1, µs", "extent 0 / extent 1", "spread: extent 0, extent 1"});
    extent_0_row("mark in the slot below the next", SLOTS - 2);
    extent_0_row("mark in slot 0", 0);
    extent_0_row("cold", SLOTS);
}

void session_table() {
    begin_table("One read of a session",
                "Microseconds per read, the test of soundness included, beside jemqolu_distances on the same reads; "
                "50,000 reads.",
                {"reads", "session, µs", "batch, µs", "session / batch", "spread: session, batch"});
    for (size_t extents : {1, 16, 256, JEMQOLU_MAX_EXTENTS}) row(known_extents(extents));
    for (size_t extents : timed_extents()) {
        for (Kind kind : all_kinds()) row(from_new(kind, extents));
    }
    extent_0_table();
}
