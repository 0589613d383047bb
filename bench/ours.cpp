#include "ours.hpp"
#include "rounds.hpp"

static size_t accepted(int64_t answer, const char *call) {
    demand(answer >= 0, std::string(call) + " answers " + std::to_string(answer));
    return static_cast<size_t>(answer);
}

static const uint8_t *bytes_of(const std::string &text) { return reinterpret_cast<const uint8_t *>(text.data()); }

size_t summarize(const Words &reads, Words &out) {
    return accepted(jemqolu_summarize(reads.data(), reads.size(), out.data(), out.size()), "jemqolu_summarize");
}

size_t join(const Words &a, const Words &b, Words &out) {
    return accepted(jemqolu_join(a.data(), a.size(), b.data(), b.size(), out.data(), out.size()), "jemqolu_join");
}

size_t distances(const Words &prefix, const Words &reads, Words &out) {
    return accepted(jemqolu_distances(prefix.data(), prefix.size(), reads.data(), reads.size(), out.data(), out.size()),
                    "jemqolu_distances");
}

size_t plan(const std::string &text, const Words &log, Words &work, Words &out) {
    return accepted(jemqolu_plan(bytes_of(text), text.size(), log.data(), log.size(), work.data(), work.size(),
                                 out.data(), out.size()),
                    "jemqolu_plan");
}

size_t list(const std::string &text, Words &out) {
    uint8_t *bytes = reinterpret_cast<uint8_t *>(out.data());
    return accepted(jemqolu_list(bytes_of(text), text.size(), bytes, 4 * out.size()), "jemqolu_list");
}

Words summary_of(const Words &reads) {
    Words out(JEMQOLU_SUMMARY_WORDS);
    out.resize(summarize(reads, out));
    return out;
}

Words full_summary(const Words &reads, size_t extents) {
    Words summary = summary_of(reads);
    demand(summary[1] == extents, "a trace has fewer than " + in_words(extents));
    return summary;
}

uint32_t half_way(const Words &summary) { return (summary[0] + summary[1]) / 2; }

uint32_t misses(const Words &summary, uint32_t size) {
    return static_cast<uint32_t>(accepted(jemqolu_misses(summary.data(), summary.size(), size), "jemqolu_misses"));
}

Sizing smallest(const Words &summary, uint32_t allowed) {
    uint32_t words_read = 0;
    int64_t answer = jemqolu_smallest(summary.data(), summary.size(), allowed, &words_read);
    return {static_cast<uint32_t>(accepted(answer, "jemqolu_smallest")), words_read};
}

Words summaries_of(size_t customers, size_t reads, size_t extents) {
    std::vector<Kind> kinds = all_kinds();
    Words all;
    for (size_t i = 0; i < customers; i++) {
        Words one = full_summary(trace_of(kinds[i % kinds.size()], reads, extents, i + 1), extents);
        all.insert(all.end(), one.begin(), one.end());
    }
    return all;
}

uint32_t split(uint32_t store, const Words &leasts, const Words &summaries, Words &shares) {
    int64_t answer = jemqolu_split(store, leasts.data(), leasts.size(), summaries.data(), summaries.size(),
                                   shares.data(), shares.size());
    return static_cast<uint32_t>(accepted(answer, "jemqolu_split"));
}

int64_t one_more(const Words &log, size_t place, uint32_t extent, uint32_t size) {
    int64_t change = 0;
    accepted(jemqolu_one_more(log.data(), log.size(), place, extent, size, &change), "jemqolu_one_more");
    return change;
}

Words new_session() {
    Words session(JEMQOLU_SESSION_WORDS);
    accepted(jemqolu_session_new(session.data(), session.size()), "jemqolu_session_new");
    return session;
}

Reading session_read(Words &session, uint32_t extent) {
    uint32_t sums_read = 0, slots_looked = 0;
    int64_t answer = jemqolu_session_read(session.data(), session.size(), extent, &sums_read, &slots_looked);
    return {static_cast<uint32_t>(accepted(answer, "jemqolu_session_read")), slots_looked};
}

Words session_summary(const Words &session) {
    Words out(JEMQOLU_SUMMARY_WORDS);
    int64_t answer = jemqolu_session_summary(session.data(), session.size(), out.data(), out.size());
    out.resize(accepted(answer, "jemqolu_session_summary"));
    return out;
}

void session_name(const Words &session, Words &names, uint32_t name) {
    accepted(jemqolu_session_name(session.data(), session.size(), names.data(), names.size(), name),
             "jemqolu_session_name");
}

void session_return(Words &session, const Words &names, uint32_t name) {
    accepted(jemqolu_session_return(session.data(), session.size(), names.data(), names.size(), name),
             "jemqolu_session_return");
}
