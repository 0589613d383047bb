// A session named, and returned to, beside a copy of its words that is tested by nobody.
#include "ours.hpp"
#include "tables.hpp"
#include "tasks.hpp"
#include <algorithm>

static const size_t CALLS = 20000;

// The name of a call: each in turn.
static uint32_t name_of_call(size_t i) { return static_cast<uint32_t>(i % JEMQOLU_MAX_NAMES + 1); }

// Where the place of a name starts.
static ptrdiff_t place_of(uint32_t name) { return static_cast<ptrdiff_t>(name - 1) * JEMQOLU_NAME_WORDS; }

static void print(const std::string &name, const std::vector<Time> &times) {
    double unit = 1e6 / static_cast<double>(CALLS);
    print_row({name, number(times[0].least * unit), number(times[1].least * unit),
               number(times[0].least / times[1].least), spread(times)});
}

static void naming_row(const std::string &name, const Words &session) {
    Contestant ours = {"ours", [&](Words &names) {
                           for (size_t i = 0; i < CALLS; i++) session_name(session, names, name_of_call(i));
                       }};
    Contestant copy = {"copy", [&](Words &names) {
                           for (size_t i = 0; i < CALLS; i++) {
                               auto place = names.begin() + place_of(name_of_call(i));
                               *place = 1;
                               std::copy(session.begin(), session.end(), place + 1);
                           }
                       }};
    print("a naming, " + name, timed("naming, " + name, JEMQOLU_NAMES_WORDS, {ours, copy}));
}

static void return_row(const std::string &name, const Words &session) {
    Words names(JEMQOLU_NAMES_WORDS);
    for (size_t i = 0; i < JEMQOLU_MAX_NAMES; i++) session_name(session, names, name_of_call(i));
    Contestant ours = {"ours", [&](Words &out) {
                           for (size_t i = 0; i < CALLS; i++) session_return(out, names, name_of_call(i));
                       }};
    Contestant copy = {"copy", [&](Words &out) {
                           for (size_t i = 0; i < CALLS; i++) {
                               auto place = names.begin() + place_of(name_of_call(i));
                               std::copy(place + 1, place + JEMQOLU_NAME_WORDS, out.begin());
                           }
                       }};
    print("a return, " + name, timed("return, " + name, JEMQOLU_SESSION_WORDS, {ours, copy}));
}

void moment_table() {
    begin_table("A naming and a return",
                "Microseconds per call, the test of soundness included, beside a plain copy of the session's words, "
                "which tests nothing; 20,000 calls.",
                {"call", "ours, µs", "copy, µs", "ours / copy", "spread: ours, copy"});
    for (size_t extents : {1, 256, JEMQOLU_MAX_EXTENTS}) {
        Words session = new_session();
        for (uint32_t extent : extents_of(extents, 1)) session_read(session, extent);
        naming_row(in_words(extents), session);
        return_row(in_words(extents), session);
    }
}
