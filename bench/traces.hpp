// The traces that are timed: made by a fixed rule, so that each run has the same ones.
#pragma once
#include <cstddef>
#include <cstdint>
#include <string>
#include <vector>

using Words = std::vector<uint32_t>;

enum class Kind {
    skewed,  // Zipf with exponent 1: the extent of rank k is read in proportion to 1 / k
    uniform, // each extent as often as any other, in no order
    scan,    // the extents in turn, again and again
};

const char *name_of(Kind kind);
std::vector<Kind> all_kinds();

// The numbers of extents that the tables are made for, the last of them the most that a trace may have.
std::vector<size_t> timed_extents();

// A number of extents in words, and what a trace of them is called.
std::string in_words(size_t extents);
std::string name_of(Kind kind, size_t extents);

// A trace of so many reads of the extents 0, 4096, .. 4096 (extents - 1), shuffled. Another seed gives another order of
// the same extents, and other draws.
Words trace_of(Kind kind, size_t reads, size_t extents, uint64_t seed);

// A first read of each extent that the trace of this seed has.
Words extents_of(size_t extents, uint64_t seed);

// The log text of a trace.
std::string text_of(const Words &trace);
