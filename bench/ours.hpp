// The library's calls on whole vectors. A refusal ends the program: none is expected here.
#pragma once
#include "jemqolu.h"
#include "traces.hpp"
#include <string>

// Each fills `out` from its front and answers how many words or bytes.
size_t summarize(const Words &reads, Words &out);
size_t join(const Words &a, const Words &b, Words &out);
size_t distances(const Words &prefix, const Words &reads, Words &out);
size_t plan(const std::string &text, const Words &log, Words &work, Words &out);
size_t list(const std::string &text, Words &out);

// The summary in a vector of its own length; that of reads which must have so many extents.
Words summary_of(const Words &reads);
Words full_summary(const Words &reads, size_t extents);

// An allowance of misses half way between all reads of the summary's log and its cold reads.
uint32_t half_way(const Words &summary);

// The misses of a cache of this size that reads the summary's log.
uint32_t misses(const Words &summary, uint32_t size);

// The smallest size for an allowance of misses, and the words of H read.
struct Sizing {
    uint32_t size;
    uint32_t words_read;
};

Sizing smallest(const Words &summary, uint32_t allowed);

// The summaries of so many customers end to end, each of a trace of its own with so many extents: skewed, uniform and
// scan in turn.
Words summaries_of(size_t customers, size_t reads, size_t extents);

// Fills `shares` from its front, a word for each least share, and answers the misses in all.
uint32_t split(uint32_t store, const Words &leasts, const Words &summaries, Words &shares);

// What a read of the extent put in at the place does to the misses of a cache of this size.
int64_t one_more(const Words &log, size_t place, uint32_t extent, uint32_t size);

// A read's word, and the number of slots looked at.
struct Reading {
    uint32_t word;
    uint32_t slots_looked;
};

// A session, one read of it, and its summary.
Words new_session();
Reading session_read(Words &session, uint32_t extent);
Words session_summary(const Words &session);

// The session put under a name, and the session under a name returned to.
void session_name(const Words &session, Words &names, uint32_t name);
void session_return(Words &session, const Words &names, uint32_t name);
