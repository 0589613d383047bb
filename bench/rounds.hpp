// Contestants timed in turn, round after round, so that what slows the machine slows all of them.
#pragma once
#include "traces.hpp"
#include <functional>
#include <string>
#include <vector>

struct Contestant {
    std::string name;
    // fills `out` from its front; this is what is timed
    std::function<void(Words &out)> work;
    // done before each round, not timed
    std::function<void()> prepare = [] {};
    // whether `out` must then be what the first contestant left
    bool compared = true;
};

// Seconds of processor time of the quickest and of the slowest round.
struct Time {
    double least;
    double largest;
};

// How many rounds are counted; one more goes before them, to warm up.
void set_rounds(int rounds);

// The times of each contestant. Before each round its `out`, of so many words, is set to 0, outside the timing. Where
// an output differs from the first contestant's the program ends with status 1.
std::vector<Time> timed(const std::string &what, size_t out_words, const std::vector<Contestant> &contestants);

// The program ends with status 1 and this message unless the condition holds.
void demand(bool condition, const std::string &message);
