#include "traces.hpp"
#include "jemqolu.h"
#include <algorithm>
#include <random>

const char *name_of(Kind kind) {
    switch (kind) {
    case Kind::skewed: return "skewed";
    case Kind::uniform: return "uniform";
    case Kind::scan: return "scan";
    }
    return "";
}

std::vector<Kind> all_kinds() { return {Kind::skewed, Kind::uniform, Kind::scan}; }

std::vector<size_t> timed_extents() { return {256, JEMQOLU_MAX_EXTENTS}; }

std::string in_words(size_t extents) {
    std::string digits = std::to_string(extents);
    if (digits.size() > 3) digits.insert(digits.size() - 3, ",");
    return digits + (extents == 1 ? " extent" : " extents");
}

std::string name_of(Kind kind, size_t extents) { return std::string(name_of(kind)) + ", " + in_words(extents); }

// A number from 0 to 1, 1 left out.
static double draw(std::mt19937_64 &source) { return static_cast<double>(source() >> 11) / 9007199254740992.0; }

Words extents_of(size_t extents, uint64_t seed) {
    std::mt19937_64 source(seed);
    Words all;
    for (size_t i = 0; i < extents; i++) all.push_back(static_cast<uint32_t>(4096 * i));
    for (size_t i = extents; i > 1; i--) std::swap(all[i - 1], all[source() % i]);
    return all;
}

// For each rank the share of the reads that have it or one before.
static std::vector<double> shares_upto(Kind kind, size_t extents) {
    std::vector<double> shares;
    double sum = 0;
    for (size_t rank = 1; rank <= extents; rank++) {
        sum += kind == Kind::skewed ? 1.0 / static_cast<double>(rank) : 1.0;
        shares.push_back(sum);
    }
    for (double &share : shares) share /= sum;
    shares.back() = 1;
    return shares;
}

Words trace_of(Kind kind, size_t reads, size_t extents, uint64_t seed) {
    Words all = extents_of(extents, seed);
    Words trace;
    if (kind == Kind::scan) {
        for (size_t i = 0; i < reads; i++) trace.push_back(all[i % extents]);
        return trace;
    }
    std::mt19937_64 source(seed + 1000);
    std::vector<double> shares = shares_upto(kind, extents);
    for (size_t i = 0; i < reads; i++) {
        auto rank = std::upper_bound(shares.begin(), shares.end(), draw(source)) - shares.begin();
        trace.push_back(all[static_cast<size_t>(rank)]);
    }
    return trace;
}

std::string text_of(const Words &trace) {
    std::string text = "(trace";
    for (uint32_t extent : trace) text += "\n (read " + std::to_string(extent) + ")";
    return text + ")\n";
}
