#include "rounds.hpp"
#include <algorithm>
#include <cstdio>
#include <cstdlib>
#include <ctime>
#include <sys/resource.h>

static int counted_rounds = 7;

void demand(bool condition, const std::string &message) {
    if (condition) return;
    fflush(stdout);
    fprintf(stderr, "bench: %s\n", message.c_str());
    exit(1);
}

void set_rounds(int rounds) {
    demand(rounds >= 1, "at least one round is needed");
    counted_rounds = rounds;
}

static double seconds(const timeval &time) {
    return static_cast<double>(time.tv_sec) + static_cast<double>(time.tv_usec) * 1e-6;
}

// The processor time that this thread and the programs that it has waited for took so far.
static double processor_time() {
    timespec own;
    rusage others;
    demand(clock_gettime(CLOCK_THREAD_CPUTIME_ID, &own) == 0 && getrusage(RUSAGE_CHILDREN, &others) == 0, "no clock");
    return static_cast<double>(own.tv_sec) + static_cast<double>(own.tv_nsec) * 1e-9 + seconds(others.ru_utime) +
           seconds(others.ru_stime);
}

static double time_of(const Contestant &contestant, Words &out) {
    std::fill(out.begin(), out.end(), 0);
    contestant.prepare();
    double start = processor_time();
    contestant.work(out);
    return processor_time() - start;
}

std::vector<Time> timed(const std::string &what, size_t out_words, const std::vector<Contestant> &contestants) {
    fprintf(stderr, "bench: %s\n", what.c_str());
    std::vector<Time> times(contestants.size(), Time{1e9, 0});
    Words wanted(out_words), out(out_words);
    for (int round = 0; round <= counted_rounds; round++) {
        for (size_t i = 0; i < contestants.size(); i++) {
            const Contestant &contestant = contestants[i];
            Words &filled = i == 0 ? wanted : out;
            double taken = time_of(contestant, filled);
            if (contestant.compared) demand(filled == wanted, what + ": " + contestant.name + " answers otherwise");
            if (round == 0) continue;
            times[i] = {std::min(times[i].least, taken), std::max(times[i].largest, taken)};
        }
    }
    return times;
}
