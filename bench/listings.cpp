// Log texts listed: by jemqolu_list in memory, and by whole programs that read a file.
#include "ours.hpp"
#include "programs.hpp"
#include "tables.hpp"
#include "tasks.hpp"
#include <cstdio>

static void write_file(const std::string &path, const std::string &text) {
    FILE *file = fopen(path.c_str(), "w");
    demand(file != nullptr && fwrite(text.data(), 1, text.size(), file) == text.size() && fclose(file) == 0,
           "cannot write " + path);
}

static Contestant program(const std::string &name, const std::vector<std::string> &words, const std::string &path) {
    return {name, [words, path](Words &out) { run_program(words, path, out); }};
}

// A log text, and the file that has it.
struct Text {
    std::string name;
    std::string text;
    std::string path;
};

static Text text_in(const std::string &folder, Kind kind, size_t extents) {
    std::string path = folder + "/" + name_of(kind) + "-" + std::to_string(extents) + ".log";
    Text made = {name_of(kind, extents), text_of(trace_of(kind, 1000000, extents, 1)), path};
    write_file(made.path, made.text);
    return made;
}

static void rows(const Text &log, const std::string &sizing, const std::string &peer) {
    Contestant in_memory = {"jemqolu_list in memory", [&](Words &out) { list(log.text, out); }};
    Contestant counting = program("wc -l", {"wc", "-l"}, log.path);
    counting.compared = false;
    std::vector<Contestant> all = {in_memory, program("sizing", {sizing}, log.path),
                                   program("C++ with getline", {peer}, log.path), counting};
    std::vector<Time> times = timed("listing, " + log.name, JEMQOLU_LISTING_BYTES / 4, all);
    double megabytes = static_cast<double>(log.text.size()) / 1e6;
    for (size_t i = 0; i < all.size(); i++) {
        print_row({log.name, number(megabytes), all[i].name, number(times[i].least * 1e3),
                   number(megabytes / times[i].least), number(times[i].least / times[2].least),
                   number(times[i].largest / times[i].least)});
    }
}

void listing_table(const std::string &sizing, const std::string &peer, const std::string &folder) {
    begin_table("The listing of a log text",
                "Log texts of 1,000,000 reads; a program is timed from its start to its end, on a file that was read "
                "before.",
                {"text", "MB", "what", "ms", "MB/s", "of the time of C++ with getline", "spread"});
    for (size_t extents : timed_extents()) {
        for (Kind kind : {Kind::skewed, Kind::uniform}) rows(text_in(folder, kind, extents), sizing, peer);
    }
}
