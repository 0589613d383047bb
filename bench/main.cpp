// The benchmark: `tables SIZING PEER FOLDER ROUNDS` prints all tables, with these two programs for the listing and log
// texts written into that folder; `table NAME ROUNDS` prints the tables of one name, without the listing; `alone KIND
// EXTENTS UNITS` does one kind of work.
#include "rounds.hpp"
#include "tasks.hpp"
#include <utility>

// What prints tables without another program, by its name, in the order of printing.
static const std::vector<std::pair<std::string, void (*)()>> TABLES = {
    {"batch", batch_tables}, {"session", session_table},   {"moment", moment_table},    {"join", join_tables},
    {"split", split_table},  {"smallest", smallest_table}, {"one-more", one_more_table}};

static void print_tables_of(const std::string &wanted) {
    for (const auto &[name, print] : TABLES) {
        if (name == wanted) return print();
    }
    demand(false, "no such table: " + wanted);
}

int main(int count, char **words) {
    std::vector<std::string> given(words + 1, words + count);
    if (given.size() == 5 && given[0] == "tables") {
        set_rounds(std::stoi(given[4]));
        for (const auto &[name, print] : TABLES) print();
        listing_table(given[1], given[2], given[3]);
        return 0;
    }
    if (given.size() == 3 && given[0] == "table") {
        set_rounds(std::stoi(given[2]));
        print_tables_of(given[1]);
        return 0;
    }
    if (given.size() == 4 && given[0] == "alone") {
        lone_work(given[1], std::stoul(given[2]), std::stoul(given[3]));
        return 0;
    }
    demand(false, "usage: tables SIZING PEER FOLDER ROUNDS, or table NAME ROUNDS, or alone KIND EXTENTS UNITS");
}
