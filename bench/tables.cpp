#include "tables.hpp"
#include <algorithm>
#include <cstdio>

void print_row(const Row &row) {
    printf("|");
    for (const std::string &cell : row) printf(" %s |", cell.c_str());
    printf("\n");
    fflush(stdout);
}

void begin_table(const std::string &title, const std::string &note, const Row &head) {
    printf("\n## %s\n%s\n\n", title.c_str(), note.c_str());
    print_row(head);
    print_row(Row(head.size(), "---"));
}

std::string number(double value) {
    int digits = value < 1 ? 3 : value < 10 ? 2 : value < 100 ? 1 : 0;
    char text[32];
    snprintf(text, sizeof text, "%.*f", digits, value);
    return text;
}

std::string spread(const std::vector<Time> &times) {
    std::string text = number(times[0].largest / times[0].least);
    double highest = 0;
    for (size_t i = 1; i < times.size(); i++) highest = std::max(highest, times[i].largest / times[i].least);
    return times.size() == 1 ? text : text + ", " + number(highest);
}
