// Markdown tables of times.
#pragma once
#include "rounds.hpp"

using Row = std::vector<std::string>;

// A heading, a note beneath it, and the table's head.
void begin_table(const std::string &title, const std::string &note, const Row &head);
void print_row(const Row &row);

// A number with about three significant digits, and no more than three after the point.
std::string number(double value);

// The largest time divided by the least, of the first contestant and of the others, the highest of them.
std::string spread(const std::vector<Time> &times);
