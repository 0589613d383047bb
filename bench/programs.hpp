// Another program run on a file.
#pragma once
#include "traces.hpp"

// Runs the program with the file as its standard input; its standard output goes to the front of `out`, as bytes.
// `program` is a path or, without a slash, a name that PATH has.
void run_program(const std::vector<std::string> &program, const std::string &input, Words &out);
