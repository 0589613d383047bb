// What the benchmark does.
#pragma once
#include <cstddef>
#include <string>

// Each prints its tables.
void batch_tables();
void session_table();
void moment_table();
void join_tables();
void split_table();
void smallest_table();
void one_more_table();
void listing_table(const std::string &sizing, const std::string &peer, const std::string &folder);

// One kind of work alone, on so many extents, for a profiler: so many reads, joins, splits or searches.
void lone_work(const std::string &kind, size_t extents, size_t units);
