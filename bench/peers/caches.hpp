// The peer of jemqolu_one_more. It refuses nothing: the caller keeps within the limits.
#pragma once
#include <cstddef>
#include <cstdint>

// The misses of a cache of `size` extents that reads the log with a read of `extent` put in before the read at `place`,
// less its misses without that read.
int64_t one_more_by_caches(const uint32_t *log, size_t count, size_t place, uint32_t extent, uint32_t size);
