/* The calls that take a threshold since version 3, for an archive from before: comparison/before gives its own ones other names. They
 * split nodes by the stored table's threshold, as the calls here do only if they are given 0. */
#include "puxerdau.h"

uint64_t earlier_build(size_t n, const uint32_t *starts, size_t starts_length, const uint16_t *neighbours, size_t neighbours_length,
                       uint16_t *full, size_t full_length, uint16_t *low, size_t low_length, uint16_t *report, size_t report_length,
                       uint16_t *hubs, size_t hubs_length);
uint64_t earlier_walk(size_t n, const uint32_t *starts, size_t starts_length, const uint16_t *neighbours, size_t neighbours_length,
                      const uint16_t *full, size_t full_length, const uint16_t *low, size_t low_length, const uint16_t *report,
                      size_t report_length, size_t a, size_t b, uint16_t *walk, size_t walk_length);
uint64_t earlier_test(size_t n, const uint32_t *starts, size_t starts_length, const uint16_t *neighbours, size_t neighbours_length);

uint64_t puxerdau_build(size_t n, size_t threshold, const uint32_t *starts, size_t starts_length, const uint16_t *neighbours,
                        size_t neighbours_length, uint16_t *full, size_t full_length, uint16_t *low, size_t low_length, uint16_t *report,
                        size_t report_length, uint16_t *hubs, size_t hubs_length)
{
    (void)threshold;
    return earlier_build(n, starts, starts_length, neighbours, neighbours_length, full, full_length, low, low_length, report,
                         report_length, hubs, hubs_length);
}

uint64_t puxerdau_walk(size_t n, size_t threshold, const uint32_t *starts, size_t starts_length, const uint16_t *neighbours,
                       size_t neighbours_length, const uint16_t *full, size_t full_length, const uint16_t *low, size_t low_length,
                       const uint16_t *report, size_t report_length, size_t a, size_t b, uint16_t *walk, size_t walk_length)
{
    (void)threshold;
    return earlier_walk(n, starts, starts_length, neighbours, neighbours_length, full, full_length, low, low_length, report,
                        report_length, a, b, walk, walk_length);
}

uint64_t puxerdau_test(size_t n, size_t threshold, const uint32_t *starts, size_t starts_length, const uint16_t *neighbours,
                       size_t neighbours_length)
{
    (void)threshold;
    return earlier_test(n, starts, starts_length, neighbours, neighbours_length);
}
