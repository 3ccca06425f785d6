/* What the map unit's library offers to C. */
#ifndef GELTZORI_H
#define GELTZORI_H

#include <stddef.h>
#include <stdint.h>

#ifdef __cplusplus
extern "C" {
#endif

/*
 * Whether the bytes are the body of a map of the depth. The answer is 0 where they
 * are, and otherwise a number of docs/REFUSALS.md:
 *
 *     1   the depth is not 1 to 5
 *     9   a pair is missing, or half of it
 *     10  a voxel is marked as divided further
 *     11  a pair below the root should have been merged
 *     12  bytes are left over
 *
 * The first wrong pair decides. `body` points to `length` bytes, which are only read.
 * It must not be null, even where `length` is 0.
 */
uint8_t geltzori_check(uint8_t depth, const uint8_t *body, size_t length);

#ifdef __cplusplus
}
#endif

#endif
