/* Bit patterns at which number code goes wrong first. */
#ifndef SPECIAL_H
#define SPECIAL_H

#include <stddef.h>
#include <stdint.h>

#define SIGN_BIT ((uint64_t)1 << 63)

static const uint64_t special_patterns[] = {
    0x0000000000000000, /* +0 */
    0x8000000000000000, /* −0 */
    0x0000000000000001, /* smallest subnormals */
    0x8000000000000001,
    0x000fffffffffffff, /* largest subnormals */
    0x800fffffffffffff,
    0x0010000000000000, /* smallest normals */
    0x8010000000000000,
    0x7fefffffffffffff, /* largest finite numbers */
    0xffefffffffffffff,
    0x7ff0000000000000, /* infinities */
    0xfff0000000000000,
    0x7ff8000000000000, /* quiet NaNs, without and with payload */
    0xfff8000000000000,
    0x7ff8000000001234,
    0xfff8deadbeef0001,
    0x7ff0000000000001, /* signalling NaNs */
    0xfff0000000000001,
    0x7ff4000000abcdef,
    0xfff7ffffffffffff,
    0x7fffffffffffffff, /* NaNs of all payload bits */
    0xffffffffffffffff,
};

enum { SPECIAL_PATTERNS = sizeof special_patterns / sizeof *special_patterns };

#endif
