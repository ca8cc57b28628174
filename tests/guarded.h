/* Bytes that begin or end where memory that may not be touched ends or begins, and such memory itself. */
#ifndef GUARDED_H
#define GUARDED_H

#include <stddef.h>
#include <stdint.h>

struct guarded {
    uint8_t *begin, *end;
};

/* Where at least that many bytes begin and end, which stand in pages of their own between two that may not be touched; NULL
 * twice where there are none to be had. */
struct guarded guarded_pages(size_t bytes);

/* So many of them, at their beginning (end 0) or at their end. */
uint8_t *guarded_at(struct guarded bytes, int end, size_t count);

/* Where such bytes end. */
uint8_t *guarded_end(size_t bytes);

/* At least that many bytes none of which may be touched; NULL where there are none to be had. */
uint8_t *untouchable(size_t bytes);

#endif
