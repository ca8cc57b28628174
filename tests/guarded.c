/* Pages between two that may not be touched. */
#define _DEFAULT_SOURCE
#include "guarded.h"

#include <sys/mman.h>
#include <unistd.h>

struct guarded guarded_pages(size_t bytes)
{
    size_t page = (size_t)sysconf(_SC_PAGESIZE);
    size_t whole = (bytes + page - 1) / page * page;
    uint8_t *all = mmap(NULL, page + whole + page, PROT_NONE, MAP_PRIVATE | MAP_ANONYMOUS, -1, 0);
    if (all == MAP_FAILED || mprotect(all + page, whole, PROT_READ | PROT_WRITE) != 0)
        return (struct guarded){ .begin = NULL, .end = NULL };
    return (struct guarded){ .begin = all + page, .end = all + page + whole };
}

uint8_t *guarded_at(struct guarded bytes, int end, size_t count)
{
    return end == 0 ? bytes.begin : bytes.end - count;
}

uint8_t *guarded_end(size_t bytes)
{
    return guarded_pages(bytes).end;
}

uint8_t *untouchable(size_t bytes)
{
    uint8_t *all = mmap(NULL, bytes, PROT_NONE, MAP_PRIVATE | MAP_ANONYMOUS, -1, 0);
    return all == MAP_FAILED ? NULL : all;
}
