#include "page.h"

#include <errno.h>
#include <string.h>
#include <sys/mman.h>

#include "basics.h"

struct page *open_page(int descriptor, int ways) {
    size_t size = sizeof(struct page) + (size_t)ways * sizeof(struct way) + MET * sizeof(uint64_t);
    struct page *page = mmap(NULL, size, PROT_READ | PROT_WRITE, MAP_SHARED, descriptor, 0);
    if (page == MAP_FAILED) fail("the page of counts", strerror(errno));
    return page;
}

uint64_t *met_of(struct page *page, int ways) { return (uint64_t *)(page->ways + ways); }

void count_time(uint64_t bins[BINS], uint64_t ns, uint64_t count) {
    uint64_t us = ns / 1000;
    uint64_t bin = us;
    if (us > UINT32_MAX) us = UINT32_MAX;
    if (us >= 16) {
        unsigned power = 59u - (unsigned)__builtin_clzll(us); /* 0 from 16 us on, 1 from 32 us on, and so on */
        bin = (power << 4) + 16 + (us >> power & 15);
    }
    bins[bin] += count;
}
