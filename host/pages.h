/* Pages that a slice is lent in, where a byte too far ends the program. */
#ifndef PAGES_H
#define PAGES_H

#include <stdint.h>
#include <stdio.h>
#include <stdlib.h>
#include <sys/mman.h>
#include <unistd.h>

/* Pages for one slice, a page that can't be touched before and after. */
struct pages {
    uint8_t *first;
    size_t length;
};

/* Takes pages that hold so many bytes, if these are too few. */
static inline void reserve(struct pages *pages, size_t length) {
    size_t page = (size_t)sysconf(_SC_PAGESIZE);
    size_t needed = length == 0 ? page : (length + page - 1) / page * page;
    if (pages->first != NULL && pages->length >= needed)
        return;
    if (pages->first != NULL)
        munmap(pages->first - page, pages->length + 2 * page);
    uint8_t *mapped = mmap(NULL, needed + 2 * page, PROT_NONE, MAP_PRIVATE | MAP_ANONYMOUS, -1, 0);
    if (mapped == MAP_FAILED) {
        perror("mmap");
        exit(2);
    }
    pages->first = mapped + page;
    pages->length = needed;
}

static inline void protect(struct pages *pages, int protection) {
    if (mprotect(pages->first, pages->length, protection) != 0) {
        perror("mprotect");
        exit(2);
    }
}

/* The last so many bytes of the pages. */
static inline uint8_t *end_of(struct pages *pages, size_t length) {
    return pages->first + pages->length - length;
}

#endif
