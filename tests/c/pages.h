/* Lists between pages that can't be touched.
 *
 * The library's own code is not compiled with a sanitizer, so that its reads and writes beyond a block would go unseen.
 * Here a list ends, or in turn begins, where a page without access does: a read or a write one byte too far on that
 * side ends the program. On the other side the bytes up to the next such page are compared, which shows writes. What a
 * call only reads stands in pages that can't be written. */
#ifndef PAGES_H
#define PAGES_H

#include "check.h"

#include <sys/mman.h>
#include <unistd.h>

/* where in its pages a list stands */
enum side { AT_FRONT, AT_BACK, SIDES };

/* room for a list of up to `size` bytes, what it held before a call, and the list that it is lent as */
struct pages {
    uint8_t *at, *before;
    size_t size;
    uint8_t *list;
    size_t length;
};

static void must(int holds, const char *what) {
    if (holds) return;
    perror(what);
    exit(3);
}

static struct pages pages_for(size_t bytes) {
    size_t page = (size_t)sysconf(_SC_PAGESIZE), size = (bytes + page - 1) / page * page;
    uint8_t *all = mmap(NULL, size + 2 * page, PROT_NONE, MAP_PRIVATE | MAP_ANONYMOUS, -1, 0);
    must(all != MAP_FAILED, "mmap");
    struct pages pages = {all + page, room_for(size), size, NULL, 0};
    return pages;
}

/* Lends a list of `length` bytes, to be filled; all bytes of the pages hold rubbish, another one each time. */
static void *lend(struct pages *pages, size_t length, enum side side) {
    static uint8_t rubbish = 1;
    must(length <= pages->size, "a list longer than its pages");
    must(!mprotect(pages->at, pages->size, PROT_READ | PROT_WRITE), "mprotect");
    rubbish = (uint8_t)(rubbish * 5 + 3);
    memset(pages->at, rubbish, pages->size);
    pages->length = length;
    pages->list = side == AT_FRONT ? pages->at : pages->at + pages->size - length;
    return pages->list;
}

/* What the pages hold from here on must stay, but what a call may write. */
static void filled(struct pages *pages) {
    memcpy(pages->before, pages->at, pages->size);
}

/* No call may write these pages. */
static inline void seal(struct pages *pages) {
    filled(pages);
    must(!mprotect(pages->at, pages->size, PROT_READ), "mprotect");
}

static inline void lend_sealed(struct pages *pages, const void *bytes, size_t length, enum side side) {
    void *list = lend(pages, length, side);
    if (length) memcpy(list, bytes, length);
    seal(pages);
}

/* Whether all is as it was, but for the first `written` bytes of the list. */
static int kept_behind(const struct pages *pages, size_t written) {
    size_t front = (size_t)(pages->list - pages->at);
    size_t behind = front + (written < pages->length ? written : pages->length);
    return !memcmp(pages->at, pages->before, front) &&
           !memcmp(pages->at + behind, pages->before + behind, pages->size - behind);
}

static inline int kept(const struct pages *pages) {
    return kept_behind(pages, 0);
}

/* Whether the first bytes of the list are all 0. */
static inline int zero(const struct pages *pages, size_t bytes) {
    for (size_t i = 0; i < bytes; i++)
        if (pages->list[i]) return 0;
    return 1;
}

#endif
