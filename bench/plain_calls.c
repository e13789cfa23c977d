/* The plain program that bench/calls.py and bench/objects.py compare with: the calls of crates/bench_space by hand, and
 * reads and writes at random places of a file.
 *
 *   plain_calls grants PAGES ROUNDS    a tree of masks over 16,384 pages
 *   plain_calls writes PAGES ROUNDS [BYTES]    pwrite to bench_space.img in this folder, pages of so many bytes
 *   plain_calls places READS PAGES WRITES PAGES SIZE ROUNDS    so many calls of so many pages each, in a file of SIZE pages;
 *                                              it prints `filled` when the file is there
 */
#include <fcntl.h>
#include <stdint.h>
#include <stdio.h>
#include <stdlib.h>
#include <string.h>
#include <unistd.h>

enum { PAGE = 4096, ORDER = 14, PAGES = 1 << ORDER, FIRST = 3 };

/* Bit i of a mask: a maximal block of order i lies inside. The whole space is node 1, the halves of node i are
 * 2 i and 2 i + 1, and page p is node PAGES + p. */
static uint16_t masks[2 * PAGES];

static uint16_t joined(uint16_t left, uint16_t right, unsigned order) {
    uint16_t whole = (uint16_t)(1 << (order - 1));
    return left == whole && right == whole ? (uint16_t)(1 << order) : (uint16_t)(left | right);
}

/* Makes a run free or used, and mends the masks of the halves that have some of its pages. */
static void set_run(uint32_t first, uint32_t count, int is_free) {
    uint32_t low = PAGES + first, high = low + count - 1;
    for (uint32_t i = low; i <= high; i++)
        masks[i] = (uint16_t)is_free;
    for (unsigned order = 1; low > 1; order++) {
        low /= 2;
        high /= 2;
        for (uint32_t i = low; i <= high; i++)
            masks[i] = joined(masks[2 * i], masks[2 * i + 1], order);
    }
}

/* The first page of the lowest of the smallest maximal blocks that hold n pages, or PAGES. */
static uint32_t place(uint32_t n) {
    unsigned least = 0;
    while ((1u << least) < n || !(masks[1] >> least & 1))
        if (++least > ORDER)
            return PAGES;
    uint32_t node = 1;
    for (unsigned order = ORDER; order > least; order--)
        node = 2 * node + !(masks[2 * node] >> least & 1);
    return (node << least) - PAGES;
}

static void grants(uint32_t n, uint32_t rounds) {
    set_run(0, PAGES, 1);
    for (uint32_t i = 0; i < 512; i++)
        set_run(16 * i + 8, 8, 0);
    for (uint32_t i = 0; i < rounds; i++) {
        uint32_t at = place(n);
        if (at == PAGES)
            return;
        set_run(at, n, 0);
        set_run(at, n, 1);
    }
}

static int writes(uint32_t n, uint32_t rounds, size_t page) {
    uint8_t *bytes = malloc(n * page);
    uint32_t at = 0, last = PAGES - n;
    int file = open("bench_space.img", O_RDWR | O_CREAT, 0644);
    if (!bytes || file < 0 || ftruncate(file, (off_t)((FIRST + PAGES) * page)))
        return 1;
    memset(bytes, 7, n * page);
    for (uint32_t i = 0; i < rounds; i++) {
        size_t size = n * page;
        if (pwrite(file, bytes, size, (off_t)((FIRST + at) * page)) != (ssize_t)size)
            return 1;
        at = at + n <= last ? at + n : 0;
    }
    return close(file);
}

static uint32_t drawn(uint64_t *draw, uint32_t below) {
    *draw = *draw * 6364136223846793005u + 1442695040888963407u;
    return (uint32_t)((*draw >> 32) % below);
}

static int places(char **words) {
    uint32_t reads = (uint32_t)atoi(words[0]), wide = (uint32_t)atoi(words[1]);
    uint32_t writes = (uint32_t)atoi(words[2]), broad = (uint32_t)atoi(words[3]);
    uint32_t size = (uint32_t)atoi(words[4]), rounds = (uint32_t)atoi(words[5]);
    uint32_t most = wide > broad ? wide : broad;
    uint64_t draw = 1;
    int file = open("plain_calls.img", O_RDWR | O_CREAT, 0644);
    uint8_t *bytes;
    if (most < 1 || most >= size || !(bytes = malloc((size_t)most * PAGE)) || file < 0)
        return 1;
    memset(bytes, 7, (size_t)most * PAGE);
    for (uint32_t i = 0; i < size; i++)
        if (pwrite(file, bytes, PAGE, (off_t)i * PAGE) != PAGE)
            return 1;
    puts("filled");
    fflush(stdout);
    for (uint32_t i = 0; i < rounds; i++) {
        for (uint32_t k = 0; k < reads; k++) {
            ssize_t n = (ssize_t)wide * PAGE;
            if (pread(file, bytes, (size_t)n, (off_t)drawn(&draw, size - most) * PAGE) != n)
                return 1;
        }
        for (uint32_t k = 0; k < writes; k++) {
            ssize_t n = (ssize_t)broad * PAGE;
            if (pwrite(file, bytes, (size_t)n, (off_t)drawn(&draw, size - most) * PAGE) != n)
                return 1;
        }
    }
    return close(file);
}

int main(int count, char **words) {
    uint32_t n, rounds;
    size_t page;
    if (count == 8 && !strcmp(words[1], "places"))
        return places(words + 2);
    if (count != 4 && count != 5)
        return 2;
    n = (uint32_t)atoi(words[2]);
    rounds = (uint32_t)atoi(words[3]);
    page = count == 5 ? (size_t)atoi(words[4]) : PAGE;
    if (n < 1 || n > 64 || page < 1)
        return 2;
    if (!strcmp(words[1], "grants")) {
        grants(n, rounds);
        return masks[1] ? 0 : 1;
    }
    return writes(n, rounds, page);
}
