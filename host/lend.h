/* Memory that is lent to the library for one call, so that a step outside shows.
 *
 * Each call is made in three layouts. In two of them a piece ends just before, or starts just
 * behind, a page that no one may touch: a step over that border ends the program, whoever makes it.
 * On the heap a piece has exactly its size: AddressSanitizer sees what is done there by code built
 * with it, which the library is not. The heap comes last, since a step outside might damage it. */

#ifndef LEND_H
#define LEND_H

#include <stdint.h>
#include <stdio.h>
#include <stdlib.h>
#include <string.h>
#include <sys/mman.h>
#include <unistd.h>

enum layout { BEFORE_A_WALL, BEHIND_A_WALL, ON_THE_HEAP, LAYOUTS };

enum { MOST_PIECES = 16, JUNK = 0xA5 };

static enum layout layout;

/* Pieces in use: where they start, and how much is mapped; nothing on the heap. */
static struct piece {
    void *start;
    size_t mapped;
} pieces[MOST_PIECES];
static int pieces_used;

static void *piece(size_t bytes, size_t mapped)
{
    void *start = mapped == 0 ? malloc(bytes)
                              : mmap(NULL, mapped, PROT_NONE, MAP_PRIVATE | MAP_ANONYMOUS, -1, 0);
    if (start == NULL || start == MAP_FAILED || pieces_used == MOST_PIECES) {
        fputs("test: no memory\n", stderr);
        exit(3);
    }
    pieces[pieces_used].start = start;
    pieces[pieces_used].mapped = mapped;
    pieces_used++;
    return start;
}

/* Whole pages between two walls. */
static uint8_t *walled(size_t bytes)
{
    size_t page = (size_t)sysconf(_SC_PAGESIZE);
    size_t open = (bytes / page + 1) * page;
    uint8_t *first = (uint8_t *)piece(0, open + 2 * page) + page;
    if (mprotect(first, open, PROT_READ | PROT_WRITE) != 0) {
        fputs("test: a page cannot be opened\n", stderr);
        exit(3);
    }
    return layout == BEFORE_A_WALL ? first + open - bytes : first;
}

/* Bytes full of junk, aligned for `unit` if they are a multiple of it. None on the heap are the end
 * of a piece. */
static void *lend(size_t bytes, size_t unit)
{
    uint8_t *start;
    if (layout != ON_THE_HEAP)
        start = walled(bytes);
    else if (bytes > 0)
        start = piece(bytes, 0);
    else
        start = (uint8_t *)piece(unit, 0) + unit;
    memset(start, JUNK, bytes);
    return start;
}

static uint8_t *lend_bytes(size_t count)
{
    return lend(count, 1);
}

static uint32_t *lend_words(size_t count)
{
    return lend(count * sizeof(uint32_t), sizeof(uint32_t));
}

/* A copy of what a call is given. */
static const uint8_t *given_bytes(const void *bytes, size_t count)
{
    return count == 0 ? lend_bytes(0) : memcpy(lend_bytes(count), bytes, count);
}

static const uint32_t *given_words(const uint32_t *words, size_t count)
{
    return count == 0 ? lend_words(0) : memcpy(lend_words(count), words, count * sizeof *words);
}

static void give_back(void)
{
    while (pieces_used > 0) {
        struct piece *last = &pieces[--pieces_used];
        if (last->mapped == 0)
            free(last->start);
        else
            munmap(last->start, last->mapped);
    }
}

#endif
