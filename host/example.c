/* A host: reads a letter, prints its text, and takes its blocks through the stored form and back.
 *
 *   example [--paragraphs | --standard] LETTER
 *
 * The text goes to standard output, the rest to standard error. Exit status: 0, 1 a refusal, 2 bad
 * usage, 3 no letter or no memory, 4 the list was not read back as it was stored. */

#include "elduvarn.h"

#include <stdio.h>
#include <stdlib.h>
#include <string.h>

enum { REFUSED = 1, USAGE = 2, NO_MEANS = 3, NOT_BACK = 4 };

/* A letter's rooms, or what a list was read back into. */
struct page {
    uint32_t *tokens, *fonts, *colours, *blocks;
    uint8_t *text;
    struct elduvarn_read_answer counts;
};

/* The place is that in a letter; a list has none. */
static int refused(const char *doing, uint32_t refusal, uint32_t place)
{
    fprintf(stderr, "example: %s: refused by %u, %s", doing, (unsigned)refusal,
            elduvarn_refusal_name(refusal));
    if (elduvarn_refusal_has_place(refusal))
        fprintf(stderr, ", at byte %u", (unsigned)place);
    fputc('\n', stderr);
    return REFUSED;
}

/* Never null: without memory the program ends. One element more than asked for, since a room of
 * none has an address too. */
static void *room(size_t count, size_t size)
{
    void *start = calloc(count + 1, size);
    if (start == NULL) {
        fputs("example: no memory\n", stderr);
        exit(NO_MEANS);
    }
    return start;
}

/* The letter's bytes and their count. Of a letter that is too long one byte too many is enough. */
static uint8_t *letter_of(const char *path, size_t *size)
{
    FILE *file = fopen(path, "rb");
    uint8_t *bytes = NULL;
    if (file != NULL) {
        bytes = room(ELDUVARN_MOST_SOURCE + 1, 1);
        *size = fread(bytes, 1, ELDUVARN_MOST_SOURCE + 1, file);
        if (ferror(file)) {
            free(bytes);
            bytes = NULL;
        }
        fclose(file);
    }
    return bytes;
}

static void leave(struct page *page)
{
    free(page->tokens);
    free(page->fonts);
    free(page->colours);
    free(page->blocks);
    free(page->text);
}

typedef struct elduvarn_read_answer reading(const uint8_t *, size_t, uint32_t *, size_t,
                                            uint32_t *, size_t, uint32_t *, size_t, uint32_t *,
                                            size_t, uint8_t *, size_t);

/* By the specification a text may be half as long again as the letter. */
static void read_letter(struct page *page, const uint8_t *letter, size_t size, reading *by)
{
    size_t tokens = size * ELDUVARN_TOKEN_WORDS;
    size_t fonts = ELDUVARN_MOST_FONTS * ELDUVARN_FONT_WORDS;
    size_t colours = ELDUVARN_MOST_COLOURS * ELDUVARN_COLOUR_WORDS;
    size_t blocks = size * ELDUVARN_BLOCK_WORDS;
    size_t text = size + size / 2;
    page->tokens = room(tokens, sizeof(uint32_t));
    page->fonts = room(fonts, sizeof(uint32_t));
    page->colours = room(colours, sizeof(uint32_t));
    page->blocks = room(blocks, sizeof(uint32_t));
    page->text = room(text, 1);
    page->counts = by(letter, size, page->tokens, tokens, page->fonts, fonts, page->colours,
                      colours, page->blocks, blocks, page->text, text);
}

/* Reads a list into rooms of just the size of the page, and compares. */
static int read_back(const struct page *page, const uint8_t *list, size_t bytes)
{
    size_t words = (size_t)page->counts.blocks * ELDUVARN_BLOCK_WORDS;
    size_t text = page->counts.text;
    struct page back = {0};
    back.blocks = room(words, sizeof(uint32_t));
    back.text = room(text, 1);
    struct elduvarn_stored_read_answer answer =
        elduvarn_stored_read(list, bytes, back.blocks, words, back.text, text);
    int same = answer.blocks == page->counts.blocks && answer.text == page->counts.text &&
               memcmp(back.blocks, page->blocks, words * sizeof(uint32_t)) == 0 &&
               memcmp(back.text, page->text, text) == 0;
    leave(&back);
    if (answer.refusal != ELDUVARN_SUCCESS)
        return refused("reading back", answer.refusal, 0);
    if (!same) {
        fputs("example: the list was not read back as it was stored\n", stderr);
        return NOT_BACK;
    }
    fprintf(stderr, "example: %zu blocks, %zu text bytes; stored in %zu, checked, read back\n",
            answer.blocks, answer.text, bytes);
    return 0;
}

static int store(const struct page *page)
{
    size_t words = (size_t)page->counts.blocks * ELDUVARN_BLOCK_WORDS;
    size_t most = elduvarn_stored_most(page->counts.blocks, page->counts.text);
    uint8_t *list = room(most, 1);
    struct elduvarn_stored_write_answer written =
        elduvarn_stored_write(page->blocks, words, page->text, page->counts.text, list, most);
    int status;
    if (written.refusal != ELDUVARN_SUCCESS) {
        status = refused("storing", written.refusal, 0);
    } else {
        uint32_t refusal = elduvarn_stored_check(list, written.bytes);
        status = refusal != ELDUVARN_SUCCESS ? refused("checking", refusal, 0)
                                             : read_back(page, list, written.bytes);
    }
    free(list);
    return status;
}

static int preview(const uint8_t *letter, size_t size, reading *by)
{
    struct page page;
    int status;
    read_letter(&page, letter, size, by);
    if (page.counts.refusal != ELDUVARN_SUCCESS) {
        status = refused("reading", page.counts.refusal, page.counts.place);
    } else {
        fwrite(page.text, 1, page.counts.text, stdout);
        putchar('\n');
        status = store(&page);
    }
    leave(&page);
    return status;
}

/* The reading that the words before the letter name, or null. */
static reading *reading_of(int count, char **words)
{
    if (count == 2)
        return elduvarn_read_plain;
    if (count == 3 && strcmp(words[1], "--paragraphs") == 0)
        return elduvarn_read_paragraphs;
    if (count == 3 && strcmp(words[1], "--standard") == 0)
        return elduvarn_read_standard;
    return NULL;
}

int main(int count, char **words)
{
    reading *by = reading_of(count, words);
    if (by == NULL) {
        fputs("usage: example [--paragraphs | --standard] LETTER\n", stderr);
        return USAGE;
    }
    const char *path = words[count - 1];
    size_t size = 0;
    uint8_t *letter = letter_of(path, &size);
    if (letter == NULL) {
        fprintf(stderr, "example: %s cannot be read\n", path);
        return NO_MEANS;
    }
    int status = preview(letter, size, by);
    free(letter);
    return status;
}
