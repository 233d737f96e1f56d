/* Known answers for every exported function, in rooms of just enough, too little and none.
 *
 *   test          makes all calls in the three layouts of lend.h; the last line counts them
 *   test names    lists the refusals by number and name
 *
 * Exit status: 0 all passed, 1 not, 3 no memory. Expected answers are read off document 01,
 * requests A1, A2 and A5 and docs/REFUSALS.md. */

#define _DEFAULT_SOURCE

#include "elduvarn.h"
#include "lend.h"

#include <signal.h>
#include <stdarg.h>

#define COUNT(array) (sizeof(array) / sizeof *(array))

/* Words of a block's record by their places; the next record's are NEXT further on. */
enum {
    COLOUR, FONT, SIZE, FLAGS, ALIGNMENT, BEFORE, AFTER, LINE_KIND, LINE_VALUE, MULTIPLIER, TAB,
    LEFT, RIGHT, FIRST_LINE, PLACE, LENGTH, NEXT
};
_Static_assert((int)NEXT == (int)ELDUVARN_BLOCK_WORDS, "each word has a name");

static int passed, failed;
static const char *const layouts[] = {"before a wall", "behind a wall", "on the heap"};
/* The call that is made. */
static char now[200];

static void will(const char *what, ...)
{
    va_list rest;
    va_start(rest, what);
    vsnprintf(now, sizeof now, what, rest);
    va_end(rest);
}

/* Counts the call, and says if its refusal, or something else in its answer, is not as expected. */
static void told(int good, uint32_t is, uint32_t should)
{
    if (good && is == should) {
        passed++;
        return;
    }
    failed++;
    printf("FAILED %s: %s: ", layouts[layout], now);
    if (is == should)
        printf("not the place, the counts or the rooms that are expected\n");
    else
        printf("%u %s, not %u %s\n", (unsigned)is, elduvarn_refusal_name(is), (unsigned)should,
               elduvarn_refusal_name(should));
    fflush(stdout);
}

static void say(const char *words)
{
    if (write(STDOUT_FILENO, words, strlen(words)) < 0)
        _exit(1);
}

/* A wall was touched. */
static void stepped_outside(int number)
{
    (void)number;
    say("FAILED ");
    say(layouts[layout]);
    say(": ");
    say(now);
    say(": a step outside what was lent\n");
    _exit(1);
}

/* Whether a room is what stands in `front`, and then zeros. */
static int holds_bytes(const uint8_t *room, size_t size, const void *front, size_t count)
{
    int good = count <= size && (count == 0 || memcmp(room, front, count) == 0);
    for (size_t i = count; i < size; i++)
        good &= room[i] == 0;
    return good;
}

static int holds_words(const uint32_t *room, size_t size, const uint32_t *front, size_t count)
{
    return holds_bytes((const uint8_t *)room, size * 4, front, count * 4);
}

/* Letters refused plainly and by paragraphs, and where: the smallest of docs/REFUSALS.md, and
 * others whose place tells more. Those of 1 and 16 are made elsewhere, those of 7 and 17 to 20 by
 * rooms that are too small. */
static const struct {
    const char *source;
    uint32_t refusal, place;
} refused[] = {
    {"\x80", ELDUVARN_NOT_ASCII, 0},
    {"{a\\'zz\x80}", ELDUVARN_NOT_ASCII, 0},
    {"\\'}", ELDUVARN_HEX_SHORT, 0},
    {"{a\\'e}", ELDUVARN_HEX_SHORT, 2},
    {"\\'zz}", ELDUVARN_HEX_BAD, 0},
    {"{\\\r\n\\'zz}", ELDUVARN_HEX_BAD, 4},
    {" {}\\'zz}", ELDUVARN_HEX_BAD, 3},
    {"{\\'zz\\a-}", ELDUVARN_HEX_BAD, 1},
    {"\\a-}", ELDUVARN_NUMBER_BAD, 0},
    {"{\\b2147483648}", ELDUVARN_NUMBER_BAD, 1},
    {"{\\rtf1 hello\\b-}", ELDUVARN_NUMBER_BAD, 12},
    {"{\\\\b\n\\a- c}", ELDUVARN_NUMBER_BAD, 5},
    {"a", ELDUVARN_LAST_SLICE, 0},
    {"\t {a} b\n", ELDUVARN_LAST_SLICE, 4},
    {"{a\nb", ELDUVARN_LAST_SLICE, 2},
    {"{\\}", ELDUVARN_LAST_SLICE, 1},
    {"{\\a- c", ELDUVARN_LAST_SLICE, 1},
    {"{a\\\r", ELDUVARN_LAST_SLICE, 2}, /* what is trimmed is no line break */
    {"{}\\\r\n", ELDUVARN_LAST_SLICE, 2},
    {"{\\\rb", ELDUVARN_LAST_SLICE, 1},
    {"", ELDUVARN_NO_TOKENS, 0},
    {" \n ", ELDUVARN_NO_TOKENS, 0},
    {"}", ELDUVARN_FIRST_TOKEN, 0},
    {" \n}", ELDUVARN_FIRST_TOKEN, 2},
    {"  a{}}", ELDUVARN_FIRST_TOKEN, 2},
    {"{\\\n\\fonttbl}", ELDUVARN_TABLE_LINE_BREAK, 3},
    {"{{\\\n\\fonttbl}}", ELDUVARN_TABLE_LINE_BREAK, 4},
    {" {\\\n\\\n\\colortbl}", ELDUVARN_TABLE_LINE_BREAK, 6},
    {"{\\fonttbl\\f}", ELDUVARN_FONT_NUMBER, 9},
    {"{\\fonttbl{\\f0 A;}{\\f B;}}", ELDUVARN_FONT_NUMBER, 18},
    {"{\\f-1}", ELDUVARN_NUMBER_FIELD, 1},
    {"{a\\f-1}", ELDUVARN_NUMBER_FIELD, 2},
    {"{\\fs65536}", ELDUVARN_NUMBER_FIELD, 1},
    {"{\\colortbl\\red256}", ELDUVARN_NUMBER_FIELD, 10},
    {"{a\\*}", ELDUVARN_IGNORABLE_IN_BODY, 2},
    {"{}}}", ELDUVARN_NO_STATE, 3},
    {"{a}}}", ELDUVARN_NO_STATE, 4},
    {"{}}b}", ELDUVARN_NO_STATE, 2}, /* b is of the slice of the bracket before it */
    {"{}}\\b c}", ELDUVARN_NO_STATE, 3},
    {"{}}\\\n}", ELDUVARN_NO_STATE, 3},
    {" {}}\\u65 \\u66 }", ELDUVARN_NO_STATE, 4},
    {"{\\sl-2147483648}", ELDUVARN_LINE_SPACING, 1},
    {"{a\\sl-2147483648}", ELDUVARN_LINE_SPACING, 2},
};

/* The cutter. */

/* All but the second are plain; standard reading's number has tests of its own. */
static const uint32_t numbers[] = {ELDUVARN_PLAIN, ELDUVARN_PARAGRAPHS, 3, 257, 258, UINT32_MAX};

/* Expected are `count` tokens, or a refusal at a place. */
static void cuts_to(const char *letter, size_t size, uint32_t number, size_t room, uint32_t refusal,
                    uint32_t place, const uint32_t *records, uint32_t count)
{
    const uint8_t *source = given_bytes(letter, size);
    uint32_t *tokens = lend_words(room);
    will("cut, reading %u, of %zu bytes %.40s in %zu words", (unsigned)number, size, letter, room);
    struct elduvarn_cut_answer answer = elduvarn_cut(source, size, number, tokens, room);
    int good = answer.place == place && answer.tokens == count &&
               holds_words(tokens, room, records, (size_t)count * ELDUVARN_TOKEN_WORDS);
    told(good, answer.refusal, refusal);
    give_back();
}

/* The same plainly and by paragraphs. */
static void cuts(const char *letter, size_t size, size_t room, const uint32_t *records,
                 uint32_t count)
{
    for (size_t i = 0; i < COUNT(numbers); i++)
        cuts_to(letter, size, numbers[i], room, ELDUVARN_SUCCESS, 0, records, count);
}

static void cut_refuses(const char *letter, size_t size, size_t room, uint32_t refusal,
                        uint32_t place)
{
    for (size_t i = 0; i < COUNT(numbers); i++)
        cuts_to(letter, size, numbers[i], room, refusal, place, NULL, 0);
}

/* Letters with a carriage return, and their tokens: kind, place and length of a text, place and
 * length of the slice. */
enum { RETURN_TOKENS = 5 };
struct returned {
    uint32_t tokens[RETURN_TOKENS][5], count;
};
static const struct {
    const char *source;
    struct returned plain, paragraphs;
} returned[] = {
    /* The tail is kept, as one slice with the line break. */
    {"{a\\\rb}",
     {{{1, 0, 0, 0, 2}, {0, 1, 1, 0, 2}, {2, 0, 0, 5, 1}}, 3},
     {{{1, 0, 0, 0, 2}, {0, 1, 1, 0, 2}, {3, 0, 0, 2, 3}, {0, 4, 1, 2, 3}, {2, 0, 0, 5, 1}}, 5}},
    /* A line feed directly behind belongs to it, and a second one does not. */
    {"{a\\\r\nb}",
     {{{1, 0, 0, 0, 2}, {0, 1, 1, 0, 2}, {0, 5, 1, 4, 2}, {2, 0, 0, 6, 1}}, 4},
     {{{1, 0, 0, 0, 2}, {0, 1, 1, 0, 2}, {3, 0, 0, 2, 4}, {0, 5, 1, 2, 4}, {2, 0, 0, 6, 1}}, 5}},
    {"{\\\r\n\nb}",
     {{{1, 0, 0, 0, 1}, {0, 5, 1, 4, 2}, {2, 0, 0, 6, 1}}, 3},
     {{{1, 0, 0, 0, 1}, {3, 0, 0, 1, 3}, {0, 5, 1, 4, 2}, {2, 0, 0, 6, 1}}, 4}},
    {"{\\\r\rb}",
     {{{1, 0, 0, 0, 1}, {2, 0, 0, 5, 1}}, 2},
     {{{1, 0, 0, 0, 1}, {3, 0, 0, 1, 4}, {0, 3, 2, 1, 4}, {2, 0, 0, 5, 1}}, 4}},
    /* A tail of white space is no text. */
    {"{\\\r \n}",
     {{{1, 0, 0, 0, 1}, {2, 0, 0, 5, 1}}, 2},
     {{{1, 0, 0, 0, 1}, {3, 0, 0, 1, 3}, {2, 0, 0, 5, 1}}, 3}},
    {"{\\\r\n\\\r}",
     {{{1, 0, 0, 0, 1}, {2, 0, 0, 6, 1}}, 2},
     {{{1, 0, 0, 0, 1}, {3, 0, 0, 1, 3}, {3, 0, 0, 4, 2}, {2, 0, 0, 6, 1}}, 4}},
    {"\\\r\n}",
     {{{2, 0, 0, 3, 1}}, 1},
     {{{3, 0, 0, 0, 3}, {2, 0, 0, 3, 1}}, 2}},
    /* Behind two backslashes, and behind a backslash and a line feed, it is text. */
    {"{\\\\\r\nb}",
     {{{1, 0, 0, 0, 1}, {0, 2, 2, 1, 3}, {0, 5, 1, 4, 2}, {2, 0, 0, 6, 1}}, 4},
     {{{1, 0, 0, 0, 1}, {0, 2, 2, 1, 3}, {0, 5, 1, 4, 2}, {2, 0, 0, 6, 1}}, 4}},
    {"{\\\n\rb}",
     {{{1, 0, 0, 0, 1}, {3, 0, 0, 1, 4}, {0, 3, 2, 1, 4}, {2, 0, 0, 5, 1}}, 4},
     {{{1, 0, 0, 0, 1}, {3, 0, 0, 1, 4}, {0, 3, 2, 1, 4}, {2, 0, 0, 5, 1}}, 4}},
};

static void test_returns_cut(void)
{
    for (size_t i = 0; i < COUNT(returned) * COUNT(numbers); i++) {
        const char *source = returned[i / COUNT(numbers)].source;
        uint32_t number = numbers[i % COUNT(numbers)];
        const struct returned *as = number == ELDUVARN_PARAGRAPHS
                                        ? &returned[i / COUNT(numbers)].paragraphs
                                        : &returned[i / COUNT(numbers)].plain;
        uint32_t records[RETURN_TOKENS * ELDUVARN_TOKEN_WORDS] = {0};
        for (uint32_t token = 0; token < as->count; token++) {
            uint32_t *record = records + token * ELDUVARN_TOKEN_WORDS;
            record[0] = as->tokens[token][0];
            memcpy(record + 4, as->tokens[token] + 1, 4 * sizeof *record);
        }
        size_t enough = (size_t)as->count * ELDUVARN_TOKEN_WORDS;
        cuts_to(source, strlen(source), number, enough, 0, 0, records, as->count);
        cuts_to(source, strlen(source), number, enough + 9, 0, 0, records, as->count);
        cuts_to(source, strlen(source), number, enough - 1, ELDUVARN_TOKEN_ROOM, 0, NULL, 0);
    }
}

/* Letters and their tokens in standard reading; 01's table of names has u at 2, b at 13. */
enum { MOST_STANDARD = 6 };
static const struct {
    const char *source;
    uint32_t count, tokens[MOST_STANDARD][ELDUVARN_TOKEN_WORDS];
} standard[] = {
    /* A word is letters and a number, and what follows is text; one space vanishes, and no tab. */
    {"{\\u8217?}", 4,
     {{1, 0, 0, 0, 0, 0, 0, 1}, {5, 2, 1, 8217, 0, 0, 1, 7}, {0, 0, 0, 0, 7, 1, 1, 7},
      {2, 0, 0, 0, 0, 0, 8, 1}}},
    {"{\\b2 a}", 4,
     {{1, 0, 0, 0, 0, 0, 0, 1}, {5, 13, 1, 2, 0, 0, 1, 5}, {0, 0, 0, 0, 5, 1, 1, 5},
      {2, 0, 0, 0, 0, 0, 6, 1}}},
    {"{\\b  }", 4,
     {{1, 0, 0, 0, 0, 0, 0, 1}, {5, 13, 0, 0, 0, 0, 1, 4}, {0, 0, 0, 0, 4, 1, 1, 4},
      {2, 0, 0, 0, 0, 0, 5, 1}}},
    {"{\\b\t}", 4,
     {{1, 0, 0, 0, 0, 0, 0, 1}, {5, 13, 0, 0, 0, 0, 1, 3}, {0, 0, 0, 0, 3, 1, 1, 3},
      {2, 0, 0, 0, 0, 0, 4, 1}}},
    {"{\\b-;}", 4,
     {{1, 0, 0, 0, 0, 0, 0, 1}, {5, 13, 0, 0, 0, 0, 1, 4}, {0, 0, 0, 0, 3, 2, 1, 4},
      {2, 0, 0, 0, 0, 0, 5, 1}}},
    {"{\\b-1-}", 4,
     {{1, 0, 0, 0, 0, 0, 0, 1}, {5, 13, 1, 4294967295u, 0, 0, 1, 5}, {0, 0, 0, 0, 5, 1, 1, 5},
      {2, 0, 0, 0, 0, 0, 6, 1}}},
    {"{\\B1}", 3,
     {{1, 0, 0, 0, 0, 0, 0, 1}, {5, 49, 1, 1, 1, 2, 1, 3}, {2, 0, 0, 0, 0, 0, 4, 1}}},
    /* Symbols and hex escapes; the mark and a symbol keep their tail, and no space vanishes. */
    {"{a\\~b}", 5,
     {{1, 0, 0, 0, 0, 0, 0, 2}, {0, 0, 0, 0, 1, 1, 0, 2}, {6, 126, 0, 0, 0, 0, 2, 3},
      {0, 0, 0, 0, 4, 1, 2, 3}, {2, 0, 0, 0, 0, 0, 5, 1}}},
    {"{\\_\\-}", 4,
     {{1, 0, 0, 0, 0, 0, 0, 1}, {6, 95, 0, 0, 0, 0, 1, 2}, {6, 45, 0, 0, 0, 0, 3, 2},
      {2, 0, 0, 0, 0, 0, 5, 1}}},
    {"{\\  a}", 4,
     {{1, 0, 0, 0, 0, 0, 0, 1}, {6, 32, 0, 0, 0, 0, 1, 4}, {0, 0, 0, 0, 3, 2, 1, 4},
      {2, 0, 0, 0, 0, 0, 5, 1}}},
    {"{\\'80}", 3,
     {{1, 0, 0, 0, 0, 0, 0, 1}, {6, 39, 1, 128, 0, 0, 1, 4}, {2, 0, 0, 0, 0, 0, 5, 1}}},
    {"{\\'81 }", 4,
     {{1, 0, 0, 0, 0, 0, 0, 1}, {6, 39, 1, 129, 0, 0, 1, 5}, {0, 0, 0, 0, 5, 1, 1, 5},
      {2, 0, 0, 0, 0, 0, 6, 1}}},
    {"{\\'+f0}", 4,
     {{1, 0, 0, 0, 0, 0, 0, 1}, {6, 39, 1, 15, 0, 0, 1, 5}, {0, 0, 0, 0, 5, 1, 1, 5},
      {2, 0, 0, 0, 0, 0, 6, 1}}},
    {"{\\* a}", 4,
     {{1, 0, 0, 0, 0, 0, 0, 1}, {4, 0, 0, 0, 0, 0, 1, 4}, {0, 0, 0, 0, 3, 2, 1, 4},
      {2, 0, 0, 0, 0, 0, 5, 1}}},
    /* A backslash and the byte behind it belong together: nothing is glued behind two. */
    {"{\\\\{a}}", 6,
     {{1, 0, 0, 0, 0, 0, 0, 1}, {0, 0, 0, 0, 2, 1, 1, 2}, {1, 0, 0, 0, 0, 0, 3, 2},
      {0, 0, 0, 0, 4, 1, 3, 2}, {2, 0, 0, 0, 0, 0, 5, 1}, {2, 0, 0, 0, 0, 0, 6, 1}}},
    {"{\\{a\\}}", 4,
     {{1, 0, 0, 0, 0, 0, 0, 1}, {0, 0, 0, 0, 2, 2, 1, 3}, {0, 0, 0, 0, 5, 1, 4, 2},
      {2, 0, 0, 0, 0, 0, 6, 1}}},
    /* Text of white space is text; raw line ends vanish, and start a slice each. */
    {"{ }", 3, {{1, 0, 0, 0, 0, 0, 0, 2}, {0, 0, 0, 0, 1, 1, 0, 2}, {2, 0, 0, 0, 0, 0, 2, 1}}},
    {"{a\r\nb}", 4,
     {{1, 0, 0, 0, 0, 0, 0, 2}, {0, 0, 0, 0, 1, 1, 0, 2}, {0, 0, 0, 0, 4, 1, 3, 2},
      {2, 0, 0, 0, 0, 0, 5, 1}}},
    /* A line feed directly behind a backslash and a carriage return belongs to that slice. */
    {"{\\\r\n\nb}", 4,
     {{1, 0, 0, 0, 0, 0, 0, 1}, {3, 0, 0, 0, 0, 0, 1, 3}, {0, 0, 0, 0, 5, 1, 4, 2},
      {2, 0, 0, 0, 0, 0, 6, 1}}},
    {"{\\\n\n \\\r\\\n}", 6,
     {{1, 0, 0, 0, 0, 0, 0, 1}, {3, 0, 0, 0, 0, 0, 1, 2}, {0, 0, 0, 0, 4, 1, 3, 2},
      {3, 0, 0, 0, 0, 0, 5, 2}, {3, 0, 0, 0, 0, 0, 7, 2}, {2, 0, 0, 0, 0, 0, 9, 1}}},
    {"{\\\\\r\nb}", 4,
     {{1, 0, 0, 0, 0, 0, 0, 1}, {0, 0, 0, 0, 2, 1, 1, 2}, {0, 0, 0, 0, 5, 1, 4, 2},
      {2, 0, 0, 0, 0, 0, 6, 1}}},
    {"", 0, {{0}}},
    {" \r\n ", 0, {{0}}},
};

/* Letters refused in standard reading. */
static const struct {
    const char *source;
    uint32_t refusal, place;
} refused_standard[] = {
    {"\x80", ELDUVARN_NOT_ASCII, 0},
    {"\\'}", ELDUVARN_HEX_SHORT, 0},
    {"{a\\'e}", ELDUVARN_HEX_SHORT, 2},
    {"{\\'8\r0}", ELDUVARN_HEX_SHORT, 1},
    {"{\\'zz}", ELDUVARN_HEX_BAD, 1},
    {" {\\\r\n\\'zz}", ELDUVARN_HEX_BAD, 5},
    {"{\\b2147483648}", ELDUVARN_NUMBER_BAD, 1},
    {"{\\rtf1 hello\\b-2147483649 }", ELDUVARN_NUMBER_BAD, 12},
    {"{\\b2147483648\\'zz}", ELDUVARN_NUMBER_BAD, 1},
    /* 3 to 5 come before 6, in the last slice too. */
    {"{a}\\'8", ELDUVARN_HEX_SHORT, 3},
    {"{a\\'zz", ELDUVARN_HEX_BAD, 2},
    {"{a}\\b2147483648", ELDUVARN_NUMBER_BAD, 3},
    {"{\\'zz}a", ELDUVARN_HEX_BAD, 1},
    {"a", ELDUVARN_LAST_SLICE, 0},
    {"{a}b", ELDUVARN_LAST_SLICE, 2}, /* b is of the slice of the bracket before it */
    {"\t {a} b\n", ELDUVARN_LAST_SLICE, 4},
    {"{a\nb", ELDUVARN_LAST_SLICE, 2},
    {"{\\}", ELDUVARN_LAST_SLICE, 1},
    {"{a}\\~", ELDUVARN_LAST_SLICE, 3},
    {"{a}\\*", ELDUVARN_LAST_SLICE, 3},
    {"{a}\\b- c", ELDUVARN_LAST_SLICE, 3},
    /* A backslash that ends the source; what is trimmed is no line break. */
    {"{a\\", ELDUVARN_LAST_SLICE, 2},
    {"{}\\\r\n", ELDUVARN_LAST_SLICE, 2},
    {"\\", ELDUVARN_LAST_SLICE, 0},
    {"", ELDUVARN_NO_TOKENS, 0},
    {" \r\n ", ELDUVARN_NO_TOKENS, 0},
    {"}", ELDUVARN_FIRST_TOKEN, 0},
    {"\\a-}", ELDUVARN_FIRST_TOKEN, 0},
    {" \\~{}", ELDUVARN_FIRST_TOKEN, 1},
    {"{\\\r\n\\fonttbl}", ELDUVARN_TABLE_LINE_BREAK, 4},
    {"{\\fonttbl\\f}", ELDUVARN_FONT_NUMBER, 9},
    {"{a\\f-1}", ELDUVARN_NUMBER_FIELD, 2},
    {"{\\u65?\\f-1}", ELDUVARN_NUMBER_FIELD, 6},
    {"{a\\*}", ELDUVARN_IGNORABLE_IN_BODY, 2},
    {"{}}}", ELDUVARN_NO_STATE, 3},
    {"{}}b}", ELDUVARN_NO_STATE, 2},
    {"{}}\\~}", ELDUVARN_NO_STATE, 3},
    {"{}}\\ }", ELDUVARN_NO_STATE, 3},
    {"{}}\\'41}", ELDUVARN_NO_STATE, 3},
    {"{}}\\u}", ELDUVARN_NO_STATE, 3},
    {"{a\\sl-2147483648}", ELDUVARN_LINE_SPACING, 2},
};

static void test_standard_cut(void)
{
    enum { ONE = ELDUVARN_TOKEN_WORDS };
    for (size_t i = 0; i < COUNT(standard); i++) {
        const char *source = standard[i].source;
        size_t enough = (size_t)standard[i].count * ONE;
        for (size_t room = 0; room < enough + ONE + 2; room++)
            if (room < enough)
                cuts_to(source, strlen(source), ELDUVARN_STANDARD, room, ELDUVARN_TOKEN_ROOM, 0,
                        NULL, 0);
            else
                cuts_to(source, strlen(source), ELDUVARN_STANDARD, room, 0, 0,
                        standard[i].tokens[0], standard[i].count);
    }
    for (size_t i = 0; i < COUNT(refused_standard); i++)
        if (refused_standard[i].refusal <= ELDUVARN_LAST_SLICE)
            for (size_t room = 0; room < 3; room++)
                cuts_to(refused_standard[i].source, strlen(refused_standard[i].source),
                        ELDUVARN_STANDARD, room * 5 * ONE, refused_standard[i].refusal,
                        refused_standard[i].place, NULL, 0);
}

static void test_cut(void)
{
    enum { ONE = ELDUVARN_TOKEN_WORDS };
    /* 01's table of names has b at 13 and fs at 10. */
    static const uint32_t styled[] = {
        1, 0,  0, 0,  0,  0, 0,  1, /* { */
        5, 13, 1, 1,  0,  0, 1,  3, /* b */
        5, 10, 1, 24, 0,  0, 4,  7, /* fs */
        0, 0,  0, 0,  10, 1, 4,  7, /* a, of the same slice */
        2, 0,  0, 0,  0,  0, 11, 1, /* } */
    };
    static const uint32_t minus[] = {
        1, 0, 0, 0,           0, 0, 0, 1, /* { */
        5, 2, 1, 4294963383u, 0, 0, 1, 8, /* u */
        2, 0, 0, 0,           0, 0, 9, 1, /* } */
    };
    static const uint32_t unknown[] = {
        5, 49, 1, 7, 0, 2, 0, 3, /* x */
        2, 0,  0, 0, 0, 0, 3, 1, /* } */
    };
    /* The text behind a bracket is of the bracket's slice; what is trimmed counts. */
    static const uint32_t behind[] = {
        1, 0, 0, 0, 0, 0, 2, 2, /* { */
        0, 0, 0, 0, 3, 1, 2, 2, /* a */
        2, 0, 0, 0, 0, 0, 4, 3, /* } */
        0, 0, 0, 0, 5, 2, 4, 3, /* bc */
        2, 0, 0, 0, 0, 0, 7, 1, /* } */
    };
    static const uint32_t close[] = {2, 0, 0, 0, 0, 0, 0, 1};
    const char *letter = "{\\b1\\fs24 a}";
    for (size_t room = 0; room < COUNT(styled); room++)
        cut_refuses(letter, strlen(letter), room, ELDUVARN_TOKEN_ROOM, 0);
    for (size_t more = 0; more < ONE + 2; more++)
        cuts(letter, strlen(letter), COUNT(styled) + more, styled, 5);
    cuts("{\\u-3913 }", 10, COUNT(minus), minus, 3);
    cuts("\\x7}", 4, COUNT(unknown), unknown, 2);
    cuts("\n {a}bc}\n", 9, COUNT(behind), behind, 5);
    cuts("", 0, 0, NULL, 0);
    cuts("", 0, 1, NULL, 0);
    cuts(" ", 1, ONE, NULL, 0);
    cuts("}", 1, ONE, close, 1);
    cut_refuses("}", 1, ONE - 1, ELDUVARN_TOKEN_ROOM, 0);
    for (size_t i = 0; i < COUNT(refused); i++)
        if (refused[i].refusal <= ELDUVARN_LAST_SLICE)
            cut_refuses(refused[i].source, strlen(refused[i].source), 10 * ONE, refused[i].refusal,
                        refused[i].place);
    test_returns_cut();
    test_standard_cut();
}

/* The reader. A letter with its counts, and its text in both readings. */

struct letter {
    const char *source;
    uint32_t tokens, fonts, colours, blocks;
    const char *text, *by_paragraphs;
};

typedef struct elduvarn_read_answer reading(const uint8_t *, size_t, uint32_t *, size_t,
                                            uint32_t *, size_t, uint32_t *, size_t, uint32_t *,
                                            size_t, uint8_t *, size_t);

enum { TOKENS, FONTS, COLOURS, BLOCKS, TEXT, ROOMS };

/* What a call of the reader left; room is the size of each, in elements. */
struct read {
    struct elduvarn_read_answer answer;
    uint32_t *words[4];
    uint8_t *text;
    size_t room[ROOMS];
};

static struct read read_in(reading *by, const char *source, size_t size, const size_t *room)
{
    struct read read;
    const uint8_t *letter = given_bytes(source, size);
    memcpy(read.room, room, sizeof read.room);
    for (int i = 0; i < 4; i++)
        read.words[i] = lend_words(room[i]);
    read.text = lend_bytes(room[TEXT]);
    will("%s reading of %zu bytes %.40s in %zu, %zu, %zu, %zu words and %zu bytes",
         by == elduvarn_read_plain      ? "plain"
         : by == elduvarn_read_standard ? "standard"
                                        : "paragraph",
         size, source, room[0], room[1], room[2], room[3], room[4]);
    read.answer = by(letter, size, read.words[0], room[0], read.words[1], room[1], read.words[2],
                     room[2], read.words[3], room[3], read.text, room[TEXT]);
    return read;
}

/* Whether all is as a refusal at that place leaves it. */
static int is_empty(const struct read *read, uint32_t place)
{
    const struct elduvarn_read_answer *is = &read->answer;
    int good = is->place == place && is->tokens == 0 && is->fonts == 0 && is->colours == 0 &&
               is->blocks == 0 && is->text == 0 &&
               holds_bytes(read->text, read->room[TEXT], NULL, 0);
    for (int i = 0; i < 4; i++)
        good &= holds_words(read->words[i], read->room[i], NULL, 0);
    return good;
}

static int has_counts(const struct read *read, const struct letter *letter, const char *text)
{
    const struct elduvarn_read_answer *is = &read->answer;
    return is->place == 0 && is->tokens == letter->tokens && is->fonts == letter->fonts &&
           is->colours == letter->colours && is->blocks == letter->blocks &&
           is->text == strlen(text) &&
           holds_bytes(read->text, read->room[TEXT], text, strlen(text));
}

static void just_enough(const struct letter *letter, const char *text, size_t *room)
{
    room[TOKENS] = letter->tokens * ELDUVARN_TOKEN_WORDS;
    room[FONTS] = letter->fonts * ELDUVARN_FONT_WORDS;
    room[COLOURS] = letter->colours * ELDUVARN_COLOUR_WORDS;
    room[BLOCKS] = letter->blocks * ELDUVARN_BLOCK_WORDS;
    room[TEXT] = strlen(text);
}

/* In rooms of just enough, of a few elements more, and each of them in turn one too small. */
static void reads(reading *by, const struct letter *letter, const char *text)
{
    static const uint32_t refusals[ROOMS] = {ELDUVARN_TOKEN_ROOM, ELDUVARN_FONT_ROOM,
                                             ELDUVARN_COLOUR_ROOM, ELDUVARN_BLOCK_ROOM,
                                             ELDUVARN_TEXT_ROOM};
    size_t size = strlen(letter->source), room[ROOMS];
    for (size_t more = 0; more < 3; more++) {
        just_enough(letter, text, room);
        for (int i = 0; i < ROOMS; i++)
            room[i] += more;
        struct read read = read_in(by, letter->source, size, room);
        told(has_counts(&read, letter, text), read.answer.refusal, 0);
        give_back();
    }
    for (int i = 0; i < ROOMS; i++) {
        just_enough(letter, text, room);
        if (room[i]-- == 0)
            continue;
        struct read read = read_in(by, letter->source, size, room);
        told(is_empty(&read, 0), read.answer.refusal, refusals[i]);
        give_back();
    }
}

/* 01, "Sample letters", those that are read; then tables, a paragraph and two styles. */
static const struct letter letters[] = {
    {"{}", 2, 0, 0, 0, "", ""},
    {"{\\u8212 \\'97}", 4, 0, 0, 1, "\xE2\x80\x94", "\xE2\x80\x94"},
    {"{\\'e9\\'e8}", 4, 0, 0, 1, "\xC3\xA9", "\xC3\xA9"},
    {"{\\u-3913 }", 3, 0, 0, 1, "\xEF\x82\xB7", "\xEF\x82\xB7"},
    {"{\\u-10179 \\u-8704 }", 4, 0, 0, 1, "\xF0\x9F\x98\x80", "\xF0\x9F\x98\x80"},
    {"{\\u-10179 }", 3, 0, 0, 1, "\xEF\xBF\xBD", "\xEF\xBF\xBD"},
    {"{\\u8217?}", 3, 0, 0, 0, "", ""},
    {"{a}}", 4, 0, 0, 1, "a", "a"},
    {"{a\\~b}", 3, 0, 0, 1, "a", "a"},
    {"{a{\\*x}b}", 7, 0, 0, 1, "ab", "ab"},
    {"{\\\\{a}}", 4, 0, 0, 1, "\\{a", "\\{a"},
    {"{\\fonttbl{\\f1 Arial;}}", 7, 2, 0, 0, "", ""},
    {"{\\colortbl\\red200\\green16\\blue46;}", 6, 0, 1, 0, "", ""},
    {"{a\\par b}", 5, 0, 0, 1, "ab", "a\nb"},
    {"{\\rtf1 a\\b b}", 6, 0, 0, 2, "ab", "ab"},
};

static const size_t ample[ROOMS] = {100 * ELDUVARN_TOKEN_WORDS, 20 * ELDUVARN_FONT_WORDS,
                                    20 * ELDUVARN_COLOUR_WORDS, 20 * ELDUVARN_BLOCK_WORDS, 100};
/* Those of 01. */
static reading *const readings[] = {elduvarn_read_plain, elduvarn_read_paragraphs};

static void refuses_by(reading *by, const char *source, size_t size, uint32_t refusal,
                       uint32_t place)
{
    struct read read = read_in(by, source, size, ample);
    told(is_empty(&read, place), read.answer.refusal, refusal);
    give_back();
}

static void refuses(const char *source, size_t size, uint32_t refusal, uint32_t place)
{
    for (size_t by = 0; by < COUNT(readings); by++)
        refuses_by(readings[by], source, size, refusal, place);
}

/* What the table of letters does not say: records. */
static void reads_records(reading *by, const char *source, int room, const uint32_t *records,
                          size_t words)
{
    struct read read = read_in(by, source, strlen(source), ample);
    told(read.answer.place == 0 && holds_words(read.words[room], ample[room], records, words),
         read.answer.refusal, 0);
    give_back();
}

/* A block's left, right and first line indent, and the bytes of its text. */
struct indented {
    int32_t indents[3];
    uint32_t length;
};

/* Letters of one style but for indents, with their blocks by paragraphs and in standard reading. */
static const struct {
    const char *source;
    struct indented blocks[3];
    uint32_t count;
} indented[] = {
    {"{\\li720\\ri-360\\fi15 a}", {{{720, -360, 15}, 1}}, 1},
    {"{\\li-2147483648\\ri2147483647\\fi-1 a}", {{{INT32_MIN, INT32_MAX, -1}, 1}}, 1},
    {"{a\\li5 b\\ri5 c}", {{{0, 0, 0}, 1}, {{5, 0, 0}, 1}, {{5, 5, 0}, 1}}, 3},
    /* No number is 0. */
    {"{\\li5\\ri5\\fi5 a\\li\\ri b\\fi c}",
     {{{5, 5, 5}, 1}, {{0, 0, 5}, 1}, {{0, 0, 0}, 1}}, 3},
    /* A group gives them back; pard clears all of them, plain none. */
    {"{\\li5 a{\\fi-5 b}c}", {{{5, 0, 0}, 1}, {{5, 0, -5}, 1}, {{5, 0, 0}, 1}}, 3},
    {"{{\\li5 a}b}", {{{5, 0, 0}, 1}, {{0, 0, 0}, 1}}, 2},
    {"{\\li1\\ri2\\fi3 a\\pard b}", {{{1, 2, 3}, 1}, {{0, 0, 0}, 1}}, 2},
    {"{\\li1\\ri2\\fi3 a{\\pard b}c}", {{{1, 2, 3}, 1}, {{0, 0, 0}, 1}, {{1, 2, 3}, 1}}, 3},
    {"{\\fi7 a\\plain b}", {{{0, 0, 7}, 2}}, 1},
    /* The same ones again part nothing. */
    {"{\\li5 a\\li6\\li5 b{\\li5 c}}", {{{5, 0, 0}, 3}}, 1},
};

static void reads_indented(reading *by, const char *source, const struct indented *blocks,
                           uint32_t count)
{
    uint32_t records[3 * ELDUVARN_BLOCK_WORDS] = {0}, place = 0;
    for (uint32_t i = 0; i < count; i++) {
        uint32_t *record = records + i * ELDUVARN_BLOCK_WORDS;
        record[SIZE] = 12;
        memcpy(record + LEFT, blocks[i].indents, sizeof blocks[i].indents);
        record[PLACE] = place;
        record[LENGTH] = blocks[i].length;
        place += blocks[i].length;
    }
    reads_records(by, source, BLOCKS, records, (size_t)count * ELDUVARN_BLOCK_WORDS);
}

/* In plain reading such a letter is one block. */
static void test_indents(void)
{
    for (size_t i = 0; i < COUNT(indented); i++) {
        struct indented flush = {{0, 0, 0}, 0};
        for (uint32_t block = 0; block < indented[i].count; block++)
            flush.length += indented[i].blocks[block].length;
        reads_indented(elduvarn_read_plain, indented[i].source, &flush, 1);
        reads_indented(elduvarn_read_paragraphs, indented[i].source, indented[i].blocks,
                       indented[i].count);
        reads_indented(elduvarn_read_standard, indented[i].source, indented[i].blocks,
                       indented[i].count);
    }
}

/* Letters with a backslash and a carriage return; of each pair the first is for plain reading. */
static const struct {
    const char *source;
    uint32_t tokens[2], blocks[2];
    const char *texts[2];
} broken[] = {
    {"{a\\\rb}", {3, 5}, {1, 1}, {"a", "a\nb"}},
    {"{a\\\r\nb}", {4, 5}, {1, 1}, {"ab", "a\nb"}},
    {"{\\\r}", {2, 3}, {0, 1}, {"", "\n"}},
    {"{\\\r\n\\\r}", {2, 4}, {0, 1}, {"", "\n\n"}},
    {"{\\\\\r\nb}", {4, 4}, {1, 1}, {"\\\rb", "\\\rb"}},
    {"{\\b a\\\r\\b0 b}", {6, 7}, {2, 2}, {"ab", "a\nb"}},
    {"{\\u65 \\\r\\u66 }", {4, 5}, {1, 1}, {"A", "A\nB"}},
    {"{{\\\r\\*x}b}", {6, 7}, {1, 1}, {"b", "b"}},
    /* By paragraphs c is the group's first token, so the group is not hidden. */
    {"{{\\\rc\\stylesheet x}b}", {7, 9}, {1, 1}, {"b", "\ncxb"}},
};
static const struct {
    const char *source;
    uint32_t refusals[2], places[2];
} refused_by[] = {
    {"{\\\r\\fonttbl}", {0, ELDUVARN_TABLE_LINE_BREAK}, {0, 3}},
    {"{\\\r\n\\fonttbl}", {0, ELDUVARN_TABLE_LINE_BREAK}, {0, 4}},
    {" {{\\\r\\\r\n\\colortbl}}", {0, ELDUVARN_TABLE_LINE_BREAK}, {0, 8}},
    {"{{\\\rc\\*x}b}", {0, ELDUVARN_IGNORABLE_IN_BODY}, {0, 5}},
    {"{}}\\\r}", {ELDUVARN_NO_STATE, ELDUVARN_NO_STATE}, {5, 3}},
    {"{}}\\\r\nb}", {ELDUVARN_NO_STATE, ELDUVARN_NO_STATE}, {5, 3}},
    {"\\\r{}", {0, ELDUVARN_FIRST_TOKEN}, {0, 0}},
};

static void test_returns_read(void)
{
    for (size_t by = 0; by < COUNT(readings); by++) {
        for (size_t i = 0; i < COUNT(broken); i++) {
            struct letter letter = {broken[i].source, broken[i].tokens[by], 0, 0,
                                    broken[i].blocks[by], "", ""};
            reads(readings[by], &letter, broken[i].texts[by]);
        }
        for (size_t i = 0; i < COUNT(refused_by); i++) {
            const char *source = refused_by[i].source;
            uint32_t refusal = refused_by[i].refusals[by];
            struct read read = read_in(readings[by], source, strlen(source), ample);
            told(refusal == 0 ? read.answer.place == 0
                              : is_empty(&read, refused_by[i].places[by]),
                 read.answer.refusal, refusal);
            give_back();
        }
    }
}

/* Letters in standard reading, with the flags of their blocks. */
static const struct {
    struct letter letter;
    uint32_t flags[2];
} by_standard[] = {
    {{"{}", 2, 0, 0, 0, "", ""}, {0, 0}},
    {{"{ }", 3, 0, 0, 1, " ", ""}, {0, 0}},
    {{"{a\\par b}", 5, 0, 0, 1, "a\nb", ""}, {0, 0}},
    {{"{a\r\nb\\\r\n c\\\nd}", 8, 0, 0, 1, "ab\n c\nd", ""}, {0, 0}},
    {{"{\\\\{a}}", 6, 0, 0, 1, "\\a", ""}, {0, 0}},
    {{"{\\\\\r\nb}", 4, 0, 0, 1, "\\b", ""}, {0, 0}},
    /* Behind a u word the next character is passed over, whatever it is: a byte of text, an escape,
     * a word, a symbol. It has no effect and no refusal. */
    {{"{\\u8217?}", 4, 0, 0, 1, "\xE2\x80\x99", ""}, {0, 0}},
    {{"{\\u8212 ?}", 4, 0, 0, 1, "\xE2\x80\x94", ""}, {0, 0}},
    {{"{\\u8212\\'97b}", 5, 0, 0, 1, "\xE2\x80\x94" "b", ""}, {0, 0}},
    {{"{\\u8212\\b a}", 5, 0, 0, 1, "\xE2\x80\x94" "a", ""}, {0, 0}},
    {{"{\\u233\\u232 ab}", 5, 0, 0, 1, "\xC3\xA9" "ab", ""}, {0, 0}},
    {{"{\\u65\\f-1\\u66\\*\\u67\\ a}", 9, 0, 0, 1, "ABCa", ""}, {0, 0}},
    {{"{\\u65\r\n?b}", 4, 0, 0, 1, "Ab", ""}, {0, 0}},
    {{"{\\u abc}", 4, 0, 0, 1, "bc", ""}, {0, 0}},
    {{"{\\uc2\\u8217??a}", 5, 0, 0, 1, "\xE2\x80\x99" "a", ""}, {0, 0}},
    {{"{\\uc3\\u65?\\b\\~a}", 8, 0, 0, 1, "Aa", ""}, {0, 0}},
    {{"{\\uc0\\u65\\u66?\\uc-1\\u67?}", 9, 0, 0, 1, "AB?C?", ""}, {0, 0}},
    {{"{\\uc\\u65?}", 5, 0, 0, 1, "A?", ""}, {0, 0}},
    /* A brace ends the skipping, that of a hidden group too. */
    {{"{\\uc2\\u8217{?b}}", 7, 0, 0, 1, "\xE2\x80\x99?b", ""}, {0, 0}},
    {{"{a{\\uc2\\u65}bc}", 8, 0, 0, 1, "aAbc", ""}, {0, 0}},
    {{"{\\u65{\\*\\x y}?}", 9, 0, 0, 1, "A?", ""}, {0, 0}},
    /* Units pair with only skipped characters between them, and what is read parts them. */
    {{"{\\u-10179?\\u-8704?}", 6, 0, 0, 1, "\xF0\x9F\x98\x80", ""}, {0, 0}},
    {{"{\\u-10179?\r\n\\u-8704?}", 6, 0, 0, 1, "\xF0\x9F\x98\x80", ""}, {0, 0}},
    {{"{\\u-10179?\\b\\u-8704?}", 7, 0, 0, 2, "\xEF\xBF\xBD\xEF\xBF\xBD", ""}, {0, 1}},
    {{"{\\u-10179?\\uc1\\u-8704?}", 7, 0, 0, 1, "\xEF\xBF\xBD\xEF\xBF\xBD", ""}, {0, 0}},
    {{"{\\u-10179?\\u?\\u-8704?}", 8, 0, 0, 1, "\xEF\xBF\xBD\xEF\xBF\xBD", ""}, {0, 0}},
    /* Any number but 0 turns a flag on. */
    {{"{\\b2 a}", 4, 0, 0, 1, "a", ""}, {1, 0}},
    {{"{\\i-1 a\\i0 b}", 6, 0, 0, 2, "ab", ""}, {2, 0}},
    {{"{\\ul a\\ulnone1 b}", 6, 0, 0, 2, "ab", ""}, {4, 0}},
    {{"{\\B a}", 4, 0, 0, 1, "a", ""}, {0, 0}},
    /* Symbols, and bytes by Windows-1252. */
    {{"{a\\~b}", 5, 0, 0, 1, "a\xC2\xA0" "b", ""}, {0, 0}},
    {{"{\\_\\- \\:c}", 7, 0, 0, 1, "\xE2\x80\x91\xC2\xAD c", ""}, {0, 0}},
    {{"{\\'80}", 3, 0, 0, 1, "\xE2\x82\xAC", ""}, {0, 0}},
    {{"{\\'81}", 3, 0, 0, 1, "\xEF\xBF\xBD", ""}, {0, 0}},
    {{"{\\'9f\\'a0\\'7f}", 5, 0, 0, 1, "\xC5\xB8\xC2\xA0\x7F", ""}, {0, 0}},
    {{"{\\'e9\\'e8\\'0a\\'0d}", 6, 0, 0, 1, "\xC3\xA9\xC3\xA8\n\r", ""}, {0, 0}},
    /* Tables; the `;` behind a colour is a text of its own. */
    {{"{\\fonttbl{\\f1 Arial;}}", 7, 2, 0, 0, "", ""}, {0, 0}},
    {{"{\\colortbl\\red200\\green16\\blue46;}", 7, 0, 1, 0, "", ""}, {0, 0}},
};

static void reads_flags(const struct letter *letter, const uint32_t *flags)
{
    struct read read =
        read_in(elduvarn_read_standard, letter->source, strlen(letter->source), ample);
    int good = has_counts(&read, letter, letter->text);
    for (uint32_t i = 0; good && i < letter->blocks; i++)
        good = read.words[BLOCKS][i * NEXT + FLAGS] == flags[i];
    told(good, read.answer.refusal, 0);
    give_back();
}

/* The longest text: three bytes for each two of the letter. */
static void test_longest_text(void)
{
    enum { PAIRS = ELDUVARN_MOST_SOURCE / 2 - 1, BYTES = 3 * PAIRS };
    static char letter[ELDUVARN_MOST_SOURCE];
    static uint8_t text[BYTES];
    static const size_t rooms[ROOMS] = {(PAIRS + 2) * ELDUVARN_TOKEN_WORDS, 0, 0,
                                        ELDUVARN_BLOCK_WORDS, ELDUVARN_MOST_TEXT};
    letter[0] = '{';
    for (size_t i = 0; i < PAIRS; i++) {
        memcpy(letter + 1 + 2 * i, "\\_", 2);
        memcpy(text + 3 * i, "\xE2\x80\x91", 3);
    }
    letter[ELDUVARN_MOST_SOURCE - 1] = '}';
    for (size_t less = 0; less < 2; less++) {
        size_t room[ROOMS];
        memcpy(room, rooms, sizeof room);
        room[TEXT] = less == 0 ? ELDUVARN_MOST_TEXT : BYTES - 1;
        struct read read = read_in(elduvarn_read_standard, letter, sizeof letter, room);
        if (less == 0)
            told(read.answer.place == 0 && read.answer.tokens == PAIRS + 2 &&
                     read.answer.text == BYTES && holds_bytes(read.text, room[TEXT], text, BYTES),
                 read.answer.refusal, 0);
        else
            told(is_empty(&read, 0), read.answer.refusal, ELDUVARN_TEXT_ROOM);
        give_back();
    }
}

static void test_standard_read(void)
{
    static const uint32_t fonts[] = {0, 0, 0, 1, 14, 5};
    static const uint32_t colours[] = {200 * 65536 + 16 * 256 + 46};
    for (size_t i = 0; i < COUNT(by_standard); i++) {
        const struct letter *letter = &by_standard[i].letter;
        reads(elduvarn_read_standard, letter, letter->text);
        reads_flags(letter, by_standard[i].flags);
    }
    reads_records(elduvarn_read_standard, "{\\fonttbl{\\f1 Arial;}}", FONTS, fonts, COUNT(fonts));
    reads_records(elduvarn_read_standard, "{\\colortbl\\red200\\green16\\blue46;}", COLOURS,
                  colours, COUNT(colours));
    for (size_t i = 0; i < COUNT(refused_standard); i++)
        refuses_by(elduvarn_read_standard, refused_standard[i].source,
                   strlen(refused_standard[i].source), refused_standard[i].refusal,
                   refused_standard[i].place);
    test_longest_text();
}

/* Both sides of 64 states, of 65,536 bytes. */
static void test_limits(void)
{
    static char letter[ELDUVARN_MOST_SOURCE + 1];
    static const size_t rooms[ROOMS] = {3 * ELDUVARN_TOKEN_WORDS, 0, 0, ELDUVARN_BLOCK_WORDS,
                                        ELDUVARN_MOST_SOURCE - 2};
    memset(letter, '{', 64);
    letter[63] = '}';
    struct read read = read_in(elduvarn_read_plain, letter, 64, ample);
    told(read.answer.place == 0 && read.answer.tokens == 64, read.answer.refusal, 0);
    give_back();
    letter[63] = '{';
    letter[64] = '}';
    refuses(letter, 65, ELDUVARN_TOO_DEEP, 63);
    refuses_by(elduvarn_read_standard, letter, 65, ELDUVARN_TOO_DEEP, 63);
    letter[64] = '{';
    letter[65] = '}';
    letter[0] = '\n';
    refuses(letter, 66, ELDUVARN_TOO_DEEP, 64);
    refuses_by(elduvarn_read_standard, letter, 66, ELDUVARN_TOO_DEEP, 64);

    memset(letter, 'a', sizeof letter);
    letter[0] = '{';
    letter[ELDUVARN_MOST_SOURCE - 1] = '}';
    read = read_in(elduvarn_read_plain, letter, ELDUVARN_MOST_SOURCE, rooms);
    told(read.answer.place == 0 && read.answer.text == ELDUVARN_MOST_SOURCE - 2 &&
             holds_bytes(read.text, rooms[TEXT], letter + 1, rooms[TEXT]),
         read.answer.refusal, 0);
    give_back();
    refuses(letter, sizeof letter, ELDUVARN_SOURCE_TOO_LONG, 0);
    refuses_by(elduvarn_read_standard, letter, sizeof letter, ELDUVARN_SOURCE_TOO_LONG, 0);
    cuts_to(letter, sizeof letter, ELDUVARN_STANDARD, ELDUVARN_TOKEN_WORDS,
            ELDUVARN_SOURCE_TOO_LONG, 0, NULL, 0);
    cut_refuses(letter, sizeof letter, ELDUVARN_TOKEN_WORDS, ELDUVARN_SOURCE_TOO_LONG, 0);
}

static void test_read(void)
{
    static const uint32_t fonts[] = {0, 0, 0, 1, 14, 5};
    static const uint32_t colours[] = {200 * 65536 + 16 * 256 + 46};
    static const uint32_t listing[] = {0, 0, 12, 0, 0, 0, 0, 0, 0, 0, 0, 0, 0, 0, 0, 1,
                                       0, 0, 12, 1, 0, 0, 0, 0, 0, 0, 0, 0, 0, 0, 1, 1};
    for (size_t i = 0; i < COUNT(letters); i++) {
        reads(elduvarn_read_plain, &letters[i], letters[i].text);
        reads(elduvarn_read_paragraphs, &letters[i], letters[i].by_paragraphs);
    }
    for (size_t i = 0; i < COUNT(readings); i++) {
        reading *by = readings[i];
        reads_records(by, "{\\fonttbl{\\f1 Arial;}}", FONTS, fonts, COUNT(fonts));
        reads_records(by, "{\\colortbl\\red200\\green16\\blue46;}", COLOURS, colours,
                      COUNT(colours));
        reads_records(by, "{\\rtf1 a\\b b}", BLOCKS, listing, COUNT(listing));
    }
    test_indents();
    test_returns_read();
    for (size_t i = 0; i < COUNT(refused); i++)
        refuses(refused[i].source, strlen(refused[i].source), refused[i].refusal, refused[i].place);
    test_standard_read();
    test_limits();
}

/* The stored form. Blocks and text, and their list. */

struct stored {
    const char *name;
    uint32_t blocks[2 * ELDUVARN_BLOCK_WORDS];
    uint32_t count;
    const char *text;
    uint8_t list[48];
    size_t bytes;
};

static const struct stored stored[] = {
    {"no blocks", {0}, 0, "", {0}, 1},
    {"one block", {0, 0, 12, 0, 0, 0, 0, 0, 0, 0, 0, 0, 0, 0, 0, 1}, 1, "a",
     {1, 0, 0, 12, 0, 0, 0, 0, 0, 0, 0, 0, 1, 'a'}, 14},
    {"the sample listing",
     {0, 0, 12, 0, 0, 0, 0, 0, 0, 0, 0, 0, 0, 0, 0, 1,
      0, 0, 12, 1, 0, 0, 0, 0, 0, 0, 0, 0, 0, 0, 1, 1}, 2, "ab",
     {2, 0, 0, 12, 0, 0, 0, 0, 0, 0, 0, 0, 1, 'a', 0, 0, 12, 1, 0, 0, 0, 0, 0, 0, 0, 1, 'b'}, 27},
    /* Each field at its end, folded words -1, -2147483648, 2147483647 and 64. */
    {"ends of ranges",
     {65535, 128, 0, 127, 3, 4294967295u, 2147483648u, 1, 2147483647, 2147483647, 64, 0, 0, 0, 0,
      2}, 1, "\xC3\xA9",
     {1, 255, 255, 3, 128, 1, 0, 127, 3, 1, 255, 255, 255, 255, 15, 1, 255, 255, 255, 255, 7, 254,
      255, 255, 255, 15, 128, 1, 2, 0xC3, 0xA9}, 31},
};

static void checks(const uint8_t *list, size_t bytes, uint32_t refusal, const char *name)
{
    const uint8_t *source = given_bytes(list, bytes);
    will("check of %zu bytes, %s", bytes, name);
    told(1, elduvarn_stored_check(source, bytes), refusal);
    give_back();
}

/* Reads a list in rooms of such sizes. Expected are the blocks and text of `as`, or a refusal. */
static void reads_list(const uint8_t *list, size_t bytes, size_t words, size_t text,
                       uint32_t refusal, const struct stored *as, const char *name)
{
    const uint8_t *source = given_bytes(list, bytes);
    uint32_t *block_room = lend_words(words);
    uint8_t *text_room = lend_bytes(text);
    will("reading of a list, %s, in %zu words and %zu bytes", name, words, text);
    struct elduvarn_stored_read_answer is =
        elduvarn_stored_read(source, bytes, block_room, words, text_room, text);
    uint32_t blocks = refusal == 0 ? as->count : 0;
    size_t length = refusal == 0 ? strlen(as->text) : 0;
    int good = is.blocks == blocks && is.text == length &&
               holds_words(block_room, words, as->blocks, (size_t)blocks * ELDUVARN_BLOCK_WORDS) &&
               holds_bytes(text_room, text, as->text, length);
    told(good, is.refusal, refusal);
    give_back();
}

/* Writes blocks and text into a room of such a size. Expected is a list, or a refusal. */
static void writes(const uint32_t *blocks, size_t words, const char *text, size_t length,
                   size_t room, uint32_t refusal, const struct stored *as, const char *name)
{
    const uint32_t *block_words = given_words(blocks, words);
    const uint8_t *text_bytes = given_bytes(text, length);
    uint8_t *list = lend_bytes(room);
    will("writing, %s, in %zu bytes", name, room);
    struct elduvarn_stored_write_answer is =
        elduvarn_stored_write(block_words, words, text_bytes, length, list, room);
    size_t bytes = refusal == 0 ? as->bytes : 0;
    int good = is.bytes == bytes && holds_bytes(list, room, as->list, bytes);
    told(good, is.refusal, refusal);
    give_back();
}

/* Every size of each room up to more than enough, and every start of the list. */
static void test_good(const struct stored *it)
{
    size_t words = (size_t)it->count * ELDUVARN_BLOCK_WORDS, text = strlen(it->text);
    checks(it->list, it->bytes, 0, it->name);
    for (size_t end = 0; end < it->bytes; end++)
        checks(it->list, end, ELDUVARN_STORED_SHORT, it->name);
    for (size_t size = 0; size < words + 2; size++)
        reads_list(it->list, it->bytes, size, text, size < words ? ELDUVARN_BLOCK_ROOM : 0, it,
                   it->name);
    for (size_t size = 0; size < text + 3; size++)
        reads_list(it->list, it->bytes, words, size, size < text ? ELDUVARN_TEXT_ROOM : 0, it,
                   it->name);
    for (size_t room = 0; room < it->bytes + 3; room++)
        writes(it->blocks, words, it->text, text, room,
               room < it->bytes ? ELDUVARN_OUTPUT_ROOM : 0, it, it->name);
    if (words > 0)
        reads_list(it->list, it->bytes, 0, 0, ELDUVARN_BLOCK_ROOM, it, it->name);
}

/* The list of one block with `bytes` in place of the byte at `place`, or behind the list. */
static const struct {
    const char *name;
    size_t place;
    uint8_t bytes[6];
    size_t count;
    uint32_t refusal;
} damaged[] = {
    {"a count of six groups", 0, {128, 128, 128, 128, 128, 0}, 6, ELDUVARN_STORED_NUMBER},
    {"a count not shortest", 0, {129, 0}, 2, ELDUVARN_STORED_NUMBER},
    {"a colour of 2^32", 1, {128, 128, 128, 128, 16}, 5, ELDUVARN_STORED_NUMBER},
    {"a tab not shortest", 11, {128, 0}, 2, ELDUVARN_STORED_NUMBER},
    {"a length not shortest", 12, {129, 128, 0}, 3, ELDUVARN_STORED_NUMBER},
    {"a block missing", 0, {2}, 1, ELDUVARN_STORED_SHORT},
    {"a text too short", 12, {2}, 1, ELDUVARN_STORED_SHORT},
    {"the largest length", 12, {255, 255, 255, 255, 15}, 5, ELDUVARN_STORED_SHORT},
    {"a byte left over", 14, {0}, 1, ELDUVARN_STORED_LONG},
    {"a block left over", 0, {0}, 1, ELDUVARN_STORED_LONG},
    {"a colour of 65,536", 1, {128, 128, 4}, 3, ELDUVARN_STORED_FIELD},
    {"a font of 65,536", 2, {128, 128, 4}, 3, ELDUVARN_STORED_FIELD},
    {"a size of 65,536", 3, {128, 128, 4}, 3, ELDUVARN_STORED_FIELD},
    {"flags of 128", 4, {128, 1}, 2, ELDUVARN_STORED_FIELD},
    {"an alignment of 4", 5, {4}, 1, ELDUVARN_STORED_FIELD},
    {"a line kind of 2", 8, {2}, 1, ELDUVARN_STORED_FIELD},
    {"an automatic line of 1", 9, {1}, 1, ELDUVARN_STORED_FIELD},
    {"no text", 12, {0}, 1, ELDUVARN_STORED_FIELD},
    {"half a character", 13, {0xC3}, 1, ELDUVARN_STORED_FIELD},
    {"no text, though bytes are there", 12, {0, 97, 97}, 3, ELDUVARN_STORED_FIELD},
};

static void test_damaged(void)
{
    const struct stored *one = &stored[1];
    for (size_t i = 0; i < COUNT(damaged); i++) {
        uint8_t list[24];
        size_t place = damaged[i].place, bytes = place;
        memcpy(list, one->list, place);
        memcpy(list + bytes, damaged[i].bytes, damaged[i].count);
        bytes += damaged[i].count;
        if (place < one->bytes) {
            memcpy(list + bytes, one->list + place + 1, one->bytes - place - 1);
            bytes += one->bytes - place - 1;
        }
        checks(list, bytes, damaged[i].refusal, damaged[i].name);
        reads_list(list, bytes, NEXT, 1, damaged[i].refusal, one, damaged[i].name);
    }
    uint8_t twice[27];
    memcpy(twice, stored[2].list, sizeof twice);
    twice[17] = 0;
    checks(twice, sizeof twice, ELDUVARN_STORED_FIELD, "two blocks of one style");
    reads_list(twice, sizeof twice, 2 * NEXT, 2, ELDUVARN_STORED_FIELD, one,
               "two blocks of one style");
    reads_list(twice, sizeof twice, 0, 0, ELDUVARN_BLOCK_ROOM, one, "two blocks of one style");
}

/* The records of the sample listing with another word in a place. */
static const struct {
    const char *name;
    size_t place;
    uint32_t word;
} wrong[] = {
    {"a colour of 65,536", COLOUR, 65536},
    {"a font of -1", FONT, 4294967295u},
    {"a size of 65,536", NEXT + SIZE, 65536},
    {"flags of 128", FLAGS, 128},
    {"an alignment of 4", NEXT + ALIGNMENT, 4},
    {"a line kind of 2", LINE_KIND, 2},
    {"an automatic line of 1", LINE_VALUE, 1},
    {"the style of the block before", NEXT + FLAGS, 0},
    {"a text that starts at 1", PLACE, 1},
    {"a gap between texts", NEXT + PLACE, 2},
    {"texts that overlap", NEXT + PLACE, 0},
    {"an empty text", LENGTH, 0},
    {"a text past the end", NEXT + LENGTH, 2},
    {"a text past 2^31", NEXT + LENGTH, 2147483648u},
};

static void test_wrong(void)
{
    const struct stored *two = &stored[2];
    uint32_t blocks[2 * NEXT];
    for (size_t i = 0; i < COUNT(wrong); i++) {
        memcpy(blocks, two->blocks, sizeof blocks);
        blocks[wrong[i].place] = wrong[i].word;
        writes(blocks, 2 * NEXT, "ab", 2, 27, ELDUVARN_STORED_FIELD, two, wrong[i].name);
        writes(blocks, 2 * NEXT, "ab", 2, 0, ELDUVARN_STORED_FIELD, two, wrong[i].name);
        /* An indent is told only of records that have no other fault. */
        blocks[LEFT] = blocks[NEXT + LEFT] = 720;
        writes(blocks, 2 * NEXT, "ab", 2, 27, ELDUVARN_STORED_FIELD, two, wrong[i].name);
    }
    for (size_t words = 1; words < 2 * NEXT; words++)
        writes(two->blocks, words, "ab", 2, 27, ELDUVARN_STORED_FIELD, two, "other words");
    writes(two->blocks, 2 * NEXT, "abc", 3, 28, ELDUVARN_STORED_FIELD, two, "text left over");
    writes(two->blocks, 2 * NEXT, "a", 1, 27, ELDUVARN_STORED_FIELD, two, "text missing");
    writes(two->blocks, 0, "a", 1, 27, ELDUVARN_STORED_FIELD, two, "text without blocks");
    writes(two->blocks, 2 * NEXT, "\xC3\xA9", 2, 27, ELDUVARN_STORED_FIELD, two,
           "a split character");
}

/* Each indent of each block, in rooms of every size: 26 comes before 25. It may be all that parts
 * the two styles. */
static void test_indent_not_zero(void)
{
    static const size_t places[] = {LEFT, RIGHT, FIRST_LINE, NEXT + LEFT, NEXT + RIGHT,
                                    NEXT + FIRST_LINE};
    static const uint32_t words[] = {1, 720, 2147483648u, 4294967295u};
    const struct stored *two = &stored[2];
    uint32_t blocks[2 * NEXT];
    for (size_t i = 0; i < COUNT(places) * COUNT(words); i++) {
        memcpy(blocks, two->blocks, sizeof blocks);
        blocks[places[i / COUNT(words)]] = words[i % COUNT(words)];
        for (size_t room = 0; room < two->bytes + 2; room++)
            writes(blocks, 2 * NEXT, "ab", 2, room, ELDUVARN_INDENT_NOT_ZERO, two, "an indent");
        blocks[NEXT + FLAGS] = 0;
        for (size_t room = 0; room < two->bytes + 2; room++)
            writes(blocks, 2 * NEXT, "ab", 2, room, ELDUVARN_INDENT_NOT_ZERO, two,
                   "styles that an indent alone parts");
        writes(blocks, 2 * NEXT - 1, "ab", 2, 27, ELDUVARN_STORED_FIELD, two, "a word missing");
        writes(blocks, 2 * NEXT, "abc", 3, 28, ELDUVARN_STORED_FIELD, two, "text left over");
    }
}

/* A letter is read, stored, checked and read back, each in rooms of just enough. */
static void round_trip(reading *by, const char *shown)
{
    static const char letter[] =
        "{\\rtf1{\\fonttbl{\\f0 Helvetica;}}\\fs24 Caf\\'e9 {\\b bold\\i  both}\\par "
        "\\pard\\qj\\sb120\\sa-120\\sl-276\\slmul1 \\u8212 dash\\cf2  coloured}";
    struct read read = read_in(by, letter, strlen(letter), ample);
    size_t words = (size_t)read.answer.blocks * ELDUVARN_BLOCK_WORDS, text = read.answer.text;
    size_t most = elduvarn_stored_most(read.answer.blocks, text);
    told(read.answer.place == 0 && read.answer.blocks == 6 && text == strlen(shown) &&
             holds_bytes(read.text, ample[TEXT], shown, text),
         read.answer.refusal, 0);
    will("storing and reading back that letter");

    const uint32_t *blocks = given_words(read.words[BLOCKS], words);
    const uint8_t *text_bytes = given_bytes(read.text, text);
    uint8_t *wide = lend_bytes(most);
    struct elduvarn_stored_write_answer written =
        elduvarn_stored_write(blocks, words, text_bytes, text, wide, most);
    size_t bytes = written.bytes;
    told(bytes <= most, written.refusal, 0);

    const uint8_t *list = given_bytes(wide, bytes);
    told(1, elduvarn_stored_check(list, bytes), 0);
    uint32_t *block_room = lend_words(words);
    uint8_t *text_room = lend_bytes(text);
    struct elduvarn_stored_read_answer back =
        elduvarn_stored_read(list, bytes, block_room, words, text_room, text);
    told(back.blocks == read.answer.blocks && back.text == text &&
             holds_words(block_room, words, blocks, words) &&
             holds_bytes(text_room, text, text_bytes, text),
         back.refusal, 0);
    give_back();
}

/* In standard reading the space behind the hex escape stays, and the d behind the dash is passed
 * over. */
static void test_round_trip(void)
{
    round_trip(elduvarn_read_paragraphs,
               "Caf\xC3\xA9" "bold both\n\xE2\x80\x94" "dash coloured");
    round_trip(elduvarn_read_standard,
               "Caf\xC3\xA9 bold both\n\xE2\x80\x94" "ash coloured");
}

static void test_stored(void)
{
    for (size_t i = 0; i < COUNT(stored); i++)
        test_good(&stored[i]);
    checks(stored[0].list, 0, ELDUVARN_STORED_SHORT, "no bytes");
    test_damaged();
    test_wrong();
    test_indent_not_zero();
    test_round_trip();
}

/* Which refusals carry a place: 3 to 6 and 9 to 16. */
static void test_has_place(void)
{
    static const char has[] = "...yyyy..yyyyyyyy...........";
    for (uint32_t refusal = 0; refusal + 1 < sizeof has; refusal++) {
        will("whether %u has a place", (unsigned)refusal);
        told(elduvarn_refusal_has_place(refusal) == (has[refusal] == 'y'), refusal, refusal);
    }
}

int main(int count, char **words)
{
    if (count == 2 && strcmp(words[1], "names") == 0) {
        for (uint32_t refusal = 1; refusal <= ELDUVARN_INDENT_NOT_ZERO; refusal++)
            printf("%u %s\n", (unsigned)refusal, elduvarn_refusal_name(refusal));
        return 0;
    }
    signal(SIGSEGV, stepped_outside);
    signal(SIGBUS, stepped_outside);
    test_has_place();
    for (layout = 0; layout < LAYOUTS; layout++) {
        test_cut();
        test_read();
        test_stored();
    }
    printf("test: %d passed, %d failed\n", passed, failed);
    return failed > 0;
}
