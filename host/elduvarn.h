/* Elduvarn for hosts in C and C++: RTF letters are cut and read, lists of blocks are stored.
 *
 * Link one archive, `rt lib` in crates/host writes it: crates/host/out/libhost.a, for x86-64. Of the
 * C library it calls memcpy and memset alone.
 *
 * Every slice is a pointer and then a length, counted in elements: bytes of a uint8_t, words of a
 * uint32_t. No pointer may be null, that of an empty slice neither; each is aligned for its
 * elements; a room overlaps no other slice of its call. That is all a host has to keep to: lengths
 * and contents are free. No memory is allocated, nothing is kept behind a call.
 *
 * A room is lent to be written. It holds whole records only: of 20 words for tokens, 16 count. On
 * success the records and bytes that the counts tell stand at its start, and all behind them is
 * zero. On a refusal all counts are 0 and all rooms are zero. What was in a room is never read. */

#ifndef ELDUVARN_H
#define ELDUVARN_H

#include <stddef.h>
#include <stdint.h>

#ifdef __cplusplus
extern "C" {
#endif

/* Why a letter or a list is refused: docs/REFUSALS.md, by number and name. */
enum elduvarn_refusal {
    ELDUVARN_SUCCESS = 0,
    /* by the cutter and the reader */
    ELDUVARN_SOURCE_TOO_LONG = 1,    /* over 65,536 bytes */
    ELDUVARN_NOT_ASCII = 2,          /* a byte above 127 */
    ELDUVARN_HEX_SHORT = 3,          /* \' with fewer than two bytes left in its slice */
    ELDUVARN_HEX_BAD = 4,            /* those two bytes are no number */
    ELDUVARN_NUMBER_BAD = 5,         /* a word's number is no 32-bit signed decimal */
    ELDUVARN_LAST_SLICE = 6,         /* the last slice is not } alone; in standard reading: the last
                                        token is no closing bracket */
    ELDUVARN_TOKEN_ROOM = 7,         /* more tokens than the room holds */
    /* by the reader */
    ELDUVARN_NO_TOKENS = 8,          /* the source is blank */
    ELDUVARN_FIRST_TOKEN = 9,        /* the first token is no opening bracket */
    ELDUVARN_TABLE_LINE_BREAK = 10,  /* line breaks between a bracket and its table's word */
    ELDUVARN_FONT_NUMBER = 11,       /* \f without a number in a font table */
    ELDUVARN_NUMBER_FIELD = 12,      /* a number does not fit its field */
    ELDUVARN_IGNORABLE_IN_BODY = 13, /* \* in the body */
    ELDUVARN_NO_STATE = 14,          /* a bracket closed, a word, symbol or text with no state left */
    ELDUVARN_LINE_SPACING = 15,      /* \sl-2147483648 */
    ELDUVARN_TOO_DEEP = 16,          /* an opening bracket with 64 states held */
    ELDUVARN_FONT_ROOM = 17,         /* a font beyond 256 or the room */
    ELDUVARN_COLOUR_ROOM = 18,       /* a colour beyond 256 or the room */
    /* by the reader and by elduvarn_stored_read */
    ELDUVARN_BLOCK_ROOM = 19,        /* a block beyond the room */
    ELDUVARN_TEXT_ROOM = 20,         /* text beyond the room, or beyond 2,147,483,647 bytes */
    /* by the stored form */
    ELDUVARN_STORED_NUMBER = 21,     /* a sixth group, not shortest, or above 4,294,967,295 */
    ELDUVARN_STORED_SHORT = 22,      /* the list ends early */
    ELDUVARN_STORED_LONG = 23,       /* the list has bytes left over */
    ELDUVARN_STORED_FIELD = 24,      /* a field or a block breaks a rule */
    ELDUVARN_OUTPUT_ROOM = 25,       /* the list does not fit its room */
    ELDUVARN_INDENT_NOT_ZERO = 26    /* a block has an indent, which a list cannot hold */
};

/* Where a letter is refused. 3 to 6 and 9 to 16 carry the place of the slice; the others 0, and so
 * does success. It is the slice that is refused, or that the refused token was cut from; for 10,
 * that of the table's word. A place counts the source's bytes from 0, white space in front too.
 *
 * A slice starts where the letter does, and at each {, }, \ and line feed that has no \ before it;
 * by paragraphs, at no line feed that is directly behind the \ and carriage return of a line break.
 * In standard reading one starts at each {, }, \, carriage return and line feed, but not right
 * behind the \ that starts a slice, nor at a line feed right behind such a \ and a carriage return.
 * So {\f-1} is refused by 12 at 1; and since the text behind a bracket belongs to the bracket's
 * slice, {}}b} is refused by 14 at 2.
 *
 * In standard reading the whole letter is cut before 6 is told: 3 to 5 come first, wherever they
 * stand. In the other two the last slice is not cut. */

/* Words of a record.
 *
 * Token: kind (0 text, 1 open, 2 close, 3 line break, 4 ignorable, 5 word, 6 symbol), word number,
 * 1 if a number is present, that number modulo 2^32, source place and length (of a text or an
 * unknown word), source place and length of the slice that the token was cut from.
 * Kind 6 is of standard reading alone: the byte behind the backslash stands in place of the word
 * number. \'hh is byte 39 with a number, the byte that hh says; no other symbol has a number. A
 * backslash that ends the source is symbol 0: no room ever holds it, as such a letter is refused by
 * 6, or by 3 to 5 before it.
 * Font: key, source place and length of the name. Colour: red * 65536 + green * 256 + blue.
 * Block, each word a signed one modulo 2^32: colour, font, size, flags (1 bold, 2 italic,
 * 4 underline, 8 super, 16 sub, 32 small capitals, 64 strike), alignment (0 left, 1 right,
 * 2 centre, 3 justified), before, after, line kind (0 automatic, 1 value), line value, multiplier,
 * tab, left, right and first line indent, text place, text length. */
enum {
    ELDUVARN_TOKEN_WORDS = 8,
    ELDUVARN_FONT_WORDS = 3,
    ELDUVARN_COLOUR_WORDS = 1,
    ELDUVARN_BLOCK_WORDS = 16
};

/* No longer source is read, no more fonts or colours; and no letter has more bytes of text. */
enum {
    ELDUVARN_MOST_SOURCE = 65536,
    ELDUVARN_MOST_FONTS = 256,
    ELDUVARN_MOST_COLOURS = 256,
    ELDUVARN_MOST_TEXT = 98304
};

/* For which reading a letter is cut. Plain and paragraph reading differ where a slice starts with \
 * and a carriage return: by paragraphs that is a line break, a line feed directly behind belongs to
 * it, and the text that follows is kept; plainly it is nothing, and the rest of the slice is lost.
 * Standard reading cuts by rules of its own, those of RTF 1.9.1: a word is letters, a number or
 * none, and one space or none; all that follows it is text; symbols and hex escapes are tokens of
 * kind 6; raw carriage returns and line feeds vanish. Any other number is plain. */
enum elduvarn_reading { ELDUVARN_PLAIN = 0, ELDUVARN_PARAGRAPHS = 1, ELDUVARN_STANDARD = 2 };

struct elduvarn_cut_answer {
    uint32_t refusal, place, tokens;
};

/* Cuts a letter into tokens. Refusals 1 to 7. A letter of n bytes has at most n tokens. */
struct elduvarn_cut_answer elduvarn_cut(const uint8_t *source, size_t source_len, uint32_t reading,
                                        uint32_t *tokens, size_t tokens_len);

struct elduvarn_read_answer {
    uint32_t refusal, place, tokens, fonts, colours, blocks, text;
};

/* Reads a letter: tokens, font and colour table, blocks, and their text in UTF-8. Refusals 1 to 20.
 * A letter of n bytes has at most n tokens, n blocks and n bytes of text. Indents are 0. */
struct elduvarn_read_answer elduvarn_read_plain(const uint8_t *source, size_t source_len,
                                                uint32_t *tokens, size_t tokens_len,
                                                uint32_t *fonts, size_t fonts_len,
                                                uint32_t *colours, size_t colours_len,
                                                uint32_t *blocks, size_t blocks_len,
                                                uint8_t *text, size_t text_len);

/* The same, but the letter is cut by paragraphs, each \par adds a line feed to the text, and \li,
 * \ri and \fi set indents. */
struct elduvarn_read_answer elduvarn_read_paragraphs(const uint8_t *source, size_t source_len,
                                                     uint32_t *tokens, size_t tokens_len,
                                                     uint32_t *fonts, size_t fonts_len,
                                                     uint32_t *colours, size_t colours_len,
                                                     uint32_t *blocks, size_t blocks_len,
                                                     uint8_t *text, size_t text_len);

/* The same by the RTF 1.9.1 specification: the letter is cut for standard reading; behind each \u
 * the next characters are passed over, as many as \uc says; any number but 0 turns a flag on; \~,
 * \_ and \- are U+00A0, U+2011 and U+00AD; hex escapes are Windows-1252, and U+FFFD where it has
 * no character; \par adds a line feed, and indents are set. What it leaves out of RTF 1.9.1 is in
 * docs/DIFFERENCES.md.
 *
 * The text may be longer than the letter, as \_ gives three bytes for two: a letter of n bytes has
 * at most 3 * n / 2 bytes of text. ELDUVARN_MOST_TEXT bytes hold that of any letter. */
struct elduvarn_read_answer elduvarn_read_standard(const uint8_t *source, size_t source_len,
                                                   uint32_t *tokens, size_t tokens_len,
                                                   uint32_t *fonts, size_t fonts_len,
                                                   uint32_t *colours, size_t colours_len,
                                                   uint32_t *blocks, size_t blocks_len,
                                                   uint8_t *text, size_t text_len);

/* The refusal of a stored list, as if its rooms were ample: 0, or 20 to 24; 20 only where its text
 * passes 2,147,483,647 bytes. */
uint32_t elduvarn_stored_check(const uint8_t *list, size_t list_len);

struct elduvarn_stored_read_answer {
    uint32_t refusal;
    size_t blocks, text;
};

/* Reads a stored list into blocks and text. Refusals 19 to 24. Indents are 0. */
struct elduvarn_stored_read_answer elduvarn_stored_read(const uint8_t *list, size_t list_len,
                                                        uint32_t *blocks, size_t blocks_len,
                                                        uint8_t *text, size_t text_len);

struct elduvarn_stored_write_answer {
    uint32_t refusal;
    size_t bytes;
};

/* Writes the stored list of blocks and their text. Refusals 24, 26 and 25, in this order. The blocks
 * are those of a reading, without the zeros behind them: lengths count what is to be stored. */
struct elduvarn_stored_write_answer elduvarn_stored_write(const uint32_t *blocks, size_t blocks_len,
                                                          const uint8_t *text, size_t text_len,
                                                          uint8_t *list, size_t list_len);

/* What follows is C for the host's ease, outside the archive and its proof. */

/* Bytes that hold the stored list of so many blocks and bytes of text, whatever they are: a block
 * count of five groups; per block at most 42 groups (3 times 3, 1, 1, 2 times 5, 1, 4 times 5). */
static inline size_t elduvarn_stored_most(size_t blocks, size_t text)
{
    return 5 + 42 * blocks + text;
}

/* The name in docs/REFUSALS.md; "Success" for 0. */
static inline const char *elduvarn_refusal_name(uint32_t refusal)
{
    static const char *const names[] = {
        "Success",        "SourceTooLong",   "NotAscii",    "HexShort",    "HexBad",
        "NumberBad",      "LastSlice",       "TokenRoom",   "NoTokens",    "FirstToken",
        "TableLineBreak", "FontNumber",      "NumberField", "IgnorableInBody",
        "NoState",        "LineSpacing",     "TooDeep",     "FontRoom",    "ColourRoom",
        "BlockRoom",      "TextRoom",        "StoredNumber", "StoredShort", "StoredLong",
        "StoredField",    "OutputRoom",      "IndentNotZero",
    };
    return refusal < sizeof names / sizeof *names ? names[refusal] : "no refusal";
}

/* Whether a refusal carries a place. A place of 0 may be one, too: the source's first byte. */
static inline int elduvarn_refusal_has_place(uint32_t refusal)
{
    return (refusal >= ELDUVARN_HEX_SHORT && refusal <= ELDUVARN_LAST_SLICE) ||
           (refusal >= ELDUVARN_FIRST_TOKEN && refusal <= ELDUVARN_TOO_DEEP);
}

#ifdef __cplusplus
}
#endif

#endif
