/* Our library's functions whose answer is too large for registers, for a processor that is not
 * x86-64. In the module they take the answer's place as a first argument, since that is how x86-64
 * returns such a struct; bench/native calls them placed_. Other processors have other ways, and the
 * C compiler knows them. The rest of host/elduvarn.h needs no help. */

#include "elduvarn.h"

#define READING(name)                                                                              \
    void placed_##name(struct elduvarn_read_answer *, const uint8_t *, size_t, uint32_t *, size_t, \
                       uint32_t *, size_t, uint32_t *, size_t, uint32_t *, size_t, uint8_t *,      \
                       size_t);                                                                    \
    struct elduvarn_read_answer elduvarn_##name(                                                   \
        const uint8_t *source, size_t source_len, uint32_t *tokens, size_t tokens_len,             \
        uint32_t *fonts, size_t fonts_len, uint32_t *colours, size_t colours_len,                  \
        uint32_t *blocks, size_t blocks_len, uint8_t *text, size_t text_len)                       \
    {                                                                                              \
        struct elduvarn_read_answer answer;                                                        \
        placed_##name(&answer, source, source_len, tokens, tokens_len, fonts, fonts_len, colours,  \
                      colours_len, blocks, blocks_len, text, text_len);                            \
        return answer;                                                                             \
    }

READING(read_plain)
READING(read_paragraphs)

void placed_stored_read(struct elduvarn_stored_read_answer *, const uint8_t *, size_t, uint32_t *,
                        size_t, uint8_t *, size_t);

struct elduvarn_stored_read_answer elduvarn_stored_read(const uint8_t *list, size_t list_len,
                                                        uint32_t *blocks, size_t blocks_len,
                                                        uint8_t *text, size_t text_len)
{
    struct elduvarn_stored_read_answer answer;
    placed_stored_read(&answer, list, list_len, blocks, blocks_len, text, text_len);
    return answer;
}
