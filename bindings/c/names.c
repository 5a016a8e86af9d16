/* The words of statuses and the names of events, by the lists of the header. */
#include "markdown_inline.h"

const char *markdown_inline_status_text(uint32_t status) {
    switch (status) {
#define MARKDOWN_INLINE_STATUS(name, number, words) \
    case number: \
        return words;
        MARKDOWN_INLINE_EACH_STATUS(MARKDOWN_INLINE_STATUS)
#undef MARKDOWN_INLINE_STATUS
    default:
        return NULL;
    }
}

const char *markdown_inline_name_text(uint8_t name) {
    static const char *const texts[] = {
#define MARKDOWN_INLINE_NAME(name, words) words,
        MARKDOWN_INLINE_EACH_NAME(MARKDOWN_INLINE_NAME)
#undef MARKDOWN_INLINE_NAME
    };
    return name < MARKDOWN_INLINE_NAME_COUNT ? texts[name] : NULL;
}
