/* Other results than the library's, for a program that is linked with `--wrap` of each call that blames something: the call that WRONG_CALL names, where it ends with the
 * status WRONG_STATUS, blames the next content, string, definition or byte. */
#include "markdown_inline.h"

#include <stdlib.h>
#include <string.h>

static uint32_t changed(const char *call, uint32_t status, markdown_inline_outcome *outcome) {
    const char *wrong_call = getenv("WRONG_CALL"), *wrong_status = getenv("WRONG_STATUS");
    if (wrong_call && wrong_status && !strcmp(call, wrong_call) && (uint32_t)atoi(wrong_status) == status) outcome->blamed++;
    return status;
}

/* A call by its name, with what it takes before its outcome, in a declaration and in a call. */
#define WRONG(call, takes, given) \
    uint32_t __real_markdown_inline_##call(takes, markdown_inline_outcome *outcome); \
    uint32_t __wrap_markdown_inline_##call(takes, markdown_inline_outcome *outcome); \
    uint32_t __wrap_markdown_inline_##call(takes, markdown_inline_outcome *outcome) { return changed(#call, __real_markdown_inline_##call(given, outcome), outcome); }
#define LIST(...) __VA_ARGS__

WRONG(document_html, LIST(const uint8_t *bytes, size_t bytes_len, const markdown_inline_document_options *options, uint8_t *html, size_t html_len), LIST(bytes, bytes_len, options, html, html_len))
WRONG(texts, LIST(const markdown_inline_input *input, const markdown_inline_content *contents, size_t contents_len, markdown_inline_event *events, size_t events_len, size_t *ends, size_t ends_len),
    LIST(input, contents, contents_len, events, events_len, ends, ends_len))
WRONG(short_texts, LIST(const markdown_inline_input *input, const markdown_inline_content *contents, size_t contents_len, markdown_inline_short_event *events, size_t events_len, size_t *ends, size_t ends_len),
    LIST(input, contents, contents_len, events, events_len, ends, ends_len))
WRONG(htmls, LIST(const markdown_inline_input *input, const markdown_inline_target *targets, size_t targets_len, const markdown_inline_content *contents, size_t contents_len, uint32_t options, size_t limit, uint8_t *html, size_t html_len, size_t *ends, size_t ends_len),
    LIST(input, targets, targets_len, contents, contents_len, options, limit, html, html_len, ends, ends_len))
WRONG(strings, LIST(uint32_t options, uint32_t string_options, const uint8_t *bytes, size_t bytes_len, const markdown_inline_range *parts, size_t parts_len, const markdown_inline_range *strings, size_t strings_len, uint8_t *texts, size_t texts_len, size_t *ends, size_t ends_len),
    LIST(options, string_options, bytes, bytes_len, parts, parts_len, strings, strings_len, texts, texts_len, ends, ends_len))
