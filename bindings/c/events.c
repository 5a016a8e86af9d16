/* Prints the events of standard input as the program mdinline does, with the same words:
 * events text|string [gfm] [math] [task] [cm-lengths] [cm-shortcut] [html-references] [commonmark] [label=TEXT].. [note=TEXT].. */
#include "markdown_inline.h"

#include <stdio.h>
#include <stdlib.h>
#include <string.h>

typedef uint32_t call(const markdown_inline_input *, markdown_inline_event *, size_t, size_t *);

/* Reads all of standard input; a null pointer where memory is refused. */
static uint8_t *read_all(size_t *len) {
    size_t room = 1 << 16, got;
    uint8_t *bytes = (uint8_t *)malloc(room);
    *len = 0;
    while (bytes && (got = fread(bytes + *len, 1, room - *len, stdin)) > 0) {
        *len += got;
        if (*len == room) {
            uint8_t *more = (uint8_t *)realloc(bytes, room *= 2);
            if (!more) free(bytes);
            bytes = more;
        }
    }
    return bytes;
}

/* The length without one final line ending. */
static size_t without_line_ending(const uint8_t *bytes, size_t len) {
    if (len >= 2 && bytes[len - 2] == '\r' && bytes[len - 1] == '\n') return len - 2;
    if (len >= 1 && (bytes[len - 1] == '\n' || bytes[len - 1] == '\r')) return len - 1;
    return len;
}

/* The bit of a word; 0 where it is none. */
static uint32_t bit_of(const char *word) {
    static const struct {
        const char *word;
        uint32_t bits;
    } bits[] = {{"gfm", MARKDOWN_INLINE_GFM},
        {"math", MARKDOWN_INLINE_MATH},
        {"task", MARKDOWN_INLINE_OPTION_FIRST_OF_ITEM},
        {"cm-lengths", MARKDOWN_INLINE_OPTION_ATTENTION_FIRST_LENGTHS},
        {"cm-shortcut", MARKDOWN_INLINE_OPTION_LABEL_SHORTCUT_BEFORE_BRACKET},
        {"html-references", MARKDOWN_INLINE_OPTION_HTML_REFERENCES},
        {"commonmark", MARKDOWN_INLINE_OPTION_STANDARD_RULES}};
    for (size_t at = 0; at < sizeof bits / sizeof *bits; at++)
        if (!strcmp(bits[at].word, word)) return bits[at].bits;
    return 0;
}

/* Takes a label of a definition out of a word, if it has this prefix. */
static int define(const char *word, const char *prefix, uint8_t *labels, markdown_inline_input *input, markdown_inline_range *ranges, size_t *count) {
    size_t skipped = strlen(prefix), len = strlen(word);
    if (strncmp(word, prefix, skipped)) return 0;
    memcpy(labels + input->labels_len, word + skipped, len - skipped);
    ranges[*count].start = input->labels_len;
    input->labels_len += len - skipped;
    ranges[(*count)++].end = input->labels_len;
    return 1;
}

static void print_number(size_t number) {
    if (number == MARKDOWN_INLINE_NONE)
        printf(" -");
    else
        printf(" %zu", number);
}

static void print_event(const markdown_inline_event *event) {
    printf("%s %s %zu %zu %zu %zu", event->kind == MARKDOWN_INLINE_ENTER ? "Enter" : "Exit", markdown_inline_name_text(event->name), event->line,
        event->column, event->index, event->vs);
    if (event->link != MARKDOWN_INLINE_UNLINKED) {
        printf(" link %s", event->link == MARKDOWN_INLINE_LINKED_STRING ? "String" : "Text");
        print_number(event->previous);
        print_number(event->next);
    }
    printf("\n");
}

/* Calls, lends more where the array is too small, and prints. */
static uint32_t print_events(call *find, const markdown_inline_input *input) {
    markdown_inline_event *events = NULL;
    size_t count = 0;
    uint32_t status = find(input, events, 0, &count);
    if (status == MARKDOWN_INLINE_TOO_SMALL) {
        events = (markdown_inline_event *)malloc(count * sizeof *events);
        status = events ? find(input, events, count, &count) : (uint32_t)MARKDOWN_INLINE_NO_MEMORY;
    }
    for (size_t at = 0; status == MARKDOWN_INLINE_DONE && at < count; at++) print_event(&events[at]);
    free(events);
    return status;
}

int main(int argc, char **argv) {
    size_t len, all = 0;
    uint32_t status = MARKDOWN_INLINE_UNKNOWN_OPTION;
    for (int at = 1; at < argc; at++) all += strlen(argv[at]);
    uint8_t *bytes = read_all(&len), *labels = (uint8_t *)malloc(all + 1);
    markdown_inline_range *ranges = (markdown_inline_range *)calloc(2 * (size_t)argc + 1, sizeof *ranges);
    if (!bytes || !labels || !ranges) return MARKDOWN_INLINE_NO_MEMORY;
    len = without_line_ending(bytes, len);
    markdown_inline_piece whole = {0, 0, len, 0};
    markdown_inline_input input = {bytes, len, &whole, 1, labels, 0, ranges, 0, ranges + argc, 0, MARKDOWN_INLINE_CRATE, 0};
    int is_known = argc > 1 && (!strcmp(argv[1], "text") || !strcmp(argv[1], "string"));
    for (int at = 2; at < argc && is_known; at++) {
        is_known = bit_of(argv[at]) != 0 || define(argv[at], "label=", labels, &input, ranges, &input.definitions_len)
            || define(argv[at], "note=", labels, &input, ranges + argc, &input.footnotes_len);
        input.options |= bit_of(argv[at]);
    }
    if (is_known) status = print_events(argv[1][0] == 't' ? markdown_inline_text : markdown_inline_string, &input);
    if (status != MARKDOWN_INLINE_DONE) fprintf(stderr, "events: %s\n", markdown_inline_status_text(status));
    free(ranges);
    free(labels);
    free(bytes);
    return (int)status;
}
