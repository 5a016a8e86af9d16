/* Reads contents that are parted by blank lines, so many times with one parser: this library, or cmark or md4c where it is built with them. With `html` all of
 * them are one document, of which HTML is made.
 * usage: calls REPEATS [html] < CONTENTS */
#define _GNU_SOURCE
#include <stdint.h>
#include <stdio.h>
#include <stdlib.h>
#include <string.h>

typedef struct content {
    size_t from, len;
} content;

#if defined WITH_CMARK
#include <cmark.h>

static int read_one(const char *text, size_t len) {
    cmark_node *root = cmark_parse_document(text, len, CMARK_OPT_DEFAULT);
    if (!root) return 1;
    cmark_node_free(root);
    return 0;
}

static int write_html(const char *text, size_t len, const content *contents, size_t count) {
    (void)contents, (void)count;
    char *html = cmark_markdown_to_html(text, len, CMARK_OPT_DEFAULT);
    free(html);
    return !html;
}
#elif defined WITH_MD4C
#include <md4c-html.h>
#include <md4c.h>

static int on_block(MD_BLOCKTYPE type, void *detail, void *data) { return (void)type, (void)detail, (void)data, 0; }
static int on_span(MD_SPANTYPE type, void *detail, void *data) { return (void)type, (void)detail, (void)data, 0; }
static int on_text(MD_TEXTTYPE type, const MD_CHAR *text, MD_SIZE len, void *data) { return (void)type, (void)text, (void)len, (void)data, 0; }

static int read_one(const char *text, size_t len) {
    static const MD_PARSER parser = {0, 0, on_block, on_block, on_span, on_span, on_text, NULL, NULL};
    return md_parse(text, (MD_SIZE)len, &parser, NULL);
}

static char html[1 << 22];
static size_t html_len;

static void on_html(const MD_CHAR *part, MD_SIZE len, void *data) {
    (void)data;
    if (len > sizeof html - html_len) exit(1);
    memcpy(html + html_len, part, len);
    html_len += len;
}

static int write_html(const char *text, size_t len, const content *contents, size_t count) {
    (void)contents, (void)count;
    html_len = 0;
    return md_html(text, (MD_SIZE)len, on_html, NULL, 0, 0);
}
#else
#include "markdown_inline.h"

static markdown_inline_event *events;
static size_t room;

static int read_one(const char *text, size_t len) {
    markdown_inline_piece piece = {0, 0, 0, 0};
    markdown_inline_input input = {(const uint8_t *)text, len, &piece, 1, NULL, 0, NULL, 0, NULL, 0, MARKDOWN_INLINE_CRATE, 0};
    size_t count;
    uint32_t status;
    piece.end = len;
    while ((status = markdown_inline_text(&input, events, room, &count)) == MARKDOWN_INLINE_TOO_SMALL) {
        free(events);
        events = (markdown_inline_event *)malloc((room = 2 * count) * sizeof *events);
        if (!events) return 1;
    }
    return status != MARKDOWN_INLINE_DONE;
}

/* Each content is a paragraph of one piece. */
static int write_html(const char *text, size_t len, const content *contents, size_t count) {
    static markdown_inline_piece pieces[1 << 12];
    static markdown_inline_content texts[1 << 12];
    static size_t ends[1 << 12];
    static uint8_t html[1 << 22];
    markdown_inline_input input = {(const uint8_t *)text, len, pieces, count, NULL, 0, NULL, 0, NULL, 0, MARKDOWN_INLINE_CRATE, 0};
    markdown_inline_outcome outcome;
    for (size_t at = 0; at < count; at++) {
        pieces[at] = (markdown_inline_piece){contents[at].from, 0, contents[at].from + contents[at].len, 0};
        texts[at] = (markdown_inline_content){{at, at + 1}, 0, 0};
    }
    return markdown_inline_htmls(&input, NULL, 0, texts, count, 0, 100000, html, sizeof html, ends, count, &outcome) != MARKDOWN_INLINE_DONE;
}
#endif

int main(int argc, char **argv) {
    static char text[1 << 20];
    static content contents[1 << 12];
    long repeats = argc > 1 ? atol(argv[1]) : 1;
    int is_html = argc > 2 && !strcmp(argv[2], "html");
    size_t len = fread(text, 1, sizeof text, stdin), count = 0;
    while (len && text[len - 1] == '\n') len--;
    for (size_t from = 0; from < len && count < sizeof contents / sizeof *contents; count++) {
        const char *end = (const char *)memmem(text + from, len - from, "\n\n", 2);
        contents[count].from = from;
        contents[count].len = (end ? (size_t)(end - text) : len) - from;
        from += contents[count].len + 2;
    }
    for (long at = 0; at < repeats; at++) {
        if (is_html && write_html(text, len, contents, count)) return 1;
        for (size_t it = 0; it < count && !is_html; it++)
            if (read_one(text + contents[it].from, contents[it].len)) return 1;
    }
    return 0;
}
