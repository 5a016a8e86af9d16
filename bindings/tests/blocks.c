/* Writes the HTML of documents over their blocks, as a caller does who renders a file himself: by markdown_inline_blocks, markdown_inline_definitions and
 * markdown_inline_htmls. It has to be what markdown_inline_document_html writes, with each set of options, of HTML and of blocks. The words are names of files;
 * without words the input is read. The status is 1 where something differs. */
#include "markdown_inline.h"

#include <stdio.h>
#include <stdlib.h>
#include <string.h>

static void *room(size_t count, size_t size) {
    void *array = calloc(count + 1, size);
    if (!array) exit(2);
    return array;
}

/* What is written. */

typedef struct text {
    uint8_t *bytes;
    size_t len, room;
} text;

static void put(text *out, const void *bytes, size_t len) {
    if (out->len + len > out->room) {
        out->room = 2 * (out->len + len);
        out->bytes = (uint8_t *)realloc(out->bytes, out->room);
        if (!out->bytes) exit(2);
    }
    if (len > 0) memcpy(out->bytes + out->len, bytes, len);
    out->len += len;
}

static void say(text *out, const char *words) { put(out, words, strlen(words)); }

static void put_escaped(text *out, const uint8_t *bytes, size_t len) {
    for (size_t at = 0; at < len; at++) {
        switch (bytes[at]) {
        case '&': say(out, "&amp;"); break;
        case '<': say(out, "&lt;"); break;
        case '>': say(out, "&gt;"); break;
        case '"': say(out, "&quot;"); break;
        case 0: say(out, "\xef\xbf\xbd"); break;
        default: put(out, bytes + at, 1);
        }
    }
}

/* What the library says of a document. */

typedef struct page {
    markdown_inline_input input;
    markdown_inline_block *blocks;
    markdown_inline_blocks_count count;
    markdown_inline_target *targets;
    markdown_inline_content *contents;
    uint8_t *html;
    size_t *ends;
    text out;
    uint32_t options, block_options;
    int in_line;
} page;

static int is_text(const markdown_inline_block *block) { return block->kind == MARKDOWN_INLINE_BLOCK_HEADING || block->kind == MARKDOWN_INLINE_BLOCK_PARAGRAPH; }

static int is_done(uint32_t status) {
    if (status != MARKDOWN_INLINE_DONE) printf("blocks: status %u\n", status);
    return status == MARKDOWN_INLINE_DONE;
}

static int read_blocks(page *page) {
    markdown_inline_input *input = &page->input;
    uint32_t status = markdown_inline_blocks(input->bytes, input->bytes_len, page->block_options, NULL, 0, NULL, 0, &page->count);
    if (status != MARKDOWN_INLINE_TOO_SMALL && !is_done(status)) return 0;
    markdown_inline_piece *pieces = (markdown_inline_piece *)room(page->count.pieces, sizeof *pieces);
    page->blocks = (markdown_inline_block *)room(page->count.blocks, sizeof *page->blocks);
    status = markdown_inline_blocks(input->bytes, input->bytes_len, page->block_options, page->blocks, page->count.blocks, pieces, page->count.pieces, &page->count);
    input->pieces = pieces;
    input->pieces_len = page->count.pieces;
    return is_done(status);
}

static int read_definitions(page *page) {
    markdown_inline_input *input = &page->input;
    markdown_inline_definitions_count count;
    uint32_t status = markdown_inline_definitions(input->bytes, input->bytes_len, page->block_options, NULL, 0, NULL, 0, NULL, 0, &count);
    if (status != MARKDOWN_INLINE_TOO_SMALL && !is_done(status)) return 0;
    uint8_t *labels = (uint8_t *)room(count.labels, 1);
    markdown_inline_range *definitions = (markdown_inline_range *)room(count.definitions, sizeof *definitions);
    page->targets = (markdown_inline_target *)room(count.definitions, sizeof *page->targets);
    status = markdown_inline_definitions(input->bytes, input->bytes_len, page->block_options, labels, count.labels, definitions, count.definitions, page->targets, count.definitions, &count);
    input->labels = labels;
    input->labels_len = count.labels;
    input->definitions = definitions;
    input->definitions_len = count.definitions;
    return is_done(status);
}

/* The HTML of all texts, one behind another. */
static int read_texts(page *page) {
    markdown_inline_outcome outcome;
    size_t texts = 0;
    page->contents = (markdown_inline_content *)room(page->count.blocks, sizeof *page->contents);
    page->ends = (size_t *)room(page->count.blocks, sizeof *page->ends);
    for (size_t at = 0; at < page->count.blocks; at++)
        if (is_text(&page->blocks[at])) page->contents[texts++].pieces = page->blocks[at].pieces;
    markdown_inline_htmls(&page->input, page->targets, page->input.definitions_len, page->contents, texts, page->options, MARKDOWN_INLINE_NONE, NULL, 0, NULL, 0, &outcome);
    page->html = (uint8_t *)room(outcome.count, 1);
    return is_done(
        markdown_inline_htmls(&page->input, page->targets, page->input.definitions_len, page->contents, texts, page->options, MARKDOWN_INLINE_NONE, page->html, outcome.count, page->ends, texts, &outcome));
}

/* Lines. */

static int is_ending(uint8_t byte) { return byte == '\n' || byte == '\r'; }

/* How many columns the tab at a byte has: they end at each fourth column of its line. */
static size_t columns_at(const markdown_inline_input *input, size_t tab) {
    size_t at = tab, column = 0;
    while (at > 0 && !is_ending(input->bytes[at - 1])) at--;
    for (; at < tab; at++) column = input->bytes[at] == '\t' ? (column / 4 + 1) * 4 : column + 1;
    return 4 - column % 4;
}

/* The text of a piece without its line ending: of a tab that is cut the columns that are left, as spaces. It begins at `*from`, and ends at the answer. */
static size_t line_of(page *page, markdown_inline_piece piece, size_t *from, text *line) {
    size_t end = piece.end;
    line->len = 0;
    *from = piece.start;
    if (piece.start_vs > 0) {
        size_t to = piece.end == piece.start ? piece.end_vs : columns_at(&page->input, piece.start);
        for (size_t column = piece.start_vs; column < to; column++) say(line, " ");
        *from = piece.start + 1;
    }
    while (end > *from && is_ending(page->input.bytes[end - 1])) end--;
    if (end > *from) put(line, page->input.bytes + *from, end - *from);
    return end < *from ? *from : end;
}

/* Raw HTML, with U+FFFD for NUL. */
static void put_raw(text *out, const uint8_t *bytes, size_t len) {
    for (size_t at = 0; at < len; at++) {
        if (bytes[at]) put(out, bytes + at, 1);
        else say(out, "\xEF\xBF\xBD");
    }
}

/* A line of code or of HTML, with its line ending: a line feed where the document ends without one, and for a carriage return alone, which would join with a line
 * feed after it. */
static void write_line(page *page, markdown_inline_piece piece, int is_raw) {
    text line = {NULL, 0, 0};
    size_t from, to = line_of(page, piece, &from, &line);
    if (is_raw) put_raw(&page->out, line.bytes, line.len);
    else put_escaped(&page->out, line.bytes, line.len);
    say(&page->out, to + 1 < piece.end ? "\r\n" : "\n");
    free(line.bytes);
}

static int is_blank(const page *page, markdown_inline_piece piece) {
    for (size_t at = piece.start; at < piece.end; at++)
        if (!strchr(" \t\n\r", page->input.bytes[at]) || !page->input.bytes[at]) return 0;
    return 1;
}

/* The first word of an info string, behind escapes and character references, names the language. */
static void write_language(page *page, markdown_inline_piece info) {
    static const markdown_inline_range string = {0, 1};
    text line = {NULL, 0, 0};
    size_t from, end, start = 0;
    line_of(page, info, &from, &line);
    markdown_inline_range part = {0, line.len};
    markdown_inline_outcome outcome;
    uint8_t *word = (uint8_t *)room(2 * line.len, 1);
    if (!is_done(markdown_inline_strings(MARKDOWN_INLINE_COMMONMARK, 0, line.bytes, line.len, &part, 1, &string, 1, word, 2 * line.len, &end, 1, &outcome))) exit(2);
    while (start < end && strchr(" \t\n\f\r", word[start]) && word[start]) start++;
    for (size_t at = start; at < end; at++)
        if (strchr(" \t\n\f\r", word[at]) && word[at]) end = at;
    if (start < end) {
        say(&page->out, " class=\"language-");
        put_escaped(&page->out, word + start, end - start);
        say(&page->out, "\"");
    }
    free(line.bytes);
    free(word);
}

/* Lines of HTML: a piece without bytes is none. */
static void write_html(page *page, const markdown_inline_block *block) {
    for (size_t at = block->pieces.start; at < block->pieces.end; at++) {
        markdown_inline_piece piece = page->input.pieces[at];
        if (piece.start != piece.end || piece.start_vs != piece.end_vs) write_line(page, piece, (page->options & MARKDOWN_INLINE_HTML_RAW) != 0);
    }
}

/* Blocks. */

static void begin_line(page *page) {
    if (page->in_line) say(&page->out, "\n");
    page->in_line = 0;
}

static void write_tag(page *page, const char *before, char level, const char *behind) {
    say(&page->out, before);
    put(&page->out, &level, 1);
    say(&page->out, behind);
}

static void write_code(page *page, const markdown_inline_block *block) {
    const markdown_inline_piece *pieces = page->input.pieces;
    size_t at = block->pieces.start, end = block->pieces.end;
    int is_fenced = block->kind == MARKDOWN_INLINE_BLOCK_FENCED_CODE;
    say(&page->out, "<pre><code");
    if (block->marker == '$') say(&page->out, " class=\"language-math math-display\"");
    else if (is_fenced) write_language(page, pieces[at]);
    at += is_fenced;
    while (!is_fenced && end > at && is_blank(page, pieces[end - 1])) end--;
    say(&page->out, ">");
    for (; at < end; at++) write_line(page, pieces[at], 0);
    say(&page->out, "</code></pre>\n");
}

static void write_leaf(page *page, const markdown_inline_block *block, const uint8_t *html, size_t len, int is_tight) {
    text *out = &page->out;
    if (block->kind == MARKDOWN_INLINE_BLOCK_BLANK_LINE || block->kind == MARKDOWN_INLINE_BLOCK_FRONT_MATTER) return;
    if (block->kind == MARKDOWN_INLINE_BLOCK_PARAGRAPH && block->pieces.start == block->pieces.end) return;
    if (block->kind == MARKDOWN_INLINE_BLOCK_PARAGRAPH && is_tight) {
        put(out, html, len);
        page->in_line = 1;
        return;
    }
    begin_line(page);
    switch (block->kind) {
    case MARKDOWN_INLINE_BLOCK_THEMATIC_BREAK: say(out, "<hr />\n"); break;
    case MARKDOWN_INLINE_BLOCK_HEADING:
        write_tag(page, "<h", (char)('0' + block->number), ">");
        put(out, html, len);
        write_tag(page, "</h", (char)('0' + block->number), ">\n");
        break;
    case MARKDOWN_INLINE_BLOCK_PARAGRAPH:
        say(out, "<p>");
        put(out, html, len);
        say(out, "</p>\n");
        break;
    case MARKDOWN_INLINE_BLOCK_HTML: write_html(page, block); break;
    default: write_code(page, block);
    }
}

static int is_container(const markdown_inline_block *block) { return block->kind == MARKDOWN_INLINE_BLOCK_QUOTE || block->kind == MARKDOWN_INLINE_BLOCK_ITEM; }

static int is_ordered(const markdown_inline_block *item) { return item->marker == '.' || item->marker == ')'; }

static void open_container(page *page, const markdown_inline_block *block) {
    char number[32];
    if (block->kind == MARKDOWN_INLINE_BLOCK_QUOTE) {
        begin_line(page);
        say(&page->out, "<blockquote>\n");
        return;
    }
    if (block->list & MARKDOWN_INLINE_BEGINS_LIST) {
        begin_line(page);
        snprintf(number, sizeof number, " start=\"%zu\"", block->number);
        say(&page->out, is_ordered(block) ? "<ol" : "<ul");
        if (is_ordered(block) && block->number != 1) say(&page->out, number);
        say(&page->out, ">\n");
    }
    say(&page->out, "<li>");
    page->in_line = 1;
}

static void close_container(page *page, const markdown_inline_block *block) {
    page->in_line = 0;
    if (block->kind == MARKDOWN_INLINE_BLOCK_QUOTE) {
        say(&page->out, "</blockquote>\n");
        return;
    }
    say(&page->out, "</li>\n");
    if (block->list & MARKDOWN_INLINE_ENDS_LIST) say(&page->out, is_ordered(block) ? "</ol>\n" : "</ul>\n");
}

static void write_blocks(page *page) {
    const markdown_inline_block **opened = (const markdown_inline_block **)room(page->count.blocks, sizeof *opened), *block = page->blocks;
    size_t depth = 0, texts = 0;
    for (; block < page->blocks + page->count.blocks; block++) {
        while (depth > block->depth) close_container(page, opened[--depth]);
        if (is_container(block)) {
            open_container(page, block);
            opened[depth++] = block;
        } else {
            int is_tight = depth > 0 && opened[depth - 1]->kind == MARKDOWN_INLINE_BLOCK_ITEM && !(opened[depth - 1]->list & MARKDOWN_INLINE_LOOSE_LIST);
            size_t start = texts > 0 ? page->ends[texts - 1] : 0, end = is_text(block) ? page->ends[texts++] : start;
            write_leaf(page, block, page->html + start, end - start, is_tight);
        }
    }
    while (depth > 0) close_container(page, opened[--depth]);
    free(opened);
}

/* Whether the HTML over the blocks is that of the document. */
static int is_same(const uint8_t *bytes, size_t len, uint32_t options, uint32_t block_options) {
    page page;
    text wanted = {NULL, 0, 0};
    memset(&page, 0, sizeof page);
    page.input.bytes = bytes;
    page.input.bytes_len = len;
    page.input.options = MARKDOWN_INLINE_COMMONMARK;
    page.options = options;
    page.block_options = block_options;
    int same = read_blocks(&page) && read_definitions(&page) && read_texts(&page);
    if (same) write_blocks(&page);
    markdown_inline_document_options asked;
    markdown_inline_outcome outcome = {0, 0, 0};
    memset(&asked, 0, sizeof asked);
    asked.html = options;
    asked.blocks = block_options;
    asked.limit = MARKDOWN_INLINE_NONE;
    markdown_inline_document_html(bytes, len, &asked, NULL, 0, &outcome);
    wanted.len = outcome.count;
    wanted.bytes = (uint8_t *)room(wanted.len, 1);
    same = same && is_done(markdown_inline_document_html(bytes, len, &asked, wanted.bytes, wanted.len, &outcome)) && page.out.len == wanted.len
        && (wanted.len == 0 || !memcmp(page.out.bytes, wanted.bytes, wanted.len));
    if (!same) printf("blocks: with options %u, blocks %u:\n%.*s---\n%.*s---\n", options, block_options, (int)page.out.len, (const char *)page.out.bytes, (int)wanted.len, (const char *)wanted.bytes);
    free((void *)page.input.pieces);
    free((void *)page.input.labels);
    free((void *)page.input.definitions);
    free(page.blocks);
    free(page.targets);
    free(page.contents);
    free(page.ends);
    free(page.html);
    free(page.out.bytes);
    free(wanted.bytes);
    return same;
}

/* How many pages of a file differ: one is written for each set of options. */
static size_t differ(FILE *file, const char *name) {
    uint8_t bytes[4096];
    text found = {NULL, 0, 0};
    size_t len, others = 0;
    while ((len = fread(bytes, 1, sizeof bytes, file)) > 0) put(&found, bytes, len);
    for (uint32_t turn = 0; turn < 16; turn++) {
        if (is_same(found.bytes, found.len, turn % 4, turn / 4)) continue;
        printf("blocks: in %s\n", name);
        others++;
    }
    free(found.bytes);
    return others;
}

int main(int argc, char **argv) {
    size_t others = argc > 1 ? 0 : differ(stdin, "the input");
    for (int at = 1; at < argc; at++) {
        FILE *file = fopen(argv[at], "rb");
        if (!file) return 2;
        others += differ(file, argv[at]);
        fclose(file);
    }
    if (others > 0) printf("blocks: %zu pages differ\n", others);
    return others > 0;
}
