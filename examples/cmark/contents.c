/* Keeps the pieces of each paragraph and heading while cmark reads blocks, and reads all of them in one call at the end. */
#include <stdio.h>
#include <stdlib.h>
#include <string.h>

#include "config.h"
#include "contents.h"
#include "parser.h"
#include "utf8.h"

mi_state *mi_new(cmark_mem *mem) {
  mi_state *mi = (mi_state *)mem->calloc(1, sizeof *mi);
  mi->mem = mem;
  cmark_strbuf_init(mem, &mi->document, 0);
  cmark_strbuf_init(mem, &mi->labels, 0);
  return mi;
}

void mi_free(mi_state *mi) {
  void *lists[] = {mi->pieces.at, mi->lines.at, mi->contents.at, mi->nodes.at, mi->definitions.at, mi->refs.at, mi->parts.at, mi->strings.at, mi->slots.at};
  cmark_mem *mem = mi->mem;
  for (size_t at = 0; at < sizeof lists / sizeof *lists; at++) mem->free(lists[at]);
  cmark_strbuf_free(&mi->document);
  cmark_strbuf_free(&mi->labels);
  mem->free(mi);
}

size_t mi_feed(mi_state *mi, const unsigned char *bytes, size_t len) {
  size_t at = mi->document.size;
  cmark_strbuf_put(&mi->document, bytes, (bufsize_t)len);
  return at;
}

size_t mi_end(const mi_state *mi) { return mi->document.size; }

void mi_at_line(mi_state *mi, size_t start, size_t end) {
  mi->line_start = start;
  mi->line_end = end;
}

void mi_add_line(cmark_parser *parser, const cmark_chunk *input) {
  mi_state *mi = parser->mi;
  bufsize_t chopped = parser->curline.size - 1 - input->len; /* the `#`s that close a heading, and the blanks before them */
  size_t start = mi->line_start + parser->offset, end = mi->line_end - (chopped > 0 ? chopped : 0);
  if (start >= end) return;
  markdown_inline_piece *piece = MI_PUSH(mi->mem, mi->pieces);
  mi_line *line = MI_PUSH(mi->mem, mi->lines);
  *piece = (markdown_inline_piece){start, 0, end, 0};
  *line = (mi_line){mi->line_start, parser->line_number, 0};
  if (parser->partially_consumed_tab) {
    int column = 0; /* of the tab */
    for (bufsize_t at = 0; at < parser->offset; at++) column += input->data[at] == '\t' ? 4 - column % 4 : 1;
    line->fill = 4 - parser->column % 4;
    piece->start_vs = parser->column - column;
  }
}

void mi_drop_lines(mi_state *mi, const unsigned char *bytes, bufsize_t len) {
  for (const unsigned char *end = bytes + len; (bytes = memchr(bytes, '\n', end - bytes)); bytes++) mi->open++;
}

void mi_forget(mi_state *mi) { mi->open = mi->pieces.len; }

void mi_close(mi_state *mi, cmark_node *node) {
  const unsigned char *bytes = mi->document.ptr;
  if (mi->open < mi->pieces.len) {
    *MI_PUSH(mi->mem, mi->contents) = (markdown_inline_content){{mi->open, mi->pieces.len}, 0, 0};
    *MI_PUSH(mi->mem, mi->nodes) = node;
    /* Each piece but the last has its line ending. The document has come up to the start of the next line. */
    size_t at = mi->open;
    for (; at + 1 < mi->pieces.len; at++) {
      size_t end = mi->pieces.at[at].end;
      mi->pieces.at[at].end = end + (bytes[end] == '\r' && bytes[end + 1] == '\n' ? 2 : 1);
    }
    markdown_inline_piece *last = &mi->pieces.at[at];
    while (last->end > last->start && (bytes[last->end - 1] == ' ' || bytes[last->end - 1] == '\t')) last->end--;
  }
  mi_forget(mi);
}

/* Puts NUL, which is read as U+FFFD, in place of each byte that is not UTF-8, from an index on. */
static void clean(unsigned char *bytes, size_t at, size_t len) {
  while (at < len) {
    int32_t code;
    int width = bytes[at] < 0x80 ? 1 : cmark_utf8proc_iterate(bytes + at, (bufsize_t)(len - at), &code);
    if (width > 0)
      at += width;
    else
      bytes[at++] = 0;
  }
}

void mi_define(mi_state *mi, const cmark_chunk *label, cmark_reference *ref) {
  size_t start = mi->labels.size;
  cmark_strbuf_put(&mi->labels, label->data, label->len);
  clean(mi->labels.ptr, start, mi->labels.size);
  *MI_PUSH(mi->mem, mi->definitions) = (markdown_inline_range){start, mi->labels.size};
  *MI_PUSH(mi->mem, mi->refs) = ref;
}

static void fail(const char *what, uint32_t status, size_t blamed) {
  fprintf(stderr, "adapter: %s: %s (%zu)\n", what, markdown_inline_status_text(status), blamed);
  abort();
}

/* The texts of all destinations and titles, each put where it belongs. */
static void read_strings(mi_state *mi, const uint8_t *bytes) {
  cmark_mem *mem = mi->mem;
  size_t room = 16, start = 0;
  if (!mi->strings.len) return;
  for (size_t at = 0; at < mi->parts.len; at++) room += 3 * (mi->parts.at[at].end - mi->parts.at[at].start);
  uint8_t *texts = (uint8_t *)mem->realloc(NULL, room);
  size_t *ends = (size_t *)mem->realloc(NULL, mi->strings.len * sizeof *ends);
  markdown_inline_outcome outcome;
  uint32_t status = markdown_inline_strings(MI_OPTIONS, MARKDOWN_INLINE_STRING_LINE_FEEDS | MARKDOWN_INLINE_STRING_REPLACED_NUL, bytes, mi->document.size,
      mi->parts.at, mi->parts.len, mi->strings.at, mi->strings.len, texts, room, ends, mi->strings.len, &outcome);
  if (status != MARKDOWN_INLINE_DONE) fail("strings", status, outcome.blamed);
  for (size_t at = 0; at < mi->strings.len; start = ends[at++]) {
    cmark_strbuf text = CMARK_BUF_INIT(mem);
    cmark_strbuf_put(&text, texts + start, (bufsize_t)(ends[at] - start));
    *mi->slots.at[at] = cmark_strbuf_detach(&text);
  }
  mem->free(texts);
  mem->free(ends);
}

/* Reads all contents with room for so many events at first, and builds the nodes of each. */
static void read_contents(mi_state *mi, const markdown_inline_input *input, mi_builder *b, size_t room) {
  cmark_mem *mem = mi->mem;
  size_t count = mi->contents.len, done = 0;
  size_t *ends = (size_t *)mem->realloc(NULL, count * sizeof *ends);
  markdown_inline_short_event *events = (markdown_inline_short_event *)mem->realloc(NULL, room * sizeof *events);
  while (done < count) {
    markdown_inline_outcome outcome;
    uint32_t status = markdown_inline_short_texts(input, mi->contents.at + done, count - done, events, room, ends, count - done, &outcome);
    if (status != MARKDOWN_INLINE_DONE && status != MARKDOWN_INLINE_TOO_SMALL) fail("texts", status, outcome.blamed);
    size_t start = 0;
    for (size_t at = 0; at < outcome.done; start = ends[at++]) mi_build(b, done + at, events + start, events + ends[at]);
    done += outcome.done;
    if (done < count && room < outcome.count - start) {
      mem->free(events);
      room = outcome.count - start;
      events = (markdown_inline_short_event *)mem->realloc(NULL, room * sizeof *events);
    }
  }
  mem->free(events);
  mem->free(ends);
}

void mi_parse(cmark_parser *parser) {
  mi_state *mi = parser->mi;
  size_t len = mi->document.size;
  if (!mi->contents.len) return;
  markdown_inline_input input = {mi->document.ptr, len, mi->pieces.at, mi->pieces.len, mi->labels.ptr, mi->labels.size, mi->definitions.at, mi->definitions.len,
      NULL, 0, MI_OPTIONS, 0};
  /* A call for no contents tests the document. Bytes that are not UTF-8 are read as NUL; the nodes get the bytes themselves. */
  uint8_t *cleaned = NULL;
  markdown_inline_outcome outcome;
  if (markdown_inline_short_texts(&input, NULL, 0, NULL, 0, NULL, 0, &outcome) == MARKDOWN_INLINE_NOT_UTF8) {
    cleaned = (uint8_t *)mi->mem->realloc(NULL, len);
    memcpy(cleaned, mi->document.ptr, len);
    clean(cleaned, outcome.blamed, len);
    input.bytes = cleaned;
  }
  mi_builder *b = mi_builder_new(parser);
  read_contents(mi, &input, b, len + 64);
  mi_builder_free(b);
  read_strings(mi, input.bytes);
  mi->mem->free(cleaned);
}
