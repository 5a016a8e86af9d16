/* What is kept of a document until its end: its bytes, the pieces of each content, and the definitions. */
#ifndef CMARK_CONTENTS_H
#define CMARK_CONTENTS_H

#include "adapter.h"
#include "markdown_inline.h"
#include "node.h"
#include "references.h"

#define MI_OPTIONS MARKDOWN_INLINE_COMMONMARK
#define MI_NAME(name) MARKDOWN_INLINE_NAME_##name

/* Lists that grow. cmark's allocator ends the program where memory is refused. */
#define MI_LIST(type) struct { type *at; size_t len, room; }
#define MI_PUSH(mem, list) \
  ((list).len == (list).room ? (void)((list).at = (mem)->realloc((list).at, ((list).room = (list).room ? 2 * (list).room : 64) * sizeof *(list).at)) \
                             : (void)0, &(list).at[(list).len++])

/* Of a piece: where its line starts in the document, the number of the line, and how many columns of a tab begin the piece. */
typedef struct {
  size_t start;
  int number, fill;
} mi_line;

struct mi_state {
  cmark_mem *mem;
  cmark_strbuf document, labels;
  size_t line_start, line_end;
  size_t open; /* the first piece of the open block */
  MI_LIST(markdown_inline_piece) pieces;
  MI_LIST(mi_line) lines; /* one for each piece */
  MI_LIST(markdown_inline_content) contents;
  MI_LIST(cmark_node *) nodes; /* one for each content */
  MI_LIST(markdown_inline_range) definitions;
  MI_LIST(cmark_reference *) refs; /* one for each definition */
  MI_LIST(markdown_inline_range) parts, strings; /* the destinations and titles */
  MI_LIST(unsigned char **) slots; /* one for each string: where its text belongs */
};

/* Makes the nodes of a content from its events. */
typedef struct mi_builder mi_builder;
mi_builder *mi_builder_new(struct cmark_parser *parser);
void mi_build(mi_builder *b, size_t content, const markdown_inline_short_event *events, const markdown_inline_short_event *end);
void mi_builder_free(mi_builder *b);

#endif
