/* Makes cmark's nodes of the events of a content, with their places. */
#include <stdlib.h>
#include <string.h>

#include "config.h"
#include "contents.h"
#include "houdini.h"
#include "parser.h"
#include "utf8.h"

typedef const markdown_inline_short_event *mi_events;

/* A link or an image that is open. */
typedef struct {
  uint32_t definition;
  bool has_destination, has_title;
  size_t start, text, text_end; /* bytes of the document */
} mi_link;

/* What the events at hand stand in. */
typedef enum { IN_TEXT, IN_SPAN, IN_STRING, IN_NOTHING } mi_inside;

struct mi_builder {
  mi_state *mi;
  cmark_mem *mem;
  cmark_reference_map *map;
  bool is_plain; /* each byte of the document is UTF-8, and none is NUL */
  cmark_node *parent;
  size_t piece; /* of the event at hand */
  mi_inside inside;
  bool is_hard;   /* the next line ending is a hard break */
  cmark_strbuf text, scratch; /* of a text, a code span, HTML */
  int start_line, start_column, end_line, end_column; /* of that text */
  size_t part; /* the first part of the string at hand */
  MI_LIST(mi_link) links;
};

mi_builder *mi_builder_new(cmark_parser *parser) {
  mi_state *mi = parser->mi;
  mi_builder *b = (mi_builder *)mi->mem->calloc(1, sizeof *b);
  b->mi = mi;
  b->mem = mi->mem;
  b->map = parser->refmap;
  cmark_strbuf_init(b->mem, &b->text, 0);
  cmark_strbuf_init(b->mem, &b->scratch, 0);
  cmark_utf8proc_check(&b->scratch, mi->document.ptr, mi->document.size);
  b->is_plain = b->scratch.size == mi->document.size && !memcmp(b->scratch.ptr, mi->document.ptr, mi->document.size);
  return b;
}

void mi_builder_free(mi_builder *b) {
  cmark_strbuf_free(&b->text);
  cmark_strbuf_free(&b->scratch);
  b->mem->free(b->links.at);
  b->mem->free(b);
}

static int column_of(const mi_builder *b, size_t index) { return (int)(index - b->mi->lines.at[b->piece].start) + 1; }

static int line_of(const mi_builder *b) { return b->mi->lines.at[b->piece].number; }

static mi_link *open_link(const mi_builder *b) { return &b->links.at[b->links.len - 1]; }

static cmark_node *add_node(mi_builder *b, cmark_node_type type) {
  cmark_node *node = (cmark_node *)b->mem->calloc(1, sizeof *node), *parent = b->parent;
  node->mem = b->mem;
  node->type = (uint16_t)type;
  node->parent = parent;
  node->prev = parent->last_child;
  *(parent->last_child ? &parent->last_child->next : &parent->first_child) = node;
  parent->last_child = node;
  return node;
}

/* Copies bytes of the document, with U+FFFD for NUL and for what is not UTF-8. */
static void put(mi_builder *b, cmark_strbuf *to, size_t start, size_t end) {
  const uint8_t *bytes = b->mi->document.ptr + start;
  if (b->is_plain)
    cmark_strbuf_put(to, bytes, (bufsize_t)(end - start));
  else
    cmark_utf8proc_check(to, bytes, (bufsize_t)(end - start));
}

/* Copies what a leaf covers. If it begins inside a tab, it begins a piece, and the columns that are left of the tab are spaces. */
static void put_leaf(mi_builder *b, mi_events e) {
  for (int left = e->vs ? b->mi->lines.at[b->piece].fill : 0; left > 0; left--) cmark_strbuf_putc(&b->text, ' ');
  put(b, &b->text, e->index + (e->vs > 0), e[1].index);
}

static void set_data(mi_builder *b, cmark_node *node, cmark_strbuf *from) {
  node->data = (unsigned char *)b->mem->calloc(1, from->size + 1);
  memcpy(node->data, from->ptr, from->size);
  node->len = from->size;
  cmark_strbuf_clear(from);
}

/* The text to come has something from here to there. */
static void mark(mi_builder *b, size_t start, size_t end) {
  if (!b->text.size) {
    b->start_line = line_of(b);
    b->start_column = column_of(b, start);
  }
  b->end_line = line_of(b);
  b->end_column = column_of(b, end) - 1;
}

/* Makes a node of the text that has come. */
static void end_text(mi_builder *b, cmark_node_type type) {
  cmark_node *node = add_node(b, type);
  node->start_line = b->start_line;
  node->start_column = b->start_column;
  node->end_line = b->end_line;
  node->end_column = b->end_column;
  set_data(b, node, &b->text);
}

static void flush(mi_builder *b) {
  if (b->text.size) end_text(b, CMARK_NODE_TEXT);
}

/* Emphasis, links, images. */

static void begin(mi_builder *b, mi_events e, cmark_node_type type) {
  flush(b);
  cmark_node *node = add_node(b, type);
  node->start_line = line_of(b);
  node->start_column = column_of(b, e->index);
  b->parent = node;
  if (type == CMARK_NODE_LINK || type == CMARK_NODE_IMAGE) *MI_PUSH(b->mem, b->links) = (mi_link){e->definition, false, false, e->index, 0, 0};
}

static cmark_node *end(mi_builder *b, mi_events e) {
  cmark_node *node = b->parent;
  flush(b);
  node->end_line = line_of(b);
  node->end_column = column_of(b, e->index) - 1;
  b->parent = node->parent;
  return node;
}

static unsigned char *copy_of(cmark_mem *mem, const unsigned char *from) {
  size_t len = from ? strlen((const char *)from) : 0;
  return from ? memcpy(mem->calloc(1, len + 1), from, len) : NULL;
}

/* A text of bytes of the document, which stands nowhere yet. */
static cmark_node *literal(mi_builder *b, size_t start, size_t end) {
  cmark_node *node = (cmark_node *)b->mem->calloc(1, sizeof *node);
  node->mem = b->mem;
  node->type = CMARK_NODE_TEXT;
  cmark_strbuf_clear(&b->scratch);
  put(b, &b->scratch, start, end);
  set_data(b, node, &b->scratch);
  return node;
}

/* Puts what is written in place of a link, around what stands in it. */
static void unwrap(mi_builder *b, cmark_node *node, const mi_link *link, size_t end) {
  cmark_node *at = node, *child;
  cmark_node_insert_before(node, literal(b, link->start, link->text));
  while ((child = node->first_child)) {
    cmark_node_unlink(child);
    cmark_node_insert_after(at, child);
    at = child;
  }
  cmark_node_insert_after(at, literal(b, link->text_end, end));
  cmark_node_free(node);
}

static void end_link(mi_builder *b, mi_events e) {
  cmark_node *node = end(b, e);
  mi_link *link = &b->links.at[--b->links.len];
  if (link->definition == MARKDOWN_INLINE_NO_DEFINITION) {
    if (!link->has_destination) node->as.link.url = (unsigned char *)b->mem->calloc(1, 1);
    return;
  }
  cmark_reference *ref = b->mi->refs.at[link->definition];
  /* cmark bounds what definitions bring to a document. */
  if (b->map->max_ref_size && ref->size > b->map->max_ref_size - b->map->ref_size) {
    unwrap(b, node, link, e->index);
    return;
  }
  b->map->ref_size += ref->size;
  node->as.link.url = copy_of(b->mem, ref->url);
  node->as.link.title = copy_of(b->mem, ref->title);
}

static void end_string(mi_builder *b, unsigned char **slot) {
  *MI_PUSH(b->mem, b->mi->strings) = (markdown_inline_range){b->part, b->mi->parts.len};
  *MI_PUSH(b->mem, b->mi->slots) = slot;
  b->inside = IN_NOTHING;
}

static void autolink(mi_builder *b, mi_events e) {
  cmark_strbuf url = CMARK_BUF_INIT(b->mem);
  size_t start = e->index, stop = e[1].index;
  begin(b, e, CMARK_NODE_LINK);
  b->links.len--;
  b->parent->start_column--;
  if (e->name == MI_NAME(AUTOLINK_EMAIL)) cmark_strbuf_puts(&url, "mailto:");
  /* cmark resolves character references here. CommonMark says nothing of them, and events do not show them. */
  cmark_strbuf_clear(&b->scratch);
  put(b, &b->scratch, start, stop);
  houdini_unescape_html_f(&url, b->scratch.ptr, b->scratch.size);
  mark(b, start, stop);
  houdini_unescape_html_f(&b->text, b->scratch.ptr, b->scratch.size);
  b->parent->as.link.url = cmark_strbuf_detach(&url);
  cmark_node *node = end(b, e + 1);
  node->end_column += 1;
}

/* Code and HTML. */

static void begin_span(mi_builder *b, mi_events e) {
  flush(b);
  b->inside = IN_SPAN;
  b->start_line = line_of(b);
  b->start_column = column_of(b, e->index);
}

static void end_span(mi_builder *b, size_t end, cmark_node_type type) {
  b->end_line = line_of(b);
  b->end_column = column_of(b, end) - 1;
  b->inside = IN_TEXT;
  end_text(b, type);
}

/* Line endings are spaces, and one space goes off each end. */
static void end_code(mi_builder *b, mi_events e) {
  cmark_strbuf *text = &b->text;
  bufsize_t blank = 0;
  for (bufsize_t at = 0; at < text->size; at++)
    if (text->ptr[at] == '\n') text->ptr[at] = ' ';
  while (blank < text->size && text->ptr[blank] == ' ') blank++;
  if (blank < text->size && text->ptr[0] == ' ' && text->ptr[text->size - 1] == ' ') {
    cmark_strbuf_truncate(text, text->size - 1);
    cmark_strbuf_drop(text, 1);
  }
  end_span(b, e[-2].index, CMARK_NODE_CODE); /* cmark's place of code leaves out the grave accents */
}

/* Text. */

static void part(mi_builder *b, mi_events e) { *MI_PUSH(b->mem, b->mi->parts) = (markdown_inline_range){e->index + (e->vs > 0), e[1].index}; }

static void data(mi_builder *b, mi_events e) {
  if (b->inside == IN_STRING) part(b, e);
  if (b->inside != IN_TEXT) return;
  mark(b, e->index - (e->name == MI_NAME(CHARACTER_ESCAPE_VALUE)), e[1].index);
  put_leaf(b, e);
}

/* What a character reference stands for. Returns its Exit. */
static mi_events reference(mi_builder *b, mi_events e) {
  uint8_t text[16];
  size_t count;
  mi_events exit = e;
  while (exit->kind != MARKDOWN_INLINE_EXIT || exit->name != MI_NAME(CHARACTER_REFERENCE)) exit++;
  if (b->inside == IN_TEXT) {
    markdown_inline_reference(MI_OPTIONS, b->mi->document.ptr + e->index, exit->index - e->index, text, sizeof text, &count);
    mark(b, e->index, exit->index);
    cmark_strbuf_put(&b->text, text, (bufsize_t)count);
  }
  return exit;
}

static void line_ending(mi_builder *b, mi_events e) {
  if (b->inside == IN_STRING) part(b, e);
  if (b->inside == IN_SPAN) cmark_strbuf_putc(&b->text, '\n');
  if (b->inside != IN_TEXT) return;
  flush(b);
  add_node(b, b->is_hard ? CMARK_NODE_LINEBREAK : CMARK_NODE_SOFTBREAK);
  b->is_hard = false;
}

/* Returns the last event that is read. */
static mi_events enter(mi_builder *b, mi_events e) {
  switch (e->name) {
  case MI_NAME(DATA): case MI_NAME(CHARACTER_ESCAPE_VALUE): data(b, e); break;
  case MI_NAME(CHARACTER_REFERENCE): return b->inside == IN_STRING ? e : reference(b, e);
  case MI_NAME(HARD_BREAK_ESCAPE): case MI_NAME(HARD_BREAK_TRAILING): b->is_hard = true; break;
  case MI_NAME(LINE_ENDING): line_ending(b, e); break;
  case MI_NAME(EMPHASIS): begin(b, e, CMARK_NODE_EMPH); break;
  case MI_NAME(STRONG): begin(b, e, CMARK_NODE_STRONG); break;
  case MI_NAME(LINK): begin(b, e, CMARK_NODE_LINK); break;
  case MI_NAME(IMAGE): begin(b, e, CMARK_NODE_IMAGE); break;
  case MI_NAME(LABEL_TEXT): open_link(b)->text = e->index; break;
  case MI_NAME(LABEL_END): open_link(b)->text_end = e->index; flush(b); break;
  case MI_NAME(RESOURCE): case MI_NAME(REFERENCE): b->inside = IN_NOTHING; break;
  case MI_NAME(RESOURCE_DESTINATION_STRING): case MI_NAME(RESOURCE_TITLE_STRING): b->inside = IN_STRING; b->part = b->mi->parts.len; break;
  case MI_NAME(AUTOLINK_PROTOCOL): case MI_NAME(AUTOLINK_EMAIL): autolink(b, e); break;
  case MI_NAME(CODE_TEXT): case MI_NAME(HTML_TEXT): begin_span(b, e); break;
  case MI_NAME(CODE_TEXT_SEQUENCE): if (e[-1].name == MI_NAME(CODE_TEXT)) b->start_column = column_of(b, e[1].index); break;
  case MI_NAME(CODE_TEXT_DATA): case MI_NAME(HTML_TEXT_DATA): put_leaf(b, e); break;
  case MI_NAME(SPACE_OR_TAB): if (b->inside == IN_SPAN) put_leaf(b, e); break; /* before a lazy line of HTML, where cmark keeps it */
  default: break;
  }
  return e;
}

static void leave(mi_builder *b, mi_events e) {
  switch (e->name) {
  case MI_NAME(EMPHASIS): case MI_NAME(STRONG): end(b, e); break;
  case MI_NAME(LINK): case MI_NAME(IMAGE): end_link(b, e); break;
  case MI_NAME(RESOURCE_DESTINATION_STRING): open_link(b)->has_destination = true; end_string(b, &b->parent->as.link.url); break;
  case MI_NAME(RESOURCE_TITLE_STRING): open_link(b)->has_title = true; end_string(b, &b->parent->as.link.title); break;
  case MI_NAME(RESOURCE_TITLE): if (!open_link(b)->has_title) b->parent->as.link.title = (unsigned char *)b->mem->calloc(1, 1); break;
  case MI_NAME(RESOURCE): case MI_NAME(REFERENCE): b->inside = IN_TEXT; break;
  case MI_NAME(CODE_TEXT): end_code(b, e); break;
  case MI_NAME(HTML_TEXT): end_span(b, e->index, CMARK_NODE_HTML_INLINE); break;
  default: break;
  }
}

void mi_build(mi_builder *b, size_t content, mi_events e, mi_events end) {
  const mi_state *mi = b->mi;
  markdown_inline_range pieces = mi->contents.at[content].pieces;
  b->parent = mi->nodes.at[content];
  b->piece = pieces.start;
  b->inside = IN_TEXT;
  for (; e < end; e++) {
    if (e->kind == MARKDOWN_INLINE_ENTER) {
      while (e->index >= mi->pieces.at[b->piece].end && b->piece + 1 < pieces.end) b->piece++;
      e = enter(b, e);
    } else {
      leave(b, e);
    }
  }
  flush(b);
}
