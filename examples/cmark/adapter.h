/* cmark's blocks with the inlines of markdown_inline: what cmark.patch lets cmark's block parser call. */
#ifndef CMARK_ADAPTER_H
#define CMARK_ADAPTER_H

#include "chunk.h"
#include "cmark.h"

struct cmark_parser;
struct cmark_reference;
typedef struct mi_state mi_state;

mi_state *mi_new(cmark_mem *mem);
void mi_free(mi_state *mi);

/* Takes more of the document, and returns the byte of the document at which it stands. */
size_t mi_feed(mi_state *mi, const unsigned char *bytes, size_t len);

/* How long the document is by now. */
size_t mi_end(const mi_state *mi);

/* The block parser comes to a line, which ends before its line ending. */
void mi_at_line(mi_state *mi, size_t start, size_t end);

/* What is left of the line belongs to the open paragraph or heading. */
void mi_add_line(struct cmark_parser *parser, const cmark_chunk *input);

/* The first lines of the open paragraph, which are these bytes, are definitions. */
void mi_drop_lines(mi_state *mi, const unsigned char *bytes, bufsize_t len);

/* The open paragraph or heading is whole. */
void mi_close(mi_state *mi, cmark_node *node);

/* The open paragraph had definitions alone. */
void mi_forget(mi_state *mi);

/* A definition, by its label as it is written. */
void mi_define(mi_state *mi, const cmark_chunk *label, struct cmark_reference *ref);

/* Reads all paragraphs and headings. */
void mi_parse(struct cmark_parser *parser);

#endif
