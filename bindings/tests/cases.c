/* Reads cases of draw.py from standard input, and prints what the library finds in each: events as the program of crates/markdown_test_runs does,
 * leaves, HTML in hexadecimal, or the events or the short events of each text; where there are none, why. */
#include "markdown_inline.h"

#include <stdio.h>
#include <stdlib.h>
#include <string.h>

enum { MOST = 4096 };

static uint8_t document[MOST], labels[MOST];
static markdown_inline_piece pieces[MOST];
static markdown_inline_range definitions[MOST], footnotes[MOST];

/* Appends the bytes of a text in hexadecimal. */
static size_t append(uint8_t *bytes, size_t len, const char *text) {
    unsigned byte;
    for (; sscanf(text, "%2x", &byte) == 1; text += 2) bytes[len++] = (uint8_t)byte;
    return len;
}

/* Cuts the next word off a list with commas. */
static char *next(char **words) {
    char *word = *words;
    if (!word || !strcmp(word, "-")) return NULL;
    *words = strchr(word, ',');
    if (*words) *(*words)++ = 0;
    return word;
}

static size_t read_ranges(char *words, markdown_inline_range *ranges, size_t *len) {
    size_t count = 0;
    for (char *word; (word = next(&words)) != NULL; count++) {
        ranges[count].start = *len;
        ranges[count].end = *len = append(labels, *len, word);
    }
    return count;
}

static void print_number(size_t number) {
    if (number == MARKDOWN_INLINE_NONE)
        printf(":-");
    else
        printf(":%zu", number);
}

static void print_events(const markdown_inline_event *events, size_t count) {
    for (const markdown_inline_event *it = events; it < events + count; it++) {
        printf(" %c%s %zu:%zu:%zu:%zu", it->kind ? '-' : '+', markdown_inline_name_text(it->name), it->line, it->column, it->index, it->vs);
        if (!it->link) continue;
        printf(it->link == MARKDOWN_INLINE_LINKED_STRING ? ":String" : ":Text");
        print_number(it->previous);
        print_number(it->next);
    }
}

/* What a call answers stands in an array that is exactly as long as is asked for, so that a sanitizer sees what is written past it. */
static void *room(size_t count, size_t each) {
    void *found = malloc(count * each + (count == 0));
    if (!found) exit(1);
    return found;
}

static uint32_t answer_events(const markdown_inline_input *input, int is_text) {
    size_t count = 0;
    markdown_inline_event *events = NULL;
    uint32_t status = (is_text ? markdown_inline_text : markdown_inline_string)(input, NULL, 0, &count);
    if (status == MARKDOWN_INLINE_TOO_SMALL) {
        events = (markdown_inline_event *)room(count, sizeof *events);
        status = (is_text ? markdown_inline_text : markdown_inline_string)(input, events, count, &count);
    }
    if (status == MARKDOWN_INLINE_DONE) print_events(events, count);
    free(events);
    return status;
}

static void print_bytes(const uint8_t *bytes, size_t len) {
    for (size_t at = 0; at < len; at++) printf("%02x", bytes[at]);
}

static void print_leaf(const markdown_inline_leaf *it) {
    printf(" %s %zu:%zu:%zu:%zu", markdown_inline_name_text(it->name), it->start_line, it->start_column, it->start, it->start_vs);
    printf(" %zu:%zu:%zu:%zu %zu:", it->end_line, it->end_column, it->end, it->end_vs, it->before);
    print_bytes(document + it->start + (it->start_vs > 0), it->bytes_len);
    printf(":%zu", it->after);
}

static uint32_t answer_leaves(const markdown_inline_input *input) {
    size_t count = 0;
    markdown_inline_leaf *leaves = NULL;
    uint32_t status = markdown_inline_leaves(input, NULL, 0, &count);
    if (status == MARKDOWN_INLINE_TOO_SMALL) {
        leaves = (markdown_inline_leaf *)room(count, sizeof *leaves);
        status = markdown_inline_leaves(input, leaves, count, &count);
    }
    for (size_t at = 0; status == MARKDOWN_INLINE_DONE && at < count; at++) print_leaf(&leaves[at]);
    free(leaves);
    return status;
}

/* Appends the target that a word names to the labels. */
static markdown_inline_target read_target(char *word, size_t *len) {
    markdown_inline_target target = {{*len, 0}, {0, 0}, 0, 0};
    char *title = strchr(word, ':');
    if (title) *title++ = 0;
    target.destination.end = *len = append(labels, *len, word + 1);
    if (!title) return target;
    target.has_title = 1;
    target.title.start = *len;
    target.title.end = *len = append(labels, *len, title);
    return target;
}

static uint32_t answer_html(markdown_inline_input *input, char **words) {
    markdown_inline_target targets[MOST / 16];
    size_t found = 0, count = 0;
    uint8_t *html = NULL;
    uint32_t options = (uint32_t)strtoul(words[0], NULL, 10);
    for (char *word; (word = next(&words[1])) != NULL;) targets[found++] = read_target(word, &input->labels_len);
    uint32_t status = markdown_inline_html(input, targets, found, options, 0, NULL, 0, &count);
    if (status == MARKDOWN_INLINE_TOO_SMALL) {
        html = (uint8_t *)room(count, 1);
        status = markdown_inline_html(input, targets, found, options, 0, html, count, &count);
    }
    if (status == MARKDOWN_INLINE_DONE) {
        printf(" ");
        print_bytes(html, count);
    }
    free(html);
    return status;
}

static uint32_t answer_document(const markdown_inline_input *input, char **words) {
    markdown_inline_document_options options;
    markdown_inline_outcome outcome = {0, 0, 0};
    uint8_t *html = NULL;
    memset(&options, 0, sizeof options);
    options.options = input->options;
    options.html = (uint32_t)strtoul(words[0], NULL, 10);
    options.limit = strtoul(words[1], NULL, 10);
    options.blocks = (uint32_t)strtoul(words[2], NULL, 10);
    uint32_t status = markdown_inline_document_html(input->bytes, input->bytes_len, &options, NULL, 0, &outcome);
    if (status == MARKDOWN_INLINE_TOO_SMALL) {
        html = (uint8_t *)room(outcome.count, 1);
        status = markdown_inline_document_html(input->bytes, input->bytes_len, &options, html, outcome.count, &outcome);
    }
    if (status == MARKDOWN_INLINE_DONE) {
        printf(" ");
        print_bytes(html, outcome.count);
    }
    free(html);
    return status;
}

static void print_blamed(size_t blamed) {
    if (blamed != MARKDOWN_INLINE_NONE) printf(" %zu", blamed);
}

static void print_short(const markdown_inline_short_event *it) {
    printf(" %s%s %zu:%u:%u", it->kind == MARKDOWN_INLINE_ENTER ? "+" : "-", markdown_inline_name_text(it->name), it->index, it->vs, it->link);
    if (it->definition != MARKDOWN_INLINE_NO_DEFINITION) printf(":%u", it->definition);
}

static size_t read_contents(char **words, markdown_inline_content *contents) {
    size_t found = 0;
    for (char *word; (word = next(words)) != NULL; found++) {
        markdown_inline_content *it = &contents[found];
        it->reserved = 0;
        sscanf(word, "%zu-%zu:%u", &it->pieces.start, &it->pieces.end, &it->first_of_item);
    }
    return found;
}

static uint32_t answer_htmls(markdown_inline_input *input, char **words) {
    markdown_inline_target targets[MOST / 16];
    markdown_inline_content contents[MOST / 16];
    markdown_inline_outcome outcome = {0, 0, 0};
    size_t found = 0, first = 0, many = read_contents(&words[2], contents), limit = strtoul(words[3], NULL, 10);
    uint8_t *html = NULL;
    uint32_t options = (uint32_t)strtoul(words[0], NULL, 10);
    for (char *word; (word = next(&words[1])) != NULL;) targets[found++] = read_target(word, &input->labels_len);
    size_t *ends = (size_t *)room(many, sizeof *ends);
    uint32_t status = markdown_inline_htmls(input, targets, found, contents, many, options, limit, NULL, 0, ends, many, &outcome);
    if (status == MARKDOWN_INLINE_TOO_SMALL) {
        html = (uint8_t *)room(outcome.count, 1);
        status = markdown_inline_htmls(input, targets, found, contents, many, options, limit, html, outcome.count, ends, many, &outcome);
    }
    for (size_t at = 0; status == MARKDOWN_INLINE_DONE && at < many; first = ends[at++]) {
        printf(" |");
        print_bytes(html + first, ends[at] - first);
    }
    print_blamed(outcome.blamed);
    free(ends);
    free(html);
    return status;
}

/* The texts of headings and paragraphs as contents. A paragraph is the first of an item where before it in the item stand only blank lines and definitions. */
static size_t contents_of(const markdown_inline_block *blocks, size_t many, markdown_inline_content *contents) {
    size_t found = 0, first_in = MARKDOWN_INLINE_NONE;
    for (const markdown_inline_block *it = blocks; it < blocks + many; it++) {
        int is_first = it->depth == first_in, is_paragraph = it->kind == MARKDOWN_INLINE_BLOCK_PARAGRAPH, is_empty = it->pieces.start == it->pieces.end;
        if (is_paragraph || it->kind == MARKDOWN_INLINE_BLOCK_HEADING) contents[found++] = (markdown_inline_content){it->pieces, is_first && is_paragraph, 0};
        if (it->kind == MARKDOWN_INLINE_BLOCK_ITEM) first_in = it->depth + 1;
        else if (!is_first || !(it->kind == MARKDOWN_INLINE_BLOCK_BLANK_LINE || (is_paragraph && is_empty))) first_in = MARKDOWN_INLINE_NONE;
    }
    return found;
}

/* Prints a block: its numbers, its pieces, and the HTML of its text if it has one. */
static void print_block(const markdown_inline_block *it, const markdown_inline_piece *pieces, const uint8_t *html, const size_t *ends, size_t *number) {
    printf(" |%u:%zu:%zu:%zu:%u:%u", it->kind, it->depth, it->number, it->line, it->marker, it->list);
    for (size_t at = it->pieces.start; at < it->pieces.end; at++) printf(" %zu.%zu-%zu.%zu", pieces[at].start, pieces[at].start_vs, pieces[at].end, pieces[at].end_vs);
    if (it->kind != MARKDOWN_INLINE_BLOCK_PARAGRAPH && it->kind != MARKDOWN_INLINE_BLOCK_HEADING) return;
    size_t start = *number > 0 ? ends[*number - 1] : 0, end = ends[(*number)++];
    printf(" =");
    print_bytes(html + start, end - start);
}

static void print_definition(const uint8_t *texts, markdown_inline_range label, const markdown_inline_target *target) {
    printf(" ;");
    print_bytes(texts + label.start, label.end - label.start);
    printf("=");
    print_bytes(texts + target->destination.start, target->destination.end - target->destination.start);
    if (!target->has_title) return;
    printf(":");
    print_bytes(texts + target->title.start, target->title.end - target->title.start);
}

/* The blocks of a document, with the HTML of their texts, and its definitions. The input gets these, and the footnotes stand behind. */
static uint32_t answer_blocks(const markdown_inline_input *given, char **words) {
    static markdown_inline_block blocks[MOST];
    static markdown_inline_piece their_pieces[MOST];
    static markdown_inline_range ranges[MOST], noted[MOST];
    static markdown_inline_target targets[MOST];
    static markdown_inline_content contents[MOST];
    static size_t ends[MOST];
    static uint8_t texts[2 * MOST], html[64 * MOST];
    markdown_inline_blocks_count count = {0, 0};
    markdown_inline_definitions_count defined = {0, 0};
    markdown_inline_outcome outcome = {0, 0, MARKDOWN_INLINE_NONE};
    markdown_inline_input input = *given;
    size_t number = 0;
    uint32_t block_options = (uint32_t)strtoul(words[2], NULL, 10);
    uint32_t status = markdown_inline_blocks(input.bytes, input.bytes_len, block_options, blocks, MOST, their_pieces, MOST, &count);
    if (status == MARKDOWN_INLINE_DONE) status = markdown_inline_definitions(input.bytes, input.bytes_len, block_options, texts, MOST, ranges, MOST, targets, MOST, &defined);
    if (status != MARKDOWN_INLINE_DONE) return status;
    memcpy(texts + defined.labels, input.labels, input.labels_len);
    for (size_t at = 0; at < input.footnotes_len; at++) noted[at] = (markdown_inline_range){input.footnotes[at].start + defined.labels, input.footnotes[at].end + defined.labels};
    input.labels = texts, input.labels_len += defined.labels, input.definitions = ranges, input.definitions_len = defined.definitions;
    input.footnotes = noted, input.pieces = their_pieces, input.pieces_len = count.pieces;
    size_t many = contents_of(blocks, count.blocks, contents);
    status = markdown_inline_htmls(&input, targets, defined.definitions, contents, many, (uint32_t)strtoul(words[0], NULL, 10), strtoul(words[1], NULL, 10), html, sizeof html, ends, many, &outcome);
    for (size_t at = 0; status == MARKDOWN_INLINE_DONE && at < count.blocks; at++) print_block(&blocks[at], their_pieces, html, ends, &number);
    for (size_t at = 0; status == MARKDOWN_INLINE_DONE && at < defined.definitions; at++) print_definition(texts, ranges[at], &targets[at]);
    print_blamed(outcome.blamed);
    return status;
}

static uint32_t answer_texts(const markdown_inline_input *input, char **words) {
    markdown_inline_content contents[MOST / 16];
    markdown_inline_outcome outcome = {0, 0, 0};
    size_t found = read_contents(words, contents), first = 0;
    markdown_inline_event *events = NULL;
    size_t *ends = (size_t *)room(found, sizeof *ends);
    uint32_t status = markdown_inline_texts(input, contents, found, NULL, 0, ends, found, &outcome);
    if (status == MARKDOWN_INLINE_TOO_SMALL) {
        events = (markdown_inline_event *)room(outcome.count, sizeof *events);
        status = markdown_inline_texts(input, contents, found, events, outcome.count, ends, found, &outcome);
    }
    for (size_t at = 0; status == MARKDOWN_INLINE_DONE && at < found; first = ends[at++]) {
        printf(" |");
        print_events(events + first, ends[at] - first);
    }
    print_blamed(outcome.blamed);
    free(ends);
    free(events);
    return status;
}

/* The short events of texts. Those that have room at first are kept, and the others are found by a second call. */
static uint32_t answer_shorts(const markdown_inline_input *input, char **words) {
    markdown_inline_content contents[MOST / 16];
    markdown_inline_outcome outcome = {0, 0, 0};
    size_t found = read_contents(words, contents), first = 0, len = 64;
    markdown_inline_short_event *events = (markdown_inline_short_event *)room(len, sizeof *events);
    size_t *ends = (size_t *)room(found, sizeof *ends);
    uint32_t status = markdown_inline_short_texts(input, contents, found, events, len, ends, found, &outcome);
    if (status == MARKDOWN_INLINE_TOO_SMALL) {
        size_t done = outcome.done, written = done > 0 ? ends[done - 1] : 0;
        markdown_inline_short_event *all = (markdown_inline_short_event *)room(len = outcome.count, sizeof *all);
        memcpy(all, events, written * sizeof *all);
        free(events);
        events = all;
        status = markdown_inline_short_texts(input, contents + done, found - done, events + written, len - written, ends + done, found - done, &outcome);
        for (size_t at = done; at < found; at++) ends[at] += written;
    }
    for (size_t at = 0; status == MARKDOWN_INLINE_DONE && at < found; first = ends[at++]) {
        printf(" |");
        for (size_t event = first; event < ends[at]; event++) print_short(&events[event]);
    }
    print_blamed(outcome.blamed);
    free(ends);
    free(events);
    return status;
}

/* Answers a case. */
static void answer(char **words) {
    markdown_inline_input input = {document, 0, pieces, 0, labels, 0, definitions, 0, footnotes, 0, (uint32_t)strtoul(words[1], NULL, 10), 0};
    for (char *word; (word = next(&words[2])) != NULL; input.pieces_len++) {
        markdown_inline_piece *it = &pieces[input.pieces_len];
        sscanf(word, "%zu.%zu-%zu.%zu", &it->start, &it->start_vs, &it->end, &it->end_vs);
    }
    input.definitions_len = read_ranges(words[3], definitions, &input.labels_len);
    input.footnotes_len = read_ranges(words[4], footnotes, &input.labels_len);
    input.bytes_len = append(document, 0, words[5]);
    printf("%s", words[0]);
    if (!strcmp(words[0], "text") || !strcmp(words[0], "string")) {
        int is_text = words[0][0] == 't';
        if (answer_events(&input, is_text) != MARKDOWN_INLINE_DONE) printf(is_text ? " no text" : " no content");
    } else {
        uint32_t status = !strcmp(words[0], "leaves") ? answer_leaves(&input)
            : !strcmp(words[0], "html") ? answer_html(&input, words + 6)
            : !strcmp(words[0], "document") ? answer_document(&input, words + 6)
            : !strcmp(words[0], "blocks") ? answer_blocks(&input, words + 6)
            : !strcmp(words[0], "htmls") ? answer_htmls(&input, words + 6)
            : !strcmp(words[0], "shorts") ? answer_shorts(&input, words + 6) : answer_texts(&input, words + 6);
        if (status != MARKDOWN_INLINE_DONE) printf(": %s", markdown_inline_status_text(status));
    }
    printf("\n");
}

int main(void) {
    static char line[8 * MOST];
    while (fgets(line, sizeof line, stdin)) {
        char *words[10], *word = strtok(line, " \n");
        size_t found = 0;
        for (; word && found < 10; word = strtok(NULL, " \n")) words[found++] = word;
        if (found < 6) return 1;
        answer(words);
    }
    return 0;
}
