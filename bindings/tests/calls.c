/* Each status, arrays that are too small, empty inputs with null pointers, and calls on several threads. With the word for a call it only makes
 * that, and ends with its status: for memory that is refused. */
#include "markdown_inline.h"

#include <pthread.h>
#include <stdio.h>
#include <stdlib.h>
#include <string.h>

static int faults;

static void want(const char *what, int holds) {
    if (holds) return;
    printf("calls: %s\n", what);
    faults++;
}

static markdown_inline_input input_of(const char *text, const markdown_inline_piece *piece) {
    markdown_inline_input input = {(const uint8_t *)text, strlen(text), piece, 1, NULL, 0, NULL, 0, NULL, 0, MARKDOWN_INLINE_COMMONMARK, 0};
    return input;
}

static markdown_inline_piece whole(const char *text) {
    markdown_inline_piece piece = {0, 0, 0, 0};
    piece.end = strlen(text);
    return piece;
}

/* Calls with an array that is filled with ones, and says whether a status other than DONE has written nothing to it and to the count. */
static uint32_t kept(const markdown_inline_input *input, int is_text, int *is_kept) {
    markdown_inline_event events[4], before[4];
    size_t count = 77;
    memset(events, 1, sizeof events);
    memset(before, 1, sizeof before);
    uint32_t status = (is_text ? markdown_inline_text : markdown_inline_string)(input, events, 4, &count);
    *is_kept = !memcmp(events, before, sizeof events) && count == 77;
    return status;
}

static void want_status(const char *what, const markdown_inline_input *input, int is_text, uint32_t wanted) {
    int is_kept;
    uint32_t status = kept(input, is_text, &is_kept);
    if (status != wanted) printf("calls: %s: status %u\n", what, status);
    faults += status != wanted;
    want(what, is_kept);
}

static void test_statuses(void) {
    markdown_inline_piece one = {0, 0, 1, 0}, two = {0, 0, 2, 0}, four = {0, 0, 4, 0};
    markdown_inline_input input = input_of("a", &one);
    input.options |= 1u << 31;
    want_status("an unknown option of a text", &input, 1, MARKDOWN_INLINE_UNKNOWN_OPTION);
    want_status("an unknown option of a string", &input, 0, MARKDOWN_INLINE_UNKNOWN_OPTION);
    input = input_of("\xff", &one);
    want_status("no UTF-8", &input, 1, MARKDOWN_INLINE_NOT_UTF8);
    want_status("no UTF-8 in a string", &input, 0, MARKDOWN_INLINE_NOT_UTF8);
    input = input_of("a\n\nb", &four);
    want_status("a blank line", &input, 1, MARKDOWN_INLINE_BLANK_LINE);
    input = input_of("a\n", &two);
    want_status("a line ending at the end", &input, 1, MARKDOWN_INLINE_BLANK_LINE);
    input = input_of("a", &two);
    want_status("a piece past the end", &input, 1, MARKDOWN_INLINE_NO_CONTENT);
    want_status("a piece past the end of a string", &input, 0, MARKDOWN_INLINE_NO_CONTENT);
    input = input_of("a", &one);
    input.bytes_len = (SIZE_MAX >> 3) + 1;
    want_status("a document too long", &input, 1, MARKDOWN_INLINE_TOO_LONG);
    markdown_inline_range ranges[] = {{0, 3}, {2, 1}, {SIZE_MAX, SIZE_MAX}, {0, SIZE_MAX}, {1, 2}};
    for (size_t at = 0; at < sizeof ranges / sizeof *ranges; at++) {
        input = input_of("a", &one);
        input.labels = (const uint8_t *)"\xc3\xa9";
        input.labels_len = 2;
        input.definitions = &ranges[at];
        input.definitions_len = 1;
        want_status("a range of a definition", &input, 1, MARKDOWN_INLINE_DEFINITION);
        input.footnotes = input.definitions;
        input.footnotes_len = 1;
        input.definitions_len = 0;
        want_status("a range of a footnote", &input, 1, MARKDOWN_INLINE_DEFINITION);
    }
}

/* The words of statuses and the names of events, and no others. */
static void test_words(void) {
    static const char *const words[] = {"done", NULL, "unknown option", "document is not UTF-8", "blank line in text, or line ending at its end", "out of memory",
        "array too small", "pieces are no content of the document", "range of a definition is no text of the labels", "document too long",
        "no character reference", "references bring more than the limit", "part of a string is no text of the bytes", NULL};
    for (uint32_t status = 0; status < sizeof words / sizeof *words; status++) {
        const char *found = markdown_inline_status_text(status);
        want("words of a status", words[status] ? found && !strcmp(found, words[status]) : !found);
    }
    want("words of a large status", !markdown_inline_status_text(UINT32_MAX) && !markdown_inline_status_text(256));
    for (unsigned name = 0; name < 256; name++) {
        const char *found = markdown_inline_name_text((uint8_t)name);
        want("a name has a text", name < MARKDOWN_INLINE_NAME_COUNT ? found && *found : !found);
        for (unsigned other = 0; other < name && name < MARKDOWN_INLINE_NAME_COUNT; other++)
            want("names differ", strcmp(found, markdown_inline_name_text((uint8_t)other)) != 0);
    }
    want("the first name and the last one", !strcmp(markdown_inline_name_text(0), "AttentionSequence")
            && !strcmp(markdown_inline_name_text(MARKDOWN_INLINE_NAME_COUNT - 1), "StrongText"));
}

/* The numbers that the header gives to kinds and links are those of events. */
static void test_numbers(void) {
    const char *text = "[a](b \"c\nd\")";
    markdown_inline_piece piece = whole(text);
    markdown_inline_input input = input_of(text, &piece);
    markdown_inline_event events[64];
    size_t count = 0, links = 0;
    want("a link", markdown_inline_text(&input, events, 64, &count) == MARKDOWN_INLINE_DONE && count > 20);
    want("a link begins", events[0].kind == MARKDOWN_INLINE_ENTER && events[0].name == MARKDOWN_INLINE_NAME_LINK && events[0].link == MARKDOWN_INLINE_UNLINKED);
    want("a link ends", events[count - 1].kind == MARKDOWN_INLINE_EXIT && events[count - 1].name == MARKDOWN_INLINE_NAME_LINK);
    for (size_t at = 0; at < count; at++) {
        const markdown_inline_event *it = &events[at];
        links += it->link == MARKDOWN_INLINE_LINKED_STRING;
        want("numbers of a chain", it->link == MARKDOWN_INLINE_UNLINKED || it->next == MARKDOWN_INLINE_NONE || events[it->next].previous == at);
    }
    want("a destination is a string, and so are two lines of a title with the line ending", links == 4);
}

static void test_tests(void) {
    markdown_inline_piece four = {0, 0, 4, 0};
    want("is_content", markdown_inline_is_content((const uint8_t *)"a\n\nb", 4, &four, 1) == MARKDOWN_INLINE_DONE);
    want("is_text", markdown_inline_is_text((const uint8_t *)"a\n\nb", 4, &four, 1) == MARKDOWN_INLINE_BLANK_LINE);
    want("is_content past the end", markdown_inline_is_content((const uint8_t *)"a\n\nb", 3, &four, 1) == MARKDOWN_INLINE_NO_CONTENT);
    want("is_text of no UTF-8", markdown_inline_is_text((const uint8_t *)"\xff\xff\xff\xff", 4, &four, 1) == MARKDOWN_INLINE_NOT_UTF8);
}

static void test_room(void) {
    const char *text = "a *b*";
    markdown_inline_piece piece = whole(text);
    markdown_inline_input input = input_of(text, &piece);
    markdown_inline_event events[16], before[16];
    size_t count = 0, needed = 0;
    want("no array", markdown_inline_text(&input, NULL, 0, &needed) == MARKDOWN_INLINE_TOO_SMALL && needed == 12);
    for (size_t room = 0; room < 16; room++) {
        memset(events, 1, sizeof events);
        memset(before, 1, sizeof before);
        uint32_t status = markdown_inline_text(&input, events, room, &count);
        size_t written = room < needed ? 0 : needed;
        want("a status by the room", status == (room < needed ? (uint32_t)MARKDOWN_INLINE_TOO_SMALL : (uint32_t)MARKDOWN_INLINE_DONE) && count == needed);
        want("what stands past the count", !memcmp(events + written, before + written, (16 - written) * sizeof *events));
    }
}

/* The leaves of a text of one line without tabs follow one another, and cover it. */
static void test_leaves(void) {
    const char *text = "a *b* [c](d) `e`";
    markdown_inline_piece piece = whole(text), past = {0, 0, 99, 0};
    markdown_inline_input input = input_of(text, &piece);
    markdown_inline_leaf leaves[32], before[32];
    size_t count = 0, needed = 0, at = 0;
    memset(leaves, 1, sizeof leaves);
    memset(before, 1, sizeof before);
    want("no room for leaves", markdown_inline_leaves(&input, leaves, 3, &needed) == MARKDOWN_INLINE_TOO_SMALL && needed > 3 && needed < 32);
    want("leaves without room", !memcmp(leaves, before, sizeof leaves));
    want("leaves", markdown_inline_leaves(&input, leaves, 32, &count) == MARKDOWN_INLINE_DONE && count == needed);
    for (size_t number = 0; number < count; number++) {
        const markdown_inline_leaf *it = &leaves[number];
        want("a leaf begins where the last one ends", it->start == at && it->start_column == at + 1 && it->start_line == 1 && it->start_vs == 0);
        want("a leaf has its bytes", it->bytes_len == it->end - it->start && it->before == 0 && it->after == 0 && markdown_inline_name_text(it->name));
        at = it->end;
    }
    want("leaves cover the text", at == piece.end);
    want("what stands past the leaves", !memcmp(leaves + count, before + count, (32 - count) * sizeof *leaves));
    input.pieces = &past;
    want("leaves of no content", markdown_inline_leaves(&input, leaves, 32, &count) == MARKDOWN_INLINE_NO_CONTENT && count == needed);
}

static void test_identifiers(void) {
    const uint8_t label[] = {' ', 'A', '\n', 'B', 0xe1, 0xba, 0x9e};
    uint8_t found[8], before[8];
    size_t count = 77;
    memset(found, 1, sizeof found);
    memset(before, 1, sizeof before);
    want("bytes that are no label", markdown_inline_identifier((const uint8_t *)"\xff", 1, found, 8, &count) == MARKDOWN_INLINE_NOT_UTF8 && count == 77);
    want("an identifier without room", markdown_inline_identifier(label, 7, NULL, 0, &count) == MARKDOWN_INLINE_TOO_SMALL && count == 5);
    want("too little room", markdown_inline_identifier(label, 7, found, 4, &count) == MARKDOWN_INLINE_TOO_SMALL && !memcmp(found, before, 8));
    want("an identifier", markdown_inline_identifier(label, 7, found, 8, &count) == MARKDOWN_INLINE_DONE && count == 5 && !memcmp(found, "a bss\1\1\1", 8));
    want("no label", markdown_inline_identifier(NULL, 0, NULL, 0, &count) == MARKDOWN_INLINE_DONE && count == 0);
}

/* Whether a reference is decoded to a text, and not at all without room for it. */
static void want_reference(const char *reference, const char *text) {
    uint8_t found[16], before[16];
    size_t count = 77, len = strlen(text);
    memset(found, 1, sizeof found);
    memset(before, 1, sizeof before);
    uint32_t status = markdown_inline_reference(MARKDOWN_INLINE_COMMONMARK, (const uint8_t *)reference, strlen(reference), found, len - 1, &count);
    want(reference, status == MARKDOWN_INLINE_TOO_SMALL && count == len && !memcmp(found, before, 16));
    status = markdown_inline_reference(MARKDOWN_INLINE_COMMONMARK, (const uint8_t *)reference, strlen(reference), found, 16, &count);
    want(reference, status == MARKDOWN_INLINE_DONE && count == len && !memcmp(found, text, len) && !memcmp(found + len, before, 16 - len));
}

/* Which names are known, and whether a control is kept, is said by the options; other bits change nothing, and an unknown one is refused first. */
static void test_references_by_options(void) {
    static const struct {
        uint32_t options;
        const char *reference, *text;
    } rows[] = {{MARKDOWN_INLINE_COMMONMARK, "&check;", "\xe2\x9c\x93"}, {MARKDOWN_INLINE_CRATE, "&check;", NULL}, {0, "&check;", NULL}, {MARKDOWN_INLINE_OPTION_HTML_REFERENCES, "&check;", "\xe2\x9c\x93"},
        {MARKDOWN_INLINE_OPTION_STANDARD_RULES, "&check;", "\xe2\x9c\x93"}, {MARKDOWN_INLINE_OPTION_HTML_REFERENCES, "&nosuch;", NULL},
        {0, "&#1;", "\xef\xbf\xbd"}, {MARKDOWN_INLINE_OPTION_HTML_REFERENCES, "&#1;", "\xef\xbf\xbd"}, {MARKDOWN_INLINE_OPTION_STANDARD_RULES, "&#1;", "\x01"},
        {MARKDOWN_INLINE_OPTION_STANDARD_RULES, "&#xfffe;", "\xef\xbf\xbe"}, {MARKDOWN_INLINE_OPTION_STANDARD_RULES, "&#0;", "\xef\xbf\xbd"}, {0, "&amp;", "&"}};
    for (size_t at = 0; at < sizeof rows / sizeof *rows; at++) {
        uint8_t found[16];
        size_t count = 77, len = rows[at].text ? strlen(rows[at].text) : 77;
        uint32_t status = markdown_inline_reference(rows[at].options, (const uint8_t *)rows[at].reference, strlen(rows[at].reference), found, 16, &count);
        want(rows[at].reference, status == (rows[at].text ? (uint32_t)MARKDOWN_INLINE_DONE : (uint32_t)MARKDOWN_INLINE_NO_REFERENCE) && count == len);
        if (rows[at].text) want(rows[at].reference, count == len && !memcmp(found, rows[at].text, len));
    }
    size_t count = 77;
    want("an unknown option of a reference", markdown_inline_reference(0x800000, (const uint8_t *)"a", 1, NULL, 0, &count) == MARKDOWN_INLINE_UNKNOWN_OPTION && count == 77);
}

static void test_references(void) {
    static const char *const none[] = {"", "&", "&;", "a", "&amp", "amp;", "&amp;a", "&nothing;", "&#;", "&#x;", "&#12345678;", "&#x1234567;", "&#xg;", "&am\xff;"};
    want_reference("&amp;", "&");
    want_reference("&copy;", "\xc2\xa9");
    want_reference("&#65;", "A");
    want_reference("&#x1F600;", "\xf0\x9f\x98\x80");
    want_reference("&#X41;", "A");
    want_reference("&#0;", "\xef\xbf\xbd");
    want_reference("&#xD800;", "\xef\xbf\xbd");
    for (size_t at = 0; at < sizeof none / sizeof *none; at++) {
        uint8_t found = 1;
        size_t count = 77;
        uint32_t status = markdown_inline_reference(MARKDOWN_INLINE_COMMONMARK, (const uint8_t *)none[at], strlen(none[at]), &found, 1, &count);
        want(none[at], status == MARKDOWN_INLINE_NO_REFERENCE && count == 77 && found == 1);
    }
    test_references_by_options();
    size_t count = 77;
    want("no bytes are no reference", markdown_inline_reference(MARKDOWN_INLINE_COMMONMARK, NULL, 0, NULL, 0, &count) == MARKDOWN_INLINE_NO_REFERENCE && count == 77);
}

/* A document with a task, and a block quote of two lines, and contents of it. */
static const char some[] = "[x] *a*\n\n> b\n> `c` [d]\n\n";
static const markdown_inline_piece some_pieces[] = {{0, 0, 7, 0}, {11, 0, 13, 0}, {15, 0, 22, 0}, {0, 0, 9, 0}, {0, 0, 99, 0}};
static const markdown_inline_content some_contents[] = {{{0, 1}, 1, 0}, {{0, 1}, 0, 0}, {{1, 3}, 0, 0}, {{3, 3}, 0, 0}};
static const markdown_inline_range some_label = {0, 1};

static markdown_inline_input some_input(void) {
    markdown_inline_input input = input_of(some, some_pieces);
    input.pieces_len = 5;
    input.options |= MARKDOWN_INLINE_GFM;
    input.labels = (const uint8_t *)"D";
    input.labels_len = 1;
    input.definitions = &some_label;
    input.definitions_len = 1;
    return input;
}

static int is_outcome(const markdown_inline_outcome *it, size_t done, size_t count, size_t blamed) {
    return it->done == done && it->count == count && it->blamed == blamed;
}

/* Many contents have the events that each has by itself, and as many as have room are written. */
static void test_texts(void) {
    markdown_inline_input input = some_input();
    markdown_inline_event events[128], before[128], one[64];
    markdown_inline_outcome outcome = {77, 77, 77};
    size_t ends[6], at = 0, count = 77, all = 0;
    memset(before, 1, sizeof before);
    for (size_t number = 0; number < 4; number++) {
        markdown_inline_input alone = input;
        alone.pieces = some_pieces + some_contents[number].pieces.start;
        alone.pieces_len = some_contents[number].pieces.end - some_contents[number].pieces.start;
        if (some_contents[number].first_of_item) alone.options |= MARKDOWN_INLINE_OPTION_FIRST_OF_ITEM;
        want("one of the texts", markdown_inline_text(&alone, one, 64, &count) == MARKDOWN_INLINE_DONE && all + count < 128);
        all += count;
    }
    for (size_t room = 0; room <= all + 1; room++) {
        memset(events, 1, sizeof events);
        memset(ends, 1, sizeof ends);
        uint32_t status = markdown_inline_texts(&input, some_contents, 4, events, room, ends, 6, &outcome);
        want("a status by the room for texts", status == (room < all ? (uint32_t)MARKDOWN_INLINE_TOO_SMALL : (uint32_t)MARKDOWN_INLINE_DONE));
        size_t done = outcome.done, written = done > 0 && done <= 4 ? ends[done - 1] : 0;
        want("all texts are counted", is_outcome(&outcome, done, all, MARKDOWN_INLINE_NONE) && done <= 4 && written <= room && (done == 4) == (room >= all));
        want("what stands past texts", !memcmp(events + written, before, (128 - written) * sizeof *events) && !memcmp(ends + done, before, (6 - done) * sizeof *ends));
        if (done >= 4) continue;
        /* It goes on from there, and the next one has not had room. */
        status = markdown_inline_texts(&input, some_contents + done, 4 - done, events + written, all - written, ends + done, 4 - done, &outcome);
        want("texts go on", status == MARKDOWN_INLINE_DONE && is_outcome(&outcome, 4 - done, all - written, MARKDOWN_INLINE_NONE) && written + ends[done] > room);
    }
    for (size_t number = 0; number < 4; number++) {
        memset(ends, 1, sizeof ends);
        want("no room for ends", markdown_inline_texts(&input, some_contents, 4, events, 128, ends, number, &outcome) == MARKDOWN_INLINE_TOO_SMALL);
        want("as many as have ends", is_outcome(&outcome, number, all, MARKDOWN_INLINE_NONE) && !memcmp(ends + number, before, (6 - number) * sizeof *ends));
    }
    want("texts", markdown_inline_texts(&input, some_contents, 4, events, 128, ends, 6, &outcome) == MARKDOWN_INLINE_DONE && ends[3] == all);
    for (size_t number = 0; number < 4; number++) {
        markdown_inline_input alone = input;
        alone.pieces = some_pieces + some_contents[number].pieces.start;
        alone.pieces_len = some_contents[number].pieces.end - some_contents[number].pieces.start;
        if (some_contents[number].first_of_item) alone.options |= MARKDOWN_INLINE_OPTION_FIRST_OF_ITEM;
        want("one of the texts again", markdown_inline_text(&alone, one, 64, &count) == MARKDOWN_INLINE_DONE && at + count == ends[number]);
        for (size_t event = 0; event < count && at < 128; event++, at++)
            want("an event of many", one[event].name == events[at].name && one[event].index == events[at].index && one[event].next == events[at].next);
    }
    memset(&input, 0, sizeof input);
    want("no texts", markdown_inline_texts(&input, NULL, 0, NULL, 0, NULL, 0, &outcome) == MARKDOWN_INLINE_DONE && is_outcome(&outcome, 0, 0, MARKDOWN_INLINE_NONE));
}

/* Whether texts and short texts are refused with this status, and blame this, and so many are read before. */
static void want_texts_refused(const char *what, const markdown_inline_input *input, const markdown_inline_content *contents, uint32_t wanted, size_t done, size_t to_blame) {
    markdown_inline_event events[128];
    markdown_inline_short_event short_events[128];
    markdown_inline_outcome outcome = {77, 77, 77};
    size_t ends[6] = {77, 77, 77, 77, 77, 77};
    uint32_t status = markdown_inline_texts(input, contents, 4, events, 128, ends, 6, &outcome);
    if (status != wanted || outcome.blamed != to_blame) printf("calls: %s: status %u, blamed %zu\n", what, status, outcome.blamed);
    want(what, status == wanted && is_outcome(&outcome, done, done > 0 ? ends[done - 1] : 0, to_blame) && ends[done] == 77);
    want(what, markdown_inline_short_texts(input, contents, 4, short_events, 128, ends, 6, &outcome) == wanted && is_outcome(&outcome, done, done > 0 ? ends[done - 1] : 0, to_blame));
}

static void test_texts_refused(void) {
    static const struct {
        markdown_inline_content content;
        uint32_t status;
    } wrong[] = {{{{4, 5}, 0, 0}, MARKDOWN_INLINE_NO_CONTENT}, {{{5, 6}, 0, 0}, MARKDOWN_INLINE_NO_CONTENT}, {{{1, 0}, 0, 0}, MARKDOWN_INLINE_NO_CONTENT},
        {{{SIZE_MAX, SIZE_MAX}, 0, 0}, MARKDOWN_INLINE_NO_CONTENT}, {{{3, 4}, 0, 0}, MARKDOWN_INLINE_BLANK_LINE}};
    static const markdown_inline_range ranges[] = {{0, 1}, {0, 2}, {1, 0}};
    markdown_inline_input input = some_input();
    markdown_inline_content contents[4];
    for (size_t number = 0; number < 4 * (sizeof wrong / sizeof *wrong); number++) {
        memcpy(contents, some_contents, sizeof contents);
        contents[number % 4] = wrong[number / 4].content;
        want_texts_refused("one of many that is no text", &input, contents, wrong[number / 4].status, number % 4, number % 4);
    }
    input.footnotes = ranges;
    input.footnotes_len = 3;
    want_texts_refused("a footnote before texts", &input, contents, MARKDOWN_INLINE_DEFINITION, 0, 2);
    input.definitions = ranges;
    input.definitions_len = 3;
    want_texts_refused("a definition before a footnote of texts", &input, contents, MARKDOWN_INLINE_DEFINITION, 0, 1);
    input.bytes = (const uint8_t *)"\xff";
    input.bytes_len = 1;
    want_texts_refused("no UTF-8 before definitions", &input, contents, MARKDOWN_INLINE_NOT_UTF8, 0, 0);
    input.bytes_len = (SIZE_MAX >> 3) + 1;
    want_texts_refused("too long for texts", &input, contents, MARKDOWN_INLINE_TOO_LONG, 0, MARKDOWN_INLINE_NONE);
    input.options |= 1u << 31;
    want_texts_refused("an unknown option of texts", &input, contents, MARKDOWN_INLINE_UNKNOWN_OPTION, 0, MARKDOWN_INLINE_NONE);
}

/* Short events are those of texts, and tell the definitions that links, images and footnote calls refer to. */
static void test_short_texts(void) {
    static const char text[] = "[a] [b][A] ![c][ d\nE ] [f](g) [x[^n]][no] [b] [^M] [a][]";
    static const char labels[] = "b" "a" "d e" "A" "M" "n";
    static const markdown_inline_range definitions[] = {{0, 1}, {1, 2}, {2, 5}, {5, 6}}, footnotes[] = {{6, 7}, {7, 8}};
    /* In the order in which they begin: `[a]`, `[b][A]`, the image, `[f](g)` that refers to none, `[^n]` inside brackets, `[b]`, `[^M]`, `[a][]`. */
    static const uint32_t wanted[] = {1, 1, 2, MARKDOWN_INLINE_NO_DEFINITION, 1, 0, 0, 1};
    markdown_inline_piece piece = whole(text);
    markdown_inline_content content = {{0, 1}, 0, 0};
    markdown_inline_input input = input_of(text, &piece);
    markdown_inline_event events[256];
    markdown_inline_short_event found[256];
    markdown_inline_outcome outcome;
    size_t end = 0, count = 0, met = 0;
    input.options |= MARKDOWN_INLINE_GFM;
    input.labels = (const uint8_t *)labels;
    input.labels_len = sizeof labels - 1;
    input.definitions = definitions;
    input.definitions_len = 4;
    input.footnotes = footnotes;
    input.footnotes_len = 2;
    memset(found, 1, sizeof found);
    want("events of a text with definitions", markdown_inline_text(&input, events, 256, &count) == MARKDOWN_INLINE_DONE);
    want("no room for short events", markdown_inline_short_texts(&input, &content, 1, found, count - 1, &end, 1, &outcome) == MARKDOWN_INLINE_TOO_SMALL);
    want("how many short events there are", is_outcome(&outcome, 0, count, MARKDOWN_INLINE_NONE) && found[0].kind == 1 && end == 0);
    want("short events", markdown_inline_short_texts(&input, &content, 1, found, 256, &end, 1, &outcome) == MARKDOWN_INLINE_DONE && end == count);
    for (size_t at = 0; at < count; at++) {
        const markdown_inline_short_event *it = &found[at];
        int refers = it->kind == MARKDOWN_INLINE_ENTER
            && (it->name == MARKDOWN_INLINE_NAME_LINK || it->name == MARKDOWN_INLINE_NAME_IMAGE || it->name == MARKDOWN_INLINE_NAME_GFM_FOOTNOTE_CALL);
        want("a short event is an event", it->kind == events[at].kind && it->name == events[at].name && it->link == events[at].link && it->vs == events[at].vs
                && it->index == events[at].index);
        want("which definition is met", refers ? met < 8 && it->definition == wanted[met] : it->definition == MARKDOWN_INLINE_NO_DEFINITION);
        met += refers;
    }
    want("how many refer to a definition", met == 8);
}

/* Short events tell the characters of references by these options; NO_DEFINITION stands for a reference of two characters. */
static void want_characters(const char *text, uint32_t options, const uint32_t *wanted, size_t wanted_len) {
    markdown_inline_piece piece = whole(text);
    markdown_inline_content content = {{0, 1}, 0, 0};
    markdown_inline_input input = input_of(text, &piece);
    markdown_inline_short_event found[256];
    markdown_inline_outcome outcome;
    size_t end = 0, met = 0;
    input.options = options;
    want("a text with references", markdown_inline_short_texts(&input, &content, 1, found, 256, &end, 1, &outcome) == MARKDOWN_INLINE_DONE);
    for (size_t at = 0; at < end; at++) {
        int is_reference = found[at].kind == MARKDOWN_INLINE_ENTER && found[at].name == MARKDOWN_INLINE_NAME_CHARACTER_REFERENCE;
        want("which character a reference stands for", is_reference ? met < wanted_len && found[at].definition == wanted[met] : found[at].definition == MARKDOWN_INLINE_NO_DEFINITION);
        met += is_reference;
    }
    want("how many references there are", met == wanted_len);
}

/* CommonMark 2.5: U+FFFD stands for 0, for surrogates and for what is past the last code point. The shorter table lacks `check`. */
static void test_characters(void) {
    static const char text[] = "&amp;*&#65;* ![&#x1F600;](&lt; '&gt;') &copy; &#1; &ngE; &#0; &#xd800; &#x110000; &check; &nosuch; `&lt;` &gt";
    static const uint32_t by_commonmark[] = {'&', 'A', 0x1f600, 0xa9, 1, MARKDOWN_INLINE_NO_DEFINITION, 0xfffd, 0xfffd, 0xfffd, 0x2713};
    static const uint32_t by_the_crate[] = {'&', 'A', 0x1f600, 0xa9, 0xfffd, MARKDOWN_INLINE_NO_DEFINITION, 0xfffd, 0xfffd, 0xfffd};
    want_characters(text, MARKDOWN_INLINE_COMMONMARK, by_commonmark, 10);
    want_characters(text, MARKDOWN_INLINE_CRATE, by_the_crate, 9);
    want_characters("a *b* [c](d)", MARKDOWN_INLINE_COMMONMARK, NULL, 0);
}

/* What the header says of pieces, of contents and of ids. */
static void test_the_header(void) {
    static const char quote[] = "> a *b\n> c*";
    static const markdown_inline_piece right[] = {{2, 0, 7, 0}, {9, 0, 11, 0}}, wrong[] = {{2, 0, 6, 0}, {9, 0, 11, 0}}, one[] = {{2, 0, 11, 0}};
    markdown_inline_input input = input_of(quote, right);
    markdown_inline_event events[64];
    size_t count = 0;
    input.pieces_len = 2;
    want("two lines of a quote", markdown_inline_text(&input, events, 64, &count) == MARKDOWN_INLINE_DONE);
    input.pieces = wrong;
    want_status("a piece that ends before its line ending", &input, 1, MARKDOWN_INLINE_NO_CONTENT);
    input.pieces = one;
    input.pieces_len = 1;
    want("one piece with the mark of a quote in it", markdown_inline_text(&input, events, 64, &count) == MARKDOWN_INLINE_DONE);
    /* Contents in any order, twice, with no piece, with an empty piece, and beside pieces that are none. */
    static const markdown_inline_piece pieces[] = {{0, 0, 1, 0}, {2, 0, 3, 0}, {2, 0, 2, 0}, {9, 0, 5, 0}};
    static const markdown_inline_content contents[] = {{{1, 2}, 0, 0}, {{0, 1}, 0, 0}, {{0, 1}, 0, 0}, {{0, 0}, 0, 0}, {{2, 3}, 0, 0}};
    markdown_inline_outcome outcome;
    size_t ends[5];
    input = input_of("a\nb", pieces);
    input.pieces_len = 4;
    want("contents as they come", markdown_inline_texts(&input, contents, 5, events, 64, ends, 5, &outcome) == MARKDOWN_INLINE_DONE);
    want("of each its events", ends[0] == 2 && ends[1] == 4 && ends[2] == 6 && ends[3] == 6 && ends[4] == 6 && events[0].index == 2 && events[2].index == 0);
}

/* The HTML of footnote calls: a second call has another id than the first, and two footnotes may share one. */
static void test_ids(void) {
    static const char text[] = "[^a] [^a] [^a-2] [^b c] [^b%20c]";
    static const markdown_inline_range footnotes[] = {{2, 3}, {12, 15}, {19, 22}, {26, 31}};
    static const char *const wanted[] = {"id=\"user-content-fnref-a\"", "id=\"user-content-fnref-a-2\"", "id=\"user-content-fnref-b%20c\""};
    static const int times[] = {1, 2, 2};
    markdown_inline_piece piece = whole(text);
    markdown_inline_input input = input_of(text, &piece);
    uint8_t html[2048];
    size_t count = 0;
    input.options |= MARKDOWN_INLINE_GFM;
    input.labels = input.bytes;
    input.labels_len = input.bytes_len;
    input.footnotes = footnotes;
    input.footnotes_len = 4;
    want("HTML of footnotes", markdown_inline_html(&input, NULL, 0, 0, 0, html, sizeof html - 1, &count) == MARKDOWN_INLINE_DONE);
    html[count] = 0;
    for (size_t at = 0; at < 3; at++) {
        int found = 0;
        for (const char *it = (const char *)html; (it = strstr(it, wanted[at])) != NULL; it++) found++;
        want(wanted[at], found == times[at]);
    }
}

/* Whether a text has this HTML, and nothing is written without room for it. */
static void want_html(const char *text, uint32_t options, const char *html) {
    /* The label `d` leads to `/e` with the title `f`, `g` to `h`. */
    static const markdown_inline_range labels[] = {{0, 1}, {4, 5}};
    static const markdown_inline_target targets[] = {{{1, 3}, {3, 4}, 1, 0}, {{5, 6}, {SIZE_MAX, 0}, 0, 0}};
    markdown_inline_piece piece = whole(text);
    markdown_inline_input input = input_of(text, &piece);
    uint8_t found[256], before[256];
    size_t count = 77, len = strlen(html);
    memset(found, 1, sizeof found);
    memset(before, 1, sizeof before);
    input.labels = (const uint8_t *)"d/efgh";
    input.labels_len = 6;
    input.definitions = labels;
    input.definitions_len = 2;
    uint32_t status = markdown_inline_html(&input, targets, 2, options, 0, found, len - 1, &count);
    want(text, status == MARKDOWN_INLINE_TOO_SMALL && count == len && !memcmp(found, before, 256));
    status = markdown_inline_html(&input, targets, 2, options, 0, found, 256, &count);
    want(text, status == MARKDOWN_INLINE_DONE && count == len && !memcmp(found, html, len) && !memcmp(found + len, before, 256 - len));
}

static void test_html(void) {
    want_html("a *b* `c` &lt;", 0, "a <em>b</em> <code>c</code> &lt;");
    want_html("[i][d] [G] [i][no]", 0, "<a href=\"/e\" title=\"f\">i</a> <a href=\"h\">G</a> [i][no]");
    want_html("<b>a", 0, "&lt;b&gt;a");
    want_html("<b>a", MARKDOWN_INLINE_HTML_RAW, "<b>a");
    want_html("[a](javascript:b)", 0, "<a href=\"\">a</a>");
    want_html("[a](javascript:b)", MARKDOWN_INLINE_HTML_ANY_LINK, "<a href=\"javascript:b\">a</a>");
    /* Either bit asks for one thing alone. */
    want_html("<b>[a](javascript:b)", MARKDOWN_INLINE_HTML_RAW, "<b><a href=\"\">a</a>");
    want_html("<b>[a](javascript:b)", MARKDOWN_INLINE_HTML_ANY_LINK, "&lt;b&gt;<a href=\"javascript:b\">a</a>");
    want_html("a\rb\r\nc", 0, "a\rb\r\nc");
    want_html("a\rb\r\nc", MARKDOWN_INLINE_HTML_LF, "a\nb\nc");
    want_html("a\rb\nc", MARKDOWN_INLINE_HTML_CRLF, "a\r\nb\r\nc");
    markdown_inline_piece piece = whole("[a]"), past = {0, 0, 9, 0};
    markdown_inline_range label = {1, 2}, bad = {0, 9};
    markdown_inline_target targets[] = {{{1, 2}, {0, 9}, 1, 0}, {{0, 9}, {0, 0}, 0, 0}, {{1, 0}, {0, 0}, 0, 0}, {{1, 2}, {0, 9}, 0, 0}}, two_bytes = {{1, 3}, {0, 0}, 0, 0};
    markdown_inline_input input = input_of("[a]", &piece);
    uint8_t found[64];
    size_t count = 77;
    input.labels = input.bytes;
    input.labels_len = input.bytes_len;
    input.definitions = &label;
    input.definitions_len = 1;
    for (size_t at = 0; at < 3; at++)
        want("a target past the labels", markdown_inline_html(&input, targets + at, 1, 0, 0, found, 64, &count) == MARKDOWN_INLINE_DEFINITION && count == 77);
    want("a definition without a target", markdown_inline_html(&input, targets + 3, 0, 0, 0, found, 64, &count) == MARKDOWN_INLINE_DEFINITION);
    want("an unknown option of HTML", markdown_inline_html(&input, targets + 3, 1, 4, 0, found, 64, &count) == MARKDOWN_INLINE_UNKNOWN_OPTION);
    want("two line endings of HTML", markdown_inline_html(&input, targets + 3, 1, MARKDOWN_INLINE_HTML_LF | MARKDOWN_INLINE_HTML_CRLF, 0, found, 64, &count) == MARKDOWN_INLINE_UNKNOWN_OPTION);
    input.pieces = &past;
    want("HTML of no content", markdown_inline_html(&input, targets, 1, 0, 0, found, 64, &count) == MARKDOWN_INLINE_NO_CONTENT && count == 77);
    input.pieces = &piece;
    want("HTML", markdown_inline_html(&input, targets + 3, 1, 0, 0, found, 64, &count) == MARKDOWN_INLINE_DONE && count == 17 && !memcmp(found, "<a href=\"a\">a</a>", 17));
    input.definitions = &bad;
    want("a label past the labels", markdown_inline_html(&input, targets + 3, 1, 0, 0, found, 64, &count) == MARKDOWN_INLINE_DEFINITION);
    input.definitions = &label;
    count = 77;
    want("more than the limit", markdown_inline_html(&input, &two_bytes, 1, 0, 1, found, 64, &count) == MARKDOWN_INLINE_REFERENCES && count == 77);
    want("no more than the limit", markdown_inline_html(&input, &two_bytes, 1, 0, 2, found, 64, &count) == MARKDOWN_INLINE_DONE && count == 20);
    memset(&input, 0, sizeof input);
    want("HTML of nothing", markdown_inline_html(&input, NULL, 0, 0, 0, NULL, 0, &count) == MARKDOWN_INLINE_DONE && count == 0);
}

/* Bytes alone have the HTML of an input of all of them, with the same statuses, room and options. */
static void test_html_of(void) {
    static const struct {
        const char *text;
        uint32_t options, html_options;
    } cases[] = {{"a *b*\n[c](/d) &check;", MARKDOWN_INLINE_COMMONMARK, 0}, {"~~a~~ &check;", MARKDOWN_INLINE_CRATE, 0}, {"~~a~~", MARKDOWN_INLINE_COMMONMARK | MARKDOWN_INLINE_GFM, 0},
        {"<b>[a](b:c)", MARKDOWN_INLINE_COMMONMARK, MARKDOWN_INLINE_HTML_RAW}, {"<b>[a](b:c)", MARKDOWN_INLINE_COMMONMARK, MARKDOWN_INLINE_HTML_ANY_LINK},
        {"[x] a", MARKDOWN_INLINE_COMMONMARK | MARKDOWN_INLINE_GFM | MARKDOWN_INLINE_OPTION_FIRST_OF_ITEM, 0}, {"[a]", MARKDOWN_INLINE_COMMONMARK, 0}, {"", 0, 0},
        {"a\n", MARKDOWN_INLINE_COMMONMARK, 0}, {"a\n\nb", MARKDOWN_INLINE_COMMONMARK, 0}, {"\xff", MARKDOWN_INLINE_COMMONMARK, 0}, {"a", 1u << 31, 0}, {"a", 0, 4}};
    uint8_t wanted[128], found[128];
    for (size_t at = 0; at < sizeof cases / sizeof *cases; at++) {
        markdown_inline_piece piece = whole(cases[at].text);
        markdown_inline_input input = input_of(cases[at].text, &piece);
        input.options = cases[at].options;
        for (size_t room = 0; room <= 128; room += 4) {
            size_t wanted_count = 77, count = 77;
            memset(wanted, 1, sizeof wanted);
            memset(found, 1, sizeof found);
            uint32_t status = markdown_inline_html(&input, NULL, 0, cases[at].html_options, 0, wanted, room, &wanted_count);
            want("a status of bytes alone", markdown_inline_html_of(input.bytes, input.bytes_len, input.options, cases[at].html_options, found, room, &count) == status);
            want("HTML of bytes alone", count == wanted_count && !memcmp(found, wanted, sizeof found));
        }
    }
    static const char html[] = "a <em>b</em>\n<a href=\"/d\">c</a> \xe2\x9c\x93";
    size_t count = 0, len = sizeof html - 1;
    want("a text alone", markdown_inline_html_of((const uint8_t *)cases[0].text, strlen(cases[0].text), cases[0].options, 0, found, 128, &count) == MARKDOWN_INLINE_DONE);
    want("the HTML of a text alone", count == len && !memcmp(found, html, len));
    want("nothing alone", markdown_inline_html_of(NULL, 0, 0, 0, NULL, 0, &count) == MARKDOWN_INLINE_DONE && count == 0);
}

/* Options of a document that ask for this alone. */
static markdown_inline_document_options asked_for(uint32_t options, uint32_t html, size_t limit) {
    markdown_inline_document_options asked;
    memset(&asked, 0, sizeof asked);
    asked.options = options;
    asked.html = html;
    asked.limit = limit;
    return asked;
}

/* Options of a document that ask for these blocks alone. */
static markdown_inline_document_options asked_blocks(uint32_t blocks) {
    markdown_inline_document_options asked = asked_for(0, 0, 0);
    asked.blocks = blocks;
    return asked;
}

/* All bits of blocks beside CommonMark's. */
enum { BLOCK_BITS = MARKDOWN_INLINE_BLOCKS_MATH | MARKDOWN_INLINE_BLOCKS_FRONT_MATTER };

/* Calls for the HTML of a document, with an outcome that is filled beforehand. */
static markdown_inline_outcome told;

static uint32_t document_html(const char *bytes, size_t len, markdown_inline_document_options asked, uint8_t *html, size_t room) {
    told.done = told.count = told.blamed = 77;
    return markdown_inline_document_html((const uint8_t *)bytes, len, &asked, html, room, &told);
}

/* A document has the HTML of its blocks, which is handed out where there is room: examples of CommonMark 0.31.2 (2.2, 4.6, 4.7, 5.1, 5.3), and what the options
 * change. */
static void test_document_html(void) {
    static const uint32_t all = MARKDOWN_INLINE_HTML_RAW | MARKDOWN_INLINE_HTML_ANY_LINK;
    static const struct {
        const char *document, *html;
        uint32_t options;
    } cases[] = {{"- foo\n\n\t\tbar\n", "<ul>\n<li>\n<p>foo</p>\n<pre><code>  bar\n</code></pre>\n</li>\n</ul>\n", 0},
        {"[foo]: /url \"title\"\n\n[foo]\n", "<p><a href=\"/url\" title=\"title\">foo</a></p>\n", 0},
        {"> # Foo\n> bar\n> baz\n", "<blockquote>\n<h1>Foo</h1>\n<p>bar\nbaz</p>\n</blockquote>\n", 0}, {"- foo\n- bar\n+ baz\n", "<ul>\n<li>foo</li>\n<li>bar</li>\n</ul>\n<ul>\n<li>baz</li>\n</ul>\n", 0},
        {"<div id=\"foo\"\n  class=\"bar\">\n</div>\n", "<div id=\"foo\"\n  class=\"bar\">\n</div>\n", all}, {"", "", 0}, {"<b>\n\n[a](b:c)\n", "&lt;b&gt;\n<p><a href=\"\">a</a></p>\n", 0},
        {"<b>\n\n[a](b:c)\n", "<b>\n<p><a href=\"\">a</a></p>\n", MARKDOWN_INLINE_HTML_RAW}, {"<b>\n\n[a](b:c)\n", "&lt;b&gt;\n<p><a href=\"b:c\">a</a></p>\n", MARKDOWN_INLINE_HTML_ANY_LINK},
        {"\xef\xbb\xbf# a", "<h1>a</h1>\n", 0}, {"\xef\xbb\xbf", "", 0}, {"\xef\xbb\xbf[a]: b\n\n[a]", "<p><a href=\"b\">a</a></p>\n", 0},
        {"\xef\xbb\xbf\xef\xbb\xbf# a", "<p>\xef\xbb\xbf# a</p>\n", 0}, {"a\rb\r\n# c", "<p>a\rb</p>\n<h1>c</h1>\n", 0}, {"a\rb\r\n# c", "<p>a\nb</p>\n<h1>c</h1>\n", MARKDOWN_INLINE_HTML_LF},
        {"a\rb\n# c", "<p>a\r\nb</p>\r\n<h1>c</h1>\r\n", MARKDOWN_INLINE_HTML_CRLF}};
    uint8_t found[128], before[128];
    memset(before, 1, sizeof before);
    for (size_t at = 0; at < sizeof cases / sizeof *cases; at++) {
        size_t len = strlen(cases[at].html);
        for (size_t room = 0; room <= len + 2; room++) {
            size_t written = room < len ? 0 : len;
            uint32_t wanted = room < len ? MARKDOWN_INLINE_TOO_SMALL : MARKDOWN_INLINE_DONE;
            memset(found, 1, sizeof found);
            want("a status of a document", document_html(cases[at].document, strlen(cases[at].document), asked_for(0, cases[at].options, 0), found, room) == wanted);
            want("the outcome of a document", is_outcome(&told, wanted == MARKDOWN_INLINE_DONE, len, MARKDOWN_INLINE_NONE));
            want("the HTML of a document", !memcmp(found, cases[at].html, written) && !memcmp(found + written, before, sizeof found - written));
        }
    }
    want("no document", document_html(NULL, 0, asked_for(0, 0, 1), NULL, 0) == MARKDOWN_INLINE_DONE && is_outcome(&told, 1, 0, MARKDOWN_INLINE_NONE));
}

/* Calls for a document that is rejected: then nothing is written but the outcome. */
static void want_rejected(const char *what, const char *bytes, size_t len, markdown_inline_document_options asked, uint32_t wanted, size_t blamed) {
    uint8_t found[128], before[128];
    memset(before, 1, sizeof before);
    memset(found, 1, sizeof found);
    uint32_t status = document_html(bytes, len, asked, found, sizeof found);
    if (status != wanted) printf("calls: %s: status %u\n", what, status);
    want(what, status == wanted && is_outcome(&told, 0, 0, blamed) && !memcmp(found, before, sizeof found));
}

/* Each bit and each word of the options that is not known is rejected, alone and beside others; and what comes first is told. */
static void test_document_rejected(void) {
    static const uint32_t html_bits = MARKDOWN_INLINE_HTML_RAW | MARKDOWN_INLINE_HTML_ANY_LINK | MARKDOWN_INLINE_HTML_LF | MARKDOWN_INLINE_HTML_CRLF;
    static const uint32_t no_options = MARKDOWN_INLINE_OPTION_FIRST_OF_ITEM | MARKDOWN_INLINE_OPTION_GFM_LABEL_START_FOOTNOTE;
    static const struct {
        const char *bytes;
        size_t len, blamed;
    } wrong[] = {{"\xff", 1, 0}, {"a\xff", 2, 1}, {"a\n\n> b \xc3", 8, 7}, {"\xc3\xa9\xed\xa0\x80", 5, 2}, {"[a]: \x80\n\n[a]\xff", 12, 5}, {"a\0\xc3(", 4, 2}, {"\xef\xbb\xbf# \xf8", 6, 5}};
    const size_t too_long = (SIZE_MAX >> 3) + 1;
    uint8_t found[8];
    for (unsigned bit = 0; bit < 32; bit++) {
        uint32_t mask = UINT32_C(1) << bit;
        int is_option = mask < 0x800000 && !(mask & no_options), is_html = (mask & html_bits) != 0, is_block = (mask & BLOCK_BITS) != 0;
        if (is_option) want("an option of a document", document_html("a", 1, asked_for(mask, 0, 0), found, 8) != MARKDOWN_INLINE_UNKNOWN_OPTION);
        if (is_html) want("an option of HTML", document_html("a", 1, asked_for(0, mask, 0), found, 8) != MARKDOWN_INLINE_UNKNOWN_OPTION);
        if (!is_option) want_rejected("no option of a document", "a", 1, asked_for(mask, 0, 0), MARKDOWN_INLINE_UNKNOWN_OPTION, MARKDOWN_INLINE_NONE);
        if (!is_option) want_rejected("no option beside CommonMark", "a", 1, asked_for(MARKDOWN_INLINE_COMMONMARK | mask, 0, 0), MARKDOWN_INLINE_UNKNOWN_OPTION, MARKDOWN_INLINE_NONE);
        if (!is_html) want_rejected("no option of HTML", "a", 1, asked_for(0, mask, 0), MARKDOWN_INLINE_UNKNOWN_OPTION, MARKDOWN_INLINE_NONE);
        if (!is_html) want_rejected("no option beside raw HTML", "a", 1, asked_for(0, MARKDOWN_INLINE_HTML_RAW | mask, 0), MARKDOWN_INLINE_UNKNOWN_OPTION, MARKDOWN_INLINE_NONE);
        if (is_block) want("blocks of a document", document_html("a", 1, asked_blocks(mask), found, 8) != MARKDOWN_INLINE_UNKNOWN_OPTION);
        if (!is_block) want_rejected("no blocks of a document", "a", 1, asked_blocks(mask), MARKDOWN_INLINE_UNKNOWN_OPTION, MARKDOWN_INLINE_NONE);
        if (!is_block) want_rejected("no blocks beside others", "a", 1, asked_blocks(BLOCK_BITS | mask), MARKDOWN_INLINE_UNKNOWN_OPTION, MARKDOWN_INLINE_NONE);
    }
    want_rejected("two line endings", "a", 1, asked_for(0, MARKDOWN_INLINE_HTML_LF | MARKDOWN_INLINE_HTML_CRLF, 0), MARKDOWN_INLINE_UNKNOWN_OPTION, MARKDOWN_INLINE_NONE);
    want_rejected("footnotes of a document", "a", 1, asked_for(MARKDOWN_INLINE_COMMONMARK | MARKDOWN_INLINE_GFM, 0, 0), MARKDOWN_INLINE_UNKNOWN_OPTION, MARKDOWN_INLINE_NONE);
    for (size_t word = 0; word < 15; word++) {
        markdown_inline_document_options asked = asked_for(0, 0, 0);
        if (word < 2) asked.reserved = word == 0 ? 1 : UINT32_C(1) << 31;
        else asked.reserved_words[word - 2] = word % 2 ? 1 : (size_t)1 << 63;
        want_rejected("a reserved word of a document", "a", 1, asked, MARKDOWN_INLINE_UNKNOWN_OPTION, MARKDOWN_INLINE_NONE);
    }
    for (size_t at = 0; at < sizeof wrong / sizeof *wrong; at++) {
        want_rejected("a document that is not UTF-8", wrong[at].bytes, wrong[at].len, asked_for(0, 0, 0), MARKDOWN_INLINE_NOT_UTF8, wrong[at].blamed);
        want_rejected("an unknown option comes first", wrong[at].bytes, wrong[at].len, asked_for(0, 4, 0), MARKDOWN_INLINE_UNKNOWN_OPTION, MARKDOWN_INLINE_NONE);
        want_rejected("unknown blocks come first", wrong[at].bytes, wrong[at].len, asked_blocks(4), MARKDOWN_INLINE_UNKNOWN_OPTION, MARKDOWN_INLINE_NONE);
    }
    want_rejected("a document too long", "\xff", too_long, asked_for(0, 0, 1), MARKDOWN_INLINE_TOO_LONG, MARKDOWN_INLINE_NONE);
    want_rejected("an unknown option of a document too long", "\xff", too_long, asked_for(0, 4, 1), MARKDOWN_INLINE_UNKNOWN_OPTION, MARKDOWN_INLINE_NONE);
    want_rejected("unknown blocks of a document too long", "\xff", too_long, asked_blocks(4), MARKDOWN_INLINE_UNKNOWN_OPTION, MARKDOWN_INLINE_NONE);
    want_rejected("a limit after UTF-8", "[a]: bc\n\n[a]\xff", 13, asked_for(0, 0, 1), MARKDOWN_INLINE_NOT_UTF8, 12);
}

/* The constructs of GitHub one by one, each with and without its bit (GFM 0.29: 5.3, 6.5, 6.9), and math; and the rules of the crate. */
static void test_document_options(void) {
    static const struct {
        const char *document, *without, *html;
        uint32_t bit;
    } cases[] = {{"~~a~~ ~b~\n", "<p>~~a~~ ~b~</p>\n", "<p><del>a</del> <del>b</del></p>\n", MARKDOWN_INLINE_OPTION_GFM_STRIKETHROUGH},
        {"# https://a.b\n", "<h1>https://a.b</h1>\n", "<h1><a href=\"https://a.b\">https://a.b</a></h1>\n", MARKDOWN_INLINE_OPTION_GFM_AUTOLINK_LITERAL},
        {"> www.a.b\n", "<blockquote>\n<p>www.a.b</p>\n</blockquote>\n", "<blockquote>\n<p><a href=\"http://www.a.b\">www.a.b</a></p>\n</blockquote>\n", MARKDOWN_INLINE_OPTION_GFM_AUTOLINK_LITERAL},
        {"c@d.e\n", "<p>c@d.e</p>\n", "<p><a href=\"mailto:c@d.e\">c@d.e</a></p>\n", MARKDOWN_INLINE_OPTION_GFM_AUTOLINK_LITERAL},
        {"- [ ] foo\n- [x] bar\n", "<ul>\n<li>[ ] foo</li>\n<li>[x] bar</li>\n</ul>\n",
            "<ul>\n<li><input type=\"checkbox\" disabled=\"\" /> foo</li>\n<li><input type=\"checkbox\" disabled=\"\" checked=\"\" /> bar</li>\n</ul>\n", MARKDOWN_INLINE_OPTION_GFM_TASK_LIST_ITEM},
        {"[x] a\n\n- # [x] b\n", "<p>[x] a</p>\n<ul>\n<li>\n<h1>[x] b</h1>\n</li>\n</ul>\n", "<p>[x] a</p>\n<ul>\n<li>\n<h1>[x] b</h1>\n</li>\n</ul>\n", MARKDOWN_INLINE_OPTION_GFM_TASK_LIST_ITEM},
        {"$a$\n", "<p>$a$</p>\n", "<p><code class=\"language-math math-inline\">a</code></p>\n", MARKDOWN_INLINE_MATH}};
    static const uint32_t others = MARKDOWN_INLINE_OPTION_GFM_STRIKETHROUGH | MARKDOWN_INLINE_OPTION_GFM_AUTOLINK_LITERAL | MARKDOWN_INLINE_OPTION_GFM_TASK_LIST_ITEM | MARKDOWN_INLINE_MATH;
    uint8_t found[256];
    for (size_t at = 0; at < sizeof cases / sizeof *cases; at++)
        for (int turn = 0; turn < 4; turn++) {
            const uint32_t options = turn == 0 ? 0 : turn == 1 ? MARKDOWN_INLINE_COMMONMARK : turn == 2 ? MARKDOWN_INLINE_COMMONMARK | (others & ~cases[at].bit) : MARKDOWN_INLINE_COMMONMARK | cases[at].bit;
            const char *html = turn < 3 ? cases[at].without : cases[at].html;
            uint32_t status = document_html(cases[at].document, strlen(cases[at].document), asked_for(options, 0, 0), found, sizeof found);
            if (status != MARKDOWN_INLINE_DONE || told.count != strlen(html) || memcmp(found, html, told.count)) printf("calls: of %s: %.*s", cases[at].document, (int)told.count, (const char *)found);
            want("what GitHub adds to a document", status == MARKDOWN_INLINE_DONE && told.count == strlen(html) && !memcmp(found, html, told.count));
        }
    want("a document by CommonMark's names", document_html("&check;", 7, asked_for(0, 0, 0), found, 256) == MARKDOWN_INLINE_DONE && told.count == 11 && !memcmp(found, "<p>\xe2\x9c\x93</p>\n", 11));
    want("a document by the crate's rules", document_html("&check;", 7, asked_for(MARKDOWN_INLINE_CRATE, 0, 0), found, 256) == MARKDOWN_INLINE_DONE && told.count == 19 && !memcmp(found, "<p>&amp;check;</p>\n", 19));
}

/* Blocks beside CommonMark's, each with and without its bit, alone and beside the other. */
static void test_document_blocks(void) {
    static const struct {
        const char *document, *without, *html;
        uint32_t bit;
    } cases[] = {{"$$ a\n<b>\n$$\n", "<p>$$ a\n&lt;b&gt;\n$$</p>\n", "<pre><code class=\"language-math math-display\">&lt;b&gt;\n</code></pre>\n", MARKDOWN_INLINE_BLOCKS_MATH},
        {"$$a$$\n", "<p>$$a$$</p>\n", "<p>$$a$$</p>\n", MARKDOWN_INLINE_BLOCKS_MATH},
        {"> $$$\n> $$\na\n", "<blockquote>\n<p>$$$\n$$\na</p>\n</blockquote>\n",
            "<blockquote>\n<pre><code class=\"language-math math-display\">$$\n</code></pre>\n</blockquote>\n<p>a</p>\n", MARKDOWN_INLINE_BLOCKS_MATH},
        {"---\na\n---\nb\n", "<hr />\n<h2>a</h2>\n<p>b</p>\n", "<p>b</p>\n", MARKDOWN_INLINE_BLOCKS_FRONT_MATTER},
        {"+++\n[a]: b\n+++\n[a]\n", "<p>+++\n[a]: b\n+++\n[a]</p>\n", "<p>[a]</p>\n", MARKDOWN_INLINE_BLOCKS_FRONT_MATTER},
        {"\xef\xbb\xbf---\na\n---", "<hr />\n<h2>a</h2>\n", "", MARKDOWN_INLINE_BLOCKS_FRONT_MATTER},
        {"---\na\n", "<hr />\n<p>a</p>\n", "<hr />\n<p>a</p>\n", MARKDOWN_INLINE_BLOCKS_FRONT_MATTER}};
    uint8_t found[256];
    for (size_t at = 0; at < sizeof cases / sizeof *cases; at++)
        for (uint32_t blocks = 0; blocks <= BLOCK_BITS; blocks++) {
            const char *html = blocks & cases[at].bit ? cases[at].html : cases[at].without;
            uint32_t status = document_html(cases[at].document, strlen(cases[at].document), asked_blocks(blocks), found, sizeof found);
            if (status != MARKDOWN_INLINE_DONE || told.count != strlen(html) || memcmp(found, html, told.count)) printf("calls: of %s: %.*s", cases[at].document, (int)told.count, (const char *)found);
            want("a document with blocks beside CommonMark's", status == MARKDOWN_INLINE_DONE && told.count == strlen(html) && !memcmp(found, html, told.count));
        }
}

/* A limit on what definitions bring to a document: three links and images in three blocks, to each of which one brings three bytes. The room is found out behind
 * the limit. */
static void test_document_limit(void) {
    static const char document[] = "# [a]\n\n- ![a]\n\n> [b][a] [c](d)\n\n[a]: /b \"c\"\n[A]: /longer\n";
    static const char html[] = "<h1><a href=\"/b\" title=\"c\">a</a></h1>\n<ul>\n<li><img src=\"/b\" alt=\"a\" title=\"c\" /></li>\n</ul>\n"
        "<blockquote>\n<p><a href=\"/b\" title=\"c\">b</a> <a href=\"d\">c</a></p>\n</blockquote>\n";
    uint8_t found[256], before[256];
    size_t len = sizeof document - 1;
    memset(before, 1, sizeof before);
    for (size_t turn = 0; turn < 13; turn++) {
        size_t limit = turn < 12 ? turn : MARKDOWN_INLINE_NONE;
        int is_within = limit == 0 || limit >= 9;
        memset(found, 1, sizeof found);
        want("a limit of a document without room", document_html(document, len, asked_for(0, 0, limit), NULL, 0) == (is_within ? MARKDOWN_INLINE_TOO_SMALL : MARKDOWN_INLINE_REFERENCES));
        want("what has no room is counted", is_outcome(&told, 0, is_within ? sizeof html - 1 : 0, MARKDOWN_INLINE_NONE));
        want("a limit of a document", document_html(document, len, asked_for(0, 0, limit), found, sizeof found) == (is_within ? MARKDOWN_INLINE_DONE : MARKDOWN_INLINE_REFERENCES));
        want("a document is written within its limit", is_outcome(&told, is_within, is_within ? sizeof html - 1 : 0, MARKDOWN_INLINE_NONE));
        want("a document beyond its limit is not written", !memcmp(found, is_within ? (const uint8_t *)html : before, sizeof html - 1));
    }
    want("a limit after the options", document_html(document, len, asked_for(0, 4, 1), found, sizeof found) == MARKDOWN_INLINE_UNKNOWN_OPTION);
    want("a limit without definitions", document_html("[a](b)", 6, asked_for(0, 0, 1), found, sizeof found) == MARKDOWN_INLINE_DONE);
    want("a limit of bare URLs", document_html(document, len, asked_for(MARKDOWN_INLINE_COMMONMARK | MARKDOWN_INLINE_OPTION_GFM_AUTOLINK_LITERAL, 0, 8), found, sizeof found) == MARKDOWN_INLINE_REFERENCES);
}

/* The limit by default is the larger of 100000 and the length of the document, for a document, for one content of it and for many: a definition of 1000 bytes is
 * referred to by 100 links, or by 101, in documents of these lengths. */
static void test_default_limit(void) {
    static const struct {
        size_t links, len, limit;
        int is_within;
    } cases[] = {{100, 2000, 0, 1}, {101, 2000, 0, 0}, {101, 2000, MARKDOWN_INLINE_NONE, 1}, {101, 2000, 101000, 1}, {101, 2000, 100999, 0}, {101, 100999, 0, 0}, {101, 101000, 0, 1}, {100, 101000, 99999, 0}};
    enum { MOST = 101000, LEAD = 5, DESTINATION = 1000 };
    char *text = (char *)malloc(MOST);
    uint8_t *html = (uint8_t *)malloc(2 * MOST + 4096);
    if (!text || !html) exit(1);
    for (size_t at = 0; at < sizeof cases / sizeof *cases; at++) {
        const size_t len = cases[at].len, limit = cases[at].limit, front = LEAD + DESTINATION + 2, room = 2 * MOST + 4096;
        const uint32_t wanted = cases[at].is_within ? MARKDOWN_INLINE_DONE : MARKDOWN_INLINE_REFERENCES;
        markdown_inline_range label = {1, 2};
        markdown_inline_target target = {{LEAD, LEAD + DESTINATION}, {0, 0}, 0, 0};
        markdown_inline_piece piece = {front, 0, len, 0};
        markdown_inline_content content = {{0, 1}, 0, 0};
        markdown_inline_outcome outcome;
        size_t count, end;
        memset(text, 'x', len);
        memcpy(text, "[a]: ", LEAD);
        memcpy(text + LEAD + DESTINATION, "\n\n", 2);
        for (size_t link = 0; link < cases[at].links; link++) memcpy(text + front + 4 * link, "[a] ", 4);
        markdown_inline_input input = {(const uint8_t *)text, len, &piece, 1, (const uint8_t *)text, len, &label, 1, NULL, 0, MARKDOWN_INLINE_COMMONMARK, 0};
        want("the limit of a document by default", document_html(text, len, asked_for(0, 0, limit), html, room) == wanted);
        want("the limit of a content by default", markdown_inline_html(&input, &target, 1, 0, limit, html, room, &count) == wanted);
        want("the limit of contents by default", markdown_inline_htmls(&input, &target, 1, &content, 1, 0, limit, html, room, &end, 1, &outcome) == wanted);
    }
    free(text);
    free(html);
}

/* A document has blocks with the pieces of their texts, which are handed out where both have room: an example with a block of each kind. */
static void test_blocks(void) {
    static const char text[] = "# a\n\n> b\nc\n- d\n\n  e\n7) f\n---\n\n    g\n\n~~~ h\ni\n~~~\n<!-- j\n-->\nk\n=\n[l]: m";
    static const markdown_inline_block blocks[] = {{{0, 1}, 0, 1, 1, MARKDOWN_INLINE_BLOCK_HEADING, 0, 0, 0, 0}, {{1, 1}, 0, 0, 2, MARKDOWN_INLINE_BLOCK_BLANK_LINE, 0, 0, 0, 0},
        {{1, 1}, 0, 0, 3, MARKDOWN_INLINE_BLOCK_QUOTE, 0, 0, 0, 0}, {{1, 3}, 1, 0, 3, MARKDOWN_INLINE_BLOCK_PARAGRAPH, 0, 0, 0, 0},
        {{3, 3}, 0, 0, 5, MARKDOWN_INLINE_BLOCK_ITEM, '-', MARKDOWN_INLINE_BEGINS_LIST | MARKDOWN_INLINE_ENDS_LIST | MARKDOWN_INLINE_LOOSE_LIST, 0, 0},
        {{3, 4}, 1, 0, 5, MARKDOWN_INLINE_BLOCK_PARAGRAPH, 0, 0, 0, 0}, {{4, 4}, 1, 0, 6, MARKDOWN_INLINE_BLOCK_BLANK_LINE, 0, 0, 0, 0}, {{4, 5}, 1, 0, 7, MARKDOWN_INLINE_BLOCK_PARAGRAPH, 0, 0, 0, 0},
        {{5, 5}, 0, 7, 8, MARKDOWN_INLINE_BLOCK_ITEM, ')', MARKDOWN_INLINE_BEGINS_LIST | MARKDOWN_INLINE_ENDS_LIST, 0, 0}, {{5, 6}, 1, 0, 8, MARKDOWN_INLINE_BLOCK_PARAGRAPH, 0, 0, 0, 0},
        {{6, 6}, 0, 0, 9, MARKDOWN_INLINE_BLOCK_THEMATIC_BREAK, 0, 0, 0, 0}, {{6, 6}, 0, 0, 10, MARKDOWN_INLINE_BLOCK_BLANK_LINE, 0, 0, 0, 0},
        {{6, 8}, 0, 0, 11, MARKDOWN_INLINE_BLOCK_INDENTED_CODE, 0, 0, 0, 0}, {{8, 10}, 0, 0, 13, MARKDOWN_INLINE_BLOCK_FENCED_CODE, '~', 0, 0, 0},
        {{10, 12}, 0, 2, 16, MARKDOWN_INLINE_BLOCK_HTML, 0, 0, 0, 0}, {{12, 13}, 0, 1, 18, MARKDOWN_INLINE_BLOCK_HEADING, 0, 0, 0, 0}, {{13, 13}, 0, 0, 20, MARKDOWN_INLINE_BLOCK_PARAGRAPH, 0, 0, 0, 0}};
    static const markdown_inline_piece pieces[] = {{2, 0, 3, 0}, {7, 0, 9, 0}, {9, 0, 10, 0}, {13, 0, 14, 0}, {18, 0, 19, 0}, {23, 0, 24, 0}, {34, 0, 36, 0}, {36, 0, 37, 0}, {41, 0, 42, 0},
        {43, 0, 45, 0}, {49, 0, 56, 0}, {56, 0, 60, 0}, {60, 0, 61, 0}};
    enum { MANY = sizeof blocks / sizeof *blocks, MANY_PIECES = sizeof pieces / sizeof *pieces };
    markdown_inline_block found[MANY + 1], before[MANY + 1];
    markdown_inline_piece found_pieces[MANY_PIECES + 1], pieces_before[MANY_PIECES + 1];
    markdown_inline_blocks_count count;
    memset(before, 1, sizeof before);
    memset(pieces_before, 1, sizeof pieces_before);
    for (size_t room = 0; room <= MANY + 1; room++)
        for (size_t room_of_pieces = 0; room_of_pieces <= MANY_PIECES + 1; room_of_pieces++) {
            size_t is_done = room >= MANY && room_of_pieces >= MANY_PIECES, written = is_done * MANY, written_pieces = is_done * MANY_PIECES;
            memset(found, 1, sizeof found);
            memset(found_pieces, 1, sizeof found_pieces);
            want("a status of blocks", markdown_inline_blocks((const uint8_t *)text, sizeof text - 1, 0, found, room, found_pieces, room_of_pieces, &count)
                    == (is_done ? (uint32_t)MARKDOWN_INLINE_DONE : (uint32_t)MARKDOWN_INLINE_TOO_SMALL));
            want("how many blocks and pieces", count.blocks == MANY && count.pieces == MANY_PIECES);
            want("blocks", !memcmp(found, blocks, written * sizeof *found) && !memcmp(found + written, before, sizeof found - written * sizeof *found));
            want("pieces", !memcmp(found_pieces, pieces, written_pieces * sizeof *pieces) && !memcmp(found_pieces + written_pieces, pieces_before, sizeof found_pieces - written_pieces * sizeof *pieces));
        }
    count.blocks = count.pieces = 77;
    want("no UTF-8 has no blocks", markdown_inline_blocks((const uint8_t *)"a\xff", 2, 0, found, MANY, found_pieces, MANY_PIECES, &count) == MARKDOWN_INLINE_NOT_UTF8);
    want("too long for blocks", markdown_inline_blocks((const uint8_t *)"a", (SIZE_MAX >> 3) + 1, 0, found, MANY, found_pieces, MANY_PIECES, &count) == MARKDOWN_INLINE_TOO_LONG);
    for (unsigned bit = 2; bit < 32; bit++)
        for (unsigned turn = 0; turn < 3; turn++)
            want("unknown blocks come first", markdown_inline_blocks((const uint8_t *)"a\xff", turn == 0 ? 1 : turn == 1 ? 2 : (SIZE_MAX >> 3) + 1, (UINT32_C(1) << bit) | (bit & BLOCK_BITS), found, MANY,
                    found_pieces, MANY_PIECES, &count) == MARKDOWN_INLINE_UNKNOWN_OPTION);
    want("no count of what is refused", count.blocks == 77 && count.pieces == 77);
    want("no blocks", markdown_inline_blocks(NULL, 0, BLOCK_BITS, NULL, 0, NULL, 0, &count) == MARKDOWN_INLINE_DONE && count.blocks == 0 && count.pieces == 0);
}

/* Front matter and math are blocks where their bits are set; else their lines are what CommonMark makes of them. */
static void test_block_options(void) {
    static const char text[] = "---\na: b\n---\n$$ c\nd\n$$\n";
    static const markdown_inline_block thematic_break = {{0, 0}, 0, 0, 1, MARKDOWN_INLINE_BLOCK_THEMATIC_BREAK, 0, 0, 0, 0}, heading = {{0, 1}, 0, 2, 2, MARKDOWN_INLINE_BLOCK_HEADING, 0, 0, 0, 0},
        front_matter = {{0, 1}, 0, 0, 1, MARKDOWN_INLINE_BLOCK_FRONT_MATTER, 0, 0, 0, 0}, paragraph = {{1, 4}, 0, 0, 4, MARKDOWN_INLINE_BLOCK_PARAGRAPH, 0, 0, 0, 0},
        math = {{1, 3}, 0, 0, 4, MARKDOWN_INLINE_BLOCK_FENCED_CODE, '$', 0, 0, 0};
    static const markdown_inline_piece of_heading = {4, 0, 8, 0}, of_matter = {4, 0, 9, 0}, of_math[] = {{16, 0, 17, 0}, {18, 0, 20, 0}},
        of_paragraph[] = {{13, 0, 18, 0}, {18, 0, 20, 0}, {20, 0, 22, 0}};
    for (uint32_t options = 0; options <= BLOCK_BITS; options++) {
        markdown_inline_block blocks[4], wanted[4];
        markdown_inline_piece pieces[4];
        markdown_inline_blocks_count count;
        size_t many = 0;
        int has_matter = (options & MARKDOWN_INLINE_BLOCKS_FRONT_MATTER) != 0, has_math = (options & MARKDOWN_INLINE_BLOCKS_MATH) != 0;
        wanted[many++] = has_matter ? front_matter : thematic_break;
        if (!has_matter) wanted[many++] = heading;
        wanted[many++] = has_math ? math : paragraph;
        want("blocks by their options", markdown_inline_blocks((const uint8_t *)text, sizeof text - 1, options, blocks, 4, pieces, 4, &count) == MARKDOWN_INLINE_DONE);
        want("which blocks are read", count.blocks == many && count.pieces == wanted[many - 1].pieces.end && !memcmp(blocks, wanted, many * sizeof *wanted));
        want("the pieces of front matter", !memcmp(pieces, has_matter ? &of_matter : &of_heading, sizeof *pieces));
        want("the pieces of math", !memcmp(pieces + 1, has_math ? of_math : of_paragraph, has_math ? sizeof of_math : sizeof of_paragraph));
    }
}

/* A document has definitions, which are handed out where all of them have room. */
static void test_definitions(void) {
    static const char text[] = "[a\\]]: b&amp; 'c\\*'\n\n> [d]: <>\n\n[a\\]]: e\nf";
    static const char labels[] = "a\\]b&c*" "d" "a\\]e";
    static const markdown_inline_range definitions[] = {{0, 3}, {7, 8}, {8, 11}};
    static const markdown_inline_target targets[] = {{{3, 5}, {5, 7}, 1, 0}, {{8, 8}, {8, 8}, 0, 0}, {{11, 12}, {12, 12}, 0, 0}};
    enum { LEN = sizeof labels - 1, MANY = 3 };
    uint8_t found[LEN + 1], before[LEN + 1];
    markdown_inline_range ranges[MANY + 1], ranges_before[MANY + 1];
    markdown_inline_target given[MANY + 1], given_before[MANY + 1];
    markdown_inline_definitions_count count;
    memset(before, 1, sizeof before);
    memset(ranges_before, 1, sizeof ranges_before);
    memset(given_before, 1, sizeof given_before);
    for (size_t turn = 0; turn < 27; turn++) {
        size_t room = LEN - 1 + turn % 3, room_of_ranges = MANY - 1 + turn / 3 % 3, room_of_targets = MANY - 1 + turn / 9;
        size_t is_done = room >= LEN && room_of_ranges >= MANY && room_of_targets >= MANY, written = is_done * LEN, many = is_done * MANY;
        memset(found, 1, sizeof found);
        memset(ranges, 1, sizeof ranges);
        memset(given, 1, sizeof given);
        want("a status of definitions", markdown_inline_definitions((const uint8_t *)text, sizeof text - 1, 0, found, room, ranges, room_of_ranges, given, room_of_targets, &count)
                == (is_done ? (uint32_t)MARKDOWN_INLINE_DONE : (uint32_t)MARKDOWN_INLINE_TOO_SMALL));
        want("how many definitions", count.definitions == MANY && count.labels == LEN);
        want("labels", !memcmp(found, labels, written) && !memcmp(found + written, before, sizeof found - written));
        want("definitions", !memcmp(ranges, definitions, many * sizeof *ranges) && !memcmp(ranges + many, ranges_before, sizeof ranges - many * sizeof *ranges));
        want("targets", !memcmp(given, targets, many * sizeof *given) && !memcmp(given + many, given_before, sizeof given - many * sizeof *given));
    }
    count.definitions = count.labels = 77;
    want("no UTF-8 has no definitions", markdown_inline_definitions((const uint8_t *)"a\xff", 2, 0, found, LEN, ranges, MANY, given, MANY, &count) == MARKDOWN_INLINE_NOT_UTF8);
    want("too long for definitions", markdown_inline_definitions((const uint8_t *)"a", (SIZE_MAX >> 3) + 1, 0, found, LEN, ranges, MANY, given, MANY, &count) == MARKDOWN_INLINE_TOO_LONG);
    for (unsigned bit = 2; bit < 32; bit++)
        for (unsigned turn = 0; turn < 3; turn++)
            want("unknown blocks come before definitions", markdown_inline_definitions((const uint8_t *)"a\xff", turn == 0 ? 1 : turn == 1 ? 2 : (SIZE_MAX >> 3) + 1,
                    (UINT32_C(1) << bit) | (bit & BLOCK_BITS), found, LEN, ranges, MANY, given, MANY, &count) == MARKDOWN_INLINE_UNKNOWN_OPTION);
    want("no count of definitions of what is refused", count.definitions == 77 && count.labels == 77);
    want("no definitions", markdown_inline_definitions(NULL, 0, BLOCK_BITS, NULL, 0, NULL, 0, NULL, 0, &count) == MARKDOWN_INLINE_DONE && count.definitions == 0 && count.labels == 0);
}

/* Lines of front matter and of math define nothing, where these are read. */
static void test_definition_options(void) {
    static const char text[] = "---\n[a]: b\n---\n\n$$\n\n[c]: d\n\n$$\n", *const wanted[] = {"abcd", "ab", "cd", ""};
    for (uint32_t options = 0; options <= BLOCK_BITS; options++) {
        uint8_t labels[4];
        markdown_inline_range ranges[2];
        markdown_inline_target given[2];
        markdown_inline_definitions_count count;
        size_t len = strlen(wanted[options]);
        want("definitions by the options of blocks", markdown_inline_definitions((const uint8_t *)text, sizeof text - 1, options, labels, 4, ranges, 2, given, 2, &count) == MARKDOWN_INLINE_DONE);
        want("which definitions are read", count.labels == len && count.definitions == len / 2 && !memcmp(labels, wanted[options], len));
    }
}

/* Strings have the texts of their parts, and as many as have room are written. */
static void test_strings(void) {
    /* Two lines in a block quote, a destination with an escape and a reference, NUL, and a part that is no UTF-8. */
    static const char text[] = "> [a](b\\*c&amp;d (e &copy;\r\n>  f\\\n&nothing; \0&#0;\xc3\xa9)";
    static const markdown_inline_range parts[] = {{6, 16}, {18, 26}, {26, 28}, {31, 33}, {33, 34}, {34, 51}, {0, 53}, {49, 99}, {9, 8}, {50, 51}};
    static const markdown_inline_range strings[] = {{0, 1}, {1, 6}, {0, 0}, {10, 10}, {4, 5}, {0, 1}};
    static const char texts[] = "b*c&d" "e \xc2\xa9\r\nf\\\n&nothing; \0\xef\xbf\xbd\xc3\xa9" "" "" "\n" "b*c&d";
    const uint8_t *bytes = (const uint8_t *)text;
    const size_t len = sizeof text - 1, wanted = sizeof texts - 1, past = strlen("b*c&d"), ends_wanted[] = {past, wanted - past - 1, wanted - past - 1, wanted - past - 1, wanted - past, wanted};
    uint8_t found[64], before[64];
    size_t ends[8], ends_before[8];
    markdown_inline_outcome outcome;
    memset(before, 1, sizeof before);
    memset(ends_before, 1, sizeof ends_before);
    for (size_t room = 0; room <= wanted + 1; room++) {
        size_t done = 0;
        while (done < 6 && ends_wanted[done] <= room) done++;
        size_t written = done > 0 ? ends_wanted[done - 1] : 0;
        memset(found, 1, sizeof found);
        memset(ends, 1, sizeof ends);
        uint32_t status = markdown_inline_strings(MARKDOWN_INLINE_COMMONMARK, 0, bytes, len, parts, 10, strings, 6, found, room, ends, 8, &outcome);
        want("a status by the room for strings", status == (done < 6 ? (uint32_t)MARKDOWN_INLINE_TOO_SMALL : (uint32_t)MARKDOWN_INLINE_DONE));
        want("how much strings want", is_outcome(&outcome, done, wanted, MARKDOWN_INLINE_NONE));
        want("the texts of strings", !memcmp(found, texts, written) && !memcmp(found + written, before, 64 - written));
        want("the ends of strings", !memcmp(ends, ends_wanted, done * sizeof *ends) && !memcmp(ends + done, ends_before, (8 - done) * sizeof *ends));
    }
    want("no room for ends of strings", markdown_inline_strings(MARKDOWN_INLINE_COMMONMARK, 0, bytes, len, parts, 10, strings, 6, found, 64, ends, 5, &outcome) == MARKDOWN_INLINE_TOO_SMALL);
    want("as many strings as have ends", is_outcome(&outcome, 5, wanted, MARKDOWN_INLINE_NONE));
    for (size_t at = 6; at < 12; at++) {
        markdown_inline_range wrong[] = {{0, 1}, {at, at + 1}};
        if (at == 11) wrong[1] = (markdown_inline_range){1, 0};
        want("a string of no text", markdown_inline_strings(MARKDOWN_INLINE_COMMONMARK, 0, bytes, len, parts, 10, wrong, 2, found, 64, ends, 8, &outcome) == MARKDOWN_INLINE_NO_STRING);
        want("which string is no text", is_outcome(&outcome, 1, past, 1));
    }
    static const markdown_inline_range check[] = {{0, 7}}, one[] = {{0, 1}};
    want("a string by all names", markdown_inline_strings(MARKDOWN_INLINE_OPTION_HTML_REFERENCES, 0, (const uint8_t *)"&check;", 7, check, 1, one, 1, found, 64, ends, 8, &outcome) == MARKDOWN_INLINE_DONE);
    want("the text by all names", is_outcome(&outcome, 1, 3, MARKDOWN_INLINE_NONE) && !memcmp(found, "\xe2\x9c\x93", 3));
    want("a string by the names without an option", markdown_inline_strings(0, 0, (const uint8_t *)"&check;", 7, check, 1, one, 1, found, 64, ends, 8, &outcome) == MARKDOWN_INLINE_DONE);
    want("the text as it stands", is_outcome(&outcome, 1, 7, MARKDOWN_INLINE_NONE) && !memcmp(found, "&check;", 7));
    want("an unknown option of strings", markdown_inline_strings(0x800000, 0, bytes, len, parts, 10, strings, 6, found, 64, ends, 8, &outcome) == MARKDOWN_INLINE_UNKNOWN_OPTION);
    want("no string is read then", is_outcome(&outcome, 0, 0, MARKDOWN_INLINE_NONE));
    for (uint32_t how = 0; how < 4; how++) {
        static const char given[] = "a\r\nb\rc\n\\\r\n&#13;&#0;\0\r\r\n";
        /* A zero of these stands for NUL. */
        static const char *const written[] = {"a\r\nb\rc\n\\\r\n\r\xef\xbf\xbd" "0\r\r\n", "a\nb\nc\n\\\n\r\xef\xbf\xbd" "0\n\n", "a\r\nb\rc\n\\\r\n\r\xef\xbf\xbd\xef\xbf\xbd\r\r\n",
            "a\nb\nc\n\\\n\r\xef\xbf\xbd\xef\xbf\xbd\n\n"};
        /* The line ending at which the first part of the second string ends goes on in its second part: they are one text. */
        static const markdown_inline_range all[] = {{0, sizeof given - 1}, {0, 2}, {2, 4}}, each[] = {{0, 1}, {1, 3}};
        size_t first = strlen(written[how]), last = how & MARKDOWN_INLINE_STRING_LINE_FEEDS ? 3 : 4;
        want("strings by how they are written", markdown_inline_strings(MARKDOWN_INLINE_COMMONMARK, how, (const uint8_t *)given, sizeof given - 1, all, 3, each, 2, found, 64, ends, 8, &outcome) == MARKDOWN_INLINE_DONE);
        want("how long strings so written are", is_outcome(&outcome, 2, first + last, MARKDOWN_INLINE_NONE) && ends[0] == first);
        for (size_t at = 0; at < first; at++) want("the text of a string so written", found[at] == (written[how][at] == '0' ? 0 : (uint8_t)written[how][at]));
        want("the text of a string of parts so written", !memcmp(found + first, last == 3 ? "a\nb" : "a\r\nb", last));
    }
    want("an unknown bit of how strings are written", markdown_inline_strings(MARKDOWN_INLINE_COMMONMARK, 4, bytes, len, parts, 10, strings, 6, found, 64, ends, 8, &outcome) == MARKDOWN_INLINE_UNKNOWN_OPTION);
    want("no string is written then", is_outcome(&outcome, 0, 0, MARKDOWN_INLINE_NONE));
    want("no strings", markdown_inline_strings(MARKDOWN_INLINE_COMMONMARK, 0, NULL, 0, NULL, 0, NULL, 0, NULL, 0, NULL, 0, &outcome) == MARKDOWN_INLINE_DONE && is_outcome(&outcome, 0, 0, MARKDOWN_INLINE_NONE));
}

/* Whether starts of lines make these pieces, by the room for them; or are refused with a status that blames the start of this number. */
static void want_lines(const char *text, const size_t *starts, size_t len, uint32_t wanted, size_t blamed, const markdown_inline_piece *pieces) {
    for (size_t room = 0; room < 5; room++) {
        markdown_inline_piece found[5], before[5];
        markdown_inline_outcome outcome;
        memset(found, 1, sizeof found);
        memset(before, 1, sizeof before);
        uint32_t status = markdown_inline_pieces_of_lines((const uint8_t *)text, strlen(text), starts, len, found, room, &outcome);
        size_t written = wanted == MARKDOWN_INLINE_DONE && room >= len ? len : 0;
        want("a status of lines", status == (wanted != MARKDOWN_INLINE_DONE || room >= len ? wanted : (uint32_t)MARKDOWN_INLINE_TOO_SMALL));
        want("the outcome of lines", outcome.done == written && outcome.count == (wanted == MARKDOWN_INLINE_DONE ? len : 0) && outcome.blamed == blamed);
        want("the pieces of lines", written == 0 || !memcmp(found, pieces, written * sizeof *found));
        want("no more pieces", !memcmp(found + written, before, (5 - written) * sizeof *found));
        if (written == len) want("they are a text", markdown_inline_is_text((const uint8_t *)text, strlen(text), found, len) == MARKDOWN_INLINE_DONE);
    }
}

/* Pieces begin behind blanks and end behind line endings, and the last one ends before whitespace. */
static void test_lines(void) {
    static const struct {
        const char *text;
        size_t starts[4], len, blamed;
        uint32_t status;
        markdown_inline_piece pieces[4];
    } rows[] = {
        {"> a *b\n> c*", {1, 8}, 2, SIZE_MAX, MARKDOWN_INLINE_DONE, {{2, 0, 7, 0}, {9, 0, 11, 0}}},
        {"> a *b\n> c*", {2, 9}, 2, SIZE_MAX, MARKDOWN_INLINE_DONE, {{2, 0, 7, 0}, {9, 0, 11, 0}}},
        {"> a *b\n> c*", {0, 7}, 2, SIZE_MAX, MARKDOWN_INLINE_DONE, {{0, 0, 7, 0}, {7, 0, 11, 0}}},
        {"a", {0}, 1, SIZE_MAX, MARKDOWN_INLINE_DONE, {{0, 0, 1, 0}}},
        {"a", {0}, 0, SIZE_MAX, MARKDOWN_INLINE_DONE, {{0, 0, 0, 0}}},
        {"- \ta\t \r\n \t b  \r  c \t\n\nd", {1, 8, 15}, 3, SIZE_MAX, MARKDOWN_INLINE_DONE, {{3, 0, 8, 0}, {11, 0, 15, 0}, {17, 0, 18, 0}}},
        {"a\r\n", {0}, 1, SIZE_MAX, MARKDOWN_INLINE_DONE, {{0, 0, 1, 0}}},
        {"\xc3\xa9\n\xc3\xa9", {0, 3}, 2, SIZE_MAX, MARKDOWN_INLINE_DONE, {{0, 0, 3, 0}, {3, 0, 5, 0}}},
        {"a\nb", {0, 0}, 2, 1, MARKDOWN_INLINE_NO_CONTENT, {{0, 0, 0, 0}}},           /* two on one line */
        {"a\nb", {2, 0}, 2, 1, MARKDOWN_INLINE_NO_CONTENT, {{0, 0, 0, 0}}},           /* not in order */
        {"a\nb\nc", {0, 4}, 2, 1, MARKDOWN_INLINE_NO_CONTENT, {{0, 0, 0, 0}}},        /* a line between */
        {"a\nb", {0, 4}, 2, 1, MARKDOWN_INLINE_NO_CONTENT, {{0, 0, 0, 0}}},           /* behind the end */
        {"a", {SIZE_MAX}, 1, 0, MARKDOWN_INLINE_NO_CONTENT, {{0, 0, 0, 0}}},
        {"\xc3\xa9", {1}, 1, 0, MARKDOWN_INLINE_NO_CONTENT, {{0, 0, 0, 0}}},          /* inside a character */
        {"a\n \t\nb", {0, 2}, 2, 1, MARKDOWN_INLINE_BLANK_LINE, {{0, 0, 0, 0}}},
        {"a\n", {0, 2}, 2, 1, MARKDOWN_INLINE_BLANK_LINE, {{0, 0, 0, 0}}},
        {"a\r\nb", {0, 2}, 2, 1, MARKDOWN_INLINE_NO_CONTENT, {{0, 0, 0, 0}}},         /* inside a line ending */
        {"", {0}, 1, 0, MARKDOWN_INLINE_BLANK_LINE, {{0, 0, 0, 0}}},
        {"a\n\nb", {0, 2, 0, 9}, 4, 1, MARKDOWN_INLINE_BLANK_LINE, {{0, 0, 0, 0}}},   /* the first is blamed */
    };
    markdown_inline_outcome outcome;
    for (size_t at = 0; at < sizeof rows / sizeof *rows; at++) want_lines(rows[at].text, rows[at].starts, rows[at].len, rows[at].status, rows[at].blamed, rows[at].pieces);
    want("no lines", markdown_inline_pieces_of_lines(NULL, 0, NULL, 0, NULL, 0, &outcome) == MARKDOWN_INLINE_DONE && is_outcome(&outcome, 0, 0, MARKDOWN_INLINE_NONE));
}

/* A document of three paragraphs, with its definition behind its labels: `d` leads to `/e` with the title `f`; and a footnote `g`. */
static const char many[] = "[a][d] b[^g]\n\n*c* [D][]\n\nh[^g] ![d]";
static const markdown_inline_piece many_pieces[] = {{0, 0, 12, 0}, {14, 0, 23, 0}, {25, 0, 35, 0}, {0, 0, 14, 0}};
static const markdown_inline_content many_contents[] = {{{0, 1}, 0, 0}, {{1, 2}, 0, 0}, {{2, 3}, 0, 0}};
static const markdown_inline_range many_labels[] = {{0, 1}, {4, 5}};
static const markdown_inline_target many_targets[] = {{{1, 3}, {3, 4}, 1, 0}};
/* What CommonMark and GitHub write of them: the second call of a footnote has its number, and an id of its own. */
static const char *const many_html[] = {"<a href=\"/e\" title=\"f\">a</a> b<sup><a href=\"#user-content-fn-g\" id=\"user-content-fnref-g\" data-footnote-ref=\"\" "
    "aria-describedby=\"footnote-label\">1</a></sup>", "<em>c</em> <a href=\"/e\" title=\"f\">D</a>",
    "h<sup><a href=\"#user-content-fn-g\" id=\"user-content-fnref-g-2\" data-footnote-ref=\"\" aria-describedby=\"footnote-label\">1</a></sup> "
    "<img src=\"/e\" alt=\"d\" title=\"f\" />"};

static markdown_inline_input many_input(void) {
    markdown_inline_input input = input_of(many, many_pieces);
    input.pieces_len = 4;
    input.options |= MARKDOWN_INLINE_GFM;
    input.labels = (const uint8_t *)"d/efg";
    input.labels_len = 5;
    input.definitions = many_labels;
    input.footnotes = many_labels + 1;
    input.definitions_len = input.footnotes_len = 1;
    return input;
}

/* Many contents have the HTML of each one after another, and as many as have room are written. */
static void test_htmls(void) {
    markdown_inline_input input = many_input();
    uint8_t html[1024], before[1024];
    size_t ends[4], kept_ends[4], needed = 0, at = 0;
    markdown_inline_outcome outcome;
    memset(before, 1, sizeof before);
    memset(kept_ends, 1, sizeof kept_ends);
    for (int number = 0; number < 3; number++) needed += strlen(many_html[number]);
    for (size_t room = 0; room <= needed + 1; room++) {
        size_t done = 0, written = 0;
        while (done < 3 && written + strlen(many_html[done]) <= room) written += strlen(many_html[done++]);
        memset(html, 1, sizeof html);
        memset(ends, 1, sizeof ends);
        uint32_t status = markdown_inline_htmls(&input, many_targets, 1, many_contents, 3, 0, 0, html, room, ends, 4, &outcome);
        want("a status by the room for HTML", status == (done < 3 ? (uint32_t)MARKDOWN_INLINE_TOO_SMALL : (uint32_t)MARKDOWN_INLINE_DONE));
        want("how much HTML wants", is_outcome(&outcome, done, needed, MARKDOWN_INLINE_NONE) && (done == 0 || ends[done - 1] == written));
        want("what stands past the HTML", !memcmp(html + written, before, 1024 - written) && !memcmp(ends + done, kept_ends, (4 - done) * sizeof *ends));
    }
    for (int number = 0; number < 3; at = ends[number++]) {
        size_t len = strlen(many_html[number]);
        want("the HTML of one of many", ends[number] - at == len && !memcmp(html + at, many_html[number], len));
    }
    want("no room for ends of HTML", markdown_inline_htmls(&input, many_targets, 1, many_contents, 3, 0, 0, html, 1024, ends, 2, &outcome) == MARKDOWN_INLINE_TOO_SMALL);
    want("as much HTML as has ends", is_outcome(&outcome, 2, needed, MARKDOWN_INLINE_NONE));
    memset(&input, 0, sizeof input);
    uint32_t status = markdown_inline_htmls(&input, NULL, 0, NULL, 0, 0, 0, NULL, 0, NULL, 0, &outcome);
    want("HTML of no contents", status == MARKDOWN_INLINE_DONE && is_outcome(&outcome, 0, 0, MARKDOWN_INLINE_NONE));
}

/* Whether a call for many contents is refused with this status, blames this, and writes so many contents before. */
static void want_refused(const char *what, const markdown_inline_input *input, const markdown_inline_content *contents, size_t limit, uint32_t wanted, size_t done, size_t to_blame) {
    uint8_t html[1024], before[1024];
    size_t ends[3] = {77, 77, 77};
    markdown_inline_outcome outcome = {77, 77, 77};
    memset(html, 1, sizeof html);
    memset(before, 1, sizeof before);
    uint32_t status = markdown_inline_htmls(input, many_targets, 1, contents, 3, 0, limit, html, 1024, ends, 3, &outcome);
    if (status != wanted || outcome.blamed != to_blame) printf("calls: %s: status %u, blamed %zu\n", what, status, outcome.blamed);
    size_t written = done > 0 ? ends[done - 1] : 0;
    want(what, status == wanted && is_outcome(&outcome, done, written, to_blame) && written < 1024 && !memcmp(html + written, before, 1024 - written));
    for (size_t at = done; at < 3; at++) want(what, ends[at] == 77);
}

/* A limit on what definitions bring: three links and images of three bytes each refer to one. */
static void test_limit(void) {
    markdown_inline_input input = many_input();
    uint8_t html[1024];
    size_t ends[3];
    markdown_inline_outcome outcome;
    for (size_t limit = 1; limit < 9; limit++)
        want_refused("more than the limit", &input, many_contents, limit, MARKDOWN_INLINE_REFERENCES, limit / 3, limit / 3);
    for (size_t limit = 9; limit < 12; limit++)
        want("no more than the limit", markdown_inline_htmls(&input, many_targets, 1, many_contents, 3, 0, limit, html, 1024, ends, 3, &outcome) == MARKDOWN_INLINE_DONE);
    input.bytes = (const uint8_t *)"[a](/e 'f')!";
    input.bytes_len = 12;
    input.pieces_len = 1;
    want("a resource is no reference", markdown_inline_htmls(&input, many_targets, 1, many_contents, 1, 0, 1, html, 1024, ends, 3, &outcome) == MARKDOWN_INLINE_DONE);
}

/* Each status of a call for many contents, and what it blames. */
static void test_blame(void) {
    markdown_inline_input input = many_input();
    markdown_inline_content contents[3];
    markdown_inline_range good[] = {{0, 1}, {1, 2}, {0, 9}, {1, 0}};
    memcpy(contents, many_contents, sizeof contents);
    contents[1].pieces.end = 9;
    contents[2].pieces.start = 3;
    contents[2].pieces.end = 4;
    want_refused("a content past the pieces", &input, contents, 0, MARKDOWN_INLINE_NO_CONTENT, 1, 1);
    contents[1] = many_contents[1];
    want_refused("a content with a blank line", &input, contents, 0, MARKDOWN_INLINE_BLANK_LINE, 2, 2);
    want_refused("a limit before a blank line", &input, contents, 2, MARKDOWN_INLINE_REFERENCES, 0, 0);
    input.footnotes = good;
    input.footnotes_len = 4;
    want_refused("a footnote past the labels", &input, contents, 1, MARKDOWN_INLINE_DEFINITION, 0, 3);
    input.definitions = good + 3;
    want_refused("a definition before a footnote", &input, contents, 1, MARKDOWN_INLINE_DEFINITION, 0, 0);
    input.definitions = good;
    input.definitions_len = 3;
    want_refused("a definition past the labels", &input, contents, 1, MARKDOWN_INLINE_DEFINITION, 0, 2);
    input.definitions_len = input.footnotes_len = 2;
    want_refused("a definition without a target", &input, contents, 1, MARKDOWN_INLINE_DEFINITION, 0, MARKDOWN_INLINE_NONE);
    input.definitions_len = 1;
    input.labels_len = 3;
    want_refused("a target past the labels", &input, contents, 1, MARKDOWN_INLINE_DEFINITION, 0, 0);
    input.bytes = (const uint8_t *)"\xff";
    input.bytes_len = 1;
    want_refused("no UTF-8 of many", &input, contents, 1, MARKDOWN_INLINE_NOT_UTF8, 0, 0);
    /* Wrong bytes of each kind behind two characters: an end within a character, a surrogate, a byte of no character, a number in too many bytes. */
    static const char *const wrong[] = {"a\xc3\xa9\xe2\x82", "a\xc3\xa9\xed\xa0\x80", "a\xc3\xa9\xff\xff", "a\xc3\xa9\xc0\xaf", "a\xc3\xa9\x80 \xff"};
    for (size_t at = 0; at < sizeof wrong / sizeof *wrong; at++) {
        input.bytes = (const uint8_t *)wrong[at];
        input.bytes_len = strlen(wrong[at]);
        want_refused("which byte is not UTF-8", &input, contents, 1, MARKDOWN_INLINE_NOT_UTF8, 0, 3);
    }
    input.bytes_len = (SIZE_MAX >> 3) + 1;
    want_refused("too long for many", &input, contents, 1, MARKDOWN_INLINE_TOO_LONG, 0, MARKDOWN_INLINE_NONE);
    input.options |= 1u << 31;
    want_refused("an unknown option of many", &input, contents, 1, MARKDOWN_INLINE_UNKNOWN_OPTION, 0, MARKDOWN_INLINE_NONE);
}

/* Each reserved field that is not 0 is refused, before anything is read. */
static void test_reserved(void) {
    static const char *const what[] = {"a reserved field of an input", "a reserved field of a content", "a reserved field of a target"};
    for (int which = 0; which < 3; which++) {
        markdown_inline_input input = many_input();
        markdown_inline_content contents[3];
        markdown_inline_target target = many_targets[0];
        markdown_inline_leaf leaves[8];
        markdown_inline_event events[128];
        markdown_inline_outcome outcome = {77, 77, 77};
        uint8_t html[1024];
        size_t ends[3], count = 77;
        const uint32_t of_texts = which < 2 ? MARKDOWN_INLINE_UNKNOWN_OPTION : MARKDOWN_INLINE_DONE, of_one = which == 0 ? MARKDOWN_INLINE_UNKNOWN_OPTION : MARKDOWN_INLINE_DONE;
        memcpy(contents, many_contents, sizeof contents);
        *(which == 0 ? &input.reserved : which == 1 ? &contents[2].reserved : &target.reserved) = 1u << 31;
        want(what[which], markdown_inline_htmls(&input, &target, 1, contents, 3, 0, 0, html, 1024, ends, 3, &outcome) == MARKDOWN_INLINE_UNKNOWN_OPTION);
        want(what[which], is_outcome(&outcome, 0, 0, MARKDOWN_INLINE_NONE));
        want(what[which], markdown_inline_texts(&input, contents, 3, events, 128, ends, 3, &outcome) == of_texts);
        input.pieces_len = 1;
        want(what[which], markdown_inline_html(&input, &target, 1, 0, 0, html, 1024, &count) == (which == 1 ? MARKDOWN_INLINE_DONE : MARKDOWN_INLINE_UNKNOWN_OPTION));
        want(what[which], markdown_inline_text(&input, events, 128, &count) == of_one && markdown_inline_leaves(&input, leaves, 0, &count) == (which == 0 ? of_one : MARKDOWN_INLINE_TOO_SMALL));
        want(what[which], markdown_inline_string(&input, events, 128, &count) == of_one);
    }
}

static void test_empty(void) {
    markdown_inline_input input;
    size_t count = 77;
    memset(&input, 0, sizeof input);
    want("an empty text", markdown_inline_text(&input, NULL, 0, &count) == MARKDOWN_INLINE_DONE && count == 0);
    count = 77;
    want("an empty string", markdown_inline_string(&input, NULL, 0, &count) == MARKDOWN_INLINE_DONE && count == 0);
    markdown_inline_piece piece = {0, 0, 0, 0};
    input.pieces = &piece;
    input.pieces_len = 1;
    want("an empty piece", markdown_inline_text(&input, NULL, 0, &count) == MARKDOWN_INLINE_DONE && count == 0);
    want("nothing is a text", markdown_inline_is_text(NULL, 0, NULL, 0) == MARKDOWN_INLINE_DONE);
}

static void *run(void *unused) {
    const char *text = "a *b* [c](d) `e` &amp; <https://f.g>\n  h www.i.j";
    markdown_inline_piece piece = whole(text);
    markdown_inline_input input = input_of(text, &piece);
    markdown_inline_event events[256], first[256];
    size_t count = 0, wanted = 0;
    (void)unused;
    memset(events, 0, sizeof events);
    memset(first, 0, sizeof first);
    input.options |= MARKDOWN_INLINE_GFM;
    if (markdown_inline_text(&input, first, 256, &wanted) != MARKDOWN_INLINE_DONE) return (void *)1;
    for (int at = 0; at < 500; at++)
        if (markdown_inline_text(&input, events, 256, &count) != MARKDOWN_INLINE_DONE || count != wanted || memcmp(events, first, count * sizeof *events))
            return (void *)1;
    return NULL;
}

static void test_threads(void) {
    pthread_t threads[8];
    void *answer;
    for (int at = 0; at < 8; at++)
        if (pthread_create(&threads[at], NULL, run, NULL)) exit(1);
    for (int at = 0; at < 8; at++) {
        pthread_join(threads[at], &answer);
        want("threads", answer == NULL);
    }
}

/* Some of the contents of an input, and what a thread finds in them. */
typedef struct share {
    const markdown_inline_input *input;
    const markdown_inline_content *contents;
    size_t count, ends[64];
    markdown_inline_event events[2048];
    markdown_inline_outcome outcome;
    uint32_t status;
} share;

static void *find(void *given) {
    share *it = (share *)given;
    it->status = markdown_inline_texts(it->input, it->contents, it->count, it->events, 2048, it->ends, 64, &it->outcome);
    return NULL;
}

/* Threads that share the contents of one input find together what one call finds. */
static void test_shares(void) {
    static const char *const words[4] = {"a *b* `c`", "[d](e \"f\")", "**g** <h> &amp;", "i\\\nj"};
    static char text[1024];
    static markdown_inline_piece pieces[64];
    static markdown_inline_content contents[64];
    static share all, shares[4];
    pthread_t threads[4];
    markdown_inline_input input = input_of(text, pieces);
    size_t end = 0, at, events = 0;
    for (at = 0; at < 64; at++) {
        pieces[at].start = end;
        strcpy(text + end, words[at % 4]);
        pieces[at].end = end += strlen(words[at % 4]);
        strcpy(text + end, "\n\n");
        end += 2;
        contents[at].pieces.start = at;
        contents[at].pieces.end = at + 1;
    }
    input.bytes_len = end;
    input.pieces_len = 64;
    all.input = &input;
    all.contents = contents;
    all.count = 64;
    find(&all);
    want("contents of one call", all.status == MARKDOWN_INLINE_DONE && all.outcome.done == 64);
    for (at = 0; at < 4; at++) {
        shares[at].input = &input;
        shares[at].contents = contents + 16 * at;
        shares[at].count = 16;
        if (pthread_create(&threads[at], NULL, find, &shares[at])) exit(1);
    }
    for (at = 0; at < 4; at++) {
        pthread_join(threads[at], NULL);
        want("a share", shares[at].status == MARKDOWN_INLINE_DONE && shares[at].outcome.done == 16);
        want("ends of a share", shares[at].ends[15] == all.ends[16 * at + 15] - events);
        want("events of a share", !memcmp(shares[at].events, all.events + events, shares[at].ends[15] * sizeof *all.events));
        events += shares[at].ends[15];
    }
    want("events of all shares", events == all.outcome.count);
}

/* Makes one call over a text with definitions, of two pieces, and ends with its status. */
static int call_once(const char *call) {
    static markdown_inline_event events[256];
    static markdown_inline_leaf leaves[256];
    static uint8_t bytes[512];
    const char *text = "> a *b* [c] `d` <e f='g'>\n> &amp; https://h.i [j](k)";
    markdown_inline_piece pieces[] = {{2, 0, 26, 0}, {28, 0, 0, 0}};
    markdown_inline_range label = {0, 1};
    markdown_inline_target target = {{0, 1}, {0, 1}, 1, 0};
    markdown_inline_content contents[] = {{{0, 2}, 0, 0}, {{1, 2}, 1, 0}};
    markdown_inline_input input = input_of(text, pieces);
    static markdown_inline_short_event short_events[256];
    markdown_inline_outcome outcome;
    size_t count = 0, ends[2];
    pieces[1].end = input.bytes_len;
    input.pieces_len = 2;
    input.labels = (const uint8_t *)"c";
    input.labels_len = 1;
    input.definitions = input.footnotes = &label;
    input.definitions_len = input.footnotes_len = 1;
    input.options |= MARKDOWN_INLINE_GFM;
    if (!strcmp(call, "string")) return (int)markdown_inline_string(&input, events, 256, &count);
    if (!strcmp(call, "leaves")) return (int)markdown_inline_leaves(&input, leaves, 256, &count);
    if (!strcmp(call, "texts")) return (int)markdown_inline_texts(&input, contents, 2, events, 256, ends, 2, &outcome);
    if (!strcmp(call, "short_texts")) return (int)markdown_inline_short_texts(&input, contents, 2, short_events, 256, ends, 2, &outcome);
    if (!strcmp(call, "html")) return (int)markdown_inline_html(&input, &target, 1, 0, 0, bytes, 512, &count);
    if (!strcmp(call, "html_of")) return (int)markdown_inline_html_of((const uint8_t *)"a *b* [c](/d)", 13, input.options, 0, bytes, 512, &count);
    static const char document[] = "---\na\n---\n# a\n\n> - *b* [c]\n\n$$\nd\n$$\n[c]: /d\n";
    if (!strcmp(call, "document_html")) return (int)document_html(document, sizeof document - 1, asked_blocks(BLOCK_BITS), bytes, 512);
    if (!strcmp(call, "blocks")) {
        markdown_inline_block blocks[16];
        markdown_inline_piece all[8];
        markdown_inline_blocks_count blocks_count;
        return (int)markdown_inline_blocks((const uint8_t *)document, sizeof document - 1, BLOCK_BITS, blocks, 16, all, 8, &blocks_count);
    }
    if (!strcmp(call, "definitions")) {
        markdown_inline_definitions_count definitions_count;
        return (int)markdown_inline_definitions((const uint8_t *)document, sizeof document - 1, BLOCK_BITS, bytes, 512, &label, 1, &target, 1, &definitions_count);
    }
    if (!strcmp(call, "strings")) {
        static const markdown_inline_range parts[] = {{0, 3}, {4, 9}}, strings[] = {{0, 2}, {1, 2}};
        return (int)markdown_inline_strings(MARKDOWN_INLINE_COMMONMARK, 0, (const uint8_t *)"a\\* &amp;", 9, parts, 2, strings, 2, bytes, 512, ends, 2, &outcome);
    }
    if (!strcmp(call, "pieces_of_lines")) {
        static const size_t starts[] = {1, 27};
        return (int)markdown_inline_pieces_of_lines(input.bytes, input.bytes_len, starts, 2, pieces, 2, &outcome);
    }
    if (!strcmp(call, "htmls")) return (int)markdown_inline_htmls(&input, &target, 1, contents, 2, 0, 100, bytes, 512, ends, 2, &outcome);
    if (!strcmp(call, "identifier")) return (int)markdown_inline_identifier((const uint8_t *)" A  B ", 6, bytes, 512, &count);
    if (!strcmp(call, "reference")) return (int)markdown_inline_reference(MARKDOWN_INLINE_COMMONMARK, (const uint8_t *)"&amp;", 5, bytes, 512, &count);
    return (int)markdown_inline_text(&input, events, 256, &count);
}

int main(int argc, char **argv) {
    if (argc > 1) return call_once(argv[1]);
    want("the version", markdown_inline_version() == MARKDOWN_INLINE_VERSION);
    test_statuses();
    test_words();
    test_numbers();
    test_tests();
    test_room();
    test_leaves();
    test_identifiers();
    test_references();
    test_texts();
    test_texts_refused();
    test_short_texts();
    test_characters();
    test_the_header();
    test_ids();
    test_html();
    test_html_of();
    test_document_html();
    test_document_rejected();
    test_document_options();
    test_document_blocks();
    test_document_limit();
    test_default_limit();
    test_blocks();
    test_block_options();
    test_definitions();
    test_definition_options();
    test_htmls();
    test_limit();
    test_blame();
    test_reserved();
    test_strings();
    test_lines();
    test_empty();
    test_threads();
    test_shares();
    return faults != 0;
}
