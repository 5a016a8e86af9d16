/* Calls each function of the header over drawn inputs, and looks at what it answers: the status is that of a model of its own here; nothing is written
 * but what is counted; calls without room, with room and with too little answer alike; and the answers of different calls fit together. Arrays stand
 * between pages that may not be touched, and what a call only reads may not be written.
 *
 * usage: random_calls [SEED [COUNT]]
 *
 * It makes COUNT calls or a few more. Each case is drawn by a seed of its own, which is the one before and one more: so `random_calls SEED 1` draws a case
 * again, by the seed that is told of it. */
#define _DEFAULT_SOURCE
#include "markdown_inline.h"

#include <signal.h>
#include <stdio.h>
#include <stdlib.h>
#include <string.h>
#include <sys/mman.h>
#include <unistd.h>

/* The most of each that is drawn, and how often each status has to come in so many calls. */
enum { BYTES = 120, PIECES = 8, RANGES = 4, CONTENTS = 4, CODES = 4 * BYTES, ENOUGH = 100000, FLOOR = 20, FILL = 0xa5 };

/* Drawn numbers. */

static uint64_t seed, state;
static size_t calls, faults, counts[16], functions[17];
static const char *call_name = "none";

static uint64_t draw(void) {
    state ^= state >> 12;
    state ^= state << 25;
    state ^= state >> 27;
    return state * UINT64_C(2685821657736338717);
}

static void begin_case(uint64_t number) {
    state = (number + 1) * UINT64_C(0x9e3779b97f4a7c15);
    state = (state ^ (state >> 30)) * UINT64_C(0xbf58476d1ce4e5b9) | 1;
    draw();
}

static size_t below(size_t limit) { return (size_t)((draw() >> 20) % limit); }

static int one_in(size_t many) { return below(many) == 0; }

static void fault(const char *what) {
    if (faults++ < 20) printf("random_calls: %s: %s, seed %llu\n", call_name, what, (unsigned long long)seed);
}

static void want(const char *what, int holds) {
    if (!holds) fault(what);
}

/* Memory, each stretch between two pages that may not be touched. What a call reads stands at two addresses: by one it is written here, and by the
 * other it may only be read. */

typedef struct stretch {
    uint8_t *writes, *lent;
    size_t size;
} stretch;

static size_t page;
static uint8_t filled[1 << 16];

static void stop(const char *what) {
    printf("random_calls: %s\n", what);
    exit(1);
}

static uint8_t *between_guards(size_t size, int protection, int file) {
    uint8_t *at = (uint8_t *)mmap(NULL, size + 2 * page, PROT_NONE, MAP_PRIVATE | MAP_ANONYMOUS, -1, 0);
    if (at == MAP_FAILED || mmap(at + page, size, protection, MAP_SHARED | MAP_FIXED, file, 0) == MAP_FAILED) stop("no memory for guarded pages");
    return at + page;
}

static stretch new_stretch(size_t pages, int is_read) {
    stretch found = {NULL, NULL, pages * page};
    FILE *file = tmpfile();
    if (!file || ftruncate(fileno(file), (off_t)found.size)) stop("no temporary file");
    found.lent = between_guards(found.size, is_read ? PROT_READ : PROT_READ | PROT_WRITE, fileno(file));
    found.writes = is_read ? between_guards(found.size, PROT_READ | PROT_WRITE, fileno(file)) : found.lent;
    fclose(file);
    return found;
}

/* Lends so many elements: against the page before, or against the page after. No element may be a null pointer. */
static const void *lend(stretch *from, const void *elements, size_t count, size_t each) {
    size_t len = count * each, at = one_in(2) ? 0 : from->size - len;
    if (len == 0) return one_in(2) ? NULL : from->lent + at;
    memcpy(from->writes + at, elements, len);
    return from->lent + at;
}

/* Lends room for so many elements, all of whose bytes and all around them are filled. */
static void *lend_room(stretch *from, size_t count, size_t each) {
    size_t at = one_in(2) ? 0 : from->size - count * each;
    memset(from->lent, FILL, from->size);
    return count == 0 && one_in(2) ? NULL : from->lent + at;
}

/* Whether a stretch is filled as before, but for some bytes. */
static int is_filled_but(const stretch *from, const void *array, size_t len) {
    size_t at = array ? (size_t)((const uint8_t *)array - from->lent) : 0;
    return !memcmp(from->lent, filled, at) && !memcmp(from->lent + at + len, filled, from->size - at - len);
}

static stretch of_bytes, of_pieces, of_labels, of_definitions, of_footnotes, of_contents, of_targets, of_input, of_asked, of_found, of_more, of_ends, of_count, of_outcome;

/* A case: what is drawn, before it is lent. */
typedef struct drawn {
    uint8_t bytes[BYTES], labels[BYTES];
    markdown_inline_piece pieces[PIECES];
    markdown_inline_range definitions[RANGES], footnotes[RANGES];
    markdown_inline_target targets[RANGES + 1];
    markdown_inline_content contents[CONTENTS];
    size_t bytes_len, pieces_len, labels_len, definitions_len, footnotes_len, targets_len, contents_len;
    uint32_t options, reserved, html_options, string_options;
    size_t limit;
    markdown_inline_document_options asked;
} drawn;

static const char *const PARTS[] = {"a", "bc", "\xc3\xa9", "\xe6\xbc\xa2", "\xf0\x9f\x98\x80", " ", "  ", "\t", "*", "**", "_", "~", "~~", "`", "``", "$", "$$", "[", "]",
    "![", "](", ")", "(", "<", ">", "\"", "'", "\\", "&", ";", "!", "#", "@", ":", ".", "/", "[x] ", "[a]", "[^a]", "[b c][]", "[d](e \"f\")", "![g](<h i>)", "&amp;",
    "&#65;", "&#x1f4a9;", "&copy;", "&ngE;", "&nosuch;", "<https://j.k>", "<l@m.n>", "https://o.p/q", "www.r.s", "t@u.v", "<w x=\"y\">", "</z>", "<!-- c -->", "<?p?>",
    "\\*", "\\\n", "  \n", "\n", "\n", "\r\n", "\r", "*a*", "**b**", "_c_ ", "~d~", "`e f`", "$g$", "word ", "[d](\\*e&amp;f 'g\\*h&lt;')",
    "[a][b\\*c]", "[d](e \"f\ng\")", "[d](e (f\r\n&amp;g))", "[a]", "[D]", "![a]", "[x][d]", "[a [d] c][B  c]", "[^a]", "[^d]", "b[^a]", "[^d][^A]", "[^a]*"};
static const char *const BROKEN[] = {"\x80", "\xc3", "\xc0\x80", "\xed\xa0\x80", "\xf4\x90\x80\x80", "\xf8", "\xe6\xbc", "\xf0\x9f\x98", "\xff"};
static const char *const PREFIXES[] = {"", "> ", ">", "   ", "- ", "\t", " \t", ">\t", "# ", "$$"};
static const char *const MATTERS[] = {"---\na: b\n---\n", "+++\r\n[a]: /b\r\n\r\n+++ \r\n", "\xef\xbb\xbf---\n---\n", "---\n", "---\na\n+++\n"};
static const char *const LABELS[] = {"a", "b c", "d", " A ", "\xc3\xa9", "/u", "javascript:x", "&<\">", ""};

static size_t append(uint8_t *bytes, size_t len, const char *text) {
    size_t more = strlen(text);
    if (len + more > BYTES) return len;
    memcpy(bytes + len, text, more);
    return len + more;
}

/* A number near others, or one that is far off. */
static size_t number_to(size_t most) { return one_in(5) ? SIZE_MAX - below(2) : below(most + 2); }

/* A document of lines, with pieces behind prefixes, of which one may begin within a tab; or one piece. Some begin with front matter, or with what is none. */
static void draw_document(drawn *it) {
    int has_prefixes = one_in(2);
    it->bytes_len = it->pieces_len = 0;
    if (one_in(30)) return;
    if (one_in(16)) it->bytes_len = append(it->bytes, 0, MATTERS[below(sizeof MATTERS / sizeof *MATTERS)]);
    for (size_t lines = 1 + below(4); lines > 0 && it->pieces_len < PIECES; lines--) {
        const char *prefix = has_prefixes ? PREFIXES[below(sizeof PREFIXES / sizeof *PREFIXES)] : "";
        markdown_inline_piece *piece = &it->pieces[it->pieces_len++];
        it->bytes_len = append(it->bytes, it->bytes_len, prefix);
        piece->start = it->bytes_len;
        piece->start_vs = piece->end_vs = 0;
        if (it->bytes_len > 0 && it->bytes[it->bytes_len - 1] == '\t' && one_in(2)) {
            piece->start--;
            piece->start_vs = below(4);
        }
        for (size_t parts = below(5); parts > 0; parts--) it->bytes_len = append(it->bytes, it->bytes_len, PARTS[below(sizeof PARTS / sizeof *PARTS)]);
        if (one_in(60)) it->bytes_len = append(it->bytes, it->bytes_len, BROKEN[below(sizeof BROKEN / sizeof *BROKEN)]);
        if (!one_in(8)) it->bytes_len = append(it->bytes, it->bytes_len, "a");
        if (lines > 1) it->bytes_len = append(it->bytes, it->bytes_len, one_in(3) ? "\r\n" : "\n");
        piece->end = it->bytes_len;
    }
    if (!has_prefixes) {
        it->pieces[0].start = it->pieces[0].start_vs = 0;
        it->pieces[0].end = it->bytes_len;
        it->pieces_len = 1;
    }
}

/* Pieces that are right, or that a number of is another, or any. */
static void draw_pieces(drawn *it) {
    if (!one_in(5)) return;
    if (one_in(3)) it->pieces_len = below(PIECES);
    for (size_t at = 0; at < it->pieces_len; at++) {
        markdown_inline_piece *piece = &it->pieces[at];
        if (it->pieces_len > 2 && !one_in(it->pieces_len)) continue;
        switch (below(5)) {
        case 0: piece->start = number_to(it->bytes_len); break;
        case 1: piece->end = number_to(it->bytes_len); break;
        case 2: piece->start_vs = number_to(4); break;
        case 3: piece->end_vs = number_to(4); break;
        default: *piece = (markdown_inline_piece){below(it->bytes_len + 1), 0, below(it->bytes_len + 1), below(3) / 2}; break;
        }
    }
}

/* A range of a text that is added to the labels, or one that may be off. */
static markdown_inline_range draw_range(drawn *it, int may_be_off) {
    markdown_inline_range range = {it->labels_len, 0};
    it->labels_len = append(it->labels, it->labels_len, LABELS[below(sizeof LABELS / sizeof *LABELS)]);
    range.end = it->labels_len;
    if (may_be_off && one_in(4)) range.start = number_to(it->labels_len);
    if (may_be_off && one_in(4)) range.end = number_to(it->labels_len);
    return range;
}

static void draw_definitions(drawn *it) {
    int may_be_off = one_in(8), may_lead_off = one_in(8);
    it->labels_len = 0;
    it->definitions_len = one_in(3) ? 0 : below(RANGES + 1);
    it->footnotes_len = one_in(3) ? 0 : below(RANGES + 1);
    it->targets_len = one_in(40) ? below(RANGES + 2) : it->definitions_len;
    for (size_t at = 0; at < it->definitions_len; at++) it->definitions[at] = draw_range(it, may_be_off);
    for (size_t at = 0; at < it->footnotes_len; at++) it->footnotes[at] = draw_range(it, may_be_off);
    for (size_t at = 0; at < it->targets_len; at++) {
        it->targets[at].destination = draw_range(it, may_lead_off);
        it->targets[at].has_title = one_in(2) ? 0 : one_in(2) ? 1 : (uint32_t)draw();
        it->targets[at].title = draw_range(it, may_lead_off);
        if (!it->targets[at].has_title && one_in(2)) it->targets[at].title = (markdown_inline_range){number_to(BYTES), number_to(BYTES)};
    }
    if (one_in(60)) it->labels_len = append(it->labels, it->labels_len, BROKEN[below(sizeof BROKEN / sizeof *BROKEN)]);
}

/* Contents of the pieces, mostly of those that are left. */
static void draw_contents(drawn *it) {
    size_t at = 0;
    it->contents_len = below(CONTENTS + 1);
    for (size_t number = 0; number < it->contents_len; number++) {
        markdown_inline_content *content = &it->contents[number];
        content->pieces.start = one_in(3) ? below(it->pieces_len + 1) : at;
        content->pieces.end = at = content->pieces.start + below(it->pieces_len - content->pieces.start + 1);
        content->first_of_item = one_in(2) ? 0 : one_in(2) ? 1 : (uint32_t)draw();
        if (one_in(30)) content->pieces.start = number_to(it->pieces_len);
        if (one_in(30)) content->pieces.end = number_to(it->pieces_len);
    }
}

/* Bits of HTML, few of which are unknown or say two line endings. */
static uint32_t draw_html_options(void) {
    uint32_t found = (uint32_t)below(4) | (one_in(4) ? MARKDOWN_INLINE_HTML_LF : 0) | (one_in(4) ? MARKDOWN_INLINE_HTML_CRLF : 0);
    return one_in(40) ? found | 4u << below(30) : found;
}

/* The options of a document: those of the case, most of them as they may be. */
static void draw_asked(drawn *it) {
    memset(&it->asked, 0, sizeof it->asked);
    it->asked.options = one_in(3) ? 0 : it->options & ~(uint32_t)(one_in(60) ? 0 : MARKDOWN_INLINE_OPTION_FIRST_OF_ITEM | MARKDOWN_INLINE_OPTION_GFM_LABEL_START_FOOTNOTE);
    it->asked.html = draw_html_options();
    it->asked.blocks = (uint32_t)below(4) | (one_in(40) ? 4u << below(30) : 0);
    if (one_in(60)) it->asked.reserved = (uint32_t)draw();
    if (one_in(60)) it->asked.reserved_words[below(13)] = one_in(2) ? 1 : (size_t)draw();
}

static void draw_case(drawn *it) {
    draw_document(it);
    draw_pieces(it);
    draw_definitions(it);
    draw_contents(it);
    it->options = (one_in(2) ? MARKDOWN_INLINE_COMMONMARK : MARKDOWN_INLINE_CRATE) | (one_in(2) ? MARKDOWN_INLINE_GFM : 0) | (one_in(2) ? MARKDOWN_INLINE_MATH : 0);
    if (one_in(3)) it->options ^= (uint32_t)draw() & 0x7fffff;
    if (one_in(40)) it->options |= 0x800000u << below(9);
    it->html_options = draw_html_options();
    it->limit = 0;
    draw_asked(it);
    it->reserved = one_in(60) ? (uint32_t)draw() : 0;
    for (size_t at = 0; at < it->targets_len; at++) it->targets[at].reserved = one_in(100) ? (uint32_t)draw() : 0;
    for (size_t at = 0; at < it->contents_len; at++) it->contents[at].reserved = one_in(100) ? (uint32_t)draw() : 0;
    it->string_options = (uint32_t)below(4);
    if (one_in(60)) it->string_options |= 4u << below(30);
    if (one_in(100)) it->bytes_len = (SIZE_MAX >> 3) + 1 + below(2) * (SIZE_MAX >> 1);
}

/* The model: what a status is by what is drawn. */

/* How many bytes at the front are UTF-8. */
static size_t utf8_len(const uint8_t *bytes, size_t len) {
    for (size_t at = 0, start = 0; at < len; start = at) {
        uint8_t first = bytes[at++];
        size_t more = first < 0x80 ? 0 : first >= 0xc2 && first < 0xe0 ? 1 : first >= 0xe0 && first < 0xf0 ? 2 : first >= 0xf0 && first < 0xf5 ? 3 : 9;
        if (more > len - at) return start;
        if (more > 0 && (bytes[at] < (first == 0xe0 ? 0xa0 : first == 0xf0 ? 0x90 : 0x80) || bytes[at] > (first == 0xed ? 0x9f : first == 0xf4 ? 0x8f : 0xbf))) return start;
        for (; more > 0; more--, at++)
            if ((bytes[at] & 0xc0) != 0x80) return start;
    }
    return len;
}

static int is_utf8(const uint8_t *bytes, size_t len) { return utf8_len(bytes, len) == len; }

/* A code is a byte, a line ending, or a column of a tab: its kind, and the places before and after it. */
typedef struct place {
    size_t index, vs;
} place;
typedef struct code {
    char kind;
    place start, stop;
} code;

static code codes[CODES];
static size_t codes_len;

static void find_codes(const uint8_t *bytes, size_t len) {
    size_t column = 0;
    codes_len = 0;
    for (size_t at = 0; at < len; at++) {
        code *it = &codes[codes_len++];
        *it = (code){'x', {at, 0}, {at + 1, 0}};
        if (bytes[at] == '\r' && at + 1 < len && bytes[at + 1] == '\n') it->stop.index = ++at + 1;
        if (bytes[at] == '\n' || bytes[at] == '\r') it->kind = 'n';
        if (bytes[at] == ' ' || bytes[at] == '\t') it->kind = ' ';
        column = it->kind == 'n' ? 0 : column + 1;
        for (size_t inside = 1; bytes[at] == '\t' && column % 4 != 0; inside++, column++) {
            codes[codes_len - 1].stop = (place){at, inside};
            codes[codes_len++] = (code){' ', {at, inside}, {at + 1, 0}};
        }
    }
}

static int is_before(place one, place other) { return one.index < other.index || (one.index == other.index && one.vs < other.vs); }

static int is_place(const drawn *it, place at) {
    int found = at.index == 0 && at.vs == 0;
    for (size_t number = 0; number < codes_len; number++) found |= codes[number].stop.index == at.index && codes[number].stop.vs == at.vs;
    return found && (at.index == it->bytes_len || (it->bytes[at.index] & 0xc0) != 0x80);
}

/* How many line endings stand between two places, and whether one is last. */
static size_t line_endings(place low, place high, int *is_last) {
    size_t found = 0;
    *is_last = 0;
    for (size_t number = 0; number < codes_len; number++)
        if (!is_before(codes[number].start, low) && is_before(codes[number].start, high)) {
            *is_last = codes[number].kind == 'n';
            found += codes[number].kind == 'n';
        }
    return found;
}

static int is_content(const drawn *it, const markdown_inline_piece *pieces, size_t len) {
    for (size_t at = 0; at < len; at++) {
        place start = {pieces[at].start, pieces[at].start_vs}, end = {pieces[at].end, pieces[at].end_vs};
        int is_last;
        if (!is_place(it, start) || !is_place(it, end) || is_before(end, start)) return 0;
        if (at + 1 == len) continue;
        place next = {pieces[at + 1].start, pieces[at + 1].start_vs};
        line_endings(start, end, &is_last);
        if (!is_last || is_before(next, end) || line_endings(end, next, &is_last) > 0) return 0;
    }
    return 1;
}

/* Whether each line of a content has something that is not blank. */
static int is_text(const markdown_inline_piece *pieces, size_t len) {
    int is_filled = 0, has_codes = 0;
    for (size_t at = 0; at < len; at++) {
        place start = {pieces[at].start, pieces[at].start_vs}, end = {pieces[at].end, pieces[at].end_vs};
        for (size_t number = 0; number < codes_len; number++) {
            if (is_before(codes[number].start, start) || !is_before(codes[number].start, end)) continue;
            has_codes = 1;
            if (codes[number].kind == 'n' && !is_filled) return 0;
            is_filled = codes[number].kind == 'x' || (codes[number].kind == ' ' && is_filled);
        }
    }
    return is_filled || !has_codes;
}

static int is_label(const drawn *it, markdown_inline_range range) {
    return range.start <= range.end && range.end <= it->labels_len && is_utf8(it->labels + range.start, range.end - range.start);
}

static int are_labels(const drawn *it) {
    for (size_t at = 0; at < it->definitions_len; at++)
        if (!is_label(it, it->definitions[at])) return 0;
    for (size_t at = 0; at < it->footnotes_len; at++)
        if (!is_label(it, it->footnotes[at])) return 0;
    return 1;
}

static uint32_t document_status(const drawn *it) {
    if (it->bytes_len > SIZE_MAX >> 3) return MARKDOWN_INLINE_TOO_LONG;
    if (!is_utf8(it->bytes, it->bytes_len)) return MARKDOWN_INLINE_NOT_UTF8;
    find_codes(it->bytes, it->bytes_len);
    return MARKDOWN_INLINE_DONE;
}

static uint32_t content_status(const drawn *it) {
    uint32_t status = document_status(it);
    return status != MARKDOWN_INLINE_DONE ? status : is_content(it, it->pieces, it->pieces_len) ? (uint32_t)MARKDOWN_INLINE_DONE : (uint32_t)MARKDOWN_INLINE_NO_CONTENT;
}

static uint32_t pieces_status(const drawn *it) {
    uint32_t status = content_status(it);
    return status != MARKDOWN_INLINE_DONE ? status : is_text(it->pieces, it->pieces_len) ? (uint32_t)MARKDOWN_INLINE_DONE : (uint32_t)MARKDOWN_INLINE_BLANK_LINE;
}

static int are_options(const drawn *it) { return it->options < 0x800000 && it->reserved == 0; }

static int are_texts_options(const drawn *it) {
    for (size_t at = 0; at < it->contents_len; at++)
        if (it->contents[at].reserved) return 0;
    return are_options(it);
}

static int is_html_option(uint32_t options) {
    const uint32_t two = MARKDOWN_INLINE_HTML_LF | MARKDOWN_INLINE_HTML_CRLF;
    return !(options & ~(MARKDOWN_INLINE_HTML_RAW | MARKDOWN_INLINE_HTML_ANY_LINK | two)) && (options & two) != two;
}

static int are_html_options(const drawn *it) {
    for (size_t at = 0; at < it->targets_len; at++)
        if (it->targets[at].reserved) return 0;
    return is_html_option(it->html_options);
}

static int are_known_blocks(uint32_t blocks) { return !(blocks & ~(uint32_t)(MARKDOWN_INLINE_BLOCKS_MATH | MARKDOWN_INLINE_BLOCKS_FRONT_MATTER)); }

/* The status of a call for the blocks or the definitions of a document. */
static uint32_t blocks_status(const drawn *it) { return are_known_blocks(it->asked.blocks) ? document_status(it) : (uint32_t)MARKDOWN_INLINE_UNKNOWN_OPTION; }

static int are_asked(const markdown_inline_document_options *asked) {
    for (size_t at = 0; at < 13; at++)
        if (asked->reserved_words[at]) return 0;
    return !asked->reserved && are_known_blocks(asked->blocks) && is_html_option(asked->html) && asked->options < 0x800000
        && !(asked->options & (MARKDOWN_INLINE_OPTION_FIRST_OF_ITEM | MARKDOWN_INLINE_OPTION_GFM_LABEL_START_FOOTNOTE));
}

static uint32_t string_status(const drawn *it) { return are_options(it) ? content_status(it) : (uint32_t)MARKDOWN_INLINE_UNKNOWN_OPTION; }

static uint32_t text_status(const drawn *it) {
    uint32_t status = are_options(it) ? pieces_status(it) : (uint32_t)MARKDOWN_INLINE_UNKNOWN_OPTION;
    return status != MARKDOWN_INLINE_DONE ? status : are_labels(it) ? (uint32_t)MARKDOWN_INLINE_DONE : (uint32_t)MARKDOWN_INLINE_DEFINITION;
}

/* Of the last status of a model for many: what is to blame, and how many of the first are read. */
static size_t model_blames, model_reads;

/* The first of some ranges that is no label, or how many there are. */
static size_t first_no_label(const drawn *it, const markdown_inline_range *ranges, size_t len) {
    size_t at = 0;
    while (at < len && is_label(it, ranges[at])) at++;
    return at;
}

static int is_target(const drawn *it, markdown_inline_target target) {
    return is_label(it, target.destination) && (!target.has_title || is_label(it, target.title));
}

/* The status of a document and its labels, of which this says whether the options are known. */
static uint32_t labels_status(const drawn *it, int is_known) {
    uint32_t status = is_known ? document_status(it) : (uint32_t)MARKDOWN_INLINE_UNKNOWN_OPTION;
    model_blames = status == MARKDOWN_INLINE_NOT_UTF8 ? utf8_len(it->bytes, it->bytes_len) : MARKDOWN_INLINE_NONE;
    model_reads = 0;
    if (status != MARKDOWN_INLINE_DONE || are_labels(it)) return status;
    size_t at = first_no_label(it, it->definitions, it->definitions_len);
    model_blames = at < it->definitions_len ? at : at + first_no_label(it, it->footnotes, it->footnotes_len);
    return MARKDOWN_INLINE_DEFINITION;
}

/* The status of one content after another. */
static uint32_t contents_status(const drawn *it) {
    for (; model_reads < it->contents_len; model_reads++) {
        markdown_inline_range range = it->contents[model_reads].pieces;
        int is_none = range.start > range.end || range.end > it->pieces_len || !is_content(it, it->pieces + range.start, range.end - range.start);
        if (!is_none && is_text(it->pieces + range.start, range.end - range.start)) continue;
        model_blames = model_reads;
        return is_none ? MARKDOWN_INLINE_NO_CONTENT : MARKDOWN_INLINE_BLANK_LINE;
    }
    return MARKDOWN_INLINE_DONE;
}

static uint32_t texts_status(const drawn *it) {
    uint32_t status = labels_status(it, are_texts_options(it));
    return status != MARKDOWN_INLINE_DONE ? status : contents_status(it);
}

/* The status of many contents as HTML where there is no limit. */
static uint32_t htmls_status(const drawn *it) {
    size_t at = 0;
    uint32_t status = labels_status(it, are_texts_options(it) && are_html_options(it));
    if (status != MARKDOWN_INLINE_DONE) return status;
    if (it->targets_len != it->definitions_len) return MARKDOWN_INLINE_DEFINITION;
    while (at < it->targets_len && is_target(it, it->targets[at])) at++;
    if (at == it->targets_len) return contents_status(it);
    model_blames = at;
    return MARKDOWN_INLINE_DEFINITION;
}

static uint32_t html_status(const drawn *it) {
    uint32_t status = are_html_options(it) ? text_status(it) : (uint32_t)MARKDOWN_INLINE_UNKNOWN_OPTION;
    if (status != MARKDOWN_INLINE_DONE) return status;
    if (it->targets_len != it->definitions_len) return MARKDOWN_INLINE_DEFINITION;
    for (size_t at = 0; at < it->targets_len; at++)
        if (!is_label(it, it->targets[at].destination) || (it->targets[at].has_title && !is_label(it, it->targets[at].title))) return MARKDOWN_INLINE_DEFINITION;
    return MARKDOWN_INLINE_DONE;
}

/* The calls. Each is made without room, with just enough, and with another room. */

typedef enum which { IS_CONTENT, IS_TEXT, STRING, TEXT, LEAVES, HTML, HTML_OF, DOCUMENT_HTML, IDENTIFIER, REFERENCE, TEXTS, SHORT_TEXTS, HTMLS, STRINGS, PIECES_OF_LINES, BLOCKS, DEFINITIONS } which;
static const char *const NAMES[] = {"is_content", "is_text", "string", "text", "leaves", "html", "html_of", "document_html", "identifier", "reference", "texts", "short_texts", "htmls", "strings", "pieces_of_lines", "blocks", "definitions"};

/* What a call finds. */
typedef union answer {
    uint8_t bytes[sizeof filled];
    markdown_inline_event events[sizeof filled / sizeof(markdown_inline_event)];
    markdown_inline_short_event short_events[sizeof filled / sizeof(markdown_inline_short_event)];
    markdown_inline_leaf leaves[sizeof filled / sizeof(markdown_inline_leaf)];
} answer;

/* What is lent of a case, the number of ends that a call may write, and what it found last. */
static markdown_inline_input *input;
static const markdown_inline_content *contents;
static const markdown_inline_target *targets;
static const markdown_inline_document_options *asked;
static size_t ends_len, found_len;
static size_t *ends, *count;
static markdown_inline_outcome *outcome;
static answer found;
static size_t found_ends[CONTENTS];

/* The strings of a case: ranges of its labels, and ranges of these. */
enum { PARTS_MOST = 6 };
static const markdown_inline_range *parts, *strings;
static size_t parts_len;

static void lend_case(const drawn *it) {
    int is_long = it->bytes_len > BYTES;
    markdown_inline_input whole = {NULL, it->bytes_len, NULL, it->pieces_len, NULL, it->labels_len, NULL, it->definitions_len, NULL, it->footnotes_len, it->options, it->reserved};
    whole.bytes = (const uint8_t *)lend(&of_bytes, it->bytes, is_long ? 0 : it->bytes_len, 1);
    whole.pieces = (const markdown_inline_piece *)lend(&of_pieces, it->pieces, it->pieces_len, sizeof *it->pieces);
    whole.labels = (const uint8_t *)lend(&of_labels, it->labels, it->labels_len, 1);
    whole.definitions = (const markdown_inline_range *)lend(&of_definitions, it->definitions, it->definitions_len, sizeof *it->definitions);
    whole.footnotes = (const markdown_inline_range *)lend(&of_footnotes, it->footnotes, it->footnotes_len, sizeof *it->footnotes);
    contents = (const markdown_inline_content *)lend(&of_contents, it->contents, it->contents_len, sizeof *it->contents);
    targets = (const markdown_inline_target *)lend(&of_targets, it->targets, it->targets_len, sizeof *it->targets);
    asked = (const markdown_inline_document_options *)lend(&of_asked, &it->asked, 1, sizeof it->asked);
    input = (markdown_inline_input *)(uintptr_t)lend(&of_input, &whole, 1, sizeof whole);
}

static int is_for_many(which call) { return call >= TEXTS; }

static int has_outcome(which call) { return is_for_many(call) || call == DOCUMENT_HTML; }

static size_t size_of(which call) {
    switch (call) {
    case STRING:
    case TEXT:
    case TEXTS: return sizeof(markdown_inline_event);
    case SHORT_TEXTS: return sizeof(markdown_inline_short_event);
    case LEAVES: return sizeof(markdown_inline_leaf);
    default: return 1;
    }
}

/* Makes a call with this array. */
static uint32_t made(which call, const drawn *it, void *array, size_t len) {
    calls++;
    functions[call]++;
    switch (call) {
    case IS_CONTENT: return markdown_inline_is_content(input->bytes, input->bytes_len, input->pieces, input->pieces_len);
    case IS_TEXT: return markdown_inline_is_text(input->bytes, input->bytes_len, input->pieces, input->pieces_len);
    case STRING: return markdown_inline_string(input, (markdown_inline_event *)array, len, count);
    case TEXT: return markdown_inline_text(input, (markdown_inline_event *)array, len, count);
    case LEAVES: return markdown_inline_leaves(input, (markdown_inline_leaf *)array, len, count);
    case HTML: return markdown_inline_html(input, targets, it->targets_len, it->html_options, it->limit, (uint8_t *)array, len, count);
    case HTML_OF: return markdown_inline_html_of(input->bytes, input->bytes_len, input->options, it->html_options, (uint8_t *)array, len, count);
    case DOCUMENT_HTML: return markdown_inline_document_html(input->bytes, input->bytes_len, asked, (uint8_t *)array, len, outcome);
    case IDENTIFIER: return markdown_inline_identifier(input->labels, input->labels_len, (uint8_t *)array, len, count);
    case REFERENCE: return markdown_inline_reference(input->options, input->labels, input->labels_len, (uint8_t *)array, len, count);
    case TEXTS: return markdown_inline_texts(input, contents, it->contents_len, (markdown_inline_event *)array, len, ends, ends_len, outcome);
    case SHORT_TEXTS: return markdown_inline_short_texts(input, contents, it->contents_len, (markdown_inline_short_event *)array, len, ends, ends_len, outcome);
    case HTMLS:
        return markdown_inline_htmls(input, targets, it->targets_len, contents, it->contents_len, it->html_options, it->limit, (uint8_t *)array, len, ends, ends_len, outcome);
    default: return markdown_inline_strings(input->options, it->string_options, input->labels, input->labels_len, parts, parts_len, strings, it->contents_len, (uint8_t *)array, len, ends, ends_len, outcome);
    }
}

/* How often a document has been told to have a wrong byte behind its first one. */
static size_t document_blames;

/* Makes a call with room for so many elements and so many ends, and looks at what it has written. Answers its status. */
static uint32_t called(which call, const drawn *it, size_t room, size_t room_of_ends) {
    size_t each = size_of(call), before = (size_t)draw();
    void *array = lend_room(&of_found, room, each);
    ends_len = room_of_ends;
    ends = (size_t *)lend_room(&of_ends, room_of_ends, sizeof *ends);
    count = (size_t *)lend_room(&of_count, 1, sizeof *count);
    outcome = (markdown_inline_outcome *)lend_room(&of_outcome, 1, sizeof *outcome);
    *count = outcome->done = outcome->count = outcome->blamed = before;
    uint32_t status = made(call, it, array, room);
    int is_done = status == MARKDOWN_INLINE_DONE && call >= STRING, is_counted = is_done || (status == MARKDOWN_INLINE_TOO_SMALL && call >= STRING);
    size_t written = is_done ? *count : 0, written_ends = 0;
    counts[status < 16 ? status : 15]++;
    if (is_for_many(call)) {
        written_ends = outcome->done;
        written = written_ends > 0 && written_ends <= room_of_ends ? ends[written_ends - 1] : 0;
        want("no count is written by a call for many", *count == before);
    } else if (has_outcome(call)) {
        written = is_done ? outcome->count : 0;
        want("no count is written beside an outcome", *count == before);
        want("a document is done where it is written", outcome->done == (size_t)is_done && (is_counted || outcome->count == 0));
        want("what the model blames", outcome->blamed == (status == MARKDOWN_INLINE_NOT_UTF8 ? utf8_len(it->bytes, it->bytes_len) : MARKDOWN_INLINE_NONE));
        document_blames += status == MARKDOWN_INLINE_NOT_UTF8 && outcome->blamed > 0;
    } else {
        want("no outcome of one", outcome->done == before && outcome->count == before && outcome->blamed == before);
        want("no count is written where there is none", is_counted || *count == before);
    }
    want("no more than there is room for", written <= room && written_ends <= room_of_ends);
    if (written > room || written_ends > room_of_ends) return status;
    want("nothing is written but what is counted", is_filled_but(&of_found, array, written * each) && is_filled_but(&of_ends, ends, written_ends * sizeof *ends)
            && is_filled_but(&of_count, count, sizeof *count) && is_filled_but(&of_outcome, outcome, sizeof *outcome));
    found_len = has_outcome(call) ? outcome->count : is_counted ? *count : 0;
    if (written) memcpy(found.bytes, array, written * each);
    if (written_ends) memcpy(found_ends, ends, written_ends * sizeof *ends);
    return status;
}

/* How often each call for many has told what is to blame, by status, and how often a number other than the first. */
static size_t blames[STRINGS + 1][16], later_blames[STRINGS + 1][16];

/* Whether a call for many tells what is to blame where it ends with this status. */
static int tells_blame(which call, uint32_t status) {
    switch (status) {
    case MARKDOWN_INLINE_NOT_UTF8:
    case MARKDOWN_INLINE_BLANK_LINE:
    case MARKDOWN_INLINE_NO_CONTENT:
    case MARKDOWN_INLINE_DEFINITION: return call == TEXTS || call == SHORT_TEXTS || call == HTMLS;
    case MARKDOWN_INLINE_REFERENCES: return call == HTMLS;
    case MARKDOWN_INLINE_NO_STRING: return call == STRINGS;
    default: return 0;
    }
}

/* Each call for many has told often what is to blame, by each status that does, and by no other. */
static void look_at_blames(void) {
    for (which call = TEXTS; call <= STRINGS; call++)
        for (uint32_t status = 0; status < 16; status++) {
            int is_told = tells_blame(call, status);
            call_name = NAMES[call];
            want("what is to blame is told often, and by no other status", is_told ? blames[call][status] >= FLOOR : blames[call][status] == 0);
            want("what is to blame is often not the first", !is_told || later_blames[call][status] >= FLOOR);
        }
}

/* Makes a call in each way, and compares what they answer. Answers whether it is done; then what it found stands in `found`. */
static int is_done(which call, const drawn *it, uint32_t wanted) {
    static answer first;
    size_t each = size_of(call);
    call_name = NAMES[call];
    uint32_t status = called(call, it, 0, 0);
    size_t needed = found_len;
    if (wanted != MARKDOWN_INLINE_DONE) {
        want("the status of the model", status == wanted);
        want("the status of the model, with room", called(call, it, below(64), 0) == wanted);
        return 0;
    }
    want("the status without room", status == (needed > 0 ? (uint32_t)MARKDOWN_INLINE_TOO_SMALL : (uint32_t)MARKDOWN_INLINE_DONE));
    if (needed * each > sizeof found || call < STRING) return status == MARKDOWN_INLINE_DONE;
    if (needed > 0) want("too little room", called(call, it, one_in(2) ? needed - 1 : below(needed), 0) == MARKDOWN_INLINE_TOO_SMALL && found_len == needed);
    want("enough room", called(call, it, needed, 0) == MARKDOWN_INLINE_DONE && found_len == needed);
    memcpy(first.bytes, found.bytes, needed * each);
    want("more room", called(call, it, needed + below(4), 0) == MARKDOWN_INLINE_DONE && found_len == needed);
    want("the same again", !memcmp(first.bytes, found.bytes, needed * each));
    return 1;
}

/* The same of a call for many, which reads so many of the first and then ends with this status: each call writes as many of these as have room. */
static int are_done(which call, const drawn *it, uint32_t wanted, size_t read) {
    static answer first;
    size_t each = size_of(call), many = it->contents_len, all_ends[CONTENTS];
    call_name = NAMES[call];
    uint32_t status = called(call, it, sizeof found / each, many);
    if (status == MARKDOWN_INLINE_TOO_SMALL) return 0; /* The room that is drawn does not do. */
    want("the status of the model", status == wanted);
    want("as many are read as in the model", outcome->done == read && outcome->count == (read > 0 ? found_ends[read - 1] : 0));
    want("what the model blames", outcome->blamed == model_blames);
    blames[call][status] += outcome->blamed != MARKDOWN_INLINE_NONE;
    later_blames[call][status] += outcome->blamed != MARKDOWN_INLINE_NONE && outcome->blamed > 0;
    if (faults > 0) return 0;
    size_t needed = outcome->count;
    memcpy(first.bytes, found.bytes, needed * each);
    memcpy(all_ends, found_ends, read * sizeof *all_ends);
    for (int turn = 0; turn < 4; turn++) {
        size_t room = turn == 0 ? 0 : turn == 1 ? needed : turn == 2 && needed > 0 ? needed - 1 : below(needed + 4), room_of_ends = one_in(3) ? below(many + 1) : many + below(3), done = 0;
        if (room * each > sizeof found) room = needed;
        while (done < read && done < room_of_ends && all_ends[done] <= room) done++;
        status = called(call, it, room, room_of_ends);
        want("the status by the room", status == (wanted != MARKDOWN_INLINE_DONE ? wanted : done < many ? (uint32_t)MARKDOWN_INLINE_TOO_SMALL : (uint32_t)MARKDOWN_INLINE_DONE));
        want("as many as have room", outcome->done == done && outcome->count == needed && outcome->blamed == model_blames);
        if (faults > 0) return 0;
        want("the same again", !memcmp(first.bytes, found.bytes, (done > 0 ? all_ends[done - 1] : 0) * each) && !memcmp(all_ends, found_ends, done * sizeof *all_ends));
    }
    memcpy(found.bytes, first.bytes, needed * each);
    memcpy(found_ends, all_ends, read * sizeof *all_ends);
    found_len = needed;
    return wanted == MARKDOWN_INLINE_DONE;
}

/* How the answers fit together. */

/* The events of a tree: what begins ends in order, places go forward, and chains lead forth and back. */
static void look_at_events(const markdown_inline_event *events, size_t len) {
    uint8_t open[sizeof found / sizeof *events];
    size_t depth = 0;
    for (size_t at = 0; at < len; at++) {
        const markdown_inline_event *it = &events[at];
        want("a known name and kind", it->name < MARKDOWN_INLINE_NAME_COUNT && it->kind <= MARKDOWN_INLINE_EXIT && it->link <= MARKDOWN_INLINE_LINKED_TEXT);
        if (it->kind == MARKDOWN_INLINE_ENTER)
            open[depth++] = it->name;
        else
            want("what ends has begun", depth > 0 && open[--depth] == it->name);
        if (at > 0) want("places go forward", !is_before((place){it->index, it->vs}, (place){events[at - 1].index, events[at - 1].vs}));
        if (it->link == MARKDOWN_INLINE_UNLINKED) want("no chain", it->next == MARKDOWN_INLINE_NONE && it->previous == MARKDOWN_INLINE_NONE);
        if (it->next != MARKDOWN_INLINE_NONE) want("a chain leads forth", it->next < len && it->next > at && events[it->next].previous == at);
        if (it->previous != MARKDOWN_INLINE_NONE) want("a chain leads back", it->previous < at && events[it->previous].next == at);
    }
    want("all has ended", depth == 0);
}

/* The leaves are the events that end at once. */
static void look_at_leaves(const markdown_inline_event *events, size_t len, const markdown_inline_leaf *leaves, size_t leaves_len) {
    size_t number = 0;
    for (size_t at = 0; at + 1 < len; at++) {
        if (events[at].kind != MARKDOWN_INLINE_ENTER || events[at + 1].kind != MARKDOWN_INLINE_EXIT) continue;
        if (number == leaves_len) break;
        const markdown_inline_leaf *it = &leaves[number++];
        want("a leaf is an event", it->name == events[at].name && it->start == events[at].index && it->start_vs == events[at].vs && it->start_line == events[at].line
                && it->start_column == events[at].column && it->end == events[at + 1].index && it->end_vs == events[at + 1].vs && it->end_line == events[at + 1].line
                && it->end_column == events[at + 1].column);
        want("the bytes of a leaf stand between its ends", it->bytes_len <= it->end + (it->end_vs > 0) - it->start && it->before < 4 && it->after < 4);
    }
    want("each leaf is an event that ends at once", number == leaves_len);
}

/* A content of a case by itself. */
static drawn alone_of(const drawn *all, size_t at) {
    drawn alone = *all;
    memcpy(alone.pieces, all->pieces + all->contents[at].pieces.start, (PIECES - all->contents[at].pieces.start) * sizeof *alone.pieces);
    alone.pieces_len = all->contents[at].pieces.end - all->contents[at].pieces.start;
    alone.options = (all->options & ~(uint32_t)MARKDOWN_INLINE_OPTION_FIRST_OF_ITEM) | (all->contents[at].first_of_item ? (uint32_t)MARKDOWN_INLINE_OPTION_FIRST_OF_ITEM : 0);
    return alone;
}

/* Each of many contents has the events of its own. */
static void look_at_texts(const drawn *all) {
    static answer many;
    size_t starts[CONTENTS + 1] = {0}, len = all->contents_len;
    many = found;
    memcpy(starts + 1, found_ends, len * sizeof *starts);
    for (size_t at = 0; at < len; at++) {
        drawn alone = alone_of(all, at);
        lend_case(&alone);
        want("one of many is a text", called(TEXT, &alone, sizeof found / sizeof(markdown_inline_event), 0) == MARKDOWN_INLINE_DONE);
        want("ends are in order", starts[at + 1] >= starts[at] && starts[at + 1] - starts[at] == found_len);
        for (size_t event = 0; event < found_len && starts[at] + event < starts[at + 1]; event++) {
            const markdown_inline_event *it = found.events + event, *other = many.events + starts[at] + event;
            want("what an event of one of many is", it->kind == other->kind && it->name == other->name && it->link == other->link);
            want("where an event of one of many is", it->index == other->index && it->vs == other->vs && it->line == other->line && it->column == other->column);
            want("the chain of an event of one of many", it->previous == other->previous && it->next == other->next);
        }
    }
}

static int is_named(const drawn *it, markdown_inline_range range, const uint8_t *name, size_t len) {
    uint8_t other[4 * BYTES];
    size_t other_len = 0;
    uint32_t status = markdown_inline_identifier(it->labels + range.start, range.end - range.start, other, sizeof other, &other_len);
    return status == MARKDOWN_INLINE_DONE && other_len == len && !memcmp(other, name, len);
}

/* Copies a label of the document: by CommonMark what its pieces have, and by the crate's rules also what stands between these. */
static size_t label_of(const drawn *it, size_t start, size_t end, uint8_t *label) {
    const int is_by_pieces = (it->options & MARKDOWN_INLINE_OPTION_STANDARD_RULES) != 0;
    size_t len = 0, piece = 0;
    for (size_t at = start; at < end; at++) {
        while (piece < it->pieces_len && it->pieces[piece].end <= at) piece++;
        if (!is_by_pieces || (piece < it->pieces_len && it->pieces[piece].start <= at)) label[len++] = it->bytes[at];
    }
    return len;
}

/* The number of the first of these labels that a label in the document names, or how many there are. */
static size_t named_by(const drawn *it, size_t start, size_t end, const markdown_inline_range *ranges, size_t ranges_len) {
    uint8_t label[BYTES], name[4 * BYTES];
    size_t label_len = label_of(it, start, end, label), len = 0, at = 0;
    if (markdown_inline_identifier(label, label_len, name, sizeof name, &len) != MARKDOWN_INLINE_DONE) return ranges_len;
    while (at < ranges_len && !is_named(it, ranges[at], name, len)) at++;
    return at;
}

/* Which definition or footnote something refers to that begins at this event: by its reference, or else by its label, but where it has a resource. */
static uint32_t referred(const drawn *it, const markdown_inline_event *events, size_t at) {
    uint8_t name = events[at].name;
    int is_call = name == MARKDOWN_INLINE_NAME_GFM_FOOTNOTE_CALL;
    if (events[at].kind != MARKDOWN_INLINE_ENTER || (!is_call && name != MARKDOWN_INLINE_NAME_LINK && name != MARKDOWN_INLINE_NAME_IMAGE)) return MARKDOWN_INLINE_NO_DEFINITION;
    size_t depth = 1, own = 1, start = 0, end = 0, many = is_call ? it->footnotes_len : it->definitions_len;
    for (size_t inside = at + 1; depth > 0; inside++) {
        const markdown_inline_event *event = &events[inside];
        int is_enter = event->kind == MARKDOWN_INLINE_ENTER;
        if (!is_enter) depth--;
        /* A resource stands right in the link; the text of a label and that of a reference stand one level further in. */
        if (depth == 1 && event->name == MARKDOWN_INLINE_NAME_RESOURCE) own = 0;
        if (depth == 2 && (event->name == MARKDOWN_INLINE_NAME_LABEL_TEXT || event->name == MARKDOWN_INLINE_NAME_REFERENCE_STRING))
            *(is_enter ? &start : &end) = event->index;
        if (is_enter) depth++;
    }
    size_t found_at = own ? named_by(it, start, end, is_call ? it->footnotes : it->definitions, many) : many;
    want("a reference has a definition", !own || found_at < many);
    return found_at < many ? (uint32_t)found_at : MARKDOWN_INLINE_NO_DEFINITION;
}

/* How many bytes definitions bring to the text of these events. */
static size_t brought_to(const drawn *it, const markdown_inline_event *events, size_t len) {
    size_t brought = 0;
    for (size_t at = 0; at < len; at++) {
        uint32_t number = events[at].name == MARKDOWN_INLINE_NAME_GFM_FOOTNOTE_CALL ? MARKDOWN_INLINE_NO_DEFINITION : referred(it, events, at);
        if (number == MARKDOWN_INLINE_NO_DEFINITION) continue;
        const markdown_inline_target *target = &it->targets[number];
        brought += target->destination.end - target->destination.start + (target->has_title ? target->title.end - target->title.start : 0);
    }
    return brought;
}

/* The code point of UTF-8 that is one character. */
static uint32_t only_character(const uint8_t *text, size_t len) {
    uint32_t found = len == 1 ? text[0] : text[0] & (0x7fu >> len);
    for (size_t at = 1; at < len; at++) {
        if ((text[at] & 0xc0) != 0x80) return MARKDOWN_INLINE_NO_DEFINITION;
        found = found << 6 | (text[at] & 0x3f);
    }
    return found;
}

/* The code point that the reference stands for which begins at this event, by its text. */
static uint32_t stood_for(const drawn *it, const markdown_inline_event *events, size_t at) {
    uint8_t text[16];
    size_t stop = at + 1, len = 0;
    while (events[stop].name != MARKDOWN_INLINE_NAME_CHARACTER_REFERENCE) stop++;
    uint32_t status = markdown_inline_reference(it->options, it->bytes + events[at].index, events[stop].index - events[at].index, text, sizeof text, &len);
    want("a reference has a text", status == MARKDOWN_INLINE_DONE && len > 0);
    /* The first byte tells how many its character has. */
    size_t own = text[0] < 0x80 ? 1 : text[0] < 0xe0 ? 2 : text[0] < 0xf0 ? 3 : 4;
    return own == len ? only_character(text, len) : (uint32_t)MARKDOWN_INLINE_NO_DEFINITION;
}

/* What a short event of this event tells. */
static uint32_t told(const drawn *it, const markdown_inline_event *events, size_t at) {
    int is_reference = events[at].kind == MARKDOWN_INLINE_ENTER && events[at].name == MARKDOWN_INLINE_NAME_CHARACTER_REFERENCE;
    return is_reference ? stood_for(it, events, at) : referred(it, events, at);
}

/* Each short event is an event of a text, with the definition that is referred to, or the character that is stood for. */
static size_t met_definitions, met_footnotes, met_characters, met_pairs;
static void look_at_short_texts(const drawn *all) {
    static answer many;
    size_t starts[CONTENTS + 1] = {0}, len = all->contents_len;
    many = found;
    memcpy(starts + 1, found_ends, len * sizeof *starts);
    for (size_t at = 0; at < len; at++) {
        drawn alone = alone_of(all, at);
        lend_case(&alone);
        want("one of many is a text", called(TEXT, &alone, sizeof found / sizeof(markdown_inline_event), 0) == MARKDOWN_INLINE_DONE);
        want("ends are in order", starts[at + 1] >= starts[at] && starts[at + 1] - starts[at] == found_len);
        for (size_t event = 0; event < found_len && starts[at] + event < starts[at + 1]; event++) {
            const markdown_inline_event *it = found.events + event;
            const markdown_inline_short_event *other = many.short_events + starts[at] + event;
            want("a short event is an event", it->kind == other->kind && it->name == other->name && it->link == other->link && it->vs == other->vs && it->index == other->index);
            want("which definition is referred to, or which character is stood for", other->definition == told(&alone, found.events, event));
            int is_told = other->definition != MARKDOWN_INLINE_NO_DEFINITION, is_enter = it->kind == MARKDOWN_INLINE_ENTER;
            if (it->name == MARKDOWN_INLINE_NAME_CHARACTER_REFERENCE) met_characters += is_told, met_pairs += is_enter && !is_told;
            else if (is_told) (it->name == MARKDOWN_INLINE_NAME_GFM_FOOTNOTE_CALL ? met_footnotes++ : met_definitions++);
        }
    }
}

/* A limit holds of what definitions bring to one text: so many bytes. */
static void look_at_limit(const drawn *alone, size_t brought) {
    drawn limited = *alone;
    limited.limit = brought;
    lend_case(&limited);
    if (brought > 0) want("as much as the limit of one", called(HTML, &limited, sizeof found, 0) == MARKDOWN_INLINE_DONE);
    if (brought < 2) return;
    limited.limit = 1 + below(brought - 1);
    lend_case(&limited);
    want("more than the limit of one", called(HTML, &limited, sizeof found, 0) == MARKDOWN_INLINE_REFERENCES);
}

/* Each of many contents has the HTML of its own where no footnote is called; and a limit holds of what definitions bring to all. */
static void look_at_htmls(const drawn *all) {
    static answer many;
    size_t starts[CONTENTS + 1] = {0}, brought[CONTENTS + 1] = {0}, len = all->contents_len;
    many = found;
    memcpy(starts + 1, found_ends, len * sizeof *starts);
    for (size_t at = 0; at < len; at++) {
        drawn alone = alone_of(all, at);
        size_t part = starts[at + 1] - starts[at];
        lend_case(&alone);
        want("one of many is a text", called(TEXT, &alone, sizeof found / sizeof(markdown_inline_event), 0) == MARKDOWN_INLINE_DONE);
        brought[at + 1] = brought[at] + brought_to(&alone, found.events, found_len);
        want("one of many is HTML", called(HTML, &alone, sizeof found, 0) == MARKDOWN_INLINE_DONE && starts[at + 1] >= starts[at]);
        if (all->footnotes_len == 0) want("the HTML of one of many", found_len == part && !memcmp(found.bytes, many.bytes + starts[at], part));
        look_at_limit(&alone, brought[at + 1] - brought[at]);
    }
    drawn limited = *all;
    limited.limit = brought[len];
    lend_case(&limited);
    if (brought[len] > 0) want("as much as the limit", called(HTMLS, &limited, sizeof found, len) == MARKDOWN_INLINE_DONE);
    if (brought[len] < 2) return;
    /* Few cases have references to what is defined, so several limits are tried of each. */
    for (int turn = 0; turn < 8; turn++) {
        limited.limit = 1 + below(brought[len] - 1);
        for (model_reads = 0; brought[model_reads + 1] <= limited.limit;) model_reads++;
        model_blames = model_reads;
        are_done(HTMLS, &limited, MARKDOWN_INLINE_REFERENCES, model_reads);
    }
}

/* The text of a string by its events: what stands in it but for backslashes of escapes, and what references stand for by these options. */
static size_t text_by_events(uint32_t options, const uint8_t *bytes, size_t len, uint8_t *text) {
    const uint32_t how = options & (MARKDOWN_INLINE_OPTION_HTML_REFERENCES | MARKDOWN_INLINE_OPTION_STANDARD_RULES);
    static markdown_inline_event events[16 * PARTS_MOST * BYTES];
    markdown_inline_piece piece = {0, 0, 0, 0};
    markdown_inline_input one = {bytes, len, &piece, 1, NULL, 0, NULL, 0, NULL, 0, MARKDOWN_INLINE_CRATE | how, 0};
    size_t events_len = 0, written = 0, more = 0;
    piece.end = len;
    want("a string of UTF-8 has events", markdown_inline_string(&one, events, sizeof events / sizeof *events, &events_len) == MARKDOWN_INLINE_DONE);
    for (size_t at = 0; at + 1 < events_len; at++) {
        size_t start = events[at].index, stop = at + 1;
        if (events[at].kind != MARKDOWN_INLINE_ENTER) continue;
        if (events[at].name == MARKDOWN_INLINE_NAME_CHARACTER_REFERENCE) {
            while (events[stop].name != MARKDOWN_INLINE_NAME_CHARACTER_REFERENCE) stop++;
            want("a reference in a string", markdown_inline_reference(how, bytes + start, events[stop].index - start, text + written, 16, &more) == MARKDOWN_INLINE_DONE);
            written += more;
            at = stop;
        } else if (events[stop].kind == MARKDOWN_INLINE_EXIT && events[at].name != MARKDOWN_INLINE_NAME_CHARACTER_ESCAPE_MARKER) {
            memcpy(text + written, bytes + start, events[stop].index - start);
            written += events[stop].index - start;
        }
    }
    return written;
}

/* Draws parts of the labels, and strings of them. */
static void draw_strings(drawn *it, markdown_inline_range *drawn_parts, markdown_inline_range *drawn_strings) {
    static const char *const PIECES_OF_STRINGS[] = {"a", "\\", "\\*", "\\a", "&", "&amp;", "&copy;", "&check;", "&nGt;", "&#0;", "&#1;", "&#x1f600;", "&nosuch;", "amp;", "#65;", ";", " ", "\t", "\n",
        "\r\n", "\r", "\xc3\xa9", "\xf0\x9f\x98\x80", "*", "[", "&lt;&gt;"};
    parts_len = below(PARTS_MOST + 1);
    it->labels_len = 0;
    for (size_t more = below(12); more > 0; more--)
        it->labels_len = append(it->labels, it->labels_len, PIECES_OF_STRINGS[below(sizeof PIECES_OF_STRINGS / sizeof *PIECES_OF_STRINGS)]);
    if (it->labels_len < BYTES && one_in(3)) it->labels[it->labels_len++] = 0;
    if (one_in(10)) it->labels_len = append(it->labels, it->labels_len, BROKEN[below(sizeof BROKEN / sizeof *BROKEN)]);
    for (size_t at = 0; at < parts_len; at++) {
        size_t start = below(it->labels_len + 1);
        while (start < it->labels_len && (it->labels[start] & 0xc0) == 0x80) start++;
        drawn_parts[at] = (markdown_inline_range){start, start + below(it->labels_len - start + 1)};
        while (drawn_parts[at].end < it->labels_len && (it->labels[drawn_parts[at].end] & 0xc0) == 0x80) drawn_parts[at].end++;
        if (one_in(30)) drawn_parts[at].start = number_to(it->labels_len);
        if (one_in(30)) drawn_parts[at].end = number_to(it->labels_len);
    }
    for (size_t at = 0; at < it->contents_len; at++) {
        drawn_strings[at].start = below(parts_len + 1);
        drawn_strings[at].end = drawn_strings[at].start + below(parts_len - drawn_strings[at].start + 1);
        if (one_in(30)) drawn_strings[at].start = number_to(parts_len);
        if (one_in(30)) drawn_strings[at].end = number_to(parts_len);
    }
}

/* Joins the parts of a string, if it has such parts. */
static int is_joined(const drawn *it, const markdown_inline_range *drawn_parts, markdown_inline_range string, uint8_t *joined, size_t *len) {
    *len = 0;
    if (string.start > string.end || string.end > parts_len) return 0;
    for (size_t at = string.start; at < string.end; at++) {
        size_t more = drawn_parts[at].end - drawn_parts[at].start;
        if (!is_label(it, drawn_parts[at])) return 0;
        if (more > 0) memcpy(joined + *len, it->labels + drawn_parts[at].start, more);
        *len += more;
    }
    return 1;
}

/* Writes a text by how strings are written, in its own place: there is room for twice as many bytes more. Answers its length. */
static size_t written_by(uint32_t how, uint8_t *text, size_t len) {
    for (size_t at = 0; how & MARKDOWN_INLINE_STRING_LINE_FEEDS && at < len; at++) {
        if (text[at] != '\r') continue;
        text[at] = '\n';
        if (at + 1 < len && text[at + 1] == '\n') memmove(text + at + 1, text + at + 2, --len - at - 1);
    }
    for (size_t at = 0; how & MARKDOWN_INLINE_STRING_REPLACED_NUL && at < len; at++) {
        if (text[at]) continue;
        memmove(text + at + 3, text + at + 1, len - at - 1);
        memcpy(text + at, "\xef\xbf\xbd", 3);
        len += 2;
    }
    return len;
}

/* Strings of parts of the labels. */
static void try_strings(drawn *it) {
    static uint8_t wanted[CONTENTS * 16 * PARTS_MOST * BYTES], joined[3 * PARTS_MOST * BYTES];
    markdown_inline_range drawn_parts[PARTS_MOST], drawn_strings[CONTENTS];
    size_t wanted_ends[CONTENTS], wanted_len = 0, len = 0;
    it->contents_len = below(CONTENTS + 1);
    draw_strings(it, drawn_parts, drawn_strings);
    int is_known = it->options < 0x800000 && it->string_options < 4;
    for (model_reads = 0; is_known && model_reads < it->contents_len && is_joined(it, drawn_parts, drawn_strings[model_reads], joined, &len); model_reads++) {
        len = written_by(it->string_options, joined, len);
        size_t text_len = text_by_events(it->options, joined, len, wanted + wanted_len);
        int has_all_names = (it->options & (MARKDOWN_INLINE_OPTION_HTML_REFERENCES | MARKDOWN_INLINE_OPTION_STANDARD_RULES)) != 0;
        want("a text is no longer than its parts, or by a fifth where all names are known", text_len <= len + (has_all_names ? len / 5 : 0));
        wanted_ends[model_reads] = wanted_len += text_len;
    }
    int is_refused = is_known && model_reads < it->contents_len;
    model_blames = is_refused ? model_reads : MARKDOWN_INLINE_NONE;
    lend_case(it);
    parts = (const markdown_inline_range *)lend(&of_definitions, drawn_parts, parts_len, sizeof *parts);
    strings = (const markdown_inline_range *)lend(&of_footnotes, drawn_strings, it->contents_len, sizeof *strings);
    are_done(STRINGS, it, !is_known ? MARKDOWN_INLINE_UNKNOWN_OPTION : is_refused ? MARKDOWN_INLINE_NO_STRING : MARKDOWN_INLINE_DONE, model_reads);
    if (faults > 0) return;
    want("how many bytes the texts of strings have", found_len == wanted_len);
    want("the texts of strings", !memcmp(found.bytes, wanted, wanted_len) && !memcmp(found_ends, wanted_ends, model_reads * sizeof *found_ends));
}

/* The status of a reference by digits, or 1 for one that its name decides. */
static uint32_t reference_status(const uint8_t *bytes, size_t len) {
    size_t is_hexadecimal = len > 2 && (bytes[2] == 'x' || bytes[2] == 'X'), digits = 0;
    if (len < 3 || bytes[0] != '&' || bytes[len - 1] != ';') return MARKDOWN_INLINE_NO_REFERENCE;
    for (size_t at = 1 + (bytes[1] == '#') + (bytes[1] == '#' && is_hexadecimal); at + 1 < len; at++, digits++) {
        uint8_t it = bytes[at], letter = it | 0x20;
        int is_digit = it >= '0' && it <= '9', is_letter = letter >= 'a' && letter <= 'z';
        if (!is_digit && (!is_letter || (bytes[1] == '#' && (!is_hexadecimal || letter > 'f')))) return MARKDOWN_INLINE_NO_REFERENCE;
    }
    if (bytes[1] != '#') return 1;
    return digits > 0 && digits <= (is_hexadecimal ? 6 : 7) ? (uint32_t)MARKDOWN_INLINE_DONE : (uint32_t)MARKDOWN_INLINE_NO_REFERENCE;
}

static void try_bytes(drawn *it) {
    static const char *const REFERENCES[] = {"&", "#", "x", "X", ";", "amp", "copy", "check", "lt", "65", "1f600", "d800", "0", "9", "f", "g", "nosuch", "1234567", "\xc3"};
    static const char *const WORDS[] = {"a", "B", " ", "\t", "\n", "\r\n", "\xc3\x89", "\xe1\xba\x9e", "\xef\xac\x80", "\xce\xa3", "[", "\\]", "\xf0\x90\x90\x80"};
    it->labels_len = 0;
    for (size_t parts = below(9); parts > 0; parts--) it->labels_len = append(it->labels, it->labels_len, WORDS[below(sizeof WORDS / sizeof *WORDS)]);
    if (one_in(8)) it->labels_len = append(it->labels, it->labels_len, BROKEN[below(sizeof BROKEN / sizeof *BROKEN)]);
    lend_case(it);
    if (is_done(IDENTIFIER, it, is_utf8(it->labels, it->labels_len) ? MARKDOWN_INLINE_DONE : MARKDOWN_INLINE_NOT_UTF8))
        want("an identifier is UTF-8", is_utf8(found.bytes, found_len) && (found_len == 0 || (found.bytes[0] != ' ' && found.bytes[found_len - 1] != ' ')));
    it->labels_len = one_in(6) ? 0 : append(it->labels, 0, one_in(3) ? "&" : "&#");
    for (size_t parts = below(4); parts > 0; parts--) it->labels_len = append(it->labels, it->labels_len, REFERENCES[below(sizeof REFERENCES / sizeof *REFERENCES)]);
    if (!one_in(6)) it->labels_len = append(it->labels, it->labels_len, ";");
    lend_case(it);
    uint32_t wanted = it->options >= 0x800000 ? (uint32_t)MARKDOWN_INLINE_UNKNOWN_OPTION : reference_status(it->labels, it->labels_len);
    if (wanted == 1) {
        call_name = NAMES[REFERENCE];
        wanted = called(REFERENCE, it, 0, 0);
        want("the status of a name", wanted == MARKDOWN_INLINE_NO_REFERENCE || wanted == MARKDOWN_INLINE_TOO_SMALL);
        wanted = wanted == MARKDOWN_INLINE_TOO_SMALL ? (uint32_t)MARKDOWN_INLINE_DONE : wanted;
    }
    if (is_done(REFERENCE, it, wanted)) want("a reference stands for some UTF-8", found_len > 0 && found_len < 9 && is_utf8(found.bytes, found_len));
}

/* The bytes of a case alone have the HTML of an input that has them as one piece. */
static void try_whole(const drawn *it) {
    static answer html;
    drawn alone = *it;
    alone.pieces[0] = (markdown_inline_piece){0, 0, it->bytes_len, 0};
    alone.pieces_len = 1;
    alone.definitions_len = alone.footnotes_len = alone.targets_len = alone.labels_len = 0;
    alone.reserved = 0;
    lend_case(&alone);
    if (!is_done(HTML_OF, &alone, html_status(&alone))) return;
    size_t len = found_len;
    html = found;
    want("the HTML of bytes alone", called(HTML, &alone, sizeof found, 0) == MARKDOWN_INLINE_DONE && found_len == len && !memcmp(found.bytes, html.bytes, len));
}

/* Whether each element of HTML ends in the one in which it begins. No `<` is text. */
static int is_nested(const uint8_t *html, size_t len) {
    static const char *const EMPTY[] = {"br", "hr", "img", "input"};
    const uint8_t *open[4 * BYTES];
    size_t depth = 0;
    for (size_t at = 0; at < len; at++) {
        if (html[at] != '<') continue;
        int is_empty = 0, is_end = html[at + 1] == '/';
        const uint8_t *name = html + at + 1 + is_end;
        size_t name_len = strcspn((const char *)name, " >");
        for (size_t one = 0; one < sizeof EMPTY / sizeof *EMPTY; one++) is_empty |= strlen(EMPTY[one]) == name_len && !memcmp(EMPTY[one], name, name_len);
        if (is_empty) continue;
        if (!is_end)
            open[depth++] = name;
        else if (depth == 0 || memcmp(open[--depth], name, name_len) || !strchr(" >", open[depth][name_len]))
            return 0;
    }
    return depth == 0;
}

/* Draws two definitions, and answers in `brought` how many bytes each brings at once. The second of one name does not count. */
static void draw_titled(drawn *it, size_t *brought) {
    static const char *const LEADS[] = {"/", "/uu", "/uuuuuuu"}, *const TITLES[] = {"", " ''", " 't'", " \"tt\""}, *const STARTS[] = {"[a]: ", "[b]: "};
    for (int name = 0; name < 2; name++) {
        const char *leads = LEADS[below(3)], *title = TITLES[below(4)];
        it->bytes_len = append(it->bytes, append(it->bytes, append(it->bytes, append(it->bytes, it->bytes_len, STARTS[name]), leads), title), "\n");
        brought[name] = strlen(leads) + (*title ? strlen(title) - 3 : 0);
    }
    it->bytes_len = append(it->bytes, it->bytes_len, one_in(2) ? "[a]: /more\n\n" : "\n");
}

/* Draws definitions before blocks that refer to them, or behind. Answers how many bytes the definitions bring. */
static size_t draw_references(drawn *it) {
    static const struct {
        const char *text;
        int name;
    } forms[] = {{"[a]\n\n", 0}, {"> ![b][]\n\n", 1}, {"- [c][a]\n", 0}, {"# *[b]*\n", 1}, {"![a [b]](c)\n\n", 1}, {"[a](c)\n\n", 2}, {"`[a]`\n\n", 2}, {"\\[b]\n\n", 2}, {"[c]\n\n", 2}};
    const int are_first = one_in(2);
    size_t brought[3] = {0}, times[3] = {0};
    it->bytes_len = 0;
    if (are_first) draw_titled(it, brought);
    for (size_t many = 1 + below(5); many > 0; many--) {
        size_t form = below(sizeof forms / sizeof *forms);
        it->bytes_len = append(it->bytes, it->bytes_len, forms[form].text);
        times[forms[form].name]++;
    }
    it->bytes_len = append(it->bytes, it->bytes_len, "\n");
    if (!are_first) draw_titled(it, brought);
    return times[0] * brought[0] + times[1] * brought[1];
}

/* A limit holds of what definitions bring to a document; 0 is more than these bring, and the highest number is no limit. */
static void try_document_limit(const drawn *it) {
    static answer html;
    drawn limited = *it;
    size_t brought = draw_references(&limited);
    call_name = NAMES[DOCUMENT_HTML];
    limited.asked = (markdown_inline_document_options){0, limited.html_options & 3, it->asked.blocks & 3, 0, 0, {0}};
    lend_case(&limited);
    want("the limit of a document by default", called(DOCUMENT_HTML, &limited, sizeof found, 0) == MARKDOWN_INLINE_DONE);
    size_t len = found_len;
    html = found;
    for (int turn = 0; turn < 5; turn++) {
        size_t limit = turn == 0 ? brought : turn == 1 ? brought + 1 + below(9) : turn == 2 ? MARKDOWN_INLINE_NONE : 1 + below(brought > 0 ? brought : 1);
        limited.asked.limit = limit;
        lend_case(&limited);
        if (limit == 0 || limit >= brought)
            want("as much as the limit of a document", called(DOCUMENT_HTML, &limited, sizeof found, 0) == MARKDOWN_INLINE_DONE && found_len == len && !memcmp(html.bytes, found.bytes, len));
        else
            want("more than the limit of a document", called(DOCUMENT_HTML, &limited, sizeof found, 0) == MARKDOWN_INLINE_REFERENCES);
    }
}

/* The bytes of a case as a document; and a line of them as a heading, whose text has the HTML of that line alone (CommonMark 4.2). */
static void try_document(const drawn *it) {
    static answer html;
    drawn heading = *it;
    size_t len = 3;
    lend_case(it);
    if (!is_done(DOCUMENT_HTML, it, are_asked(&it->asked) ? document_status(it) : (uint32_t)MARKDOWN_INLINE_UNKNOWN_OPTION)) return;
    want("the HTML of a document is UTF-8", is_utf8(found.bytes, found_len));
    want("the HTML of a document is whole lines", found_len == 0 || found.bytes[found_len - 1] == '\n' || found.bytes[found_len - 1] == '\r');
    if (!(it->asked.html & MARKDOWN_INLINE_HTML_RAW)) want("the elements of a document are nested", is_nested(found.bytes, found_len));
    memcpy(heading.bytes, "# x", len);
    for (size_t at = 0; at < it->bytes_len && len < BYTES - 4; at++)
        if (it->bytes[at] != '\n' && it->bytes[at] != '\r') heading.bytes[len++] = it->bytes[at];
    while (!is_utf8(heading.bytes, len)) len--;
    heading.bytes[len++] = 'x';
    heading.bytes_len = len;
    lend_case(&heading);
    want("a heading is a document", called(DOCUMENT_HTML, &heading, sizeof found, 0) == MARKDOWN_INLINE_DONE);
    html = found;
    size_t html_len = found_len;
    const size_t ending = it->asked.html & MARKDOWN_INLINE_HTML_CRLF ? 2 : 1;
    heading.options = it->asked.options ? it->asked.options : (uint32_t)MARKDOWN_INLINE_COMMONMARK;
    heading.html_options = it->asked.html;
    heading.bytes_len = len - 2;
    memmove(heading.bytes, heading.bytes + 2, heading.bytes_len);
    lend_case(&heading);
    want("the text of a heading has HTML", called(HTML_OF, &heading, sizeof found, 0) == MARKDOWN_INLINE_DONE && html_len == found_len + 9 + ending);
    want("the HTML of a heading is that of its text", !memcmp(html.bytes, "<h1>", 4) && !memcmp(html.bytes + 4, found.bytes, found_len) && !memcmp(html.bytes + 4 + found_len, ending == 2 ? "</h1>\r\n" : "</h1>\n", 5 + ending));
}

/* Where the line ends that has this byte: before its ending, and behind it. */
static size_t line_of(const drawn *it, size_t at, size_t *end) {
    while (at < it->bytes_len && it->bytes[at] != '\n' && it->bytes[at] != '\r') at++;
    *end = at + (at < it->bytes_len) + (at + 1 < it->bytes_len && it->bytes[at] == '\r' && it->bytes[at + 1] == '\n');
    return at;
}

static int is_blank(uint8_t byte) { return byte == ' ' || byte == '\t'; }

/* The status of starts of lines, and their pieces. */
static uint32_t lines_status(const drawn *it, const size_t *drawn_starts, size_t len, markdown_inline_piece *made_pieces) {
    size_t end = 0, stop = 0;
    for (model_blames = 0; model_blames < len; model_blames++) {
        size_t at = drawn_starts[model_blames], ink = at;
        if (at > it->bytes_len || (at < it->bytes_len && (it->bytes[at] & 0xc0) == 0x80)) return MARKDOWN_INLINE_NO_CONTENT;
        if (model_blames > 0 && (at < end || at > line_of(it, end, &stop))) return MARKDOWN_INLINE_NO_CONTENT;
        stop = line_of(it, at, &end);
        while (ink < stop && is_blank(it->bytes[ink])) ink++;
        if (ink == stop) return MARKDOWN_INLINE_BLANK_LINE;
        while (model_blames + 1 == len && is_blank(it->bytes[stop - 1])) stop--;
        made_pieces[model_blames] = (markdown_inline_piece){ink, 0, model_blames + 1 == len ? stop : end, 0};
    }
    model_blames = MARKDOWN_INLINE_NONE;
    return MARKDOWN_INLINE_DONE;
}

/* Starts of lines, some of them off, with any room. */
static void try_lines(const drawn *all) {
    drawn it = *all;
    size_t drawn_starts[PIECES], len = it.pieces_len;
    if (it.bytes_len > BYTES) return;
    draw_document(&it);
    len = it.pieces_len > 1 || one_in(2) ? it.pieces_len : 0;
    for (size_t at = 0; at < len; at++) {
        drawn_starts[at] = it.pieces[at].start;
        while (drawn_starts[at] > 0 && is_blank(it.bytes[drawn_starts[at] - 1]) && one_in(2)) drawn_starts[at]--;
        if (one_in(12)) drawn_starts[at] = number_to(it.bytes_len);
    }
    call_name = NAMES[PIECES_OF_LINES];
    uint32_t wanted = lines_status(&it, drawn_starts, len, it.pieces), status;
    size_t room = one_in(2) ? len : below(PIECES + 1), is_done = wanted == MARKDOWN_INLINE_DONE && room >= len, before = (size_t)draw();
    const uint8_t *bytes = (const uint8_t *)lend(&of_bytes, it.bytes, it.bytes_len, 1);
    const size_t *starts = (const size_t *)lend(&of_definitions, drawn_starts, len, sizeof *starts);
    markdown_inline_piece *array = (markdown_inline_piece *)lend_room(&of_found, room, sizeof *array);
    outcome = (markdown_inline_outcome *)lend_room(&of_outcome, 1, sizeof *outcome);
    outcome->done = outcome->count = outcome->blamed = before;
    status = markdown_inline_pieces_of_lines(bytes, it.bytes_len, starts, len, array, room, outcome);
    calls++;
    functions[PIECES_OF_LINES]++;
    counts[status < 16 ? status : 15]++;
    want("the status of the model", status == (wanted == MARKDOWN_INLINE_DONE && !is_done ? (uint32_t)MARKDOWN_INLINE_TOO_SMALL : wanted));
    want("the outcome of the model", outcome->done == (is_done ? len : 0) && outcome->count == (wanted == MARKDOWN_INLINE_DONE ? len : 0) && outcome->blamed == model_blames);
    want("nothing is written but pieces", is_filled_but(&of_found, array, is_done ? len * sizeof *array : 0) && is_filled_but(&of_outcome, outcome, sizeof *outcome));
    want("the pieces of the model", !is_done || len == 0 || !memcmp(array, it.pieces, len * sizeof *array));
    it.pieces_len = len;
    if (is_done && is_utf8(it.bytes, it.bytes_len)) want("the pieces are a text", pieces_status(&it) == MARKDOWN_INLINE_DONE);
}

/* What a call for a whole document ends with, and whether it has written its counts: else they are as before. */
static void look_at_status(which call, uint32_t status, const size_t *written_counts, size_t before) {
    int is_counted = status == MARKDOWN_INLINE_DONE || status == MARKDOWN_INLINE_TOO_SMALL;
    calls++;
    functions[call]++;
    counts[status < 16 ? status : 15]++;
    want("no count is written where there is none", is_counted || (written_counts[0] == before && written_counts[1] == before));
    want("nothing is written beside the counts", is_filled_but(&of_count, written_counts, 2 * sizeof *written_counts));
}

static markdown_inline_block found_blocks[sizeof filled / sizeof(markdown_inline_block)];
static markdown_inline_piece found_pieces[sizeof filled / sizeof(markdown_inline_piece)];

/* Calls for the blocks of what is lent, with room for so many and for so many pieces. */
static uint32_t called_blocks(size_t room, size_t room_of_pieces, markdown_inline_blocks_count *all) {
    size_t before = (size_t)draw();
    markdown_inline_block *blocks = (markdown_inline_block *)lend_room(&of_found, room, sizeof *blocks);
    markdown_inline_piece *pieces = (markdown_inline_piece *)lend_room(&of_more, room_of_pieces, sizeof *pieces);
    markdown_inline_blocks_count *own = (markdown_inline_blocks_count *)lend_room(&of_count, 1, sizeof *own);
    own->blocks = own->pieces = before;
    uint32_t status = markdown_inline_blocks(input->bytes, input->bytes_len, asked->blocks, blocks, room, pieces, room_of_pieces, own);
    size_t is_done = status == MARKDOWN_INLINE_DONE;
    look_at_status(BLOCKS, status, &own->blocks, before);
    *all = *own;
    if (is_done && (own->blocks > room || own->pieces > room_of_pieces)) fault("no more than there is room for");
    else {
        want("nothing is written but blocks and pieces", is_filled_but(&of_found, blocks, is_done * own->blocks * sizeof *blocks) && is_filled_but(&of_more, pieces, is_done * own->pieces * sizeof *pieces));
        if (is_done && own->blocks > 0) memcpy(found_blocks, blocks, own->blocks * sizeof *blocks);
        if (is_done && own->pieces > 0) memcpy(found_pieces, pieces, own->pieces * sizeof *pieces);
    }
    return status;
}

/* How many lines end from a byte to another. */
static size_t ends_from(size_t byte, size_t end) {
    size_t ends = 0;
    for (; byte < end; byte++) ends += input->bytes[byte] == '\n' || (input->bytes[byte] == '\r' && !(byte + 1 < input->bytes_len && input->bytes[byte + 1] == '\n'));
    return ends;
}

/* How often blocks of each kind have been found, and math. */
static size_t kinds[MARKDOWN_INLINE_BLOCK_COUNT], many_math;

/* A block has the kinds, the numbers and the markers that the header says. */
static void look_at_block(const markdown_inline_block *it, int is_first) {
    int is_item = it->kind == MARKDOWN_INLINE_BLOCK_ITEM, is_code = it->kind == MARKDOWN_INLINE_BLOCK_FENCED_CODE, is_math = is_code && it->marker == '$';
    int is_ordered = is_item && (it->marker == '.' || it->marker == ')'), is_matter = it->kind == MARKDOWN_INLINE_BLOCK_FRONT_MATTER;
    size_t last = it->kind == MARKDOWN_INLINE_BLOCK_HEADING ? 6 : it->kind == MARKDOWN_INLINE_BLOCK_HTML ? 7 : is_ordered ? 999999999 : 0;
    want("a kind of block", it->kind < MARKDOWN_INLINE_BLOCK_COUNT && it->reserved == 0 && it->reserved_too == 0);
    want("front matter is first, and asked for", !is_matter || (is_first && it->depth == 0 && asked->blocks & MARKDOWN_INLINE_BLOCKS_FRONT_MATTER));
    want("math is asked for", !is_math || asked->blocks & MARKDOWN_INLINE_BLOCKS_MATH);
    want("the number of a block", it->number <= last && (it->number > 0 || last != 6) && (it->number > 0 || last != 7));
    want("the marker of a block", is_item || is_code ? it->marker && strchr(is_item ? "-+*.)" : "`~$", it->marker) : it->marker == 0);
    want("an item stands in a list", is_item ? it->list < 8 : it->list == 0);
    want("code has an info string", !is_code || it->pieces.end > it->pieces.start);
    if (faults > 0) return;
    kinds[it->kind]++;
    many_math += is_math;
}

/* Blocks stand one deeper behind what holds them, begin on a line and not before the block before them, their pieces follow one another, and texts are texts. */
static void look_at_blocks(markdown_inline_blocks_count all) {
    size_t deepest = 0, pieces = 0, line = 1, byte = 0, line_of_byte = 1;
    for (size_t at = 0; at < all.blocks; at++) {
        const markdown_inline_block *it = &found_blocks[at];
        int is_text = it->kind == MARKDOWN_INLINE_BLOCK_HEADING || it->kind == MARKDOWN_INLINE_BLOCK_PARAGRAPH, is_matter = it->kind == MARKDOWN_INLINE_BLOCK_FRONT_MATTER;
        look_at_block(it, at == 0);
        want("a block is at most one deeper", it->depth <= deepest);
        want("pieces of blocks follow one another", it->pieces.start == pieces && it->pieces.end >= pieces && it->pieces.end <= all.pieces);
        want("the line of a block", at == 0 ? it->line == 1 : it->line >= line);
        if (faults > 0) return;
        want("a text of a document", !is_text || markdown_inline_is_text(input->bytes, input->bytes_len, found_pieces + pieces, it->pieces.end - pieces) == MARKDOWN_INLINE_DONE);
        if (it->pieces.end > pieces) {
            line_of_byte += ends_from(byte, found_pieces[pieces].start);
            byte = found_pieces[pieces].start;
            want("a text begins on its line, or behind it where definitions begin it", is_text ? line_of_byte >= it->line : line_of_byte == it->line + is_matter);
        }
        line = it->line;
        deepest = it->depth + (it->kind == MARKDOWN_INLINE_BLOCK_QUOTE || it->kind == MARKDOWN_INLINE_BLOCK_ITEM);
        pieces = it->pieces.end;
    }
    want("each piece is of a block", pieces == all.pieces);
    want("no block begins behind the last line", all.blocks == 0 || line <= 1 + ends_from(0, input->bytes_len));
}

/* The blocks of a case, with any room. */
static void try_blocks(const drawn *it) {
    markdown_inline_blocks_count all, again;
    call_name = NAMES[BLOCKS];
    lend_case(it);
    uint32_t wanted = blocks_status(it), status = called_blocks(0, 0, &all);
    if (wanted != MARKDOWN_INLINE_DONE) {
        want("the status of the model", status == wanted && called_blocks(below(64), below(64), &again) == wanted);
        return;
    }
    want("the status without room", status == (all.blocks > 0 ? (uint32_t)MARKDOWN_INLINE_TOO_SMALL : (uint32_t)MARKDOWN_INLINE_DONE));
    want("no more blocks than twice the bytes", all.blocks <= 2 * it->bytes_len && all.pieces <= 2 * it->bytes_len);
    for (int turn = 0; turn < 4 && faults == 0; turn++) {
        size_t room = turn == 1 ? below(all.blocks + 1) : all.blocks + below(3), room_of_pieces = turn == 2 ? below(all.pieces + 1) : all.pieces + below(3);
        int has_room = room >= all.blocks && room_of_pieces >= all.pieces;
        want("the status by the room", called_blocks(room, room_of_pieces, &again) == (has_room ? (uint32_t)MARKDOWN_INLINE_DONE : (uint32_t)MARKDOWN_INLINE_TOO_SMALL));
        want("as many blocks again", again.blocks == all.blocks && again.pieces == all.pieces);
    }
    if (faults == 0) look_at_blocks(all);
}

static uint8_t found_labels[sizeof filled];
static markdown_inline_range found_definitions[BYTES];
static markdown_inline_target found_targets[BYTES];
static size_t many_definitions;

/* Calls for the definitions of what is lent, with room for so many bytes of labels, definitions and targets. */
static uint32_t called_definitions(size_t room, size_t room_of_definitions, size_t room_of_targets, markdown_inline_definitions_count *all) {
    size_t before = (size_t)draw();
    uint8_t *labels = (uint8_t *)lend_room(&of_found, room, 1);
    markdown_inline_range *definitions = (markdown_inline_range *)lend_room(&of_ends, room_of_definitions, sizeof *definitions);
    markdown_inline_target *given = (markdown_inline_target *)lend_room(&of_more, room_of_targets, sizeof *given);
    markdown_inline_definitions_count *own = (markdown_inline_definitions_count *)lend_room(&of_count, 1, sizeof *own);
    own->definitions = own->labels = before;
    uint32_t status = markdown_inline_definitions(input->bytes, input->bytes_len, asked->blocks, labels, room, definitions, room_of_definitions, given, room_of_targets, own);
    size_t is_done = status == MARKDOWN_INLINE_DONE, many = is_done * own->definitions;
    look_at_status(DEFINITIONS, status, &own->definitions, before);
    *all = *own;
    if (is_done && (own->labels > room || many > room_of_definitions || many > room_of_targets || many > BYTES)) fault("no more than there is room for");
    else {
        want("nothing is written but definitions", is_filled_but(&of_found, labels, is_done * own->labels) && is_filled_but(&of_ends, definitions, many * sizeof *definitions)
                && is_filled_but(&of_more, given, many * sizeof *given));
        if (is_done && own->labels > 0) memcpy(found_labels, labels, own->labels);
        if (many > 0) memcpy(found_definitions, definitions, many * sizeof *definitions);
        if (many > 0) memcpy(found_targets, given, many * sizeof *given);
    }
    return status;
}

/* The definitions of a document are those of an input: it is written as HTML with them, and each label leads to where its definition leads. */
static void look_at_definitions(markdown_inline_definitions_count all) {
    markdown_inline_input whole = {NULL, 0, NULL, 0, found_labels, all.labels, found_definitions, all.definitions, NULL, 0, MARKDOWN_INLINE_COMMONMARK, 0};
    markdown_inline_outcome own = {0, 0, 0};
    want("definitions are those of an input", markdown_inline_htmls(&whole, found_targets, all.definitions, NULL, 0, 0, 0, NULL, 0, NULL, 0, &own) == MARKDOWN_INLINE_DONE);
    many_definitions += all.definitions > 0;
}

/* The definitions of a case, some of which are put at its front, with any room. */
static void try_definitions(const drawn *all_drawn) {
    static const char *const WRITTEN[] = {"[a]: /b\n", "[\xc3\x89 d]: <e\\*&amp;>\n  'f&copy;'\n", "[a]:\t/g \"h\ni\"\n", "> [j\\]]: k\n\n", "[a]: &#0;\n", "[]: l\n", "[m]: n 'o"};
    markdown_inline_definitions_count all, again;
    drawn it = *all_drawn;
    call_name = NAMES[DEFINITIONS];
    if (it.bytes_len <= BYTES) {
        it.bytes_len = 0;
        for (size_t more = below(5); more > 0; more--) it.bytes_len = append(it.bytes, it.bytes_len, WRITTEN[below(sizeof WRITTEN / sizeof *WRITTEN)]);
        if (one_in(8)) it.bytes_len = append(it.bytes, it.bytes_len, BROKEN[below(sizeof BROKEN / sizeof *BROKEN)]);
    }
    lend_case(&it);
    uint32_t wanted = blocks_status(&it), status = called_definitions(0, 0, 0, &all);
    if (wanted != MARKDOWN_INLINE_DONE) {
        want("the status of the model", status == wanted && called_definitions(below(64), below(8), below(8), &again) == wanted);
        return;
    }
    want("the status without room", status == (all.definitions > 0 ? (uint32_t)MARKDOWN_INLINE_TOO_SMALL : (uint32_t)MARKDOWN_INLINE_DONE));
    for (int turn = 0; turn < 5 && faults == 0; turn++) {
        size_t room = turn == 1 ? below(all.labels + 1) : all.labels + below(3), many = turn == 2 ? below(all.definitions + 1) : all.definitions + below(3);
        size_t given = turn == 3 ? below(all.definitions + 1) : all.definitions + below(3);
        int has_room = room >= all.labels && many >= all.definitions && given >= all.definitions;
        want("the status by the room", called_definitions(room, many, given, &again) == (has_room ? (uint32_t)MARKDOWN_INLINE_DONE : (uint32_t)MARKDOWN_INLINE_TOO_SMALL));
        want("as many definitions again", again.definitions == all.definitions && again.labels == all.labels);
    }
    if (faults == 0) look_at_definitions(all);
}

static void try_case(void) {
    static answer text;
    static drawn it;
    draw_case(&it);
    lend_case(&it);
    is_done(IS_CONTENT, &it, content_status(&it));
    is_done(IS_TEXT, &it, pieces_status(&it));
    if (is_done(STRING, &it, string_status(&it))) look_at_events(found.events, found_len);
    if (is_done(HTML, &it, html_status(&it))) want("HTML is UTF-8", is_utf8(found.bytes, found_len));
    try_whole(&it);
    try_document(&it);
    try_document_limit(&it);
    lend_case(&it);
    if (is_done(TEXT, &it, text_status(&it))) {
        size_t len = found_len;
        text = found;
        look_at_events(text.events, len);
        want("no more than six events for each byte", len <= 6 * it.bytes_len);
        if (is_done(LEAVES, &it, MARKDOWN_INLINE_DONE)) look_at_leaves(text.events, len, found.leaves, found_len);
    } else {
        is_done(LEAVES, &it, text_status(&it));
    }
    uint32_t status = texts_status(&it);
    if (are_done(TEXTS, &it, status, model_reads)) look_at_texts(&it);
    lend_case(&it);
    if (are_done(SHORT_TEXTS, &it, status, model_reads)) look_at_short_texts(&it);
    lend_case(&it);
    status = htmls_status(&it);
    if (are_done(HTMLS, &it, status, model_reads)) look_at_htmls(&it);
    try_bytes(&it);
    try_strings(&it);
    try_lines(&it);
    try_blocks(&it);
    try_definitions(&it);
}

/* Tells of a touch of a page that may not be touched. */
static void touched(int number) {
    (void)number;
    printf("random_calls: %s: memory that is not lent is touched, seed %llu\n", call_name, (unsigned long long)seed);
    fflush(stdout);
    _exit(1);
}

int main(int argc, char **argv) {
    size_t most = argc > 2 ? (size_t)strtoull(argv[2], NULL, 10) : 200000;
    stretch *const reads[] = {&of_bytes, &of_pieces, &of_labels, &of_definitions, &of_footnotes, &of_contents, &of_targets, &of_input, &of_asked};
    seed = argc > 1 ? strtoull(argv[1], NULL, 10) : 1;
    page = (size_t)sysconf(_SC_PAGESIZE);
    for (size_t at = 0; at < sizeof reads / sizeof *reads; at++) *reads[at] = new_stretch(1, 1);
    memset(filled, FILL, sizeof filled);
    of_found = new_stretch(sizeof found / page, 0);
    of_more = new_stretch(sizeof found / page, 0);
    of_ends = new_stretch(1, 0);
    of_count = new_stretch(1, 0);
    of_outcome = new_stretch(1, 0);
    signal(SIGSEGV, touched);
    signal(SIGBUS, touched);
    for (; calls < most && faults == 0; seed++) {
        begin_case(seed);
        try_case();
        if (faults > 0) break;
    }
    if (most >= 2 * ENOUGH && faults == 0) look_at_blames();
    call_name = NAMES[DOCUMENT_HTML];
    want("a byte behind the first one is often blamed", most < ENOUGH || faults > 0 || document_blames >= FLOOR);
    call_name = "all";
    for (uint32_t status = 0; most >= ENOUGH && faults == 0 && status < 16; status++) {
        int is_drawn = markdown_inline_status_text(status) && status != MARKDOWN_INLINE_NO_MEMORY;
        want("each status comes often, and no other", is_drawn ? counts[status] >= FLOOR : counts[status] == 0);
    }
    for (size_t call = 0; most >= ENOUGH && faults == 0 && call <= DEFINITIONS; call++) want("each function is called often", functions[call] >= ENOUGH / 100);
    for (size_t kind = 0; most >= ENOUGH && faults == 0 && kind < MARKDOWN_INLINE_BLOCK_COUNT; kind++) want("blocks of each kind are found often", kinds[kind] >= FLOOR);
    want("math is found often", most < ENOUGH || faults > 0 || many_math >= FLOOR);
    want("documents have definitions", most < ENOUGH || faults > 0 || many_definitions >= FLOOR);
    want("references meet definitions and footnotes", most < 2 * ENOUGH || faults > 0 || (met_definitions >= FLOOR && met_footnotes >= FLOOR / 2));
    want("references stand for characters, and some for two", most < 2 * ENOUGH || faults > 0 || (met_characters >= FLOOR && met_pairs >= FLOOR / 2));
    if (faults == 0) printf("bindings: %zu drawn calls of C, %zu done, %zu without room, %zu refused\n", calls, counts[0], counts[6], calls - counts[0] - counts[6]);
    return faults != 0;
}
