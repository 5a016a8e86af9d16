/* Markdown, for callers in C99 and C++.
 *
 * markdown_inline_document_html writes the HTML of a document, its blocks included; markdown_inline_blocks finds its blocks, with the pieces of the document
 * that make up the text of each. The other calls read the text inside blocks: a caller hands over a document and the pieces of a paragraph, and gets the
 * paragraph's HTML, or the events of its inline tree: what begins or ends, and where. What each call promises is proved; the contracts stand in
 * crates/markdown_inline_c.
 *
 * The interface, version 1:
 *
 * - It is that of the C calling convention of 64-bit machines: size_t has 64 bits, and structs are laid out as C lays them out. The sizes are
 *   checked below, at compile time. Numbers of names, bits of options and statuses do not change within a version; new ones come at the end.
 * - An array is a pointer and a length in elements. Where the length is 0 the pointer may be null. Pointers to single values are never null.
 * - Text is UTF-8. Indexes and ranges count bytes, from 0; lines and columns count from 1.
 * - Every input is taken, and a call always returns. The caller's one duty is that pointers and lengths are those of arrays, and that what a call writes to
 *   overlaps nothing else that the call is given: a pointer or a length that lies is undefined behavior, as everywhere in C.
 * - A document that is not UTF-8 is rejected as a whole, and calls with an outcome tell the first byte that is wrong. A copy of the same length with a NUL
 *   for each wrong byte is read, and places in it are those of the document: CommonMark reads NUL as U+FFFD.
 * - No pointer is kept after a call, and nothing has to be freed. There is no state, so several threads may call at once.
 * - Memory comes from malloc, and is freed before the call ends. If malloc fails, the call returns MARKDOWN_INLINE_NO_MEMORY.
 * - Deep nesting takes no more stack. Only a sort takes some more for a longer list: a few levels for twice as many elements.
 * - Fields named `reserved` have to be 0, since a later version may give them a meaning. A call that is given another number returns
 *   MARKDOWN_INLINE_UNKNOWN_OPTION.
 */
#ifndef MARKDOWN_INLINE_H
#define MARKDOWN_INLINE_H

#include <stddef.h>
#include <stdint.h>

#ifdef __cplusplus
extern "C" {
#endif

/* The version that this header describes; the library's is that of markdown_inline_version(). */
#define MARKDOWN_INLINE_VERSION 1

/* What stands before each declaration of a function; define it beforehand to change that. */
#ifndef MARKDOWN_INLINE_API
#ifdef __GNUC__
#define MARKDOWN_INLINE_API __attribute__((visibility("default")))
#else
#define MARKDOWN_INLINE_API
#endif
#endif

/* Statuses, with what each says. A call returns that of the first thing that is wrong, in the order 2, 9, 3, 7, 4, 8 unless the call says otherwise;
 * NO_MEMORY may come at any time. With a status other than DONE and TOO_SMALL nothing is written, except by calls that have an outcome. */
#define MARKDOWN_INLINE_EACH_STATUS(X) \
    X(DONE, 0, "done") \
    X(UNKNOWN_OPTION, 2, "unknown option") \
    X(NOT_UTF8, 3, "document is not UTF-8") \
    X(BLANK_LINE, 4, "blank line in text, or line ending at its end") \
    X(NO_MEMORY, 5, "out of memory") \
    X(TOO_SMALL, 6, "array too small") \
    X(NO_CONTENT, 7, "pieces are no content of the document") \
    X(DEFINITION, 8, "range of a definition is no text of the labels") \
    X(TOO_LONG, 9, "document too long") \
    X(NO_REFERENCE, 10, "no character reference") \
    X(REFERENCES, 11, "references bring more than the limit") \
    X(NO_STRING, 12, "part of a string is no text of the bytes")

/* Options, each by a bit: the constructs, the settings, and whether the text is the first of a list item. */
#define MARKDOWN_INLINE_EACH_OPTION(X) \
    /* Emphasis and strong emphasis (CommonMark 6.2). */ \
    X(ATTENTION, "attention", 0x1) \
    /* Autolinks (CommonMark 6.5). */ \
    X(AUTOLINK, "autolink", 0x2) \
    /* Backslash escapes (CommonMark 2.4). */ \
    X(CHARACTER_ESCAPE, "character_escape", 0x4) \
    /* Character references (CommonMark 2.5). */ \
    X(CHARACTER_REFERENCE, "character_reference", 0x8) \
    /* Code spans (CommonMark 6.1). */ \
    X(CODE_TEXT, "code_text", 0x10) \
    /* Autolink literals (GFM 6.9). */ \
    X(GFM_AUTOLINK_LITERAL, "gfm_autolink_literal", 0x20) \
    /* Starts of footnote calls. */ \
    X(GFM_LABEL_START_FOOTNOTE, "gfm_label_start_footnote", 0x40) \
    /* Strikethrough (GFM 6.5). */ \
    X(GFM_STRIKETHROUGH, "gfm_strikethrough", 0x80) \
    /* Checks of task list items (GFM 5.3). */ \
    X(GFM_TASK_LIST_ITEM, "gfm_task_list_item", 0x100) \
    /* Hard line breaks by a backslash (CommonMark 6.7). */ \
    X(HARD_BREAK_ESCAPE, "hard_break_escape", 0x200) \
    /* Hard line breaks by spaces (CommonMark 6.7). */ \
    X(HARD_BREAK_TRAILING, "hard_break_trailing", 0x400) \
    /* Inline HTML (CommonMark 6.6). */ \
    X(HTML_TEXT, "html_text", 0x800) \
    /* Starts of images (CommonMark 6.4). */ \
    X(LABEL_START_IMAGE, "label_start_image", 0x1000) \
    /* Starts of links (CommonMark 6.3). */ \
    X(LABEL_START_LINK, "label_start_link", 0x2000) \
    /* Ends of links, images and footnote calls. */ \
    X(LABEL_END, "label_end", 0x4000) \
    /* Math spans. */ \
    X(MATH_TEXT, "math_text", 0x8000) \
    /* Whether one tilde makes strikethrough, beside two. */ \
    X(GFM_STRIKETHROUGH_SINGLE_TILDE, "gfm_strikethrough_single_tilde", 0x10000) \
    /* Whether one dollar opens and closes a math span, beside more. */ \
    X(MATH_TEXT_SINGLE_DOLLAR, "math_text_single_dollar", 0x20000) \
    /* Whether the rule of three of emphasis reads the lengths of whole runs, as CommonMark says, and not what earlier pairs left of them. */ \
    X(ATTENTION_FIRST_LENGTHS, "attention_first_lengths", 0x40000) \
    /* Whether a defined label before a `[` that begins no label of its own is a shortcut reference, as CommonMark says. */ \
    X(LABEL_SHORTCUT_BEFORE_BRACKET, "label_shortcut_before_bracket", 0x80000) \
    /* Whether the text is the first of a list item, where the check of a task may stand. */ \
    X(FIRST_OF_ITEM, "first_of_item", 0x100000) \
    /* Whether CommonMark's rule holds in each point that `Rules` names, in which the crate that is ported departs from it. It implies `attention_first_lengths`, `label_shortcut_before_bracket` and `html_references`. */ \
    X(STANDARD_RULES, "standard_rules", 0x200000) \
    /* Whether a reference may have any of the 2,125 names of HTML that end in a semicolon, as CommonMark says, and not only the 294 of a shorter table. */ \
    X(HTML_REFERENCES, "html_references", 0x400000)

/* Names of events, by their numbers from 0. */
#define MARKDOWN_INLINE_EACH_NAME(X) \
    /* A run of `*`, `_` or `~` that attention has not yet looked at. No event of a finished run has this name. */ \
    X(ATTENTION_SEQUENCE, "AttentionSequence") \
    /* `<https://example.com>` or `<a@b.c>` whole. */ \
    X(AUTOLINK, "Autolink") \
    /* The address between the angle brackets of an autolink. */ \
    X(AUTOLINK_EMAIL, "AutolinkEmail") \
    /* `<` or `>` of an autolink. */ \
    X(AUTOLINK_MARKER, "AutolinkMarker") \
    /* The URI between the angle brackets of an autolink. */ \
    X(AUTOLINK_PROTOCOL, "AutolinkProtocol") \
    /* A backslash and the ASCII punctuation that it escapes. */ \
    X(CHARACTER_ESCAPE, "CharacterEscape") \
    /* The backslash of a character escape. */ \
    X(CHARACTER_ESCAPE_MARKER, "CharacterEscapeMarker") \
    /* The escaped character. */ \
    X(CHARACTER_ESCAPE_VALUE, "CharacterEscapeValue") \
    /* `&amp;`, `&#123;` or `&#x1F;` whole. */ \
    X(CHARACTER_REFERENCE, "CharacterReference") \
    /* `&`. */ \
    X(CHARACTER_REFERENCE_MARKER, "CharacterReferenceMarker") \
    /* `x` or `X` of a hexadecimal reference. */ \
    X(CHARACTER_REFERENCE_MARKER_HEXADECIMAL, "CharacterReferenceMarkerHexadecimal") \
    /* `#` of a numeric reference. */ \
    X(CHARACTER_REFERENCE_MARKER_NUMERIC, "CharacterReferenceMarkerNumeric") \
    /* `;`. */ \
    X(CHARACTER_REFERENCE_MARKER_SEMI, "CharacterReferenceMarkerSemi") \
    /* The name or the digits of a reference. */ \
    X(CHARACTER_REFERENCE_VALUE, "CharacterReferenceValue") \
    /* A code span whole. */ \
    X(CODE_TEXT, "CodeText") \
    /* A stretch of one line within a code span. */ \
    X(CODE_TEXT_DATA, "CodeTextData") \
    /* The grave accents that open or close a code span. */ \
    X(CODE_TEXT_SEQUENCE, "CodeTextSequence") \
    /* Text that no construct takes. */ \
    X(DATA, "Data") \
    /* Emphasis whole. */ \
    X(EMPHASIS, "Emphasis") \
    /* One marker that opens or closes emphasis. */ \
    X(EMPHASIS_SEQUENCE, "EmphasisSequence") \
    /* What stands between the markers of an emphasis. */ \
    X(EMPHASIS_TEXT, "EmphasisText") \
    /* An email address that stands by itself. */ \
    X(GFM_AUTOLINK_LITERAL_EMAIL, "GfmAutolinkLiteralEmail") \
    /* An email address with `mailto:` before it. */ \
    X(GFM_AUTOLINK_LITERAL_MAILTO, "GfmAutolinkLiteralMailto") \
    /* A scheme, as `https://`, with what belongs to it. */ \
    X(GFM_AUTOLINK_LITERAL_PROTOCOL, "GfmAutolinkLiteralProtocol") \
    /* `www.` with what belongs to it. */ \
    X(GFM_AUTOLINK_LITERAL_WWW, "GfmAutolinkLiteralWww") \
    /* An address with `xmpp:` before it. */ \
    X(GFM_AUTOLINK_LITERAL_XMPP, "GfmAutolinkLiteralXmpp") \
    /* A footnote call whole. */ \
    X(GFM_FOOTNOTE_CALL, "GfmFootnoteCall") \
    /* `[^` of a footnote call. */ \
    X(GFM_FOOTNOTE_CALL_LABEL, "GfmFootnoteCallLabel") \
    /* `^` of a footnote call. */ \
    X(GFM_FOOTNOTE_CALL_MARKER, "GfmFootnoteCallMarker") \
    /* Strikethrough whole. */ \
    X(GFM_STRIKETHROUGH, "GfmStrikethrough") \
    /* The tildes that open or close strikethrough. */ \
    X(GFM_STRIKETHROUGH_SEQUENCE, "GfmStrikethroughSequence") \
    /* What stands between the tildes. */ \
    X(GFM_STRIKETHROUGH_TEXT, "GfmStrikethroughText") \
    /* `[ ]` or `[x]` at the start of a list item. */ \
    X(GFM_TASK_LIST_ITEM_CHECK, "GfmTaskListItemCheck") \
    /* `[` or `]` of a check. */ \
    X(GFM_TASK_LIST_ITEM_MARKER, "GfmTaskListItemMarker") \
    /* `x` or `X` of a check. */ \
    X(GFM_TASK_LIST_ITEM_VALUE_CHECKED, "GfmTaskListItemValueChecked") \
    /* The blank of a check. */ \
    X(GFM_TASK_LIST_ITEM_VALUE_UNCHECKED, "GfmTaskListItemValueUnchecked") \
    /* The backslash of a hard break. */ \
    X(HARD_BREAK_ESCAPE, "HardBreakEscape") \
    /* The spaces of a hard break. */ \
    X(HARD_BREAK_TRAILING, "HardBreakTrailing") \
    /* Inline HTML whole. */ \
    X(HTML_TEXT, "HtmlText") \
    /* A stretch of one line within inline HTML. */ \
    X(HTML_TEXT_DATA, "HtmlTextData") \
    /* An image whole. */ \
    X(IMAGE, "Image") \
    /* The brackets of a link, an image or a footnote call, with the text between them. */ \
    X(LABEL, "Label") \
    /* `]` of a label. */ \
    X(LABEL_END, "LabelEnd") \
    /* `![`. */ \
    X(LABEL_IMAGE, "LabelImage") \
    /* `!` of an image. */ \
    X(LABEL_IMAGE_MARKER, "LabelImageMarker") \
    /* `[` of a link. */ \
    X(LABEL_LINK, "LabelLink") \
    /* `[` or `]` of a label. */ \
    X(LABEL_MARKER, "LabelMarker") \
    /* What stands between the brackets. */ \
    X(LABEL_TEXT, "LabelText") \
    /* A line ending: CR LF, LF or CR. */ \
    X(LINE_ENDING, "LineEnding") \
    /* A link whole. */ \
    X(LINK, "Link") \
    /* A math span whole. */ \
    X(MATH_TEXT, "MathText") \
    /* A stretch of one line within a math span. */ \
    X(MATH_TEXT_DATA, "MathTextData") \
    /* The dollars that open or close a math span. */ \
    X(MATH_TEXT_SEQUENCE, "MathTextSequence") \
    /* `[..]` or `[]` after a label. */ \
    X(REFERENCE, "Reference") \
    /* `[` or `]` of a reference. */ \
    X(REFERENCE_MARKER, "ReferenceMarker") \
    /* What stands between the brackets of a full reference. */ \
    X(REFERENCE_STRING, "ReferenceString") \
    /* `(..)` after a label. */ \
    X(RESOURCE, "Resource") \
    /* A destination, with its angle brackets if it has them. */ \
    X(RESOURCE_DESTINATION, "ResourceDestination") \
    /* A destination in angle brackets. */ \
    X(RESOURCE_DESTINATION_LITERAL, "ResourceDestinationLiteral") \
    /* `<` or `>` of a destination. */ \
    X(RESOURCE_DESTINATION_LITERAL_MARKER, "ResourceDestinationLiteralMarker") \
    /* A destination without angle brackets. */ \
    X(RESOURCE_DESTINATION_RAW, "ResourceDestinationRaw") \
    /* The text of a destination. */ \
    X(RESOURCE_DESTINATION_STRING, "ResourceDestinationString") \
    /* `(` or `)` of a resource. */ \
    X(RESOURCE_MARKER, "ResourceMarker") \
    /* A title with its quotes. */ \
    X(RESOURCE_TITLE, "ResourceTitle") \
    /* A quote or parenthesis of a title. */ \
    X(RESOURCE_TITLE_MARKER, "ResourceTitleMarker") \
    /* The text of a title. */ \
    X(RESOURCE_TITLE_STRING, "ResourceTitleString") \
    /* Spaces, tabs and virtual spaces. */ \
    X(SPACE_OR_TAB, "SpaceOrTab") \
    /* Strong emphasis whole. */ \
    X(STRONG, "Strong") \
    /* The two markers that open or close strong emphasis. */ \
    X(STRONG_SEQUENCE, "StrongSequence") \
    /* What stands between the markers of a strong emphasis. */ \
    X(STRONG_TEXT, "StrongText")

enum {
#define MARKDOWN_INLINE_STATUS(name, number, words) MARKDOWN_INLINE_##name = number,
    MARKDOWN_INLINE_EACH_STATUS(MARKDOWN_INLINE_STATUS)
#undef MARKDOWN_INLINE_STATUS
#define MARKDOWN_INLINE_OPTION(name, words, bit) MARKDOWN_INLINE_OPTION_##name = bit,
    MARKDOWN_INLINE_EACH_OPTION(MARKDOWN_INLINE_OPTION)
#undef MARKDOWN_INLINE_OPTION
    /* CommonMark 0.31.2: its constructs, read by its rules. Take this one, unless you want another set. */
    MARKDOWN_INLINE_COMMONMARK = 0x237e1f,
    /* CommonMark's constructs, read by the rules of the crate `markdown`, which departs from the standard in places. */
    MARKDOWN_INLINE_CRATE = 0x37e1f,
    /* What GitHub adds to them: autolink literals, footnote calls, strikethrough, task list checks. */
    MARKDOWN_INLINE_GFM = 0x1e0,
    /* Math spans. */
    MARKDOWN_INLINE_MATH = 0x8000
};

enum {
#define MARKDOWN_INLINE_NAME(name, words) MARKDOWN_INLINE_NAME_##name,
    MARKDOWN_INLINE_EACH_NAME(MARKDOWN_INLINE_NAME)
#undef MARKDOWN_INLINE_NAME
    MARKDOWN_INLINE_NAME_COUNT
};

/* What a block is, by numbers from 0: a leaf (CommonMark 4), or a quote or an item, which hold blocks (CommonMark 5). */
#define MARKDOWN_INLINE_EACH_BLOCK(X) \
    X(BLANK_LINE, "blank_line") \
    X(THEMATIC_BREAK, "thematic_break") \
    X(HEADING, "heading") \
    X(PARAGRAPH, "paragraph") \
    X(INDENTED_CODE, "indented_code") \
    X(FENCED_CODE, "fenced_code") \
    X(HTML, "html") \
    X(QUOTE, "quote") \
    X(ITEM, "item") \
    X(FRONT_MATTER, "front_matter")

enum {
#define MARKDOWN_INLINE_BLOCK(name, words) MARKDOWN_INLINE_BLOCK_##name,
    MARKDOWN_INLINE_EACH_BLOCK(MARKDOWN_INLINE_BLOCK)
#undef MARKDOWN_INLINE_BLOCK
    MARKDOWN_INLINE_BLOCK_COUNT
};

/* Blocks that are read beside CommonMark's, each by a bit: code fenced with dollars, which is math; and front matter, the lines between two lines of `---` or
 * of `+++` at the start of a document. */
enum { MARKDOWN_INLINE_BLOCKS_MATH = 0x1, MARKDOWN_INLINE_BLOCKS_FRONT_MATTER = 0x2 };

/* Of an item, each by a bit: it begins its list; it ends it; the list is loose, so that its paragraphs have tags in HTML (CommonMark 5.3). */
enum { MARKDOWN_INLINE_BEGINS_LIST = 0x1, MARKDOWN_INLINE_ENDS_LIST = 0x2, MARKDOWN_INLINE_LOOSE_LIST = 0x4 };

/* Whether something begins or ends. */
enum { MARKDOWN_INLINE_ENTER = 0, MARKDOWN_INLINE_EXIT = 1 };

/* Whether what an event names is read a second time: not at all, as a string, or as a text. */
enum { MARKDOWN_INLINE_UNLINKED = 0, MARKDOWN_INLINE_LINKED_STRING = 1, MARKDOWN_INLINE_LINKED_TEXT = 2 };

/* What HTML may contain and how it is written, each by a bit. Without RAW and ANY_LINK nothing of the input becomes markup, and no link leads to a script.
 * RAW:      raw HTML is written as it is, and not as text.
 * ANY_LINK: links and images lead wherever they say, and not only to relative addresses and to listed schemes.
 * LF, CRLF: each line ending of the input is written as a line feed, or as a carriage return and a line feed, and so are those that a page adds. Without
 *           either, line endings stay as they are, and a page adds line feeds. The two together are rejected.
 * Any other bit returns UNKNOWN_OPTION. */
enum { MARKDOWN_INLINE_HTML_RAW = 0x1, MARKDOWN_INLINE_HTML_ANY_LINK = 0x2, MARKDOWN_INLINE_HTML_LF = 0x20, MARKDOWN_INLINE_HTML_CRLF = 0x40 };

/* How texts of strings are written, each by a bit: with a line feed for each line ending (CommonMark 2.1), and with U+FFFD for NUL (CommonMark 2.3). */
enum { MARKDOWN_INLINE_STRING_LINE_FEEDS = 0x1, MARKDOWN_INLINE_STRING_REPLACED_NUL = 0x2 };

/* The number of no event, and of no content, no string, no definition and no byte that is rejected. As a limit it is no limit. */
#define MARKDOWN_INLINE_NONE SIZE_MAX

/* The number of no definition and the code point of no character, in a short event. */
#define MARKDOWN_INLINE_NO_DEFINITION UINT32_MAX

/* A piece of a document, from a place to a place. A place is a byte and a column, which is 0 unless the byte is a tab: then it is how many columns of
 * the tab come before the place. Each piece but the last one ends just after a line ending, and the next one starts on the line after it. So a piece is
 * one line or several, and only the beginning of a line can be left out between two pieces. Of a paragraph in a block quote, "> a *b\n> c*",
 *
 *     {{2, 0, 7, 0}, {9, 0, 11, 0}}    are the pieces: `a *b` with its line ending, and `c*`;
 *     {{2, 0, 6, 0}, {9, 0, 11, 0}}    are refused with MARKDOWN_INLINE_NO_CONTENT: the first ends before its line ending;
 *     {{2, 0, 11, 0}}                  is read, with the `>` of the second line as text.
 *
 * - The caller leaves out the blanks that begin a line, as CommonMark does: let each piece start at the first byte of its line that is no space or tab, or
 *   at its line's end. Blanks that are left in are set apart as SpaceOrTab in most places, but inside code, math and HTML they are part of the text.
 *   markdown_inline_pieces_of_lines makes such pieces of where lines begin.
 * - Nothing can be left out within a line. So in a cell of GFM's tables, where `\|` stands for `|` in code too, read a copy of the cell without these
 *   backslashes. */
typedef struct markdown_inline_piece {
    size_t start, start_vs;
    size_t end, end_vs;
} markdown_inline_piece;

/* The bytes from one index to another. */
typedef struct markdown_inline_range {
    size_t start, end;
} markdown_inline_range;

/* What a call reads. The ranges say where among `labels`, which may be `bytes`, the labels of definitions and of footnote definitions stand, as
 * they are written, with their escapes and without their brackets. A footnote's label stands without its caret too: for `[^a]: b` it is `a`, and `^a`
 * for `[^^a]: b`. What is not used is 0. `options` is MARKDOWN_INLINE_COMMONMARK, to which other sets and options are joined by `|`. */
typedef struct markdown_inline_input {
    const uint8_t *bytes;
    size_t bytes_len;
    const markdown_inline_piece *pieces;
    size_t pieces_len;
    const uint8_t *labels;
    size_t labels_len;
    const markdown_inline_range *definitions;
    size_t definitions_len;
    const markdown_inline_range *footnotes;
    size_t footnotes_len;
    uint32_t options, reserved;
} markdown_inline_input;

/* The beginning or the end of something. An event with none inside it stands for the text between its Enter and its Exit. Some texts have to be made
 * of what is written:
 *
 * - The text of a code or math span is that of its CodeTextData or MathTextData, with a space for each LineEnding. If it then begins and ends with a
 *   space, and is not all spaces, one is taken off each end.
 * - markdown_inline_strings finds the texts of titles and destinations, in which escapes and character references are resolved.
 * - Quotes are text. No event says which of them pair: to make typographic quotes, a caller pairs them by what stands beside them, as emphasis is paired.
 *
 * `vs` is how many columns of the tab at `index` come before the place. `previous` and `next` are the numbers of the events before and after on the
 * chain, or MARKDOWN_INLINE_NONE. */
typedef struct markdown_inline_event {
    uint8_t kind, name, link;
    size_t line, column, index, vs;
    size_t previous, next;
} markdown_inline_event;

/* An event in 16 bytes, without its line, its column and the numbers of its chain. The event's name tells what `definition` is: of the Enter of a link or an
 * image that refers to a definition, the number of that definition in the input; of the Enter of a footnote call, that of the footnote in the input; of the
 * Enter of a character reference that stands for one character, the code point of that character. Of several definitions with one identifier the first
 * counts. For all other events, and for numbers that do not fit, it is MARKDOWN_INLINE_NO_DEFINITION: so of a reference by a name that stands for two
 * characters, as `&ngE;`, whose text markdown_inline_reference finds. `vs` is 255 at most. */
typedef struct markdown_inline_short_event {
    uint8_t kind, name, link, vs;
    uint32_t definition;
    size_t index;
} markdown_inline_short_event;

/* A leaf: an event with no other inside it, from where it begins to where it ends, and what stands there. Mostly its bytes are those from `start` on, and
 * `before` and `after` are 0. If it begins inside a tab, where `start_vs` is above 0, its bytes begin behind that tab, and `before` counts the leaf's columns
 * in that tab. If it ends inside another tab, that tab is the last of its bytes, as one column, and `after` counts the leaf's other columns in it. */
typedef struct markdown_inline_leaf {
    uint8_t name;
    size_t start_line, start_column, start, start_vs;
    size_t end_line, end_column, end, end_vs;
    size_t before, bytes_len, after;
} markdown_inline_leaf;

/* Where a definition leads: the ranges say where among the labels its destination and its title stand, with escapes and character references
 * resolved. `has_title` is 0 if it has no title; then `title` is not looked at. */
typedef struct markdown_inline_target {
    markdown_inline_range destination, title;
    uint32_t has_title, reserved;
} markdown_inline_target;

/* One of many contents of a document: the numbers of its pieces among those of the input. `first_of_item` is 0 unless it is the first of a list item.
 * Contents come in any order; one may come twice, and one without pieces or bytes has no events. Pieces that belong to no content are not looked at. */
typedef struct markdown_inline_content {
    markdown_inline_range pieces;
    uint32_t first_of_item, reserved;
} markdown_inline_content;

/* How far a call comes. `done` is how many contents, strings or pieces are written, from the first on, or 1 for a document that is written. `count` is how many
 * elements those have that are read. `blamed` is the number of what is rejected, or MARKDOWN_INLINE_NONE. */
typedef struct markdown_inline_outcome {
    size_t done, count, blamed;
} markdown_inline_outcome;

/* How a document is read and written. All zero, as by `= {0}` in C and `= {}` in C++, is CommonMark, safe HTML and the default limit.
 *
 * - `options` are those of an input, and 0 is MARKDOWN_INLINE_COMMONMARK. To add a construct of GitHub's, join its bit to that set. A document itself knows
 *   which text is the first of a list item, and footnotes of documents are not there yet: MARKDOWN_INLINE_OPTION_FIRST_OF_ITEM and
 *   MARKDOWN_INLINE_OPTION_GFM_LABEL_START_FOOTNOTE return UNKNOWN_OPTION, and so does MARKDOWN_INLINE_GFM, which has the latter.
 * - `blocks` are the bits of the blocks that are read beside CommonMark's, such as MARKDOWN_INLINE_BLOCKS_MATH. Math is rendered as code whose classes are
 *   `language-math` and `math-display`; front matter is left out.
 * - `html` is what HTML may contain and how it is written, by the bits above.
 * - `limit` is how many bytes references to definitions may expand to. Each link and each image that refers to a definition counts the bytes of its destination
 *   and of its title: n references to a definition of n bytes expand to n * n bytes. These are bytes of the text, before they are escaped: of each of them HTML
 *   may have up to 9. 0 is the default, which is cmark's: the larger of 100000 and the length of the document. MARKDOWN_INLINE_NONE is no limit.
 *
 * The other fields are reserved and have to be 0, else the call returns UNKNOWN_OPTION. */
typedef struct markdown_inline_document_options {
    uint32_t options, html, blocks, reserved;
    size_t limit;
    size_t reserved_words[13];
} markdown_inline_document_options;

/* A block of a document. Its kind is one of MARKDOWN_INLINE_EACH_BLOCK. A quote or an item stands before what it holds.
 *
 * - `pieces` are the numbers of its pieces, which stand behind those of the block before. The pieces of a heading or a paragraph are a text of the document,
 *   as markdown_inline_texts takes it: none of a paragraph that had definitions alone. Those of code, of HTML and of front matter are its lines, each with its line
 *   ending; of fenced code the first piece is the info string, which may be empty. Blank lines behind indented code are among its lines, and are left out of a page.
 * - `depth` is how many quotes and items stand round it.
 * - `number` is the level of a heading, 1 to 6; the number of an item of an ordered list; the kind of HTML, 1 to 7 (CommonMark 4.6); else 0.
 * - `line` is the number of the line on which it begins, from 1: of a text that has definitions at its front, the line of the first of these; of fenced code
 *   that of its fence. It is never lower than that of the block before.
 * - `marker` is the byte of an item's marker, which is '-', '+' or '*', or '.' or ')' behind a number; of fenced code that of its fence, '`' or '~', or '$' of math; else 0.
 * - `list` has the bits MARKDOWN_INLINE_BEGINS_LIST, MARKDOWN_INLINE_ENDS_LIST and MARKDOWN_INLINE_LOOSE_LIST, of an item; else it is 0.
 *
 * A line of code or HTML may begin inside a tab: then `start_vs` of its piece is how many columns of that tab come before it, and it has the other columns as
 * so many spaces. Tabs end at each fourth column of a line of the document.
 *
 * Each piece is of one line. One that has bytes or columns starts and ends where these do. A byte order mark at the front of the document is in no piece, but
 * positions and columns count it. */
typedef struct markdown_inline_block {
    markdown_inline_range pieces;
    size_t depth, number, line;
    uint8_t kind, marker, list, reserved;
    uint32_t reserved_too;
} markdown_inline_block;

/* How many blocks a document has, and how many pieces they have. */
typedef struct markdown_inline_blocks_count {
    size_t blocks, pieces;
} markdown_inline_blocks_count;

/* How many definitions a document has, and how many bytes their labels, destinations and titles have. */
typedef struct markdown_inline_definitions_count {
    size_t definitions, labels;
} markdown_inline_definitions_count;

/* Sizes and alignment, in bytes. */
typedef char markdown_inline_checks_sizes[sizeof(size_t) == 8 && sizeof(void *) == 8 && sizeof(markdown_inline_piece) == 32
    && sizeof(markdown_inline_range) == 16 && sizeof(markdown_inline_input) == 88 && sizeof(markdown_inline_event) == 56 && sizeof(markdown_inline_leaf) == 96
    && sizeof(markdown_inline_target) == 40 && sizeof(markdown_inline_content) == 24 && sizeof(markdown_inline_short_event) == 16 && sizeof(markdown_inline_outcome) == 24
    && sizeof(markdown_inline_block) == 48 && sizeof(markdown_inline_blocks_count) == 16 && sizeof(markdown_inline_definitions_count) == 16
    && sizeof(markdown_inline_document_options) == 128 && offsetof(markdown_inline_document_options, blocks) == 8
    && offsetof(markdown_inline_document_options, limit) == 16 && offsetof(markdown_inline_document_options, reserved_words) == 24
    && offsetof(markdown_inline_input, options) == 80 && offsetof(markdown_inline_event, line) == 8 ? 1 : -1];

/* The version of the library. */
MARKDOWN_INLINE_API uint32_t markdown_inline_version(void);

/* Renders a document to HTML, in UTF-8: its blocks and the text inside them, following CommonMark 0.31.2. The document's own definitions count, and the call
 * takes no others. A byte order mark at the front is no part of its text.
 * The HTML of most documents is less than twice as long as the document. Pass an array of that size, since a call with too small an array does all the work and
 * writes nothing.
 * DONE: the HTML is at the front of the array; `count` of the outcome is its length in bytes, and `done` is 1.
 * TOO_SMALL: `count` is the length of the HTML, `done` is 0, and the array is as before; call again with an array of that length.
 * UNKNOWN_OPTION, TOO_LONG, NOT_UTF8, REFERENCES, NO_MEMORY: nothing is written but the outcome, of which `done` and `count` are 0. The first four are found in
 * this order. REFERENCES: references expand to more bytes than the limit. With NOT_UTF8, `blamed` is the index of the first byte that is not UTF-8; all before
 * it is UTF-8. With every other status it is MARKDOWN_INLINE_NONE. */
MARKDOWN_INLINE_API uint32_t markdown_inline_document_html(const uint8_t *bytes, size_t bytes_len, const markdown_inline_document_options *options,
    uint8_t *html, size_t html_len, markdown_inline_outcome *outcome);

/* Finds the blocks of a document, in its order, with the pieces of their texts, as CommonMark 0.31.2 says: for a caller who renders a document himself, or
 * checks it. Of "# a\n\n> b" the blocks are a heading with the piece `a`, a blank line, a quote, and one deeper a paragraph with the piece `b`.
 * The pieces are those of an input for the same document. A content that has the pieces of a heading or of a paragraph gets from markdown_inline_texts the
 * events of its inline tree, and from markdown_inline_htmls its HTML, if the input has the definitions that markdown_inline_definitions finds.
 * Most documents have fewer than one block and one piece in 40 bytes, and no document that is tested has more of either than twice its bytes; no bound is
 * proved. A call without room tells how many they are, and does all the work.
 * `block_options` are those of markdown_inline_document_options, of the field `blocks`; 0 is CommonMark alone.
 * DONE: the blocks and the pieces stand at the fronts of their arrays, and `count` is how many they are. TOO_SMALL: `count` is how many they are, one of the
 * arrays has too little room, and both are as before; call again with room for them. UNKNOWN_OPTION, TOO_LONG, NOT_UTF8, NO_MEMORY: nothing is written. */
MARKDOWN_INLINE_API uint32_t markdown_inline_blocks(const uint8_t *bytes, size_t bytes_len, uint32_t block_options, markdown_inline_block *blocks,
    size_t blocks_len, markdown_inline_piece *pieces, size_t pieces_len, markdown_inline_blocks_count *count);

/* Finds the link reference definitions of a document, in its order, as an input with the option MARKDOWN_INLINE_COMMONMARK takes them, and the targets that
 * markdown_inline_htmls takes (CommonMark 4.7). All definitions come, also those whose label an earlier one has. The labels stand as they are written, and in
 * destinations and titles escapes and character references are resolved. Of "[a]: b\n[c]: <d&amp;> 'e'" the labels are "abcd&e".
 * DONE: labels, definitions and targets stand at the fronts of their arrays. `count` is how many definitions there are, with one target each, and how many
 * bytes stand among the labels. TOO_SMALL: `count` is that too, one of the arrays has too little room, and all are as before; call again with room for them.
 * UNKNOWN_OPTION, TOO_LONG, NOT_UTF8, NO_MEMORY: nothing is written. `block_options` are those of markdown_inline_blocks. */
MARKDOWN_INLINE_API uint32_t markdown_inline_definitions(const uint8_t *bytes, size_t bytes_len, uint32_t block_options, uint8_t *labels, size_t labels_len,
    markdown_inline_range *definitions, size_t definitions_len, markdown_inline_target *targets, size_t targets_len, markdown_inline_definitions_count *count);

/* Whether the pieces are a content of the document: DONE, or TOO_LONG, NOT_UTF8, NO_CONTENT or NO_MEMORY. */
MARKDOWN_INLINE_API uint32_t markdown_inline_is_content(const uint8_t *bytes, size_t bytes_len, const markdown_inline_piece *pieces, size_t pieces_len);

/* Whether the pieces are a text of the document, which is a content without a blank line: DONE, or the statuses above, or BLANK_LINE. */
MARKDOWN_INLINE_API uint32_t markdown_inline_is_text(const uint8_t *bytes, size_t bytes_len, const markdown_inline_piece *pieces, size_t pieces_len);

/* Makes the pieces of a paragraph of where its lines begin. The start of a line is the byte at which the paragraph's part of it begins: behind the markers of
 * quotes and items; blanks may stand there. Of "> a *b\n> c*" the starts {1, 8}, or {2, 9}, make the pieces {2, 0, 7, 0} and {9, 0, 11, 0}.
 * There is a piece for each start, of the same number. It begins at the first byte from its start on that is no space or tab, and ends just after its line's
 * ending; the last one ends before the spaces, tabs and line ending at its end. The columns of tabs are 0. The call reads these lines alone: it does not test
 * the document. If that is UTF-8, the pieces are a text of it.
 * DONE: the pieces stand at the front of the array, and `done` and `count` of the outcome are how many they are. TOO_SMALL: `count` is how many they are.
 * NO_CONTENT: `blamed` is the number of the first start that stands inside a character, behind the end of the document, or not on the line after that of
 * the start before. BLANK_LINE: it is that of the first one whose line has only spaces and tabs behind it. So of two that are refused the first is blamed.
 * The outcome is written with each status. */
MARKDOWN_INLINE_API uint32_t markdown_inline_pieces_of_lines(const uint8_t *bytes, size_t bytes_len, const size_t *starts, size_t starts_len,
    markdown_inline_piece *pieces, size_t pieces_len, markdown_inline_outcome *outcome);

/* Finds the events of the input's pieces as a string: of escapes, character references and data. Each call tests the whole document and passes all
 * that stands before the pieces, so a call for each string of a document takes quadratic time: hand over a string as a document of its own. Labels and
 * definitions are not looked at. DONE: the events stand at the front of the array, and `*count` is how many they are. TOO_SMALL: `*count` is how many
 * they are, and the array is as before; call again with room for them. Otherwise nothing is written. */
MARKDOWN_INLINE_API uint32_t markdown_inline_string(const markdown_inline_input *input, markdown_inline_event *events, size_t events_len, size_t *count);

/* Finds the events of the input's pieces as a text: of the inside of a paragraph, a heading or a table's cell. Each call tests the whole document,
 * passes all that stands before the pieces, and sorts the labels, so a call for each paragraph of a document takes quadratic time: for many contents
 * call markdown_inline_texts. The rest is as above.
 * A call without room tells how many events there are. No bound on them is proved. The most that were measured are 28 events for the 5 bytes of `[](a)`, again
 * and again, and no text that is tested has more than 6 for each byte. There are half as many leaves as events at most. */
MARKDOWN_INLINE_API uint32_t markdown_inline_text(const markdown_inline_input *input, markdown_inline_event *events, size_t events_len, size_t *count);

/* Finds the leaves of the input's pieces as a text, in order: together they cover the pieces, each code once. A call costs what that for events does:
 * for many contents call markdown_inline_texts. The rest is as for events. */
MARKDOWN_INLINE_API uint32_t markdown_inline_leaves(const markdown_inline_input *input, markdown_inline_leaf *leaves, size_t leaves_len, size_t *count);

/* Finds the identifier of a label, as labels are compared: its words joined by one space and case folded, in UTF-8. DONE: it stands at the front of
 * the array, and `*count` is how many bytes it has. TOO_SMALL, NOT_UTF8 and NO_MEMORY are as above. */
MARKDOWN_INLINE_API uint32_t markdown_inline_identifier(const uint8_t *label, size_t label_len, uint8_t *identifier, size_t identifier_len, size_t *count);

/* Finds the text that a character reference stands for, in UTF-8. The bytes are the whole reference, with its `&` and its `;`. The options are those of
 * an input: MARKDOWN_INLINE_OPTION_HTML_REFERENCES and MARKDOWN_INLINE_OPTION_STANDARD_RULES say that each name of HTML is known, and the latter says
 * too that a number stands for a control or a noncharacter; the other bits change nothing. DONE: the text stands at the front of the array, and
 * `*count` is how many bytes it has. NO_REFERENCE: the bytes are no reference, or its name is not known. UNKNOWN_OPTION, TOO_SMALL and NO_MEMORY are as above. */
MARKDOWN_INLINE_API uint32_t markdown_inline_reference(uint32_t options, const uint8_t *reference, size_t reference_len, uint8_t *text, size_t text_len, size_t *count);

/* Calls for many contents or strings read one after another. They write the results one behind another, at the front of an array; and at the front of
 * `ends`, where in that array each result ends. They write from the first result on, each whole and with its end, until one has no room. The rest of the
 * two arrays stays as it was. The outcome is written with each status.
 * DONE: all are read and written. `count` is how many elements they have.
 * TOO_SMALL: all are read, and there is not room for all. `count` is how many elements they have. To go on, call for those from number `done` on, with room
 *     for the elements that are missing: then none is read more than twice.
 * NO_CONTENT, BLANK_LINE, REFERENCES, NO_STRING: `blamed` is the number of the first that is refused. Those before it are read, and `count` is how many
 *     elements they have: so a caller can go on behind it.
 * NO_MEMORY: some are read, from the first on, and `count` is how many elements they have.
 * DEFINITION: `blamed` is the number of the definition that is refused; footnotes are counted on behind the definitions. Nothing is read.
 * NOT_UTF8: `blamed` is the first byte of the document that is not UTF-8. All before it is UTF-8. Nothing is read. A call for no contents tests a document.
 * UNKNOWN_OPTION, TOO_LONG: nothing is read. */

/* Finds the events of many contents of a document, read as texts. The document is prepared once, so each content costs about what it costs by itself.
 * The input has the pieces of all contents. Each content, and not the options, says whether it is the first of a list item. Numbers of events
 * count within a content. Of what is wrong the order is 2, 9, 3, 8; then 7 or 4 for the first content that is no text.
 * Threads may share the contents of one input: each thread calls with some of them, and with arrays of its own. Each call prepares the document for itself. */
MARKDOWN_INLINE_API uint32_t markdown_inline_texts(const markdown_inline_input *input, const markdown_inline_content *contents, size_t contents_len,
    markdown_inline_event *events, size_t events_len, size_t *ends, size_t ends_len, markdown_inline_outcome *outcome);

/* Finds the same events in 16 bytes each, with the definitions that links, images and footnote calls refer to, and the characters that character references
 * stand for: which is all that a renderer needs. An event has the number of a definition and no copy of what that says, so the call has no limit. A caller
 * that copies destinations and titles to references needs a limit, as markdown_inline_html has. */
MARKDOWN_INLINE_API uint32_t markdown_inline_short_texts(const markdown_inline_input *input, const markdown_inline_content *contents, size_t contents_len,
    markdown_inline_short_event *events, size_t events_len, size_t *ends, size_t ends_len, markdown_inline_outcome *outcome);

/* Writes the HTML of the input's pieces as a text, in UTF-8. Each call tests the whole document, passes all that stands before the pieces, and sorts the
 * definitions, so a call for each paragraph of a document takes quadratic time: for many contents call markdown_inline_htmls, which numbers footnotes
 * through all of them. There is one target for each definition, in the same order, which says where it leads. `options` are the bits of HTML, such as
 * MARKDOWN_INLINE_HTML_RAW. Each call numbers footnotes from 1 on.
 * `limit` is that of markdown_inline_document_options, for the length of the input's document. The bytes that count are those that the target has. A link or an
 * image with a resource, as `[a](b)`, refers to no definition. REFERENCES: references expand to more bytes than the limit. DONE: the HTML stands at the front of the array, and `*count` is how many bytes it has. DEFINITION: a label or a target is no text of the labels, or
 * there is not one target for each definition. The rest is as for events. */
MARKDOWN_INLINE_API uint32_t markdown_inline_html(const markdown_inline_input *input, const markdown_inline_target *targets, size_t targets_len, uint32_t options,
    size_t limit, uint8_t *html, size_t html_len, size_t *count);

/* Writes the HTML of all of these bytes as a text: what markdown_inline_html writes of an input that has them as one piece, with no definitions. `options`
 * are those of an input, and `html_options` are those of markdown_inline_html. The caller leaves off a line ending at the end. The rest is as above. */
MARKDOWN_INLINE_API uint32_t markdown_inline_html_of(const uint8_t *bytes, size_t bytes_len, uint32_t options, uint32_t html_options,
    uint8_t *html, size_t html_len, size_t *count);

/* Writes the HTML of many contents of a document, read as texts. The document is prepared once, so each content costs about what it costs by itself.
 * Contents are those of markdown_inline_texts, and targets and `options` those of markdown_inline_html. Footnotes are numbered through all contents,
 * and a second call of a footnote has another id than the first. Ids are made of labels, so two footnotes may share one: the second call of `a` has the id
 * of the first call of `a-2`, and `a b` has that of `a%20b`.
 * `limit` is that of markdown_inline_html, for the references of all contents together.
 * The HTML is written as calls for many write. If footnotes are called, a call after TOO_SMALL is for all contents again, with room for `count` bytes, since
 * footnotes are numbered through the contents of one call. Of what is wrong the order is 2, 9, 3, 8; then 7, 4 or 11 for the first content that is no
 * text, or at which definitions have brought more than the limit. With 8 the definition is refused whose label or target is no text of the labels; if there
 * is not one target for each definition, `blamed` is MARKDOWN_INLINE_NONE. */
MARKDOWN_INLINE_API uint32_t markdown_inline_htmls(const markdown_inline_input *input, const markdown_inline_target *targets, size_t targets_len,
    const markdown_inline_content *contents, size_t contents_len, uint32_t options, size_t limit, uint8_t *html, size_t html_len, size_t *ends,
    size_t ends_len, markdown_inline_outcome *outcome);

/* Finds the texts of strings: of a link's destination or title, of a definition's, of an info string. Escaped punctuation stands in place of its escape, and
 * in place of each character reference its text (CommonMark 2.4 and 2.5); all other bytes stay. `options` are those of an input, and mean what they mean to
 * markdown_inline_reference: take those by which the document is read. `string_options` has the bits MARKDOWN_INLINE_STRING_LINE_FEEDS and
 * MARKDOWN_INLINE_STRING_REPLACED_NUL. Without them line endings and NUL stay. They leave references alone: the text of `&#13;` is CR, with or without them.
 *
 * A part is a range of the bytes, in any order; a string is a range of numbers of parts, whose bytes are one text. Where a string stands in a paragraph, its
 * parts are what the events Data and LineEnding between the Enter and the Exit of ResourceDestinationString or ResourceTitleString cover: so prefixes of lines,
 * and whitespace that begins them, are no part of it. A string that stands alone is one part; an empty one may have none.
 *
 * The texts are written as calls for many write. NO_STRING: a string has a part that is not given, or one that is no text of the bytes. By the names that are
 * known without an option, no text is longer than its parts. By all names of HTML it is longer by a fifth at most. Each NUL that is written as U+FFFD takes
 * two bytes more. All this is tested and not proved. */
MARKDOWN_INLINE_API uint32_t markdown_inline_strings(uint32_t options, uint32_t string_options, const uint8_t *bytes, size_t bytes_len,
    const markdown_inline_range *parts, size_t parts_len, const markdown_inline_range *strings, size_t strings_len, uint8_t *texts, size_t texts_len, size_t *ends, size_t ends_len, markdown_inline_outcome *outcome);

/* What a status says, or a null pointer for a number that is none. This function and the next one are not proved. */
MARKDOWN_INLINE_API const char *markdown_inline_status_text(uint32_t status);

/* The name of an event by its number, or a null pointer for a number that is none. */
MARKDOWN_INLINE_API const char *markdown_inline_name_text(uint8_t name);

#ifdef __cplusplus
}
#endif
#endif
