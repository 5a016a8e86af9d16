/* What the library's module needs in WebAssembly, and what JavaScript calls of it: a heap, the calls, and offsets in UTF-16.
 *
 * The module is compiled for memory of 64 bits, as the header asks, and then lowered to 32 bits. A call gets its arguments as 64-bit numbers in memory,
 * one behind another, so that none crosses by itself: JavaScript would need a BigInt for it. */
#include "markdown_inline.h"

#define EXPORTED(name) __attribute__((export_name(name)))
#define PAGE 65536ull

typedef uint8_t u8;
typedef uint32_t u32;
typedef uint64_t u64;

/* The heap. The library keeps nothing after a call, so JavaScript lays out by itself what a call is handed, and says with each call where the heap begins. */

extern u8 __heap_base;
/* The bytes from `top` on are free, and memory ends at `limit` at most. */
static u64 top, limit = 65535 * PAGE;

/* How many bytes the memory has. Once it is lowered, a refused memory.grow answers 0xffffffff and not -1, so its answer is not looked at. */
static u64 size(void) { return (u64)(u32)__builtin_wasm_memory_size(0) * PAGE; }

/* Whether the memory reaches to an end. It grows by a quarter where that is granted. */
static int reaches(u64 end) {
    u64 now = size();
    if (end <= now) return 1;
    if (end > limit) return 0;
    u64 wanted = (end - now + PAGE - 1) / PAGE, quarter = now / PAGE / 4;
    if (quarter > wanted && now + quarter * PAGE <= limit) {
        __builtin_wasm_memory_grow(0, quarter);
        if (end <= size()) return 1;
    }
    __builtin_wasm_memory_grow(0, wanted);
    return end <= size();
}

/* Room of n bytes at the top, or null. All rooms are multiples of 16 bytes. */
static void *room_at_top(u64 n) {
    if (n > limit || !reaches(top + n)) return NULL;
    void *at = (void *)top;
    top += n;
    return at;
}

/* A block has a head, which says how much room is behind it. Blocks that were given back stand in lists, by the class of their room: there are four
 * classes for each power of two. */
typedef struct block {
    u64 room;
    struct block *next;
} block;
static block *given_back[160];
static int is_any_given_back;

/* The class of n bytes, and the room that blocks of this class have. */
static u64 class_of(u64 n, u64 *room) {
    if (n <= 64) {
        *room = n == 0 ? 16 : (n + 15) & ~15ull;
        return *room / 16;
    }
    u64 power = 63 - __builtin_clzll(n - 1), shift = power - 2, step = 1ull << shift;
    *room = (n + step - 1) & ~(step - 1);
    return (power - 4) * 4 + ((*room - 1) >> shift & 3);
}

/* What the library's functions of memory answer: whether there is room, and where. */
typedef struct { u64 done; void *at; } answer;
static answer answer_of(void *at) {
    static u8 nothing;
    return (answer){at != NULL, at ? at : &nothing};
}

answer rattle_alloc(u64 n, u64 align) {
    if (n > limit || align > 16) return answer_of(NULL);
    u64 room, class = class_of(n, &room);
    block *found = given_back[class];
    if (found) {
        given_back[class] = found->next;
    } else {
        found = room_at_top(sizeof(block) + room);
        if (!found) return answer_of(NULL);
        found->room = room;
    }
    return answer_of(found + 1);
}

void rattle_dealloc(void *at) {
    block *it = (block *)at - 1;
    if ((u64)at + it->room == top) {
        top = (u64)it;
        return;
    }
    u64 room, class = class_of(it->room, &room);
    it->next = given_back[class];
    given_back[class] = it;
    is_any_given_back = 1;
}

answer rattle_realloc(void *at, u64 old, u64 n, u64 align) {
    block *it = (block *)at - 1;
    if (n <= it->room) return answer_of(at);
    if (n > limit) return answer_of(NULL);
    if ((u64)at + it->room == top) {
        u64 room;
        class_of(n, &room);
        if (!room_at_top(room - it->room)) return answer_of(NULL);
        it->room = room;
        return answer_of(at);
    }
    answer found = rattle_alloc(n, align);
    if (found.done) {
        __builtin_memcpy(found.at, at, old < n ? old : n);
        rattle_dealloc(at);
    }
    return found;
}

/* Where the first byte is that JavaScript may use. */
EXPORTED("base") u32 base(void) { return (u32)(((u64)&__heap_base + 15) & ~15ull); }

/* Whether the memory reaches to an end. */
EXPORTED("reach") u32 reach(u32 end) { return (u32)reaches(end); }

EXPORTED("limit") void set_limit(u32 pages) { limit = pages * PAGE; }

/* Begins a heap that has nothing. */
static void empty(u32 from) {
    top = from;
    if (!is_any_given_back) return;
    for (int at = 0; at < 160; at++) given_back[at] = NULL;
    is_any_given_back = 0;
}

/* The calls. `a` is where the arguments stand, and the heap begins at a multiple of 16. */

#define CALL(name, ...) \
    EXPORTED(#name) u32 name(u32 arguments, u32 from) { \
        const u64 *a = (const u64 *)(u64)arguments; \
        empty(from); \
        return markdown_inline_##name(__VA_ARGS__); \
    }
#define AT(n) ((void *)a[n])

EXPORTED("version") u32 version(void) { return markdown_inline_version(); }
CALL(document_html, AT(0), a[1], AT(2), AT(3), a[4], AT(5))
CALL(blocks, AT(0), a[1], (u32)a[2], AT(3), a[4], AT(5), a[6], AT(7))
CALL(definitions, AT(0), a[1], (u32)a[2], AT(3), a[4], AT(5), a[6], AT(7), a[8], AT(9))
CALL(is_content, AT(0), a[1], AT(2), a[3])
CALL(is_text, AT(0), a[1], AT(2), a[3])
CALL(pieces_of_lines, AT(0), a[1], AT(2), a[3], AT(4), a[5], AT(6))
CALL(string, AT(0), AT(1), a[2], AT(3))
CALL(text, AT(0), AT(1), a[2], AT(3))
CALL(leaves, AT(0), AT(1), a[2], AT(3))
CALL(identifier, AT(0), a[1], AT(2), a[3], AT(4))
CALL(reference, (u32)a[0], AT(1), a[2], AT(3), a[4], AT(5))
CALL(texts, AT(0), AT(1), a[2], AT(3), a[4], AT(5), a[6], AT(7))
CALL(short_texts, AT(0), AT(1), a[2], AT(3), a[4], AT(5), a[6], AT(7))
CALL(html, AT(0), AT(1), a[2], (u32)a[3], a[4], AT(5), a[6], AT(7))
CALL(htmls, AT(0), AT(1), a[2], AT(3), a[4], (u32)a[5], a[6], AT(7), a[8], AT(9), a[10], AT(11))
CALL(strings, (u32)a[0], (u32)a[1], AT(2), a[3], AT(4), a[5], AT(6), a[7], AT(8), a[9], AT(10), a[11], AT(12))

/* Offsets in UTF-16. A note for each 1024 bytes says how many units stand before, and how many bytes more than units stand before the line there. */

#define EACH 1024ull
typedef struct { u32 units, more; } note;
typedef struct { const u8 *bytes; u64 len, at; note now, *notes; } cursor;

static u32 units_of(u8 byte) { return ((byte & 0xc0) != 0x80) + (byte >= 0xf0); }

static void walk(cursor *c, u64 to) {
    for (; c->at < to; c->at++) {
        u8 byte = c->bytes[c->at];
        c->now.units += units_of(byte);
        if (byte == '\n' || byte == '\r') c->now.more = (u32)(c->at + 1) - c->now.units;
    }
}

/* Whether there is room for the notes of a document, from a place on. */
static int begin(cursor *c, u32 bytes, u32 len, u32 from) {
    u64 many = len / EACH + 1;
    empty(from);
    *c = (cursor){.bytes = (const u8 *)(u64)bytes, .len = len, .notes = room_at_top((many * sizeof(note) + 15) & ~15ull)};
    if (!c->notes) return 0;
    for (u64 at = 0; at < many; at++) {
        c->notes[at] = c->now;
        walk(c, (at + 1) * EACH < len ? (at + 1) * EACH : len);
    }
    return 1;
}

static void seek(cursor *c, u64 to) {
    if (to > c->len) to = c->len;
    if (to < c->at || to > c->at + EACH) {
        c->at = to & ~(EACH - 1);
        c->now = c->notes[to / EACH];
    }
    walk(c, to);
}

/* Writes offsets into the upper half of a number of each row, whose lower half is a byte, and columns beside columns in bytes likewise, where rows have
 * them. They stand so many bytes behind the start of a row, and rows are so many bytes apart. It answers whether there was room. */
EXPORTED("to_units") u32 to_units(u32 bytes, u32 len, u32 rows, u32 many, u32 apart, u32 place, u32 has_column, u32 column, u32 from) {
    cursor c;
    if (!begin(&c, bytes, len, from)) return 0;
    for (u8 *row = (u8 *)(u64)rows; many > 0; many--, row += apart) {
        u32 *byte = (u32 *)(row + place), *columns = (u32 *)(row + column);
        seek(&c, byte[0]);
        byte[1] = c.now.units;
        if (has_column) columns[1] = columns[0] - ((u32)c.at - c.now.units - c.now.more);
    }
    return 1;
}

/* Replaces an offset at each of these places by its byte; by the largest number where it stands in a pair of surrogates or behind the document, so that the
 * library refuses it. It answers whether there was room. */
EXPORTED("to_bytes") u32 to_bytes(u32 bytes, u32 len, u32 offsets, u32 many, u32 apart, u32 from) {
    cursor c;
    if (!begin(&c, bytes, len, from)) return 0;
    for (u8 *row = (u8 *)(u64)offsets; many > 0; many--, row += apart) {
        u64 wanted = *(u64 *)row, low = c.at / EACH, high = len / EACH + 1;
        if (wanted < c.now.units) low = 0;
        /* The last note with no more units than wanted; the next bytes are looked at first. */
        if (wanted < c.now.units || wanted > c.now.units + EACH) {
            while (high - low > 1) {
                u64 mid = (low + high) / 2;
                if (c.notes[mid].units <= wanted) low = mid; else high = mid;
            }
            c.at = low * EACH;
            c.now = c.notes[low];
        }
        while (c.at < len && (c.now.units < wanted || units_of(c.bytes[c.at]) == 0)) walk(&c, c.at + 1);
        *(u64 *)row = c.now.units == wanted ? c.at : ~0ull;
    }
    return 1;
}

/* The product of numbers of 128 bits, which the compiler calls. */
unsigned __int128 __multi3(unsigned __int128 x, unsigned __int128 y) {
    u64 a = (u64)x, b = (u64)y, low_a = (u32)a, low_b = (u32)b, high_a = a >> 32, high_b = b >> 32;
    u64 low = low_a * low_b, first = high_a * low_b, second = low_a * high_b;
    u64 middle = (low >> 32) + (u32)first + (u32)second;
    u64 high = high_a * high_b + (first >> 32) + (second >> 32) + (middle >> 32) + a * (u64)(y >> 64) + (u64)(x >> 64) * b;
    return (unsigned __int128)high << 64 | middle << 32 | (u32)low;
}
