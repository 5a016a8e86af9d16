/* Writes the HTML of what it reads, by md4c: emphasis, links and the rest of CommonMark, with strikethrough, autolink literals and math.
 * With the word `commonmark` it reads CommonMark alone.
 * usage: md4c [commonmark] < DOCUMENT */
#include <stdio.h>
#include <stdlib.h>
#include <string.h>

/* As md4c-html.h declares it; the flags are those of md4c.h. */
int md_html(const char *input, unsigned size, void (*output)(const char *, unsigned, void *), void *data, unsigned parser, unsigned renderer);

enum { URL_LITERALS = 0x4, EMAIL_LITERALS = 0x8, STRIKETHROUGH = 0x200, WWW_LITERALS = 0x400, MATH = 0x1000 };

static void put(const char *text, unsigned size, void *data) { fwrite(text, 1, size, data); }

int main(int words, char **word) {
    size_t held = 0, room = 1 << 16;
    char *text = malloc(room);
    while (text) {
        size_t got = fread(text + held, 1, room - held, stdin);
        if (!got) break;
        held += got;
        if (held == room) text = realloc(text, room *= 2);
    }
    if (!text) return 5;
    unsigned all = URL_LITERALS | EMAIL_LITERALS | WWW_LITERALS | STRIKETHROUGH | MATH;
    return md_html(text, (unsigned)held, put, stdout, words > 1 && !strcmp(word[1], "commonmark") ? 0 : all, 0);
}
