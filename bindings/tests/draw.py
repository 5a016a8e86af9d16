#!/usr/bin/env python3
"""Draws cases by a seed: documents of prose and constructs, whole or as pieces behind prefixes, some cut within a tab, with options and definitions.

usage: draw.py SEED COUNT ROWS CASES MORE

ROWS gets them as the program of crates/markdown_test_runs reads them, and CASES as the callers here do: how it is read, the bits of the options,
the pieces, the labels of definitions and of footnotes, the document; texts in hexadecimal, `-` for none, commas between pieces and labels. MORE gets
calls that the program does not make, which the callers compare among each other: a text's leaves; its HTML, with two words more, the bits of what it
may hold, and the destination of each definition behind a `=`, with a title behind a colon where it has one; the texts of several contents, also in short
events, with one word more, each content's first and last piece, and whether it begins a list item; and the HTML of a document, and its blocks, with three words
more, the bits of what the HTML may hold, how many bytes definitions may bring, where 0 is the default, and the bits of the blocks beside CommonMark's."""
import os
import random
import re
import sys

sys.path.insert(0, os.path.join(os.path.dirname(os.path.abspath(__file__)), '..', 'python', 'markdown_inline'))
from _tables import COMMONMARK, CRATE, GFM, MATH, OPTIONS  # noqa: E402

# What the program calls the options.
CONSTRUCTS = ['commonmark' if name == 'standard_rules' else name for name in OPTIONS]
FIRST_OF_ITEM = OPTIONS['first_of_item']
# Drawn as often as not; and what says a part of the last of them, drawn in a quarter of the cases.
RARE = FIRST_OF_ITEM | OPTIONS['standard_rules']
PARTS_OF_RULES = sum(OPTIONS[name] for name in ('attention_first_lengths', 'label_shortcut_before_bracket', 'html_references'))
# What a document may be read with, beside CommonMark. Blocks of math, which have the bit 1, are read with math in texts.
MATH_TEXT = OPTIONS['math_text']
OF_DOCUMENTS = [*(OPTIONS[name] for name in ('gfm_strikethrough', 'gfm_autolink_literal', 'gfm_task_list_item')), MATH_TEXT]
# The bits of HTML by which line endings are written.
LINE_ENDS = [0, 0, 0x20, 0x40]
PARTS = ['a', 'bc', 'é', '漢', '😀', ' ', '  ', '\t', '*', '**', '_', '~', '~~', '`', '``', '$', '$$', '[', ']', '![', '](', ')', '(', '<', '>', '"', "'",
         '\\', '&', ';', '!', '#', '@', ':', '.', '/', '[x] ', '[a]', '[^n]', '[b c][]', '[d](e "f")', '![g](<h i>)', '&amp;', '&#65;', '&#x1f4a9;', '&copy;',
         '&nosuch;', '&check;', '<https://j.k>', '<l@m.n>', 'https://o.p/q', 'www.r.s', 't@u.v', '<w x="y">', '</z>', '<!-- c -->', '<?p?>', '\\*', '\\\n', '  \n', '\n',
         '\n', '\r\n', '\r', '*a*', '**b**', '_c_ ', '~d~', '`e f`', '$g$', 'word ', '\0']
PREFIXES = ['', '> ', '>', '   ', '- ', '\t', ' \t', '>\t', '1. ']
LABELS = ['a', 'b c', 'd', 'é', 'word', 'x']
NOTES = ['n', 'a', '*b*']
TARGETS = ['', '/u', 'http://v.w', 'javascript:x', ' y:z', '"&<>', 'é?a=b&c', 'mailto:d@e']
BLOCKS = ['', '', '# ', '    ', '- ', '- [ ] ', '3) ', '> ', '~~~ é\n', '<div>\n', '[a]: /u "f"\n', '[A]: v\n\n[a] ![b][a]\n', '***\n', '-\t\t', '>\t\t',
          '$$ é\n', '$$\n*a*\n$$\n', '> $$$\n> $$\n']
# What begins a document: front matter, or lines that are none.
MATTERS = ['---\na: b\n---\n', '+++\r\n[a]: /m\r\n\r\n+++ \r\n', '\ufeff---\n---\n', '---\n# a\n']
TITLES = [None, '', 'f', 'g "h" <i>', "&amp;'"]
ESCAPES = {'\\': '\\\\', '\n': '\\n', '\r': '\\r', '\t': '\\t', '\0': '\\0'}


def content(draw):
    return ''.join(draw.choice(PARTS) for _ in range(draw.choice([1, 3, 8, 20, 60])))


def pieces_of(draw, text):
    """A document with a prefix before each line, and the pieces behind the prefixes. A piece may start within the last tab of its prefix."""
    document, pieces = b'', []
    for line in re.findall(r'[^\r\n]*(?:\r\n|\r|\n)|[^\r\n]+$', text):
        prefix = draw.choice(PREFIXES).encode()
        start = (len(document) + len(prefix), 0)
        if prefix.endswith(b'\t'):
            width = 4 - (len(prefix) - 1) % 4
            start = (start[0] - 1, draw.randrange(width)) if draw.random() < 0.7 else start
        document += prefix + line.encode()
        pieces.append((start, (len(document), 0)))
    return document, pieces


def case(draw):
    text = content(draw)
    if draw.random() < 0.8:
        text = re.sub(r'(\r\n|\r|\n)[ \t\r\n]*', r'\1', text).strip('\r\n\t ') or 'a'
    if draw.random() < 0.6:
        document, pieces = pieces_of(draw, text)
    else:
        document, pieces = text.encode(), [((0, 0), (len(text.encode()), 0))]
    bits = CRATE | GFM * draw.randrange(2) | MATH * draw.randrange(2) | RARE & draw.getrandbits(len(OPTIONS))
    bits |= PARTS_OF_RULES & draw.getrandbits(len(OPTIONS)) * draw.randrange(2)
    bits ^= sum(bit for bit in OPTIONS.values() if not bit & (RARE | PARTS_OF_RULES) and draw.random() < 0.04)
    how = 'string' if draw.random() < 0.15 else 'text'
    labels = [] if how == 'string' else draw.sample(LABELS, draw.randrange(4))
    notes = [] if how == 'string' else draw.sample(NOTES, draw.randrange(3))
    return how, bits, pieces, labels, notes, document


def row(how, bits, pieces, labels, notes, document):
    """The case for the program. Its rows name identifiers, which these labels are."""
    fields = [how]
    for at, name in enumerate(CONSTRUCTS):
        if (bits ^ CRATE) >> at & 1:
            fields.append(('+' if bits >> at & 1 else '-') + name)
    fields += ['definition=' + it for it in labels] + ['footnote=' + it for it in notes]
    fields += ['piece=%d.%d-%d.%d' % (start + end) for start, end in pieces]
    return '\t'.join(fields + ['document=' + ''.join(ESCAPES.get(c, c) for c in document.decode())])


def line(how, bits, pieces, labels, notes, document):
    """The case for the callers here."""
    spans = ','.join('%d.%d-%d.%d' % (start + end) for start, end in pieces)
    lists = [','.join(it.encode().hex() for it in listed) for listed in (labels, notes)]
    return ' '.join([how, str(bits)] + [it or '-' for it in [spans] + lists + [document.hex()]])


def in_html(draw, labels):
    """The words that a call for HTML has more."""
    targets = [(draw.choice(TARGETS), draw.choice(TITLES)) for _ in labels]
    written = ['=' + it.encode().hex() + ('' if title is None else ':' + title.encode().hex()) for it, title in targets]
    return ' %d %s' % (html_bits(draw), ','.join(written) or '-')


def html_bits(draw):
    """What HTML may contain, and how its line endings are written."""
    return draw.randrange(4) | draw.choice(LINE_ENDS)


def several(draw, cases, how='texts'):
    """A call for the texts of these cases, one behind another in a document, with the options and the labels of the first."""
    document, pieces, contents = b'', [], []
    for _, _, listed, _, _, given in cases:
        contents.append('%d-%d:%d' % (len(pieces), len(pieces) + len(listed), draw.randrange(2)))
        pieces += [((start + len(document), at), (end + len(document), to)) for (start, at), (end, to) in listed]
        document += given + draw.choice([b'\n', b'\r\n\r\n'])
    return line(how, cases[0][1] & ~FIRST_OF_ITEM, pieces, *cases[0][3:5], document) + ' ' + ','.join(contents)


def several_in_html(draw, cases):
    """A call for the HTML of these cases, as of their texts, with a limit on what definitions bring."""
    words = several(draw, cases).split(' ')
    return ' '.join(['htmls'] + words[1:6]) + in_html(draw, cases[0][3]) + ' %s %d' % (words[6], draw.choice([0, 0, 1, 4, 16, 64]))


def in_blocks(draw, cases, how='document'):
    """A call for the HTML, or for the blocks, of a document of these cases, each behind something that may begin a block, and sometimes behind front matter."""
    document = draw.choice(MATTERS).encode() if draw.random() < 0.2 else b''
    document += b''.join(draw.choice(BLOCKS).encode() + given + draw.choice([b'\n', b'\r\n\r\n']) for *_, given in cases)
    of_document = COMMONMARK | sum(it for it in OF_DOCUMENTS if draw.random() < 0.5)
    block_bits = bool(of_document & MATH_TEXT) | draw.choice([0, 2])
    return line(how, of_document, [], [], [], document) + ' %d %d %d' % (html_bits(draw), draw.choice([0, 0, 1, 4, 16, 64]), block_bits)


def more(draw, drawn):
    """The calls that the program does not make."""
    texts = [it for it in drawn if it[0] == 'text']
    for it in texts:
        yield line('leaves', *it[1:])
        yield line('html', *it[1:]) + in_html(draw, it[3])
    for at in range(0, len(texts) - 4, 4):
        yield several(draw, texts[at:at + draw.randrange(1, 5)])
        yield several(draw, texts[at:at + draw.randrange(1, 5)], 'shorts')
        yield several_in_html(draw, texts[at:at + draw.randrange(1, 5)])
    for at in range(0, len(drawn) - 4, 4):
        yield in_blocks(draw, drawn[at:at + draw.randrange(1, 5)])
        yield in_blocks(draw, drawn[at:at + draw.randrange(1, 5)], 'blocks')


def write(path, lines):
    with open(path, 'w', encoding='utf-8', newline='') as out:
        out.writelines(it + '\n' for it in lines)


def main(seed, count, rows, cases, others):
    draw = random.Random(int(seed))
    drawn = [case(draw) for _ in range(int(count))]
    write(rows, (row(*it) for it in drawn))
    write(cases, (line(*it) for it in drawn))
    write(others, more(draw, drawn))


if len(sys.argv) != 6:
    sys.exit(__doc__)
main(*sys.argv[1:])
