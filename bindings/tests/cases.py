#!/usr/bin/env python3
"""Reads cases of draw.py from standard input, and prints what the Python package finds in each: events as the program of crates/markdown_test_runs
does, leaves, HTML in hexadecimal, the blocks of a document, or the events, the short events or the HTML of each text; where there are none, why.

Where words can say the options of a case, they do, and not its bits. Each other document is handed over as a `str`, and its characters are counted here
too. The status is 1 where few cases come, or few of a kind, so that what tests nothing does not pass."""
import collections
import sys
from itertools import accumulate

from markdown_inline import Error, parse, render
from markdown_inline._tables import BLOCKS_FRONT_MATTER
from markdown_inline.inline import COMMONMARK, CRATE, GFM, MATH, OPTIONS, Content, Kind, Piece, html, htmls, leaves, short_texts, string, text, texts

OF_DOCUMENTS = {'strikethrough': 'gfm_strikethrough', 'bare_urls': 'gfm_autolink_literal', 'tasks': 'gfm_task_list_item', 'math': 'math_text'}
SWITCHES, SETS = {'gfm': GFM, 'math': MATH, 'task': OPTIONS['first_of_item']}, {'commonmark': COMMONMARK, 'crate': CRATE}
# How many cases come at least in all, of each kind, and by words. A file has kinds of one of these rows.
LEAST, KINDS = 600, ({'text': 400, 'string': 40}, {'leaves': 300, 'html': 300, 'texts': 60, 'shorts': 60, 'htmls': 60, 'document': 60, 'blocks': 60})
seen = collections.Counter()


def piece(word):
    (start, start_vs), (end, end_vs) = ([int(number) for number in place.split('.')] for place in word.split('-'))
    return Piece(start, end, start_vs, end_vs)


def listed(word):
    return [] if word == '-' else word.split(',')


class Places:
    """How many characters stand before each byte of a document; none is to be counted where it is handed over as bytes."""

    def __init__(self, document, is_text):
        self.counts = list(accumulate((byte & 0xc0 != 0x80 for byte in document), initial=0)) if is_text else None

    def check(self, index, character):
        if character != (self.counts[index] if self.counts else None):
            raise AssertionError('byte %d is character %s' % (index, character))


def shown(event, places):
    places.check(event.index, event.character)
    link = ''
    if event.link:
        link = ':%s:%s:%s' % (event.link.content, *('-' if number is None else number for number in event.link[1:]))
    return ' %s%s %d:%d:%d:%d%s' % ('+' if event.kind == Kind.Enter else '-', event.name, event.line, event.column, event.index, event.vs, link)


def shown_short(event, places):
    places.check(event.index, event.character)
    told = ord(event.stands_for) if event.stands_for else event.definition
    link = (None, 'String', 'Text').index(event.link)
    return ' %s%s %d:%d:%d%s' % ('+' if event.kind == Kind.Enter else '-', event.name, event.index, event.vs, link, '' if told is None else ':%d' % told)


def shown_leaf(leaf, places):
    places.check(leaf.index, leaf.character)
    places.check(leaf.end_index, leaf.end_character)
    numbers = (leaf.line, leaf.column, leaf.index, leaf.vs, leaf.end_line, leaf.end_column, leaf.end_index, leaf.end_vs)
    return ' %s %d:%d:%d:%d %d:%d:%d:%d' % (leaf.name, *numbers) + ' %d:%s:%d' % (leaf.before, leaf.content.hex(), leaf.after)


def all_shown(events, places):
    return ''.join(shown(it, places) for it in events)


def target(word):
    destination, colon, title = word[1:].partition(':')
    return bytes.fromhex(destination), bytes.fromhex(title) if colon else None


def content(word, spans):
    numbers, is_first = word.split(':')
    first, last = map(int, numbers.split('-'))
    return Content(spans[first:last], is_first == '1')


def asked(bits, how):
    """The words that say these bits, or else the bits."""
    words = {name: True for name, its_bits in SWITCHES.items() if bits & its_bits == its_bits}
    for rules, its_bits in SETS.items():
        if how != 'string' and its_bits | sum(SWITCHES[it] for it in words) == bits:
            seen['by words'] += 1
            return {'rules': rules, **words}
    return {'options': bits}


def held(bits):
    """What HTML may contain, and how its line endings are written."""
    bits = int(bits)
    return {'html': ('escape', 'raw')[bits & 1], 'any_link': bool(bits & 2), 'line_ends': '\n' if bits & 0x20 else '\r\n' if bits & 0x40 else None}


def shown_block(block):
    flags = block.begins_list | block.ends_list << 1 | block.is_loose << 2
    pieces = ''.join(' %d.%d-%d.%d' % (it.start, it.start_vs, it.end, it.end_vs) for it in block.pieces)
    words = '' if block.content is None else ' =' + block.html.encode().hex()
    return ' |%d:%d:%d:%d:%d:%d' % (block.kind, block.depth, block.number, block.line, ord(block.marker or '\0'), flags) + pieces + words


def all_blocks(found):
    defined = (' ;%s=%s' % (it.label.encode().hex(), it.destination.encode().hex()) + ('' if it.title is None else ':' + it.title.encode().hex()) for it in found.definitions)
    return ''.join(map(shown_block, found)) + ''.join(defined)


def of_document(how, bits, document, rest):
    """The HTML of a document, or its blocks."""
    words = {word: bool(bits & OPTIONS[name]) for word, name in OF_DOCUMENTS.items()}
    words.update(held(rest[0]), limit=int(rest[1]) or None, front_matter=bool(int(rest[2]) & BLOCKS_FRONT_MATTER))
    return all_blocks(parse(document, **words)) if how == 'blocks' else ' ' + render(document, **words).encode().hex()


def found(how, bits, document, spans, given, places, labels, rest):
    if how == 'string':
        return all_shown(string(document, spans, options=given['options']), places)
    if how == 'text':
        return all_shown(text(document, spans, definitions=labels, **given), places)
    if how == 'leaves':
        return ''.join(shown_leaf(it, places) for it in leaves(document, spans, definitions=labels, **given))
    if how == 'html':
        defined = dict(zip(labels, map(target, listed(rest[1]))))
        return ' ' + html(document, spans, definitions=defined, **held(rest[0]), **given).encode().hex()
    if how in ('document', 'blocks'):
        return of_document(how, bits, document, rest)
    if how == 'htmls':
        defined, contents = dict(zip(labels, map(target, listed(rest[1])))), [content(it, spans) for it in listed(rest[2])]
        written = htmls(document, contents, definitions=defined, **held(rest[0]), limit=int(rest[3]) or None, **given)
        return ''.join(' |' + it.encode().hex() for it in written)
    contents = [content(it, spans) for it in listed(rest[0])]
    if how == 'shorts':
        found = short_texts(document, contents, definitions=labels, **given)
        return ''.join(' |' + ''.join(shown_short(event, places) for event in it) for it in found)
    return ''.join(' |' + all_shown(it, places) for it in texts(document, contents, definitions=labels, **given))


def answer(number, line):
    how, bits, pieces, labels, notes, document, *rest = line.split()
    seen[how] += 1
    document, spans = bytes.fromhex(document.replace('-', '')), [piece(it) for it in listed(pieces)]
    defined, noted = ([bytes.fromhex(it) for it in listed(word)] for word in (labels, notes))
    given, places = {**asked(int(bits), how), 'footnotes': noted}, Places(document, number % 2)
    try:
        return how + found(how, int(bits), document.decode() if number % 2 else document, spans, given, places, defined, rest)
    except Error as error:
        blamed = '' if error.at is None else ' %d' % error.at
        return how + {'string': ' no content', 'text': ' no text'}.get(how, blamed + ': ' + str(error))


def too_few():
    """What of the cases came too seldom."""
    worded = seen.pop('by words', 0)
    least = next((it for it in KINDS if set(it) == set(seen)), None)
    if least is None or sum(seen.values()) < LEAST or worded < LEAST // 6 or any(seen[it] < count for it, count in least.items()):
        return 'too few cases: %s, and %d by words' % (dict(seen), worded)


for number, line in enumerate(sys.stdin):
    print(answer(number, line))
sys.exit(too_few())
