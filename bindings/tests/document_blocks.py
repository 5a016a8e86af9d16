"""The blocks of documents, and what stands in their texts. A renderer made of them writes the HTML that `render` writes."""
import copy
import math
import os
import pickle
import random
import re
import shutil
import subprocess
import sys
import time
import unittest
from unittest import mock

from markdown_inline import Definition, Kind, NotUtf8, References, TooLong, UnknownOption, _library, _tables, inline, links, parse, render
from markdown_inline.inline import COMMONMARK, OPTIONS, Content, Name, Piece, htmls, short_texts, texts

sys.dont_write_bytecode = True
sys.path.insert(0, os.path.join(os.path.dirname(os.path.abspath(__file__)), '../../crates/markdown_page_examples/tools'))
import pages  # noqa: E402

DOCUMENT = '''# é *a*

> 3) [b][B] ![c](/d)
>    `e`
>
> 4) ~~~ f&amp;g
>    \th
>    ~~~

***
- i
- [x] <jj:k>
<!-- l

m
=
[b]: </n> "o"
'''
# Of each block its kind, depth and number, its marker, whether it begins and ends its list, whether that is loose, its line, and its lines.
ROWS = [
    ('Heading', 0, 1, None, False, False, False, 1, ['é *a*']), ('BlankLine', 0, 0, None, False, False, False, 2, []),
    ('Quote', 0, 0, None, False, False, False, 3, []), ('Item', 1, 3, ')', True, False, True, 3, []),
    ('Paragraph', 2, 0, None, False, False, False, 3, ['[b][B] ![c](/d)\n', '`e`']), ('BlankLine', 2, 0, None, False, False, False, 5, []),
    ('Item', 1, 4, ')', False, True, True, 6, []), ('FencedCode', 2, 0, '~', False, False, False, 6, ['\th\n']),
    ('BlankLine', 0, 0, None, False, False, False, 9, []), ('ThematicBreak', 0, 0, None, False, False, False, 10, []),
    ('Item', 0, 0, '-', True, False, False, 11, []), ('Paragraph', 1, 0, None, False, False, False, 11, ['i']),
    ('Item', 0, 0, '-', False, True, False, 12, []), ('Paragraph', 1, 0, None, False, False, False, 12, ['[x] <jj:k>']),
    ('Html', 0, 2, None, False, False, False, 13, ['<!-- l\n', '\n', 'm\n', '=\n', '[b]: </n> "o"\n']),
]
# Both kinds of blocks beside CommonMark's.
BLOCKS = {'math': True, 'front_matter': True}
CONSTRUCTS = {'strikethrough': 'gfm_strikethrough', 'bare_urls': 'gfm_autolink_literal', 'tasks': 'gfm_task_list_item', 'math': 'math_text'}
# What drawn documents are made of.
PARTS = ['a', 'é', ' ', '  ', '   ', '    ', '\t', '\n', '\n', '\n', '\n\n', '\r\n', '\r', '- ', '+ ', '* ', '1. ', '23) ', '-', '> ', '>', '# ', '##', '=', '---', '***', '```', '~~~ b&amp; c', '```\n',
         '$$', '$$ f\n', '+++\n', '<div>', '</div>', '<!--', '-->', '<pre>', '<i>', '[r]: /s "t"\n', '[r]: ', '[r]', '*b*', '[c](d)', '`e`', '\\', '"', '&', '\0', '- [ ] ']
SIGNS = {'&': '&amp;', '<': '&lt;', '>': '&gt;', '"': '&quot;', '\0': '\ufffd'}


def escaped(text):
    return ''.join(SIGNS.get(it, it) for it in text)


class Writer:
    """Writes the HTML of blocks (CommonMark 4 and 5)."""

    def __init__(self, raw_html):
        # The open containers, and whether no line begins behind what is written.
        self.raw_html, self.parts, self.opened, self.in_line = raw_html, [], [], False

    def write(self, found):
        for block in found:
            self.close(block.depth)
            if block.kind in (Kind.BlankLine, Kind.FrontMatter) or block.kind == Kind.Paragraph and not block.pieces:
                continue
            is_tight = block.kind == Kind.Paragraph and self.opened and self.opened[-1].kind == Kind.Item and not self.opened[-1].is_loose
            self.parts.append(block.html if is_tight else '\n' * self.in_line + self.opening(block))
            self.in_line = is_tight or block.kind == Kind.Item
            if block.kind in (Kind.Quote, Kind.Item):
                self.opened.append(block)
        self.close(0)
        return ''.join(self.parts)

    def close(self, depth):
        while len(self.opened) > depth:
            block, self.in_line = self.opened.pop(), False
            self.parts.append('</blockquote>\n' if block.kind == Kind.Quote else '</li>\n' + ('</%s>\n' % self.list_of(block)) * block.ends_list)

    def list_of(self, block):
        return 'ol' if block.marker in ('.', ')') else 'ul'

    def opening(self, block):
        if block.kind == Kind.Quote:
            return '<blockquote>\n'
        if block.kind != Kind.Item:
            return self.leaf(block)
        start = ' start="%d"' % block.number if block.marker in ('.', ')') and block.number != 1 else ''
        return '<%s%s>\n' % (self.list_of(block), start) * block.begins_list + '<li>'

    def leaf(self, block):
        if block.kind == Kind.ThematicBreak:
            return '<hr />\n'
        if block.kind == Kind.Heading:
            return '<h%d>%s</h%d>\n' % (block.number, block.html, block.number)
        if block.kind == Kind.Paragraph:
            return '<p>%s</p>\n' % block.html
        lines = block.lines
        if block.kind == Kind.Html:
            return ''.join(it.replace('\0', '\ufffd') if self.raw_html else escaped(it) for it in ended(lines))
        while block.kind == Kind.IndentedCode and not lines[-1].strip(' \t\r\n'):
            lines.pop()
        language = 'math math-display' if block.marker == '$' else next(filter(None, re.split('[ \t\n\f\r]', block.info or '')), '')
        return '<pre><code%s>%s</code></pre>\n' % (' class="language-%s"' % escaped(language) if language else '', escaped(''.join(ended(lines))))


def ended(lines):
    """Lines with their line endings: a line feed where the document ends without one, and for a carriage return alone, which would join with a line feed after it."""
    return (it if it.endswith('\n') else it.rstrip('\r') + '\n' for it in lines)


class Rendered(unittest.TestCase):
    def test_pages(self):
        rows = [pages.read(row) for groups in pages.rows().values() for group in groups.values() for row in group]
        self.assertGreaterEqual(len(rows), 652)
        for _, document, _ in rows:
            for asked in ({}, {'html': 'raw', 'any_link': True}, BLOCKS):
                for given in (document, document.encode()):
                    found = parse(given, limit=math.inf, **asked)
                    self.assertEqual(Writer('html' in asked).write(found), render(given, limit=math.inf, **asked), document)

    def test_drawn(self):
        draw = random.Random(1)
        for _ in range(250):
            document = draw.choice(['', '', '---\n', '+++\n']) + ''.join(draw.choice(PARTS) for _ in range(draw.choice([3, 10, 30])))
            for asked in ({}, {'html': 'raw', 'any_link': True}, BLOCKS):
                self.assertEqual(Writer('html' in asked).write(parse(document, **asked)), render(document, **asked), document)


class Lines(unittest.TestCase):
    @unittest.skipUnless(shutil.which('cmark'), 'cmark is not there')
    def test_lines_of_cmark(self):
        """The blocks of the repository's pages begin on the lines that cmark tells."""
        names = {'thematic_break', 'heading', 'paragraph', 'code_block', 'html_block', 'block_quote', 'item'}
        root = os.path.join(os.path.dirname(os.path.abspath(__file__)), '../..')
        pages = [os.path.join(folder, name) for folder in (root, os.path.join(root, 'docs')) for name in sorted(os.listdir(folder)) if name.endswith('.md')]
        self.assertGreater(len(pages), 10)
        for page in pages:
            with open(page, 'rb') as file:
                document = file.read()
            told = subprocess.run(['cmark', '-t', 'xml', '--sourcepos'], input=document, stdout=subprocess.PIPE, check=True).stdout.decode()
            lines = [int(line) for name, line in re.findall(r'^ *<(\w+) sourcepos="(\d+):', told, re.M) if name in names]
            found = [it.line for it in parse(document) if it.kind != Kind.BlankLine and (it.kind != Kind.Paragraph or it.pieces)]
            self.assertEqual(found, lines, page)


class Blocks(unittest.TestCase):
    def test_rows(self):
        for given in (DOCUMENT, DOCUMENT.encode()):
            found = [(str(it.kind), it.depth, it.number, it.marker, it.begins_list, it.ends_list, it.is_loose, it.line, it.lines) for it in parse(given)]
            self.assertEqual(found, ROWS)
        self.assertEqual([it.info for it in parse(DOCUMENT) if it.kind == Kind.FencedCode], ['f&g'])
        self.assertEqual(parse('# é *a*')[0].pieces, [Piece(2, 8)])
        self.assertEqual([(it.line, it.lines) for it in parse('\r[a]: b\r\nc\n=')], [(1, []), (2, ['c'])])

    def test_math(self):
        found = parse('$$ a&amp;b\n\tc\n$$$\n> $$\n> d', math=True)
        self.assertEqual([(it.kind, it.marker, it.info, it.lines) for it in found], [
            (Kind.FencedCode, '$', 'a&b', ['\tc\n']), (Kind.Quote, None, None, []), (Kind.FencedCode, '$', '', ['d'])])
        self.assertEqual([it.kind for it in parse('$$\na\n$$', front_matter=True)], [Kind.Paragraph])

    def test_front_matter(self):
        for document, wanted, line in (
            ('---\na: b\r\n\n\tc\n--- \nd', ('yaml', 'a: b\n\n\tc\n'), 6), ('\ufeff+++\na = "é"\n+++\nd', ('toml', 'a = "é"\n'), 4), ('---\n+++\n---\nd', ('yaml', '+++\n'), 4), ('---\n---\nd', ('yaml', ''), 3), ('+++\n\n+++\nd', ('toml', '\n'), 4),
        ):
            for given in (document, document.encode()):
                found = parse(given, front_matter=True)
                self.assertEqual((found.front_matter, [(it.kind, it.line) for it in found]), (wanted, [(Kind.FrontMatter, 1), (Kind.Paragraph, line)]))
                self.assertEqual((''.join(found[0].lines).replace('\r\n', '\n'), found[0].marker, found[0].info, found.text, parse(given).front_matter), (wanted[1], None, None, 'd', None))
        for document in ('', 'a', '\n---\na\n---', '---\na', '---\na\n+++', '> ---\n> a\n> ---', '----\na\n----'):
            self.assertIsNone(parse(document, front_matter=True).front_matter, document)

    def test_what_extensions_hide(self):
        """No definition and no link is in math or in front matter."""
        document = '---\n[a]: /b\n---\n$$\n[c]: /d\n[e](f)\n$$\n[a] [c] [g](h)'
        found = parse(document, **BLOCKS)
        self.assertEqual((found.definitions, [(it.line, it.destination) for it in found.links]), ([], [(8, 'h')]))
        self.assertEqual(found.links, links(document, **BLOCKS))
        self.assertEqual([it.destination for it in links(document)], ['f', '/b', 'h'])

    def test_kinds(self):
        self.assertEqual([''.join(map(str.capitalize, it.split('_'))) for it in _tables.BLOCKS], [str(it) for it in Kind])

    def test_texts(self):
        """Each text is what the calls for many contents find in its pieces."""
        document, asked = DOCUMENT.replace('<!--', '!'), {'options': COMMONMARK | sum(OPTIONS[it] for it in CONSTRUCTS.values())}
        for given in (document, document.encode()):
            found = parse(given, **dict.fromkeys(CONSTRUCTS, True))
            having = [it for it in found if it.content is not None]
            self.assertEqual([it.content for it in having], list(range(len(having))))
            contents, defined = [Content(it.pieces, it.lines[:1] == ['[x] <jj:k>\n']) for it in having], {'b': ('/n', 'o')}
            self.assertEqual(([it.first_of_item for it in contents].count(True), contents[-1].pieces), (1, []))
            self.assertEqual([it.events for it in having], texts(given, contents, definitions=defined, **asked))
            self.assertEqual([it.short_events for it in having], short_texts(given, contents, definitions=defined, **asked))
            self.assertEqual([it.html for it in having], htmls(given, contents, definitions=defined, **asked))
            self.assertEqual(found.links, inline.links(given, contents, definitions=defined, **asked))
            self.assertEqual(found.links, links(given, **dict.fromkeys(CONSTRUCTS, True)))
            self.assertEqual([it for block in found for it in block.links], found.links)
            self.assertEqual((found.texts, found.short_texts, found.htmls), ([it.events for it in having], [it.short_events for it in having], [it.html for it in having]))
            for it in found:
                if it.content is None:
                    self.assertEqual((it.events, it.short_events, it.html, it.links), ([], [], '', []))

    def test_places(self):
        found = parse(DOCUMENT)
        self.assertEqual([(it.line, it.column, it.index, it.character) for block in found for it in block.events if it.kind == inline.Kind.Enter and it.name == Name.Emphasis], [(1, 6, 5, 4)])
        self.assertEqual([(it.kind, it.line, it.column, it.destination, it.title) for it in found.links], [
            ('image', 3, 13, '/d', None), ('autolink', 12, 7, 'jj:k', None)])
        for document, place in (('> é\t[a](b)', (1, 5, 4, 10)), ('> é\t[a](b)'.encode(), (1, 6, 5, 11)), ('😀\n\n\ufeff[a](b)\n', (3, 2, 4, 10)), ('\ufeff[a](b)'.encode(), (1, 4, 3, 9))):
            found, = links(document)
            self.assertEqual((found.line, found.column, found.start, found.end), place)

    def test_definitions(self):
        found = parse('[A]: /b "c"\n[a]: <d&amp;\\*>\n\n> [é\n> f]:\n> g\n\n[a] [é f]')
        self.assertEqual(found.definitions, [Definition('A', '/b', 'c'), Definition('a', 'd&*', None), Definition('é\nf', 'g', None)])
        self.assertEqual([(it.destination, it.title, it.definition) for it in found.links], [('/b', 'c', 0), ('g', None, 2)])
        self.assertEqual([it.pieces for it in found if it.kind == Kind.Paragraph][0], [])
        self.assertEqual([it.html for it in found if it.html], ['<a href="/b" title="c">a</a> <a href="g">é f</a>'])
        self.assertEqual((parse('').definitions, list(parse('')), parse('').texts, parse('').htmls, parse('').links), ([], [], [], [], []))

    def test_checks_of_tasks(self):
        """A check may stand in the first paragraph right in an item, behind blank lines and definitions alone."""
        for document, count in (
            ('- [x] a\n', 1), ('- [x] a\n- b\n- [ ] c', 2), ('1. [x] a\n\n   [x] b', 1), ('-\n  [x] a', 1), ('- [r]: /s\n\n  [x] a', 1), ('- [r]: /s\n  [x] a', 1), ('[x] a', 0), ('> [x] a', 0),
            ('- > [x] a', 0), ('- # [x] a', 0), ('- # a\n\n  [x] b', 0), ('- ***\n  [x] a', 0), ('- a\n\n[x] b', 0), ('-\n\n[x] a', 0), ('- - [x] a', 1), ('- [x] a\n  - [x] b\n\n  [x] c', 2),
            ('- [x] a\n=', 1), ('- [x] a\n  =', 0), ('-\n- [x] a', 1), ('- -\n\n  [x] a', 0),
        ):
            for found, wanted in ((parse(document, tasks=True), count), (parse(document), 0)):
                checks = [it for block in found for it in block.events if it.kind == inline.Kind.Enter and it.name == Name.GfmTaskListItemCheck]
                self.assertEqual((len(checks), ''.join(found.htmls).count('checkbox')), (wanted, wanted), document)

    def test_lines_with_tabs(self):
        """Of a tab that a container cuts the columns that are left are spaces, and each other tab is a tab (CommonMark 2.2)."""
        for document, wanted in (
            ('-\t\ta\n', ['  a\n']), ('>\t\ta\n> \tb', ['  a\n']), ('\t\ta\tb\n \n', ['\ta\tb\n', '\n']), ('> ~~~\n>\t\té\r\n>', ['  \té\r\n', '']), ('1.\t~~~\n \t\té\n', ['\té\n']),
            ('    a\n\n      b\n', ['a\n', '\n', '  b\n']), ('~~~', []),
        ):
            found, = [it for it in parse(document) if it.kind in (Kind.IndentedCode, Kind.FencedCode)]
            self.assertEqual(found.lines, wanted, document)
        self.assertEqual(parse('> <pre>a\n>')[1].lines, ['<pre>a\n'])

    def test_one_call_for_all_texts(self):
        found = parse('a *b*\n\n[c]\n\n' * 50 + '[c]: d')
        library, calls = _library.LIBRARY, []

        class Counted:
            def __getattr__(self, name):
                calls.append(name)
                return getattr(library, name)

        with mock.patch.object(_library, 'LIBRARY', Counted()):
            for block in found:
                for _ in block.events:
                    self.assertGreater(block.line, 0)
            self.assertEqual(calls, ['markdown_inline_definitions', 'markdown_inline_texts'])
            self.assertEqual(sum(len(block.html) + len(block.links) for block in found), sum(map(len, found.htmls)) + 50)
            self.assertEqual(calls[2:], ['markdown_inline_htmls', 'markdown_inline_short_texts', 'markdown_inline_strings'])

    def test_a_sequence(self):
        found = parse(DOCUMENT)
        self.assertEqual((len(found), found[0], found[-1], list(found), list(reversed(found))), (len(ROWS), *[list(found)[at] for at in (0, -1)], found[:], found[::-1]))
        self.assertEqual((found[4] in found, found.index(found[4]), len({*found, *found})), (True, 4, len(ROWS)))
        self.assertNotEqual(found[0], found[1])
        self.assertEqual((found == parse(DOCUMENT), found == list(parse(DOCUMENT)), found[0] == parse(DOCUMENT)[0]), (True,) * 3)
        for other in (parse(DOCUMENT.encode()), parse(DOCUMENT, math=True), parse(DOCUMENT, front_matter=True), parse(DOCUMENT, html='raw'), parse(DOCUMENT + 'a'), found[1:]):
            self.assertFalse(found == other or found[1] == other[1])
        self.assertEqual(repr(found[:2]), '[Block(Heading, depth=0, number=1, line=1), Block(BlankLine, depth=0, number=0, line=2)]')
        for at in (len(ROWS), -len(ROWS) - 1):
            self.assertRaises(IndexError, lambda: found[at])
        self.assertRaises(AttributeError, lambda: setattr(found[0], 'other', 1))
        for other in (pickle.loads(pickle.dumps(found)), copy.deepcopy(found), copy.copy(found)):
            self.assertEqual((repr(other), other.texts, other.links), (repr(found), list(found.texts), found.links))
        self.assertEqual(pickle.loads(pickle.dumps(found[0])).html, found[0].html)

    def test_what_is_refused(self):
        for given in (b'a\xff', 'a\ud800', b'a\xed\xa0\x80', b'a\xf0\x9f\x98'):
            for call in (parse, links):
                with self.assertRaises(NotUtf8) as wrong:
                    call(given)
                self.assertEqual(wrong.exception.at, 1)
        found = parse('[a]\n\n' * 101 + '[a]: ' + 'x' * 1000)
        with self.assertRaises(References) as caught:
            self.assertIsNone(found[0].html)
        self.assertEqual(caught.exception.at, 100)
        self.assertEqual(len(found.texts), 102)
        self.assertEqual(len(parse('[a]\n\n[a]: bc', limit=2).htmls), 2)
        self.assertRaises(References, lambda: parse('[a]\n\n[a]: bc', limit=1).htmls)
        for error, asked in ((TypeError, {'gfm': True}), (TypeError, {'html': True}), (ValueError, {'html': 'no'}), (TypeError, {'limit': True}), (TypeError, {'columns': 'bytes'}), (TypeError, {'options': 1})):
            with mock.patch.object(_library, 'LIBRARY', None):
                self.assertRaises(error, parse, 'a', **asked)
        # No object is so long. The library looks at the length before the bytes, so it may be lent fewer.
        for call, arrays in ((_library.LIBRARY.markdown_inline_blocks, 2), (_library.LIBRARY.markdown_inline_definitions, 3)):
            for length, block_options, status in (((2 ** 64 >> 3) + 1, 3, TooLong.status), (1, 4, UnknownOption.status)):
                self.assertEqual(call(b'a', length, block_options, *[None, 0] * arrays, (_library._size * 2)()), status)

    def test_arrays_that_are_too_small(self):
        document = 'a\n\n# b\n- c\n' * 3 + '[d]: e "f"\n' * 3
        wanted = [[(it.kind, it.depth, it.pieces) for it in found] + list(found.definitions) for found in [parse(document)]]
        for kept in range(0, 1600, 37):
            lent = iter(range(100))

            def lend(size):
                return (_library.ctypes.c_char * (kept if next(lent) in (0, 1, 4, 5, 6) else size))()

            with mock.patch.object(_library, '_lend', lend), mock.patch.object(_library, '_give_back', lambda _: None):
                found = parse(document)
                self.assertEqual([[(it.kind, it.depth, it.pieces) for it in found]], [wanted[0][:len(found)]])
            with mock.patch.object(_library, '_lend', lambda size, first=[kept] * 3: (_library.ctypes.c_char * (first.pop() if first else size))()), \
                    mock.patch.object(_library, '_give_back', lambda _: None):
                self.assertEqual(found.definitions, wanted[0][len(found):])

    def test_a_long_document(self):
        """What a block costs does not grow with the document: not its number, its line, its links or a tab that is cut."""
        def seconds(count):
            begun, found = time.process_time(), parse('é [a](b)\n\n-\t\tc\n\n' * count)
            self.assertEqual(sum(len(block.links) + len(block.lines) for block in found), 4 * count)
            self.assertEqual(max(block.line for block in found), 4 * count - 1)
            return time.process_time() - begun

        self.assertLess(min(seconds(8000) for _ in range(3)), 24 * min(seconds(1000) for _ in range(5)))
