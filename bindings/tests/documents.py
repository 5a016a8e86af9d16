"""The HTML of documents: the rows of markdown_page_examples, which has the examples of CommonMark; and what is refused."""
import math
import os
import sys
import unittest

from markdown_inline import NotUtf8, References, TooLong, _library, links, parse, render
from markdown_inline.inline import Content, html, htmls

sys.dont_write_bytecode = True
sys.path.insert(0, os.path.join(os.path.dirname(os.path.abspath(__file__)), '../../crates/markdown_page_examples/tools'))
import pages  # noqa: E402

# Each row as its words, a document, and its HTML.
ROWS = [pages.read(row) for groups in pages.rows().values() for group in groups.values() for row in group]
# What is asked for by the words of rows: how HTML is written, and which constructs of GitHub's are read.
RAW = {'html': 'raw', 'any_link': True}
WRITTEN = {'safe': {}, 'lf': {**RAW, 'line_ends': '\n'}, 'crlf': {**RAW, 'line_ends': '\r\n'}}
READ = {'strikethrough', 'bare_urls', 'tasks', 'math', 'front_matter'}
# Examples of GFM 0.29 (6.5, 6.9, 5.3), of math, and of front matter: a construct, a document, and its HTML with the construct and without.
CONSTRUCTS = (
    ('strikethrough', '~~Hi~~ Hello, ~there~ world!\n', '<p><del>Hi</del> Hello, <del>there</del> world!</p>\n', '<p>~~Hi~~ Hello, ~there~ world!</p>\n'),
    ('strikethrough', 'This will ~~~not~~~ strike.\n', '<p>This will ~~~not~~~ strike.</p>\n', '<p>This will ~~~not~~~ strike.</p>\n'),
    ('bare_urls', 'www.commonmark.org\n\n> foo@bar.baz\n', '<p><a href="http://www.commonmark.org">www.commonmark.org</a></p>\n<blockquote>\n'
     '<p><a href="mailto:foo@bar.baz">foo@bar.baz</a></p>\n</blockquote>\n', '<p>www.commonmark.org</p>\n<blockquote>\n<p>foo@bar.baz</p>\n</blockquote>\n'),
    ('tasks', '- [ ] foo\n- [x] bar\n', '<ul>\n<li><input type="checkbox" disabled="" /> foo</li>\n<li><input type="checkbox" disabled="" checked="" /> bar</li>\n</ul>\n',
     '<ul>\n<li>[ ] foo</li>\n<li>[x] bar</li>\n</ul>\n'),
    ('math', '$a$ $$b$$\n', '<p><code class="language-math math-inline">a</code> <code class="language-math math-inline">b</code></p>\n', '<p>$a$ $$b$$</p>\n'),
    ('math', '> $$ x\n> a<\n> $$\n', '<blockquote>\n<pre><code class="language-math math-display">a&lt;\n</code></pre>\n</blockquote>\n', '<blockquote>\n<p>$$ x\na&lt;\n$$</p>\n</blockquote>\n'),
    ('front_matter', '---\na: b\n---\nc\n', '<p>c</p>\n', '<hr />\n<h2>a: b</h2>\n<p>c</p>\n'),
    ('front_matter', '+++\na = 1\n+++\n', '', '<p>+++\na = 1\n+++</p>\n'),
)


class Documents(unittest.TestCase):
    def test_examples(self):
        self.assertGreaterEqual(len(ROWS), 652)
        rows = [it for it in ROWS if READ.union(WRITTEN).issuperset(it[0])]
        for word, least in {'strikethrough': 4, 'bare_urls': 8, 'tasks': 20, 'math': 25, 'front_matter': 22}.items():
            self.assertGreaterEqual(sum(word in words for words, _, _ in rows), least)
        for words, document, wanted in rows:
            asked = {**next((WRITTEN[it] for it in words if it in WRITTEN), RAW), **dict.fromkeys(READ.intersection(words), True)}
            for given in (document, document.encode()):
                self.assertEqual(render(given, **asked), wanted, document)

    def test_what_html_may_hold(self):
        for document, wanted in (('<b>\n\n[a](b:c)\n', ('&lt;b&gt;\n<p><a href="%s">a</a></p>\n', '<b>\n<p><a href="%s">a</a></p>\n')), ('', ('', ''))):
            for at, html in enumerate(('escape', 'raw')):
                for any_link in (False, True):
                    self.assertEqual(render(document, html=html, any_link=any_link), wanted[at].replace('%s', 'b:c' if any_link else ''))

    def test_definitions_bring_no_more_than_a_limit(self):
        document = '[a]\n\n' * 101 + '[a]: ' + 'x' * 1000
        for asked in ({}, {'limit': 100_999}, {'limit': None}):
            self.assertRaises(References, render, document, **asked)
        for asked in ({'limit': 101_000}, {'limit': math.inf}):
            self.assertEqual(len(render(document, **asked)), 101 * 1024)
        self.assertEqual(len(render(document + '\n\n' + 'y' * 100_000)), 101 * 1024 + 100_008)
        # A title counts, and a link that says itself where it leads does not.
        self.assertEqual(render('[a] [b](c)\n\n[a]: d "ef"', limit=3), '<p><a href="d" title="ef">a</a> <a href="c">b</a></p>\n')
        self.assertRaises(References, render, '[a]\n\n[a]: d "ef"', limit=2)
        for wrong, error in ((-1, OverflowError), (2 ** 64, OverflowError), (0, ValueError), (True, TypeError), ('1', TypeError), (1.0, TypeError), (math.nan, TypeError)):
            self.assertRaises(error, render, document, limit=wrong)

    def test_constructs_are_added_one_by_one(self):
        for name, document, added, plain in CONSTRUCTS:
            for given in (document, document.encode()):
                self.assertEqual(render(given, **{name: True}), added)
                for other in {it[0] for it in CONSTRUCTS} - {name}:
                    self.assertEqual(render(given, **{other: True}), plain)
                self.assertEqual((render(given), render(given, **{name: False})), (plain, plain))

    def test_line_endings(self):
        document = 'a\r\nb\rc\n\n    d\r\n'
        for line_ends, wanted in (
                (None, '<p>a\r\nb\rc</p>\n<pre><code>d\r\n</code></pre>\n'), ('\n', '<p>a\nb\nc</p>\n<pre><code>d\n</code></pre>\n'),
                ('\r\n', '<p>a\r\nb\r\nc</p>\r\n<pre><code>d\r\n</code></pre>\r\n')):
            self.assertEqual(render(document, line_ends=line_ends), wanted)
            inline = 'a%sb' % (line_ends or '\r')
            self.assertEqual(html('a\rb', line_ends=line_ends), inline)
            self.assertEqual(htmls('a\rb', [Content([(0, 3)])], line_ends=line_ends), [inline])
            self.assertEqual(parse('a\rb', line_ends=line_ends).htmls, [inline])
        for wrong, error in (('\r', ValueError), ('', ValueError), ('lf', ValueError), (b'\n', TypeError), (10, TypeError), (True, TypeError)):
            for call in (render, html, parse):
                self.assertRaises(error, call, 'a', line_ends=wrong)

    def test_a_byte_order_mark_is_passed_over(self):
        for document in ('# a [b](c)\n', '> a\n', '[a]: /b\n\n[a]\n', ''):
            marked = '\ufeff' + document
            self.assertEqual((render(marked), render(marked.encode())), (render(document),) * 2)
            found, wanted = parse(marked), parse(document)
            self.assertEqual(*([(it.kind, it.depth, it.line, it.lines, it.html) for it in each] for each in (found, wanted)))
            self.assertEqual(found.definitions, wanted.definitions)
            self.assertEqual([it.start for block in found for it in block.pieces], [it.start + 3 for block in wanted for it in block.pieces])
            self.assertEqual([it.start for it in found.links], [it.start + 1 for it in wanted.links])
            self.assertEqual([it.start for it in links(marked.encode())], [it.start + 3 for it in links(document.encode())])
        # Code with tabs on the first line is that of the HTML.
        marked = '\ufeff>\t\ta\n'
        self.assertEqual(render(marked), '<blockquote>\n<pre><code>%s</code></pre>\n</blockquote>\n' % ''.join(parse(marked)[1].lines))

    def test_what_is_refused(self):
        for given in (b'a\xff', 'a\ud800', b'\n\xe2\x82'):
            with self.assertRaises(NotUtf8) as caught:
                render(given)
            self.assertEqual(caught.exception.at, 1)
        self.assertRaises(TypeError, render, 'a', True)
        for given, error in (('omit', ValueError), ('', ValueError), (True, TypeError), (None, TypeError), (b'raw', TypeError)):
            for call in (render, parse, html):
                self.assertRaises(error, call, 'a', html=given)
        for call in (render, parse, links):
            self.assertRaises(TypeError, call, 'a', gfm=True)
        # No object is so long. The library looks at the length before the bytes, so it may be lent fewer.
        outcome = _library.Outcome()
        status = _library.LIBRARY.markdown_inline_document_html(b'a', (2 ** 64 >> 3) + 1, _library.DocumentOptions(), None, 0, outcome)
        self.assertEqual((status, outcome.at()), (TooLong.status, None))
