"""HTML with hooks, which is that of `render` where no hook says otherwise; and identifiers of headings."""
import html
import itertools
import math
import random
import unittest
from unittest import mock

import documents
from document_blocks import PARTS
from nodes import ALL
from markdown_inline import NotUtf8, References, _library, render, slugger
from markdown_inline._nodes import KINDS


def nothing(node, inner):
    return None


# Kinds whose hooks say nothing, and ways to write HTML.
HOOKS = ({}, dict.fromkeys(KINDS, nothing), dict.fromkeys(KINDS[:KINDS.index('text')], nothing), {'text': nothing}, {'link_reference': nothing, 'image': nothing})
WRITTEN = ({}, {'html': 'raw', 'any_link': True}, {'html': 'raw', 'line_ends': '\n'}, {'any_link': True, 'line_ends': '\r\n'})
MORE = ['www.a.b', 'c@d.e', '~f~', '$g$', '$$\n', '$$ <\r', '[r]: /s\n"t\nu"\n', '[r]: <s>\n', '[R][]', '![r\nt](u "v\nw")', '[r\r\nt](u "v\r\nw\0")', '![r\r\nt](u)', '<j:k>', '&#10;', '\\\n', '  \n', '<a\n b>', '[z](javascript:x)', '~~~\r']


class Hooks(unittest.TestCase):
    def same(self, document, asked, written, hooks):
        self.assertEqual(render(document, hooks=hooks, limit=math.inf, **asked, **written), render(document, limit=math.inf, **asked, **written), (document, written, len(hooks)))

    def test_hooks_that_say_nothing(self):
        ways = itertools.cycle(itertools.product(({}, ALL), WRITTEN, HOOKS))
        for _, document, _ in documents.ROWS:
            for asked, written, hooks in itertools.islice(ways, 7):
                self.same(document, asked, written, hooks)
        draw = random.Random(1)
        for asked, written, hooks in itertools.islice(ways, 1000):
            document = draw.choice(['', '', '---\n<\n---\n', '+++\n']) + ''.join(draw.choice(PARTS + MORE) for _ in range(draw.choice([3, 10, 30])))
            self.same(document, asked, written, hooks)

    def test_blocks(self):
        slug = slugger()
        for document, hooks, wanted in (
            ('# A *b*\n\nc\n===\n\n# a b', {'heading': lambda node, inner: '<h%d id="%s">%s</h%d>\n' % (node.level, slug(node.text), inner, node.level)},
             '<h1 id="a-b">A <em>b</em></h1>\n<h1 id="c">c</h1>\n<h1 id="a-b-1">a b</h1>\n'),
            ('~~~ x\n<\n~~~\n\n    y', {'code': lambda node, inner: '[%s|%s|%s]\n' % (node.lang, node.text, inner) if node.lang else None}, '[x|<\n|&lt;\n]\n<pre><code>y\n</code></pre>\n'),
            ('- a\n- b\n\n  > c', {'paragraph': lambda node, inner: '{%s}' % inner}, '<ul>\n<li>\n{a}</li>\n<li>\n{b}<blockquote>\n{c}</blockquote>\n</li>\n</ul>\n'),
            ('- a\n- [x] *b*', {'paragraph': lambda node, inner: '{%s}' % inner}, '<ul>\n<li>{a}</li>\n<li>{<input type="checkbox" disabled="" checked="" /> <em>b</em>}</li>\n</ul>\n'),
            ('- [x] *b*', {'emphasis': lambda node, inner: inner}, '<ul>\n<li><input type="checkbox" disabled="" checked="" /> b</li>\n</ul>\n'),
            ('1. a\n2. b', {'list_item': lambda node, inner: '<i>%s</i>' % inner, 'root': lambda node, inner: inner.replace('\n', '')}, '<ol><i>a</i><i>b</i></ol>'),
            ('<i>\n\n***\n\n[a]: b', {'html': lambda node, inner: '(%s)\n' % inner, 'thematic_break': lambda node, inner: '-%s-' % inner, 'definition': lambda node, inner: node.label},
             '(&lt;i&gt;\n)\n--a'),
            ('---\na: <\n---\n\n- $$ b\n  >\n  $$\n\n~~~\nc', {'front_matter': lambda node, inner: '{%s|%s}' % (node.lang, inner), 'math': lambda node, inner: '[%s|%s]\n' % (node.info, inner)},
             '{yaml|a: &lt;\n}<ul>\n<li>\n[b|&gt;\n]\n</li>\n</ul>\n<pre><code>c\n</code></pre>\n'),
        ):
            self.assertEqual(render(document, hooks=hooks, tasks=True, math=True, front_matter=True), wanted, document)

    def test_texts(self):
        def link(node, inner):
            return '<a href="%s">%s</a>' % (html.escape('/x' + node.url), inner) if node.url.startswith('/') else None

        hooks = {'link': link, 'link_reference': link, 'image': lambda node, inner: '<img src="%s" alt="%s">' % (html.escape(node.url), inner)}
        self.assertEqual(render('[*a*](/b) [c] ![d<](e) [f](javascript:g) [h](/i "j")\n\n[c]: k:l "m"', hooks=hooks),
                         '<p><a href="/x/b"><em>a</em></a> <a href="" title="m">c</a> <img src="e" alt="d&lt;"> <a href="">f</a> <a href="/x/i">h</a></p>\n')
        self.assertEqual(render('a\\\nb `c<` *d*', hooks={'break': lambda node, inner: '|', 'inline_code': lambda node, inner: inner, 'text': lambda node, inner: inner.upper()}), '<p>A|B c&lt; <em>D</em></p>\n')
        self.assertEqual(render('a <b> c', hooks={'html': lambda node, inner: inner}), '<p>a &lt;b&gt; c</p>\n')
        self.assertEqual(render('a <b> c', html='raw', hooks={'html': lambda node, inner: '' if node.text == '<b>' else None}), '<p>a  c</p>\n')

    def test_what_is_deep(self):
        for document in ('> ' * 3000 + 'a', '- ' * 3000 + 'a', '*a **a ' * 3000 + 'b' + '***' * 3000):
            self.same(document, {}, {}, dict.fromkeys(KINDS, nothing))

    def test_what_is_refused(self):
        for hooks, error in (([('text', nothing)], TypeError), ({'header': nothing}, ValueError), ({5: nothing}, ValueError), ({'heading': 'h2'}, TypeError), ('text', TypeError)):
            with mock.patch.object(_library, 'LIBRARY', None):
                self.assertRaises(error, render, 'a', hooks=hooks)
        self.assertRaises(TypeError, render, '# a', hooks={'heading': lambda node, inner: b'a'})
        self.assertRaises(ZeroDivisionError, render, '# a', hooks={'heading': lambda node, inner: 1 / 0})
        with self.assertRaises(NotUtf8) as caught:
            render(b'a\xff', hooks={})
        self.assertEqual(caught.exception.at, 1)
        for hooks in HOOKS:
            self.assertRaises(References, render, '[a]\n\n[a]: bc', hooks=hooks, limit=1)
            self.assertEqual(render('[a]\n\n[a]: bc', hooks=hooks, limit=2), '<p><a href="bc">a</a></p>\n')


class Slugs(unittest.TestCase):
    def test_slugs(self):
        """As on GitHub."""
        for titles, wanted in (
            (['Hello World', 'hello world', 'hello-world!', 'Hello World 1'], ['hello-world', 'hello-world-1', 'hello-world-2', 'hello-world-1-1']), (['foo-1', 'foo', 'foo'], ['foo-1', 'foo', 'foo-2']),
            (['I ♥ unicode', 'Dash-dash', 'en–dash', 'Have & ampersand', 'apostrophe’s', '😄-😄 emoji'], ['i--unicode', 'dash-dash', 'endash', 'have--ampersand', 'apostrophes', '--emoji']),
            (['Привет 你好', 'हिन्दी', 'É_e\u0301 2', '', ''], ['привет-你好', 'हिन्दी', 'é_e\u0301-2', '', '-1']), (['<b>"a"&\'c\'', 'Ⅷ Ⓐ 🄰 ½² ٣'], ['bac', 'ⅷ-ⓐ-🄰--٣']),
        ):
            slug = slugger()
            self.assertEqual(list(map(slug, titles)), wanted)
