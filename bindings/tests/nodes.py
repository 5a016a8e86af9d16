"""The nodes of documents: HTML that is rendered over them is that of `render`, and what their positions cut out looks like them."""
import json
import math
import os
import random
import re
import shutil
import subprocess
import time
import unittest

from markdown_inline import parse, render

import documents
from document_blocks import PARTS, escaped

ROOT = os.path.join(os.path.dirname(os.path.abspath(__file__)), '../..')
# Texts of nodes have line feeds.
RAW = {'html': 'raw', 'any_link': True, 'line_ends': '\n', 'limit': math.inf}
ALL = dict.fromkeys(documents.READ, True)
TAGS = {'emphasis': 'em', 'strong': 'strong', 'delete': 'del', 'paragraph': 'p'}
# What an address keeps of ASCII; all else is percent encoded.
KEPT = re.compile(rb"[^A-Za-z0-9\-_.+!*(),%#@?=;:/$~&']")


def address(url):
    return escaped(KEPT.sub(lambda it: b'%%%02X' % it[0][0], url.replace('\0', '\ufffd').encode()).decode())


class Renderer:
    """Renders nodes to HTML with raw HTML and any link, by CommonMark."""

    def html(self, node, is_tight):
        """The HTML of a node. What is in an item is of a tight list or not."""
        inner = self.inside(node, node.tight if node.kind == 'list' else is_tight and node.kind == 'list_item')
        if node.kind == 'paragraph':
            return inner if is_tight else '<p>%s</p>\n' % inner
        return getattr(self, 'raw' if node.kind == 'html' else node.kind)(node, inner)

    def inside(self, node, is_tight=False):
        """The HTML of what is in a node. In an item each block but the paragraph of a tight list begins on a line of its own."""
        parts, in_line = [], node.kind == 'list_item'
        for it in node.children:
            html, is_bare = self.html(it, is_tight), is_tight and it.kind == 'paragraph'
            parts.append('\n' * (in_line and html != '' and not is_bare) + html)
            in_line = is_bare if html else in_line
        return ''.join(parts)

    def heading(self, node, inner):
        return '<h%d>%s</h%d>\n' % (node.level, inner, node.level)

    def blockquote(self, node, inner):
        return '<blockquote>\n%s</blockquote>\n' % inner

    def list(self, node, inner):
        if not node.ordered:
            return '<ul>\n%s</ul>\n' % inner
        return '<ol%s>\n%s</ol>\n' % ('' if node.start_number == 1 else ' start="%d"' % node.start_number, inner)

    def list_item(self, node, inner):
        if node.checked is not None:
            box = '<input type="checkbox" disabled=""%s />' % (' checked=""' if node.checked else '')
            inner = re.sub('^((?:\n<p>)?)', lambda it: it[0] + box, inner, count=1)
        return '<li>%s</li>\n' % inner

    def code(self, node, _):
        return '<pre><code%s>%s</code></pre>\n' % (' class="language-%s"' % escaped(node.lang) if node.lang else '', escaped(node.text))

    def math(self, node, _):
        return '<pre><code class="language-math math-display">%s</code></pre>\n' % escaped(node.text)

    def raw(self, node, _):
        return node.text

    def thematic_break(self, node, _):
        return '<hr />\n'

    def definition(self, node, _):
        return ''

    front_matter = definition

    def text(self, node, _):
        return escaped(node.text)

    def emphasis(self, node, inner):
        return '<%s>%s</%s>' % (TAGS[node.kind], inner, TAGS[node.kind])

    strong = delete = emphasis

    def inline_code(self, node, _):
        return '<code>%s</code>' % escaped(node.text)

    def inline_math(self, node, _):
        return '<code class="language-math math-inline">%s</code>' % escaped(node.text)

    def link(self, node, inner):
        return '<a href="%s"%s>%s</a>' % (address(node.url), self.title(node), inner)

    def image(self, node, _):
        return '<img src="%s" alt="%s"%s />' % (address(node.url), escaped(node.alt), self.title(node))

    link_reference, image_reference = link, image

    def title(self, node):
        return ' title="%s"' % escaped(node.title) if node.title is not None else ''


# This name is a keyword.
setattr(Renderer, 'break', lambda self, node, _: '<br />' + node.text)


def rendered(document):
    return Renderer().inside(document.root)


def cut(document, node):
    """What a position cuts out, without NUL."""
    return document.raw[node.start:node.end].replace('\0', '\ufffd')


def joined(text):
    """A text without what blocks have between its lines."""
    return re.sub('[ \t]*(?:\r\n|\n|\r)[ \t>]*', '\n', text)


def has_ends(*pairs):
    return lambda node, slice: any(len(slice) > len(first + last) - 1 and slice.startswith(first) and slice.endswith(last) for first, last in pairs)


# Whether what a position cuts out looks like a node, by its kind.
LOOKS = {
    'blockquote': lambda node, slice: slice[0] == '>',
    'list': lambda node, slice: re.match(r'%d[.)]' % node.start_number if node.ordered else '[-+*]', slice.lstrip('0') if node.start_number else slice),
    'list_item': lambda node, slice: re.match(r'([0-9]+[.)]|[-+*])([ \t\r\n]|$)', slice),
    'paragraph': lambda node, slice: slice == slice.strip(' \t\r\n') and not re.search('\n[ \t]*\n', slice) and joined(slice)[:1] == joined(slice).lstrip()[:1],
    'heading': lambda node, slice: re.match('#{%d}([ \t]|$)' % node.level, slice) or node.level < 3 and re.search('[\r\n][ \t>]*%s+[ \t]*$' % '=-'[node.level - 1], slice),
    'code': lambda node, slice: re.match('```|~~~', slice) if node.info is not None else re.match(' {4}| {0,3}\t', slice),
    'math': lambda node, slice: slice.startswith('$$'),
    'front_matter': lambda node, slice: slice[:3] == slice.rstrip(' \t')[-3:] == {'yaml': '---', 'toml': '+++'}[node.lang],
    'html': lambda node, slice: joined(slice) == joined(node.text).rstrip('\n') or slice.lstrip(' ')[0] == '<',
    'thematic_break': lambda node, slice: re.fullmatch(r'(\*[ \t]*){3,}|(-[ \t]*){3,}|(_[ \t]*){3,}', slice),
    'definition': lambda node, slice: joined(slice).startswith('[%s]:' % joined(node.label)) and slice == slice.strip(),
    'text': lambda node, slice: '\\' in slice or '&' in slice or joined(slice) == joined(node.text),
    'emphasis': has_ends('**', '__'), 'strong': has_ends(('**', '**'), ('__', '__')), 'delete': has_ends('~~'), 'inline_code': has_ends('``'), 'inline_math': has_ends('$$'),
    'break': lambda node, slice: re.fullmatch(r'(\\|  +)(\r\n|\n|\r)', slice),
    'link': lambda node, slice: has_ends('[)', '<>')(node, slice) or slice == node.text, 'link_reference': has_ends('[]'),
    'image': has_ends(('![', ')')), 'image_reference': has_ends(('![', ']')),
}


def faults(document):
    """The nodes that their positions do not cut out, or that are not where they should be."""
    starts = [0] + [it.end() for it in re.finditer('\r\n|\n|\r', document.raw)]
    todo = [document.root]
    while todo:
        node = todo.pop()
        for it in node.children:
            before = [start for start in starts[max(0, it.line - 1):it.line + 1] if start <= it.start]
            is_there = starts[it.line - 1] == before[-1] and it.column == it.start - before[-1] + 1 and starts[it.end_line - 1] == it.end - it.end_column + 1
            if not is_there or not node.start <= it.start <= it.end <= node.end or not LOOKS[it.kind](it, cut(document, it)):
                yield it, cut(document, it)[:80]
        for first, second in zip(node.children, node.children[1:]):
            if first.end > second.start:
                yield first, second
        todo += node.children


# Trees of mdast, written by hand from its specification and from CommonMark: a document, and its tree as type(start-end fields)[children].
TREES = (
    ('a', 'root 0-1[paragraph 0-1[text 0-1 "a"]]'),
    ('# a #', 'root 0-5[heading 0-5 depth=1[text 2-3 "a"]]'),
    ('a\n===\n', 'root 0-6[heading 0-5 depth=1[text 0-1 "a"]]'),
    ('***', 'root 0-3[thematicBreak 0-3]'),
    ('> a\nb', 'root 0-5[blockquote 0-5[paragraph 2-5[text 2-5 "a\\nb"]]]'),
    ('> a\n> b', 'root 0-7[blockquote 0-7[paragraph 2-7[text 2-7 "a\\nb"]]]'),
    ('* a', 'root 0-3[list 0-3 ordered=false start=null spread=false[listItem 0-3 spread=false checked=null[paragraph 2-3[text 2-3 "a"]]]]'),
    ('3) a\n4) b', 'root 0-9[list 0-9 ordered=true start=3 spread=false[listItem 0-4 spread=false checked=null[paragraph 3-4[text 3-4 "a"]]'
     'listItem 5-9 spread=false checked=null[paragraph 8-9[text 8-9 "b"]]]]'),
    ('* a\n\n  b', 'root 0-8[list 0-8 ordered=false start=null spread=false[listItem 0-8 spread=true checked=null[paragraph 2-3[text 2-3 "a"]paragraph 7-8[text 7-8 "b"]]]]'),
    ('* a\n\n* b', 'root 0-8[list 0-8 ordered=false start=null spread=true[listItem 0-3 spread=false checked=null[paragraph 2-3[text 2-3 "a"]]'
     'listItem 5-8 spread=false checked=null[paragraph 7-8[text 7-8 "b"]]]]'),
    ('* a\n\nb', 'root 0-6[list 0-3 ordered=false start=null spread=false[listItem 0-3 spread=false checked=null[paragraph 2-3[text 2-3 "a"]]]paragraph 5-6[text 5-6 "b"]]'),
    ('*\n', 'root 0-2[list 0-1 ordered=false start=null spread=false[listItem 0-1 spread=false checked=null]]'),
    ('* [x] a', 'root 0-7[list 0-7 ordered=false start=null spread=false[listItem 0-7 spread=false checked=true[paragraph 6-7[text 6-7 "a"]]]]'),
    ('* [ ]\n  a', 'root 0-9[list 0-9 ordered=false start=null spread=false[listItem 0-9 spread=false checked=false[paragraph 6-9[text 6-9 "a"]]]]'),
    ('* [x] *a*', 'root 0-9[list 0-9 ordered=false start=null spread=false[listItem 0-9 spread=false checked=true[paragraph 2-9[emphasis 6-9[text 7-8 "a"]]]]]'),
    ('* [x] <aa:b>', 'root 0-12[list 0-12 ordered=false start=null spread=false[listItem 0-12 spread=false checked=true[paragraph 2-12[link 6-12 title=null url="aa:b"[text 7-11 "aa:b"]]]]]'),
    # Line endings are LF, and NUL is U+FFFD.
    ('a\r\nb\rc', 'root 0-6[paragraph 0-6[text 0-6 "a\\nb\\nc"]]'),
    ('* [ ]\r\n  a\r\nb', 'root 0-13[list 0-13 ordered=false start=null spread=false[listItem 0-13 spread=false checked=false[paragraph 7-13[text 7-13 "a\\nb"]]]]'),
    ('~~~ a\0 b\0\r\nc\0\r\nd\r\n~~~', 'root 0-21[code 0-21 lang="a\ufffd" meta="b\ufffd" value="c\ufffd\\nd"]'),
    ('+++\r\na\0\r\n+++\r\n$$ b\0\r\nc\0\r\n$$', 'root 0-27[toml 0-12 value="a\ufffd"math 14-27 meta="b\ufffd" value="c\ufffd"]'),
    ('<b>\r\na\0', 'root 0-7[html 0-7 value="<b>\\na\ufffd"]'),
    ('[a\0]: b\0 "c\r\nd\0"', 'root 0-16[definition 0-16 identifier="a\ufffd" label="a\ufffd" title="c\\nd\ufffd" url="b\ufffd"]'),
    ('[a](b\0 "c\r\nd\0")', 'root 0-15[paragraph 0-15[link 0-15 title="c\\nd\ufffd" url="b\ufffd"[text 1-2 "a"]]]'),
    ('![a\r\nb\0](c)', 'root 0-11[paragraph 0-11[image 0-11 title=null url="c" alt="a\\nb\ufffd"]]'),
    ('[a\r\nb]\n\n[a b]: c', 'root 0-16[paragraph 0-6[linkReference 0-6 identifier="a b" label="a\\nb" referenceType="shortcut"[text 1-5 "a\\nb"]]'
     'definition 8-16 identifier="a b" label="a b" title=null url="c"]'),
    ('www.a.b\0', 'root 0-8[paragraph 0-8[link 0-8 title=null url="http://www.a.b\ufffd"[text 0-8 "www.a.b\ufffd"]]]'),
    ('```js x y\na\n```\n', 'root 0-16[code 0-15 lang="js" meta="x y" value="a"]'),
    ('~~~ a&amp;b\n', 'root 0-12[code 0-11 lang="a&b" meta=null value=""]'),
    ('$$ x\\* y\na\n\n$$\n', 'root 0-15[math 0-14 meta="x* y" value="a\\n"]'),
    ('> $$\n> a', 'root 0-8[blockquote 0-8[math 2-8 meta=null value="a"]]'),
    ('---\na: b\n---\n# c\n', 'root 0-17[yaml 0-12 value="a: b"heading 13-16 depth=1[text 15-16 "c"]]'),
    ('\ufeff+++ \n\na = 1\n\n+++\t', 'root 0-18[toml 1-18 value="\\na = 1\\n"]'),
    ('---\n---\n', 'root 0-8[yaml 0-7 value=""]'),
    ('    a\n    b\n', 'root 0-12[code 0-11 lang=null meta=null value="a\\nb"]'),
    ('<b>\na\n', 'root 0-6[html 0-5 value="<b>\\na"]'),
    ('[a]: b "c"', 'root 0-10[definition 0-10 identifier="a" label="a" title="c" url="b"]'),
    ('[A b]: <c d>\ne', 'root 0-14[definition 0-12 identifier="a b" label="A b" title=null url="c d"paragraph 13-14[text 13-14 "e"]]'),
    ('*a* __b__', 'root 0-9[paragraph 0-9[emphasis 0-3[text 1-2 "a"]text 3-4 " "strong 4-9[text 6-7 "b"]]]'),
    ('~~a~~ $b$', 'root 0-9[paragraph 0-9[delete 0-5[text 2-3 "a"]text 5-6 " "inlineMath 6-9 value="b"]]'),
    ('`` a` ``', 'root 0-8[paragraph 0-8[inlineCode 0-8 value="a`"]]'),
    ('a  \nb', 'root 0-5[paragraph 0-5[text 0-1 "a"break 1-4 text 4-5 "b"]]'),
    ('a\\\nb', 'root 0-4[paragraph 0-4[text 0-1 "a"break 1-3 text 3-4 "b"]]'),
    ('[a](b "c")', 'root 0-10[paragraph 0-10[link 0-10 title="c" url="b"[text 1-2 "a"]]]'),
    ('![a *b*](<c>)', 'root 0-13[paragraph 0-13[image 0-13 title=null url="c" alt="a b"]]'),
    ('[a][B]\n\n[b]: c', 'root 0-14[paragraph 0-6[linkReference 0-6 identifier="b" label="B" referenceType="full"[text 1-2 "a"]]'
     'definition 8-14 identifier="b" label="b" title=null url="c"]'),
    ('[a][] ![a]\n\n[a]: c', 'root 0-18[paragraph 0-10[linkReference 0-5 identifier="a" label="a" referenceType="collapsed"[text 1-2 "a"]text 5-6 " "'
     'imageReference 6-10 identifier="a" label="a" referenceType="shortcut" alt="a"]definition 12-18 identifier="a" label="a" title=null url="c"]'),
    ('> [a\\*\n> b]\n\n[A\\* b]: c', 'root 0-23[blockquote 0-11[paragraph 2-11[linkReference 2-11 identifier="a\\\\* b" label="a*\\nb" referenceType="shortcut"[text 3-10 "a*\\nb"]]]'
     'definition 13-23 identifier="a\\\\* b" label="A* b" title=null url="c"]'),
    ('<http://a> <b@c>', 'root 0-16[paragraph 0-16[link 0-10 title=null url="http://a"[text 1-9 "http://a"]text 10-11 " "link 11-16 title=null url="mailto:b@c"[text 12-15 "b@c"]]]'),
    ('www.a.b', 'root 0-7[paragraph 0-7[link 0-7 title=null url="http://www.a.b"[text 0-7 "www.a.b"]]]'),
    ('a<i>b', 'root 0-5[paragraph 0-5[text 0-1 "a"html 1-4 value="<i>"text 4-5 "b"]]'),
    ('a\\*&amp;b', 'root 0-9[paragraph 0-9[text 0-9 "a*&b"]]'),
    ('> - a\n>   *b\nc*\n\n1. d', 'root 0-21[blockquote 0-15[list 2-15 ordered=false start=null spread=false[listItem 2-15 spread=false checked=null[paragraph 4-15[text 4-6 "a\\n"'
     'emphasis 10-15[text 11-14 "b\\nc"]]]]]list 17-21 ordered=true start=1 spread=false[listItem 17-21 spread=false checked=null[paragraph 20-21[text 20-21 "d"]]]]'),
    ('\u00e9 *\U0001d11e*', 'root 0-5[paragraph 0-5[text 0-2 "\u00e9 "emphasis 2-5[text 3-4 "\U0001d11e"]]]'),
    # The examples 9, 233, 255, 110, 196 and 321 of CommonMark 0.31.2.
    (' - foo\n   - bar\n\t - baz\n', 'root 0-24[list 1-23 ordered=false start=null spread=false[listItem 1-23 spread=false checked=null[paragraph 3-6[text 3-6 "foo"]'
     'list 10-23 ordered=false start=null spread=false[listItem 10-23 spread=false checked=null[paragraph 12-15[text 12-15 "bar"]list 18-23 ordered=false start=null spread=false['
     'listItem 18-23 spread=false checked=null[paragraph 20-23[text 20-23 "baz"]]]]]]]]'),
    ('> bar\nbaz\n> foo\n', 'root 0-16[blockquote 0-15[paragraph 2-15[text 2-15 "bar\\nbaz\\nfoo"]]]'),
    ('- one\n\n two\n', 'root 0-12[list 0-5 ordered=false start=null spread=false[listItem 0-5 spread=false checked=null[paragraph 2-5[text 2-5 "one"]]]paragraph 8-11[text 8-11 "two"]]'),
    ('    <a/>\n    *hi*\n\n    - one\n', 'root 0-29[code 0-28 lang=null meta=null value="<a/>\\n*hi*\\n\\n- one"]'),
    ("[foo]: /url '\ntitle\nline1\nline2\n'\n\n[foo]\n", 'root 0-41[definition 0-33 identifier="foo" label="foo" title="\\ntitle\\nline1\\nline2\\n" url="/url"'
     'paragraph 35-40[linkReference 35-40 identifier="foo" label="foo" referenceType="shortcut"[text 36-39 "foo"]]]'),
    ('- a\n  > b\n  ```\n  c\n  ```\n- d\n', 'root 0-30[list 0-29 ordered=false start=null spread=false[listItem 0-25 spread=false checked=null[paragraph 2-3[text 2-3 "a"]'
     'blockquote 6-9[paragraph 8-9[text 8-9 "b"]]code 12-25 lang=null meta=null value="c"]listItem 26-29 spread=false checked=null[paragraph 28-29[text 28-29 "d"]]]]'),
)


def shown(tree):
    """A tree of mdast as `TREES` has it."""
    fields = ''.join(' %s=%s' % (name, json.dumps(it, ensure_ascii=False)) for name, it in tree.items() if name not in ('type', 'position', 'children'))
    if tree['type'] == 'text':
        fields = ' ' + json.dumps(tree['value'], ensure_ascii=False)
    start, end = (tree['position'][it]['offset'] for it in ('start', 'end'))
    inner = ''.join(map(shown, tree.get('children', ())))
    return '%s %d-%d%s%s' % (tree['type'], start, end, fields, '[%s]' % inner if inner else ' ' if tree['type'] == 'break' else '')


def files_in(place):
    """The Markdown files in a folder, but for what is built there."""
    for folder, _, names in os.walk(place):
        if 'out' not in os.path.relpath(folder, place).split(os.sep):
            yield from (os.path.join(folder, name) for name in sorted(names) if name.endswith('.md'))


def real_files(*places):
    """The beginnings of Markdown files in these folders, at most 200."""
    found = [it for place in places for it in files_in(place)]
    random.Random(1).shuffle(found)
    for path in found[:200]:
        with open(path, 'rb') as file:
            given = file.read(20_000)
        try:
            yield path, given[:given.rfind(b'\n') + 1].decode()
        except UnicodeDecodeError:
            pass


def blocks_in(node):
    """The blocks in a node, without definitions."""
    for it in node.children:
        if it.kind != 'definition':
            yield it
        if it.kind in ('blockquote', 'list', 'list_item'):
            yield from blocks_in(it)


class Rendered(unittest.TestCase):
    def same(self, document, asked):
        found = parse(document, **asked)
        self.assertEqual(rendered(found), render(document, **asked, **RAW), document)
        self.assertEqual([(it.label, it.url, it.title) for it in found.find('definition')], [tuple(it) for it in found.definitions], document)
        kinds = {'link': 'link', 'image': 'image', 'autolink': 'link', 'literal': 'link'}
        self.assertEqual([(it.kind[:5].rstrip('_'), it.start, it.end, it.url, it.title) for it in found.find('link', 'image', 'link_reference', 'image_reference')],
                         [(kinds[it.kind][:5], it.start, it.end, it.destination, it.title) for it in found.links if not self.is_text(found, it)], document)

    def is_text(self, found, link):
        """Whether a bare URL is text of a link."""
        return link.kind == 'literal' and any(it.kind != 'image' and it.start <= link.start and link.end <= it.end and it is not link for it in found.links)

    def test_pages(self):
        for words, document, _ in documents.ROWS:
            for asked in ({}, ALL):
                self.same(document, asked)
                self.assertEqual(rendered(parse(document.encode(), **asked)), render(document, **asked, **RAW), document)

    def test_random(self):
        draw = random.Random(1)
        parts = PARTS + ['www.a.b', 'c@d.e', '~f~', '$g$', '[r]:\n', '[r]: /s\n"t\nu"\n', '[r]: <s>\n', '\t>', '[R][]', '![r]', '$$\n', '$$ x', '<j:k>', '&amp;', '&#0;', '&NotEqualTilde;', '\\\n', '  \n', '<a\n b>']
        for _ in range(600):
            document = draw.choice(['', '', '---\na\n---\n', '+++\n']) + ''.join(draw.choice(parts) for _ in range(draw.choice([3, 10, 30])))
            self.same(document, draw.choice([{}, ALL]))

    def test_real_files(self):
        count = 0
        for path, given in real_files(ROOT, '/usr/share', '/usr/lib'):
            found = parse(given, **ALL)
            self.assertEqual(rendered(found), render(given, **ALL, **RAW), path)
            self.assertEqual(list(faults(found)), [], path)
            count += 1
        self.assertGreater(count, 10)

    @unittest.skipUnless(shutil.which('cmark'), 'cmark is not there')
    def test_starts_of_cmark(self):
        """Blocks begin on the lines and in the columns that cmark tells, but HTML and indented code before the spaces and tabs at their front."""
        kinds = {'code_block': 'code', 'html_block': 'html', 'item': 'list_item', 'block_quote': 'blockquote', **{it: it for it in ('thematic_break', 'heading', 'paragraph', 'list')}}
        for path, given in real_files(ROOT):
            said = subprocess.run(['cmark', '-t', 'xml', '--sourcepos'], input=given.encode(), stdout=subprocess.PIPE, check=True).stdout.decode()
            wanted = [(kinds[kind], int(line), int(column)) for kind, line, column in re.findall(r'<(\w+) sourcepos="(\d+):(\d+)-', said) if kind in kinds]
            found = list(blocks_in(parse(given.encode()).root))
            self.assertEqual([(it.kind, it.line) for it in found], [it[:2] for it in wanted], path)
            for it, (kind, _, column) in zip(found, wanted):
                self.assertTrue(it.column == column or kind in ('code', 'html') and it.column < column <= it.column + 4, (path, it))


class Nodes(unittest.TestCase):
    def test_trees_of_mdast(self):
        for document, wanted in TREES:
            found = parse(document, **ALL)
            self.assertEqual(shown(found.to_mdast()), wanted, document)
            self.assertEqual(json.loads(found.to_json()), found.to_mdast())
            self.assertEqual(list(faults(found)), [])

    def test_leaves_of_mdast(self):
        tree = parse('---\na\n---\n$$\nb\n$$\n***\n~~~\n~~~\n<b>\n\n[c]: d', **ALL).to_mdast()
        self.assertEqual([(it['type'], 'children' in it) for it in tree['children']], [(it, False) for it in ('yaml', 'math', 'thematicBreak', 'code', 'html', 'definition')])

    def test_points(self):
        position = parse('\ufeff> é\n> *a\n> b*').to_mdast()['children'][0]['children'][0]['children'][1]['position']
        self.assertEqual(position, {'start': {'line': 2, 'column': 3, 'offset': 7}, 'end': {'line': 3, 'column': 5, 'offset': 14}})

    def test_positions(self):
        """They count what the document counts, and a tab is one column."""
        for document, wanted in (('é\n\n>\té *a*', (3, 5, 7, 3, 8, 10)), ('é\n\n>\té *a*'.encode(), (3, 6, 9, 3, 9, 12)), ('\ufeff*a*'.encode(), (1, 4, 3, 1, 7, 6))):
            node, = parse(document).find('emphasis')
            self.assertEqual((node.line, node.column, node.start, node.end_line, node.end_column, node.end), wanted)
        for document, wanted in (('>\t\ta', '\t\ta'), ('-\n\n \tb', ' \tb'), ('1.  a\n\n\t\tb', '\tb'), ('> -\t\t\tc', '\t\tc'), ('    d\n\n    \n', '    d'), ('-     e', '    e'), ('  <f>\ng', '  <f>\ng')):
            node = list(parse(document).walk())
            self.assertIn(wanted, [cut(parse(document), it) for it in node], document)

    def test_what_kinds_have(self):
        found = parse('## a\n\n2. [x] b\n\n~~~ c&amp;d e\nf\n~~~\n\n    g\n\n[h]: /i "j"\n\n[k][h] ![l](m) <nn:o>', tasks=True)
        nodes = {it.kind: it for it in found.find('heading', 'list', 'list_item', 'definition', 'link_reference', 'image', 'link', 'text')}
        for kind, wanted in (
            ('heading', {'level': 2, 'text': 'a'}), ('list', {'ordered': True, 'start_number': 2, 'tight': True, 'spread': False}), ('list_item', {'checked': True, 'spread': False, 'text': ' b'}),
            ('definition', {'label': 'h', 'url': '/i', 'title': 'j', 'text': ''}), ('link_reference', {'label': 'h', 'url': '/i', 'title': 'j', 'reference': 'full', 'text': 'k'}),
            ('image', {'url': 'm', 'title': None, 'alt': 'l', 'text': 'l'}), ('link', {'url': 'nn:o', 'title': None, 'text': 'nn:o'}), ('text', {}),
        ):
            for name in ('level', 'ordered', 'start_number', 'tight', 'spread', 'checked', 'label', 'url', 'title', 'reference', 'alt', 'info', 'lang'):
                if name in wanted:
                    self.assertEqual(getattr(nodes[kind], name), wanted[name])
                else:
                    self.assertRaisesRegex(AttributeError, r'^Node\(%s, \d+, \d+\) has no %s$' % (kind, name), getattr, nodes[kind], name)
            self.assertEqual(nodes[kind].text, wanted.get('text', nodes[kind].text))
        self.assertEqual([(it.info, it.lang, it.text) for it in found.find('code')], [('c&d e', 'c&d', 'f\n'), (None, None, 'g\n')])
        matter, formula = parse('+++\na\n+++\n$$ b&amp;c d\ne\n$$', front_matter=True, math=True).children
        self.assertEqual((matter.lang, matter.text, formula.info, formula.text), ('toml', 'a\n', 'b&c d', 'e\n'))
        self.assertRaises(AttributeError, lambda: matter.info)
        self.assertRaises(AttributeError, lambda: formula.lang)
        self.assertEqual(parse('---\na\n---\n$$\nb\n$$\nc', **ALL).text, 'b\n\nc')
        self.assertEqual([it.lang for info in ('a\xa0b&#9;c', '&#32;d', '') for it in parse('~~~' + info).find('code')], ['a\xa0b', 'd', None])
        items = parse('- [ ] a\n- # [x] b\n- [x]\n- [y] c', tasks=True).find('list_item')
        self.assertEqual([it.checked for it in items], [False, None, None, None])
        self.assertEqual([it.checked for it in parse('- [x] a').find('list_item')], [None])

    def test_a_document_of_nodes(self):
        found = parse('# *a*\n\n> ## `b`\n\nc<i>d\n\n<e>\n')
        self.assertEqual(([it.text for it in found.headings], found.raw, parse(b'a').raw), (['a', 'b'], '# *a*\n\n> ## `b`\n\nc<i>d\n\n<e>\n', b'a'))
        self.assertEqual((found.text, found.to_text(), found.root.kind, found.children), ('a\n\nb\n\ncd',) * 2 + ('root', found.root.children))
        self.assertEqual([it.kind for it in found.walk()], ['heading', 'emphasis', 'text', 'blockquote', 'heading', 'inline_code', 'paragraph', 'text', 'html', 'text', 'html'])
        self.assertEqual([it.text for it in found.find('html')], ['<i>', '<e>\n'])
        self.assertEqual([it.text for it in found.children[1].find('inline_code', 'text')], ['b'])
        self.assertEqual((found.children, found.children[0].children), (found.children, found.children[0].children))
        self.assertEqual(repr(found.children), '(Node(heading, 0, 5), Node(blockquote, 7, 15), Node(paragraph, 17, 22), Node(html, 24, 27))')
        self.assertEqual((parse('').children, parse('').text, list(parse('').walk()), parse('').headings), ((), '', [], []))
        for kind in ('header', 'BlockQuote', ''):
            self.assertRaisesRegex(ValueError, "^'%s' is no kind of a node$" % kind, found.find, 'text', kind)
        self.assertRaises(AttributeError, lambda: setattr(found.root, 'children', ()))

    def test_what_is_deep(self):
        """Nothing calls itself, so deep nesting does not exhaust the stack."""
        for document, count in (('> ' * 5000 + 'a', 5002), ('- ' * 5000 + 'a', 10002), ('*a **a ' * 5000 + 'b' + '***' * 5000, 20001), ('![' * 5000 + 'a' + '](b)' * 5000, 5002)):
            found = parse(document)
            self.assertEqual((sum(1 for _ in found.walk()), found.to_json()[-2:]), (count, ']}'), document[:9])
            self.assertEqual(found.to_text().count('a'), 10000 if 'b*' in document else 1)

    def test_what_is_long(self):
        """What a node costs does not grow with the document, the line, or the text that it is in."""
        def seconds(document):
            begun = time.process_time()
            found = parse(document)
            for it in found.walk():
                self.assertGreater(it.column, 0)
            self.assertGreater(sum(len(it.url + it.label) for it in found.find('link_reference')), 0)
            self.assertGreater(len(found.to_json()), len(document))
            return time.process_time() - begun

        for part in ('é [a][r] ', '> [a\n> b][r] &amp;\n', '- é\n\n  [r]\n', '[r]: /s "t\n é"\n', '> - [r]\n'):
            short, long = (part * count + '\n\n[r]\n\n[r]: s' for count in (250, 2000))
            self.assertLess(min(seconds(long) for _ in range(2)), 24 * min(seconds(short) for _ in range(3)), part)
