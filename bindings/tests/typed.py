"""What a client of the package is told by its types: mypy finds nothing in client.py, and what is wrong in other lines. Without mypy nothing of it can be tried."""
import importlib.util
import os
import subprocess
import sys
import tempfile
import unittest

import client
import markdown_inline

HERE = os.path.dirname(os.path.abspath(__file__))
# Each line is wrong.
WRONG = [
    'text(5)', "text('a', rules='gfm')", "text('a')[0].nothing", "html('a', definitions=[('b', 'c')])", "html('a', html=True)", "inline.links('a', columns='bytes')", "texts('a', [(0, 1)])",
    "tree('a').name", "text('a', commonmark=True)", 'leaf: str = leaves("a")[0]', "render('a', gfm=True)", "render('a', html='omit')", "render('a', line_ends='\\r')", "parse('a')[0].level",
    "parse('a', definitions=['a'])", "links('a', html='raw')", "parse('a').find('header')", "parse('a').root.depth", "parse('a').root.kind == 'header'", "parse('a').root.level.nothing",
    "parse('a').front_matter.text", "links('a', front_matter='yaml')", "render('a', hooks={'code': lambda node: 'b'})", "render('a', hooks={'code': lambda node, inner: 5})",
]


def said(path, *words):
    """What mypy says of a file."""
    environment = {**os.environ, 'MYPYPATH': os.path.dirname(os.path.dirname(markdown_inline.__file__))}
    with tempfile.TemporaryDirectory() as room:
        ran = subprocess.run([sys.executable, '-m', 'mypy', '--strict', '--follow-imports=silent', '--cache-dir', room, *words, path], stdout=subprocess.PIPE,
                             stderr=subprocess.STDOUT, env=environment, timeout=300)
    return ran.stdout.decode()


@unittest.skipUnless(importlib.util.find_spec('mypy'), 'mypy is not there')
class Types(unittest.TestCase):
    def test_a_client(self):
        self.assertIn('no issues found', said(os.path.join(HERE, 'client.py')))

    def test_what_is_wrong(self):
        with tempfile.TemporaryDirectory() as room:
            path = os.path.join(room, 'wrong.py')
            with open(path, 'w', encoding='utf-8') as file:
                file.write('from markdown_inline import inline, links, parse, render; from markdown_inline.inline import html, leaves, text, texts, tree\n' + ''.join(it + '\n' for it in WRONG))
            found = said(path)
        self.assertEqual({int(it.split(':')[1]) for it in found.splitlines() if ': error:' in it}, set(range(2, len(WRONG) + 2)), found)


class Client(unittest.TestCase):
    def test_it_runs(self):
        self.assertEqual(client.lines('a', {})[:1], [1])
        self.assertEqual(client.many(b'a'), 108)
        self.assertEqual(client.headings('## [a]\n\n[a]: b'), [(2, 1, '<a href="b">a</a>')])
        self.assertEqual(client.outline('# a\n\n- [x] [b](c)')[:3], ['1 a', 'c', '<h1 id="a">a</h1><ul>\n<li>[x] <a href="c">b</a></li>\n</ul>\n'])
        self.assertEqual(client.words('[a](b "c")', {})[:1], ['<a href="b" title="c">a</a>'])
