#!/usr/bin/env python3
"""The package in headless Chromium, with its module beside and inside, finds what the package for Python finds; and so does the page of one file, by the tests of
the served one.

usage: in_chromium.py PACKAGE PAGE

It wants the package for Python, and ends with a line of what it skips where there is no Chromium."""
import functools
import http.server
import json
import os
import pathlib
import subprocess
import sys
import tempfile
import threading
import unittest

sys.dont_write_bytecode = True
TESTS = os.path.join(os.path.dirname(os.path.abspath(__file__)), '../../tests')
sys.path.insert(0, TESTS)
import browser  # noqa: E402
import page  # noqa: E402
from markdown_inline import BlankLine  # noqa: E402
from markdown_inline.inline import html, text  # noqa: E402

PACKAGE, PAGE = map(os.path.abspath, sys.argv[1:3])
# What a call finds in each document: its events as mdinline prints them and its HTML, or why there are none.
FIND = '''(async (name, documents) => {
  const { inline: { text, html } } = await import(name), or = (number) => number ?? '-';
  const shown = ({ enter, name, line, byteColumn, byte, vs, link }) =>
    `${enter ? 'Enter' : 'Exit'} ${name} ${line} ${byteColumn} ${byte} ${vs}` + (link ? ` link ${link.content} ${or(link.previous)} ${or(link.next)}` : '');
  return documents.map((it) => {
    try {
      return [Array.from(text(it, { gfm: true, math: true }), shown), html(it, { gfm: true })];
    } catch (error) {
      return error.code;
    }
  });
})(%s, %s)'''


def drawn():
    """The documents of draw.py."""
    with tempfile.TemporaryDirectory() as room:
        subprocess.run([sys.executable, TESTS + '/draw.py', '1', '300', *(room + '/' + it for it in ('rows', 'cases', 'more'))], check=True)
        with open(room + '/cases', encoding='ascii') as it:
            return [bytes.fromhex(line.split(' ')[5].replace('-', '')).decode() for line in it]


def found(document):
    try:
        return [list(map(str, text(document, gfm=True, math=True))), html(document, gfm=True)]
    except BlankLine:
        return 'BLANK_LINE'


class Handler(http.server.SimpleHTTPRequestHandler):
    extensions_map = {'.js': 'text/javascript', '.wasm': 'application/wasm', '.html': 'text/html', '': 'application/octet-stream'}

    def log_message(self, *_):
        """Says nothing."""


class InABrowser(unittest.TestCase):
    @classmethod
    def setUpClass(cls):
        cls.server = http.server.ThreadingHTTPServer(('127.0.0.1', 0), functools.partial(Handler, directory=PACKAGE))
        cls.thread = threading.Thread(target=cls.server.serve_forever)
        cls.thread.start()
        cls.browser = browser.Browser()
        cls.page = cls.browser.open('http://127.0.0.1:%d/' % cls.server.server_port)
        cls.page.wait("document.readyState === 'complete'")

    @classmethod
    def tearDownClass(cls):
        cls.browser.close()
        cls.server.shutdown()
        cls.server.server_close()
        cls.thread.join()

    def test_drawn_documents(self):
        documents = ['a *b* [c](/d)', '', 'é 漢 😀 [a](b "c")'] + drawn()
        wanted = [found(it) for it in documents]
        self.assertGreater(sum(isinstance(it, list) for it in wanted), 150)
        for name in ('/index.js', '/one.js'):
            self.assertEqual(self.page.value(FIND % (json.dumps(name), json.dumps(documents))), wanted, name)

    def test_little_memory(self):
        code = '''(async () => { const { create } = await import('/index.js'), little = create({ maximum: 1 << 20 }).inline;
          try { little.html('*a* é '.repeat(300000) + 'b'); } catch (error) { return [error.code, little.html('*a*')]; } })()'''
        self.assertEqual(self.page.value(code), ['NO_MEMORY', '<em>a</em>'])

    def test_a_used_up_stack(self):
        code = '''(async () => { const { html } = await import('/inline.js'), given = '*a* [b](c) **d *e* f** `g` <h>'.repeat(20), wanted = html(given); let failed = 0, wrong = 0, many = 0;
          const dive = () => { try { dive(); } catch { failed++; } if (many < 5) { if (html(given) !== wanted) wrong++; many++; } };
          for (let round = 0; round < 20; round++) { many = 0; dive(); } return [failed > 20, wrong, html(given) === wanted]; })()'''
        self.assertEqual(self.page.value(code), [True, 0, True])


class OnTheFile(page.OnThePage):
    """The page of one file, whose questions no server answers."""
    test_a_long_question = None

    @classmethod
    def setUpClass(cls):
        cls.url = pathlib.Path(PAGE).as_uri()
        cls.browser = browser.Browser()

    @classmethod
    def tearDownClass(cls):
        cls.browser.close()

    def test_half_of_a_pair(self):
        self.page.value("document.getElementById('text').value = 'a\\n\\ud83d'; delete document.body.dataset.shown; document.getElementById('text').dispatchEvent(new Event('input', {bubbles: true}))")
        self.page.wait('document.body.dataset.shown')
        self.assertEqual(self.page.value(page.SHOWN)['why'], 'Line 2 has half of a pair of surrogates, U+D83D. UTF-8 has no bytes for it.')


if __name__ == '__main__':
    if not browser.FOUND:
        print('bindings: the package in a browser skipped, for want of Chromium')
        sys.exit(0)
    unittest.main(argv=sys.argv[:1])
