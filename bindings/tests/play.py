"""The server of the page to try the library on: what it answers, what it refuses, and how it ends."""
import html.parser
import http.client
import json
import os
import re
import signal
import socket
import subprocess
import sys
import threading
import unittest

from markdown_inline import play
from markdown_inline.inline import OPTIONS, html as html_of, text

PROGRAM = [sys.executable, '-m', 'markdown_inline.play']
USUAL = ['attention', 'autolink', 'character_escape', 'character_reference', 'code_text', 'hard_break_escape', 'hard_break_trailing', 'html_text', 'label_start_image',
         'label_start_link', 'label_end', 'gfm_strikethrough_single_tilde', 'math_text_single_dollar', 'standard_rules']
JSON = {'Content-Type': 'application/json'}


def question(document, **other):
    """A question as the page asks it."""
    return {'text': document, 'options': USUAL, 'definitions': [], 'footnotes': [], 'raw': False, 'any': False, 'most': 10000, **other}


class Boxes(html.parser.HTMLParser):
    """The names of the page's switches, with those that are on at first; and what the page refers to."""

    def __init__(self):
        super().__init__()
        self.names, self.on, self.references, self.inline = [], [], [], []

    def handle_starttag(self, tag, attributes):
        given = dict(attributes)
        if tag == 'input' and 'name' in given:
            self.names.append(given['name'])
            self.on += [given['name']] * ('checked' in given)
        self.references += [given[it] for it in ('src', 'href', 'action', 'srcset') if it in given]
        self.inline += [it for it in given if it.startswith('on') or it == 'style']


class Play(unittest.TestCase):
    @classmethod
    def setUpClass(cls):
        cls.server = play.Server(0)
        cls.thread = threading.Thread(target=cls.server.serve_forever)
        cls.thread.start()
        cls.host = '127.0.0.1:%d' % cls.server.server_port

    @classmethod
    def tearDownClass(cls):
        cls.server.shutdown()
        cls.server.server_close()
        cls.thread.join()

    def ask(self, method, path, body=None, headers=None):
        """The status, the headers and the bytes of an answer."""
        connection = http.client.HTTPConnection(self.host, timeout=60)
        try:
            connection.request(method, path, body, headers or {})
            found = connection.getresponse()
            return found.status, found.headers, found.read()
        finally:
            connection.close()

    def read(self, document, **other):
        status, headers, found = self.ask('POST', '/read', json.dumps(question(document, **other)), JSON)
        self.assertEqual((status, headers['Content-Type']), (200, 'application/json; charset=utf-8'), found)
        return json.loads(found)

    def test_answers(self):
        for document in ('a *b*', '', 'é *漢* 😀\nb', '<script>alert(1)</script>', '\0\x01', 'a\r\nb', '\t[a](b "c\nd")'):
            self.assertEqual(self.read(document), {'events': list(map(str, text(document))), 'count': len(text(document)), 'html': html_of(document)})

    def test_each_option(self):
        document = '*a***b* <c:d> \\* &amp; `e` f\\\ng  \n<h> ![i](j) [k](l) www.m.n [^o] ~p~ ~~q~~ $r$ $$s$$ [t][ [t]'
        defined = {'definitions': [['t', '/u', '']], 'footnotes': ['o']}
        everything, changes = list(OPTIONS), 0
        for name, bit in OPTIONS.items():
            for options in ([it for it in everything if it != name], USUAL + [name], [name]):
                bits = sum(OPTIONS[it] for it in set(options))
                found = self.read(document, options=options, **defined)
                self.assertEqual(found['events'], list(map(str, text(document, options=bits, definitions=['t'], footnotes=['o']))))
                changes += found['events'] != self.read(document, **defined)['events']
        self.assertGreater(changes, len(OPTIONS))

    def test_definitions(self):
        defined = [['b', '/first', 't'], ['b', '/second', ''], [' B ', '/third', ''], ['d', 'javascript:e', '']]
        self.assertEqual(self.read('[b] [D]', definitions=defined)['html'], '<a href="/first" title="t">b</a> <a href="">D</a>')
        self.assertEqual(self.read('[D] <e>', definitions=defined, raw=True, any=True)['html'], '<a href="javascript:e">D</a> <e>')
        self.assertIn('footnote', self.read('[^n]', options=USUAL + ['gfm_label_start_footnote'], footnotes=['N'])['html'])

    def test_why_a_text_is_none(self):
        for document, words in (
            ('a\n', 'The text ends with a line ending'), ('a\r\n', 'The text ends with a line ending'), ('\n', 'Line 1 is blank'), (' \t', 'Line 1 is blank'),
            ('a\n\nb', 'Line 2 is blank'), ('a\nb\r\n \t\r\nc', 'Line 3 is blank'), ('a\n\n', 'Line 2 is blank'), ('a\n ', 'Line 2 is blank'),
            ('a\n\ud83d', 'Line 2 has half of a pair of surrogates, U+D83D'),
        ):
            found = self.read(document)
            self.assertEqual(list(found), ['why'], document)
            self.assertIn(words, found['why'])
        for other in ({'definitions': [['\udc00', 'a', '']]}, {'definitions': [['a', '\udc00', '']]}, {'footnotes': ['\udc00']}):
            self.assertIn('A definition or a footnote has half of a pair', self.read('a', **other)['why'])

    def test_a_long_text(self):
        document = '*a* ' * 25000 + 'b'
        found = self.read(document, most=10)
        self.assertEqual((found['events'], found['count']), (list(map(str, text('*a*')))[:10], len(text(document))))
        self.assertEqual(found['html'], html_of(document))
        self.assertEqual(len(self.read(document, most=10 ** 9)['events']), play.MOST)
        self.assertEqual(self.read('a', most=-1)['events'], [])

    def test_what_is_no_question(self):
        wrong = [question(it) for it in (5, None, ['a'], {})] + [question('a', **it) for it in (
            {'options': ['nothing']}, {'options': 5}, {'options': [[]]}, {'definitions': [['a', 'b']]}, {'definitions': [[1, 'b', '']]}, {'definitions': 5}, {'definitions': [['a', 5, '']]},
            {'footnotes': 'ab'}, {'footnotes': [5]}, {'raw': 'yes'}, {'any': 7}, {'most': 'all'}, {'most': 1.5}, {'most': None})]
        bodies = [json.dumps(it) for it in wrong] + ['', '{', '5', '[]', '{}', '[' * 100000, b'\xff']
        for body in bodies:
            self.assertEqual(self.ask('POST', '/read', body, JSON)[::2], (400, b'this is no question'), body[:200])
        self.assertEqual(self.read('a')['count'], 2)

    def test_headers(self):
        for method, path, body, headers in (('GET', '/', None, {}), ('GET', '/nothing', None, {}), ('POST', '/read', json.dumps(question('a')), JSON)):
            found = self.ask(method, path, body, headers)[1]
            self.assertEqual((found['Cache-Control'], found['X-Content-Type-Options'], found['Referrer-Policy']), ('no-store', 'nosniff', 'no-referrer'))
            self.assertRegex(found['Content-Security-Policy'], "^default-src 'none'; script-src 'sha256-[^ ]+' 'sha256-[^ ]+'; style-src 'sha256-[^ ]+' 'sha256-[^ ]+'; connect-src 'self'; ")
            self.assertNotIn('unsafe', found['Content-Security-Policy'])
            self.assertIsNone(found['Access-Control-Allow-Origin'])

    def test_names_of_other_sites(self):
        body, port = json.dumps(question('a')), self.server.server_port
        for host in ('127.0.0.1:%d', 'localhost:%d', '[::1]:%d'):
            self.assertEqual(self.ask('GET', '/', headers={'Host': host % port})[0], 200)
            self.assertEqual(self.ask('POST', '/read', body, {**JSON, 'Host': host % port, 'Origin': 'http://' + host % port})[0], 200)
        for host in ('evil.example', 'evil.example:%d' % port, '127.0.0.1.evil.example', 'localhost.', '127.0.0.2', 'evil@localhost', '', '0.0.0.0:%d' % port, '[::1', 'localhost:x'):
            for method, path, given in (('GET', '/', None), ('POST', '/read', body)):
                self.assertEqual(self.ask(method, path, given, {**JSON, 'Host': host})[0], 403, host)
        for origin in ('http://evil.example', 'null', 'https://' + self.host, 'http://localhost:1', ''):
            self.assertEqual(self.ask('POST', '/read', body, {**JSON, 'Origin': origin})[0], 403, origin)

    def test_requests_that_are_refused(self):
        self.assertEqual(self.ask('GET', '/../play.py')[0], 404)
        self.assertEqual(self.ask('GET', '/?a')[0], 404)
        self.assertEqual(self.ask('POST', '/')[0], 404)
        self.assertEqual(self.ask('PUT', '/')[0], 501)
        # A form of another site can send a text, and no JSON.
        for kind in ('text/plain', 'application/x-www-form-urlencoded', 'application/jsonx'):
            self.assertEqual(self.ask('POST', '/read', '{}', {'Content-Type': kind})[0], 404)
        for length, status in ((str(play.LONGEST + 1), 413), ('9' * 19, 411), ('-1', 411), ('1e3', 411), ('', 411), ('٣', 411)):
            with socket.create_connection(self.server.server_address, timeout=60) as it:
                it.sendall(('POST /read HTTP/1.1\r\nHost: localhost\r\nContent-Type: application/json\r\nContent-Length: %s\r\n\r\n' % length).encode())
                self.assertEqual(it.makefile('rb').read().split()[1], b'%d' % status, length)
        self.assertEqual(len(self.read('a' * (play.LONGEST - 1000))['html']), play.LONGEST - 1000)

    def test_answers_do_not_mix(self):
        wrong = []

        def many(number):
            for at in range(30):
                document = '*%d* ' % number * (at % 7 * number + 1) + 'b'
                if self.read(document)['html'] != html_of(document):
                    wrong.append((number, at))

        threads = [threading.Thread(target=many, args=(number,)) for number in range(8)]
        for it in threads:
            it.start()
        for it in threads:
            it.join()
        self.assertEqual(wrong, [])

    def test_the_page(self):
        status, headers, found = self.ask('GET', '/')
        page = Boxes()
        page.feed(found.decode())
        self.assertEqual((status, headers['Content-Type']), (200, 'text/html; charset=utf-8'))
        self.assertEqual((sorted(page.names), sorted(page.on)), (sorted(OPTIONS), sorted(USUAL)))
        self.assertEqual((page.references, page.inline), (['#'], []))
        self.assertIsNone(re.search(r'innerHTML *=|insertAdjacentHTML|document\.write|\beval\b|@import|url\(', found.decode()))

    def test_the_program(self):
        # A shell's background job ignores SIGINT, and so would what it starts.
        before = signal.signal(signal.SIGINT, signal.default_int_handler)
        try:
            for ends, status in ((signal.SIGINT, 0),):
                program = subprocess.Popen(PROGRAM, stdout=subprocess.PIPE, stderr=subprocess.PIPE)
                url = program.stdout.readline().decode()
                self.assertRegex(url, r'^http://127\.0\.0\.1:[0-9]+/\n$')
                port = url.split(':')[2].strip('/\n')
                taken = subprocess.run(PROGRAM + ['--port', port], stdout=subprocess.PIPE, stderr=subprocess.PIPE, timeout=60)
                self.assertEqual((taken.returncode, taken.stdout), (1, b''))
                self.assertRegex(taken.stderr.decode(), r'^markdown_inline\.play: port %s cannot be had: .*\n$' % port)
                # A connection that says nothing keeps nobody waiting.
                with socket.create_connection(('127.0.0.1', int(port)), timeout=60):
                    program.send_signal(ends)
                    said = program.communicate(timeout=60)
                self.assertEqual((program.returncode, *said), (status, b'\n', b''))
        finally:
            signal.signal(signal.SIGINT, before)
        for words in (['--port', '65536'], ['--port', '-1'], ['--port', 'x'], ['nothing']):
            found = subprocess.run(PROGRAM + words, stdout=subprocess.PIPE, stderr=subprocess.PIPE, timeout=60)
            self.assertEqual((found.returncode, found.stdout), (2, b''))
            self.assertIn(b'usage: python -m markdown_inline.play', found.stderr)

    def test_it_is_opened(self):
        program = subprocess.Popen(PROGRAM + ['--open'], stdout=subprocess.PIPE, env={**os.environ, 'BROWSER': 'echo opened %s'})
        url = program.stdout.readline()
        self.assertEqual(program.stdout.readline(), b'opened ' + url)
        program.kill()
        program.communicate()
