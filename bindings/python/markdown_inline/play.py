"""A page to try the library on: `python -m markdown_inline.play` serves it to the browsers of this machine, says where, and goes on until Ctrl-C.

The page is play.html beside this file. It sends what is typed back here, and nowhere else. What is typed is shown and never run: no script but the
page's own may run there, and nothing is loaded from elsewhere."""
import argparse
import base64
import hashlib
import json
import os
import re
import sys
import threading
import webbrowser
from http.server import BaseHTTPRequestHandler, ThreadingHTTPServer
from itertools import islice

from . import BlankLine, DefinitionError, Error, NotUtf8
from .inline import OPTIONS, html, text

PAGE = os.path.join(os.path.dirname(os.path.abspath(__file__)), 'play.html')
#: How many bytes a question may have, and how many events an answer has at most.
LONGEST, MOST = 1 << 20, 100_000
LOOPBACK = '127.0.0.1'
#: The names by which this machine reaches itself. A page of another site that is given this machine's address keeps its own name.
HERE = re.compile(r'(127\.0\.0\.1|localhost|\[::1\])(:[0-9]{1,5})?')


class Wrong(Exception):
    """Why a question has no answer, with the status of HTTP."""

    def __init__(self, status, words):
        super().__init__(words)
        self.status = status


def question_of(body):
    """What is asked for: the text, what `text` and `html` take, and how many events are to be answered."""
    try:
        asked = json.loads(body)
        bits = sum(OPTIONS[it] for it in set(asked['options']))
        # Of two definitions of a label that are written alike the first one counts.
        defined = {label: (to, title or None) for label, to, title in reversed(asked['definitions'])}
        reads = {'options': bits, 'footnotes': asked['footnotes'], 'definitions': {it[0]: defined[it[0]] for it in asked['definitions']}}
        most, shows = min(max(0, asked['most']), MOST), {'html': {False: 'escape', True: 'raw'}[asked['raw']], 'any_link': asked['any']}
        return asked['text'], reads, shows, most
    except (KeyError, TypeError, ValueError, RecursionError):
        raise Wrong(400, 'this is no question') from None


def answer_to(body):
    """The answer to a question: its events as the program mdinline prints them, how many there are, and the HTML; or why there is none."""
    document, reads, shows, most = question_of(body)
    try:
        found = text(document, **reads)
        return {'events': list(map(str, islice(found, most))), 'count': len(found), 'html': html(document, **reads, **shows)}
    except Error as error:
        return {'why': why(error, document)}
    except (TypeError, ValueError):
        raise Wrong(400, 'this is no question') from None


def why(error, document):
    """Why a document is no paragraph, in words that say where."""
    lines = re.split('\r\n|\n|\r', document)
    if isinstance(error, BlankLine):
        blank = next((number for number, line in enumerate(lines, 1) if not line.strip(' \t')), None)
        if blank is None or lines[-1] == '' and blank == len(lines) > 1:
            return 'The text ends with a line ending. A paragraph ends without one.'
        return 'Line %d is blank. A paragraph ends before a blank line.' % blank
    if isinstance(error, NotUtf8):
        place = next((number, code) for number, line in enumerate(lines, 1) for code in line if '\ud800' <= code <= '\udfff')
        return 'Line %d has half of a pair of surrogates, U+%04X. UTF-8 has no bytes for it.' % (place[0], ord(place[1]))
    if isinstance(error, DefinitionError):
        return 'A definition or a footnote has half of a pair of surrogates. UTF-8 has no bytes for it.'
    return 'The library says: %s.' % error


def policy_of(page):
    """What the page may do: run its own script, have its own styles, and ask this server."""
    hashes = {}
    for word in ('script', 'style'):
        parts = re.findall('<%s>(.*?)</%s>' % (word, word), page, re.S)
        hashes[word] = ' '.join("'sha256-%s'" % base64.b64encode(hashlib.sha256(it.encode()).digest()).decode() for it in parts)
    return ("default-src 'none'; script-src %(script)s; style-src %(style)s; connect-src 'self'; base-uri 'none'; form-action 'none'; "
            "frame-ancestors 'none'; require-trusted-types-for 'script'; trusted-types frame" % hashes)


class Handler(BaseHTTPRequestHandler):
    """Answers a browser of this machine: `GET /` with the page, `POST /read` with the answer to a question."""
    protocol_version, server_version, sys_version = 'HTTP/1.1', 'markdown_inline', ''
    # The seconds for which a browser may say nothing.
    timeout = 60

    def do_GET(self):
        self.reply(self.page)

    def do_POST(self):
        self.reply(self.read)

    def reply(self, answer):
        """Sends what a method answers, or why it does not."""
        try:
            self.check()
            status, (kind, body) = 200, answer()
        except Wrong as wrong:
            # What is left of the question is not read.
            status, kind, body, self.close_connection = wrong.status, 'text/plain', str(wrong).encode(), True
        self.send_response(status)
        for name, words in {
            'Content-Type': kind + '; charset=utf-8', 'Content-Length': len(body), 'Content-Security-Policy': self.server.policy, 'Cache-Control': 'no-store',
            'X-Content-Type-Options': 'nosniff', 'Referrer-Policy': 'no-referrer', 'Cross-Origin-Resource-Policy': 'same-origin',
            'Cross-Origin-Opener-Policy': 'same-origin', 'X-DNS-Prefetch-Control': 'off', **({'Connection': 'close'} if self.close_connection else {}),
        }.items():
            self.send_header(name, str(words))
        self.end_headers()
        self.wfile.write(body)

    def check(self):
        """Refuses what comes by another name than this machine's own, or from a page of another site."""
        host, origin = self.headers.get('Host', ''), self.headers.get('Origin')
        if not HERE.fullmatch(host) or origin not in (None, 'http://' + host):
            raise Wrong(403, 'this page is for the browsers of this machine')

    def page(self):
        if self.path != '/':
            raise Wrong(404, 'there is one page, at /')
        return 'text/html', self.server.page

    def read(self):
        length = self.headers.get('Content-Length', '')
        if self.path != '/read' or self.headers.get('Content-Type') != 'application/json':
            raise Wrong(404, 'questions are JSON, to /read')
        if not re.fullmatch('[0-9]{1,18}', length):
            raise Wrong(411, 'the question does not say how long it is')
        if int(length) > LONGEST:
            raise Wrong(413, 'the question is longer than %d bytes' % LONGEST)
        return 'application/json', json.dumps(answer_to(self.rfile.read(int(length)))).encode()

    def log_message(self, *_):
        """Says nothing."""


class Server(ThreadingHTTPServer):
    """Serves the page at a port of the loopback address; at a free one where that is 0."""
    daemon_threads = True

    def __init__(self, port):
        with open(PAGE, encoding='utf-8', newline='') as file:
            page = file.read()
        self.page, self.policy = page.encode(), policy_of(page)
        super().__init__((LOOPBACK, port), Handler)
        self.url = 'http://%s:%d/' % (LOOPBACK, self.server_port)

    def handle_error(self, request, client_address):
        """Says nothing of a browser that has gone."""
        if not isinstance(sys.exc_info()[1], (ConnectionError, TimeoutError)):
            super().handle_error(request, client_address)


def port_of(word):
    """The port that a word says."""
    if not re.fullmatch('[0-9]{1,5}', word) or int(word) > 65535:
        raise argparse.ArgumentTypeError('a port is a number from 0 to 65535, and not %r' % word)
    return int(word)


def main(words):
    """Serves until Ctrl-C: status 0, or 1 where the port cannot be had."""
    parser = argparse.ArgumentParser(prog='python -m markdown_inline.play', description='Serves a page to try the library on, to the browsers of this machine alone.')
    parser.add_argument('--port', type=port_of, default=0, help='the port; by default one that is free')
    parser.add_argument('--open', action='store_true', help='opens the page in a browser')
    asked = parser.parse_args(words)
    try:
        server = Server(asked.port)
    except OSError as error:
        print('markdown_inline.play: port %d cannot be had: %s' % (asked.port, error.strerror), file=sys.stderr)
        return 1
    try:
        with server:
            print(server.url, flush=True)
            if asked.open:
                # Some browsers return only when they are closed.
                threading.Thread(target=webbrowser.open, args=(server.url,), daemon=True).start()
            server.serve_forever()
    except KeyboardInterrupt:
        print()
    return 0


if __name__ == '__main__':
    sys.exit(main(sys.argv[1:]))
