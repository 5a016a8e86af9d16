"""Renders Markdown files to HTML, or lists their links, with the arguments and the statuses of mdhtml."""
import json
import math
import sys

from . import NotUtf8, References, __version__, parse, render
from ._lines import Lines
from ._printed import links, shown
from ._program import NO_MEMORY, UNKNOWN, Fault, read, say, write
from ._tables import STATUSES

HELP = '''usage: python -m markdown_inline [OPTION].. [--] FILE..   each file is a document of its own
       python -m markdown_inline [OPTION].. < FILE
       python -m markdown_inline --help | --version

--to=html          HTML; this is the default
--to=links         a line for each link or image of a named file, FILE:LINE:COLUMN: DESTINATION; of standard input line, column, kind, destination and title,
                   separated by tabs
--json             with --to=links: a JSON object for each link, one a line
--strikethrough    ~~a~~ and ~a~ are struck through
--bare-urls        URLs and email addresses are links without < and > too
--tasks            [ ] and [x] that begin a list item are checkboxes
--math             $a$ and $$a$$ are math, and so are lines between two lines of $$
--front-matter     lines between two lines of --- or of +++ at the start of a file are left out
--raw              HTML of the file stays HTML; otherwise it is escaped
--any-link         links may have any destination; otherwise only relative ones and those of listed schemes
--lf, --crlf       each line ending is written as LF, as CR LF; otherwise it stays as in the file
--no-limit         references may repeat any number of bytes of link definitions; otherwise 100,000, or as many as the file has if it is longer

For one paragraph there is python -m markdown_inline.inline.'''
READING = {'--strikethrough': 'strikethrough', '--bare-urls': 'bare_urls', '--tasks': 'tasks', '--math': 'math', '--front-matter': 'front_matter'}
WRITING = {
    '--raw': ('html', 'raw'), '--any-link': ('any_link', True), '--lf': ('line_ends', '\n'), '--crlf': ('line_ends', '\r\n'), '--no-limit': ('limit', math.inf),
}
NOT_UTF_8 = 'not UTF-8 at line %d, column %d: convert the file to UTF-8, for example with iconv'
BEYOND = 'references repeat more than %d bytes of link definitions, of which HTML may have up to 9 times as many: --no-limit lifts this limit'
# Statuses: references expand to more than the limit, and nobody reads the output any more.
LIMIT, CLOSED = 7, 141


class Asked:
    """What the arguments ask for."""

    def __init__(self, words):
        self.to, self.is_json, self.reading, self.writing, self.files = 'html', False, {}, {}, []
        words = list(words)
        while words:
            word = words.pop(0)
            if word == '--':
                self.files += words
                break
            if not word.startswith('-'):
                self.files.append(word)
            elif not self.take(word):
                raise Fault(UNKNOWN, 'unknown option %s: markdown_inline --help lists the options' % named(word))
        if self.is_json and self.to == 'html':
            raise Fault(UNKNOWN, '--json prints links: add --to=links')

    def take(self, option):
        """Takes an option, and returns whether it is known."""
        if option == '--gfm':
            raise Fault(UNKNOWN, '--gfm is not there yet, for want of tables and footnotes: use --strikethrough, --bare-urls and --tasks')
        if option in ('--to=html', '--to=links'):
            self.to = option[5:]
        elif option == '--json':
            self.is_json = True
        elif option in READING:
            self.reading[READING[option]] = True
        elif option in WRITING:
            self.writing.update([WRITING[option]])
        else:
            return False
        return True

    def print(self, file):
        """Prints what is asked for of a file, or of standard input."""
        given = read(file)
        limit = self.writing.get('limit', max(100_000, len(given)))
        try:
            if self.to == 'html':
                return write([render(given, **self.reading, **self.writing)])
            found = parse(given, **self.reading).links
        except NotUtf8 as error:
            raise Fault(error.status, NOT_UTF_8 % place_of(given, error.at)) from None
        except References:
            raise Fault(LIMIT, BEYOND % limit) from None
        within = found[:count_within(found, limit)]
        write(it + '\n' for it in links(with_tab_stops(within, given), file, self.is_json))
        if len(within) < len(found):
            raise Fault(LIMIT, BEYOND % limit)
        return None


def place_of(document, byte):
    """The line and the column of a byte, which counts bytes."""
    lines = Lines(document[:byte])
    return lines.line(byte), lines.column(byte)


def count_within(found, limit):
    """How many links come before the one by which references expand to more bytes than the limit."""
    for count, it in enumerate(found):
        if it.definition is not None:
            limit -= len(it.destination.encode()) + len((it.title or '').encode())
            if limit < 0:
                return count
    return len(found)


def with_tab_stops(found, document):
    """Links with the columns of mdhtml, where a tab is all columns up to its tab stop."""
    line = at = column = 0
    for it in found:
        if it.line != line:
            line, at, column = it.line, it.start - it.column + 1, 0
        column += len((b' ' * (column % 4) + document[at:it.start]).expandtabs(4)) - column % 4
        at = it.start
        yield it._replace(column=column + 1)


def main(words):
    """Runs the program: its status, that of the first error. Each error is a line on standard error, and the program goes on with the next file, unless writing
    failed."""
    status, file = 0, None
    try:
        if words in (['--help'], ['--version']):
            write([HELP, '\n'] if words == ['--help'] else ['markdown_inline %s\n' % __version__])
            return 0
        asked = Asked(words)
        for file in asked.files or [None]:
            try:
                asked.print(file)
            except Fault as fault:
                if str(fault).startswith('write'):
                    raise
                status = said(fault, file, status)
            except MemoryError:
                status = said(Fault(NO_MEMORY, STATUSES[NO_MEMORY]), file, status)
    except Fault as fault:
        return CLOSED if isinstance(fault.__cause__, BrokenPipeError) else said(fault, file, status)
    return status


def named(word):
    """An argument as errors name it."""
    return shown(json.dumps(word, ensure_ascii=False))


def said(fault, file, status):
    """The status after a fault that is said, where it was another before."""
    say('markdown_inline: %s%s' % ('' if file is None else named(file) + ': ', fault))
    return status or fault.status


def script():
    """The program as a command of its own."""
    return main(sys.argv[1:])


if __name__ == '__main__':
    sys.exit(script())
