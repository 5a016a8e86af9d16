"""`python -m markdown_inline.inline`: its lines and its statuses, which are those of the program mdinline."""
import os
import subprocess
import sys
import time
import unittest

from markdown_inline import __version__, _printed
from markdown_inline.inline import links

PROGRAM = [sys.executable, '-m', 'markdown_inline.inline']


def run(*words, given=b'', by=(), flags=()):
    """The status of the program, and what it writes. `by` is what a shell does with its input and its output."""
    command = [sys.executable, *flags, '-m', 'markdown_inline.inline', *words]
    if by:
        command = ['sh', '-c', '"$@" ' + by, 'sh'] + command
    done = subprocess.run(command, input=given, stdout=subprocess.PIPE, stderr=subprocess.PIPE, timeout=60)
    return done.returncode, done.stdout.decode(), done.stderr.decode()


class Program(unittest.TestCase):
    def test_lines(self):
        self.assertEqual(run('text', given=b'a\n'), (0, 'Enter Data 1 1 0 0\nExit Data 1 2 1 0\n', ''))
        self.assertEqual(run('text', given='é\r\n'.encode()), (0, 'Enter Data 1 1 0 0\nExit Data 1 3 2 0\n', ''))

    def test_rules(self):
        """By default those of CommonMark."""
        for given, words, found in (('&check;', (), '\u2713'), ('&check;', ('crate',), '&amp;check;'), ('&check;', ('crate', 'html-references'), '\u2713'),
                                    ('a*_b_*', (), 'a*<em>b</em>*'), ('a*_b_*', ('crate', 'commonmark'), 'a*<em>b</em>*')):
            self.assertEqual(run('--html', *words, given=given.encode()), (0, found + '\n', ''))

    def test_words(self):
        for words in ((), ('nothing',), ('text', 'nothing'), ('text', '--nothing'), ('string', 'raw')):
            status, lines, said = run(*words)
            self.assertEqual((status, lines), (2, ''))
            self.assertIn('usage: python -m markdown_inline', said)
            self.assertEqual(run(*words, flags=['-OO']), (status, lines, said))

    def test_words_that_stand_where_they_may_not(self):
        for words in (
            ('--tree',) * 2, ('--html', 'string'), ('--links', 'string'), ('text', '--tree'), ('text', 'raw'), ('--links', 'raw'), ('--html', 'label=a'),
            ('--html', 'define=a'), ('--html', 'to=/b'), ('--html', 'define=a', 'title=b'), ('--links', 'define=a', 'to=/b', 'to=/c'),
            ('--html', 'define=a', 'to=/b', 'title=c', 'title=d'), ('text', 'define=a', 'to=/b'), ('--html', 'raw_html'), ('--html', 'raw=1'), ('text', 'gfm='),
        ):
            self.assertEqual(run(*words, given=b'a')[:2], (2, ''), words)

    def test_tree(self):
        self.assertEqual(run('--tree', given='a *é*'.encode()), (0, 'Data 1:1-1:3 "a "\nEmphasis 1:3-1:7\n  EmphasisSequence 1:3-1:4 "*"\n'
                         '  EmphasisText 1:4-1:6\n    Data 1:4-1:6 "é"\n  EmphasisSequence 1:6-1:7 "*"\n', ''))
        self.assertEqual(run('--tree', 'string', given=b'*a*\n"'), (0, 'Data 1:1-1:4 "*a*"\nLineEnding 1:4-2:1 "\\n"\nData 2:1-2:2 "\\""\n', ''))
        self.assertIn('GfmFootnoteCall 1:1-1:5\n', run('--tree', 'text', 'gfm', 'note=N', given=b'[^n]')[1])

    def test_html(self):
        given = b'<b> [a](javascript:c) *[B  d]* ~e~\n'
        self.assertEqual(run('--html', 'define=b D', 'to=/f', 'title=g', 'gfm', given=given), (
            0, '&lt;b&gt; <a href="">a</a> <em><a href="/f" title="g">B  d</a></em> <del>e</del>\n', ''))
        self.assertEqual(run('--html', 'text', 'raw', 'any-link', given=given), (0, '<b> <a href="javascript:c">a</a> <em>[B  d]</em> ~e~\n', ''))
        # The first of two definitions of a label.
        self.assertEqual(run('--html', 'define=a', 'to=/b', 'define=A', 'to=/c', given=b'[a]')[1], '<a href="/b">a</a>\n')

    def test_links(self):
        given = b'[a ![b](c\\_d "e&amp;\n  f")](<g>) [q][] x *[Q]* <h@i.j>\n<kk:l> www.m.n o@p.q [r [^n]][q] [s]'
        status, found, said = run('--links', 'gfm', 'note=n', 'define=q', 'to=/u', 'title=t', 'define=Q', 'to=/v', given=given)
        self.assertEqual((status, said), (0, ''))
        self.assertEqual([it.split('\t') for it in found.splitlines()], [
            ['1', '1', 'link', 'g', ''], ['1', '4', 'image', 'c_d', 'e&\\u000af'], ['2', '13', 'link', '/u', 't'], ['2', '22', 'link', '/u', 't'],
            ['2', '27', 'autolink', 'mailto:h@i.j', ''], ['3', '1', 'autolink', 'kk:l', ''], ['3', '8', 'literal', 'http://www.m.n', ''],
            ['3', '16', 'literal', 'mailto:o@p.q', ''], ['3', '30', 'link', '/u', 't']])
        self.assertEqual(run('--links', given=b'a'), (0, '', ''))
        self.assertEqual(run('--links', given=b'[a](b&#27;&#x9b;c "d\te")'), (0, '1\t1\tlink\tb\\u001b\\u009bc\td\\u0009e\n', ''))
        # A destination that a definition of a label over two pieces gives, and of two definitions the first.
        self.assertEqual(run('--links', 'define=a', 'to=/b', 'define=a', 'to=/c', given=b'[a]')[1], '1\t1\tlink\t/b\t\n')

    def test_what_is_long(self):
        """What `--links` and `--tree` take and write grows with what they read, and not with its square."""
        def seconds(count):
            begun = time.process_time()
            self.assertEqual(len(list(_printed.links(links('[a](b)' * count)))), count)
            return time.process_time() - begun

        self.assertLess(min(seconds(8000) for _ in range(3)), 24 * min(seconds(1000) for _ in range(5)))
        for count in (1000, 8000):
            self.assertLess(len(run('--tree', given=b'*a **a ' * count + b'b' + b'***' * count)[1]), 3000 * count)

    def test_help(self):
        status, said, _ = run('--help')
        self.assertEqual((status, said), (0, run('nothing')[2]))
        self.assertEqual(run('--version'), (0, 'markdown_inline %s\n' % __version__, ''))
        for words in (('--help', 'text'), ('text', '--help'), ('--version', '--version')):
            self.assertEqual(run(*words)[0], 2)

    def test_statuses_of_the_input(self):
        for given, status, words in ((b'\xff', 3, 'document is not UTF-8'), (b'a\n\nb', 4, 'blank line in text, or line ending at its end')):
            self.assertEqual(run('text', given=given), (status, '', 'markdown_inline: %s\n' % words))
            self.assertEqual(run('text', given=given, flags=['-OO']), (status, '', 'markdown_inline: %s\n' % words))
        self.assertEqual(run('text', os.fsdecode(b'label=\xff'), given=b'a'), (2, '', 'markdown_inline: a word is not UTF-8\n'))

    def test_references_that_bring_too_much(self):
        words = ['--html', 'define=a', 'to=' + 'x' * 1000]
        self.assertEqual(run(*words, given=b'[a] ' * 101 + b'b'), (11, '', 'markdown_inline: references bring more than the limit\n'))
        self.assertEqual(run(*words, given=b'[a] ' * 99 + b'b')[0], 0)

    def test_input_that_cannot_be_read(self):
        # A folder is refused by the interpreter itself, before the program begins.
        self.assertEqual(run('text', by='<&-'), (6, '', 'markdown_inline: read failed: Bad file descriptor (os error 9)\n'))

    def test_output_that_cannot_be_written(self):
        for by, why in [('>&-', 'Bad file descriptor (os error 9)'), ('> /dev/full', 'No space left on device (os error 28)')][:1 + os.path.exists('/dev/full')]:
            for given in (b'a', b'*a* ' * 2000 + b'b'):
                self.assertEqual(run('text', by=by, given=given), (6, '', 'markdown_inline: write failed: %s\n' % why))
        program = subprocess.Popen(PROGRAM + ['text'], stdin=subprocess.PIPE, stdout=subprocess.PIPE, stderr=subprocess.PIPE)
        program.stdout.close()
        _, said = program.communicate(b'*a* ' * 5000 + b'b', timeout=60)
        self.assertEqual((program.returncode, said), (6, b'markdown_inline: write failed: Broken pipe (os error 32)\n'))

    def test_all_is_closed(self):
        self.assertEqual(run('text', by='<&- >&- 2>&-')[0], 6)
        self.assertEqual(run('nothing', by='2>&-'), (2, '', ''))
        self.assertEqual(run('text', by='2>&-', given=b'a')[:2], (0, 'Enter Data 1 1 0 0\nExit Data 1 2 1 0\n'))

    def test_memory_is_refused(self):
        code = 'import resource; resource.setrlimit(resource.RLIMIT_AS, (400 << 20, 400 << 20)); import runpy, sys; sys.argv = ["m", "text"]; ' \
            'runpy.run_module("markdown_inline.inline", run_name="__main__")'
        done = subprocess.run([sys.executable, '-c', code], input=b'[a](b)' * 500000, stdout=subprocess.PIPE, stderr=subprocess.PIPE, timeout=120)
        self.assertEqual((done.returncode, done.stdout, done.stderr), (5, b'', b'markdown_inline: out of memory\n'))

    def test_errors_say_why_without_docstrings(self):
        code = 'import markdown_inline as e, markdown_inline.inline as m\nfor it in (lambda: m.text(b"\\xff"), lambda: m.text("a\\n"), lambda: m.text("a", options=1 << 31), ' \
            'lambda: m.text("a", [(0, 2)]), lambda: m.reference("a")):\n try: it()\n except e.Error as it: print(it.status, it)'
        done = subprocess.run([sys.executable, '-OO', '-c', code], stdout=subprocess.PIPE, check=True, timeout=60)
        self.assertEqual(done.stdout.decode().splitlines(), [
            '3 document is not UTF-8', '4 blank line in text, or line ending at its end', '2 unknown option', '7 pieces are no content of the document',
            '10 no character reference'])
