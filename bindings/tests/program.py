"""`python -m markdown_inline` over the rows of mdhtml, whose arguments, output, errors and statuses it has."""
import os
import subprocess
import sys
import tempfile
import unittest

from markdown_inline import __main__ as program, __version__

sys.dont_write_bytecode = True
sys.path.insert(0, os.path.join(os.path.dirname(os.path.abspath(__file__)), '../../tools/checks'))
import rows  # noqa: E402

SINKS = (b'>/dev/full', b'>/dev/null', b'>|')


def opened(sink):
    """Where the output goes: to a file, into a pipe that nobody reads, or to a file that is read here."""
    if sink == b'>|':
        reader, writer = os.pipe()
        os.close(reader)
        return os.fdopen(writer, 'wb')
    return open(sink[1:], 'wb') if sink else tempfile.TemporaryFile()


def ran(words, given):
    """The status of the program in a process of its own, what it prints, and what it says. The input stands in the files of words with an @, or else on standard
    input."""
    with tempfile.TemporaryDirectory() as place, tempfile.TemporaryFile() as source, tempfile.TemporaryFile() as said, \
            opened(next((it for it in words if it in SINKS), b'')) as out:
        for name in [source] + [os.path.join(place, os.fsdecode(it[1:])) for it in words if it[:1] == b'@']:
            with open(name, 'wb') if isinstance(name, str) else os.fdopen(os.dup(name.fileno()), 'wb') as file:
                file.write(given)
        source.seek(0)
        child = os.fork()
        if not child:
            try:
                os.chdir(place)
                for number, file in enumerate((source, out, said)):
                    os.dup2(file.fileno(), number)
                os._exit(program.main([os.fsdecode(it.lstrip(b'@')) for it in words if it not in SINKS]))
            finally:
                os._exit(99)
        status = os.waitpid(child, 0)[1] >> 8
        return (status, *(os.pread(it.fileno(), 1 << 24, 0) if it.readable() else b'' for it in (out, said)))


class Program(unittest.TestCase):
    def test_rows_of_mdhtml(self):
        listed = list(rows.lines('mdhtml'))
        self.assertGreater(len(listed), 140)
        for line in listed:
            words, given, *wanted = rows.read(line)
            # The interpreter itself refuses a folder as its input, and a file whose name is not UTF-8 is a file here.
            if b'<.' not in words and not any(b'\xff' in it for it in words):
                self.assertEqual(ran(words, given), (wanted[0], *(it.replace(b'mdhtml', b'markdown_inline') for it in wanted[1:])), line)

    def test_files_whose_names_are_not_utf_8(self):
        self.assertEqual(ran([b'@\xff.md'], b'a'), (0, b'<p>a</p>\n', b''))
        self.assertEqual(ran([b'--to=links', b'@\xff.md'], b'[a](b)'), (0, b'\xff.md:1:1: b\n', b''))
        self.assertEqual(ran([b'\xff.md'], b''), (6, b'', b'markdown_inline: "\xff.md": read failed: No such file or directory (os error 2)\n'))
        self.assertEqual(ran([b'-\xff'], b'')[0], 2)

    def test_out_of_memory(self):
        code = 'import resource; resource.setrlimit(resource.RLIMIT_AS, (400 << 20, 400 << 20)); import runpy, sys; sys.argv = ["m"]; ' \
            'runpy.run_module("markdown_inline", run_name="__main__")'
        done = subprocess.run([sys.executable, '-c', code], input=b'[a](b)' * 5000000, stdout=subprocess.PIPE, stderr=subprocess.PIPE, timeout=120)
        self.assertEqual((done.returncode, done.stdout, done.stderr), (5, b'', b'markdown_inline: out of memory\n'))

    def test_as_a_module(self):
        done = subprocess.run([sys.executable, '-m', 'markdown_inline', '--strikethrough'], input=b'# ~a~', stdout=subprocess.PIPE, check=True, timeout=60)
        self.assertEqual(done.stdout, b'<h1><del>a</del></h1>\n')
        done = subprocess.run([sys.executable, '-m', 'markdown_inline', '--help'], stdout=subprocess.PIPE, check=True, timeout=60)
        self.assertTrue(done.stdout.startswith(b'usage: python -m markdown_inline [OPTION].. [--] FILE..'))
        self.assertEqual(ran([b'--version'], b''), (0, b'markdown_inline %s\n' % __version__.encode(), b''))
