"""Builds the programs, runs them, and tells instructions, time and memory."""
import atexit
import os
import re
import resource
import shutil
import signal
import statistics
import subprocess
import sys
import tempfile

HERE = os.path.dirname(os.path.dirname(os.path.abspath(__file__)))
WHOLE_FOLDER = os.path.join(HERE, 'crates', 'mdinline')
MDINLINE = os.path.join(WHOLE_FOLDER, 'out', 'mdinline')
HTML_FOLDER = os.path.join(HERE, 'crates', 'inline_html')
INLINE_HTML = os.path.join(HTML_FOLDER, 'out', 'inline_html')
PAGE_FOLDER = os.path.join(HERE, 'crates', 'mdhtml')
MDHTML = os.path.join(PAGE_FOLDER, 'out', 'mdhtml')
FOLDER = os.path.join(HERE, 'crates', 'bench_counts')
CONTENTS = os.path.join(FOLDER, 'out', 'bench_counts')
# The function of `bench_counts` that a run over a whole document is called in.
COUNTED = 'bench_counts::counts::count_runs'
# How the names begin of all functions of it that read contents: the one that calls the others has the whole cost.
READING = 'bench_counts::counts::count_'
# The lines of figures that the library has: their names, the word of `bench_counts` that reads a paragraph by itself, and the one that reads contents of
# one `Document`. A line is measured where the head of that program's sources has the word.
WAYS = [
    ('library', 'documents', 'document'),
]
TIME = '/usr/bin/time'
# How often memory is measured: what a run holds varies by some pages.
RUNS = 9
# What has the C library copy by many instructions, and not by one that callgrind counts once for each byte.
SMALL_COPIES = {'GLIBC_TUNABLES': 'glibc.cpu.x86_rep_movsb_threshold=%d' % (1 << 30)}


class Program:
    """A program: what it is called with, whether it reads words for definitions, and how the name begins of the function that alone is counted."""
    def __init__(self, name, command, ours=False, prefix='', function=None):
        self.name, self.command, self.ours, self.prefix, self.function = name, command, ours, prefix, function

    def call(self, given):
        words = [self.prefix + name for name, _ in given.definitions] if self.ours else []
        return self.command + words

    def bytes_of(self, given):
        return (given.text if self.ours else given.document()).encode()


class Html(Program):
    """Our program that writes HTML, which is told where labels lead."""
    def call(self, given):
        return self.command + [word for name, to in given.definitions for word in ('define=' + name, 'to=' + to)]


LIBRARY = Program('library', [CONTENTS, 'documents'], ours=True, function=COUNTED)
WHOLE = Program('mdinline', [MDINLINE, 'text', 'gfm', 'math'], ours=True, prefix='label=')
WRITER = Html('inline_html', [INLINE_HTML, 'text', 'gfm', 'math'], ours=True)
PAGES = Program('mdhtml', [MDHTML, '--raw', '--any-link'])
OTHERS = [
    Program('cmark', ['cmark']),
    Program('cmark-gfm', ['cmark-gfm', '-e', 'autolink', '-e', 'strikethrough', '-e', 'footnotes']),
    Program('pulldown-cmark', ['pulldown-cmark', '-S', '-F']),
]


def say(text):
    print(text, file=sys.stderr, flush=True)


def build(html=False):
    """Proves and builds our two programs, and with `html` the two that write HTML, where that is not done yet, all by LLVM."""
    programs = [(['--', 'text'], WHOLE_FOLDER), (['--', 'run'], FOLDER), (['--', 'text'], HTML_FOLDER), (['--', '--lf'], PAGE_FOLDER)]
    for words, folder in programs if html else programs[:2]:
        done = subprocess.run(['rt', 'run'] + words, cwd=folder, stdin=subprocess.DEVNULL, stdout=subprocess.PIPE, stderr=subprocess.PIPE)
        if done.returncode != 0:
            sys.exit(done.stderr.decode() + 'the programs were not built')


def take(folder):
    """Takes programs of a folder in place of those that are proved and built here."""
    for program in (LIBRARY, WRITER, PAGES):
        path = os.path.join(os.path.abspath(folder), os.path.basename(program.command[0]))
        if not os.access(path, os.X_OK):
            sys.exit('there is no program %s' % path)
        program.command[0] = path


def others():
    """The other programs that are installed."""
    return [program for program in OTHERS if shutil.which(program.command[0])]


def compiled(name, source, words):
    """A program in C that is compiled from a file of this folder, as a list of one; of none where it can't be built."""
    if not ROOM:
        ROOM.append(tempfile.TemporaryDirectory())
        atexit.register(ROOM[0].cleanup)
    out = os.path.join(ROOM[0].name, '%s-%s' % (os.path.splitext(source)[0], name))
    command = [shutil.which('cc') or 'false', '-O2', '-o', out, os.path.join(HERE, 'bench', source)] + words
    done = subprocess.run(command, stdout=subprocess.DEVNULL, stderr=subprocess.DEVNULL)
    return [Program(name, [out])] if done.returncode == 0 else []


ROOM = []


def parsers():
    """The other parsers that are installed, each called so that it makes no HTML."""
    dry = [Program('pulldown-cmark', ['pulldown-cmark', '-S', '-F', '-d'])] if shutil.which('pulldown-cmark') else []
    return compiled('md4c', 'parse.c', ['-lmd4c']) + dry + compiled('cmark', 'parse.c', ['-DWITH_CMARK', '-lcmark'])


def writers():
    """The other programs that write HTML, of those that are installed."""
    return compiled('md4c', 'md4c.c', ['-lmd4c-html']) + others()


def page_writers():
    """The other programs that write the HTML of whole documents, by CommonMark alone, of those that are installed."""
    md4c = [Program(it.name, it.command + ['commonmark']) for it in compiled('md4c', 'md4c.c', ['-lmd4c-html'])]
    return md4c + [it for it in (Program('cmark', ['cmark', '--unsafe']), Program('pulldown-cmark', ['pulldown-cmark'])) if shutil.which(it.command[0])]


def known_ways():
    """The words that `bench_counts` knows, as the table at the head of its sources has them."""
    with open(os.path.join(FOLDER, 'src', 'main.rt'), encoding='utf-8') as file:
        rows = [line.split('|')[1] for line in file if line.startswith('//! |')]
    return set(re.findall(r'`([^`]+)`', ' '.join(rows)))


def ways(apart):
    """The library in each way that the program knows, over one paragraph or over many contents; none for a way that it does not know."""
    known = known_ways()
    programs = []
    for name, *words in WAYS:
        if known.intersection(words):
            word = words[1 if apart else 0]
            programs.append(Program(name, [LIBRARY.command[0], word], ours=True, function=READING) if word in known else None)
    return programs


def version(name):
    """The version that a package of Debian is installed in; nothing where that can't be told."""
    if shutil.which('dpkg-query') is None:
        return ''
    done = subprocess.run(['dpkg-query', '-W', '-f', '${Version}', name], stdout=subprocess.PIPE, stderr=subprocess.DEVNULL, text=True)
    return done.stdout if done.returncode == 0 else ''


def has_callgrind():
    return shutil.which('valgrind') is not None


class Profile:
    """What callgrind counted: of all, of each function by itself, and of each with all that it calls."""
    def __init__(self, path):
        self.total, self.own, self.whole = 0, {}, {}
        names, current, called = {}, '', None
        for line in open(path):
            match = re.match(r'(c?)fn=\((\d+)\)(?: (.*))?', line)
            if match:
                if match.group(3):
                    names[match.group(2)] = match.group(3).strip()
                name = names[match.group(2)]
                if match.group(1):
                    called = name
                else:
                    current = name
            elif line.startswith('totals:') or line.startswith('summary:'):
                self.total = int(line.split()[1])
            elif line[:1] in '0123456789+-*' and line[:1]:
                cost = int(line.split()[1])
                if called is None:
                    self.own[current] = self.own.get(current, 0) + cost
                else:
                    self.whole[called] = self.whole.get(called, 0) + cost
                    called = None


def profile(program, given, seconds, small_copies=False):
    """Counts the instructions of a run; none where it takes longer than so many seconds. Lists that grow are moved, and with `small_copies` that
    counts as any other work."""
    with tempfile.TemporaryDirectory() as room:
        path = os.path.join(room, 'profile')
        command = ['valgrind', '--tool=callgrind', '--callgrind-out-file=' + path] + program.call(given)
        try:
            done = subprocess.run(command, input=program.bytes_of(given), stdout=subprocess.DEVNULL, stderr=subprocess.PIPE,
                                  env={**os.environ, **(SMALL_COPIES if small_copies else {})}, timeout=seconds)
        except subprocess.TimeoutExpired:
            return None
        if done.returncode != 0:
            raise RuntimeError('%s ends with status %d: %s' % (program.name, done.returncode, done.stderr.decode()[-500:]))
        return Profile(path)


class Empty:
    text, definitions = 'a', []

    def document(self):
        return 'a\n'


BASE = {}


def instructions(program, given, seconds=300, small_copies=False):
    """The instructions of a run less those for a document of one letter; of our library, those of the run alone."""
    found = profile(program, given, seconds, small_copies)
    if found is None:
        return None
    if program.function:
        return max(cost for name, cost in found.whole.items() if name.startswith(program.function))
    called = tuple(program.command)
    if called not in BASE:
        BASE[called] = profile(program, Empty(), seconds).total
    return found.total - BASE[called]


def peak(program, given, runs=RUNS):
    """The most memory that a run holds, in bytes, less that for a document of one letter, the median of some runs; none where `time` is not
    installed."""
    if not os.path.exists(TIME):
        return None

    def once(what):
        command = [TIME, '-f', '%M'] + program.call(what)
        done = subprocess.run(command, input=program.bytes_of(what), stdout=subprocess.DEVNULL, stderr=subprocess.PIPE)
        return int(done.stderr.split()[-1]) * 1024

    def held(what):
        return statistics.median(once(what) for _ in range(runs))

    return max(held(given) - held(Empty()), 0)


class Time:
    """The seconds of processor time of a program's runs: of the best less the best over one letter, the part of it that is the system's, and how many
    times the best the run is that a quarter of the runs are faster than."""
    def __init__(self, taken, small):
        taken = sorted(taken, key=sum)
        best = sum(taken[0])
        self.best = max(best - min(map(sum, small)), 1e-9)
        self.system = sum(it[1] for it in taken) / sum(map(sum, taken))
        self.quarter = sum(taken[len(taken) // 4]) / best


def once(command, path, seconds):
    """The user's and the system's seconds of a run over a file; none where they would be more than so many seconds."""
    with open(path, 'rb') as file:
        done = subprocess.Popen(command, stdin=file, stdout=subprocess.DEVNULL, stderr=subprocess.DEVNULL)
    resource.prlimit(done.pid, resource.RLIMIT_CPU, (seconds, seconds))
    _, status, used = os.wait4(done.pid, 0)
    done.returncode = os.waitstatus_to_exitcode(status)
    if done.returncode in (-signal.SIGKILL, -signal.SIGXCPU):
        return None
    if done.returncode != 0:
        raise RuntimeError('%s ends with status %d' % (command[0], done.returncode))
    return used.ru_utime, used.ru_stime


def times(programs, given, rounds, seconds):
    """The time of each program over a text; none for one that takes longer than so many seconds. They take turns, so that what else the machine
    does meets all of them."""
    taken, small = [[] for _ in programs], [[] for _ in programs]
    with tempfile.TemporaryDirectory() as room:
        for name, it in (('text', given), ('letter', Empty())):
            for number, program in enumerate(programs):
                with open(os.path.join(room, '%s%d' % (name, number)), 'wb') as out:
                    out.write(program.bytes_of(it))
        late = set()
        for _ in range(rounds):
            for number, program in enumerate(programs):
                found = None if number in late else once(program.call(given), os.path.join(room, 'text%d' % number), seconds)
                if found is None:
                    late.add(number)
                else:
                    taken[number].append(found)
                    small[number].append(once(program.call(Empty()), os.path.join(room, 'letter%d' % number), seconds))
    return [None if number in late else Time(taken[number], small[number]) for number in range(len(programs))]


def seconds_of(program, given, most=None):
    """The seconds of processor time that a run takes, which may take so many in all."""
    before = resource.getrusage(resource.RUSAGE_CHILDREN)
    subprocess.run(program.call(given), input=program.bytes_of(given), stdout=subprocess.DEVNULL, check=True, timeout=most)
    after = resource.getrusage(resource.RUSAGE_CHILDREN)
    return after.ru_utime + after.ru_stime - before.ru_utime - before.ru_stime


def events_of(given):
    """How many events a text has."""
    done = subprocess.run(LIBRARY.call(given), input=LIBRARY.bytes_of(given), stdout=subprocess.PIPE, check=True)
    return int(done.stdout)
