"""What stands side by side in one run of bench/measure: the texts, the programs that read them, and the tables of time, instructions and memory."""
import collections
import json
import os
import subprocess

import inputs
import runs

# The sizes at which texts are measured, and as bench/corpus and the tables name them.
SIZES = [(200_000, '200k', '200 KB'), (2_000_000, '2m', '2 MB')]
# With --check.
SMALL_SIZES = [(2_000, '200k', '2 KB'), (4_000, '2m', '4 KB')]
RICH, PLAIN = 'rich random prose', 'plain random prose'
# A run that takes more seconds than these by itself has no figure, and over one that takes more than the second no instructions are counted.
SLOWEST, SLOW = 10, 2


class Text(inputs.Input):
    """A text to measure with: its name, its size in words, and whether it is many paragraphs or one."""
    def __init__(self, name, size, given, apart=False):
        self.name, self.size, self.apart = name, size, apart
        self.text, self.definitions = given.text, given.definitions
        self.bytes = len(self.text.encode())


# A text just as it is, where an `Input` begins with a letter.
Whole = collections.namedtuple('Whole', 'text definitions')


class Corpus:
    """Real text, as bench/corpus gathers it; `missing` says in a sentence why there is none."""
    def __init__(self, seed):
        done = subprocess.run([os.path.join(runs.HERE, 'bench', 'corpus'), '--seed', str(seed)], stdin=subprocess.DEVNULL, stdout=subprocess.PIPE,
                              stderr=subprocess.PIPE, text=True)
        for line in done.stderr.rstrip().split('\n') if done.stderr else []:
            runs.say(line)
        self.folder = done.stdout.strip() if done.returncode == 0 else None
        self.missing = None if self.folder else done.stderr.rstrip().split('\n')[-1].split(': ', 1)[-1]
        self.packages = json.loads(self.read('sources.json'))['packages'] if self.folder else []

    def read(self, name):
        with open(os.path.join(self.folder, name), encoding='utf-8', newline='') as file:
            return file.read()

    def files(self, most=None):
        """The whole files of each package as one text, of so many characters at most."""
        found = [(it['name'], self.read('whole-%s.md' % it['name'])[:most]) for it in self.packages]
        return [Text('`%s`' % name, '%.1f MB' % (len(text.encode()) / 1e6), Whole(text, [])) for name, text in found]

    def texts(self, size, word, name):
        """The text as one paragraph and as many, up to so many bytes."""
        if self.folder is None:
            return []
        paragraphs = cut(self.read('apart-%s.md' % word).rstrip('\n').split('\n\n'), size)
        defined = [tuple(pair) for pair in json.loads(self.read('definitions-%s.json' % word))]
        return [Text('real text in one paragraph', name, inputs.Input('\n'.join(paragraphs), defined)),
                Text('real text in paragraphs apart', name, inputs.Input('\n\n'.join(paragraphs), defined), apart=True)]


def cut(paragraphs, size):
    """The first paragraphs, until they have so many bytes."""
    taken, total = [], 0
    for it in paragraphs:
        if total >= size:
            break
        taken.append(it)
        total += len(it.encode()) + 1
    return taken


def texts(corpus, seed, sizes):
    """All texts: real text where there is any, and the random prose, each at each size."""
    found = []
    for size, word, name in sizes:
        found += corpus.texts(size, word, name)
        found += [Text(it, name, given) for it, given in zip((RICH, PLAIN), (one for _, one in inputs.prose(size, seed)))]
    return sorted(found, key=lambda text: [it.name for it in found].index(text.name))


class Figures:
    """What was measured of a program over a text; each is none where it could not be had."""
    def __init__(self, time=None, instructions=None, peak=None):
        self.time, self.instructions, self.peak = time, instructions, peak


def measured(text, programs, pool, args):
    """The figures of programs over a text. A program is none where it does not read such a text."""
    there = [program for program in programs if program]
    taken = runs.times(there, text, args.rounds, SLOWEST)

    def counted(pair):
        program, time = pair
        return runs.instructions(program, text, args.seconds) if time and time.best < SLOW else None

    counts = list(pool.map(counted, zip(there, taken)))
    peaks = [time and runs.peak(program, text, args.peaks) for program, time in zip(there, taken)]
    found = dict(zip(map(id, there), map(Figures, taken, counts, peaks)))
    runs.say('measured: %s, %s' % (text.name, text.size))
    return [found.get(id(program), Figures()) for program in programs]


class Side:
    """Programs side by side over texts: their names, ours first, and a row of figures for each text."""
    def __init__(self, texts, programs_of, pool, args):
        self.texts = texts
        self.rows, self.names = [], []
        for text in texts:
            programs = programs_of(text)
            self.names = self.names or [program.name for program in programs]
            self.rows.append(measured(text, programs, pool, args))

    def ours(self):
        """How many of the programs are ours, in the first columns."""
        return sum(name.startswith(('library', 'inline_html', 'mdhtml')) for name in self.names)

    def ratios(self):
        """The times of the other programs as multiples of ours, which is the first: a row for each text."""
        rows = []
        for text, row in zip(self.texts, self.rows):
            first = row[0].time
            rows.append(('%s, %s' % (text.name, text.size), [it.time and first and it.time.best / first.best for it in row[1:]]))
        return rows

    def time_table(self):
        head = ['Text', 'Size', self.names[0] + ', ns per byte'] + ['%s, ratio' % name for name in self.names[1:]]
        rows = []
        for text, row, (_, ratios) in zip(self.texts, self.rows, self.ratios()):
            first = row[0].time
            rows.append([text.name, text.size, shown(first and first.best * 1e9 / text.bytes, '{:.1f}')] + [shown(it, '{:.2f}') for it in ratios])
        return head, rows

    def table(self, of, form):
        """A table of one figure per byte of the text."""
        return ['Text', 'Size'] + self.names, [[text.name, text.size] + [shown(of(it) and of(it) / text.bytes, form) for it in row]
                                                for text, row in zip(self.texts, self.rows)]

    def instructions_table(self):
        return self.table(lambda it: it.instructions, '{:,.1f}')

    def peak_table(self):
        return self.table(lambda it: it.peak, '{:,.1f}')

    def system(self, size):
        """Which part of our time is the system's over texts of a size, in words."""
        return listed(['%.0f %% over %s' % (100 * row[0].time.system, text.name) for text, row in zip(self.texts, self.rows) if text.size == size and row[0].time])

    def quarters(self):
        """By how much the fastest quarter of a program's runs differs at most from the best over texts of each size, in words."""
        found = {}
        for text, row in zip(self.texts, self.rows):
            found.setdefault(text.size, []).extend(it.time.quarter for it in row if it.time)
        return listed(['%.0f %% over %s' % (100 * max(some) - 100, size) for size, some in found.items() if some])


def shown(value, form):
    return '' if value is None else form.format(value)


def listed(words):
    """Words as a list in a sentence."""
    return ' and '.join([', '.join(words[:-1])] * bool(words[:-1]) + words[-1:])


def fewer_instructions(side, size):
    """A sentence for each other program: over which texts of a size it takes fewer instructions than the library, and over which more."""
    sentences = []
    for number, name in list(enumerate(side.names))[side.ours():]:
        fewer, more = [], []
        for text, row in zip(side.texts, side.rows):
            ours, other = row[0].instructions, row[number].instructions
            if text.size == size and ours and other:
                (fewer if other < ours else more).append('%s (%.2f)' % (text.name, other / ours))
        said = [(word, listed(some)) for word, some in (('fewer', fewer), ('more', more)) if some]
        if said:
            first = '- %s takes %s instructions than the library over %s' % (name, *said[0])
            sentences.append(first + ''.join(', but %s over %s' % pair for pair in said[1:]) + '.')
    return '\n'.join(sentences)


def instructions_of(figures):
    return figures.instructions
