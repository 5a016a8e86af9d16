"""What the tools share about the crates: what crates.txt says of them, what their proofs read and took, and how the compiler is called for one."""
import functools
import hashlib
import os
import re
import shutil
import sys

HERE = os.path.dirname(os.path.dirname(os.path.abspath(__file__)))
COSTS = os.path.join(HERE, 'tools/proofs/costs.tsv')
KINDS = ('proof', 'bodies', 'program')
PARTS = ('src', 'specs', 'proofs')
# What a check may take of memory, in MB, as measured.
EACH = 4_500


@functools.cache
def lines():
    """The line of each crate, in the order of crates.txt."""
    with open(os.path.join(HERE, 'crates.txt'), encoding='utf-8') as it:
        return {re.match(r'\w+', line)[0]: line for line in it if re.match('[a-z]', line)}


def uses():
    """What each crate uses: crates of the repository, and libraries of the toolchain."""
    return {name: line.partition(':')[2].split() for name, line in lines().items()}


def below(name):
    """The crates of the repository that one stands on, in the order of crates.txt."""
    used, found, left = uses(), set(), [name]
    while left:
        more = {it for it in used[left.pop()] if it in used} - found
        found.update(more)
        left += more
    return [it for it in used if it in found]


def is_archive(name):
    """Whether a crate is a static library."""
    return 'staticlib' in lines()[name].partition(':')[0].split()


def is_program(name):
    """Whether a crate is a program."""
    return not os.path.exists(os.path.join(HERE, 'crates', name, 'src/lib.rt'))


def library(name):
    """The folder of the library of a crate, as `rt` leaves it."""
    return os.path.join(HERE, 'crates', name, 'out/rlib')


def files(name):
    """What a proof of a crate reads of it."""
    return sorted(os.path.join(at, it) for part in PARTS for at, _, names in os.walk(os.path.join(HERE, 'crates', name, part)) for it in names)


def size(name):
    """How much a proof of a crate reads of it, in bytes."""
    return sum(map(os.path.getsize, files(name)))


def sum_of(*paths):
    """A sum of files: of their paths and of what they hold."""
    total = hashlib.sha256()
    for path in paths:
        with open(path, 'rb') as it:
            total.update(os.path.relpath(path, HERE).encode() + b'\0' + it.read() + b'\0')
    return total.hexdigest()


def sources(name=None):
    """A sum of all that a proof of a crate and of those below it reads, but the toolchain; or of all crates."""
    return sum_of(os.path.join(HERE, 'crates.txt'), *(path for it in ([*below(name), name] if name else lines()) for path in files(it)))


def costs():
    """The seconds of the toolchain's example in costs.tsv, and those of each crate there, by kind."""
    with open(COSTS, encoding='utf-8') as it:
        (_, example), _, *rows = (line.split('\t') for line in it.read().splitlines())
    return float(example), {name: dict(zip(KINDS, map(float, figures))) for name, *figures in rows}


def weights(kind):
    """The seconds that each crate takes in a kind, by costs.tsv; of a crate that is not there, as many a byte as of the others."""
    known = {name: figures[kind] for name, figures in costs()[1].items() if name in lines()}
    each = sum(known.values()) / max(1, sum(map(size, known)))
    return {name: known[name] if name in known else each * size(name) for name in lines()}


def free_memory():
    """The memory that is free, in MB."""
    with open('/proc/meminfo', encoding='ascii') as it:
        return int(re.search(r'MemAvailable: *(\d+)', it.read())[1]) // 1024


def lanes():
    """How many crates are proved side by side: as many as there are processors, and as memory holds."""
    return max(1, min(len(os.sched_getaffinity(0)), free_memory() // EACH))


def kit():
    """The folder of the toolchain. Ends the tool where there is none."""
    command = shutil.which('rt')
    if not command:
        sys.exit('the toolchain is not there: its command `rt` is not on the PATH; README.md says which toolchain it is')
    return os.path.dirname(os.path.dirname(os.path.realpath(command)))


def compiler(verb, name, folders, *words):
    """The compiler's call in the folder of a crate, over the libraries in these folders, by crate."""
    called = [kit() + '/bin/rattle', verb, '--crate-name', name, 'src/main.rt' if is_program(name) else 'src/lib.rt']
    for it in ['std', *uses().get(name, [])]:
        called += ['--extern', '%s=%s/%s.rlib' % (it, folders.get(it, kit() + '/rlibs'), it)]
    for folder in [kit() + '/rlibs', *folders.values()]:
        called += ['-L', 'dependency=' + folder]
    return called + ['--antt-project', kit() + '/rattle/logic/antt-project.json', '--logic-built', kit() + '/logic_built', '--links', name + '=', *words]
