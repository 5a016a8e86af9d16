"""Runs proofs, says how far they are and what they take; and proves and builds the program or the library in a copy, so that nothing changes until all is proved."""
import contextlib
import fcntl
import glob
import os
import re
import shlex
import shutil
import signal
import subprocess
import sys
import tempfile
import threading
import time

sys.dont_write_bytecode = True
sys.path.insert(0, os.path.dirname(os.path.dirname(os.path.abspath(__file__))))
import crates
from crates import HERE

ENDED = re.compile(r'rt: (\w+) (proved|NOT PROVED|is kept)|(\w+): its wrong bodies are tried')
FAULT = re.compile(r'NOT PROVED|NOT REFUSED|was refused at|NOT TRIED|BAD EDIT|FAILED|: error|: not proved|ended with status|is not what its file stdout|was stopped by|had not ended')
# What the last gate that passed here said, and the programs that it has built for packages.
GATE, PACKED = os.path.join(HERE, 'out/gate'), ('mdinline', 'mdhtml', 'inline_html')
# What a proof writes, in MB, as measured: many thousands of small files, so in memory where there is enough.
ROOM, MEMORY = 3_000, '/dev/shm'


def say(text):
    print(text, file=sys.stderr, flush=True)


def minutes(seconds):
    return '%d min' % (seconds / 60 + 0.5)


def faults_of(lines):
    """The lines of a log that tell what failed."""
    return [line for line in lines if FAULT.search(line)]


class Progress:
    """Says how much of some parts is done, by the seconds that costs.tsv has of each, and roughly how long the rest takes, at the pace so far."""

    def __init__(self, names, kinds, say):
        self.left = {(name, kind): seconds for kind in kinds for name, seconds in crates.weights(kind).items() if name in names}
        self.all, self.done, self.begin, self.say = max(1, sum(self.left.values())), 0, time.monotonic(), say

    def read(self, line):
        """Reads a line of `rt ci` or of try-wrong-bodies, and says what has ended by it."""
        ended = ENDED.match(line)
        if ended:
            seconds = self.left.pop((ended[1], 'proof') if ended[1] else (ended[3], 'bodies'), 0)
            # (what an earlier run kept takes no time, and says nothing of the pace)
            self.done += 0 if ended[2] == 'is kept' else seconds
            left = sum(self.left.values())
            rest = ', about %s left' % minutes((time.monotonic() - self.begin) * left / self.done + 30) if self.done * 9 > left > 0 else ''
            self.say('%3.0f %% done%s: %s' % (100 - 100 * left / self.all, rest, line.strip().removeprefix('rt: ')[:120]))


def look(parent, seen):
    """Notes of each check that a process has started the crate, what it is for, and the seconds of processor time that it has taken."""
    for path in glob.glob('/proc/[0-9]*'):
        with contextlib.suppress(OSError), open(path + '/stat', errors='replace') as stat, open(path + '/cmdline', errors='replace') as line:
            figures, words = stat.read().rpartition(')')[2].split(), line.read().split('\0')
            if figures[1] == str(parent) and '--crate-name' in words:
                kind = 'bodies' if '/wrong-bodies-' in os.readlink(path + '/cwd') else 'program' if '--crate-checked' in words else 'proof'
                seen[path, figures[19]] = words[words.index('--crate-name') + 1], kind, sum(map(int, figures[11:15])) / os.sysconf('SC_CLK_TCK')


def run(words, place, log, progress, **given):
    """Runs a command with its output in the log. Answers its status, and the seconds that it took of each crate and kind."""
    ran = subprocess.Popen(words, cwd=place, env={**os.environ, **given}, stdin=subprocess.DEVNULL, stdout=subprocess.PIPE, stderr=subprocess.STDOUT, text=True, errors='replace')
    seen, found, is_over = {}, {}, threading.Event()

    def watch():
        while not is_over.wait(0.5):
            look(ran.pid, seen)

    threading.Thread(target=watch, daemon=True).start()
    for line in ran.stdout:
        print(line, end='', file=log, flush=True)
        progress.read(line)
    is_over.set()
    for name, kind, seconds in list(seen.values()):
        found[name, kind] = found.get((name, kind), 0) + seconds
    return ran.wait(), found


def result_of(name):
    """The program or the archive that a crate is built to."""
    return os.path.join(HERE, 'crates', name, 'out', 'lib%s.a' % name if crates.is_archive(name) else name)


def module_of(name):
    """The module of LLVM that an archive is compiled from, as clang was handed it."""
    return os.path.splitext(result_of(name))[0] + '.bc'


def sums(name):
    """The checksums of the files that a crate is made of, and of what it is built to."""
    made = [result_of(name)] + [module_of(name)] * (crates.is_archive(name) and os.path.exists(module_of(name)))
    return [crates.sources(name)] + [crates.sum_of(it) for it in made]


def is_built(name):
    """Whether what stands in out/ was proved from the files that stand here."""
    with contextlib.suppress(OSError), open(result_of(name) + '.of', encoding='ascii') as it:
        return it.read().split() == sums(name)
    return False


def note_built(name):
    """Notes that what stands in out/ was proved from the files that stand here."""
    with open(result_of(name) + '.of', 'w', encoding='ascii') as it:
        print(*sums(name), file=it)


def keeping(place, module):
    """Makes a folder of links to the kit's LLVM, whose clang also leaves the module that it is handed in a file."""
    kit = crates.kit() + '/toolchain'
    shutil.rmtree(place, ignore_errors=True)
    os.makedirs(place + '/bin')
    for it in glob.glob(kit + '/*') + glob.glob(kit + '/bin/*'):
        if os.path.basename(it) not in ('bin', 'clang'):
            os.symlink(it, place + it[len(kit):])
    with open(place + '/bin/clang', 'w', encoding='utf-8') as it:
        it.write('#!/bin/sh\nfor word; do [ "$word" != module.bc ] || cp module.bc %s; done\nexec %s "$@"\n' % (shlex.quote(module), shlex.quote(kit + '/bin/clang')))
    os.chmod(place + '/bin/clang', 0o755)
    return place


def clear(room):
    """Ends what is at work in a folder, and removes it."""
    is_at_work = True
    while is_at_work:
        is_at_work = False
        for it in glob.glob('/proc/[0-9]*/cwd'):
            with contextlib.suppress(OSError):
                if (os.readlink(it) + '/').startswith(room + '/'):
                    os.kill(int(it.split('/')[2]), signal.SIGKILL)
                    is_at_work = True
        time.sleep(0.05)
    shutil.rmtree(room, ignore_errors=True)


@contextlib.contextmanager
def cleared(room):
    """Has a folder cleared at the end, by a process of its own that waits for the end of its input: so the folder goes where this process is killed too."""
    words = [sys.executable, os.path.abspath(__file__), room]
    guard = subprocess.Popen(words, stdin=subprocess.PIPE, stdout=subprocess.DEVNULL, stderr=subprocess.DEVNULL, start_new_session=True)
    try:
        yield
    finally:
        guard.communicate()


def built(name, place, log):
    """Takes the program that `rt ci` has built in a folder, or proves and builds the archive over the libraries that it has left there. Answers a status."""
    if not crates.is_archive(name):
        shutil.copy(os.path.join(place, 'crates', name, 'out', name), result_of(name) + '.new')
        return 0
    folders = {it: os.path.join(place, 'crates', it, 'out/rlib') for it in crates.below(name)}
    toolchain = keeping(os.path.join(os.path.dirname(result_of(name)), 'toolchain'), module_of(name))
    with contextlib.suppress(FileNotFoundError):
        os.remove(module_of(name))
    words = crates.compiler('build', name, folders, '--crate-type', 'staticlib', '--toolchain', toolchain, '-o', result_of(name) + '.new')
    status = subprocess.run(words, cwd=os.path.join(place, 'crates', name), stdin=subprocess.DEVNULL, stdout=log, stderr=subprocess.STDOUT).returncode
    shutil.rmtree(toolchain)
    return status


def built_in_a_copy(name, log):
    """Proves in a copy by `rt ci`, and builds. The copy goes with this process, however that ends. Answers a status."""
    has_room = os.access(MEMORY, os.W_OK) and shutil.disk_usage(MEMORY).free >> 20 > ROOM and crates.free_memory() > crates.lanes() * crates.EACH + ROOM
    room = tempfile.mkdtemp(prefix='proof-', dir=MEMORY if has_room else None)
    # (where root calls this, what is built is run as nobody)
    os.chmod(room, 0o711)
    with cleared(room):
        for it in (signal.SIGINT, signal.SIGTERM, signal.SIGHUP):
            if signal.getsignal(it) != signal.SIG_IGN:
                signal.signal(it, lambda number, _: sys.exit(128 + number))
        copy = lambda it: shutil.copytree(os.path.join(HERE, 'crates', it), os.path.join(room, 'crates', it), ignore=shutil.ignore_patterns('out', 'wrong-bodies'))
        # (an archive is proved behind the others, as it is built)
        names = crates.below(name) + [name] * (not crates.is_archive(name))
        os.mkdir(os.path.join(room, '.git'))
        shutil.copy(os.path.join(HERE, 'HANDLES'), room)
        with open(os.path.join(room, 'crates.txt'), 'w', encoding='utf-8') as it:
            it.writelines(crates.lines()[it] for it in names)
        for it in names:
            copy(it)
        status, _ = run(['rt', 'ci'], room, log, Progress(names, ['proof'], lambda text: say(name + ': ' + text)), TMPDIR=room)
        if name not in names:
            copy(name)
        return status or built(name, room, log)


def proved(name, is_over_gate=False):
    """Proves and builds in a copy, or over what the gate has left here, where that is not done. Answers why it did not, if it did not."""
    told, log_name, begin, sum_before = (name + ': %s').__mod__, 'crates/%s/out/proof.log' % name, time.monotonic(), crates.sources(name)
    if is_built(name):
        return say(told('it is proved and built from the files that stand here'))
    try:
        os.makedirs(os.path.dirname(result_of(name)), exist_ok=True)
        with open(result_of(name) + '.lock', 'a+', encoding='ascii') as lock:
            try:
                fcntl.flock(lock, fcntl.LOCK_EX | fcntl.LOCK_NB)
            except BlockingIOError:
                lock.seek(0)
                return told('process %s proves it in this checkout already; its log is %s' % (lock.read().strip(), log_name))
            lock.truncate(0)
            print(os.getpid(), file=lock, flush=True)
            say(told('proving it%s; the log is %s' % ('' if is_over_gate else ' and the %d crates below it' % len(crates.below(name)), log_name)))
            with open(os.path.join(HERE, log_name), 'w+', encoding='utf-8', errors='replace') as log:
                if built(name, HERE, log) if is_over_gate else built_in_a_copy(name, log):
                    log.seek(0)
                    lines = log.readlines()
                    return told('it is not proved; the log is %s, and has:\n%s' % (log_name, ''.join(faults_of(lines)[:20] or lines[-12:])))
        os.replace(result_of(name) + '.new', result_of(name))
    except OSError as error:
        return told('it is not proved: %s: %s' % (error.filename or 'the copy', error.strerror))
    if crates.sources(name) == sum_before:
        note_built(name)
    return say(told('proved and built in %s, %s of processor time' % (minutes(time.monotonic() - begin), minutes(sum(os.times()[2:4])))))


if __name__ == '__main__':
    sys.stdin.read()
    clear(os.path.realpath(sys.argv[1]))
