"""What the programs of this package share: how they read, write, and say what is wrong."""
import os

# Statuses: an argument is unknown, out of memory, reading or writing failed.
UNKNOWN, NO_MEMORY, FAILED = 2, 5, 6


class Fault(Exception):
    """Why a program ends: a status, and what it says."""

    def __init__(self, status, words):
        super().__init__(words)
        self.status = status


def _failed(what, error):
    return Fault(FAILED, '%s failed: %s (os error %d)' % (what, os.strerror(error.errno), error.errno))


def read(file=None):
    """The bytes of a file, or of standard input."""
    try:
        with open(0 if file is None else file, 'rb', closefd=file is not None) as it:
            return it.read()
    except OSError as error:
        raise _failed('read', error) from error


def write(parts):
    """Writes texts to standard output. What was written is not taken back. What a file name has that is not UTF-8 is written as it is."""
    try:
        with open(1, 'wb', closefd=False) as file:
            for part in parts:
                file.write(part.encode('utf-8', 'surrogateescape'))
    except OSError as error:
        raise _failed('write', error) from error


def say(words):
    """Writes a line to standard error, if that can be written."""
    try:
        os.write(2, (words + '\n').encode('utf-8', 'surrogateescape'))
    except OSError:
        pass
