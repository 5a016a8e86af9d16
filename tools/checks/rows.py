"""Rows of programs, in the files tools/rows*.txt of their crates. The head of rows.txt of inline_html says how a row is written."""
import glob
import os
import re

CRATES = os.path.join(os.path.dirname(os.path.dirname(os.path.dirname(os.path.abspath(__file__)))), 'crates')
ROW = re.compile(r'(?:(\S.*) )?«(.*)»: (\d+)(?: (?!says )(.*?))?(?: says (.*))?')
SIGNS = {'␊': '\n', '␍': '\r', '␉': '\t', '␠': ' '}
BYTE = re.compile('⟦([0-9A-F]{2})⟧'.encode())
REPEATED = re.compile(r'⟦([^⟦⟧]*)×(\d+)⟧')


def meant(text):
    """The bytes that a text of a row stands for."""
    while REPEATED.search(text):
        text = REPEATED.sub(lambda it: it[1] * int(it[2]), text)
    for sign, character in SIGNS.items():
        text = text.replace(sign, character)
    return BYTE.sub(lambda it: bytes([int(it[1], 16)]), text.encode())


def crates():
    """The crates that have rows."""
    return sorted({path.split('/')[-3] for path in glob.glob(CRATES + '/*/tools/rows*.txt')})


def lines(crate, names='rows*.txt'):
    """The rows of a crate, each a line."""
    for path in sorted(glob.glob(os.path.join(CRATES, crate, 'tools', names))):
        with open(path, encoding='utf-8') as file:
            yield from (line for line in file.read().split('\n') if line and not line.startswith('#'))


def read(line):
    """What a row says: the words and the input of a run, its status, what it prints, and what it says on standard error."""
    words, given, status, wanted, says = ROW.fullmatch(line).groups('')
    return [meant(word) for word in words.split(' ')] if words else [], meant(given), int(status), meant(wanted), meant(says + '␊') if says else b''
