"""Names of events by their numbers, options by their bits, and what statuses say, as markdown_inline.h has them. It stands beside this file, as `bindings/build` leaves it,
or in the folder `c` of the bindings."""
import os
import re


def _header():
    here = os.path.dirname(os.path.abspath(__file__))
    for place in (here, os.path.join(here, '..', '..', 'c')):
        try:
            with open(os.path.join(place, 'markdown_inline.h'), encoding='utf-8') as header:
                return header.read()
        except FileNotFoundError:
            pass
    raise ImportError('markdown_inline.h stands nowhere')


_TEXT = _header()


def _rows(name, row):
    """What stands in the rows of a list of the header."""
    return re.findall(row, re.search(r'#define MARKDOWN_INLINE_EACH_%s\(X\)(.*?[^\\])\n' % name, _TEXT, re.S).group(1))


NAMES = tuple(_rows('NAME', r'X\([A-Z_]+, "(\w+)"\)'))
BLOCKS = tuple(_rows('BLOCK', r'X\([A-Z_]+, "(\w+)"\)'))
OPTIONS = {name: int(bit, 16) for name, bit in _rows('OPTION', r'X\([A-Z_]+, "(\w+)", (0x\w+)\)')}
STATUSES = {int(number): words for number, words in _rows('STATUS', r'X\([A-Z0-9_]+, (\d+), "([^"]*)"\)')}
COMMONMARK, CRATE, GFM, MATH, BLOCKS_MATH, BLOCKS_FRONT_MATTER = (
    int(re.search(r'MARKDOWN_INLINE_%s = (0x\w+)' % name, _TEXT).group(1), 16) for name in ('COMMONMARK', 'CRATE', 'GFM', 'MATH', 'BLOCKS_MATH', 'BLOCKS_FRONT_MATTER'))
