"""Identifiers of headings."""
import re
import unicodedata
from typing import Callable, Dict

_OTHERS = re.compile(r'[^a-z0-9_ \-]')
# Letters in circles and squares, which are alphabetic symbols.
_LETTERS = re.compile('[\u24b6-\u24e9\U0001f130-\U0001f149\U0001f150-\U0001f169\U0001f170-\U0001f189]')


def _kept(character: str) -> str:
    """A character, if it is alphabetic, a mark, a digit or a connector; else nothing."""
    category = unicodedata.category(character)
    return character if category[0] in 'LM' or category in ('Nd', 'Nl', 'Pc') or _LETTERS.match(character) else ''


def slugger() -> Callable[[str], str]:
    """Makes identifiers of the text of headings, as GitHub does: in lower case, without punctuation, with hyphens for spaces. Each differs from all before of
    the same slugger.

    >>> slug = slugger()
    >>> slug('A b!'), slug('a-B'), slug('Été')
    ('a-b', 'a-b-1', 'été')
    """
    seen: Dict[str, int] = {}

    def slug(text: str) -> str:
        base = found = _OTHERS.sub(lambda it: _kept(it[0]), text.lower()).replace(' ', '-')
        while found in seen:
            seen[base] += 1
            found = '%s-%d' % (base, seen[base])
        seen[found] = 0
        return found

    return slug
