"""Prints what stands on standard input, which is one paragraph: its events as the program mdinline does, with the same words and the same statuses; or
its tree, its HTML or its links."""
import os

from . import Error, TooLong, __version__, _printed
from ._program import FAILED, NO_MEMORY, UNKNOWN, Fault, read, say, write
from ._tables import STATUSES
from .inline import COMMONMARK, CRATE, GFM, MATH, OPTIONS, Events, html, links, string, text

USAGE = '''usage: python -m markdown_inline.inline text|string [WORD]..        the events
       python -m markdown_inline.inline --tree [text|string] [WORD]..  what stands in what, with its text
       python -m markdown_inline.inline --html [text] [WORD]..         the HTML
       python -m markdown_inline.inline --links [text] [WORD]..        where links lead
       python -m markdown_inline.inline --help|--version
words: gfm math task crate cm-lengths cm-shortcut html-references commonmark note=TEXT; of events and the tree label=TEXT; of HTML and links define=LABEL
       to=DESTINATION [title=TEXT]; of HTML raw any-link
For files there is python -m markdown_inline.'''
# The words of mdinline. By `crate` the program reads as mdinline does, by the rules of the crate where the last four say nothing else.
SWITCHES = {
    'gfm': GFM, 'math': MATH, 'task': OPTIONS['first_of_item'], 'crate': 0, 'cm-lengths': OPTIONS['attention_first_lengths'],
    'cm-shortcut': OPTIONS['label_shortcut_before_bracket'], 'html-references': OPTIONS['html_references'], 'commonmark': OPTIONS['standard_rules'],
}
# Words that say what HTML may hold.
SHOWN = {'raw': ('html', 'raw'), 'any-link': ('any_link', True)}


class Asked:
    """What the words ask for."""

    def __init__(self, words):
        self.how, self.reads, self.options, self.html = '', '', CRATE if 'crate' in words else COMMONMARK, {}
        self.labels, self.notes, self.targets = [], [], []
        words = list(words)
        if words and words[0] in ('--tree', '--html', '--links'):
            self.how = words.pop(0)
            self.reads = 'text'
        if words and (words[0] == 'text' or words[0] == 'string' and self.how in ('', '--tree')):
            self.reads = words.pop(0)
        if not self.reads or not all([self.take(it) for it in words]) or any(it[1] is None for it in self.targets):
            raise Fault(UNKNOWN, USAGE)

    def take(self, word):
        """Takes a word, and returns whether it is known and stands where it may."""
        name, sign, words = word.partition('=')
        if not sign:
            if self.how == '--html' and name in SHOWN:
                self.html.update([SHOWN[name]])
                return True
            self.options |= SWITCHES.get(name, 0)
            return name in SWITCHES
        return self.take_text(name, os.fsencode(words))

    def take_text(self, name, words):
        words.decode()
        leads = self.how in ('--html', '--links')
        if name == 'note':
            self.notes.append(words)
        elif name == 'label' and not leads:
            self.labels.append(words)
        elif name == 'define' and leads:
            self.targets.append([words, None, None])
        elif name == 'to' and self.targets and self.targets[-1][1] is None:
            self.targets[-1][1] = words
        elif name == 'title' and self.targets and self.targets[-1][1] is not None and self.targets[-1][2] is None:
            self.targets[-1][2] = words
        else:
            return False
        return True

    def events(self, given) -> Events:
        if self.reads == 'string':
            return string(given, options=self.options)
        return text(given, options=self.options, definitions=self.labels, footnotes=self.notes)

    def output(self, given):
        """What is printed of a document, in parts."""
        # Of two definitions of a label the library takes the first, but of two that are written alike a dict has the last.
        targets = {label: (destination, title) for label, destination, title in self.targets[::-1]}
        asked = {'options': self.options, 'footnotes': self.notes, 'definitions': {it[0]: targets[it[0]] for it in self.targets}}
        if self.how == '--html':
            return [html(given, **asked, **self.html), '\n']
        if self.how == '--links':
            found = _printed.links(links(given, **asked))
        else:
            found = _printed.tree(self.events(given), given) if self.how else map(str, self.events(given))
        return [it + '\n' for it in found]


def read_all():
    """What stands on standard input, without one final line ending."""
    given = read()
    for ending in (b'\r\n', b'\n', b'\r'):
        if given.endswith(ending):
            return given[:-len(ending)]
    return given


def run(words):
    if words in (['--help'], ['--version']):
        return write([USAGE if words == ['--help'] else 'markdown_inline ' + __version__, '\n'])
    asked = Asked(words)
    return write(asked.output(read_all()))


def main(words):
    """Runs the program: its status, after words on standard error where that is not 0."""
    try:
        run(words)
        return 0
    except Fault as fault:
        status, said = fault.status, str(fault)
    except MemoryError:
        status, said = NO_MEMORY, STATUSES[NO_MEMORY]
    except UnicodeDecodeError:
        status, said = UNKNOWN, 'a word is not UTF-8'
    except Error as error:
        status, said = FAILED if isinstance(error, TooLong) else error.status, str(error)
    say(said if said == USAGE else 'markdown_inline: ' + said)
    return status
