"""Sequences of events, leaves and texts, which make what they have when it is looked at; names; and characters."""
import copy
import pickle
import random
import re
import time
import unittest
from unittest import mock

from markdown_inline import _events, _tables
from markdown_inline.inline import (
    Content, Event, Events, Kind, Leaf, Leaves, Name, Piece, ShortEvents, ShortTexts, Texts, leaves, short_texts, string, text, texts)

DOCUMENT = 'é *漢* `c` [😀](d "e\nf") &amp; \\* **g _h_**'
PARTS = ['a ', 'é', '漢', '😀', '*b*', '`c`', '\t', '\n\td', ' \t', '&amp;', '[e](f "g")', '**h**', '\\*', '<i@j.k>', 'word ' * 30]


def drawn(seed):
    """A text with tabs and characters of each length. Its lines begin with no blank and are not blank."""
    draw = random.Random(seed)
    return re.sub(r'\n\s*', '\n', ''.join(draw.choice(PARTS) for _ in range(draw.choice([3, 10, 60])))).strip() or 'a'


class Sequences(unittest.TestCase):
    def check(self, found, wanted, kind):
        """A sequence is as the list of what it has."""
        self.assertIs(type(wanted), list)
        self.assertEqual(len(found), len(wanted))
        self.assertEqual([found[at] for at in range(len(wanted))], wanted)
        self.assertEqual([found[at] for at in range(-len(wanted), 0)], wanted)
        for at in (len(wanted), -len(wanted) - 1, 2 ** 70, -2 ** 70):
            self.assertRaises(IndexError, lambda: found[at])
        for at in ('0', 1.0, None):
            self.assertRaises(TypeError, lambda: found[at])
        for at in (slice(None), slice(2, 5), slice(-3, None), slice(None, None, 2), slice(None, None, -1), slice(5, 2), slice(7, 1, -3), slice(0, 10 ** 9)):
            self.assertIs(type(found[at]), kind)
            self.assertEqual(found[at], wanted[at])
            self.assertEqual(list(found[at]), wanted[at])
        self.assertEqual((list(found), list(found), list(reversed(found))), (wanted, wanted, wanted[::-1]))
        self.assertTrue(found == wanted and wanted == found and found == found[:] and not found != wanted)
        self.assertFalse(found == wanted[:-1] or wanted[1:] == found or found == tuple(wanted) or found == 5 or found[::-1] == found)
        self.assertEqual(repr(found), repr(wanted))
        self.assertEqual((wanted[3] in found, 5 in found, found.index(wanted[3]), found.count(wanted[3])), (True, False, wanted.index(wanted[3]), wanted.count(wanted[3])))
        for other in (pickle.loads(pickle.dumps(found)), copy.copy(found), copy.deepcopy(found)):
            self.assertIs(type(other), kind)
            self.assertEqual(list(other), wanted)
        self.assertRaises(TypeError, hash, found)
        for change in (lambda: found.__setitem__(0, 1), lambda: found.append(1), lambda: found.__delitem__(0)):
            self.assertRaises(AttributeError, change)

    def test_events(self):
        for given in (DOCUMENT, DOCUMENT.encode()):
            found = text(given)
            wanted = [it for it in found]
            self.assertTrue(all(type(it) is Event and type(it.kind) is Kind and type(it.name) is Name for it in wanted))
            self.check(found, wanted, Events)
        self.check(string(DOCUMENT), list(string(DOCUMENT)), Events)
        self.assertNotEqual(text('é'), text('é'.encode()))
        self.assertNotEqual(text('é'), text('a'))
        self.assertEqual((text(''), [], bool(text('')), bool(text('a'))), ([], text(''), False, True))

    def test_leaves(self):
        found = leaves(DOCUMENT)
        self.assertTrue(all(type(it) is Leaf and type(it.name) is Name for it in found))
        self.check(found, list(found), Leaves)
        self.assertEqual(leaves(''), [])
        self.assertNotEqual(leaves('a'), leaves('b'))
        self.assertEqual([it.content for it in leaves('[](b)')], [b'[', b'', b']', b'(', b'b', b')'])

    def test_texts(self):
        lengths, document = [3, 0, 5, 2, 9, 1], 'a*b *c* `d` [e](f) g'
        contents, at = [], 0
        for length in lengths:
            contents.append(Content([Piece(at, at + length)] if length else []))
            at += length
        found = texts(document, contents)
        wanted = [text(document, it.pieces) for it in contents]
        self.check(found, wanted, Texts)
        self.assertEqual(found, [list(it) for it in wanted])
        self.assertTrue(all(type(it) is Events for it in found))
        self.assertEqual((texts('a', []), [], len(texts('a', []))), ([], texts('a', []), 0))
        shorts = short_texts(document, contents)
        self.check(shorts, [list(it) for it in shorts], ShortTexts)
        self.check(shorts[2], list(shorts[2]), ShortEvents)
        self.assertNotEqual(shorts, found)

    def test_nothing_is_made_that_is_not_looked_at(self):
        wanted = list(text(DOCUMENT))
        with mock.patch.object(_events, '_new', None):
            found, several = text(DOCUMENT), texts(DOCUMENT, [Content([(0, 4)])])
            self.assertEqual((len(found), len(found[3:5]), len(several), len(several[0])), (len(wanted), 2, 1, 2))
            self.assertEqual((len(list(found.flat())), 2 * len(list(found.spans()))), (len(wanted), len(wanted)))
            self.assertGreater(len(leaves(DOCUMENT)), 20)
            self.assertRaises(TypeError, lambda: found[0])
        self.assertEqual(found[-1], wanted[-1])

    def test_flat(self):
        for seed in range(40):
            found = text(drawn(seed))
            self.assertEqual(list(found.flat()), [(it.kind, it.name, it.index) for it in found])
            self.assertTrue(all(type(number) is int for it in found.flat() for number in it))
            self.assertEqual(list(found[3:7].flat()), list(found.flat())[3:7])

    def test_flat_of_many(self):
        parts = ['*a* `b`', '', 'c', '[d](e "f")', 'é']
        document, at, contents = '\n\n'.join(parts).encode(), 0, []
        for it in parts:
            contents.append(Content([(at, at + len(it.encode()))]))
            at += len(it.encode()) + 2
        for call in (texts, short_texts):
            found = call(document, contents)
            wanted = [list(it.flat()) for it in found]
            self.assertEqual([len(it) for it in wanted], [len(it) for it in found])
            self.assertEqual([list(it) for it in found.flat()], wanted)
            # What is not walked is passed over.
            self.assertEqual([next(it, None) for it in found.flat()], [it[0] if it else None for it in wanted])
            self.assertTrue(all(type(number) is int for it in found.flat() for event in it for number in event))
            self.assertEqual(list(call(document, []).flat()), [])

    def test_spans(self):
        for seed in range(40):
            found, wanted, opened = text(drawn(seed)), [], []
            for it in found:
                if it.kind == Kind.Enter:
                    wanted.append([it.name, it.index, None, len(opened)])
                    opened.append(wanted[-1])
                else:
                    self.assertEqual(opened[-1][0], it.name)
                    opened.pop()[2] = it.index
            self.assertEqual([list(it) for it in found.spans()], wanted)
        self.assertEqual(list(text('').spans()), [])
        for part in (slice(1, None), slice(None, -1), slice(3, 6)):
            self.assertRaises(ValueError, text('*a*')[part].spans)

    def test_names(self):
        self.assertEqual([(str(it), it.value) for it in Name], [(it, at) for at, it in enumerate(_tables.NAMES)])
        self.assertEqual([(str(it), it.value) for it in Kind], [('Enter', 0), ('Exit', 1)])
        self.assertEqual(('%s %5s' % (Name.Data, Kind.Exit), f'{Name.Data:>6}', repr(Name.Data), Name['Data'], Name.Data.name), ('Data  Exit', '  Data', 'Name.Data', Name.Data, 'Data'))
        self.assertTrue(Name.Data == Name.Data.value and Name.Data != 'Data' and {int(Name.Data): 1}[Name.Data] == 1)
        self.assertEqual(eval(repr(text('a *b*'))), text('a *b*'))


class Characters(unittest.TestCase):
    def test_each_index(self):
        """Events of long texts of characters of each length, looked at in order, backwards and anyhow."""
        for seed in range(60):
            document = drawn(seed)
            given = document.encode()
            wanted = [len(given[:at].decode()) if at == len(given) or given[at] & 0xc0 != 0x80 else None for at in range(len(given) + 1)]
            for order in (lambda it: it, reversed, lambda it: random.Random(seed).sample(list(it), len(it))):
                found = text(document)
                for at in order(range(len(found))):
                    self.assertEqual(found[at].character, wanted[found[at].index])
            self.assertEqual([it.character for it in text(document)], [wanted[it.index] for it in text(given)])
            for it in leaves(document):
                self.assertEqual((it.character, it.end_character), (wanted[it.index], wanted[it.end_index]))
                self.assertEqual(document[it.character:it.end_character].encode(), it.content)

    def test_beyond_many_bytes(self):
        for part in ('é', '漢', '😀', 'a', '😀é', 'aé漢😀'):
            for count in (1, 15, 16, 17, 63, 64, 65, 255, 256, 257, 1023, 1024, 1025, 5000):
                document = part * count + ' *b*'
                found = text(document)
                self.assertEqual([it.character for it in found if it.name == Name.Emphasis], [len(document) - 3, len(document)])
                self.assertEqual((found[0].character, found[-1].character, found[2].character), (0, len(document), len(document) - 3))
                last = leaves(document)[-2]
                self.assertEqual((last.character, last.end_character, last.content), (len(document) - 2, len(document) - 1, b'b'))

    def test_within_tabs(self):
        document = 'é\tb\n\t\tc'
        found = leaves(document, [Piece(2, 5, 1), Piece(5, 8, 2)])
        self.assertEqual([(it.index, it.vs, it.character, it.end_index, it.end_character) for it in found], [
            (2, 1, 1, 3, 2), (3, 0, 2, 4, 3), (4, 0, 3, 5, 4), (5, 2, 4, 7, 6), (7, 0, 6, 8, 7)])
        found = leaves('é😀\t\tb', [Piece(0, 7, 0, 2)])
        self.assertEqual([(it.index, it.character, it.end_index, it.end_vs, it.end_character) for it in found], [(0, 0, 6, 0, 2), (6, 2, 7, 2, 3)])
        self.assertEqual([(it.index, it.vs, it.character) for it in text('é\tb', [Piece(2, 4, 1)])], [(2, 1, 1), (3, 0, 2), (3, 0, 2), (4, 0, 3)])

    def test_of_many_contents(self):
        part = 'é *漢* 😀 `c`'
        document, length = '\n\n'.join([part] * 400), len(part.encode())
        pieces = [Content([Piece(at * (length + 2), at * (length + 2) + length)]) for at in range(400)]
        for order in (pieces, pieces[::-1], random.Random(1).sample(pieces, 400)):
            for it, events in zip(order, texts(document, order)):
                before = it.pieces[0].start // (length + 2) * (len(part) + 2)
                self.assertEqual([event.character - before for event in events], [event.character for event in text(part)])

    def test_many_contents_cost_what_they_are(self):
        def seconds(count):
            part = 'wörter *und* `c` ' * 3
            length = len(part.encode())
            pieces = [Content([Piece(at * (length + 2), at * (length + 2) + length - 1)]) for at in range(count)]
            begun = time.process_time()
            for events in texts('\n\n'.join([part] * count), pieces):
                events[-1].character
            return time.process_time() - begun

        # Eight times the contents would take 64 times as long if each were counted from the start.
        self.assertLess(min(seconds(8000) for _ in range(3)), 24 * min(seconds(1000) for _ in range(5)))
