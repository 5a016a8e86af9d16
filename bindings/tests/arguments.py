"""What is no text, no piece and no option is refused by an error that names it, and before any call."""
import array
import pathlib
import unittest
from unittest import mock

import markdown_inline
from markdown_inline import NoContent, UnknownOption, _library, links as document_links, parse, render
from markdown_inline.inline import Content, OPTIONS, Piece, html, identifier, is_content, is_text, leaves, reference, string, text, texts

BITS = sum(OPTIONS[it] for it in ('attention', 'code_text'))


class Long(bytes):
    """Bytes that say that they are more."""

    def __len__(self):
        return 10 ** 6

    def __bytes__(self):
        return self


class Loud(str):
    """A text that says that its bytes are others."""

    def encode(self, *_):
        return b'\xff'


class Arguments(unittest.TestCase):
    def refused(self, error, words, call):
        """The call raises this error and no other, with these words in it, and does not reach the library."""
        with mock.patch.object(_library, 'LIBRARY', None), self.assertRaises((TypeError, ValueError, OverflowError)) as caught:
            call()
        self.assertIs(type(caught.exception), error)
        self.assertIn(words, str(caught.exception))

    def test_what_is_no_text(self):
        for given in (5, True, 0, None, 1.5, [97, 42], ('a',), {'a': 1}, pathlib.PurePath('*README*.md'), object(), 10 ** 10, range(2), array.array('I', [97])):
            kind = type(given).__name__
            for call in (text, string, leaves, html, render, parse, is_text, is_content, lambda it: texts(it, [])):
                self.refused(TypeError, 'document is a str or bytes, and not a ' + kind, lambda: call(given))
            self.refused(TypeError, 'label is a str or bytes, and not a ' + kind, lambda: identifier(given))
            self.refused(TypeError, 'reference is a str or bytes, and not a ' + kind, lambda: reference(given))

    def test_texts_of_each_kind(self):
        wanted = text(b'a *b*')
        for given in (bytearray(b'a *b*'), memoryview(b'a *b*'), memoryview(b'*b* a'[::-1])[::-1][::-1], array.array('B', b'a *b*'), Long(b'a *b*')):
            self.assertEqual(text(given), wanted)
        self.assertEqual(text(memoryview(b'* ba')[::-1]), text(b'ab *'))
        self.assertEqual(text(Loud('a *b*')), text('a *b*'))
        self.assertEqual((identifier(bytearray(b' A')), reference(memoryview(b'&amp;'))), ('a', '&'))
        self.assertEqual(html(Long(b'[b]'), definitions={Long(b'b'): Long(b'/c')}), '<a href="/c">b</a>')

    def test_labels(self):
        for name in ('definitions', 'footnotes'):
            for given in ('ab', b'ab', bytearray(b'ab'), memoryview(b'ab')):
                for call in (text, leaves):
                    self.refused(TypeError, name + ' is a list, and not a ' + type(given).__name__, lambda: call('a', **{name: given}))
                self.refused(TypeError, name + ' is a list', lambda: texts('a', [], **{name: given}))
            self.refused(TypeError, name + ' is a list, and not a int', lambda: text('a', **{name: 5}))
            self.refused(TypeError, 'a label of %s is a str or bytes, and not a int' % name, lambda: text('a', **{name: [5]}))
            self.refused(TypeError, 'a label of %s is a str or bytes, and not a tuple' % name, lambda: text('a', **{name: [('b', '/c')]}))
        self.refused(TypeError, 'footnotes is a list', lambda: html('a', footnotes='ab'))
        wanted = text('[b] [c]', definitions=['b', 'c'])
        for given in (('b', 'c'), {'b', 'c'}, {'b': 1, 'c': 2}, (it for it in 'bc'), [b'b', bytearray(b'c')], [Long(b'b'), memoryview(b'c')]):
            self.assertEqual(text('[b] [c]', definitions=given), wanted)

    def test_targets(self):
        self.refused(TypeError, 'definitions is a mapping from labels to where they lead, and not a list', lambda: html('a', definitions=[('b', '/c')]))
        self.refused(TypeError, 'a label of definitions is a str or bytes, and not a int', lambda: html('a', definitions={5: '/c'}))
        self.refused(TypeError, 'a title is a str or bytes, and not a int', lambda: html('a', definitions={'b': ('/c', 5)}))
        self.refused(TypeError, 'a destination is a str or bytes, and not a NoneType', lambda: html('a', definitions={'b': (None, 'd')}))
        self.refused(TypeError, 'a target without a title is a str or bytes, and not a int', lambda: html('a', definitions={'b': 5}))
        self.refused(TypeError, 'a target without a title is a str or bytes', lambda: html('a', definitions={'b': None}))
        for given in (('/c',), ('/c', 'd', 'e'), []):
            self.refused(ValueError, 'a target has a destination and a title, and not %d texts' % len(given), lambda: html('a', definitions={'b': given}))
        for given in ('/c', b'/c', bytearray(b'/c'), memoryview(b'/c'), ('/c', None), ['/c', None], (bytearray(b'/c'), None)):
            self.assertEqual(html('[b]', definitions={'b': given}), '<a href="/c">b</a>')
        for given in (('/c', 'd'), [b'/c', bytearray(b'd')], (memoryview(b'/c'), memoryview(b'd'))):
            self.assertEqual(html('[b]', definitions={'b': given}), '<a href="/c" title="d">b</a>')

    def test_pieces_that_are_none(self):
        for given in (Piece(0, 2), (0, 2)):
            self.refused(TypeError, 'pieces[0] is a piece, as (start, end) or (start, end, start_vs, end_vs), and not a int', lambda: text('ab', given))
        self.refused(TypeError, 'pieces is a list, and not a int', lambda: text('ab', 2))
        self.refused(TypeError, 'pieces is a list, and not a str', lambda: text('ab', 'ab'))
        self.refused(TypeError, 'pieces is a list, and not a bytes', lambda: text('ab', b'\0\2'))
        for given in (None, 'ab', b'\0\2', bytearray(2), memoryview(b'\0\2'), range(2), {0, 2}, 1.5):
            self.refused(TypeError, 'pieces[1] is a piece', lambda: text('ab', [(0, 1), given]))

    def test_numbers_of_pieces(self):
        for given in ((), (0,), (0, 2, 0, 0, 0)):
            self.refused(ValueError, 'pieces[0] has %d numbers, and a piece has 2 to 4' % len(given), lambda: text('ab', [given]))
        for at, name in enumerate(('start', 'end', 'start_vs', 'end_vs')):
            for call in (text, string, leaves, html, is_text, is_content):
                for number in (-1, 2 ** 64, 2 ** 64 + 1, 10 ** 5000):
                    given = [number if at == it else 0 for it in range(4)]
                    for piece in (given, tuple(given), Piece(*given)):
                        self.refused(
                            OverflowError, 'the %s of pieces[1] is below 0 or has more than 64 bits' % name, lambda: call('ab', [(0, 0), piece]))
            self.refused(
                TypeError, 'the %s of pieces[0] is a number, and not a float' % name, lambda: text('ab', [Piece(*(1.0 if at == it else 0 for it in range(4)))]))
        self.refused(TypeError, 'the start of pieces[0] is a number, and not a str', lambda: text('ab', [('0', '2')]))

    def test_pieces_of_each_kind(self):
        wanted = text('ab', [(0, 2)])
        for given in ([[0, 2]], ((0, 2, 0),), [Piece(0, 2)], iter([(0, 2, 0, 0)]), [array.array('Q', [0, 2])][:0] or [(0, 2)], [(False, 2)]):
            self.assertEqual(text('ab', given), wanted)
        self.assertRaises(NoContent, text, 'ab', [(0, 2 ** 64 - 1)])

    def test_contents(self):
        self.refused(TypeError, 'contents is a list, and not a int', lambda: texts('a', 5))
        for given in ([(0, 1)], 5, None, (1, 2, 3), ([],)):
            self.refused(TypeError, 'contents[0] is no Content', lambda: texts('a', [given]))
        self.refused(TypeError, 'first_of_item of contents[0] is True or False, and not a tuple', lambda: texts('ab', [((0, 1), (1, 2))]))
        self.refused(TypeError, 'first_of_item of contents[0] is True or False, and not a NoneType', lambda: texts('ab', [([(0, 1)], None)]))
        self.refused(ValueError, 'first_of_item of contents[1] is True or False', lambda: texts('ab', [([], True), ([(0, 1)], 2)]))
        self.refused(TypeError, 'the pieces of contents[1] is a list', lambda: texts('ab', [Content([]), Content('ab')]))
        self.refused(TypeError, 'the pieces of contents[0][0] is a piece', lambda: texts('ab', [Content((0, 2))]))
        self.refused(OverflowError, 'the end of the pieces of contents[1][0] is below 0', lambda: texts('ab', [Content([]), Content([(0, -1)])]))
        self.assertEqual(list(texts('ab', iter([([(0, 2)], False)]))), [text('ab')])

    def test_options(self):
        for call in (text, string, leaves, html, lambda *it, **asked: texts('a', [], **asked)):
            for given in (2 ** 32 | BITS, -1, 2 ** 64, 10 ** 5000):
                self.refused(OverflowError, 'options is below 0 or has more than 32 bits', lambda: call('a', options=given))
            for given in (True, 'gfm', 1.0, [BITS]):
                self.refused(TypeError, 'options is a number of bits, and not a ' + type(given).__name__, lambda: call('a', options=given))
        self.assertRaises(UnknownOption, text, 'a', options=2 ** 31)
        self.assertEqual(text('*a*', options=0), text('*a*', options=BITS & ~1))

    def test_switches(self):
        for name in ('strikethrough', 'bare_urls', 'tasks', 'math', 'front_matter'):
            for given, error in (('yes', TypeError), (None, TypeError), (1.0, TypeError), (2, ValueError)):
                for call in (render, parse, document_links):
                    self.refused(error, name + ' is True or False', lambda: call('a', **{name: given}))
        for name in ('gfm', 'math', 'task', 'any_link'):
            calls = [html] + ([render, parse] if name == 'any_link' else [text, leaves])
            calls += [lambda it, **asked: texts(it, [], **asked)] * (name in ('gfm', 'math'))
            for call in calls:
                for given in ('yes', None, 1.0, []):
                    self.refused(TypeError, name + ' is True or False, and not a ' + type(given).__name__, lambda: call('a', **{name: given}))
                for given in (2, -1):
                    self.refused(ValueError, name + ' is True or False, and not another number', lambda: call('a', **{name: given}))
        self.assertEqual(html('<b> [a](javascript:b)', any_link=1), '&lt;b&gt; <a href="javascript:b">a</a>')
        for call in (html, render, parse):
            self.refused(TypeError, 'html is a str, and not a bool', lambda: call('a', html=True))
            self.refused(ValueError, "html is 'escape' or 'raw', and not 'omit'", lambda: call('a', html='omit'))
        for call in (text, string, leaves, html, reference, lambda it, **asked: texts(it, [], **asked)):
            self.refused(TypeError, 'rules is a str, and not a bool', lambda: call('a', rules=True))
            self.refused(ValueError, "rules is 'commonmark' or 'crate', and not 'gfm'", lambda: call('a', rules='gfm'))

    def test_options_stay(self):
        with self.assertRaises(TypeError):
            OPTIONS['attention'] = 0
        self.assertFalse(hasattr(OPTIONS, 'update') or hasattr(OPTIONS, 'pop'))

    def test_errors_are_said_where_pieces_come_from_a_generator(self):
        self.refused(OverflowError, 'the start of pieces[1]', lambda: text('ab', (it for it in [(0, 1), (-1, 2)])))

    def test_a_text_of_surrogates_is_no_text(self):
        self.assertRaises(markdown_inline.NotUtf8, text, '\ud800')
        self.assertRaises(markdown_inline.DefinitionError, text, 'a', definitions=['\ud800'])

    def test_nothing_is_read_past_an_object_of_bytes(self):
        self.assertEqual(len(text(Long(b'a'))), 2)
        self.assertEqual(identifier(Long(b'A')), 'a')
