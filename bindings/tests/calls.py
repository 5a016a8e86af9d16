"""What the calls answer, and their statuses; and the tests of the modules that are named at the end."""
import doctest
import math
import os
import sys
import unittest
from array import array

import markdown_inline
from markdown_inline import BlankLine, DefinitionError, Error, NoContent, NoReference, NoString, NotUtf8, References, TooLong, UnknownOption, _errors, _library, inline
from markdown_inline.inline import (
    COMMONMARK, CRATE, GFM, MATH, OPTIONS, Content, Kind, Name, Piece, ShortTexts, html, htmls, identifier, is_content, is_text, leaves, pieces_of_lines,
    reference, short_texts, string, strings, text, texts)

CONSTRUCTS = sum(OPTIONS[it] for it in (
    'attention', 'autolink', 'character_escape', 'character_reference', 'code_text', 'hard_break_escape', 'hard_break_trailing', 'html_text', 'label_start_image',
    'label_start_link', 'label_end', 'gfm_strikethrough_single_tilde', 'math_text_single_dollar'))


class Calls(unittest.TestCase):
    def test_each_error_comes(self):
        for error, status, call in (
            (UnknownOption, 2, lambda: text('a', options=1 << 31)), (UnknownOption, 2, lambda: string('a', options=1 << 31)),
            (UnknownOption, 2, lambda: reference('&amp;', options=1 << 31)), (UnknownOption, 2, lambda: strings('a', [[(0, 1)]], options=1 << 31)),
            (NotUtf8, 3, lambda: text(b'\xff')), (NotUtf8, 3, lambda: text('\ud800')), (NotUtf8, 3, lambda: string(b'\xff')),
            (BlankLine, 4, lambda: text('a\n\nb')), (BlankLine, 4, lambda: text('a\n')), (NoContent, 7, lambda: text('a', [(0, 9)])),
            (NoContent, 7, lambda: string('a', [(1, 0)])), (DefinitionError, 8, lambda: text('a', definitions=[b'\xff'])),
            (DefinitionError, 8, lambda: text('a', footnotes=[b'\xff'])), (DefinitionError, 8, lambda: html('a', definitions={'b': b'\xff'})),
            (DefinitionError, 8, lambda: html('a', definitions={'b': ('c', b'\xff')})), (BlankLine, 4, lambda: leaves('a\n')),
            (NoContent, 7, lambda: texts('a', [Content([(0, 1)]), Content([(0, 2)])])), (BlankLine, 4, lambda: texts('a\n', [Content([(0, 2)])])),
            (NoString, 12, lambda: strings('a', [[(0, 2)]])),
            (NoReference, 10, lambda: reference('&nothing;')), (NoReference, 10, lambda: reference(b'')),
            (References, 11, lambda: htmls('[a]', [Content([(0, 3)])], definitions={'a': 'bc'}, limit=1)),
        ):
            with self.assertRaises(error) as caught:
                call()
            self.assertIsInstance(caught.exception, Error)
            self.assertEqual(caught.exception.status, status)
            self.assertTrue(str(caught.exception))

    def test_a_document_that_is_too_long(self):
        # No object is so long. The library looks at the length before the bytes, so it may be lent fewer.
        given = _library.Given(b'a', array('Q'), 0, [], [])
        given.input.bytes_len = (2 ** 64 >> 3) + 1
        self.assertEqual(_library.events('markdown_inline_text', given), (TooLong.status, b''))
        self.assertIsInstance(_errors.raised(TooLong.status), TooLong)

    def test_tests(self):
        self.assertTrue(is_text('a\nb') and is_content('a\n\nb'))
        self.assertFalse(is_text('a\n\nb') or is_content(b'\xff') or is_content('a', [(0, 2)]))

    def test_pieces_of_lines(self):
        document = '- \ta\t \r\n \t é  \r  c \t\n\nd'
        pieces = [Piece(3, 8), Piece(11, 16), Piece(18, 19)]
        for given in (document, document.encode(), bytearray(document.encode())):
            self.assertEqual(pieces_of_lines(given, [1, 8, 16]), pieces)
        self.assertEqual(pieces_of_lines(document, iter([3, 11, 18])), pieces)
        self.assertTrue(is_text(document, pieces))
        self.assertEqual(pieces_of_lines('', []), [])
        for error, given, starts, at in (
            (NoContent, 'a', [0, 0], 1), (NoContent, 'a\nb', [2, 0], 1), (NoContent, 'a\nb\nc', [0, 4], 1), (NoContent, 'a', [2 ** 64 - 1], 0), (NoContent, 'é', [1], 0),
            (BlankLine, 'a\n \t\nb', [0, 2, 5], 1), (BlankLine, '', [0], 0),
        ):
            with self.assertRaises(error) as caught:
                pieces_of_lines(given, starts)
            self.assertEqual(caught.exception.at, at)
        for error, starts in ((TypeError, 'ab'), (TypeError, 0), (TypeError, [0.5]), (OverflowError, [-1]), (OverflowError, [2 ** 64])):
            self.assertRaises(error, pieces_of_lines, 'a', starts)

    def test_nothing(self):
        self.assertEqual(text(''), [])
        self.assertEqual(text('a', []), [])

    def test_characters(self):
        events = text('é *漢*')
        self.assertEqual([(it.index, it.character) for it in events if it.name == Name.Emphasis], [(3, 2), (8, 5)])
        self.assertIsNone(text('é'.encode())[0].character)

    def test_pieces(self):
        pieces = [Piece(2, 7), Piece(9, 15)]
        self.assertEqual(str(text('> a *b\n> c* `d`', pieces)[3]), 'Enter EmphasisSequence 1 5 4 0')

    def test_labels_are_normalized(self):
        self.assertIn(Name.Link, [it.name for it in text('[a  B]', definitions=['A b'])])
        self.assertNotIn(Name.Link, [it.name for it in text('[a  B]')])
        self.assertEqual([identifier(it) for it in (' A\n B ', b'', '\u1e9e')], ['a b', '', 'ss'])
        with self.assertRaises(NotUtf8):
            identifier(b'\xff')

    def test_references_are_decoded(self):
        self.assertEqual([reference(it) for it in ('&amp;', '&copy;', '&#65;', b'&#X1f600;', '&#0;')], ['&', '\xa9', 'A', '\U0001f600', '\ufffd'])
        # Blanks stay.
        self.assertEqual([reference(it) for it in ('&nbsp;', '&#32;', '&#10;', '&#x9;')], ['\xa0', ' ', '\n', '\t'])
        for given in (' &amp;', '&amp; ', '&amp', 'amp;', '&;'):
            self.assertRaises(NoReference, reference, given)

    def test_references_are_decoded_by_options(self):
        names, rules = OPTIONS['html_references'], OPTIONS['standard_rules']
        self.assertRaises(NoReference, reference, '&check;', rules='crate')
        self.assertEqual([reference('&check;', options=it) for it in (None, names, rules)], ['\u2713'] * 3)
        self.assertEqual([reference('&#1;', options=it) for it in (CRATE, names, rules, None)], ['\ufffd', '\ufffd', '\x01', '\x01'])
        self.assertEqual([strings('&check;', [[(0, 7)]], options=it) for it in (None, 0, names)], [['\u2713'], ['&check;'], ['\u2713']])
        self.assertEqual(strings('&check;&#1;', [[(0, 11)]], rules='crate'), ['&check;\ufffd'])
        self.assertEqual(strings('&nGt;' * 500, [[(0, 2500)]], options=rules), ['\u226b\u20d2' * 500])

    def test_each_switch(self):
        """Each switch means its bits, of each call that has it, and changes what the call finds."""
        gfm = sum(OPTIONS[it] for it in ('gfm_autolink_literal', 'gfm_label_start_footnote', 'gfm_strikethrough', 'gfm_task_list_item'))
        for document, asked, bits in (
            ('~a~ www.b.c [^d] e@f.g', {'gfm': True}, gfm), ('a $b$ $$c$$', {'math': True}, OPTIONS['math_text']),
            ('[x] a', {'gfm': True, 'task': True}, gfm | OPTIONS['first_of_item']),
        ):
            last = list(asked)[-1]
            without = {name: it for name, it in asked.items() if name != last}
            one, both = [Content([Piece(0, len(document))], last == 'task')], {'definitions': ['a'], 'footnotes': ['d']}
            calls = [lambda **them: text(document, **both, **them), lambda **them: leaves(document, **both, **them)]
            calls.append(lambda **them: html(document, definitions={'a': '/b'}, footnotes=['d'], **them))
            if last != 'task':
                calls.append(lambda **them: texts(document, one, **both, **them))
            for call in calls:
                self.assertEqual(call(**asked), call(options=COMMONMARK | bits))
                self.assertEqual(call(**asked, rules='crate'), call(options=CRATE | bits))
                self.assertNotEqual(call(**asked), call(**without))
                self.assertEqual(call(), call(options=COMMONMARK))
                self.assertEqual(call(), call(**dict.fromkeys(asked, False)))
                self.assertRaises(TypeError, call, options=COMMONMARK, **{last: True})
                self.assertRaises(TypeError, call, options=COMMONMARK, rules='crate')
            found = texts(document, one, **both, **{name: it for name, it in asked.items() if name != 'task'})
            self.assertEqual(found, [text(document, **both, **asked)])

    def test_what_is_read_by_default(self):
        """CommonMark's constructs by its rules, as in C and in Rust."""
        self.assertEqual((COMMONMARK, CRATE, GFM, MATH), (CONSTRUCTS | OPTIONS['standard_rules'], CONSTRUCTS, 0x1e0, OPTIONS['math_text']))
        # Of CommonMark, and of the crate.
        for document, wanted, other in (
            ('*a***a* b', '<em>a</em>*<em>a</em> b', '<em>a</em>**a* b'), ('a*_b_*', 'a*<em>b</em>*', 'a<em><em>b</em></em>'), ('&check;', '\u2713', '&amp;check;'),
        ):
            self.assertEqual((html(document), html(document, rules='crate')), (wanted, other))
        gfm = '~a~ www.b.c [^d] e@f.g $h$ [x]'
        for call in (text, leaves):
            self.assertEqual({it.name for it in call(gfm, footnotes=['d'])}, {Name.Data})
        self.assertEqual(html(gfm, footnotes=['d']), gfm)
        self.assertEqual({it.name for it in texts(gfm, [Content([(0, len(gfm))], True)], footnotes=['d'])[0]}, {Name.Data})

    def test_leaves_cover_the_text(self):
        document = 'a *b* [é](d)\n\te `f`'
        found = leaves(document)
        self.assertEqual(b''.join(it.content for it in found), document.encode())
        self.assertEqual(''.join(document[it.character:it.end_character] for it in found), document)
        self.assertIsNone(leaves(document.encode())[0].character)
        self.assertEqual(b''.join(it.content for it in leaves('\ta', [Piece(0, 2, 2)])), b'a')

    def test_many_contents_are_read_as_each_by_itself(self):
        document, pieces = '[x] *a*\n\n> b\n> `c` é', [Piece(11, 13), Piece(15, 21)]
        found = texts(document, [Content([Piece(0, 7)], True), Content(pieces), Content([])])
        self.assertEqual(found, [text(document, [Piece(0, 7)], task=True), text(document, pieces), []])
        self.assertEqual(texts(document, []), [])
        shorts = short_texts(document, [Content([Piece(0, 7)], True), Content(pieces), Content([])])
        self.assertIsInstance(shorts, ShortTexts)
        for events, short in zip(found, shorts):
            self.assertEqual([(it.kind, it.name, it.index, it.vs, it.character) for it in events], [(*it[:4], it.character) for it in short])
            self.assertEqual([(it.kind, it.name, 2 ** 32 - 1, it.index) for it in events], list(short.flat()))
            self.assertEqual([it.link and it.link.content for it in events], [it.link for it in short])

    def test_short_events_tell_the_definitions_that_are_met(self):
        document = '[a][B] ![c] [d](e) [f [g]] x[^h] [b]'
        found, = short_texts(document, [Content([(0, 36)])], gfm=True, definitions=['c', 'b', 'G', 'B'], footnotes=['i', 'H'])
        met = [(it.name, it.index, it.definition, it.kind) for it in found if it.definition is not None]
        begins = [(Name.Link, 0, 1), (Name.Image, 7, 0), (Name.Link, 22, 2), (Name.GfmFootnoteCall, 28, 1), (Name.Link, 33, 1)]
        self.assertEqual(met, [(*it, Kind.Enter) for it in begins])
        self.assertEqual([it[:3] for it in found.flat() if it[2] < 2 ** 32 - 1], [(Kind.Enter, name, number) for name, _, number in begins])

    def test_short_events_tell_the_characters_of_references(self):
        # CommonMark 2.5: U+FFFD for 0, for surrogates, and for what is past the last code point. Two characters have no code point.
        document = '&amp; *&#65;* [&#x1f600;](&lt; "&gt;") &copy; &#1; &ngE; &#0; &#xd800; &#x110000; &check; &nosuch; `&amp;`'
        for options, characters in (({}, '&A😀©\1\ufffd\ufffd\ufffd✓'), ({'rules': 'crate'}, '&A😀©\ufffd\ufffd\ufffd\ufffd')):
            found, = short_texts(document, [Content([(0, len(document))])], definitions=['c'], **options)
            references = [it for it in found if it.kind == Kind.Enter and it.name == Name.CharacterReference]
            self.assertEqual(''.join(it.stands_for for it in references if it.stands_for), characters)
            self.assertEqual([it.index for it in references if it.stands_for is None], [document.index('&ngE;')])
            self.assertEqual([it for it in found if it.definition is not None], [])
            self.assertEqual([it for it in found if it.stands_for and it not in references], [])
            self.assertEqual([number for kind, name, number, _ in found.flat() if number < 2 ** 32 - 1], list(map(ord, characters)))

    def test_labels_go_by_their_text(self):
        # By CommonMark what a content leaves out is no part of a label; else the identifier is that of all bytes of the document.
        document, pieces = '> [a\n> b]', [(2, 5), (7, 9)]
        for label, options in (('a b', {}), ('a > b', dict(rules='crate'))):
            self.assertEqual(html(document, pieces, definitions={label: '/c'}, **options), '<a href="/c">a\nb</a>')
            self.assertEqual(htmls(document, [Content(pieces)], definitions={label: '/c'}, **options), ['<a href="/c">a\nb</a>'])
            found, = short_texts(document, [Content(pieces)], definitions=['c', label], **options)
            self.assertEqual([(it.name, it.definition) for it in found if it.definition is not None], [(Name.Link, 1)])
        for label, options in (('a > b', {}), ('a b', dict(rules='crate'))):
            self.assertEqual(html(document, pieces, definitions={label: '/c'}, **options), '[a\nb]')
            self.assertEqual(htmls(document, [Content(pieces)], definitions={label: '/c'}, **options), ['[a\nb]'])
            found, = short_texts(document, [Content(pieces)], definitions=['c', label], **options)
            self.assertEqual([it.name for it in found if it.definition is not None], [])

    def test_texts_of_strings(self):
        document = '> [a](<b\\*c> (d\n>  &copy; é\\)\n> e))'
        wanted = ['b*c', 'd\n© é)\ne', '', 'd\n']
        titles = {name: [it for it in text(document, [Piece(2, 16), Piece(18, 31), Piece(33, 36)]).spans() if it[0] == name] for name in Name}
        (_, start, end, _), = titles[Name.ResourceTitleString]
        title = [it[1:3] for it in text(document, [Piece(2, 16), Piece(18, 31), Piece(33, 36)]).spans() if it[0] in (Name.Data, Name.LineEnding) and start <= it[1] < end]
        (_, start, end, _), = titles[Name.ResourceDestinationString]
        self.assertEqual(strings(document, [[(start, end)], title, [], title[:2]]), wanted)
        self.assertEqual(strings('&#0;\0\r\n', [[(0, 7)]]), ['\ufffd\0\r\n'])
        for how, written in (({}, 'a\r\nb\rc\0\r'), ({'line_feeds': True}, 'a\nb\nc\0\r'), ({'replaced_nul': True}, 'a\r\nb\rc\ufffd\r'), ({'line_feeds': True, 'replaced_nul': True}, 'a\nb\nc\ufffd\r')):
            self.assertEqual(strings('a\r\nb\rc\0&#13;', [[(0, 2), (2, 12)]], **how), [written])
        self.assertRaises(TypeError, strings, 'a', [], line_feeds='no')
        self.assertEqual(strings('&ngE;&amp' * 500, [[(0, 4500)]]), ['≧̸&amp' * 500])
        with self.assertRaises(NoString) as caught:
            strings('é', [[(0, 2)], [(0, 0), (0, 1)]])
        self.assertEqual(caught.exception.at, 1)

    def test_footnotes_are_numbered_through_many_contents(self):
        document = 'é[^b]\n\nc[^d]\n\n[^B] [e]'
        contents = [Content([(0, 6)]), Content([(8, 13)]), Content([(15, 23)]), Content([])]
        call = ('<sup><a href="#user-content-fn-%s" id="user-content-fnref-%s%s" data-footnote-ref="" aria-describedby="footnote-label">%d</a></sup>')
        wanted = ['é' + call % ('b', 'b', '', 1), 'c' + call % ('d', 'd', '', 2), call % ('b', 'b', '-2', 1) + ' <a href="/f" title="g">e</a>', '']
        self.assertEqual(htmls(document, contents, gfm=True, footnotes=['b', 'd'], definitions={'e': ('/f', 'g')}), wanted)
        self.assertEqual(htmls(document, []), [])

    def test_many_contents_have_the_html_of_each_by_itself(self):
        document, defined = '<b> [a](javascript:b) [C]\n\n[x] d', {'c': ('/d', 'é')}
        contents = [Content([(0, 25)]), Content([(27, 32)], True)]
        for asked in ({}, {'html': 'raw'}, {'any_link': True}, {'gfm': True}, {'math': True, 'rules': 'crate'}):
            found = htmls(document, contents, definitions=defined, **asked)
            self.assertEqual(found, [html(document, it.pieces, task=it.first_of_item, definitions=defined, **asked) for it in contents])

    def test_references_bring_no_more_than_a_limit(self):
        one, defined = [Content([(0, 404)])], {'a': 'x' * 1000}
        document = '[a] ' * 101
        self.assertRaises(References, htmls, document, one, definitions=defined)
        self.assertRaises(References, htmls, document, one, definitions=defined, limit=100_999)
        for asked in ({'limit': 101_000}, {'limit': math.inf}):
            self.assertEqual(htmls(document, one, definitions=defined, **asked), [html(document, definitions=defined, **asked)])
        self.assertEqual(len(htmls(document + '\n\n' + 'x' * 100_594, one, definitions=defined)), 1)
        for wrong, error in ((-1, OverflowError), (2 ** 64, OverflowError), (True, TypeError), ('1', TypeError)):
            self.assertRaises(error, htmls, document, one, limit=wrong)
            self.assertRaises(error, html, document, limit=wrong)

    def test_references_bring_no_more_than_a_limit_to_one_text(self):
        document, asked = '[x] ![a][b] [^c] ' + '[a] ' * 99 + '[a]', {'gfm': True, 'footnotes': ['c'], 'definitions': {'a': ('x' * 999, 'y'), 'b': 'z'}}
        self.assertRaises(References, html, document, **asked)
        self.assertRaises(References, html, document, limit=100_000, **asked)
        for task in (False, True):
            found = html(document, task=task, limit=math.inf, **asked)
            self.assertEqual(found, html(document, task=task, limit=100_001, **asked))
            self.assertEqual('checkbox' in found, task)
        # Where no references can bring more than the limit, and where they could, the same is wrong.
        for limit in (1, 10 ** 9):
            self.assertRaises(NoContent, html, document, [(0, 9999)], limit=limit, **asked)
            self.assertRaises(BlankLine, html, document + '\n', limit=limit, **asked)

    def test_what_is_to_blame_is_told(self):
        good = Content([(0, 3)])
        for at, call in (
            (1, lambda: htmls('[a]\n', [good, Content([(0, 9)])])), (2, lambda: htmls('[a]\n', [good, good, Content([(0, 4)])])),
            (1, lambda: htmls('[a]\n', [good, good], definitions={'a': 'bc'}, limit=3)),
            (2, lambda: htmls('[a]', [good], definitions={'a': 'b', 'c': 'd', b'\xff': 'e'})), (0, lambda: htmls('[a]', [good], definitions={'a': b'\xff'})),
            (2, lambda: htmls('[a]', [good], definitions={'a': 'b'}, footnotes=['c', b'\xff'])), (1, lambda: htmls(b'a\xff', [good])),
            (1, lambda: texts('[a]\n', [good, Content([(0, 9)])])), (2, lambda: short_texts('[a]\n', [good, good, Content([(0, 4)])])),
            (2, lambda: texts('[a]', [good], definitions=['a', 'b', b'\xff'])), (3, lambda: short_texts('[a]', [good], definitions=['a', 'b', 'c'], footnotes=[b'\xff'])),
            (3, lambda: texts(b'a\xc3\xa9\xe2\x82', [good])), (0, lambda: short_texts(b'\xff', [good])),
        ):
            with self.assertRaises(Error) as caught:
                call()
            self.assertEqual(caught.exception.at, at)

    def test_html_is_safe_where_nothing_else_is_asked(self):
        document, defined = '<b> [a](javascript:b) [C]', {'c': ('/d', 'é'), 'e': b'/f'}
        self.assertEqual(html(document, definitions=defined), '&lt;b&gt; <a href="">a</a> <a href="/d" title="é">C</a>')
        self.assertEqual(html(document, definitions=defined, html='raw', any_link=True), '<b> <a href="javascript:b">a</a> <a href="/d" title="é">C</a>')

    def test_documented_examples(self):
        public = {it: getattr(inline, it) for it in inline.__all__}
        page = os.path.join(os.path.dirname(os.path.abspath(__file__)), '..', 'python', 'README.md')
        for found, least in (
            (doctest.testmod(markdown_inline), 4), (doctest.testmod(inline), 4), (doctest.testmod(markdown_inline._document), 2), (doctest.testmod(markdown_inline._slugs), 2), (doctest.testmod(markdown_inline._events, extraglobs=public), 4),
            (doctest.testfile(page, module_relative=False), 4),
        ):
            self.assertEqual(found.failed, 0)
            self.assertGreaterEqual(found.attempted, least)


# Each module of tests, with how many tests it has at least: where fewer are found, something is not run.
MODULES = {'calls': 23, 'documents': 4, 'document_blocks': 17, 'links': 9, 'nodes': 12, 'arguments': 14, 'events': 13, 'hooks': 6, 'install': 1, 'lent': 14, 'page': 12, 'paragraph': 16, 'play': 13, 'plugin': 17, 'program': 4, 'typed': 3}


def main():
    suite, missing = unittest.TestSuite(), []
    for name, least in MODULES.items():
        tests = unittest.defaultTestLoader.loadTestsFromName(name)
        if tests.countTestCases() < least:
            missing.append('%s.py has %d tests, and had %d' % (name, tests.countTestCases(), least))
        suite.addTests(tests)
    result = unittest.TextTestRunner().run(suite)
    if result.testsRun < sum(MODULES.values()):
        missing.append('%d tests ran' % result.testsRun)
    for reason in sorted({reason for _, reason in result.skipped}):
        print('bindings: %d tests skipped: %s' % (sum(reason == it for _, it in result.skipped), reason))
    print('bindings: %d tests of Python' % (result.testsRun - len(result.skipped)))
    return '\n'.join(missing) or int(not result.wasSuccessful())


if __name__ == '__main__':
    sys.exit(main())
