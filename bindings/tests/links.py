"""Where links lead, and the tree of a text."""
import time
import unittest

from markdown_inline import BlankLine, DefinitionError, NotUtf8
from markdown_inline.inline import COMMONMARK, GFM, OPTIONS, Address, Content, Name, Node, Piece, links, text, tree

# A document, what is asked for, and of each link in its bytes: what it is, where it begins and ends, its line and its column, its destination, its title, its
# definition.
ROWS = [
    ('a', {}, []),
    ('[a](b "c") ![d](<e f> \'g\')', {}, [('link', 0, 10, 1, 1, 'b', 'c', None), ('image', 11, 26, 1, 12, 'e f', 'g', None)]),
    ('[]() [](<>) [](a "")', {}, [('link', 0, 4, 1, 1, '', None, None), ('link', 5, 11, 1, 6, '', None, None), ('link', 12, 20, 1, 13, 'a', '', None)]),
    ('[a ![b](c)](d)', {}, [('link', 0, 14, 1, 1, 'd', None, None), ('image', 3, 10, 1, 4, 'c', None, None)]),
    ('[a](b\\*&amp;&check; "\\"c\nd&nbsp;")', {}, [('link', 0, 34, 1, 1, 'b*&✓', '"c\nd\xa0', None)]),
    ('[a](&check;)', {'rules': 'crate'}, [('link', 0, 12, 1, 1, '&check;', None, None)]),
    ('<ab:c&amp;\\*> <d@e.f>', {}, [('autolink', 0, 13, 1, 1, 'ab:c&amp;\\*', None, None), ('autolink', 14, 21, 1, 15, 'mailto:d@e.f', None, None)]),
    ('www.a.b c@d.e\nhttps://f.g mailto:h@i.j', {'gfm': True}, [
        ('literal', 0, 7, 1, 1, 'http://www.a.b', None, None), ('literal', 8, 13, 1, 9, 'mailto:c@d.e', None, None),
        ('literal', 14, 25, 2, 1, 'https://f.g', None, None), ('literal', 26, 38, 2, 13, 'mailto:h@i.j', None, None)]),
    ('[A] [x][b  C] ![c][] [d]', {'definitions': {'a': '/1', 'B c': ('/2', 't'), 'c': (b'/\xc3\xa9', None)}}, [
        ('link', 0, 3, 1, 1, '/1', None, 0), ('link', 4, 13, 1, 5, '/2', 't', 1), ('image', 14, 20, 1, 15, '/é', None, 2)]),
    ('[a [b]](c) [^d]', {'gfm': True, 'definitions': {'b': '/e'}, 'footnotes': ['d']}, [('link', 3, 6, 1, 4, '/e', None, 0)]),
    ('é😀\t[a](b)\r\n\r[c](d)\n', {'contents': [([(0, 13)], False), ([(16, 22)], False)]}, [
        ('link', 7, 13, 1, 8, 'b', None, None), ('link', 16, 22, 3, 1, 'd', None, None)]),
    # A label and a title over the lines of a quote.
    ('> [a\n> b]\n> [c](d "e\n>  f")', {'contents': [([(2, 5), (7, 10), (12, 21), (23, 27)], False)], 'definitions': {'a b': '/g'}}, [
        ('link', 2, 9, 1, 3, '/g', None, 0), ('link', 12, 27, 3, 3, 'd', 'e\nf', None)]),
    ('[x] [a](b)', {'options': COMMONMARK | GFM | OPTIONS['first_of_item']}, [('link', 4, 10, 1, 5, 'b', None, None)]),
]


class Links(unittest.TestCase):
    def test_rows(self):
        for document, asked, wanted in ROWS:
            found, given = links(document.encode(), **asked), document.encode()
            self.assertEqual([(it.kind, it.start, it.end, it.line, it.column, it.destination, it.title, it.definition) for it in found], wanted, document)
            self.assertTrue(all(type(it) is Address for it in found))
            # In a `str` all places are those of characters.
            places = [[len(given[first:at].decode()) for first, at in ((0, it.start), (0, it.end), (it.start - it.column + 1, it.start))] for it in found]
            self.assertEqual(links(document, **asked), [it._replace(start=start, end=end, column=before + 1) for it, (start, end, before) in zip(found, places)])

    def test_places_of_a_str(self):
        (found,), document = links('é😀\t[a](b)'), 'é😀\t[a](b)'
        self.assertEqual((found.line, found.column, document[found.start:found.end]), (1, 4, '[a](b)'))

    def test_contents(self):
        document = '[a](b)\n\n[c](d) [e](f)\n'
        contents = [Content([Piece(0, 6)]), Content([]), ([(8, 21)], True)]
        self.assertEqual([(it.content, it.start, it.line, it.column, it.destination) for it in links(document, contents)], [
            (0, 0, 1, 1, 'b'), (2, 8, 3, 1, 'd'), (2, 15, 3, 8, 'f')])
        self.assertEqual(links(document, []), [])

    def test_what_is_refused(self):
        for error, call in (
            (BlankLine, lambda: links('a\n\nb')), (NotUtf8, lambda: links(b'\xff')), (DefinitionError, lambda: links('a', definitions={b'\xff': 'a'})),
            (TypeError, lambda: links('a', definitions=[('a', '/b')])), (TypeError, lambda: links('a', columns='bytes')),
            (TypeError, lambda: links('a', options=COMMONMARK, gfm=True)), (TypeError, lambda: links(5)), (DefinitionError, lambda: links('a', definitions={'b': b'\xff'})),
        ):
            self.assertRaises(error, call)

    def test_a_long_text(self):
        """Columns are counted on: what a link costs does not grow with the line in which it stands."""
        def seconds(count):
            begun = time.process_time()
            self.assertEqual(links('é[a](b "c")' * count)[-1].column, 11 * count - 9)
            return time.process_time() - begun

        self.assertLess(min(seconds(8000) for _ in range(3)), 24 * min(seconds(1000) for _ in range(5)))


class Nodes(unittest.TestCase):
    def test_a_tree(self):
        found = tree('a *b **c*** é', gfm=True)
        self.assertEqual([(it.name, it.text) for it in found.children], [(Name.Data, 'a '), (Name.Emphasis, '*b **c***'), (Name.Data, ' é')])
        emphasis, = found.find(Name.Emphasis)
        self.assertEqual([it.text for it in emphasis.children], ['*', 'b **c**', '*'])
        self.assertEqual((emphasis.enter, emphasis.exit), tuple(it for it in text('a *b **c*** é') if it.name == Name.Emphasis))
        self.assertEqual([it.text for it in emphasis.find(Name.Data, Name.Emphasis)], ['b ', 'c'])
        self.assertEqual(list(found.children[0].walk()), [])
        self.assertEqual((repr(emphasis), found.text, tree('').children, tree('').text), ('Node(Emphasis, 2, 11)', 'a *b **c*** é', [], ''))
        self.assertTrue(all(type(it) is Node for it in found.walk()))

    def test_pieces(self):
        found = tree('> a *b\n> c*', [(2, 7), (9, 11)])
        self.assertEqual([it.text for it in found.find(Name.Emphasis, Name.LineEnding)], ['*b\nc*', '\n'])
        self.assertEqual([it.text for it in tree('[](a)').find(Name.LabelText)], [''])

    def test_each_node(self):
        document = '*a* **b _c_** [d ![e](f)](g "h\ni") `j` <kk:l> &amp; \\*  \nm'
        found, spans = tree(document), list(text(document).spans())
        self.assertEqual([(it.name, it.enter.index, it.exit.index) for it in found.walk()], [it[:3] for it in spans])
        self.assertEqual([it.text for it in found.walk()], [document[start:end] for _, start, end, _ in spans])
        depths = []

        def look(node, depth):
            for it in node.children:
                depths.append(depth)
                look(it, depth + 1)

        look(found, 0)
        self.assertEqual(depths, [it[3] for it in spans])

    def test_a_deep_tree(self):
        deep = next(tree('*a **a ' * 20000 + 'b' + '***' * 20000).find(Name.Emphasis))
        self.assertEqual(sum(1 for _ in deep.walk()) > 100000, True)
        self.assertEqual(len(deep.text), 200001)
