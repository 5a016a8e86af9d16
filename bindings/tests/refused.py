"""Calls of a library that gets no memory: each that asks for some raises NoMemory."""
import unittest

from markdown_inline import NoMemory, parse, render
from markdown_inline.inline import (
    Content, html, identifier, is_content, leaves, links, pieces_of_lines, reference, short_texts, string, strings, text, texts, tree)


class Refused(unittest.TestCase):
    def test_refused_memory_is_an_error(self):
        for call in (
            lambda: text('a *b*'), lambda: string('a'), lambda: leaves('a'), lambda: texts('a', [Content([(0, 1)])]), lambda: html('a'), lambda: render('a'), lambda: parse('a'),
            lambda: short_texts('a', [Content([(0, 1)])]),
            lambda: strings('a', [[(0, 1)]]), lambda: identifier('a'), lambda: reference('&amp;'), lambda: is_content('a\nb', [(0, 2), (2, 3)]),
            lambda: links('a'), lambda: tree('a'), lambda: pieces_of_lines('a', [0]),
        ):
            with self.assertRaises(NoMemory) as caught:
                call()
            self.assertEqual(caught.exception.status, 5)


if __name__ == '__main__':
    unittest.main()
