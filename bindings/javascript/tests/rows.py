#!/usr/bin/env python3
"""Prints the rows of inline_html that are examples of CommonMark's specification, each as a line of JSON: its words, its input, and the HTML that it has.

usage: rows.py [pages]

With `pages` the rows are those of markdown_page_examples."""
import json
import os
import sys

sys.dont_write_bytecode = True
ROOT = os.path.join(os.path.dirname(os.path.abspath(__file__)), '../../..')
sys.path[:0] = [os.path.join(ROOT, it) for it in ('tools/checks', 'crates/markdown_page_examples/tools')]
import pages  # noqa: E402
import rows  # noqa: E402


def of_paragraphs():
    for line in rows.lines('inline_html', 'rows-of-specification.txt'):
        words, given, status, wanted, _ = rows.read(line)
        if status != 0 or not wanted.endswith(b'\n'):
            sys.exit('no example: ' + line)
        yield [word.decode() for word in words], given.decode(), wanted.decode()[:-1]


def of_documents():
    known = {'safe', 'lf', 'crlf', 'strikethrough', 'bare_urls', 'tasks', 'math', 'front_matter'}
    found = (pages.read(row) for groups in pages.rows().values() for group in groups.values() for row in group)
    return (it for it in found if known.issuperset(it[0]))


for example in of_documents() if sys.argv[1:] == ['pages'] else of_paragraphs():
    print(json.dumps(example))
