"""Writes each document of the rows of markdown_page_examples, which has the examples of CommonMark, into a file of its own.

usage: page_files.py FOLDER"""
import os
import sys

sys.dont_write_bytecode = True
sys.path.insert(0, os.path.join(os.path.dirname(os.path.abspath(__file__)), '../../crates/markdown_page_examples/tools'))
import pages  # noqa: E402

os.makedirs(sys.argv[1], exist_ok=True)
rows = [row for groups in pages.rows().values() for group in groups.values() for row in group]
for number, row in enumerate(rows):
    with open(os.path.join(sys.argv[1], '%d.md' % number), 'wb') as file:
        file.write(pages.read(row)[1].encode())
