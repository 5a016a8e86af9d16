#!/usr/bin/env python3
"""Reads contents that are parted by blank lines, so many times with the Python package, as calls.c does from C; with `html` it makes HTML of all of them.

usage: calls.py REPEATS [html] < CONTENTS"""
import sys

from markdown_inline.inline import Content, htmls, text

document = sys.stdin.read().rstrip('\n')
contents = document.split('\n\n')
for _ in range(int(sys.argv[1])):
    if sys.argv[2:] == ['html']:
        at, pieces = 0, []
        for content in contents:
            pieces.append(Content([(at, at + len(content))]))
            at += len(content) + 2
        htmls(document, pieces, rules='crate')
    else:
        for content in contents:
            text(content, rules='crate')
