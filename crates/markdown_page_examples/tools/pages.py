#!/usr/bin/env python3
"""Writes the theorems of the rows in tools/standard.txt and tools/choices.txt: specs/StandardPages.antt and specs/ChosenPages.antt, and their proofs.

Run it in the crate's folder, and `rt fmt` after it. A row of tools/choices.txt is a document and its HTML:

    [lf|crlf|safe] [option ..] «document»: «HTML»

Without a word the HTML is written as in the standard: HTML stays HTML, links lead anywhere, and line endings are kept. With `lf` or `crlf` each line ending
is of that kind. With `safe` HTML is text, and links lead to listed schemes. The document is read by CommonMark, changed by the options that are named: each is
a definition of specs/PageNotation.antt, such as `tasks`.

The documents of tools/standard.txt are those of markdown_block_examples: the n-th line is the HTML of its n-th row. How a text is written, the head of
blocks.py there says. A line '== Name' begins a group of rows, and a line that begins with `#` is no row.

`tools/pages.py SPEC` writes tools/standard.txt anew, from the text of the specification, `spec.txt`."""
import os, re, sys

HERE = os.path.dirname(os.path.dirname(os.path.abspath(__file__)))
sys.dont_write_bytecode = True
sys.path.insert(0, os.path.join(HERE, '../markdown_block_examples/tools'))
import blocks
from blocks import bytes_of, groups_of, plain, snake
from examples import imports

FILES = {'StandardPages': ('standard.txt', 'standard_pages', 'The HTML of the examples of CommonMark'),
         'ChosenPages': ('choices.txt', 'chosen_pages', "What CommonMark's examples do not show of HTML")}
# What an option is called in rows.
OPTIONS = ['strikethrough', 'two_tildes', 'bare_urls', 'tasks', 'math', 'two_dollars', 'front_matter', 'calls', 'crate_rules']
USES = [('Rattle.std.specs.Prelude', ['◌≡◌', '[]', '◌∷◌', 'codes']),
        ('Rattle.markdown_page_examples.specs.PageNotation', ['standard', 'page_answer', 'page_by', 'lf_answer', 'lf_by', 'crlf_answer', 'crlf_by', 'safe_answer', 'safe_by', *OPTIONS])]
HEAD = '''# The HTML of the examples of the CommonMark Spec %s by John MacFarlane, under CC BY-SA 4.0 (LICENSE-EXAMPLES). The n-th line is the HTML of example n, whose
# document is the n-th row of standard.txt in markdown_block_examples. tools/pages.py writes it from the specification's text.
'''
EXAMPLE = re.compile(r'^`{32} example\n(.*?)^\.\n(.*?)^`{32}$', re.M | re.S)
# What version 0.31.2 changed: the number of an example of 0.30, and its HTML by that version.
CHANGED = {625: '<p>foo <!-- not a comment -- two hyphens --></p>\n', 626: '<p>foo <!--> foo --&gt;</p>\n<p>foo <!-- foo---></p>\n'}
ROW = re.compile('((?:\\w+ )*)«([^»]*)»: «([^»]*)»')
SIGNS = {'\n': '␊', '\t': '␉'}


def shown(text):
    """A text as rows have it."""
    return ''.join(SIGNS.get(c) or ('⟦U+%X⟧' % ord(c) if c in '«»' or c.isspace() and c != ' ' else c) for c in text)


def write_standard(path):
    """Writes tools/standard.txt from the specification, by the groups of the documents."""
    with open(path, encoding='utf-8') as file:
        spec = file.read()
    found = [(given.replace('→', '\t'), wanted.replace('→', '\t')) for given, wanted in EXAMPLE.findall(spec)]
    lines, number = [HEAD % re.search(r"^version: '?(.*?)'?$", spec, re.M).group(1)], 0
    for name, rows in groups_of(os.path.join(HERE, '../markdown_block_examples/tools/standard.txt')).items():
        lines.append('\n== %s\n' % name)
        for row in rows:
            given, wanted = found[number]
            number += 1
            if plain(blocks.divided(row)[0]) != given:
                sys.exit('example %d has another document: %s' % (number, row))
            lines += ['# by 0.31.2, which changed comments\n'] if number in CHANGED else []
            lines.append('«%s»\n' % shown(CHANGED.get(number, wanted)))
    if number != len(found):
        sys.exit('there are %d examples' % len(found))
    with open(os.path.join(HERE, 'tools/standard.txt'), 'w', encoding='utf-8') as file:
        file.write(''.join(lines))


def standard_rows():
    """The rows of the standard, by groups, whose names say that they are pages."""
    documents = groups_of(os.path.join(HERE, '../markdown_block_examples/tools/standard.txt'))
    answers = groups_of(os.path.join(HERE, 'tools/standard.txt'))
    if [(name, len(rows)) for name, rows in documents.items()] != [(name, len(rows)) for name, rows in answers.items()]:
        sys.exit('the HTML of some example is missing')
    return {'PagesOf' + name: ['«%s»: %s' % (blocks.divided(row)[0], answer) for row, answer in zip(rows, answers[name])] for name, rows in documents.items()}


def rows():
    """The rows of each file, by groups."""
    return {'StandardPages': standard_rows(), 'ChosenPages': groups_of(os.path.join(HERE, 'tools/choices.txt'))}


def read(row):
    """The words of a row, its document and its HTML."""
    words, document, html = ROW.fullmatch(row).groups()
    return words.split(), plain(document), plain(html)


def statement(row):
    words, document, html = ROW.fullmatch(row).groups()
    written, options = [word for word in words.split() if word not in OPTIONS], 'standard'
    for option in reversed([word for word in words.split() if word in OPTIONS]):
        options = '(%s %s)' % (option, options)
    how = '_answer' if options == 'standard' else '_by ' + options
    return '%s%s %s ≡ %s' % (''.join(written) or 'page', how, bytes_of('«%s»' % document), bytes_of('«%s»' % html))


def main():
    if len(sys.argv) == 2:
        write_standard(sys.argv[1])
    for name, groups in rows().items():
        file, function, title = FILES[name]
        spec, proof = [], []
        for group, lines in groups.items():
            spec += ['', 'abbrev pub %s : Type 0' % group, '%s =' % group]
            for number, line in enumerate(lines, 1):
                spec += ['    -- ' + line, '    (%s)%s' % (statement(line), ' ×' if number < len(lines) else '')]
            proof += ['', '%s : %s' % (snake(group), group), 'unfolding page_computed', '%s = (%s)' % (snake(group), ', '.join(['refl'] * len(lines)))]
        spec += ['', '-- all of them', 'abbrev pub %s : Type 0' % name, '%s =' % name, '    ' + ' ×\n    '.join(groups)]
        write('specs/%s.antt' % name, ['-- %s, written by tools/pages.py from tools/%s.' % (title, file), *imports(USES, spec), *spec])
        write('proofs/%s/Answers.antt' % function,
              ['-- %s: both sides of each row compute to one list. Written by tools/pages.py.' % title, 'use Rattle.std.proofs.Common.{refl}',
               'use Rattle.markdown_page_examples.proofs.PageComputed.{page_computed}',
               *['use Rattle.markdown_page_examples.specs.%s.{%s}' % (name, ', '.join(list(groups)[at:at + 10])) for at in range(0, len(groups), 10)],
               'use Rattle.markdown_page_examples.proofs.%s.Goals as goal' % function, *proof,
               '', 'pub returns : goal.returns', 'returns c = (%s)' % ', '.join(map(snake, groups))])


def write(path, lines):
    path = os.path.join(HERE, path)
    os.makedirs(os.path.dirname(path), exist_ok=True)
    with open(path, 'w', encoding='utf-8') as file:
        file.write('\n'.join(lines) + '\n')


if __name__ == '__main__':
    main()
