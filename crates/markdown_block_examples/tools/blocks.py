#!/usr/bin/env python3
"""Writes the theorems of the rows in tools/standard.txt and tools/choices.txt: specs/StandardBlocks.antt and specs/ChosenBlocks.antt, and their proofs.

Run it in the crate's folder, and `rt fmt` after it. A row is a document and its blocks, of which those inside a container stand in brackets:

    «document»: BLOCK, BLOCK, ..

    break                                 a thematic break
    heading LEVEL «text»                  a heading
    text «text»                           a paragraph
    code «lines»                          indented code, without blank lines at its end
    fenced «info string» «lines»          fenced code
    html «lines»                          HTML
    quote [..]                            a block quote
    item MARKER tight|loose [..]          a list item: `-`, `+` or `*`, or a number and its delimiter; and whether its list is loose so far
    definition «label» «destination» [«title»]
    table ALIGNMENT.. [«cell» ..] ..      a table: its columns, and its rows, the header first
    math «info string» «lines»            math
    matter «lines»                        front matter
    note «label» [..]                     a footnote definition

Definitions stand behind all blocks. Blank lines, and paragraphs of definitions alone, are not shown. In a document and in a text ␊ ␍ ␉ ␋ ␀ stand for LF, CR,
TAB, U+000B and NUL, ⟦x×n⟧ for x written n times, and ⟦U+n⟧ for the character with that number. A line '== Name' begins a group of rows. A line that begins
with `#` is no row."""
import os, re, sys

HERE = os.path.dirname(os.path.dirname(os.path.abspath(__file__)))
sys.dont_write_bytecode = True
sys.path.insert(0, os.path.join(HERE, '../markdown_worked_examples/tools'))
from examples import groups_of, listed, literal, plain, snake

TOKEN = r'«[^»]*»|\[|\]|,|[^\s«»\[\],]+'
FILES = {'StandardBlocks': ('standard.txt', 'standard_blocks', 'The blocks of the examples of CommonMark'),
         'ExtendedBlocks': ('extended.txt', 'extended_blocks', 'Blocks of GFM, math and front matter'),
         'ChosenBlocks': ('choices.txt', 'chosen_blocks', "What CommonMark's examples do not show of blocks")}
USES = [('Rattle.std.specs.Prelude', ['◌≡◌', 'true', 'false', '[]', '◌∷◌', 'codes', 'Some', 'None']),
        ('Rattle.markdown_block_model.specs.BlockTree', ['bullet', 'ordered', 'unaligned', 'left', 'right', 'center']),
        ('Rattle.markdown_block_examples.specs.BlockNotation', ['break', 'head', 'text', 'code', 'fenced', 'markup', 'in_quote', 'in_item', 'in_note', 'grid', 'math', 'matter', 'extended_answer', 'end', 'defined', 'blocks_answer'])]


def bytes_of(token):
    return '(%s)' % literal(plain(token[1:-1]).encode())


def blocks(tokens):
    """The terms of siblings, and of what is inside them, in order."""
    terms = []
    while tokens and tokens[0] != ']':
        word = tokens.pop(0)
        if word == 'break':
            terms.append('break')
        elif word == 'heading':
            terms.append('head %s %s' % (tokens.pop(0), bytes_of(tokens.pop(0))))
        elif word in ('text', 'code', 'html'):
            terms.append('%s %s' % ({'html': 'markup'}.get(word, word), bytes_of(tokens.pop(0))))
        elif word in ('fenced', 'math'):
            terms.append('%s %s %s' % (word, bytes_of(tokens.pop(0)), bytes_of(tokens.pop(0))))
        elif word == 'matter':
            terms.append('matter %s' % bytes_of(tokens.pop(0)))
        elif word == 'table':
            columns, rows = [], []
            while tokens[0] != '[':
                columns.append(tokens.pop(0))
            while tokens and tokens[0] == '[':
                tokens.pop(0)
                rows.append([])
                while tokens[0] != ']':
                    rows[-1].append(bytes_of(tokens.pop(0)))
                tokens.pop(0)
            terms.append('grid (%s) (%s)' % (listed(columns), listed(['(%s)' % listed(row) for row in rows])))
        elif word == 'definition':
            label, destination = bytes_of(tokens.pop(0)), bytes_of(tokens.pop(0))
            title = '(Some %s)' % bytes_of(tokens.pop(0)) if tokens and tokens[0][0] == '«' else 'None'
            terms.append('defined %s %s %s' % (label, destination, title))
        elif word in ('quote', 'item', 'note'):
            begun = 'in_quote'
            if word == 'note':
                begun = 'in_note %s' % bytes_of(tokens.pop(0))
            if word == 'item':
                marker, loose = tokens.pop(0), tokens.pop(0)
                kind = 'ordered %d %s' % (ord(marker[-1]), marker[:-1]) if marker[:-1] else 'bullet %d' % ord(marker)
                begun = 'in_item (%s) %s' % (kind, {'tight': 'false', 'loose': 'true'}[loose])
            assert tokens.pop(0) == '['
            terms += [begun, *blocks(tokens), 'end']
            assert tokens.pop(0) == ']'
        else:
            assert word == ',', word
    return terms


def divided(row):
    """The document of a row, and its blocks."""
    return re.fullmatch(r'«([^»]*)»: ?(.*)', row).groups()


def statement(row, function='blocks'):
    document, answer = divided(row)
    return '%s_answer %s ≡ (%s)' % (function, bytes_of('«%s»' % document), listed(blocks(re.findall(TOKEN, answer))))


def rows():
    """The rows of each file, by groups."""
    return {name: groups_of(os.path.join(HERE, 'tools', file)) for name, (file, _, _) in FILES.items()}


def imports(lines):
    """The imports of which the lines, comments left out, name something."""
    body = '\n'.join(line for line in lines if not line.lstrip().startswith('--'))
    for module, names in USES:
        used = [name for name in names if re.search(r'(?<![\w.])%s(?![\w])' % re.escape(name.strip('◌')), re.sub('"[^"]*"', '', body))]
        if used:
            yield 'use %s.{%s}' % (module, ', '.join(used))


def write(path, lines):
    path = os.path.join(HERE, path)
    os.makedirs(os.path.dirname(path), exist_ok=True)
    with open(path, 'w', encoding='utf-8') as file:
        file.write('\n'.join(lines) + '\n')


def main():
    for name, groups in rows().items():
        _, function, title = FILES[name]
        spec, proof = [], []
        for group, lines in groups.items():
            spec += ['', 'abbrev pub %s : Type 0' % group, '%s =' % group]
            for number, line in enumerate(lines, 1):
                spec += ['    -- ' + line, '    (%s)%s' % (statement(line, 'extended' if name == 'ExtendedBlocks' else 'blocks'), ' ×' if number < len(lines) else '')]
            proof += ['', '%s : %s' % (snake(group), group), 'unfolding blocks_computed', '%s = (%s)' % (snake(group), ', '.join(['refl'] * len(lines)))]
        spec += ['', '-- all of them', 'abbrev pub %s : Type 0' % name, '%s =' % name, '    ' + ' ×\n    '.join(groups)]
        write('specs/%s.antt' % name, ['-- %s, written by tools/blocks.py from tools/%s.' % (title, FILES[name][0]), *imports(spec), *spec])
        write('proofs/%s/Answers.antt' % function,
              ['-- %s: both sides of each row compute to one list. Written by tools/blocks.py.' % title, 'use Rattle.std.proofs.Common.{refl}',
               'use Rattle.markdown_block_examples.proofs.BlocksComputed.{blocks_computed}',
               'use Rattle.markdown_block_examples.specs.%s.{%s}' % (name, ', '.join(groups)),
               'use Rattle.markdown_block_examples.proofs.%s.Goals as goal' % function, *proof,
               '', 'pub returns : goal.returns', 'returns c = (%s)' % ', '.join(map(snake, groups))])


if __name__ == '__main__':
    main()
