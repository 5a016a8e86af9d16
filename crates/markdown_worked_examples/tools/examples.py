#!/usr/bin/env python3
"""Writes the theorems of the files in tools/rules: specs/Examples.antt, and their proof. In proofs/Computed.antt it names the unfoldable definitions of
`markdown_model`.

Run it in the crate's folder. It computes lines, columns and link numbers by itself, from the documents. A file of tools/rules has rows, each a worked example:

    text|string [words] «document» [pieces]: answer
    label|title|destination|spacing|bounded|data [commonmark] [min=N] [max=N] [linked] [upto=MARKERS] «document»: answer, or no
    counts [words] «document»: runs, pairs, bound
    looks [words] «document»: runs that may open, runs that may close, sharper bound

The second form is one construct, read at the document's start: the answer shows it alone; `linked` says that it is part of a text that is read later, and
`commonmark` asks for CommonMark's rules of a label or a title. The
last two say how many runs and pairs all containers of a text have, and the bounds on its probes. A row that begins with another word is read by
tools/data.py of markdown_test_runs alone.

The words turn options on or off: gfm, math, first (the first paragraph of a list item), shortcut, lengths, references, commonmark, no-single-tilde, no-single-dollar, no-SWITCH for
each switch, definition=IDENTIFIER, footnote=IDENTIFIER, and outer: the answer shows the outermost events alone. In a document ␊ ␍ ␉ ␋ ␀ stand for LF, CR, TAB,
U+000B and NUL, ␠ for a space at an end, ⟦x×n⟧ for x written n times, and ⟦U+n⟧ for the character with that number. A piece is START-END; without one the
content is the whole document. An index is a byte, or a byte and the codes of its tab before the place, as 0.2.

An answer lists events: a name, the place of its Enter and that of its Exit, and in brackets those inside it. Raw stands for a destination without angle
brackets and all events inside it; LabelLink and LabelEnd hold a LabelMarker of the same place. The linked leaves in the text of a reference, a title or a
destination are one chain.

Behind the rows stand changes of the rules, which the rows refuse; tools/proofs/definitions-are-pinned of the repository says how they are written."""
import os, re

HERE = os.path.dirname(os.path.dirname(os.path.abspath(__file__)))
SYMBOLS = {'␊': '\n', '␍': '\r', '␉': '\t', '␀': '\0', '␠': ' ', '␋': '\v'}
RULES = os.path.join(HERE, 'tools', 'rules')
RUNS = {'text', 'string', 'counts', 'looks'}
READINGS = {'label', 'title', 'destination', 'spacing', 'bounded', 'data'}
CHAINED = {'ReferenceString', 'ResourceTitleString', 'ResourceDestinationString'}
GFM = ['gfm_autolink_literal', 'gfm_label_start_footnote', 'gfm_strikethrough', 'gfm_task_list_item']
OPTIONS = {'single_tilde': 'gfm_strikethrough_single_tilde', 'single_dollar': 'math_text_single_dollar',
           'lengths': 'attention_first_lengths', 'shortcut': 'label_shortcut_before_bracket', 'references': 'html_references', 'commonmark': 'commonmark'}
WORDS = {'gfm': ['%s = true' % name for name in GFM], 'math': ['math_text = true'],
         'first': ['first_of_item = true'], 'shortcut': ['shortcut = true'], 'lengths': ['lengths = true'],
         'references': ['references = true'], 'commonmark': ['commonmark = true'],
         'no-single-tilde': ['single_tilde = false'], 'no-single-dollar': ['single_dollar = false']}


def plain(text):
    text = re.sub(r'⟦(.*?)×(\d+)⟧', lambda m: m.group(1) * int(m.group(2)), text)
    text = re.sub(r'⟦U\+([0-9A-F]+)⟧', lambda m: chr(int(m.group(1), 16)), text)
    return ''.join(SYMBOLS.get(c, c) for c in text)


def place(text):
    index, _, inside = text.partition('.')
    return int(index), int(inside or 0)


def points(data):
    """Line and column of each place, an index and the codes of its tab before it."""
    at, line, column, i = {}, 1, 1, 0
    while i <= len(data):
        at[(i, 0)] = (line, column)
        if i == len(data):
            break
        if data[i] in (10, 13):
            i += 2 if data[i:i + 2] == b'\r\n' else 1
            line, column = line + 1, 1
        elif data[i] == 9:
            width = 4 - (column - 1) % 4
            for k in range(width):
                at[(i, k)] = (line, column + k)
            i, column = i + 1, column + width
        else:
            i, column = i + 1, column + 1
    return at


def parsed(text):
    """A list of (name, start, end, children); children are None where none are written."""
    tokens = re.findall(r'[A-Za-z]+ [\d.]+-[\d.]+|[\[\],]', text)
    def row():
        out = []
        while tokens and tokens[0] != ']':
            token = tokens.pop(0)
            if token == ',':
                continue
            name, span = token.split(' ')
            start, end = map(place, span.split('-'))
            children = None
            if tokens and tokens[0] == '[':
                tokens.pop(0)
                children = row()
                assert tokens.pop(0) == ']'
            out.append(expanded(name, start, end, children))
        return out
    return row()


def expanded(name, start, end, children):
    if name == 'Raw':
        inside = None
        for inner in ('Data', 'ResourceDestinationString', 'ResourceDestinationRaw', 'ResourceDestination'):
            inside = [(inner, start, end, inside)]
        return inside[0]
    if name in ('LabelLink', 'LabelEnd') and children is None:
        return name, start, end, [('LabelMarker', start, end, None)]
    return name, start, end, children


def events(row, at, number=0, chained=False):
    """The event terms, with the numbers of the events on a chain."""
    out, enters, n = [], [], number
    sizes = []
    for tree in row:
        inside = events(tree[3] or [], at, n + 1, tree[0] in CHAINED)
        sizes.append((n, inside))
        n += 2 + len(inside)
    numbers = [first for first, _ in sizes]
    for i, (name, start, end, _) in enumerate(row):
        where = lambda p: '%d %d %d %d' % (at[p] + p)
        if chained:
            link = lambda k: '(Some %d)' % numbers[k] if 0 <= k < len(numbers) else 'None'
            out.append('chained Name.%s %s %s %s' % (name, where(start), link(i - 1), link(i + 1)))
        else:
            out.append('enter Name.%s %s' % (name, where(start)))
        out += sizes[i][1]
        out.append('exit Name.%s %s' % (name, where(end)))
    return out


def listed(terms):
    return ' ∷ '.join(terms + ['[]'])


def literal(data):
    if all(32 <= b < 127 for b in data):
        return 'codes "%s"' % data.decode().replace('\\', '\\\\').replace('"', '\\"')
    return listed([str(b) for b in data])


def divided(line):
    """The parts of an example: how it is read, its words, the document, the pieces and the answer."""
    kind, words, document, pieces, answer = re.fullmatch(r'([a-z]+) ?(.*?)«(.*)»(.*?):(.*)', line).groups()
    return kind, words.split(), document, pieces.split(), answer


def settings(words):
    """The fields that the words set, the identifiers that they define, and whether the outermost events are asked for."""
    fields, definitions, footnotes, outer = [], [], [], False
    for word in words:
        if word == 'outer':
            outer = True
        elif word.startswith('definition='):
            definitions.append(plain(word[11:]).encode())
        elif word.startswith('footnote='):
            footnotes.append(plain(word[9:]).encode())
        elif word in WORDS:
            fields += WORDS[word]
        elif turns_off(word):
            fields = [f for f in fields if not f.startswith(word[3:] + ' ')] + ['%s = false' % word[3:]]
        else:
            assert re.fullmatch('[a-z_]+', word), word
            fields.append('%s = true' % word)
    return fields, definitions, footnotes, outer


def turns_off(word):
    """Whether the word turns a construct off. Each word that is not known otherwise names a construct; the check refuses others."""
    return word not in WORDS and re.fullmatch('no-[a-z_]+', word) is not None


def setting(fields, definitions, footnotes):
    """The term of a setting: the default one, but for these fields of its options, of their constructs, and of itself."""
    own, options, constructs = [], [], []
    for field in fields:
        name, value = field.split(' = ')
        if name == 'first_of_item':
            own.append(field)
        elif name in OPTIONS:
            options.append('%s = %s' % (OPTIONS[name], value))
        else:
            constructs.append(field)
    if constructs:
        options.insert(0, 'constructs = record default_constructs { %s }' % '; '.join(constructs))
    if options:
        own.insert(0, 'options = record default_options { %s }' % '; '.join(options))
    for field, names in (('definitions', definitions), ('footnotes', footnotes)):
        if names:
            own.append('%s = %s' % (field, listed(['(%s)' % literal(n) for n in names])))
    return 'record default { %s }' % '; '.join(own) if own else 'default'


def ends_of(pieces, data):
    """Where the pieces start and end: without one the content is the whole document."""
    return [tuple(map(place, p.split('-'))) for p in pieces] or [((0, 0), (len(data), 0))]


def statement(line):
    kind, words, document, pieces, answer = divided(line)
    data = plain(document).encode()
    if kind in READINGS:
        link = 'linked' in words
        wanted = 'None' if answer == ' no' else 'Some (%s)' % listed(events(parsed(answer), points(data), 0, link))
        given = dict(word.split('=', 1) for word in words if '=' in word)
        before = ''
        if kind in ('label', 'title'):
            before = ' true' if 'commonmark' in words else ' false'
        if kind in ('spacing', 'bounded'):
            before = ' (Some Content.String)' if link else ' None'
        if kind == 'bounded':
            before += ' %s %s' % (given.get('min', 0), given.get('max', 2 ** 64 - 1))
        if kind == 'data':
            before = ' (%s)' % literal(plain(given['upto']).encode())
        return '%s_answer%s (%s) ≡ %s' % (kind, before, literal(data), wanted)
    fields, definitions, footnotes, outer = settings(words)
    row = setting(fields, definitions, footnotes)
    content = listed(['piece %d %d %d %d' % (a + b) for a, b in ends_of(pieces, data)])
    if kind in ('counts', 'looks'):
        return '%s_answer (%s) (%s) (%s) ≡ (%s)' % (kind, row, literal(data), content, ' ∷ '.join(answer.split() + ['[]']))
    function = kind + ('_outline' if outer else '_answer')
    return '%s (%s) (%s) (%s) ≡ (%s)' % (function, row, literal(data), content, listed(events(parsed(answer), points(data))))


def groups_of(path):
    """The examples of a list, by the names of its groups."""
    groups, name = {}, None
    for line in open(path, encoding='utf-8').read().split('\n'):
        if line.startswith('== '):
            name = line[3:]
            groups[name] = []
        elif name and line and not line.startswith('#'):
            groups[name].append(line)
    return groups


def rules():
    """The blocks of each file of rules, by its name: those that are theorems, in the order of these, and then new ones."""
    with open(os.path.join(HERE, 'specs/Examples.antt'), encoding='utf-8') as file:
        order = re.findall(r'(?m)^abbrev pub (\w+) : Type 0', file.read())
    names = sorted(name[:-4] for name in os.listdir(RULES) if name.endswith('.txt'))
    found = {}
    for name in [name for name in order if name in names] + [name for name in names if name not in order]:
        with open(os.path.join(RULES, name + '.txt'), encoding='utf-8') as file:
            found[name] = [[line for line in block.split('\n') if line] for block in file.read().split('\n\n')]
    return found


def is_change(block):
    return any(line.startswith('file:') for line in block)


def rows():
    """The rows of each file of rules, by its name."""
    return {name: [line for block in blocks if not is_change(block) for line in block if not line.startswith('#')] for name, blocks in rules().items()}


def worked_examples():
    """The rows that are theorems."""
    return {name: [line for line in lines if divided(line)[0] in RUNS | READINGS] for name, lines in rows().items()}


def snake(name):
    return re.sub('(?<!^)([A-Z])', r'_\1', name).lower()


def computed():
    """Names in proofs/Computed.antt what each file there of the definitions lets unfold."""
    path = os.path.join(HERE, 'proofs/Computed.antt')
    with open(path, encoding='utf-8') as file:
        text = file.read()
    use = re.compile(r'use Rattle\.markdown_model\.specs\.(\w+)\.\{(.*)\}\n')
    listed = [name for names in use.findall(text) for name in names[1].split(', ')]
    unfolded = re.search(r'(?m)^unfolding (.*)$', text).group(1).split()
    names = [name for name in unfolded if name not in listed]

    def now(found):
        with open(os.path.join(HERE, '../markdown_model/specs/%s.antt' % found.group(1)), encoding='utf-8') as file:
            own = re.findall(r'(?m)^ *unfoldable pub (\S+) :', file.read())
        before = found.group(2).split(', ')
        own = [name for name in before if name in own] + [name for name in own if name not in before]
        names.extend(own)
        return 'use Rattle.markdown_model.specs.%s.{%s}\n' % (found.group(1), ', '.join(own))
    text = use.sub(now, text)
    text = re.sub(r'(?m)^unfolding .*$', lambda found: 'unfolding ' + ' '.join(names), text)
    with open(path, 'w', encoding='utf-8') as file:
        file.write(text)


def main():
    computed()
    groups, spec, proof = worked_examples(), [], []
    for name, lines in groups.items():
        spec += ['', 'abbrev pub %s : Type 0' % name, '%s =' % name]
        for number, line in enumerate(lines, 1):
            spec += ['    -- ' + line, '    (%s)%s' % (statement(line), ' ×' if number < len(lines) else '')]
        proof += ['', '%s : %s' % (snake(name), name), 'unfolding computed', '%s = (%s)' % (snake(name), ', '.join(['refl'] * len(lines)))]
    spec += ['', '-- all of them', 'abbrev pub Examples : Type 0', 'Examples =', '    ' + ' ×\n    '.join(groups)]
    write('specs/Examples.antt', imports(SPEC_USES, spec) + spec)
    write('proofs/examples/Answers.antt',
          ['use Rattle.std.proofs.Common.{refl}', 'use Rattle.markdown_worked_examples.proofs.Computed.{computed}',
           'use Rattle.markdown_worked_examples.specs.Examples.{%s}' % ', '.join(groups), 'use Rattle.markdown_worked_examples.proofs.examples.Goals as goal', '',
           '-- Both sides of each example compute to one list.'] + proof[1:]
          + ['', 'pub returns : goal.returns', 'returns c = (%s)' % ', '.join(map(snake, groups))])


SPEC_USES = [
    ('Rattle.std.specs.Prelude', ['◌≡◌', 'true', 'false', '[]', '◌∷◌', 'codes', 'Some', 'None']),
    ('Rattle.markdown_content.specs.DefaultOptions', ['default_constructs', 'default_options']),
    ('Rattle.markdown_event.specs.declared.event.Name', ['Name']),
    ('Rattle.markdown_event.specs.declared.event.Content', ['Content']),
    ('Rattle.markdown_worked_examples.specs.ExampleNotation', ['default', 'piece', 'enter', 'exit', 'chained', 'text_answer', 'text_outline', 'string_answer', 'string_outline', 'label_answer', 'title_answer', 'destination_answer', 'spacing_answer', 'bounded_answer', 'data_answer', 'counts_answer', 'looks_answer']),
]


def imports(uses, lines):
    """The imports of which the lines, comments left out, name something."""
    text = '\n'.join(line for line in lines if not line.startswith('--'))
    out = []
    for module, names in uses:
        used = [n for n in names if re.search(r'(?<![\w])%s(?![\w])' % re.escape(n.strip('◌')), text)]
        if used:
            out.append('use %s.{%s}' % (module, ', '.join(used)))
    return out


def write(path, lines):
    path = os.path.join(HERE, path)
    os.makedirs(os.path.dirname(path), exist_ok=True)
    with open(path, 'w', encoding='utf-8') as file:
        file.write('\n'.join(['-- Worked examples, written by tools/examples.py from tools/rules.'] + lines) + '\n')


if __name__ == '__main__':
    main()
