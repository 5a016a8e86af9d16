#!/usr/bin/env python3
"""Writes stdin and stdout: the cases of this crate and the worked examples, and what has to be found in each.

Run it in the crate's folder. What it reads are tools/cases.txt, tools/calls.txt, the rows of markdown_worked_examples/tools/rules, and the parts that
texts are drawn from in tools/parts.txt; src/main.rt says what it writes."""
import os, re, sys

HERE = os.path.dirname(os.path.dirname(os.path.abspath(__file__)))
WORKED = os.path.join(HERE, '..', 'markdown_worked_examples', 'tools')
PARTS = os.path.join(HERE, 'tools', 'parts.txt')
sys.path.insert(0, WORKED)
sys.dont_write_bytecode = True
import examples

# What a reader reads too.
READ_WHOLE = ['escape', 'attention', 'link']
PROGRAMS = ['program', 'broken', 'slow', 'narrow', 'mute', 'wordless']
OWN = {'unlabelled': ['no-attention', 'no-label_end', 'no-label_start_image', 'no-label_start_link'],
       'notes': ['gfm_label_start_footnote', 'gfm_strikethrough']}
ESCAPES = {'\\': '\\\\', '\n': '\\n', '\r': '\\r', '\t': '\\t', '\0': '\\0'}
REFUSED = [' no text', ' no content']
# How texts are read whose runs are paired in two ways.
RUNS = ['gfm_autolink_literal', 'gfm_label_start_footnote', 'gfm_strikethrough']
# Of what the counts of a case are, beside its bound on the probes.
COUNTED = {'counts': ('runs', 'pairs'), 'looks': ('open', 'close')}
DEFINED = ['definition=a', 'footnote=*a*']
CHOICES = [[], RUNS, RUNS + ['lengths'], RUNS + ['no-single-tilde']]
# How many texts are drawn, by which seed, of fewer than how many steps each, what they are read with, and what is drawn beside the parts. That they are read
# alike is proved; the rows test the two compilers.
DRAWN, SEED, STEPS = 200, 1, 32
DRAWN_WITH = [[], RUNS, RUNS + ['math_text'], RUNS + ['math_text', 'gfm_task_list_item', 'first'], RUNS + ['lengths']]
DRAWN_DEFINED = ['definition=a', 'definition=é', 'footnote=a', 'footnote=é']
WORDS = ['a_b', 'a_b_c', '_a_b', 'a_b_', 'a__b_c', '1_é', 'www.a_b']

def escaped(text):
    return ''.join(ESCAPES.get(c, c) for c in text)


def parts(text):
    """The document's parts, each with how often it stands there."""
    for token in re.split(r'(⟦.*?×\d+⟧)', text):
        found = re.fullmatch(r'⟦(.*?)×(\d+)⟧', token)
        if found:
            yield examples.plain(found.group(1)), int(found.group(2))
        elif token:
            yield examples.plain(token), 1


def document_fields(text):
    for part, times in parts(text):
        yield from ['times=%d' % times] if times > 1 else []
        yield 'document=' + escaped(part)


def piece_fields(pieces, data):
    ends = [] if pieces == ['none'] else examples.ends_of(pieces, data)
    return ['piece=%d.%d-%d.%d' % (a + b) for a, b in ends]


def word_fields(words):
    """What the words turn on and off, what they define, and whether the outermost events are asked for."""
    own = [more for word in words for more in OWN.get(word, [word])]
    switched, definitions, footnotes, outer = examples.settings(own)
    fields = [('+' if value == 'true' else '-') + examples.OPTIONS.get(name, name) for name, value in (f.split(' = ') for f in switched)]
    fields += ['definition=' + escaped(name.decode()) for name in definitions]
    fields += ['footnote=' + escaped(name.decode()) for name in footnotes]
    return fields + ['depth=1'] * outer


def bound_fields(kind, words, answer):
    """The bounds on the probes of a case that has them."""
    if kind == 'counts':
        return ['least=' + answer.split()[1], 'most=' + answer.split()[2]]
    if kind == 'looks':
        return ['most=' + answer.split()[2]]
    bounds = [word[7:].split('-') for word in words if word.startswith('probes=')]
    return ['%s=%s' % pair for low, high in bounds for pair in (('least', low), ('most', high))]


def point(words):
    line, column, index, inside = words
    return '%s:%s:%s:%s' % (line, column, index, inside)


def printed_event(term):
    """An event term of examples.py, as the program prints it."""
    words = re.sub(r'\(Some (\d+)\)', r'\1', term).replace('None', '-').split()
    sign = '-' if words[0] == 'exit' else '+'
    chain = ':String:%s:%s' % tuple(words[6:]) if words[0] == 'chained' else ''
    return ' %s%s %s%s' % (sign, words[1].replace('Name.', ''), point(words[2:6]), chain)


def printed_events(text, at, linked=False):
    return ''.join(map(printed_event, examples.events(examples.parsed(text), at, 0, linked)))


def printed_line(term):
    """An event term of examples.py, as a line of the program mdinline."""
    words = re.sub(r'\(Some (\d+)\)', r'\1', term).replace('None', '-').split()
    kind = 'Exit' if words[0] == 'exit' else 'Enter'
    chain = ' link String ' + ' '.join(words[6:]) if words[0] == 'chained' else ''
    return '%s %s %s%s;' % (kind, words[1].replace('Name.', ''), ' '.join(words[2:6]), chain)


def printed_leaf(text, at):
    """A leaf: its name, its places, and the codes and bytes that it lends."""
    name, places, lent = text.split()
    start, end = (point(at[p] + p) for p in map(examples.place, places.split('-')))
    return ' %s %s-%s %s' % (name, start, end, lent)


def has_blank_line(data, pieces):
    """Whether a line of the content is blank: that is no text, and of such a worked example only the definition has an answer."""
    ends = [] if pieces == ['none'] else examples.ends_of(pieces, data)
    content = b''.join(data[start:end + (inside > 0)] for (start, _), (end, inside) in ends)
    return content != b'' and any(not line.strip(b' \t') for line in re.split(b'\r\n|\r|\n', content))


def run_case(kind, words, document, pieces, answer):
    """A whole run."""
    data = examples.plain(document).encode()
    at = examples.points(data)
    asked = [w for w in words if w not in ('leaves', 'lists') and not w.startswith('probes=')]
    fields = word_fields(asked) + ['+' + w for w in ('leaves', 'lists') if w in words]
    fields += bound_fields(kind, words, answer) + piece_fields(pieces, data) + list(document_fields(document))
    if kind == 'text' and has_blank_line(data, pieces):
        answer = REFUSED[0]
    if answer in REFUSED:
        found = answer
    elif kind in COUNTED:
        found = ' %s %s, %s %s, within' % (answer.split()[0], COUNTED[kind][0], answer.split()[1], COUNTED[kind][1])
    elif 'leaves' in words:
        found = ''.join(printed_leaf(leaf, at) for leaf in answer.split(','))
    else:
        found = printed_events(answer, at) + ' within' * any(w.startswith('probes=') for w in words)
    return [kind] + fields, found


def construct_case(kind, words, document, pieces, answer):
    """A single construct: its events, how many starts of labels are open then, and where it ends."""
    data = examples.plain(document)
    bounds = [word for word in words if word.startswith(('least=', 'most='))]
    fields = word_fields([word for word in words if word not in bounds]) + bounds
    fields += piece_fields(pieces, data.encode()) + list(document_fields(document))
    events, _, rest = answer.partition(';')
    trees = examples.parsed(events)
    passed = len(data[:1].encode()) if kind == 'spacing' else 0
    rest = rest or ' starts 0 at %d' % (trees[-1][2][0] if trees else passed)
    opened = ' +LabelLink 1:1:0:0' if kind.endswith('end') else ''
    linked = kind == 'linked' and data[:1] == '\n'
    held = (' no' if events.startswith(' no') else ' holds') + opened
    return [kind] + fields, held + printed_events(events, examples.points(data.encode()), linked) + ';' + rest


def size(trees):
    """How many trees there are."""
    return sum(1 + size(inside or []) for _, _, _, inside in trees)


def pair_cases(words, document, pieces):
    """A text of the list whose runs are paired in two ways."""
    own = [word for word in words if word != 'each']
    for choice in CHOICES if 'each' in words else [own or RUNS]:
        fields = word_fields(choice + DEFINED * (own == []))
        yield ['equal'] + fields + piece_fields(pieces, examples.plain(document).encode()) + list(document_fields(document)), ' equal'


def likeness_case(kind, words, document, pieces, answer):
    """The same of a text that has an answer: with its own words, but for those that turn a construct off. Where the answer shows all events, their
    number is expected too."""
    data = examples.plain(document).encode()
    count = size(examples.parsed(answer)) if kind == 'text' else 0
    said = ' equal'
    if has_blank_line(data, pieces):
        said, count = REFUSED[0], 0
    words = [word for word in words if not word.startswith('probes=')]
    own = [word for word in words if not examples.turns_off(word) and word != 'outer']
    rest = piece_fields(pieces, data) + list(document_fields(document))
    if kind == 'text' and own == words:
        return ['count'] + word_fields(own) + rest, '%s, %d events' % (said, 2 * count)
    return ['equal'] + word_fields(own) + rest, said


def passes_cases(kind, words, document, pieces, answer):
    """A text or a string whose passes are called one by one. Of a string all events are to be shown."""
    if kind != 'string':
        yield likeness_case(kind, words, document, pieces, answer)
    elif 'outer' not in words:
        yield passes_case(words, document, pieces, answer)


def passes_case(words, document, pieces, answer):
    """A string whose passes are called one by one."""
    fields = word_fields(words) + piece_fields(pieces, examples.plain(document).encode()) + list(document_fields(document))
    return ['passes'] + fields, ' equal, %d events' % (2 * size(examples.parsed(answer)))


def lines_of_data(data):
    """A leaf of data for each line, and one for each line ending but the last, where each is one byte."""
    return ', '.join('%s %d-%d' % ('LineEnding' if byte == 10 else 'Data', at, at + 1) for at, byte in enumerate(data[:-1]))


def program_case(kind, words, document, answer):
    """A run of the program: its status, how many bytes it writes, and what it writes."""
    data = examples.plain(document).encode()
    own = [word for word in words if word == 'flushes' or word.startswith(('most=', 'fault='))]
    fields = ['+' * (word == 'flushes') + word for word in own]
    fields += ['word=' + escaped(examples.plain(word).replace('∅', '')) for word in words if word not in own]
    said, _, left = answer.partition('; left ')
    status, line = 0, ''
    if said.startswith(' status '):
        status, _, line = said[8:].partition(' ')
        written, told = '', line + ';' * (line != '')
    else:
        trees = lines_of_data(data) if said == ' lines' else said
        written = ''.join(map(printed_line, examples.events(examples.parsed(trees), examples.points(data))))
        told = ''
    found = ' status %s bytes %d errors %d %s' % (status, len(written.encode()), len(told), written + told)
    return [kind] + fields + list(document_fields(document)), found + (' left ' + left if left else '')


def own_cases(line):
    """The cases of a line of this crate's list."""
    kind, words, document, pieces, answer = examples.divided(line)
    if kind == 'pairs':
        yield from pair_cases(words, document, pieces)
    elif kind == 'passes':
        yield passes_case(words, document, pieces, answer)
    elif kind in ('met', 'named'):
        fields = word_fields(words) + piece_fields(pieces, examples.plain(document).encode()) + list(document_fields(document))
        yield [kind] + fields, answer.replace(',', '')
    elif kind == 'value':
        yield [kind] + list(document_fields(document)), ' ' + escaped(examples.plain(answer[1:]))
    elif kind == 'steady':
        yield [kind] + piece_fields(pieces, examples.plain(document).encode()) + list(document_fields(document)), answer
    elif kind == 'rules':
        yield [kind] + word_fields(words), answer
    elif kind == 'edits':
        yield [kind], printed_events(answer, examples.points(b'')) + ', none left'
    elif kind in PROGRAMS:
        yield program_case(kind, words, document, answer)
    elif kind in examples.RUNS:
        yield run_case(kind, words, document, pieces, answer)
        if 'leaves' not in words and 'lists' not in words and answer not in REFUSED and kind not in COUNTED:
            yield from passes_cases(kind, words, document, pieces, answer)
    else:
        yield construct_case(kind, words, document, pieces, answer)
        if kind in READ_WHOLE:
            yield construct_case('whole' + kind, words, document, pieces, answer)


def worked_cases(line):
    """The cases of a worked example: of a single construct only where it asks for nothing else."""
    kind, words, document, pieces, answer = examples.divided(line)
    if kind == 'bounded' and 'linked' not in words:
        bounds = [word.replace('min=', 'least=').replace('max=', 'most=') for word in words]
        yield construct_case('space', bounds, document, pieces, answer)
    elif kind in ('label', 'title', 'destination'):
        yield construct_case(kind, words, document, pieces, answer)
    elif kind not in examples.READINGS:
        yield run_case(kind, words, document, pieces, answer)
        yield from passes_cases(kind, words, document, pieces, answer)


def parts_to_draw():
    """What texts are drawn from, by what it is. No part holds a line ending."""
    found = {'part': [[word] for word in WORDS]}
    with open(PARTS, encoding='utf-8', newline='') as file:
        for line in file.read().split('\n'):
            kind, *fields = line.split('\t')
            if kind in ('pair', 'part', 'more', 'check', 'ending'):
                found.setdefault(kind, []).append([examples.plain(field) for field in fields])
    return found


def numbers(seed):
    """Numbers of 31 bits without an order, the same for a seed wherever this runs."""
    while True:
        seed = (seed * 6364136223846793005 + 1442695040888963407) % 2**64
        yield seed >> 33


def drawn_text(draw, parts):
    """A text whose constructs may be opened, closed, cut short and mixed. No line of it is blank: an ending stands between two letters."""
    def below(bound):
        return next(draw) % bound

    def one_of(kind):
        return parts[kind][below(len(parts[kind]))]

    text, closers = one_of('check')[0] if below(8) == 0 else '', []
    for _ in range(below(STEPS)):
        step = below(16)
        if step < 3:
            opening, closing = one_of('pair')
            text, closers = text + opening, closers + [closing]
        elif step < 6 and closers:
            text += closers.pop(below(len(closers)) if step == 5 else -1)
        elif step == 6:
            text += 'a' + one_of('ending')[0] + 'b'
        elif step < 9:
            text += one_of('more')[0]
        else:
            text += one_of('part')[0]
    return text if text.strip(' \t') else 'a' + text


def drawn_cases():
    """Different texts that are drawn, each of which is to be read alike by its run and by its passes."""
    draw, parts, texts = numbers(SEED), parts_to_draw(), {}
    while len(texts) < DRAWN:
        texts.setdefault(drawn_text(draw, parts), DRAWN_WITH[next(draw) % len(DRAWN_WITH)])
    for text, words in texts.items():
        yield ['drawn'] + word_fields(words + DRAWN_DEFINED) + ['piece=0.0-%d.0' % len(text.encode()), 'document=' + escaped(text)], ' equal'


def call_case(state, line):
    """A single call, and what is answered here."""
    kind, *fields = line.split('\t')
    found = [field.split('=', 1)[1] for field in fields if field.startswith(('crate=', 'here='))]
    return [kind, 'state=' + state] + fields[:-len(found)], found[-1]


def write(cases):
    """Each case once."""
    cases = dict(('\t'.join(fields), fields[0] + found) for fields, found in cases)
    for name, lines in (('stdin', cases.keys()), ('stdout', cases.values())):
        with open(os.path.join(HERE, name), 'w', encoding='utf-8', newline='') as file:
            file.write(''.join(line + '\n' for line in lines))


def main():
    own = examples.groups_of(os.path.join(HERE, 'tools', 'cases.txt'))
    worked = examples.worked_examples()
    cases = [case for group in worked.values() for line in group for case in worked_cases(line)]
    cases += [case for name, group in examples.rows().items() for line in group if line not in worked[name] for case in own_cases(line)]
    states = examples.groups_of(os.path.join(HERE, 'tools', 'calls.txt'))
    calls = [call_case(state, line) for state, lines in states.items() for line in lines]
    write(cases + [case for group in own.values() for line in group for case in own_cases(line)] + calls + list(drawn_cases()))


if __name__ == '__main__':
    main()
