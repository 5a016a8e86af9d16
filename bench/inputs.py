"""What is measured: prose that is drawn by a seed, each construct alone, and patterns that parsers are known to be slow on.

An input is a text and the definitions that it is read with, as pairs of an identifier and a destination. No text has a blank
line, and each begins with a letter, so that a parser of whole documents reads it as a paragraph (some lines of HTML aside,
which such a parser takes for a block).
"""
import random
import re

WORDS = ('the of and to in is that it was for on are as with his they be at one have this from or had by not but what some we can '
         'out other were all your when up use word how said an each she which do their time if will way about many then them would '
         'write like so these her long make thing see him two has look more day could go come did my sound no most number who over '
         'know water than call first people may down side been now find any new work part take get place made live where after back '
         'little only round man year came show every good me give our under name very through just form much great think say help '
         'low line before turn cause same mean differ move right boy old too does tell sentence set three want air well also play '
         'small end put home read hand port large spell add even land here must big high such follow act why ask men change went '
         'light kind off need house picture try us again animal point mother world near build self earth father').split()


class Input:
    def __init__(self, text, definitions=()):
        self.text = text if text[:1].isalpha() else 'a ' + text
        self.definitions = list(definitions)

    def words(self):
        """The definitions as words of our program."""
        return ['label=' + name for name, _ in self.definitions]

    def document(self):
        """The text with its definitions behind it, as other programs read them."""
        lines = ''.join('[%s]: %s\n' % pair for pair in self.definitions)
        return self.text + ('\n\n' + lines if lines else '\n')


# What stands before each line where each is a piece, and how many characters a line has behind it.
PREFIX, WIDTH = '> ', 7
# A label without brackets, and how many of them are defined.
LABEL, MOST_DEFINED = re.compile(r'\[([^][]+)]'), 16


def identifier(text):
    """The identifier of a label's text."""
    return ' '.join(text.split()).casefold()


def word_of(name):
    """An identifier as a word of `bench_counts`: behind a caret a footnote's."""
    return 'note=' + name[1:] if name.startswith('^') else name


def labels(text):
    """Definitions of the first labels of a text."""
    names = dict.fromkeys(identifier(name) for name in LABEL.findall(text))
    return [(word_of(name), '/c') for name in list(names)[:MOST_DEFINED] if name]


def fronts(text):
    """A definition that begins as the label of a text's first start does, and goes on to the end of the text."""
    _, start, inside = text.partition('[')
    return [(word_of(identifier(inside) + 'bb'), '/c')] if start else []


class Way:
    """A way to draw a pattern for `bench_counts`: as it is or in short lines, each behind the prefix of a block quote and a piece by itself; with its own
    definitions or with those that match; and by CommonMark's rules or not."""
    def __init__(self, name, matching=None, commonmark=False, lines=False):
        self.name, self.matching, self.lines = name, matching, lines
        self.commonmark = commonmark
        self.words = ['commonmark'] * commonmark + ['cut=%d' % len(PREFIX)] * lines

    def drawn(self, text, definitions):
        """The text drawn so, and its definitions. By CommonMark's rules a label has no prefixes in it."""
        content = text
        if self.lines:
            lines = [line[at:at + WIDTH] for line in text.split('\n') for at in range(0, len(line), WIDTH)]
            content = '\n'.join(line for line in lines if line.strip())
            text = PREFIX + content.replace('\n', '\n' + PREFIX)
        return text, self.matching(content if self.commonmark else text) if self.matching else list(definitions)


WAYS = [Way('as it is')] + [
    Way(name + (', a piece a line' if lines else '') + (', by CommonMark' if commonmark else ''), matching, commonmark, lines)
    for name, matching in (('labels defined', labels), ('fronts defined', fronts)) for lines in (False, True) for commonmark in (False, True)
]


def lines_of(parts, size, width=72):
    """Lines of the parts, up to so many bytes in all. No line is blank, and none ends with a space."""
    lines, line, total = [], [], 0
    for part in parts:
        line.append(part)
        length = sum(map(len, line)) + len(line)
        if length >= width:
            lines.append(' '.join(line))
            total += length
            line = []
            if total >= size:
                break
    return '\n'.join(lines)


def words(draw):
    while True:
        yield draw.choice(WORDS)


def phrase(draw, most):
    return ' '.join(draw.choice(WORDS) for _ in range(draw.randint(1, most)))


MARKUP = [
    (6, lambda d: '*%s*' % phrase(d, 3)),
    (4, lambda d: '**%s**' % phrase(d, 3)),
    (2, lambda d: '_%s **%s** %s_' % (phrase(d, 2), phrase(d, 2), phrase(d, 1))),
    (5, lambda d: '`%s`' % phrase(d, 2)),
    (5, lambda d: '[%s](/%s)' % (phrase(d, 3), phrase(d, 1))),
    (2, lambda d: '[%s](</%s> "%s")' % (phrase(d, 3), phrase(d, 2), phrase(d, 3))),
    (2, lambda d: '[*%s* %s](/%s)' % (phrase(d, 1), phrase(d, 2), phrase(d, 1))),
    (2, lambda d: '[%s][ref]' % phrase(d, 2)),
    (1, lambda d: '[ref]'),
    (2, lambda d: '![%s](/%s.png)' % (phrase(d, 2), phrase(d, 1))),
    (2, lambda d: '<http://%s.org/%s>' % (phrase(d, 1), phrase(d, 1))),
    (1, lambda d: '<%s@%s.org>' % (phrase(d, 1), phrase(d, 1))),
    (2, lambda d: '<b class="%s">%s</b>' % (phrase(d, 1), phrase(d, 2))),
    (2, lambda d: '&amp;'),
    (1, lambda d: '&#8212;'),
    (2, lambda d: '\\*%s\\*' % phrase(d, 1)),
    (1, lambda d: 'snake_case_%s' % phrase(d, 1)),
]
TEXT_WEIGHT = 90


def markup(draw):
    weights = [weight for weight, _ in MARKUP] + [TEXT_WEIGHT]
    makers = [maker for _, maker in MARKUP] + [lambda d: d.choice(WORDS)]
    while True:
        yield draw.choices(makers, weights)[0](draw)


DEFINED = [('ref', '/url')]


def prose(size, seed):
    """Prose with much inline markup, and words alone."""
    return [
        ('prose with much inline markup', Input(lines_of(markup(random.Random(seed)), size), DEFINED)),
        ('plain prose', Input(lines_of(words(random.Random(seed)), size))),
    ]


# Each construct alone: what stands again and again between words.
CONSTRUCTS = [
    ('emphasis', '*a b*'),
    ('strong emphasis', '**a b**'),
    ('nested emphasis', '***a** b*'),
    ('strikethrough', '~~a b~~'),
    ('code span', '`a b`'),
    ('math span', '$a b$'),
    ('link with resource', '[a b](/c "d")'),
    ('link by reference', '[a b][ref]'),
    ('image', '![a b](/c)'),
    ('autolink', '<http://a.b/c>'),
    ('email autolink', '<a.b@c.de>'),
    ('HTML', '<a b="c">'),
    ('HTML comment', '<!-- a b -->'),
    ('escape', '\\*'),
    ('named reference', '&amp;'),
    ('numeric reference', '&#8212;'),
    ('literal', 'www.a.de/b'),
    ('literal with protocol', 'http://a.de/b'),
    ('email literal', 'a.b@c.de'),
]


def constructs(size):
    found = []
    for name, part in CONSTRUCTS:
        line = ' '.join(['word', part] * (72 // (len(part) + 6) + 1))
        count = size // (len(line) + 1) + 1
        found.append((name, Input('\n'.join([line] * count), DEFINED)))
    count = size // 8 + 1
    found.append(('hard break', Input('\n'.join(['word  ', 'word\\'] * (count // 2)) + '\na')))
    found.append(('line ending', Input('\n'.join(['a'] * (size // 2)))))
    return found


def again(part):
    """A part again and again."""
    return lambda size: Input(part * (size // len(part) + 1))


def rows(*parts):
    """Parts in a row, each as often as the others."""
    def made(size):
        count = size // sum(map(len, parts)) + 1
        return Input(''.join(part * count for part in parts))
    return made


def around(before, part, after, definitions=()):
    """A part again and again, with a text before and one behind."""
    return lambda size: Input(before + part * (size // len(part) + 1) + after, definitions)


def nested(before, middle, after, definitions=()):
    """A middle with as many openings before as closings behind."""
    def made(size):
        count = size // (len(before) + len(after)) + 1
        return Input(before * count + middle + after * count, definitions)
    return made


def growing_runs(size):
    """Runs of grave accents of the lengths 1, 2, 3 .., each before an `a`."""
    parts, total, length = [], 0, 1
    while total < size:
        parts.append('`' * length + 'a')
        total += length + 1
        length += 1
    return Input('a ' + ''.join(parts))


def long_label(size):
    """Brackets around an `a`, and a definition that is as long as the content."""
    count = size // 2 + 1
    return Input('[' * count + 'a' + ']' * count, [('b' * count, '/c')])


def long_front(size):
    """Nested brackets, and one definition that begins as they do."""
    count = size // 2 + 1
    return Input('[' * count + 'a' + ']' * count, [('[' * count + 'b', '/c')])


def many_definitions(size):
    """As many references as definitions, all different."""
    names = ['b%d' % i for i in range(size // 10 + 1)]
    return Input(' '.join('[a][%s]' % name for name in names), [(name, '/c') for name in names])


def closed_path(size):
    """A path of parentheses that are closed again."""
    count = size // 2 + 1
    return Input('a http://a/' + '(' * count + ')' * count + 'b')


def tag_of_lines(size):
    """One tag with an attribute in each line."""
    return Input('a <a' + '\nb="c"' * (size // 6 + 1) + '>')


ONE = [('a', '/b')]


def code(part):
    """A part as it is written in a page."""
    return '`` %s ``' % part if '`' in part else '`%s`' % part


# An opening that is repeated, and the one end after all of them.
ONE_END = [
    ('[', ']'), ('[a', '](b)'), ('![', ']'), ('![a', '](b)'), ('[^', ']'), ('[a](', ')'), ('[a](<', '>)'), ('[a](b "', '")'), ('[a][', ']'),
    ('*a ', '*'), ('a **b ', '**'), ('_a ', '_'), ('~a ', '~'), ('` ``a ', '`'), ('$ $$a ', '$'),
    ('<', '>'), ('<a', '>'), ('</a ', '>'), ('<a b="', '">'), ('<ab:', '>'), ('<a@', '>'), ('&', ';'), ('&#', ';'), ('&a', ';'), ('www.', ')'),
]

# Patterns by their group: what stands again and again, or how it is made.
PATTERNS = [
    ('text', [
        ('`a`', again('a')),
        ('words', lambda size: Input(lines_of(words(random.Random(1)), size))),
        ('`a` and a line ending', lambda size: Input('\n'.join(['a'] * (size // 2)))),
        ('a space', around('a', ' ', 'b')),
        ('NUL', again('\0')),
        ('`é`', lambda size: Input('é' * (size // 2))),
    ]),
    ('escapes, references, spans', [
        ('`\\`', again('\\')),
        ('`&`', again('&')),
        ('`&amp`', again('&amp')),
        ('`&amp;`', again('&amp;')),
        ('`&#`', again('&#')),
        ('`` `a` ``', again('`a` ')),
        ('runs of 1, 2, 3 .. grave accents, each before an `a`', growing_runs),
        ('``\\``a``', again('\\``a')),
        ('`$a$`', again('$a$ ')),
        ('``\\$$a``', again('\\$$a')),
    ]),
    ('autolinks and HTML', [
        ('`<`', again('<')),
        ('`<a`', again('<a')),
        ('`<a@b.c`', again('<a@b.c')),
        ('`<ab:`', again('<ab:')),
        ('`<!--`', again('<!--')),
        ('`<!--`, then one `-->`', around('', '<!--', '-->')),
        ('`<!---`', again('<!---')),
        ('`<!---`, then one `-->`', around('', '<!---', '-->')),
        ('`<!--` and a line ending', around('a', '\n<!--', '')),
        ('`<!--` and a line ending, then one `-->`', around('a', '\n<!--', '-->')),
        ('`<?`', again('<?')),
        ('`<?`, then one `?>`', around('', '<?', '?>')),
        ('`<!a`', again('<!a')),
        ('`<!a`, then one `>`', around('', '<!a', '>')),
        ('`<![CDATA[`', again('<![CDATA[')),
        ('`<![CDATA[`, then one `]]>`', around('', '<![CDATA[', ']]>')),
        ('`<a b="`', again('<a b="')),
        ("`<a b='x' `", again("<a b='x' ")),
        ('`</a `', again('</a ')),
        ('one tag with an attribute in each line', tag_of_lines),
    ]),
    ('emphasis', [
        ('`*`', again('*')),
        ('`*a `', again('*a ')),
        ('`*a_b `', again('*a_b ')),
        ('`**a* `', again('**a* ')),
        ('`_a__b `', again('_a__b ')),
        ('`~a~~b `', again('~a~~b ')),
        ('`*****a `', again('*****a ')),
        ('`*a* `', again('*a* ')),
        ('`*a **a `', again('*a **a ')),
        ('`a_`', again('a_')),
        ('`a_w.`', again('a_w.')),
        ('`a_ `', again('a_ ')),
        ('`_a `', again('_a ')),
        ('`*a_ `', again('*a_ ')),
        ('`a**b` and as many `c* `', rows('a**b', 'c* ')),
        ('`*a **a ` and as many ` b** b*`', rows('*a **a ', ' b** b*')),
    ]),
    ('emphasis in the text of a link', [
        ('`*a `', around('[', '*a ', 'b](c)')),
        ('`*a_b `', around('[', '*a_b ', 'b](c)')),
        ('`**a* `', around('[', '**a* ', 'b](c)')),
        ('`_a__b `', around('[', '_a__b ', 'b](c)')),
        ('`~a~~b `', around('[', '~a~~b ', 'b](c)')),
        ('`*****a `', around('[', '*****a ', 'b](c)')),
        ('`*****`', around('[', '*****', 'b](c)')),
        ('`[*a](b) `', again('[*a](b) ')),
    ]),
    ('links and images', [
        ('`[`', again('[')),
        ('`[a`', again('[a')),
        ('`a]`', again('a]')),
        ('`[ a_`', again('[ a_')),
        ('`[` and as many `[a](b)`', rows('[', '[a](b)')),
        ('`[a](b)`', again('[a](b)')),
        ('`![a](b)`', again('![a](b)')),
        ('`![a](`', again('![a](')),
        ('`[a](<b`', again('[a](<b')),
        ('`[a](b "c`', again('[a](b "c')),
        ('`[a](b (c `', again('[a](b (c ')),
        ('`[a](b (c`', again('[a](b (c')),
        ('`[a](b (c `, then one `)`', around('', '[a](b (c ', ')')),
        ('`[a](b (c `, then `) x ))`', around('', '[a](b (c ', ') x ))')),
        ('`[a][b`', again('[a][b')),
        ('`[a](b\\)`', again('[a](b\\)')),
        ('`[ (](`', again('[ (](')),
        ('`![[]()`', again('![[]()')),
        ('`[` .. `a` `]` .., nothing defined', nested('[', 'a', ']')),
        ('`[` .. `a` `]` .., `a` defined', nested('[', 'a', ']', ONE)),
        ('`[` .. `a` `]` .., a definition as long as the content', long_label),
        ('`[` .. `a` `]` .., a definition of as many `[` and a `b`', long_front),
        ('`[a` and a line ending .. `b` `]` ..', nested('[a\n', 'b', ']')),
        ('`[^a` and a line ending .. `b` `]` ..', nested('[^a\n', 'b', ']')),
        ('`![` .. `a` `](b)` ..', nested('![', 'a', '](b)')),
        ('`![` .. `a` `](b` ..', nested('![', 'a', '](b')),
        ('`[a][b0] [a][b1] ..`, all defined', many_definitions),
        ('`[^`', again('[^')),
        ('`[^a]`', again('[^a]')),
    ]),
    ('literals', [
        ('`http://a.`', again('http://a.')),
        ('`www.a&a`', again('www.a&a')),
        ('`a@b.`', again('a@b.')),
        ('`a@`', again('a@')),
        ('`_`, and one `@`', around('', '_', '@')),
        ('`.`, and one `@`', around('', '.', '@')),
        ('`www.a`, then `.` again and again, then `b`', around('www.a', '.', 'b')),
        ('`www.a`, then `)` again and again, then `b`', around('www.a', ')', 'b')),
        ('`www.a`, then `&amp;` again and again, then `b`', around('www.a', '&amp;', 'b')),
        ('`www.a`, then `&a` again and again, then `b`', around('www.a', '&a', 'b')),
        ('`www.a`, then `).&amp;?]` again and again, then `b`', around('www.a', ').&amp;?]', 'b')),
        ('`http://a/`, then `.` again and again, then `b`', around('http://a/', '.', 'b')),
        ('`http://a/`, then `)` again and again, then `b`', around('http://a/', ')', 'b')),
        ('`http://a/`, then `&amp;` again and again, then `b`', around('http://a/', '&amp;', 'b')),
        ('`http://a/`, then `).&amp;?]` again and again, then `b`', around('http://a/', ').&amp;?]', 'b')),
        ('`http://a/`, `(` and as many `)`, then `b`', closed_path),
        ('`www.a/`, then `&a;` again and again', around('www.a/', '&a;', '')),
        ('`a@b.c`', again('a@b.c ')),
        ('`mailto:`', again('mailto:')),
        ('`xmpp:a@b.c/.`', again('xmpp:a@b.c/.')),
        ('`xmpp:a@b.c/`, then `.` again and again, then `d`', around('xmpp:a@b.c/', '.', 'd')),
        ('`a@b`, then `.b-` again and again', around('a@b', '.b-', '')),
        ('`_www.`', again('_www.')),
    ]),
    ('one long line of openings, then at most one end', [
        *[('%s, then one %s' % tuple(map(code, pair)), around('', *pair)) for pair in ONE_END],
        ('`:`', again(':')),
        ('`.`', again('.')),
        ('`a:`', again('a:')),
        ('`a.`', again('a.')),
        ('`://`', again('://')),
        ('`@.`', again('@.')),
        ('`http:`', again('http:')),
        ('`&#x`', again('&#x')),
        ('`&a`', again('&a')),
        ('`<a b`', again('<a b')),
        ("`<a b='`", again("<a b='")),
        ('`<a b=c `', again('<a b=c ')),
        ('`</a`', again('</a')),
        ('`<a/`', again('<a/')),
        ('`[a](b` and a space', again('[a](b ')),
        ("`[a](b '`", again("[a](b '")),
        ('`[a](<b\\>`', again('[a](<b\\>')),
        ('`[a](b(`', again('[a](b(')),
        ('openings of all kinds', again('*[`<&_![<a b="$:~~[^www.&#\\http://a@[a](<!--')),
        ('openings of all kinds, then `]`', around('', '*[<&_![<a b:~~[^www.&#http://a@', ']')),
    ]),
]

# What ends a construct that stands open, and how long the patterns are made that are read as contents.
ENDS = ('`', '$', '-->', '?>', ']]>', '>', '">', ')', '")', "')", '>)', ') )', '](b)', ']', '][a]', '*', '_')
LENGTHS = (1, 8, 40, 200)
# How many of the last bytes are left out of what is to stand open, at most.
LEFT_OUT = 11


def other_text(size):
    """A text of so many bytes that is no content, since it has a blank line: to stand before contents of one document."""
    line = 'words of another paragraph, and more of these\n'
    return 'a\n \n' + line * (size // len(line)) + '\n'


def contents(made, count):
    """So many contents of a pattern, short and long: as it is, with its last bytes left out, so that what it ends stands open, and with an end behind;
    and the definitions that they are read with."""
    given = [made(length) for length in LENGTHS]
    found = []
    for number in range(count):
        turn, text = number // len(LENGTHS), given[number % len(LENGTHS)].text
        if turn % 3 == 1:
            text = text[:max(1, len(text) - 1 - turn // 3 % LEFT_OUT)].rstrip('\n')
        elif turn % 3 == 2:
            text += ENDS[turn // 3 % len(ENDS)]
        found.append(text)
    return found, given[-1].definitions
