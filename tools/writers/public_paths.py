"""Which states and passes a caller of markdown_inline cannot name, and which public items no program names: for tools/writers/write-lists and write-api-pages.

`write` hands on in lib.rt of markdown_inline each module that `dispatch` calls; `rt fmt` there lays out the lines.
Each state is called by its name in the `dispatch` of its family in markdown_run/src/state.rt, and each pass in that of resolve.rt. So the rows of single calls, and those of
whole runs, reach it. Its public path is the module's, then the function's: `markdown_inline::autolink::open`. That path has to lead to the function that
`dispatch` calls: lib.rt of markdown_inline hands on the module from the same crate, or from a module that hands on the function by its name.
The name of a state is that of its module without `partial_`, then that of the function, in camel case; the name of a pass is its module's.

Of each module that lib.rt hands on, or has itself, the public functions, types, constants and traits are read. Each has to be named in the sources of a program,
or of the library for C; else it stands in INNER, which says what serves other crates alone.
A type or a trait that stands in a public signature there, or in the type of a public field, has to have a path from markdown_inline too, unless it is one of
NOTES, whose values runs make themselves. The definitions and the lemmas of each crate below stand there under the crate's name. And the code of CALLER, a
program that makes each single call, names of the other crates of the repository only NOTES and READERS."""
import os
import re

CRATES = os.path.join(os.path.dirname(os.path.dirname(os.path.dirname(os.path.abspath(__file__)))), 'crates')
# Modules whose passes have another name.
PASSES = {'LabelEnd': 'Label', 'PartialData': 'Data'}
# The module under which a caller names a pass that stands in one of its own.
NAMED = {'label_groups': 'label_end'}
# The program that makes each single call.
CALLER = 'markdown_test_runs'
# The crate of the notes that scratch fields of the tokenizer hold, and that of the readers: runs alone need these, and CALLER, which tries them.
NOTES, READERS = 'markdown_notes', 'markdown_run_text'
# Public items that serve other crates alone: bytes at which states stop, what loops and passes ask, and names that are printed. Or a caller is
# answered a value of such a type, and does not name the type.
INNER = {
    'autolink': 'uri_stops uri_ends',
    'bytes': 'NO_BYTES',
    'content': 'Stretch are_between_characters are_pieces_from has_text_lines reach',
    'cursor': 'pass_filled_lines past_ordinary plain_end stands_at_ink stands_at_last_byte starting_at',
    'definitions': 'Added',
    'event': 'NAMES',
    'event_list': 'EventIter',
    'events': 'into_list',
    'html_text': 'stop_bytes is_ruled_out',
    'partial_data': 'inside_stops opens_data next_data mark',
    'partial_destination': 'stop_bytes',
    'partial_title': 'inside_stops',
    'partial_whitespace': 'data_loses is_same_place loses_first',
    'raw_text': 'is_barred data_stops',
    'seq': 'from_vec move_within',
    'subtokenize': 'Subresult',
    'tokenizer': 'starting_at',
}


# Modules of the facade that hand on the states of a construct and its pass.
FORWARDED = {'gfm_autolink_literal', 'label_end', 'partial_data'}


def source(*path):
    file = os.path.join(CRATES, *path)
    return open(file, encoding='utf-8').read() if os.path.exists(file) else ''


def handed_on(text, keyword):
    """Each name that these `use` lines bring, with the path from which."""
    found = {}
    for path, names in re.findall(r'^%s ([\w:]+)::\{([^}]*)\};' % keyword, text, re.M) + re.findall(r'^%s ([\w:]+)::(\w+);' % keyword, text, re.M):
        found.update((name, path) for name in re.findall(r'\w+', names))
    return found


def offered(text):
    """Each module of the facade: those that it hands on, and its own."""
    own = {name: 'markdown_inline' for name in re.findall(r'^pub mod (\w+);', text, re.M)}
    return {**own, **handed_on(text, 'pub use')}


def called(file):
    """The arms of `dispatch`, or of those of its families: the name, the module and the function. The last of a family stands in a comment before `_`."""
    body = source('markdown_run', 'src', file).partition('fn dispatch')[2].partition('\npub fn ')[0]
    body = re.sub(r'// \((\w+)\)\n\s*_ =>', r'StateName::\1 =>', body)
    return re.findall(r'\w+Name::(\w+) =>\s*\{?\s*(\w+)::(\w+)\(', body), len(re.findall(r'\w+Name::\w+ =>', body))


def home(path, module, function):
    """Where the function of this module of this path stands: a module that hands it on by its name passes it by."""
    path = 'markdown_run' if path == 'crate' else path
    while True:
        here = source(path.partition('::')[0], 'src', *path.split('::')[1:], module + '.rt')
        further = handed_on(here, 'pub use').get(function)
        if further is None:
            return (path, module)
        path, module = further.rpartition('::')[::2]


def camel(name):
    return ''.join(part.capitalize() for part in name.split('_'))


def faults(file, public):
    own = handed_on(source('markdown_run', 'src', file), 'use')
    arms, count = called(file)
    if not arms or len(arms) != count:
        yield '%s: %d arms, of which %d are calls' % (file, count, len(arms))
    for name, module, function in arms:
        shown = NAMED.get(module, module)
        path = 'markdown_inline::%s::%s' % (shown, function)
        if shown not in public:
            yield '%s: no such module' % path
        elif home(public[shown], shown, function) != home(own[module], module, function):
            yield '%s: another function than that of %s' % (path, name)
        wanted = camel(module.removeprefix('partial_')) + camel(function) if file == 'state.rt' else PASSES.get(camel(shown), camel(shown))
        if name != wanted:
            yield '%s: called by the name %s, not %s' % (path, name, wanted)


def write():
    """Hands on each module that a `dispatch` calls, from the crate that it is called from."""
    path = os.path.join(CRATES, 'markdown_inline', 'src', 'lib.rt')
    text = source('markdown_inline', 'src', 'lib.rt')
    for file in ('state.rt', 'resolve.rt'):
        own = handed_on(source('markdown_run', 'src', file), 'use')
        for module in sorted({module for _, module, _ in called(file)[0]} - set(offered(text)) - set(NAMED)):
            crate = 'markdown_run' if own[module] == 'crate' else own[module]
            names = sorted([module] + [name for name, home in handed_on(text, 'pub use').items() if home == crate])
            text = re.sub(r'(?m)^pub use %s::(\{[^}]*\}|\w+);\n' % crate, '', text)
            text = text.rstrip('\n') + '\npub use %s::{%s};\n' % (crate, ', '.join(names))
    with open(path, 'w', encoding='utf-8') as out:
        out.write(text)


def files(folder):
    """The sources in a folder and below."""
    return [os.path.join(place, name) for place, _, names in os.walk(folder) for name in names if name.endswith('.rt')]


def items(path, module):
    """The public items of a module and of those below it."""
    base = os.path.join(CRATES, path.partition('::')[0], 'src', *path.split('::')[1:], module)
    found = set()
    for file in [base + '.rt'] * os.path.exists(base + '.rt') + files(base):
        found.update(re.findall(r'^ *pub (?:const )?(?:fn|struct|enum|trait|const) (\w+)', source(file), re.M))
    if path == 'markdown_inline' and module in FORWARDED:
        found.update(handed_on(source('markdown_inline', 'src', module + '.rt'), 'pub use'))
    return found


def modules():
    """The modules that lib.rt of markdown_inline hands on, or has itself, each with the path of its crate."""
    lib = source('markdown_inline', 'src', 'lib.rt')
    return {**handed_on(lib, 'pub use'), **{name: 'markdown_inline' for name in re.findall(r'^pub mod (\w+);', lib, re.M)}}


def unnamed():
    """Items that no program names, and those of INNER that one does, or that are none."""
    crates = [name for name in os.listdir(CRATES) if source(name, 'src', 'main.rt')] + ['markdown_inline_c']
    words = {word for crate in crates for file in files(os.path.join(CRATES, crate, 'src')) for word in re.findall(r'\w+', re.sub(r'//.*', '', source(file)))}
    for module, path in sorted(modules().items()):
        for name in sorted((items(path, module) - words) ^ set(INNER.get(module, '').split())):
            yield 'markdown_inline::%s: %s' % (module, 'no program names %s' % name if name not in INNER.get(module, '').split() else '%s is none of INNER' % name)


def led_to(path):
    """What a path leads to: the file of a module, or that of an item with the item's name."""
    crate, *rest = path.split('::')
    folder = os.path.join(crate, 'src')
    file = os.path.join(folder, 'lib.rt')
    for at, name in enumerate(rest):
        further = handed_on(source(file), 'pub use').get(name)
        if os.path.exists(os.path.join(CRATES, folder, name + '.rt')):
            file, folder = os.path.join(folder, name + '.rt'), os.path.join(folder, name)
        elif further:
            return led_to('::'.join([re.sub(r'^crate\b', crate, further)] + rest[at:]))
        else:
            return file, name
    return file, None


def reach(file, item, found):
    """Adds to what has a path an item of a file, or all that the file has or hands on; each as a file and a name."""
    if item is not None or (file, None) in found:
        found.add((file, item))
        return
    text, crate = source(file), file.split(os.sep)[0]
    found.add((file, None))
    found.update((file, name) for name in re.findall(r'(?m)^pub (?:struct|enum|trait) (\w+)', text))
    for name in re.findall(r'(?m)^pub mod (\w+);', text):
        reach(os.path.join(re.sub(r'(/lib)?\.rt$', '', file), name + '.rt'), None, found)
    for name, path in handed_on(text, 'pub use').items():
        reach(*led_to('%s::%s' % (re.sub(r'^crate\b', crate, path), name)), found)


def signatures(text):
    """The public signatures of a file, the types of its public fields, and what its public enums and traits hold."""
    held = re.findall(r'(?m)^pub (?:enum|trait) [^{]*\{\n(.*?)^\}', text, re.S)
    return re.findall(r'(?m)^ *pub (?:const )?fn \w+(.*?)(?:\n? *\{|;|\brequires\b|\bensures\b)', text, re.S) + \
        re.findall(r'(?m)^ *pub (?:const )?\w+: (.*)', text) + [re.sub(r'\{[^{}]*\}|//.*', '', body) for body in held]


def hidden():
    """Types and traits that public signatures name, and that have no path from markdown_inline."""
    found = set()
    reach(os.path.join('markdown_inline', 'src', 'lib.rt'), None, found)
    for file in sorted(os.path.relpath(it, CRATES) for crate in {file.split(os.sep)[0] for file, _ in found} for it in files(os.path.join(CRATES, crate, 'src'))):
        crate, text = file.split(os.sep)[0], re.sub(r'(?m)^ *//.*', '', source(file))
        homes = {name: led_to('%s::%s' % (re.sub(r'^crate\b', crate, path), name)) for word in ('use', 'pub use') for name, path in handed_on(text, word).items()
                 if path.startswith(('crate', 'markdown_'))}
        homes.update((name, (file, name)) for name in re.findall(r'(?m)^pub (?:struct|enum|trait) (\w+)', text))
        # (methods of a type may stand in another file of its crate)
        if not any(it[0] == file for it in found) and not any(homes.get(name) in found for name in re.findall(r'(?m)^impl(?:<[^>]*>)? (\w+)', text)):
            continue
        for name in sorted({name for signature in signatures(text) for name in re.findall(r'\b[A-Z]\w+', signature)}):
            if name in homes and homes[name] not in found and homes[name][0].split(os.sep)[0] != NOTES:
                yield '%s: %s stands in a public signature, and has no path from markdown_inline' % (file, name)


def uses(crate):
    """The crates of the repository that a crate names in crates.txt."""
    line = re.search(r'(?m)^%s:(.*)' % crate, source('..', 'crates.txt'))[1]
    return [name for name in line.split() if os.path.exists(os.path.join(CRATES, name))]


def others():
    """Crates of the repository that the code of the program CALLER names beside those it may. Hints for the prover, in attributes, may name others."""
    for file in files(os.path.join(CRATES, CALLER, 'src')):
        code = re.sub(r'(?m)^ *(//|#\[|ghost use ).*', '', source(file))
        for name in sorted(set(re.findall(r'\b(markdown_\w+)::', code)) - {'markdown_inline', NOTES, READERS}):
            yield '%s: its code names %s beside markdown_inline' % (file, name)


def unlisted():
    """Crates below markdown_inline whose definitions or lemmas it does not hand on."""
    below = uses('markdown_inline')
    for name in below:
        below += [it for it in uses(name) if it not in below]
        for part in ('specs', 'proofs'):
            line = 'pub use Rattle.%s.%s as %s' % (name, part, name)
            if (part == 'specs' or source(name, part, 'Lib.antt')) and line not in source('markdown_inline', part, 'Lib.antt').split('\n'):
                yield 'markdown_inline/%s/Lib.antt: it lacks the line %s' % (part, line)


def lacking():
    """What a caller cannot name, and what no program names, a line each."""
    public = offered(source('markdown_inline', 'src', 'lib.rt'))
    return [fault for file in ('state.rt', 'resolve.rt') for fault in faults(file, public)] + [*unnamed(), *hidden(), *others(), *unlisted()]
