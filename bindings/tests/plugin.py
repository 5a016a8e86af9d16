"""The plugin for markdown-it-py makes the tokens that markdown-it's own inline parser makes. Without markdown-it-py nothing of it can be tried."""
import io
import os
import random
import re
import sys
import tempfile
import unittest
import unittest.mock

from markdown_inline.inline import Content, links

sys.path.insert(0, os.path.join(os.path.dirname(os.path.abspath(__file__)), '../../tools/checks'))
import rows

try:
    import markdown_it
    from markdown_it import MarkdownIt
    from markdown_it.common.utils import normalizeReference
    from markdown_inline.markdown_it import pieces_of, plugin
except ModuleNotFoundError as error:
    if error.name != 'markdown_it':
        raise
    markdown_it = MarkdownIt = normalizeReference = pieces_of = plugin = None

# The rule that joins texts, by the version of markdown-it-py.
JOINING = 'text_collapse' if MarkdownIt and 'text_collapse' in MarkdownIt().inline.ruler2.get_all_rules() else 'fragments_join'

DOCUMENTS = [
    '', 'a', 'a *b* __c__ ***d*** `e` ``f ` g`` ` ` `  `', 'é *漢* [😀](/é?ü "ñ") `日`', 'a\nb  \nc\\\nd \n  e', '<b c="d"> <!-- e --> <?f?> </g> <h\ni="j">',
    '<https://a.b/ü?c=*d*> <e@f.g>', '&amp; &copy; &#65; &#x1f600; &#0; &star; &lbrace; &nosuch; \\&star; `&amp;` &#xfdd0;', '\\* \\a \\\\ \\[b](c)',
    '[a](b) [a](<b c> "d") [a](b \'e "f"\') [a]() [a](<>) [](b) [a](\n b\n "c"\n)', '![a](b) ![*a* `b`](c "d\ne") ![![e](f)](g) [![h](i)](j) ![](k)',
    '[A b] [c][a  B] [d][] [D] ![e][d] [nothing] [*x*][d]\n\n[a b]: /1\n[d]: </2 3> "t &amp; \\*u*"\n[D]: /4', '[ẞ] [ss] [ΑΓΩ]\n\n[SS]: /1\n[αγω]: /2',
    '# a *b*\n\n> c `d`\n> e\n\n- f **g**\n  h\n\n1. i\n\n| j | *k* |\n|---|---|\n| `l` | [m](n) |\n', '~~a~~ ~b~ ~~c *d~~ e*', 'a "b" -- (c) \'d\' ...',
    '[a](javascript:b) *c*', '![a *b*](javascript:c) `d`', '<javascript:a> *b*', '[x [a](javascript:b) y](c)', '[a](javascript:b)\n\n[a]: /c', '[a [b](c)](d)',
    '[a](data:text/html,b) ok *c*\n\nanother [d](e)', 'x' * 3000 + ' *y*', '*a* ' * 40, '[a]: /b\n\n[a][a] [a][] [a]', 'a&nbsp;b \u00a0c', '**a*b*c**', '*a_b_c*',
    'a `b\n  c\td` ``e\n`` ` f ` `` ` `` `\n` > `g\né`', '> `a\n>   b` *c*\n> ``d ` ``',
]
# Without what is read in two ways: by markdown-it and CommonMark a run of grave accents that is not closed in its label, and a label before a `[` that begins
# none; by CommonMark and the library some runs of markers.
PARTS = ['a', ' ', ' b ', ' *r s* ', ' **t u** ', ' _v **w** x_ ', '`k`', '[l](m)', '![n *o*](p "q")', ']', '(c)', '](d)', '<e:f>', '<g>', '&amp;', '\n', '  \n', 'é', '漢', '[h]', '"', '&star;']

# The texts that version 2.1 of markdown-it-py reads in another way: it reads symbols and comments by version 0.30.
OTHERS = ['*£*bravo.', '*€*charlie.', 'foo <!-- this is a --\ncomment - with hyphens -->', 'foo <!--> foo -->', 'foo <!---> foo -->']


def examples():
    """The text of each row of `inline_html` by CommonMark and of the examples of its specification, and its definitions as markdown-it keeps them."""
    for line in rows.lines('inline_html', 'rows-*.txt'):
        words, text, *_ = rows.read(line)
        references, found = {}, {}
        for name, _, value in (word.decode().partition('=') for word in words):
            if name == 'define':
                found = {'title': '', 'href': ''}
                references.setdefault(normalizeReference(value), found)
            elif name in ('to', 'title'):
                found['href' if name == 'to' else name] = MarkdownIt().normalizeLink(value) if name == 'to' else value
        if b'gfm' not in words:
            yield text.decode(), references


def fixtures():
    """The documents of the files that MARKDOWN_INLINE_FIXTURES names, which tools/by-hand/try-plugin sets: fixtures of markdown-it, or examples in the form
    of CommonMark's specification. By version 0.31 a comment may have what it may not by 0.30."""
    for path in filter(None, os.environ.get('MARKDOWN_INLINE_FIXTURES', '').split(os.pathsep)):
        with open(path, encoding='utf-8') as file:
            text = file.read()
        found = re.findall(r'(?ms)^`{32} example[^\n]*\n(.*?)^\.$', text) or re.findall(r'(?ms)^\.\n(.*?)^\.\n.*?^\.$', text)
        if not found:
            raise ValueError(path + ' has no documents')
        yield from ((path, it.replace('→', '\t')) for it in found if '<!--' not in it)


# Documents in which a rule of a plugin may find something, and in which it does not.
WITH_PLUGINS = [
    'a *b* [c](d)', 'a[^1] ^[b *c*] [d](e)\n\nf *g*\n\n[^1]: h', 'a $b*c*d$ `e`\n\n*f*\n\n$$g$$', '{role}`a` *b*\n\n`c`', '{{ x }} *a*', '`a`{.b} *c*{#d} ![e](f){.g}',
    '[a]{.b} c', '- [ ] *a*\n- [x] `b`', '(a)=\n# b *c*', '| a{b} | $c$ | [^d] |\n|---|---|---|\n| *e* | f | g |\n\n[^d]: h', '\\(a*b*\\) ``c*d*``',
]


def flat(tokens):
    """Tokens without markdown-it's texts of no characters."""
    return [(it.type, it.tag, it.nesting, it.content, sorted(it.attrs.items()), it.markup, it.info, it.level, it.meta, it.map, flat(it.children))
            for it in tokens or () if it.type != 'text' or it.content]


@unittest.skipUnless(MarkdownIt, 'markdown-it-py is not there')
class Plugin(unittest.TestCase):
    def both(self, *words, change=lambda md: None):
        plain, ours = MarkdownIt(*words), MarkdownIt(*words).use(plugin)
        change(plain)
        change(ours)
        return plain, ours

    def same(self, plain, ours, documents=DOCUMENTS):
        for it in documents:
            self.assertEqual(flat(ours.parse(it)), flat(plain.parse(it)), it)
            self.assertEqual(ours.render(it), plain.render(it))

    def test_tokens(self):
        self.assertGreater(len(DOCUMENTS), 25)
        for preset in ('commonmark', 'js-default'):
            self.same(*self.both(preset))
        self.same(*self.both('js-default', {'html': True, 'typographer': True, 'breaks': True}, change=lambda md: md.enable(['replacements', 'smartquotes'])))
        self.same(*self.both('commonmark', {'html': False}))
        self.same(*self.both('commonmark', {'store_labels': True}))

    def test_examples(self):
        plain, ours = self.both('commonmark')
        other, count = [], 0
        for count, (given, references) in enumerate(examples(), 1):
            found, wanted = (it.render(given, {'references': dict(references)}) for it in (ours, plain))
            if found != wanted:
                other.append(given)
        self.assertGreater(count, 600)
        self.assertEqual(other, OTHERS)

    def test_fixtures(self):
        for preset in ('commonmark', 'js-default', 'zero'):
            plain, ours = self.both(preset)
            for path, it in fixtures():
                self.assertEqual(flat(ours.parse(it)), flat(plain.parse(it)), (preset, path, it))

    def test_drawn(self):
        plain, ours = self.both('commonmark')
        for seed in range(150):
            draw = random.Random(seed)
            content = ''.join(draw.choice(PARTS) for _ in range(draw.choice([4, 12, 40]))) + '\n\n[h]: /i "j"'
            self.same(plain, ours, [content])

    def test_rules_that_are_off(self):
        for rule in ('emphasis', 'backticks', 'escape', 'link', 'image', 'autolink', 'html_inline', 'entity', 'strikethrough'):
            self.same(*self.both('js-default', {'html': True}, change=lambda md: md.disable(rule)))

    def handed_on(self, md, document):
        """The contents of a document that markdown-it's own parser reads, and its HTML."""
        found, real = [], md.inline.parse
        md.inline.parse = lambda content, *given: found.append(content) or real(content, *given)
        try:
            return found, md.render(document)
        finally:
            del md.inline.parse

    def test_rules_that_are_not_known(self):
        """Contents in which they may find something are read by markdown-it, with their rules."""
        def mark(state, silent):
            if state.src[state.pos] != '%':
                return False
            if not silent:
                state.push('text', '', 0).content = 'MARK'
            state.pos += 1
            return True

        document = '*a*\n\nb % *c*\n\n[d](e)'
        for change, wanted in (
            (lambda md: md.inline.ruler.push('mark', mark), ['*a*', 'b % *c*', '[d](e)']), (lambda md: md.inline.ruler.at('emphasis', mark), ['*a*', 'b % *c*', '[d](e)']),
            (lambda md: md.inline.ruler.before('link', 'myst_role', mark), []), (lambda md: md.inline.ruler2.push('mark', lambda state: None), ['*a*', 'b % *c*', '[d](e)']),
            (lambda md: md.inline.ruler2.at('emphasis', lambda state: None), ['*a*', 'b % *c*', '[d](e)']), (lambda md: md.inline.ruler2.disable('emphasis'), ['*a*', 'b % *c*', '[d](e)']),
            (lambda md: md.inline.ruler2.disable('balance_pairs'), ['*a*', 'b % *c*', '[d](e)']), (lambda md: md.disable('text'), ['*a*', 'b % *c*', '[d](e)']),
            (lambda md: md.disable('newline'), ['*a*', 'b % *c*', '[d](e)']), (lambda md: md.disable('link'), ['*a*', 'b % *c*', '[d](e)']),
            (lambda md: md.disable('escape'), []), (lambda md: None, []),
        ):
            plain, ours = self.both(change=change)
            found, html = self.handed_on(ours, document)
            self.assertEqual(found, wanted)
            if change.__code__.co_names[-1:] != ('before',):
                self.assertEqual(html, plain.render(document))
        # The rules are looked at where a document is read, and signs are those of a rule.
        md = MarkdownIt().use(plugin, signs={'mark': '%', 'emphasis': r'\*'})
        md.inline.ruler.push('mark', mark)
        self.assertEqual(self.handed_on(md, document), (['b % *c*'], '<p><em>a</em></p>\n<p>b MARK <em>c</em></p>\n<p><a href="e">d</a></p>\n'))
        md.inline.ruler.at('emphasis', lambda state, silent: False)
        self.assertEqual(self.handed_on(md, document), (['*a*', 'b % *c*'], '<p>*a*</p>\n<p>b MARK *c*</p>\n<p><a href="e">d</a></p>\n'))

    def test_rules_that_read_what_is_plain(self):
        for change, documents in (
            (lambda md: md.disable('escape'), ['[foo][ref\\[]\n\n[ref\\[]: /a', '\\*a*']), (lambda md: md.disable('link'), ['![[a](b)](c)', '[a](b) ![c](d)']),
            (lambda md: md.inline.ruler2.disable(JOINING), ['a*b', '*a* b_']), (lambda md: md.inline.ruler2.disable('strikethrough'), ['~~a~~ *b*']),
            (lambda md: None, ['x ~~~a~~~', '~~~~a~~ b']),
        ):
            self.same(*self.both('js-default', change=change), documents)

    def test_images_in_images(self):
        """The renderer calls itself for an image, so markdown-it's parser reads those that stand too deep in each other."""
        for words, deepest in ((('commonmark',), 20), (('js-default',), 100), (('commonmark', {'maxNesting': 3}), 3)):
            plain, ours = self.both(*words)
            for count in (1, deepest - 1, deepest, deepest + 1, deepest + 2, 995):
                document = '*a*\n\n' + '![' * count + 'a' + '](b)' * count
                found, html = self.handed_on(ours, document)
                self.assertEqual((bool(found), '*a*' in found), (count > deepest, False))
                if count > deepest:
                    self.assertEqual(html, plain.render(document))
                else:
                    self.assertRegex(html, r'\A<p><em>a</em></p>\n<p><img src="b" alt="a"( /)?></p>\n\Z')

    def test_addresses(self):
        """Those that are not normalized are as normalizeLink leaves them."""
        import markdown_inline.markdown_it as module
        md, draw, count = MarkdownIt(), random.Random(1), 0
        parts = ['a', 'B', '1', '-', '.', '_', '~', '/', '//', ':', 'http://', 'https://', 'HTTP://', 'mailto:', 'ftp://', '@', '?', '#', '&', '=', '%', '%20', '%2', '%zz', 'é', '"', ' ',
                 '\\', '[', ']', '(', '+', 'xn--a', 'a.b', 'x' * 70, ';', "'", '|', '{', '\t', '*', '$', ',', '!']
        for _ in range(20000):
            address = ''.join(draw.choice(parts) for _ in range(draw.choice([1, 2, 3, 5, 8])))
            if module._NORMAL.fullmatch(address):
                count += 1
                self.assertEqual(md.normalizeLink(address), address)
        self.assertGreater(count, 2000)
        self.assertTrue(module._NORMAL.fullmatch('https://a.example.org/b/c.html?d=e&f=%20#g'))

    def test_specials(self):
        """As version 3 of markdown-it-py wants them: a token for each escape and each reference, which a later rule joins."""
        if 'text_join' in MarkdownIt().core.ruler.get_all_rules():
            self.skipTest('markdown-it-py joins them itself')

        def text_join(state):
            for token in state.tokens:
                joined = []
                for it in token.children or ():
                    specials.append((it.type, it.content, it.markup, it.info))
                    it.type, it.markup, it.info = ('text', '', '') if it.type == 'text_special' else (it.type, it.markup, it.info)
                    if it.type == 'text' and joined and joined[-1].type == 'text':
                        joined[-1].content += it.content
                    else:
                        joined.append(it)
                if token.type == 'inline':
                    token.children = joined

        documents = ['a \\* b &amp; c \\q *d \\_ e*', '[\\]](b) &#x41;', '\\"a\\"']
        plain, ours = self.both(change=lambda md: md.core.ruler.push('text_join', text_join))
        specials = []
        self.same(plain, ours, documents)
        specials = []
        ours.parse('a \\* b &amp;\\é')
        self.assertEqual(specials, [('text', 'a ', '', ''), ('text_special', '*', '\\*', 'escape'), ('text', ' b ', '', ''), ('text_special', '&', '&amp;', 'entity'),
                                    ('text_special', '\\é', '\\é', 'escape')])

    def test_linkify_of_later_versions(self):
        """A rule of this name in the inline parser reads what has a scheme, if the option is on."""
        for is_on in (False, True):
            md = MarkdownIt('commonmark', {'linkify': is_on}).use(plugin)
            md.inline.ruler.push('linkify', lambda state, silent: False)
            import markdown_inline.markdown_it as module
            with unittest.mock.patch.dict(module._OWN, linkify=md.inline.ruler.getRules('')[-1]):
                self.assertEqual(self.handed_on(md, 'a\n\nb http://c.d')[0], ['b http://c.d'] * is_on)

    def test_places(self):
        for document in DOCUMENTS + ['é *a* **b\n_漢_** ~~c~~ \\* &amp; `` ` `` [d *e*](f "g") ![h *i*](j)\n<k:l>  \nm\\\nn <o>p']:
            plain, ours = MarkdownIt('js-default', {'html': True}).use(plugin), MarkdownIt('js-default', {'html': True}).use(plugin, places=True)
            tokens = ours.parse(document)
            self.assertEqual([[it.content for it in token.children or ()] for token in plain.parse(document)], [[it.content for it in token.children or ()] for token in tokens])
            for token in tokens:
                if token.type == 'inline':
                    self.check_places(token.content, token.children, 0, len(token.content))
            self.assertTrue(all('markdown_inline' not in it.meta for token in plain.parse(document) for it in token.children or ()))

    def check_places(self, content, tokens, start, end):
        """The places of tokens follow each other, stand in each other, and have what the tokens say."""
        at, opened = start, []
        for it in tokens:
            if it.meta.get('markdown_inline') is None:
                # markdown-it's own parser read it.
                return
            first, last = it.meta['markdown_inline']['start'], it.meta['markdown_inline']['end']
            written = content[first:last]
            if it.nesting >= 0:
                self.assertLessEqual(at, first)
                at = first if it.nesting else last
            if it.nesting > 0:
                opened.append((first, last))
            elif it.nesting < 0:
                self.assertEqual(opened.pop(), (first, last))
                self.assertLessEqual(at, last)
                at = last
            self.assertTrue(start <= first < last <= end)
            self.assertIn(it.markup, ('autolink', it.markup[:1] and written[:len(it.markup)]))
            if it.type in ('text', 'code_inline', 'html_inline') and not set(written) & set('\\&\n'):
                self.assertIn(it.content, written)
            self.assertEqual(it.type in ('softbreak', 'hardbreak'), written.endswith('\n') and it.type != 'text')
            if it.type == 'image':
                self.assertEqual(content[first:first + 2], '![')
                self.check_places(content, it.children or (), first, last)

    def test_pieces(self):
        """What stands in the pieces of a token is what it has, and links are told by their places in the document."""
        document = '# *a* #\n\n> b [c](d)\r\n>   e\n> f  \n\n1. 1\n- é `g` \0\n\n| h | i | h |\n|---|---|---|\n| [j](k) || l\\|m |\n\nn\n=\n\n## # ##\n\n    x\n\n\to'
        tokens = MarkdownIt('js-default').parse(document)
        contents = [it.content for it in tokens if it.type == 'inline']
        found, given = pieces_of(tokens, document), document.encode()
        self.assertEqual(len(found), len(contents))
        for content, pieces in zip(contents, found):
            if 'l|m' in content:
                self.assertIsNone(pieces)
                continue
            lines = [given[it.start:it.end].decode().rstrip('\r\n').replace('\0', '\ufffd') for it in pieces]
            self.assertEqual([it.lstrip() for it in lines], [it.lstrip() for it in content.split('\n')] if content else [])
        self.assertEqual([given[:it[0].start].decode().rpartition('\n')[2] for it in found if it][:7], ['# ', '> b'[:2], '1. ', '- ', '| ', '| h | ', '| h | i | '])
        wanted = [(3, 5, 'd'), (12, 3, 'k')]
        self.assertEqual([(it.line, it.column, it.destination) for it in links(document, [Content(it) for it in found if it])], wanted)

    def test_plugins_of_others(self):
        try:
            from mdit_py_plugins import amsmath, attrs, colon_fence, deflist, dollarmath, field_list, footnote, myst_blocks, myst_role, substitution, tasklists, texmath, wordcount
        except ModuleNotFoundError:
            self.skipTest('mdit-py-plugins is not there')
        if not markdown_it.__version__.startswith('2.'):
            self.skipTest('these plugins are for version 2 of markdown-it-py')
        others = [(amsmath.amsmath_plugin,), (attrs.attrs_plugin,), (attrs.attrs_plugin, {'spans': True}), (colon_fence.colon_fence_plugin,), (deflist.deflist_plugin,), (dollarmath.dollarmath_plugin,),
                  (field_list.fieldlist_plugin,), (footnote.footnote_plugin,), (myst_blocks.myst_block_plugin,), (myst_role.myst_role_plugin,), (substitution.substitution_plugin,),
                  (tasklists.tasklists_plugin,), (wordcount.wordcount_plugin,)]
        others += [(texmath.texmath_plugin, {'delimiters': it}) for it in ('brackets', 'dollars', 'gitlab', 'julia', 'kramdown')]
        for other, *asked in others:
            for is_first in (False, True):
                plain = MarkdownIt('commonmark').enable('table').use(other, **(asked[0] if asked else {}))
                ours = MarkdownIt('commonmark').enable('table')
                for it, words in [(plugin, {}), (other, asked[0] if asked else {})][::1 - 2 * is_first]:
                    ours.use(it, **words)
                self.assertEqual([flat(ours.parse(it)) for it in WITH_PLUGINS], [flat(plain.parse(it)) for it in WITH_PLUGINS], other.__name__)
                self.assertLess(len(self.handed_on(ours, '\n\n'.join(WITH_PLUGINS))[0]), 16)

    def test_links_are_asked_for(self):
        for name, put in (('normalizeLink', lambda it: '/n/' + it), ('validateLink', lambda it: 'b' not in it), ('normalizeLinkText', lambda it: it[::-1])):
            self.same(*self.both(change=lambda md: setattr(md, name, put)))

    def test_contents_that_are_no_texts(self):
        plain, ours = self.both()
        for given in ('a\n\n*b*', 'a\n', '\n', ' ', 'a \ud800 *b*', ' a', 'a ', '\ta\t', 'a\t\nb', 'a\t  \nb', 'a\n \t\nb'):
            self.assertEqual(flat(ours.parseInline(given)), flat(plain.parseInline(given)), given)
        for given in ('a \ud800 *b*\n\n*c*', '*d*\n\n[e](f)\n\n\udfff'):
            self.assertEqual(flat(ours.parse(given)), flat(plain.parse(given)))
        self.assertEqual(ours.renderInline('a *b*'), plain.renderInline('a *b*'))

    def test_one_call_a_document(self):
        import markdown_inline.markdown_it as module
        calls, real = [], module.texts
        module.texts = lambda *given, **asked: calls.append(len(given[1])) or real(*given, **asked)
        try:
            MarkdownIt().use(plugin).render('a\n\nb *c*\n\n- d\n- e')
        finally:
            module.texts = real
        self.assertEqual(calls, [4])

    def test_sphinx(self):
        """The extension gives MyST's parser the plugin, and the HTML stays."""
        try:
            from myst_parser.parsers import sphinx_
            from sphinx.application import Sphinx
        except ModuleNotFoundError:
            self.skipTest('Sphinx or MyST is not there')
        if not markdown_it.__version__.startswith('2.'):
            self.skipTest('this MyST is for version 2 of markdown-it-py')
        from markdown_inline import markdown_it as module
        found, calls, real, made = [], [], module.texts, sphinx_.create_md_parser
        module.texts = lambda *given, **asked: calls.append(len(given[1])) or real(*given, **asked)
        try:
            for more in ([], ['markdown_inline.sphinx']):
                with tempfile.TemporaryDirectory() as room:
                    with open(room + '/index.md', 'w', encoding='utf-8') as file:
                        file.write('# *a*\n\n{abbr}`b (c)` **d** [e](f.png)\n\n- g [^1] `h`\n- i\n\n[^1]: j *k*\n\n```{note}\nl *m*\n```\n')
                    words = {'extensions': ['myst_parser'] + more, 'html_theme': 'basic', 'suppress_warnings': ['myst']}
                    Sphinx(room, None, room + '/out', room + '/trees', 'html', words, status=None, warning=io.StringIO()).build()
                    with open(room + '/out/index.html', encoding='utf-8') as file:
                        found.append(file.read())
                self.assertEqual(sum(calls) > 3, bool(more))
        finally:
            module.texts, sphinx_.create_md_parser = real, made
        self.assertEqual(*found)
