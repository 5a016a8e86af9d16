"""Markdown documents: their HTML, their blocks, their links.

    >>> from markdown_inline import Kind, links, parse, render
    >>> render('# a *b*')
    '<h1>a <em>b</em></h1>\\n'
    >>> [(row.line, row.html) for row in parse('# a\\n\\n> *b*') if row.kind == Kind.Paragraph]
    [(3, '<em>b</em>')]
    >>> [(it.line, it.column, it.destination) for it in links('a\\n\\n- [b](/c)')]
    [(3, 3, '/c')]

Documents are read following CommonMark 0.31.2, and each construct of GitHub's has a keyword. The results come from the proved library, which this package calls.
For one paragraph, or any text inside a block, there is `markdown_inline.inline`.
"""
from typing import List, Optional, Tuple

from . import _arguments, _library, _render, _tables
from ._block import Block
from ._document import Asked, Definition, Document
from ._errors import (
    BlankLine, DefinitionError, Error, NoContent, NoMemory, NoReference, NoString, NotUtf8, References, TooLong, UnknownOption, raised)
from ._events import Characters
from ._kinds import Kind
from ._links import Address
from ._nodes import Node
from ._render import Hooks
from ._slugs import slugger
from ._types import Html, Limit, LineEnds, Text

__all__ = [
    'Address', 'BlankLine', 'Block', 'Definition', 'DefinitionError', 'Document', 'Error', 'Kind', 'NoContent', 'NoMemory', 'NoReference', 'NoString', 'Node', 'NotUtf8',
    'References', 'TooLong', 'UnknownOption', 'links', 'parse', 'render', 'slugger',
]

__version__ = '1.0.0'


def render(document: Text, *, strikethrough: bool = False, bare_urls: bool = False, tasks: bool = False, math: bool = False, front_matter: bool = False,
           html: Html = 'escape', any_link: bool = False, line_ends: LineEnds = None, limit: Limit = None, hooks: Optional[Hooks] = None) -> str:
    """Renders a document to HTML, following CommonMark 0.31.2. A byte order mark at its front is no text.

    Five keywords add constructs: `strikethrough`, by one or two tildes; `bare_urls`, links for URLs and email addresses without angle brackets; `tasks`,
    checkboxes of task list items; `math`, spans by one or more dollars, and blocks between lines of two or more dollars; `front_matter`, lines between two
    lines of `---` or of `+++` at the start of the document, which HTML leaves out.

    `html` says what becomes of raw HTML: 'escape' writes it as text, 'raw' as it is. `any_link` lets links lead wherever they say, and not only to listed
    schemes. `line_ends` is what each line ending is written as, '\\n' or '\\r\\n'; by default those of the document stay as they are, and the page adds line
    feeds.

    `limit` is how many bytes references to definitions may expand to: those of the destination and of the title, for each link and image that refers to one.
    None is the length of the document, or 100,000 bytes where that is more. `math.inf` is no limit. Beyond the limit References is raised. NotUtf8 has the
    first byte that is not UTF-8 as `at`.

    `hooks` maps kinds of nodes to functions. A function gets a node and the HTML inside it, and returns the HTML of the node, or None to leave it as it is
    without the hook. What it returns is written unchanged, so escape what comes from the document. The inside of code and other leaves is their escaped text.

    >>> render('> [a](b:c)\\n\\n<p>')
    '<blockquote>\\n<p><a href="">a</a></p>\\n</blockquote>\\n&lt;p&gt;\\n'
    >>> render('~a~ www.b.c', strikethrough=True, bare_urls=True, line_ends='\\r\\n')
    '<p><del>a</del> <a href="http://www.b.c">www.b.c</a></p>\\r\\n'
    """
    if hooks is not None:
        asked = _render.hooks_of(hooks)
        found = parse(
            document, strikethrough=strikethrough, bare_urls=bare_urls, tasks=tasks, math=math, front_matter=front_matter, html=html, any_link=any_link,
            line_ends=line_ends, limit=limit)
        return _render.Renderer(found, asked).render()
    given, constructs = _arguments.text_of(document, 'document'), _constructs(strikethrough, bare_urls, tasks, math, front_matter)
    status, written, blamed = _library.document_html(given, *constructs, _arguments.shown_of(html, any_link, line_ends), _arguments.limit_of(limit))
    if status:
        raise raised(status, blamed)
    return str(written, 'utf-8')


def parse(document: Text, *, strikethrough: bool = False, bare_urls: bool = False, tasks: bool = False, math: bool = False, front_matter: bool = False,
          html: Html = 'escape', any_link: bool = False, line_ends: LineEnds = None, limit: Limit = None) -> Document:
    """Parses a document into nodes and rows. The keywords are those of `render`.

    Inline parsing is lazy: the first access to the events, the HTML, the links or the nodes of a text parses all texts at once. So References is raised there, by
    the HTML.

    >>> found = parse('# *a*\\n\\n- [b]\\n\\n[b]: /c')
    >>> [(node.kind, node.line, node.text) for node in found.children]
    [('heading', 1, 'a'), ('list', 3, 'b'), ('definition', 5, '')]
    >>> [(str(row.kind), row.depth, row.number, row.html) for row in found][:4]
    [('Heading', 0, 1, '<em>a</em>'), ('BlankLine', 0, 0, ''), ('Item', 0, 0, ''), ('Paragraph', 1, 0, '<a href="/c">b</a>')]
    >>> found.definitions
    [Definition(label='b', destination='/c', title=None)]
    """
    given, constructs = _arguments.text_of(document, 'document'), _constructs(strikethrough, bare_urls, tasks, math, front_matter)
    asked = Asked(*constructs, _arguments.shown_of(html, any_link, line_ends), _arguments.limit_of(limit))
    return Document(given, Characters(given) if isinstance(document, str) else None, asked)


def links(document: Text, *, strikethrough: bool = False, bare_urls: bool = False, tasks: bool = False, math: bool = False,
          front_matter: bool = False) -> List[Address]:
    """The links, images, autolinks and bare URLs of a document, in the order in which they begin, and where each leads. The keywords are those of `render`.

    >>> [(it.line, it.column, it.kind, it.destination, it.title) for it in links('é [a](b "c")\\n\\n> ![d]\\n\\n[D]: /e')]
    [(1, 3, 'link', 'b', 'c'), (3, 3, 'image', '/e', None)]
    """
    return parse(document, strikethrough=strikethrough, bare_urls=bare_urls, tasks=tasks, math=math, front_matter=front_matter).links


# What the words of constructs add: bits of options, and of blocks.
_ADDED = {
    'strikethrough': (_tables.OPTIONS['gfm_strikethrough'], 0), 'bare_urls': (_tables.OPTIONS['gfm_autolink_literal'], 0),
    'tasks': (_tables.OPTIONS['gfm_task_list_item'], 0), 'math': (_tables.MATH, _tables.BLOCKS_MATH), 'front_matter': (0, _tables.BLOCKS_FRONT_MATTER),
}


def _constructs(*given: bool) -> Tuple[int, int]:
    """The bits of the options and of the blocks that a document is read with, by the flags of the words."""
    options, blocks = _tables.COMMONMARK, 0
    for flag, (word, (option, block)) in zip(given, _ADDED.items()):
        if _arguments.flag_of(flag, word):
            options, blocks = options | option, blocks | block
    return options, blocks
