"""The tree of a document as mdast has it, for programs that read unist."""
import json
import re
from typing import TYPE_CHECKING, Any, Callable, Dict, List, Tuple

from ._lines import Lines
from ._nodes import KINDS, Node, without_ending

if TYPE_CHECKING:
    from ._document import Document

Tree = Dict[str, Any]
_BLANKS = re.compile('[ \t\r\n]+')
_META = re.compile('[ \t]*[^ \t]+[ \t]+(.*[^ \t])', re.S)
# The names of kinds, in camel case.
_TYPES = {kind: re.sub('_(.)', lambda it: it[1].upper(), kind) for kind in KINDS}
_LEAVES = {'text', 'inline_code', 'inline_math', 'break', 'html', 'code', 'math', 'thematic_break', 'definition', 'front_matter', 'image', 'image_reference'}


def _association(node: Node) -> Tree:
    """What a reference or a definition has of its label. Two labels match if their identifiers are equal."""
    words = _BLANKS.sub(' ', node.label).strip(' ').lower().upper().lower()
    return {'identifier': words, 'label': node._document._resolved(node.label)}


def _meta(node: Node) -> Any:
    found = _META.match(node.info or '')
    return found and found[1]


# What nodes of a kind have beside their children.
_FIELDS: Dict[str, Callable[[Node], Tree]] = {
    'heading': lambda it: {'depth': it.level},
    'list': lambda it: {'ordered': it.ordered, 'start': it.start_number, 'spread': it.spread},
    'list_item': lambda it: {'spread': it.spread, 'checked': it.checked},
    'code': lambda it: {'lang': it.lang, 'meta': _meta(it), 'value': without_ending(it.text)},
    'math': lambda it: {'meta': it.info or None, 'value': without_ending(it.text)},
    **dict.fromkeys(('html', 'front_matter'), lambda it: {'value': without_ending(it.text)}),
    **dict.fromkeys(('text', 'inline_code', 'inline_math'), lambda it: {'value': it.text}),
    'link': lambda it: {'title': it.title, 'url': it.url},
    'image': lambda it: {'title': it.title, 'url': it.url, 'alt': it.alt},
    'definition': lambda it: {**_association(it), 'title': it.title, 'url': it.url},
    'link_reference': lambda it: {**_association(it), 'referenceType': it.reference},
    'image_reference': lambda it: {**_association(it), 'referenceType': it.reference, 'alt': it.alt},
}


def _made(node: Node) -> Tree:
    """A node with its position, and with room for its children."""
    fields = _FIELDS.get(node.kind)
    made = {'type': node.lang if node.kind == 'front_matter' else _TYPES[node.kind], **(fields(node) if fields else {})}
    made['position'] = {
        'start': {'line': node.line, 'column': node.column, 'offset': node.start}, 'end': {'line': node.end_line, 'column': node.end_column, 'offset': node.end}}
    if node.kind not in _LEAVES:
        made['children'] = []
    return made


def _cut_check(paragraph: Tree, lines: Lines) -> None:
    """Takes off the space, the tab or the line ending after a checkbox. The text and the paragraph begin after it, as in remark, where a text that was only this
    is taken out, and the paragraph begins as before."""
    text = paragraph['children'][0] if paragraph['children'] else {}
    cut, rest = text.get('value', '')[:1], text.get('value', '')[1:]
    if cut not in (' ', '\t', '\n'):
        return
    if not rest:
        del paragraph['children'][0]
        return
    start, text['value'] = text['position']['start'], rest
    if cut == '\n':
        start.update(line=start['line'] + 1, column=1, offset=lines.offset(lines.starts[start['line']]))
    else:
        start.update(column=start['column'] + 1, offset=start['offset'] + 1)
    paragraph['position']['start'] = dict(start)


def tree_of(document: 'Document') -> Tree:
    """The tree of a document. No call goes deeper than another, so deep nesting does not exhaust the stack."""
    root, checked = _made(document.root), []
    todo: List[Tuple[Node, Tree]] = [(document.root, root)]
    while todo:
        node, made = todo.pop()
        for child in node.children:
            made['children'].append(_made(child))
            if child.kind not in _LEAVES:
                todo.append((child, made['children'][-1]))
            if child.kind == 'list_item' and child.checked is not None:
                checked.append(made['children'][-1])
    for item in checked:
        _cut_check(next(it for it in item['children'] if it['type'] == 'paragraph'), document._lines)
    return root


def json_of(document: 'Document') -> str:
    """The tree of a document as JSON."""
    parts: List[str] = []
    todo: List[Any] = [tree_of(document)]
    while todo:
        it = todo.pop()
        if isinstance(it, str):
            parts.append(it)
            continue
        children = it.pop('children', None)
        words = json.dumps(it, ensure_ascii=False)
        if children is None:
            parts.append(words)
            continue
        parts.append(words[:-1] + ', "children": [')
        todo.append(']}')
        for at, child in enumerate(reversed(children)):
            todo += [', ', child] if at else [child]
    return ''.join(parts)
