"""An extension for Sphinx with MyST: `extensions = ['myst_parser', 'markdown_inline.sphinx']`. MyST's parser then has the plugin of this package."""
from typing import Any, Dict

from myst_parser.parsers import sphinx_

from . import __version__
from .markdown_it import plugin

_made = sphinx_.create_md_parser


def _create_md_parser(config: Any, renderer: Any) -> Any:
    return _made(config, renderer).use(plugin)


def setup(app: Any) -> Dict[str, Any]:
    """Puts the plugin into each parser that MyST makes for Sphinx."""
    sphinx_.create_md_parser = _create_md_parser
    return {'version': __version__, 'parallel_read_safe': True, 'parallel_write_safe': True}
