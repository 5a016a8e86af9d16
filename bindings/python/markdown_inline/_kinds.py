"""The kinds of blocks, as numbers of an enumeration."""
from ._names import Word


class Kind(Word):
    """What a block is, by the numbers of markdown_inline.h."""
    #: A blank line.
    BlankLine = 0
    #: A thematic break, as `***` (CommonMark 4.1).
    ThematicBreak = 1
    #: A heading, as `# a`, or with a line of `=` or `-` below (CommonMark 4.2 and 4.3).
    Heading = 2
    #: A paragraph (CommonMark 4.8).
    Paragraph = 3
    #: Code that is indented (CommonMark 4.4).
    IndentedCode = 4
    #: Code between fences (CommonMark 4.5), or math, whose fences are dollars.
    FencedCode = 5
    #: HTML (CommonMark 4.6).
    Html = 6
    #: A block quote (CommonMark 5.1).
    Quote = 7
    #: An item of a list (CommonMark 5.2).
    Item = 8
    #: Front matter: the lines between two lines of `---`, or of `+++`, at the start of a document.
    FrontMatter = 9
