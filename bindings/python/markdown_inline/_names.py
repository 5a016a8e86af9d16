"""The kinds and the names of events, as numbers of an enumeration. Each has the text that the program mdinline prints."""
import enum


class Word(enum.IntEnum):
    """A number that has a text: `str` is the text, and it compares as the number does."""

    def __str__(self) -> str:
        return self.name

    def __repr__(self) -> str:
        return '%s.%s' % (type(self).__name__, self.name)

    def __format__(self, form: str) -> str:
        return format(self.name, form)


class Kind(Word):
    """Whether something begins or ends."""
    Enter = 0
    Exit = 1


class Name(Word):
    """What begins or ends, by the numbers and the names of markdown_inline.h."""
    #: A run of `*`, `_` or `~` that attention has not yet looked at. No event of a finished run has this name.
    AttentionSequence = 0
    #: `<https://example.com>` or `<a@b.c>` whole.
    Autolink = 1
    #: The address between the angle brackets of an autolink.
    AutolinkEmail = 2
    #: `<` or `>` of an autolink.
    AutolinkMarker = 3
    #: The URI between the angle brackets of an autolink.
    AutolinkProtocol = 4
    #: A backslash and the ASCII punctuation that it escapes.
    CharacterEscape = 5
    #: The backslash of a character escape.
    CharacterEscapeMarker = 6
    #: The escaped character.
    CharacterEscapeValue = 7
    #: `&amp;`, `&#123;` or `&#x1F;` whole.
    CharacterReference = 8
    #: `&`.
    CharacterReferenceMarker = 9
    #: `x` or `X` of a hexadecimal reference.
    CharacterReferenceMarkerHexadecimal = 10
    #: `#` of a numeric reference.
    CharacterReferenceMarkerNumeric = 11
    #: `;`.
    CharacterReferenceMarkerSemi = 12
    #: The name or the digits of a reference.
    CharacterReferenceValue = 13
    #: A code span whole.
    CodeText = 14
    #: A stretch of one line within a code span.
    CodeTextData = 15
    #: The grave accents that open or close a code span.
    CodeTextSequence = 16
    #: Text that no construct takes.
    Data = 17
    #: Emphasis whole.
    Emphasis = 18
    #: One marker that opens or closes emphasis.
    EmphasisSequence = 19
    #: What stands between the markers of an emphasis.
    EmphasisText = 20
    #: An email address that stands by itself.
    GfmAutolinkLiteralEmail = 21
    #: An email address with `mailto:` before it.
    GfmAutolinkLiteralMailto = 22
    #: A scheme, as `https://`, with what belongs to it.
    GfmAutolinkLiteralProtocol = 23
    #: `www.` with what belongs to it.
    GfmAutolinkLiteralWww = 24
    #: An address with `xmpp:` before it.
    GfmAutolinkLiteralXmpp = 25
    #: A footnote call whole.
    GfmFootnoteCall = 26
    #: `[^` of a footnote call.
    GfmFootnoteCallLabel = 27
    #: `^` of a footnote call.
    GfmFootnoteCallMarker = 28
    #: Strikethrough whole.
    GfmStrikethrough = 29
    #: The tildes that open or close strikethrough.
    GfmStrikethroughSequence = 30
    #: What stands between the tildes.
    GfmStrikethroughText = 31
    #: `[ ]` or `[x]` at the start of a list item.
    GfmTaskListItemCheck = 32
    #: `[` or `]` of a check.
    GfmTaskListItemMarker = 33
    #: `x` or `X` of a check.
    GfmTaskListItemValueChecked = 34
    #: The blank of a check.
    GfmTaskListItemValueUnchecked = 35
    #: The backslash of a hard break.
    HardBreakEscape = 36
    #: The spaces of a hard break.
    HardBreakTrailing = 37
    #: Inline HTML whole.
    HtmlText = 38
    #: A stretch of one line within inline HTML.
    HtmlTextData = 39
    #: An image whole.
    Image = 40
    #: The brackets of a link, an image or a footnote call, with the text between them.
    Label = 41
    #: `]` of a label.
    LabelEnd = 42
    #: `![`.
    LabelImage = 43
    #: `!` of an image.
    LabelImageMarker = 44
    #: `[` of a link.
    LabelLink = 45
    #: `[` or `]` of a label.
    LabelMarker = 46
    #: What stands between the brackets.
    LabelText = 47
    #: A line ending: CR LF, LF or CR.
    LineEnding = 48
    #: A link whole.
    Link = 49
    #: A math span whole.
    MathText = 50
    #: A stretch of one line within a math span.
    MathTextData = 51
    #: The dollars that open or close a math span.
    MathTextSequence = 52
    #: `[..]` or `[]` after a label.
    Reference = 53
    #: `[` or `]` of a reference.
    ReferenceMarker = 54
    #: What stands between the brackets of a full reference.
    ReferenceString = 55
    #: `(..)` after a label.
    Resource = 56
    #: A destination, with its angle brackets if it has them.
    ResourceDestination = 57
    #: A destination in angle brackets.
    ResourceDestinationLiteral = 58
    #: `<` or `>` of a destination.
    ResourceDestinationLiteralMarker = 59
    #: A destination without angle brackets.
    ResourceDestinationRaw = 60
    #: The text of a destination.
    ResourceDestinationString = 61
    #: `(` or `)` of a resource.
    ResourceMarker = 62
    #: A title with its quotes.
    ResourceTitle = 63
    #: A quote or parenthesis of a title.
    ResourceTitleMarker = 64
    #: The text of a title.
    ResourceTitleString = 65
    #: Spaces, tabs and virtual spaces.
    SpaceOrTab = 66
    #: Strong emphasis whole.
    Strong = 67
    #: The two markers that open or close strong emphasis.
    StrongSequence = 68
    #: What stands between the markers of a strong emphasis.
    StrongText = 69
