// The lists of markdown_inline.h, as types: tools/writers/write-lists writes this file.
/** Why a call returns nothing. */
export type Code =
  | 'UNKNOWN_OPTION'
  | 'NOT_UTF8'
  | 'BLANK_LINE'
  | 'NO_MEMORY'
  | 'NO_CONTENT'
  | 'DEFINITION'
  | 'TOO_LONG'
  | 'NO_REFERENCE'
  | 'REFERENCES'
  | 'NO_STRING';
/** What can be switched on and off, with true and false. */
export interface Switches {
  /** Emphasis and strong emphasis (CommonMark 6.2). */
  attention?: boolean;
  /** Autolinks (CommonMark 6.5). */
  autolink?: boolean;
  /** Backslash escapes (CommonMark 2.4). */
  characterEscape?: boolean;
  /** Character references (CommonMark 2.5). */
  characterReference?: boolean;
  /** Code spans (CommonMark 6.1). */
  codeText?: boolean;
  /** Autolink literals (GFM 6.9). */
  gfmAutolinkLiteral?: boolean;
  /** Starts of footnote calls. */
  gfmLabelStartFootnote?: boolean;
  /** Strikethrough (GFM 6.5). */
  gfmStrikethrough?: boolean;
  /** Checks of task list items (GFM 5.3). */
  gfmTaskListItem?: boolean;
  /** Hard line breaks by a backslash (CommonMark 6.7). */
  hardBreakEscape?: boolean;
  /** Hard line breaks by spaces (CommonMark 6.7). */
  hardBreakTrailing?: boolean;
  /** Inline HTML (CommonMark 6.6). */
  htmlText?: boolean;
  /** Starts of images (CommonMark 6.4). */
  labelStartImage?: boolean;
  /** Starts of links (CommonMark 6.3). */
  labelStartLink?: boolean;
  /** Ends of links, images and footnote calls. */
  labelEnd?: boolean;
  /** Math spans. */
  mathText?: boolean;
  /** Whether one tilde makes strikethrough, beside two. */
  gfmStrikethroughSingleTilde?: boolean;
  /** Whether one dollar opens and closes a math span, beside more. */
  mathTextSingleDollar?: boolean;
  /** Whether the rule of three of emphasis reads the lengths of whole runs, as CommonMark says, and not what earlier pairs left of them. */
  attentionFirstLengths?: boolean;
  /** Whether a defined label before a `[` that begins no label of its own is a shortcut reference, as CommonMark says. */
  labelShortcutBeforeBracket?: boolean;
  /** Whether the text is the first of a list item, where the check of a task may stand. */
  firstOfItem?: boolean;
  /** Whether CommonMark's rule holds in each point that `Rules` names, in which the crate that is ported departs from it. It implies `attentionFirstLengths`, `labelShortcutBeforeBracket` and `htmlReferences`. */
  standardRules?: boolean;
  /** Whether a reference may have any of the 2,125 names of HTML that end in a semicolon, as CommonMark says, and not only the 294 of a shorter table. */
  htmlReferences?: boolean;
}
/** What begins or ends. */
export type Name =
  /** A run of `*`, `_` or `~` that attention has not yet looked at. No event of a finished run has this name. */
  | 'AttentionSequence'
  /** `<https://example.com>` or `<a@b.c>` whole. */
  | 'Autolink'
  /** The address between the angle brackets of an autolink. */
  | 'AutolinkEmail'
  /** `<` or `>` of an autolink. */
  | 'AutolinkMarker'
  /** The URI between the angle brackets of an autolink. */
  | 'AutolinkProtocol'
  /** A backslash and the ASCII punctuation that it escapes. */
  | 'CharacterEscape'
  /** The backslash of a character escape. */
  | 'CharacterEscapeMarker'
  /** The escaped character. */
  | 'CharacterEscapeValue'
  /** `&amp;`, `&#123;` or `&#x1F;` whole. */
  | 'CharacterReference'
  /** `&`. */
  | 'CharacterReferenceMarker'
  /** `x` or `X` of a hexadecimal reference. */
  | 'CharacterReferenceMarkerHexadecimal'
  /** `#` of a numeric reference. */
  | 'CharacterReferenceMarkerNumeric'
  /** `;`. */
  | 'CharacterReferenceMarkerSemi'
  /** The name or the digits of a reference. */
  | 'CharacterReferenceValue'
  /** A code span whole. */
  | 'CodeText'
  /** A stretch of one line within a code span. */
  | 'CodeTextData'
  /** The grave accents that open or close a code span. */
  | 'CodeTextSequence'
  /** Text that no construct takes. */
  | 'Data'
  /** Emphasis whole. */
  | 'Emphasis'
  /** One marker that opens or closes emphasis. */
  | 'EmphasisSequence'
  /** What stands between the markers of an emphasis. */
  | 'EmphasisText'
  /** An email address that stands by itself. */
  | 'GfmAutolinkLiteralEmail'
  /** An email address with `mailto:` before it. */
  | 'GfmAutolinkLiteralMailto'
  /** A scheme, as `https://`, with what belongs to it. */
  | 'GfmAutolinkLiteralProtocol'
  /** `www.` with what belongs to it. */
  | 'GfmAutolinkLiteralWww'
  /** An address with `xmpp:` before it. */
  | 'GfmAutolinkLiteralXmpp'
  /** A footnote call whole. */
  | 'GfmFootnoteCall'
  /** `[^` of a footnote call. */
  | 'GfmFootnoteCallLabel'
  /** `^` of a footnote call. */
  | 'GfmFootnoteCallMarker'
  /** Strikethrough whole. */
  | 'GfmStrikethrough'
  /** The tildes that open or close strikethrough. */
  | 'GfmStrikethroughSequence'
  /** What stands between the tildes. */
  | 'GfmStrikethroughText'
  /** `[ ]` or `[x]` at the start of a list item. */
  | 'GfmTaskListItemCheck'
  /** `[` or `]` of a check. */
  | 'GfmTaskListItemMarker'
  /** `x` or `X` of a check. */
  | 'GfmTaskListItemValueChecked'
  /** The blank of a check. */
  | 'GfmTaskListItemValueUnchecked'
  /** The backslash of a hard break. */
  | 'HardBreakEscape'
  /** The spaces of a hard break. */
  | 'HardBreakTrailing'
  /** Inline HTML whole. */
  | 'HtmlText'
  /** A stretch of one line within inline HTML. */
  | 'HtmlTextData'
  /** An image whole. */
  | 'Image'
  /** The brackets of a link, an image or a footnote call, with the text between them. */
  | 'Label'
  /** `]` of a label. */
  | 'LabelEnd'
  /** `![`. */
  | 'LabelImage'
  /** `!` of an image. */
  | 'LabelImageMarker'
  /** `[` of a link. */
  | 'LabelLink'
  /** `[` or `]` of a label. */
  | 'LabelMarker'
  /** What stands between the brackets. */
  | 'LabelText'
  /** A line ending: CR LF, LF or CR. */
  | 'LineEnding'
  /** A link whole. */
  | 'Link'
  /** A math span whole. */
  | 'MathText'
  /** A stretch of one line within a math span. */
  | 'MathTextData'
  /** The dollars that open or close a math span. */
  | 'MathTextSequence'
  /** `[..]` or `[]` after a label. */
  | 'Reference'
  /** `[` or `]` of a reference. */
  | 'ReferenceMarker'
  /** What stands between the brackets of a full reference. */
  | 'ReferenceString'
  /** `(..)` after a label. */
  | 'Resource'
  /** A destination, with its angle brackets if it has them. */
  | 'ResourceDestination'
  /** A destination in angle brackets. */
  | 'ResourceDestinationLiteral'
  /** `<` or `>` of a destination. */
  | 'ResourceDestinationLiteralMarker'
  /** A destination without angle brackets. */
  | 'ResourceDestinationRaw'
  /** The text of a destination. */
  | 'ResourceDestinationString'
  /** `(` or `)` of a resource. */
  | 'ResourceMarker'
  /** A title with its quotes. */
  | 'ResourceTitle'
  /** A quote or parenthesis of a title. */
  | 'ResourceTitleMarker'
  /** The text of a title. */
  | 'ResourceTitleString'
  /** Spaces, tabs and virtual spaces. */
  | 'SpaceOrTab'
  /** Strong emphasis whole. */
  | 'Strong'
  /** The two markers that open or close strong emphasis. */
  | 'StrongSequence'
  /** What stands between the markers of a strong emphasis. */
  | 'StrongText';
