//! Names of events.

use std::error::Error;
use std::fmt;
use std::str::FromStr;

macro_rules! names {
    ($($(#[$doc:meta])* $name:ident,)*) => {
        /// What an event is about.
        ///
        /// An event without others inside it covers the bytes that its doc names; the others hold what their doc lists.
        #[derive(Clone, Copy, Debug, PartialEq, Eq, Hash, PartialOrd, Ord)]
        #[non_exhaustive]
        #[repr(u8)]
        pub enum Name {
            $($(#[$doc])* $name,)*
        }

        impl Name {
            /// All names, in the order of their numbers.
            pub const ALL: &'static [Name] = &[$(Name::$name,)*];

            /// The name as the program `mdinline` prints it.
            #[must_use]
            pub const fn as_str(self) -> &'static str {
                match self {
                    $(Name::$name => stringify!($name),)*
                }
            }
        }
    };
}

// The rows are those that tools/writers/write-lists writes.
names! {
    /// A run of `*`, `_` or `~` that attention has not yet looked at. No event of a finished run has this name.
    AttentionSequence,
    /// `<https://example.com>` or `<a@b.c>` whole.
    Autolink,
    /// The address between the angle brackets of an autolink.
    AutolinkEmail,
    /// `<` or `>` of an autolink.
    AutolinkMarker,
    /// The URI between the angle brackets of an autolink.
    AutolinkProtocol,
    /// A backslash and the ASCII punctuation that it escapes.
    CharacterEscape,
    /// The backslash of a character escape.
    CharacterEscapeMarker,
    /// The escaped character.
    CharacterEscapeValue,
    /// `&amp;`, `&#123;` or `&#x1F;` whole.
    CharacterReference,
    /// `&`.
    CharacterReferenceMarker,
    /// `x` or `X` of a hexadecimal reference.
    CharacterReferenceMarkerHexadecimal,
    /// `#` of a numeric reference.
    CharacterReferenceMarkerNumeric,
    /// `;`.
    CharacterReferenceMarkerSemi,
    /// The name or the digits of a reference.
    CharacterReferenceValue,
    /// A code span whole.
    CodeText,
    /// A stretch of one line within a code span.
    CodeTextData,
    /// The grave accents that open or close a code span.
    CodeTextSequence,
    /// Text that no construct takes.
    Data,
    /// Emphasis whole.
    Emphasis,
    /// One marker that opens or closes emphasis.
    EmphasisSequence,
    /// What stands between the markers of an emphasis.
    EmphasisText,
    /// An email address that stands by itself.
    GfmAutolinkLiteralEmail,
    /// An email address with `mailto:` before it.
    GfmAutolinkLiteralMailto,
    /// A scheme, as `https://`, with what belongs to it.
    GfmAutolinkLiteralProtocol,
    /// `www.` with what belongs to it.
    GfmAutolinkLiteralWww,
    /// An address with `xmpp:` before it.
    GfmAutolinkLiteralXmpp,
    /// A footnote call whole.
    GfmFootnoteCall,
    /// `[^` of a footnote call.
    GfmFootnoteCallLabel,
    /// `^` of a footnote call.
    GfmFootnoteCallMarker,
    /// Strikethrough whole.
    GfmStrikethrough,
    /// The tildes that open or close strikethrough.
    GfmStrikethroughSequence,
    /// What stands between the tildes.
    GfmStrikethroughText,
    /// `[ ]` or `[x]` at the start of a list item.
    GfmTaskListItemCheck,
    /// `[` or `]` of a check.
    GfmTaskListItemMarker,
    /// `x` or `X` of a check.
    GfmTaskListItemValueChecked,
    /// The blank of a check.
    GfmTaskListItemValueUnchecked,
    /// The backslash of a hard break.
    HardBreakEscape,
    /// The spaces of a hard break.
    HardBreakTrailing,
    /// Inline HTML whole.
    HtmlText,
    /// A stretch of one line within inline HTML.
    HtmlTextData,
    /// An image whole.
    Image,
    /// The brackets of a link, an image or a footnote call, with the text between them.
    Label,
    /// `]` of a label.
    LabelEnd,
    /// `![`.
    LabelImage,
    /// `!` of an image.
    LabelImageMarker,
    /// `[` of a link.
    LabelLink,
    /// `[` or `]` of a label.
    LabelMarker,
    /// What stands between the brackets.
    LabelText,
    /// A line ending: CR LF, LF or CR.
    LineEnding,
    /// A link whole.
    Link,
    /// A math span whole.
    MathText,
    /// A stretch of one line within a math span.
    MathTextData,
    /// The dollars that open or close a math span.
    MathTextSequence,
    /// `[..]` or `[]` after a label.
    Reference,
    /// `[` or `]` of a reference.
    ReferenceMarker,
    /// What stands between the brackets of a full reference.
    ReferenceString,
    /// `(..)` after a label.
    Resource,
    /// A destination, with its angle brackets if it has them.
    ResourceDestination,
    /// A destination in angle brackets.
    ResourceDestinationLiteral,
    /// `<` or `>` of a destination.
    ResourceDestinationLiteralMarker,
    /// A destination without angle brackets.
    ResourceDestinationRaw,
    /// The text of a destination.
    ResourceDestinationString,
    /// `(` or `)` of a resource.
    ResourceMarker,
    /// A title with its quotes.
    ResourceTitle,
    /// A quote or parenthesis of a title.
    ResourceTitleMarker,
    /// The text of a title.
    ResourceTitleString,
    /// Spaces, tabs and virtual spaces.
    SpaceOrTab,
    /// Strong emphasis whole.
    Strong,
    /// The two markers that open or close strong emphasis.
    StrongSequence,
    /// What stands between the markers of a strong emphasis.
    StrongText,
}

impl fmt::Display for Name {
    fn fmt(&self, f: &mut fmt::Formatter<'_>) -> fmt::Result {
        f.pad(self.as_str())
    }
}

/// A word that is the name of no event.
#[derive(Clone, Copy, Debug, PartialEq, Eq, Hash)]
pub struct UnknownName;

impl fmt::Display for UnknownName {
    fn fmt(&self, f: &mut fmt::Formatter<'_>) -> fmt::Result {
        f.write_str("no name of an event")
    }
}

impl Error for UnknownName {}

impl FromStr for Name {
    type Err = UnknownName;

    /// The name for which [`Name::as_str`] returns this word.
    fn from_str(word: &str) -> Result<Name, UnknownName> {
        let mut names = Name::ALL.iter().copied();
        names.find(|name| name.as_str() == word).ok_or(UnknownName)
    }
}
