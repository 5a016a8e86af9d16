//! What is looked for in the text of a block, and how it is written.

use crate::LineEnds;
use std::ops::{BitOr, BitOrAssign, Sub, SubAssign};

/// A set of constructs and settings. Sets are joined by `|`, and one is taken out of another by `-`.
#[derive(Clone, Copy, Debug, PartialEq, Eq, Hash)]
pub struct Constructs(u32);

macro_rules! constructs {
    ($($(#[$doc:meta])* $constant:ident $name:ident $bits:literal,)*) => {
        impl Constructs {
            $($(#[$doc])* pub const $constant: Constructs = Constructs($bits);)*

            /// Each option by its name.
            pub const ALL: &'static [(&'static str, Constructs)] = &[$((stringify!($name), Constructs::$constant),)*];
        }
    };
}

// The rows, and the numbers of the sets below, are those that tools/writers/write-lists writes.
constructs! {
    /// Emphasis and strong emphasis (CommonMark 6.2).
    ATTENTION attention 0x1,
    /// Autolinks (CommonMark 6.5).
    AUTOLINK autolink 0x2,
    /// Backslash escapes (CommonMark 2.4).
    CHARACTER_ESCAPE character_escape 0x4,
    /// Character references (CommonMark 2.5).
    CHARACTER_REFERENCE character_reference 0x8,
    /// Code spans (CommonMark 6.1).
    CODE_TEXT code_text 0x10,
    /// Autolink literals (GFM 6.9).
    GFM_AUTOLINK_LITERAL gfm_autolink_literal 0x20,
    /// Starts of footnote calls.
    GFM_LABEL_START_FOOTNOTE gfm_label_start_footnote 0x40,
    /// Strikethrough (GFM 6.5).
    GFM_STRIKETHROUGH gfm_strikethrough 0x80,
    /// Checks of task list items (GFM 5.3).
    GFM_TASK_LIST_ITEM gfm_task_list_item 0x100,
    /// Hard line breaks by a backslash (CommonMark 6.7).
    HARD_BREAK_ESCAPE hard_break_escape 0x200,
    /// Hard line breaks by spaces (CommonMark 6.7).
    HARD_BREAK_TRAILING hard_break_trailing 0x400,
    /// Inline HTML (CommonMark 6.6).
    HTML_TEXT html_text 0x800,
    /// Starts of images (CommonMark 6.4).
    LABEL_START_IMAGE label_start_image 0x1000,
    /// Starts of links (CommonMark 6.3).
    LABEL_START_LINK label_start_link 0x2000,
    /// Ends of links, images and footnote calls.
    LABEL_END label_end 0x4000,
    /// Math spans.
    MATH_TEXT math_text 0x8000,
    /// Whether one tilde makes strikethrough, beside two.
    GFM_STRIKETHROUGH_SINGLE_TILDE gfm_strikethrough_single_tilde 0x1_0000,
    /// Whether one dollar opens and closes a math span, beside more.
    MATH_TEXT_SINGLE_DOLLAR math_text_single_dollar 0x2_0000,
    /// Whether the rule of three of emphasis reads the lengths of whole runs, as CommonMark says, and not what earlier pairs left of them.
    ATTENTION_FIRST_LENGTHS attention_first_lengths 0x4_0000,
    /// Whether a defined label before a `[` that begins no label of its own is a shortcut reference, as CommonMark says.
    LABEL_SHORTCUT_BEFORE_BRACKET label_shortcut_before_bracket 0x8_0000,
    /// Whether the text is the first of a list item, where the check of a task may stand.
    FIRST_OF_ITEM first_of_item 0x10_0000,
    /// Whether CommonMark's rule holds in each point that `Rules` names, in which the crate that is ported departs from it. It implies `attention_first_lengths`, `label_shortcut_before_bracket` and `html_references`.
    STANDARD_RULES standard_rules 0x20_0000,
    /// Whether a reference may have any of the 2,125 names of HTML that end in a semicolon, as CommonMark says, and not only the 294 of a shorter table.
    HTML_REFERENCES html_references 0x40_0000,
}

impl Constructs {
    /// CommonMark 0.31.2: its constructs, read by its rules. It is the default.
    pub const COMMONMARK: Constructs = Constructs(0x23_7e1f);
    /// CommonMark's constructs, read by the rules of the crate `markdown`, which departs from the standard in places.
    pub const CRATE: Constructs = Constructs(0x3_7e1f);
    /// What GitHub adds: autolink literals, footnote calls, strikethrough, task list checks.
    pub const GFM: Constructs = Constructs(0x1e0);
    /// Math spans.
    pub const MATH: Constructs = Constructs(0x8000);

    /// The set with these bits, as in `markdown_inline.h`. A bit that is none of an option is an error of the calls.
    #[must_use]
    pub const fn from_bits(bits: u32) -> Constructs {
        Constructs(bits)
    }

    /// The bits of the set.
    #[must_use]
    pub const fn bits(self) -> u32 {
        self.0
    }

    /// Whether the set has all that another has.
    #[must_use]
    pub const fn contains(self, other: Constructs) -> bool {
        self.0 & other.0 == other.0
    }
}

/// What HTML may contain and how it is written. By default nothing of the document becomes markup, and no link leads to a script.
///
/// ```
/// use markdown_inline::inline::{HtmlOptions, Input};
/// let options = HtmlOptions::default().raw_html(true);
/// assert_eq!(Input::new("<b> [a](b:c)").html(options).unwrap(), "<b> <a href=\"\">a</a>");
/// ```
#[derive(Clone, Copy, Debug, Default, PartialEq, Eq, Hash)]
#[non_exhaustive]
pub struct HtmlOptions {
    /// Whether raw HTML is written as it is, and not as text.
    pub raw_html: bool,
    /// Whether links and images lead wherever they say, and not only to listed schemes.
    pub any_link: bool,
    /// How line endings are written.
    pub line_ends: LineEnds,
}

impl HtmlOptions {
    /// Writes raw HTML as it is, or as text.
    #[must_use]
    pub const fn raw_html(mut self, raw_html: bool) -> HtmlOptions {
        self.raw_html = raw_html;
        self
    }

    /// Lets links and images lead wherever they say, or only to listed schemes.
    #[must_use]
    pub const fn any_link(mut self, any_link: bool) -> HtmlOptions {
        self.any_link = any_link;
        self
    }

    /// Writes line endings so.
    #[must_use]
    pub const fn line_ends(mut self, line_ends: LineEnds) -> HtmlOptions {
        self.line_ends = line_ends;
        self
    }

    pub(crate) fn bits(self) -> u32 {
        let line_ends = match self.line_ends {
            LineEnds::Kept => 0,
            LineEnds::Lf => 0x20,
            LineEnds::CrLf => 0x40,
        };
        u32::from(self.raw_html) | u32::from(self.any_link) << 1 | line_ends
    }
}

/// As a limit on what references expand to: none.
pub const NO_LIMIT: usize = usize::MAX;

/// How the texts of strings are written.
#[derive(Clone, Copy, Debug, Default, PartialEq, Eq, Hash)]
#[non_exhaustive]
pub struct StringOptions {
    /// Whether a line feed is written for each line ending.
    pub line_feeds: bool,
    /// Whether U+FFFD is written for NUL.
    pub replaced_nul: bool,
}

impl StringOptions {
    /// Writes a line feed for each line ending, or leaves line endings as they are.
    #[must_use]
    pub const fn line_feeds(mut self, line_feeds: bool) -> StringOptions {
        self.line_feeds = line_feeds;
        self
    }

    /// Writes U+FFFD for NUL, or leaves NUL as it is.
    #[must_use]
    pub const fn replaced_nul(mut self, replaced_nul: bool) -> StringOptions {
        self.replaced_nul = replaced_nul;
        self
    }

    pub(crate) fn bits(self) -> u32 {
        u32::from(self.line_feeds) | u32::from(self.replaced_nul) << 1
    }
}

impl Default for Constructs {
    /// [`Constructs::COMMONMARK`].
    fn default() -> Constructs {
        Constructs::COMMONMARK
    }
}

impl BitOr for Constructs {
    type Output = Constructs;

    fn bitor(self, other: Constructs) -> Constructs {
        Constructs(self.0 | other.0)
    }
}

impl BitOrAssign for Constructs {
    fn bitor_assign(&mut self, other: Constructs) {
        *self = *self | other;
    }
}

impl SubAssign for Constructs {
    fn sub_assign(&mut self, other: Constructs) {
        *self = *self - other;
    }
}

impl Sub for Constructs {
    type Output = Constructs;

    fn sub(self, other: Constructs) -> Constructs {
        Constructs(self.0 & !other.0)
    }
}
