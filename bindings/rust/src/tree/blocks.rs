//! The blocks of a tree.

use super::builder::{with_line_feed, Builder};
use super::definitions::first_end;
use super::{DefinitionItem, Text, What};
use crate::blocks::BlockKind;
use crate::inline::{Piece, ShortIter, ShortTextsIter};
use crate::raw::{RawBlock, RawRange};
use crate::{Error, MetadataBlockKind};

impl<'r> Builder<'r> {
    pub fn read(&mut self) -> Result<(), Error> {
        let rows = self.rows;
        let input = rows.input().options(self.constructs);
        let texts = input.short_texts(&rows.contents)?;
        let mut texts = texts.iter();
        for (number, block) in rows.blocks.iter().enumerate() {
            self.close_to(block.depth, block.line - 1);
            if block.kind() != BlockKind::BlankLine {
                let next = rows.blocks.get(number + 1);
                let last = next.map_or(rows.line_count(), |next| next.line - 1);
                self.block(block, last.max(block.line), &mut texts)?;
            }
        }
        self.close_to(0, rows.line_count());
        Ok(())
    }

    /// Adds a block, whose last line is this if it is no container.
    fn block(
        &mut self,
        block: &'r RawBlock,
        last: usize,
        texts: &mut ShortTextsIter,
    ) -> Result<(), Error> {
        let rows = self.rows;
        if self.line != block.line {
            self.line = block.line;
            self.at = self.front_of(block.line);
        }
        let (start, end, pieces) = (self.at, rows.line_end(last), rows.pieces_of(block));
        match block.kind() {
            BlockKind::BlankLine => {}
            BlockKind::ThematicBreak => self.leaf(What::Rule, start, end),
            BlockKind::Heading => self.heading(block, last, texts.next())?,
            BlockKind::Paragraph => self.paragraph(block, last, texts.next())?,
            BlockKind::IndentedCode => self.indented_code(block),
            BlockKind::FencedCode if block.marker == b'$' => self.math(pieces, start, end),
            BlockKind::FencedCode => self.fenced_code(pieces, start, end),
            BlockKind::FrontMatter => self.front_matter(pieces, start, end),
            BlockKind::Html => {
                self.open(What::HtmlBlock, pieces.first().map_or(start, |it| it.start));
                self.lines(pieces, What::HtmlLine);
                self.close(end);
            }
            BlockKind::Quote => {
                self.open(What::BlockQuote, start);
                self.containers.push(block);
                self.quotes += 1;
                self.pass_marker(1);
            }
            BlockKind::Item => self.open_item(block, start),
        }
        Ok(())
    }

    /// Where what is in the quotes that are open begins on a line. A lazy line has fewer markers.
    fn front_of(&self, line: usize) -> usize {
        let (start, end) = (self.rows.line_start(line), self.rows.line_end(line));
        let mut rest = without_blanks(&self.rows.text[start..end]);
        for _ in 0..self.quotes {
            match rest.strip_prefix('>') {
                Some(inside) => rest = without_blanks(inside),
                None => break,
            }
        }
        end - rest.len()
    }

    /// Passes a marker, and the spaces and tabs after it.
    fn pass_marker(&mut self, len: usize) {
        self.end = self.at + len;
        let rest = &self.rows.text[self.end..];
        self.at = self.end + rest.len() - without_blanks(rest).len();
    }

    /// Closes the containers that are deeper, which end with this line.
    fn close_to(&mut self, depth: usize, line: usize) {
        while self.containers.len() > depth {
            if let Some(block) = self.containers.pop() {
                if block.kind() == BlockKind::Quote {
                    self.quotes -= 1;
                    self.end = self.rows.line_end(line);
                }
                self.close(self.end);
                if block.ends_list() {
                    self.close(self.end);
                }
            }
        }
    }

    fn open_item(&mut self, block: &'r RawBlock, start: usize) {
        let is_ordered = matches!(block.marker, b'.' | b')');
        if block.begins_list() {
            let list = What::List {
                start: is_ordered.then_some(block.number),
                is_tight: !block.is_loose(),
            };
            self.open(list, start);
        }
        self.open(What::ListItem { checked: None }, start);
        self.containers.push(block);
        let digits = self.rows.text[start..]
            .bytes()
            .take_while(u8::is_ascii_digit);
        self.pass_marker(digits.count() + 1);
    }

    fn leaf(&mut self, what: What, start: usize, end: usize) {
        self.push(what, start, end);
        self.end = end;
    }

    fn inside(&mut self, pieces: &[Piece], events: Option<ShortIter>) -> Result<(), Error> {
        events.map_or(Ok(()), |events| self.inline(pieces, events))
    }

    /// A heading. One that is underlined has more lines than one, and may come after definitions.
    fn heading(
        &mut self,
        block: &RawBlock,
        last: usize,
        events: Option<ShortIter>,
    ) -> Result<(), Error> {
        let pieces = self.rows.pieces_of(block);
        let first = pieces.first().filter(|_| last > block.line);
        let start = first.map_or(self.at, |piece| piece.start);
        self.definitions(block.line, self.rows.line_of(start));
        let level = block.number as u8;
        self.open(What::Heading { level }, start);
        self.inside(pieces, events)?;
        self.close(self.rows.line_end(last));
        Ok(())
    }

    /// A paragraph, after the definitions at its front, or definitions alone.
    fn paragraph(
        &mut self,
        block: &RawBlock,
        last: usize,
        events: Option<ShortIter>,
    ) -> Result<(), Error> {
        let pieces = self.rows.pieces_of(block);
        if let [first, ..] = pieces {
            self.definitions(block.line, self.rows.line_of(first.start));
            let is_tight = match self.containers.last() {
                Some(holder) => holder.kind() == BlockKind::Item && !holder.is_loose(),
                None => false,
            };
            self.open(What::Paragraph { is_tight }, first.start);
            self.inside(pieces, events)?;
            self.close(pieces.last().map_or(first.end, |last| last.end));
        } else {
            self.definitions(block.line, last + 1);
        }
        Ok(())
    }

    /// The definitions that make up the lines from one to before another, of a text that begins at the front of the first. A lazy line may begin with `>` as text.
    /// That is passed too, and changes no place: each definition begins with `[` at the front of a line, and ends where a line does.
    fn definitions(&mut self, line: usize, after: usize) {
        let (rows, mut text, mut starts) = (self.rows, String::new(), Vec::new());
        for number in line..after {
            let is_first = number == line;
            let start = if is_first {
                self.at
            } else {
                self.front_of(number)
            };
            starts.push((text.len(), start));
            text += &rows.text[start..rows.line_end(number)];
            text.push('\n');
        }
        let byte = |index: usize| {
            let (from, at) = starts[starts.partition_point(|(from, _)| *from <= index) - 1];
            at + index - from
        };
        let mut at = 0;
        while at < text.len() {
            let (end, next) = first_end(&text[at..]);
            let number = self.define();
            let end = rows.text[..byte(at + end)]
                .trim_end_matches([' ', '\t'])
                .len();
            self.leaf(What::Definition(number), byte(at), end);
            at += next;
        }
    }

    /// Notes that the next item is a definition. Returns its number.
    fn define(&mut self) -> usize {
        let (rows, number) = (self.rows, self.definitions.len());
        let label = self.label(rows.definitions[number]);
        let (url, title) = self.target(&rows.targets[number]);
        self.definitions.push(DefinitionItem {
            item: self.items.len(),
            label,
            url,
            title,
        });
        number
    }

    /// Without the blank lines at its end, which are no part of it (CommonMark 4.4).
    fn indented_code(&mut self, block: &RawBlock) {
        let rows = self.rows;
        let pieces = rows.pieces_of(block);
        let is_filled = |it: &Piece| {
            !rows.text[it.start..it.end]
                .trim_matches([' ', '\t', '\r', '\n'])
                .is_empty()
        };
        let count = pieces
            .iter()
            .rposition(is_filled)
            .map_or(0, |last| last + 1);
        if let [first, ..] = &pieces[..count] {
            self.open(What::CodeBlock { info: None }, rows.indentation(first));
            self.lines(&pieces[..count], What::Text);
            self.close(rows.line_end(block.line + count - 1));
        }
    }

    /// The info string of what is fenced, which is its first piece.
    fn info(&mut self, pieces: &[Piece]) -> Text {
        let info = self.begin_string();
        if let Some(piece) = pieces.first() {
            self.push_part(piece.start, piece.end);
        }
        info
    }

    fn fenced_code(&mut self, pieces: &[Piece], start: usize, end: usize) {
        let info = self.info(pieces);
        self.open(What::CodeBlock { info: Some(info) }, start);
        self.lines(pieces.get(1..).unwrap_or_default(), What::Text);
        self.close(end);
    }

    fn math(&mut self, pieces: &[Piece], start: usize, end: usize) {
        let info = self.info(pieces);
        let lines = pieces.iter().skip(1).map(|piece| self.line(piece));
        let text = lines.collect::<String>();
        let text = self.make(&text);
        self.leaf(What::MathBlock { info, text }, start, end);
    }

    /// Front matter, with its fences.
    fn front_matter(&mut self, pieces: &[Piece], start: usize, end: usize) {
        let kind = match self.rows.text.as_bytes()[start] {
            b'+' => MetadataBlockKind::PlusesStyle,
            _ => MetadataBlockKind::YamlStyle,
        };
        self.open(What::FrontMatter(kind), start);
        self.lines(pieces, What::Text);
        self.close(end);
    }

    /// A line of code, of HTML or of front matter, with a line feed.
    fn line(&self, piece: &Piece) -> String {
        let line = self.rows.cut(piece);
        let line = with_line_feed(&line);
        let missing = if line.ends_with('\n') { "" } else { "\n" };
        format!("{line}{missing}")
    }

    /// The lines of code, of HTML or of front matter, each with a line feed.
    fn lines(&mut self, pieces: &[Piece], what: fn(Text) -> What) {
        for piece in pieces {
            let (start, end) = (piece.start, piece.end);
            let line = self.rows.cut(piece);
            let is_kept =
                piece.start_vs == 0 && line.ends_with('\n') && !line.contains(['\r', '\0']);
            let text = match is_kept {
                true => Text::Document(RawRange { start, end }),
                false => self.make(&self.line(piece)),
            };
            self.push(what(text), start, end);
        }
    }
}

fn without_blanks(line: &str) -> &str {
    line.trim_start_matches([' ', '\t'])
}
