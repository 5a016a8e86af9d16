//! Reads contents that are parted by blank lines, so many times, as `bench/calls.c` does from C; with `html` it makes HTML of all of them.
//!
//! usage: calls REPEATS [html] < CONTENTS

use markdown_inline::inline::{Events, HtmlOptions, Htmls, Input, Piece, TextContent};
use std::io::{self, Read};

fn write_html(document: &str, htmls: &mut Htmls) -> Result<(), markdown_inline::Refusal> {
    let (mut pieces, mut contents, mut start) = (Vec::new(), Vec::new(), 0);
    for content in document.split("\n\n") {
        let end = start + content.len();
        contents.push(TextContent {
            pieces: pieces.len()..pieces.len() + 1,
            ..TextContent::default()
        });
        pieces.push(Piece {
            start,
            end,
            ..Piece::default()
        });
        start = end + 2;
    }
    let input = Input::new(document).pieces(&pieces);
    input.htmls_into(&contents, HtmlOptions::default(), htmls)
}

fn main() -> Result<(), Box<dyn std::error::Error>> {
    let repeats: usize = std::env::args().nth(1).map_or(Ok(1), |it| it.parse())?;
    let is_html = std::env::args().nth(2).as_deref() == Some("html");
    let mut text = String::new();
    io::stdin().read_to_string(&mut text)?;
    let document = text.trim_end_matches('\n');
    let contents: Vec<&str> = document.split("\n\n").collect();
    let (mut events, mut htmls) = (Events::new(), Htmls::new());
    for _ in 0..repeats {
        if is_html {
            write_html(document, &mut htmls)?;
            continue;
        }
        for content in &contents {
            Input::new(*content).text_into(&mut events)?;
        }
    }
    Ok(())
}
