//! Reads cases of `bindings/tests/draw.py` from standard input, and prints what the library finds in each: events as the program of
//! `crates/markdown_test_runs` does, leaves, HTML in hexadecimal, or the events or the HTML of each text; where there are none, why.

use markdown_inline::html::push_html;
use markdown_inline::inline::{
    Constructs, Event, HtmlOptions, Htmls, Input, Leaf, Piece, Point, ShortEvent, TextContent,
};
use markdown_inline::{
    parse, to_html, Block, Definition, Document, Error, Html, Limit, LineEnds, Options, Refusal,
};
use std::io::{self, BufRead};

fn listed(word: &str) -> impl Iterator<Item = &str> {
    word.split(',').filter(|it| *it != "-")
}

fn bytes_of(word: &str) -> Vec<u8> {
    let digits: Vec<u32> = word.chars().filter_map(|c| c.to_digit(16)).collect();
    digits
        .chunks(2)
        .map(|pair| (pair[0] * 16 + pair[1]) as u8)
        .collect()
}

fn piece_of(word: &str) -> Piece {
    let numbers: Vec<usize> = word
        .split(['.', '-'])
        .map(|it| it.parse().unwrap())
        .collect();
    Piece {
        start: numbers[0],
        start_vs: numbers[1],
        end: numbers[2],
        end_vs: numbers[3],
    }
}

fn shown(event: Event) -> String {
    let sign = if event.is_enter() { '+' } else { '-' };
    let number = |it: Option<usize>| it.map_or("-".to_string(), |it| it.to_string());
    let link = event.link.map_or(String::new(), |link| {
        format!(
            ":{:?}:{}:{}",
            link.content,
            number(link.previous),
            number(link.next)
        )
    });
    format!(" {sign}{} {}{link}", event.name, place(event.point))
}

fn place(at: Point) -> String {
    format!("{}:{}:{}:{}", at.line, at.column, at.index, at.vs)
}

fn hexadecimal(bytes: &[u8]) -> String {
    bytes.iter().map(|byte| format!("{byte:02x}")).collect()
}

fn shown_leaf(leaf: Leaf) -> String {
    let (start, end) = (place(leaf.start), place(leaf.end));
    let bytes = hexadecimal(leaf.bytes);
    format!(
        " {} {start} {end} {}:{bytes}:{}",
        leaf.name, leaf.before, leaf.after
    )
}

// A label's definition, with the target that a word names.
fn define(input: &mut Input, label: &str, target: &str) {
    let target = target.trim_start_matches('=');
    let (destination, title) = match target.split_once(':') {
        Some((destination, title)) => (destination, Some(bytes_of(title))),
        None => (target, None),
    };
    let title = title.map(|it| String::from_utf8(it).unwrap());
    input.define_to(bytes_of(label), bytes_of(destination), title.as_deref());
}

fn content_of(word: &str) -> TextContent {
    let numbers: Vec<usize> = word
        .split(['-', ':'])
        .map(|it| it.parse().unwrap())
        .collect();
    TextContent {
        pieces: numbers[0]..numbers[1],
        first_of_item: numbers[2] == 1,
    }
}

fn texts_of(input: &Input, contents: &str) -> Result<String, Refusal> {
    let contents: Vec<TextContent> = listed(contents).map(content_of).collect();
    let texts = input.texts(&contents)?;
    let shown = texts
        .iter()
        .map(|events| " |".to_string() + &events.iter().map(shown).collect::<String>());
    Ok(shown.collect())
}

fn shown_short(event: ShortEvent) -> String {
    let sign = if event.is_enter() { '+' } else { '-' };
    let link = event.link.map_or(0, |content| content as u8 + 1);
    let told = event
        .definition
        .or(event.stands_for.map(|it| it as usize))
        .map_or(String::new(), |it| format!(":{it}"));
    format!(
        " {sign}{} {}:{}:{link}{told}",
        event.name, event.index, event.vs
    )
}

fn shorts_of(input: &Input, contents: &str) -> Result<String, Refusal> {
    let contents: Vec<TextContent> = listed(contents).map(content_of).collect();
    let texts = input.short_texts(&contents)?;
    let shown = texts
        .iter()
        .map(|events| " |".to_string() + &events.map(shown_short).collect::<String>());
    Ok(shown.collect())
}

// What HTML may contain and how it is written, by bits.
fn held(bits: &str) -> HtmlOptions {
    let bits: u32 = bits.parse().unwrap();
    let line_ends = match bits & 0x60 {
        0x20 => LineEnds::Lf,
        0x40 => LineEnds::CrLf,
        _ => LineEnds::Kept,
    };
    HtmlOptions::default()
        .raw_html(bits & 1 > 0)
        .any_link(bits & 2 > 0)
        .line_ends(line_ends)
}

fn html_of(html: Result<String, Error>) -> Result<String, Error> {
    Ok(format!(" {}", hexadecimal(html?.as_bytes())))
}

fn htmls_of(input: &Input, words: &[&str]) -> Result<String, Refusal> {
    let options = held(words[0]);
    let contents: Vec<TextContent> = listed(words[2]).map(content_of).collect();
    let input = input.clone().reference_limit(words[3].parse().unwrap());
    let htmls = input.htmls(&contents, options)?;
    let shown = htmls
        .iter()
        .map(|html| " |".to_string() + &hexadecimal(html.as_bytes()));
    Ok(shown.collect())
}

fn shown_block(block: Block, htmls: &Htmls) -> String {
    let flags = [block.begins_list, block.ends_list, block.is_loose];
    let flags = (0..3).fold(0, |bits, at| bits | u8::from(flags[at]) << at);
    let marker = block.marker.map_or(0, u32::from);
    let pieces = block.pieces.iter();
    let pieces = pieces
        .map(|it| format!(" {}.{}-{}.{}", it.start, it.start_vs, it.end, it.end_vs))
        .collect::<String>();
    let html = block.content.and_then(|number| htmls.get(number));
    let html = html.map_or(String::new(), |it| {
        " =".to_string() + &hexadecimal(it.as_bytes())
    });
    format!(
        " |{}:{}:{}:{}:{marker}:{flags}{pieces}{html}",
        block.kind as u8, block.depth, block.number, block.line
    )
}

fn shown_definition(it: Definition) -> String {
    let title = it.title.map(|title| hexadecimal(title.as_bytes()));
    format!(
        " ;{}={}{}",
        hexadecimal(it.label.as_bytes()),
        hexadecimal(it.url.as_bytes()),
        title.map_or(String::new(), |title| ":".to_string() + &title)
    )
}

// The blocks of a document, by the options and the footnotes of an input.
fn blocks_of(found: &Document, input: Input, words: &[&str]) -> Result<String, Refusal> {
    let input = input.reference_limit(words[1].parse().unwrap());
    let htmls = input.htmls(found.contents(), held(words[0]))?;
    let rows = found.blocks().map(|block| shown_block(block, &htmls));
    Ok(rows
        .chain(found.definitions().map(shown_definition))
        .collect())
}

// CommonMark with blocks beside its own, by bits.
fn with_blocks(bits: &str) -> Options {
    let bits: u32 = bits.parse().unwrap();
    Options::commonmark()
        .math(bits & 1 > 0)
        .front_matter(bits & 2 > 0)
}

// The HTML of a document; with line feeds that of its events.
fn page_of(document: &[u8], options: &Options) -> Result<String, Refusal> {
    if options.line_ends != LineEnds::Lf {
        return to_html(document, options);
    }
    let mut page = String::new();
    push_html(&mut page, parse(document, options)?.events());
    Ok(page)
}

// What is found in a case, or why nothing is.
fn answer(words: &[&str]) -> Result<String, Refusal> {
    let document = bytes_of(words[5]);
    let pieces: Vec<Piece> = listed(words[2]).map(piece_of).collect();
    let options = Constructs::from_bits(words[1].parse().unwrap());
    let mut input = Input::new(&document)
        .pieces(&pieces)
        .options(options)
        .footnotes(listed(words[4]).map(bytes_of));
    let targets = words.get(7).copied().unwrap_or_default();
    match words[0] {
        "html" | "htmls" => listed(words[3])
            .zip(listed(targets))
            .for_each(|(label, target)| define(&mut input, label, target)),
        _ => input = input.definitions(listed(words[3]).map(bytes_of)),
    }
    match words[0] {
        "string" => Ok(input.string()?.iter().map(shown).collect()),
        "text" => Ok(input.text()?.iter().map(shown).collect()),
        "leaves" => Ok(input.leaves()?.iter().map(shown_leaf).collect()),
        "html" => Ok(html_of(input.html(held(words[6])))?),
        "document" => {
            let held = held(words[6]);
            let asked = with_blocks(words[8])
                .strikethrough(options.contains(Constructs::GFM_STRIKETHROUGH))
                .bare_urls(options.contains(Constructs::GFM_AUTOLINK_LITERAL))
                .tasks(options.contains(Constructs::GFM_TASK_LIST_ITEM))
                .html(if held.raw_html {
                    Html::Raw
                } else {
                    Html::Escape
                })
                .any_link(held.any_link)
                .line_ends(held.line_ends)
                .limit(words[7].parse::<usize>().unwrap());
            let html = page_of(&document, &asked)?;
            Ok(format!(" {}", hexadecimal(html.as_bytes())))
        }
        "blocks" => {
            let found = parse(&document, &with_blocks(words[8]).limit(Limit::None))?;
            let input = found.input().options(options);
            blocks_of(
                &found,
                input.footnotes(listed(words[4]).map(bytes_of)),
                &words[6..],
            )
        }
        "htmls" => htmls_of(&input, &words[6..]),
        "shorts" => shorts_of(&input, words[6]),
        _ => texts_of(&input, words[6]),
    }
}

fn main() -> io::Result<()> {
    for line in io::stdin().lock().lines() {
        let line = line?;
        let words: Vec<&str> = line.split(' ').collect();
        let shown = answer(&words).unwrap_or_else(|refusal| match words[0] {
            "string" => " no content".to_string(),
            "text" => " no text".to_string(),
            _ => match refusal.at {
                Some(number) => format!(" {number}: {}", refusal.error),
                None => format!(": {}", refusal.error),
            },
        });
        println!("{}{shown}", words[0]);
    }
    Ok(())
}
