//! Events of the rows of pages, which have the examples of CommonMark, rendered to HTML. The rows are those of the repository; without it there are none.

use markdown_inline::{html, parse, to_html, Html, LineEnds, Options};
use std::fs;
use std::path::Path;

const CRATES: &str = concat!(env!("CARGO_MANIFEST_DIR"), "/../../crates");

/// A text as rows write it, whose notation is that of `blocks.py` of `markdown_block_examples`.
fn plain(text: &str) -> String {
    let mut parts = text.split('⟦');
    let mut found = parts.next().unwrap().to_string();
    for part in parts {
        let (sign, rest) = part.split_once('⟧').unwrap();
        match (sign.strip_prefix("U+"), sign.split_once('×')) {
            (Some(number), _) => {
                found.push(char::from_u32(u32::from_str_radix(number, 16).unwrap()).unwrap())
            }
            (None, times) => {
                let (text, times) = times.unwrap();
                found += &text.repeat(times.parse().unwrap());
            }
        }
        found += rest;
    }
    [
        ('␊', "\n"),
        ('␍', "\r"),
        ('␉', "\t"),
        ('␋', "\u{b}"),
        ('␀', "\0"),
    ]
    .iter()
    .fold(found, |text, (sign, meant)| text.replace(*sign, meant))
}

/// Of each row of a file the words before its first text, and its texts.
fn rows(path: &str) -> Vec<(String, Vec<String>)> {
    if !Path::new(CRATES).exists() {
        return Vec::new();
    }
    let file = fs::read_to_string(format!("{CRATES}/{path}")).unwrap();
    let lines = file
        .lines()
        .filter(|line| !line.starts_with(['#', '=']) && line.contains('«'));
    let texts = |line: &str| -> Vec<String> {
        let found = line.split('«').skip(1);
        found
            .map(|text| plain(text.split_once('»').unwrap().0))
            .collect()
    };
    lines
        .map(|line| (line.split_once('«').unwrap().0.to_string(), texts(line)))
        .collect()
}

/// The documents of all rows of blocks and of pages.
fn documents() -> Vec<String> {
    let files = [
        "markdown_block_examples/tools/standard.txt",
        "markdown_block_examples/tools/choices.txt",
        "markdown_block_examples/tools/extended.txt",
        "markdown_page_examples/tools/choices.txt",
    ];
    let all = files.iter().flat_map(|file| rows(file));
    all.map(|(_, texts)| texts[0].clone()).collect()
}

fn rendered(document: &str, options: &Options) -> String {
    let mut page = String::new();
    html::push_html(&mut page, parse(document, options).unwrap().events());
    page
}

/// The options of the rows: HTML stays HTML, and links lead anywhere.
fn of_rows() -> Options {
    Options::commonmark().html(Html::Raw).any_link(true)
}

#[test]
fn the_examples_of_commonmark_have_their_html() {
    let documents = rows("markdown_block_examples/tools/standard.txt");
    let pages = rows("markdown_page_examples/tools/standard.txt");
    assert_eq!(documents.len(), pages.len());
    for ((_, document), (_, page)) in documents.iter().zip(&pages) {
        assert_eq!(
            rendered(&document[0], &of_rows()),
            page[0],
            "{:?}",
            document[0]
        );
    }
}

/// The options that words of a row say; none if one of them is no option of a document here.
fn options_by(words: &str) -> Option<Options> {
    let mut options = of_rows();
    for word in words.split_whitespace() {
        match word {
            "lf" => options.line_ends = LineEnds::Lf,
            "crlf" => options.line_ends = LineEnds::CrLf,
            "safe" => (options.html, options.any_link) = (Html::Escape, false),
            "strikethrough" => options.strikethrough = true,
            "bare_urls" => options.bare_urls = true,
            "tasks" => options.tasks = true,
            "math" => options.math = true,
            "front_matter" => options.front_matter = true,
            "two_tildes" | "two_dollars" | "calls" | "crate_rules" => return None,
            word => panic!("the word {word} of a row"),
        }
    }
    Some(options)
}

#[test]
fn chosen_rows_have_their_html() {
    for (words, texts) in rows("markdown_page_examples/tools/choices.txt") {
        let (document, page) = (&texts[0], &texts[1]);
        if let Some(options) = options_by(&words) {
            assert_eq!(to_html(document, &options).unwrap(), *page, "{words}");
            if options.line_ends == LineEnds::Lf || !page.contains('\r') {
                assert_eq!(rendered(document, &options), *page, "{words}");
            }
        }
    }
}

#[test]
fn events_have_the_html_of_the_document() {
    let documents = documents();
    assert!(documents.len() > 1000 || !Path::new(CRATES).exists());
    for document in documents {
        for bits in 0..128u8 {
            let is_on = |bit: u8| bits >> bit & 1 > 0;
            let options = Options::commonmark()
                .strikethrough(is_on(0))
                .bare_urls(is_on(1))
                .tasks(is_on(2))
                .math(is_on(3))
                .html(if is_on(4) { Html::Raw } else { Html::Escape })
                .any_link(is_on(5))
                .front_matter(is_on(6));
            let wanted = to_html(&document, &options.clone().line_ends(LineEnds::Lf)).unwrap();
            assert_eq!(rendered(&document, &options), wanted, "{bits} {document:?}");
        }
    }
}

#[test]
fn a_limit_is_that_of_the_html() {
    let documents = documents().into_iter().filter(|it| it.contains("]:"));
    let mut refused = 0;
    for document in documents.take(200) {
        for limit in 1..8usize {
            let options = of_rows().limit(limit);
            let html = to_html(&document, &options);
            let parsed = parse(&document, &options);
            assert_eq!(
                html.as_ref().err(),
                parsed.as_ref().err(),
                "{limit} {document:?}"
            );
            refused += usize::from(html.is_err());
        }
    }
    assert!(refused > 100 || !Path::new(CRATES).exists());
}
