//! The blocks of documents, and what is in their texts.

use markdown_inline::inline::{Constructs, HtmlOptions, Input, Name, Piece, TextContent};
use markdown_inline::{parse, to_html, BlockKind, Document, Error, Limit, Options, Refusal};

const DOCUMENT: &str = "# é *a*\n\n> 3) [b][B] ![c](/d)\n>    `e`\n>\n> 4) ~~~ f&amp;g\n>    \th\n>    ~~~\n\n***\n- i\n- [x] <jj:k>\n<!-- l\n\nm\n=\n[b]: </n> \"o\"\n";

fn parsed(text: &str) -> Document<'_> {
    parse(text, &Options::commonmark()).unwrap()
}

#[test]
fn each_block_is_told() {
    use BlockKind::*;
    let found = parsed(DOCUMENT);
    let rows: Vec<_> = found
        .blocks()
        .map(|it| {
            let list = [it.begins_list, it.ends_list, it.is_loose];
            (it.kind, it.depth, it.number, it.marker, list, it.line)
        })
        .collect();
    let none = [false; 3];
    assert_eq!(
        rows,
        [
            (Heading, 0, 1, None, none, 1),
            (BlankLine, 0, 0, None, none, 2),
            (Quote, 0, 0, None, none, 3),
            (Item, 1, 3, Some(')'), [true, false, true], 3),
            (Paragraph, 2, 0, None, none, 3),
            (BlankLine, 2, 0, None, none, 5),
            (Item, 1, 4, Some(')'), [false, true, true], 6),
            (FencedCode, 2, 0, Some('~'), none, 6),
            (BlankLine, 0, 0, None, none, 9),
            (ThematicBreak, 0, 0, None, none, 10),
            (Item, 0, 0, Some('-'), [true, false, false], 11),
            (Paragraph, 1, 0, None, none, 11),
            (Item, 0, 0, Some('-'), [false, true, false], 12),
            (Paragraph, 1, 0, None, none, 12),
            (Html, 0, 2, None, none, 13),
        ]
    );
    assert_eq!(found.blocks().next().unwrap().pieces, [Piece::from(2..8)]);
    let code = found.blocks().nth(7).unwrap();
    assert!(code.lines().eq(["\th\n"]));
    assert_eq!(code.info().unwrap().as_deref(), Some("f&g"));
    assert_eq!(found.blocks().next().unwrap().info(), Ok(None));
    assert_eq!(
        (found.blocks().len(), found.blocks().nth(15).is_none()),
        (15, true)
    );
    let numbers = |it: markdown_inline::Block| (it.kind, it.line);
    let mut both = found.blocks().map(numbers).collect::<Vec<_>>();
    both.reverse();
    assert!(found.blocks().rev().map(numbers).eq(both));
    assert!(parsed("").blocks().next().is_none());
    let shown = format!("{:?}", parsed("# a"));
    let wanted = "[Block { kind: Heading, depth: 0, number: 1, line: 1, .. }]";
    assert_eq!(shown, wanted);
}

#[test]
fn front_matter_and_math_are_told() {
    let options = Options::commonmark().math(true).front_matter(true);
    let found = parse("+++\na\n+++\n$$ b&amp;\nc\n", &options).unwrap();
    let rows = found.blocks().map(|it| {
        let lines: String = it.lines().collect();
        (it.kind, it.line, it.marker, lines, it.info().unwrap())
    });
    let wanted = [
        (BlockKind::FrontMatter, 1, None, "a\n".to_string(), None),
        (
            BlockKind::FencedCode,
            4,
            Some('$'),
            "c\n".to_string(),
            Some("b&".to_string()),
        ),
    ];
    assert!(rows.eq(wanted));
}

#[test]
fn texts_are_those_of_their_pieces() {
    let document = DOCUMENT.replace("<!--", "!");
    let found = parsed(&document);
    let options = Constructs::COMMONMARK | Constructs::GFM;
    let input = found.input().options(options);
    let (texts, held) = (
        input.texts(found.contents()).unwrap(),
        HtmlOptions::default(),
    );
    let htmls = input.htmls(found.contents(), held).unwrap();
    let mut many = 0;
    for block in found.blocks() {
        let has_text = matches!(block.kind, BlockKind::Heading | BlockKind::Paragraph);
        assert_eq!(block.content, has_text.then_some(many));
        if !has_text {
            continue;
        }
        let number = many;
        many += 1;
        let is_task = block.lines().any(|it| it.starts_with("[x]"));
        let options = if is_task {
            options | Constructs::FIRST_OF_ITEM
        } else {
            options
        };
        let one = Input::new(&document)
            .pieces(block.pieces)
            .options(options)
            .definition_to("b", "/n", Some("o"));
        assert!(texts
            .get(number)
            .unwrap()
            .into_iter()
            .eq(&one.text().unwrap()));
        assert_eq!(htmls.get(number).unwrap(), one.html(held).unwrap());
    }
    assert_eq!((many, texts.len(), htmls.len()), (6, 6, 6));
}

#[test]
fn links_have_places_of_the_document() {
    let found = parsed(DOCUMENT);
    let links = found.input().links(found.contents()).unwrap();
    let places: Vec<_> = links
        .iter()
        .map(|it| (it.name, it.start.line, it.start.column, &*it.destination))
        .collect();
    let wanted = [(Name::Image, 3, 13, "/d"), (Name::Autolink, 12, 7, "jj:k")];
    assert_eq!(places, wanted);
}

#[test]
fn definitions_are_told() {
    let document = "[A]: /b \"c\"\n[a]: <d&amp;\\*>\n\n> [é\n> f]:\n> g\n\n[a] [é f] [h]";
    let found = parsed(document);
    let told = found.definitions();
    assert!(told.map(|it| (it.label, it.url, it.title)).eq([
        ("A", "/b", Some("c")),
        ("a", "d&*", None),
        ("é\nf", "g", None),
    ]));
    let htmls = |input: Input| {
        let found = input.htmls(found.contents(), HtmlOptions::default());
        found.unwrap().as_str().to_string()
    };
    let both = "<a href=\"/b\" title=\"c\">a</a> <a href=\"g\">é f</a> ";
    assert_eq!(htmls(found.input()), both.to_string() + "[h]");
    // What the input is given besides comes after the document's own.
    let more = found.input().definition_to("h", "/i", None);
    assert_eq!(htmls(more), both.to_string() + "<a href=\"/i\">h</a>");
}

#[test]
fn the_first_paragraph_of_an_item_is_told() {
    for (document, wanted) in [
        ("- a\n- b\n\n  c", &[true, true, false][..]),
        ("-\n  a", &[true]),
        ("- [r]: /s\n\n  a", &[true, true]),
        ("- # a\n\n  b", &[false, false]),
        ("- > a", &[false]),
        ("-\n\na", &[false]),
        ("- - a\n\n  b", &[true, false]),
        ("a\n\n- ***\n  b", &[false, false]),
    ] {
        let found = parsed(document);
        let firsts: Vec<_> = found.contents().iter().map(|it| it.first_of_item).collect();
        assert_eq!(firsts, wanted, "{document}");
    }
}

#[test]
fn lines_with_tabs_are_cut() {
    for (document, wanted) in [
        ("-\t\ta\n", &["  a\n"][..]),
        (">\t\ta\n> \tb", &["  a\n"]),
        ("\t\ta\tb\n", &["\ta\tb\n"]),
        ("> ~~~\n>\t\té\r\n>", &["  \té\r\n", ""]),
        ("~~~", &[]),
    ] {
        let found = parsed(document);
        let is_code = |kind| matches!(kind, BlockKind::IndentedCode | BlockKind::FencedCode);
        let code = found.blocks().find(|it| is_code(it.kind)).unwrap();
        assert!(code.lines().eq(wanted.iter().copied()), "{document}");
    }
    let html = parsed("> <pre>a\n>");
    assert!(html.blocks().nth(1).unwrap().lines().eq(["<pre>a\n"]));
}

#[test]
fn definitions_bring_no_more_than_a_limit() {
    let (document, held) = (
        "[a]\n\n".repeat(101) + "[a]: " + &"x".repeat(1000),
        HtmlOptions::default(),
    );
    let len_within = |limit: Limit| {
        let options = Options::commonmark().limit(limit);
        let html = to_html(&document, &options);
        html.map(|it| it.len()).map_err(Error::from)
    };
    for limit in [Limit::Default, Limit::Bytes(1), Limit::Bytes(100_999)] {
        assert_eq!(len_within(limit), Err(Error::References));
    }
    for limit in [Limit::Bytes(101_000), Limit::None] {
        assert_eq!(len_within(limit), Ok(101 * 1024));
    }
    let padded = document.clone() + "\n\n" + &"y".repeat(100_000);
    assert!(to_html(&padded, &Options::commonmark()).is_ok());
    let refused = parse(&document, &Options::commonmark()).map(drop);
    assert_eq!(refused.map_err(Error::from), Err(Error::References));
    let found = parse(&document, &Options::commonmark().limit(Limit::None)).unwrap();
    let input = found.input().reference_limit(0);
    let refused = input.htmls(found.contents(), held).unwrap_err();
    let wanted = Refusal {
        error: Error::References,
        at: Some(100),
    };
    assert_eq!(refused, wanted);
}

#[test]
fn what_is_no_document_is_refused() {
    let refused = Refusal {
        error: Error::NotUtf8,
        at: Some(1),
    };
    assert_eq!(
        parse(b"a\xff", &Options::commonmark()).unwrap_err(),
        refused
    );
    let found = parsed("a");
    let input = found.input().options(Constructs::from_bits(1 << 31));
    let refused = input.texts(&[TextContent::from(0..1)]).map(drop);
    assert_eq!(refused.map_err(Error::from), Err(Error::UnknownOption));
}

/// A byte order mark is no text, and places count it.
#[test]
fn a_byte_order_mark_is_passed_over() {
    let safe = Options::commonmark();
    for document in ["# a [b](c)\n", "> a\n", "[a]: /b\n\n[a]\n", ""] {
        let marked = format!("\u{feff}{document}");
        assert_eq!(to_html(&marked, &safe), to_html(document, &safe));
        let (found, plain) = (parsed(&marked), parsed(document));
        assert_eq!(format!("{found:?}"), format!("{plain:?}"));
        let lines = found.blocks().flat_map(|block| block.lines());
        assert!(lines.eq(plain.blocks().flat_map(|block| block.lines())));
        let starts = |it: &Document| -> Vec<usize> {
            let pieces = it.blocks().flat_map(|block| block.pieces.to_vec());
            pieces.map(|piece| piece.start).collect()
        };
        let moved: Vec<_> = starts(&plain).iter().map(|start| start + 3).collect();
        assert_eq!(starts(&found), moved);
        let definitions = |it: &Document| -> Vec<String> {
            let all = it
                .definitions()
                .map(|it| format!("{} {} {:?}", it.label, it.url, it.title));
            all.collect()
        };
        assert_eq!(definitions(&found), definitions(&plain));
    }
    // Code with tabs on the first line is that of the HTML.
    let marked = "\u{feff}>\t\ta\n";
    let code: String = parsed(marked).blocks().nth(1).unwrap().lines().collect();
    let html = format!("<blockquote>\n<pre><code>{code}</code></pre>\n</blockquote>\n");
    assert_eq!(to_html(marked, &safe).unwrap(), html);
}
