//! Inputs that are built in chains, in loops and by lists, and memory that is used again.

use markdown_inline::inline::{
    text, Constructs, Events, HtmlOptions, Input, Leaves, Name, Piece, ShortTexts, TextContent,
    Texts,
};
use markdown_inline::{Error, Refusal};

fn piece(start: usize, end: usize) -> Piece {
    Piece {
        start,
        end,
        ..Piece::default()
    }
}

fn content(pieces: std::ops::Range<usize>) -> TextContent {
    TextContent {
        pieces,
        first_of_item: false,
    }
}

#[test]
fn lists_and_loops_define_as_chains_do() {
    let document = "[a] [b c] [^d]";
    let options = Constructs::COMMONMARK | Constructs::GFM;
    let chain = Input::new(document)
        .options(options)
        .definition("a")
        .definition("B c")
        .footnote("d");
    let lists = Input::new(document)
        .options(options)
        .definitions(["a", "B c"])
        .footnotes([String::from("d")]);
    let mut steps = Input::new(document);
    steps.set_options(options);
    ["a", "B c"].iter().for_each(|label| steps.define(label));
    steps.define_footnote(b"d");
    let wanted: Vec<_> = chain.text().unwrap().iter().collect();
    for input in [lists, steps] {
        assert!(input.text().unwrap().iter().eq(wanted.iter().copied()));
    }
    let calls = wanted
        .iter()
        .filter(|event| event.name == Name::GfmFootnoteCall);
    assert_eq!(calls.count(), 2);
    assert_eq!(
        wanted
            .iter()
            .filter(|event| event.name == Name::Link)
            .count(),
        4
    );
}

#[test]
fn a_list_of_definitions_says_where_each_leads() {
    let list = [("a", "/b", None), ("C", "/d", Some("e"))];
    let input = Input::new("[a] [c]").definitions_to(list);
    assert_eq!(
        input.html(HtmlOptions::default()).unwrap(),
        "<a href=\"/b\">a</a> <a href=\"/d\" title=\"e\">c</a>"
    );
}

#[test]
fn pieces_are_set_again_and_again() {
    let document = "*a*\n\n`b`\n\nc";
    let mut input = Input::new(document);
    let mut found = Vec::new();
    for range in [(0, 3), (5, 8), (10, 11)] {
        let local = vec![piece(range.0, range.1)];
        input.set_pieces(local);
        found.push(input.text().unwrap().get(0).unwrap().name);
    }
    assert_eq!(found, [Name::Emphasis, Name::CodeText, Name::Data]);
    input.set_pieces([piece(0, 99)]);
    assert_eq!(input.text().unwrap_err(), Error::NoContent);
}

#[test]
fn answers_take_the_place_of_earlier_ones() {
    let (mut events, mut leaves, mut texts, mut html) = (
        Events::new(),
        Leaves::new(),
        Texts::new(),
        String::from("before"),
    );
    let options = HtmlOptions::default();
    for document in ["a *b* `c`", "d", "", "[e](f \"g\nh\")", "<i>&amp;"] {
        let input = Input::new(document);
        let contents = [content(0..1), content(0..0), content(0..1)];
        input.string_into(&mut events).unwrap();
        assert!(events.iter().eq(&input.string().unwrap()));
        input.text_into(&mut events).unwrap();
        assert!(events.iter().eq(&input.text().unwrap()));
        input.leaves_into(&mut leaves).unwrap();
        assert!(leaves.iter().eq(&input.leaves().unwrap()));
        input.html_into(options, &mut html).unwrap();
        assert_eq!(html, input.html(options).unwrap());
        input.texts_into(&contents, &mut texts).unwrap();
        assert_eq!((texts.len(), texts.get(1).map(|it| it.len())), (3, Some(0)));
        for number in [0, 2] {
            assert!(texts.get(number).unwrap().iter().eq(&events));
        }
    }
    let wrong = Input::new("a\n\nb");
    assert_eq!(wrong.leaves_into(&mut leaves), Err(Error::BlankLine));
    assert_eq!(wrong.html_into(options, &mut html), Err(Error::BlankLine));
    let refusal = Err(Refusal {
        error: Error::BlankLine,
        at: Some(1),
    });
    let (contents, mut shorts) = ([content(0..0), content(0..1)], ShortTexts::new());
    assert_eq!(wrong.texts_into(&contents, &mut texts), refusal);
    assert_eq!(wrong.short_texts_into(&contents, &mut shorts), refusal);
    assert!(leaves.is_empty() && html.is_empty());
    assert_eq!((texts.len(), shorts.len()), (1, 1));
}

/// A text of little else than constructs has more than is expected of its length.
#[test]
fn what_is_more_than_expected_is_found_too() {
    let document = "[a](b)".repeat(3000);
    let input = Input::new(&document);
    let events = input.text().unwrap();
    assert!(events.len() > 4 * document.len());
    assert_eq!(
        input
            .texts(&[content(0..1), content(0..1)])
            .unwrap()
            .iter()
            .map(|it| it.len())
            .sum::<usize>(),
        2 * events.len()
    );
    let contents = [content(0..1), content(0..0), content(0..1)];
    let shorts = input.short_texts(&contents).unwrap();
    let lens: Vec<_> = shorts.iter().map(|it| it.len()).collect();
    assert_eq!(lens, [events.len(), 0, events.len()]);
    assert!(shorts.get(2).unwrap().eq(shorts.get(0).unwrap()));
    assert_eq!(input.leaves().unwrap().len(), document.len());
    assert_eq!(
        input.html(HtmlOptions::default()).unwrap(),
        "<a href=\"b\">a</a>".repeat(3000)
    );
}

/// HTML that is longer than expected is found by a second call: with footnotes, which are numbered from the first content on, and without.
#[test]
fn footnotes_are_numbered_through_all_contents() {
    let document = "[^n]\n\n".repeat(60);
    let pieces: Vec<_> = (0..60).map(|it| piece(6 * it, 6 * it + 4)).collect();
    let contents: Vec<_> = (0..60).map(|it| content(it..it + 1)).collect();
    let options = Constructs::COMMONMARK | Constructs::GFM;
    let input = Input::new(&document).pieces(&pieces).options(options);
    let without = input.htmls(&contents, HtmlOptions::default()).unwrap();
    assert!(without.iter().all(|it| it == "[^n]") && without.len() == 60);
    let htmls = input
        .footnote("n")
        .htmls(&contents, HtmlOptions::default())
        .unwrap();
    assert!(htmls.as_str().len() > 4 * document.len());
    for (number, html) in htmls.iter().enumerate().skip(1) {
        assert!(html.contains(&format!("id=\"user-content-fnref-n-{}\"", number + 1)));
    }
    let links = "&<".repeat(40);
    let linked = Input::new(&links);
    let html = linked.htmls(&[content(0..1), content(0..1)], HtmlOptions::default());
    assert_eq!(html.unwrap().get(1), Some(&*"&amp;&lt;".repeat(40)));
}

#[test]
fn numbers_of_a_chain_lead_to_their_events() {
    let document = "x\n\n[a](b \"c\nd\")";
    let input = Input::new(document);
    let pieces = [piece(0, 1), piece(3, document.len())];
    let texts = input
        .pieces(&pieces)
        .texts(&[content(0..1), content(1..2)])
        .unwrap();
    let events = texts.get(1).unwrap();
    let first = events
        .iter()
        .position(|it| it.name == Name::ResourceTitleString)
        .unwrap()
        + 1;
    let chain: Vec<_> = events.chain(first).collect();
    assert_eq!(chain.len(), 3);
    for pair in chain.windows(2) {
        let (before, after) = (pair[0].1.link.unwrap(), pair[1].1.link.unwrap());
        assert_eq!(
            (before.next, after.previous),
            (Some(pair[1].0), Some(pair[0].0))
        );
        assert_eq!(events.get(pair[1].0), Some(pair[1].1));
    }
    assert!(chain
        .iter()
        .all(|(_, event)| event.is_enter() && !event.is_exit()));
    assert_eq!(events.chain(events.len()).count(), 0);
    assert_eq!(
        events
            .chain(0)
            .map(|(number, _)| number)
            .collect::<Vec<_>>(),
        [0]
    );
    assert_eq!(events.iter().nth(first), events.get(first));
    assert!(events.iter().next_back().unwrap().is_exit() && !events.is_empty());
    assert_eq!(
        format!("{:?}", texts.get(0).unwrap()),
        format!("{:?}", text("x").unwrap())
    );
}
