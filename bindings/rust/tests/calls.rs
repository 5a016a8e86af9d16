//! Statuses, memory that is used again, and calls on several threads.

use markdown_inline::inline::{
    identifier, reference, reference_with, string, strings, strings_with, text, Constructs, Event,
    Events, HtmlOptions, Htmls, Input, Name, Piece, ShortEvent, ShortTexts, StringOptions,
    TextContent, Texts, NO_LIMIT,
};
use markdown_inline::{is_right_version, to_html, Error, Html, LineEnds, Options, Refusal};
use std::thread;

#[test]
fn the_version_is_right() {
    assert!(is_right_version());
}

#[test]
fn pieces_are_made_of_lines() {
    let document = "- \ta\t \r\n \t b  \n\u{e9} \n\nd";
    let pieces = Piece::of_lines(document, &[1, 8, 15]).unwrap();
    assert_eq!(pieces, [(3..8), (11..15), (15..17)].map(Piece::from));
    assert!(Input::new(document).pieces(&pieces).is_text().is_ok());
    assert_eq!(Piece::of_lines("", &[]), Ok(Vec::new()));
    let rows = [
        ("a", vec![0, 0], Error::NoContent, 1),
        ("a\nb", vec![2, 0], Error::NoContent, 1),
        ("a\nb\nc", vec![0, 4], Error::NoContent, 1),
        ("a", vec![9], Error::NoContent, 0),
        ("\u{e9}", vec![1], Error::NoContent, 0),
        ("a\n \t", vec![0, 2], Error::BlankLine, 1),
        ("a", vec![1], Error::BlankLine, 0),
    ];
    for (document, starts, error, at) in rows {
        let at = Some(at);
        assert_eq!(
            Piece::of_lines(document, &starts),
            Err(Refusal { error, at })
        );
    }
}

#[test]
fn each_error_comes() {
    let past_end = [Piece {
        end: 9,
        ..Piece::default()
    }];
    let unknown = Constructs::from_bits(1 << 31);
    let found = [
        Input::new("a").options(unknown).text().map(drop),
        Input::new("a").options(unknown).string().map(drop),
        text(b"\xff").map(drop),
        string(b"\xff").map(drop),
        Input::new(b"\xff").is_content(),
        text("a\n\nb").map(drop),
        Input::new("a\n").is_text(),
        Input::new("a").pieces(&past_end).text().map(drop),
        Input::new("a").pieces(&past_end).is_content(),
        Input::new("a").definition(b"\xff").text().map(drop),
        Input::new("a").footnote(b"\xff").text().map(drop),
        Input::new("a")
            .definition_to("b", b"\xff", None)
            .html(HtmlOptions::default())
            .map(drop),
        reference("&nothing;").map(drop),
        reference("a").map(drop),
    ];
    let wanted = [
        Error::UnknownOption,
        Error::UnknownOption,
        Error::NotUtf8,
        Error::NotUtf8,
        Error::NotUtf8,
        Error::BlankLine,
        Error::BlankLine,
        Error::NoContent,
        Error::NoContent,
        Error::Definition,
        Error::Definition,
        Error::Definition,
        Error::NoReference,
        Error::NoReference,
    ];
    assert_eq!(found.map(|it| it.unwrap_err()), wanted);
    assert!(wanted.iter().all(|it| !it.to_string().is_empty()));
}

#[test]
fn an_empty_document_has_no_events() {
    assert!(text("").unwrap().is_empty());
    assert!(Input::new("a").pieces(&[]).text().unwrap().is_empty());
}

#[test]
fn memory_is_used_again() {
    let mut events = Events::new();
    let long = "*a* ".repeat(2000) + "b";
    Input::new(&long).text_into(&mut events).unwrap();
    let count = events.len();
    Input::new("a").text_into(&mut events).unwrap();
    assert_eq!(events.len(), 2);
    Input::new(&long).text_into(&mut events).unwrap();
    assert_eq!(events.len(), count);
    assert!(Input::new("a\n\nb").text_into(&mut events).is_err());
    assert!(events.is_empty());
}

#[test]
fn labels_are_normalized() {
    let lines = |input: Input| input.text().unwrap().len();
    assert_eq!(
        lines(Input::new("[a  B]").definition("A b")),
        lines(Input::new("[a  B]").definition("a\nB"))
    );
    assert!(lines(Input::new("[a  B]").definition("A b")) > lines(Input::new("[a  B]")));
    assert_eq!(
        [" A\n B ", "", "\u{1e9e}"].map(|it| identifier(it).unwrap()),
        ["a b", "", "ss"]
    );
    assert_eq!(identifier(b"\xff"), Err(Error::NotUtf8));
}

#[test]
fn references_are_decoded() {
    assert_eq!(
        ["&amp;", "&copy;", "&#65;", "&#X1f600;", "&#0;"].map(|it| reference(it).unwrap()),
        ["&", "\u{a9}", "A", "\u{1f600}", "\u{fffd}"]
    );
}

#[test]
fn references_are_decoded_by_options() {
    let (names, rules) = (Constructs::HTML_REFERENCES, Constructs::STANDARD_RULES);
    for (options, given, wanted) in [
        (Constructs::COMMONMARK, "&check;", Ok("\u{2713}")),
        (Constructs::CRATE, "&check;", Err(Error::NoReference)),
        (names, "&check;", Ok("\u{2713}")),
        (rules, "&check;", Ok("\u{2713}")),
        (names, "&#1;", Ok("\u{fffd}")),
        (rules, "&#1;", Ok("\u{1}")),
        (
            Constructs::from_bits(1 << 31),
            "a",
            Err(Error::UnknownOption),
        ),
    ] {
        assert_eq!(
            reference_with(options, given),
            wanted.map(str::to_owned),
            "{given}"
        );
    }
    let as_it_stands = StringOptions::default();
    let found = |options| {
        strings_with(
            options,
            as_it_stands,
            "&check;a",
            &[0..7, 7..8],
            &[0..1, 1..2],
        )
    };
    assert_eq!(found(names).unwrap().get(0), Some("\u{2713}"));
    assert_eq!(found(Constructs::CRATE).unwrap().get(0), Some("&check;"));
    let error = found(Constructs::from_bits(1 << 31)).unwrap_err();
    assert_eq!((error.error, error.at), (Error::UnknownOption, None));
    for (line_feeds, replaced_nul, wanted) in [
        (false, false, "a\r\nb\rc\0\r"),
        (true, false, "a\nb\nc\0\r"),
        (false, true, "a\r\nb\rc\u{fffd}\r"),
        (true, true, "a\nb\nc\u{fffd}\r"),
    ] {
        let how = StringOptions::default()
            .line_feeds(line_feeds)
            .replaced_nul(replaced_nul);
        let given = "a\r\nb\rc\0&#13;";
        let found = strings_with(
            Constructs::COMMONMARK,
            how,
            given,
            &[0..2, 2..12],
            &[0..2, 2..2],
        )
        .unwrap();
        assert_eq!(found.get(0), Some(wanted));
    }
}

#[test]
fn leaves_cover_the_text() {
    let document = "a *b* [c](d)\n\te `f`";
    let pieces = [
        Piece {
            end: 13,
            ..Piece::default()
        },
        Piece {
            start: 13,
            start_vs: 2,
            end: 19,
            end_vs: 0,
        },
    ];
    let leaves = Input::new(document).pieces(&pieces).leaves().unwrap();
    let bytes: Vec<u8> = leaves.iter().flat_map(|leaf| leaf.bytes.to_vec()).collect();
    assert_eq!(bytes, b"a *b* [c](d)\ne `f`");
    assert_eq!(leaves.iter().map(|leaf| leaf.before).sum::<usize>(), 2);
    assert_eq!(leaves.iter().len(), leaves.len());
    assert_eq!(
        leaves.iter().next_back().map(|leaf| leaf.end.index),
        Some(19)
    );
}

#[test]
fn many_contents_are_read_as_each_by_itself() {
    let document = "[x] *a*\n\n> b\n> `c`";
    let piece = |start, end| Piece {
        start,
        end,
        ..Piece::default()
    };
    let pieces = [piece(0, 7), piece(11, 13), piece(15, 18)];
    let content = |pieces, first_of_item| TextContent {
        pieces,
        first_of_item,
    };
    let options = Constructs::COMMONMARK | Constructs::GFM;
    let input = Input::new(document).pieces(&pieces).options(options);
    let found = input
        .texts(&[content(0..1, true), content(1..3, false)])
        .unwrap();
    let first = Input::new(document)
        .pieces(&pieces[..1])
        .options(options | Constructs::FIRST_OF_ITEM);
    let second = Input::new(document).pieces(&pieces[1..]).options(options);
    assert!(found.get(0).unwrap().iter().eq(&first.text().unwrap()));
    assert!(found.get(1).unwrap().iter().eq(&second.text().unwrap()));
    assert!(found.get(2).is_none() && found.len() == 2 && found.iter().count() == 2);
    let wrong = [content(0..1, false), content(2..4, false)];
    let refusal = Refusal {
        error: Error::NoContent,
        at: Some(1),
    };
    assert_eq!(input.texts(&wrong).unwrap_err(), refusal);
    assert_eq!(input.short_texts(&wrong).unwrap_err(), refusal);
    let shorts = input
        .short_texts(&[content(0..1, true), content(1..3, false)])
        .unwrap();
    for (events, shorts) in found.iter().zip(shorts.iter()) {
        let short = |it: &ShortEvent| (it.kind, it.name, it.index, usize::from(it.vs));
        let large = |it: Event| (it.kind, it.name, it.point.index, it.point.vs);
        assert!(events.iter().map(large).eq(shorts.map(|it| short(&it))));
    }
}

#[test]
fn short_events_tell_the_definitions_that_are_met() {
    let input = Input::new("[a][B] ![c] [d](e) [f [g]] x[^h] [b]")
        .options(Constructs::COMMONMARK | Constructs::GFM)
        .definitions(["c", "b", "G", "B"])
        .footnotes(["i", "H"]);
    let content = TextContent {
        pieces: 0..1,
        ..TextContent::default()
    };
    let texts = input.short_texts(&[content]).unwrap();
    let met: Vec<_> = texts
        .get(0)
        .unwrap()
        .filter(|it| it.definition.is_some())
        .map(|it| (it.name, it.index, it.definition.unwrap(), it.is_enter()))
        .collect();
    let wanted = [
        (Name::Link, 0, 1, true),
        (Name::Image, 7, 0, true),
        (Name::Link, 22, 2, true),
        (Name::GfmFootnoteCall, 28, 1, true),
        (Name::Link, 33, 1, true),
    ];
    assert_eq!(met, wanted);
}

#[test]
fn short_events_tell_the_characters_of_references() {
    let content = TextContent {
        pieces: 0..1,
        ..TextContent::default()
    };
    let input = Input::new("&amp;[&#x1f600;](&lt;) &ngE; &#0; &#1; `&gt;`").definitions(["a"]);
    let told = |input: &Input| {
        let texts = input.short_texts(std::slice::from_ref(&content)).unwrap();
        let events = texts.get(0).unwrap();
        events
            .filter(|it| it.stands_for.is_some() || it.name == Name::CharacterReference)
            .filter(ShortEvent::is_enter)
            .map(|it| (it.name, it.stands_for, it.definition))
            .collect::<Vec<_>>()
    };
    let wanted =
        |characters: [Option<char>; 5]| characters.map(|it| (Name::CharacterReference, it, None));
    // The reference by a name that stands for two characters tells none.
    let standard = [
        Some('&'),
        Some('\u{1f600}'),
        None,
        Some('\u{fffd}'),
        Some('\u{1}'),
    ];
    assert_eq!(told(&input), wanted(standard));
    let replaced = [
        Some('&'),
        Some('\u{1f600}'),
        None,
        Some('\u{fffd}'),
        Some('\u{fffd}'),
    ];
    assert_eq!(told(&input.options(Constructs::CRATE)), wanted(replaced));
}

#[test]
fn strings_have_their_texts() {
    let document = "[a](<b\\*c> 'd\r\n &copy; \u{e9}')";
    let parts = [5..9, 12..13, 13..15, 16..25];
    let found = strings(document, &parts, &[0..1, 1..4, 2..2]).unwrap();
    let texts: Vec<_> = found.iter().collect();
    assert_eq!(texts, ["b*c", "d\r\n\u{a9} \u{e9}", ""]);
    assert!(found.len() == 3 && !found.is_empty() && found.get(3).is_none());
    let error = strings("\u{e9}", &[0..2, 1..2], &[0..1, 0..2]).unwrap_err();
    assert_eq!((error.error, error.at), (Error::NoString, Some(1)));
    assert_eq!(
        error.to_string(),
        "part of a string is no text of the bytes: number 1"
    );
}

#[test]
fn footnotes_are_numbered_through_many_contents() {
    let document = "a[^b]\n\nc[^d]\n\n[^B] [e]";
    let piece = |start, end| Piece {
        start,
        end,
        ..Piece::default()
    };
    let pieces = [piece(0, 5), piece(7, 12), piece(14, 22)];
    let contents = [0..1, 1..2, 2..3].map(|pieces| TextContent {
        pieces,
        first_of_item: false,
    });
    let call = |id: &str, count: &str, number| {
        format!(
            "<sup><a href=\"#user-content-fn-{id}\" id=\"user-content-fnref-{id}{count}\" \
             data-footnote-ref=\"\" aria-describedby=\"footnote-label\">{number}</a></sup>"
        )
    };
    let input = Input::new(document)
        .pieces(&pieces)
        .options(Constructs::COMMONMARK | Constructs::GFM)
        .footnotes(["b", "d"])
        .definition_to("e", "/f", None);
    let found = input.htmls(&contents, HtmlOptions::default()).unwrap();
    let wanted = [
        "a".to_string() + &call("b", "", 1),
        "c".to_string() + &call("d", "", 2),
        call("b", "-2", 1) + " <a href=\"/f\">e</a>",
    ];
    assert!(found.iter().eq(&wanted), "{found:?}");
    assert_eq!(found.as_str(), wanted.concat());
    assert!(found.len() == 3 && !found.is_empty() && found.get(3).is_none());
}

#[test]
fn references_bring_no_more_than_a_limit_to_one_text() {
    let long = "x".repeat(999);
    let document = String::from("[x] ![a][b] [^c]") + &" [a]".repeat(100);
    let input = Input::new(&document)
        .options(Constructs::COMMONMARK | Constructs::GFM | Constructs::FIRST_OF_ITEM)
        .definition_to("a", &long, Some("y"))
        .definition_to("b", "z", None)
        .footnote("c");
    let asked = |limit| {
        let input = input.clone().reference_limit(limit);
        input.html(HtmlOptions::default())
    };
    let mut html = String::from("before");
    let refused = input.html_into(HtmlOptions::default(), &mut html);
    assert_eq!((refused, html.as_str()), (Err(Error::References), ""));
    for limit in [0, 100_000] {
        assert_eq!(asked(limit), Err(Error::References));
    }
    let found = asked(NO_LIMIT).unwrap();
    assert!(found.contains("checkbox") && found.len() > 100_001);
    assert_eq!(asked(100_001).unwrap(), found);
    let past_end = [Piece {
        end: 9999,
        ..Piece::default()
    }];
    for limit in [1, usize::MAX] {
        let input = input.clone().pieces(&past_end).reference_limit(limit);
        assert_eq!(input.html(HtmlOptions::default()), Err(Error::NoContent));
    }
}

#[test]
fn references_bring_no_more_than_a_limit() {
    let contents = [TextContent {
        pieces: 0..1,
        first_of_item: false,
    }];
    let refused = |at| {
        Err(Refusal {
            error: Error::References,
            at: Some(at),
        })
    };
    let asked = |input: &Input| input.htmls(&contents, HtmlOptions::default()).map(drop);
    let long = "x".repeat(1000);
    let document = "[a] ".repeat(101);
    let mut input = Input::new(&document).definition_to("a", &long, None);
    assert_eq!(asked(&input), refused(0));
    input.set_reference_limit(101_000);
    assert_eq!(asked(&input), Ok(()));
    assert_eq!(asked(&input.clone().reference_limit(100_999)), refused(0));
    assert_eq!(asked(&input.clone().reference_limit(0)), refused(0));
    assert_eq!(asked(&input.reference_limit(NO_LIMIT)), Ok(()));
    let document = "[a] ".repeat(100) + &"x".repeat(100_000 - 400);
    let input = Input::new(&document).definition_to("a", &long, None);
    assert_eq!(asked(&input), Ok(()));
}

#[test]
fn what_is_refused_is_told() {
    let contents = [0..1, 1..2].map(|pieces| TextContent {
        pieces,
        first_of_item: false,
    });
    let input = Input::new("a");
    let refused = |input: &Input| input.htmls(&contents, HtmlOptions::default()).unwrap_err();
    let found = refused(&input);
    assert_eq!((found.error, found.at), (Error::NoContent, Some(1)));
    assert_eq!(
        found.to_string(),
        "pieces are no content of the document: number 1"
    );
    let found = refused(&input.definition("b").footnote(b"\xff"));
    assert_eq!((found.error, found.at), (Error::Definition, Some(1)));
    let found = refused(&Input::new(b"a\xff"));
    assert_eq!((found.error, found.at), (Error::NotUtf8, Some(1)));
    assert_eq!(found.to_string(), "document is not UTF-8: byte 1");
    assert_eq!(Error::from(found), Error::NotUtf8);
    assert!(std::error::Error::source(&found).is_some());
}

#[test]
fn html_is_safe_where_nothing_else_is_asked() {
    let input = Input::new("<b> [a](javascript:b) [c]").definition_to("C", "/d", Some("e"));
    assert_eq!(
        input.html(HtmlOptions::default()).unwrap(),
        "&lt;b&gt; <a href=\"\">a</a> <a href=\"/d\" title=\"e\">c</a>"
    );
    let options = HtmlOptions::default().raw_html(true).any_link(true);
    assert_eq!(
        input.html(options).unwrap(),
        "<b> <a href=\"javascript:b\">a</a> <a href=\"/d\" title=\"e\">c</a>"
    );
}

/// Examples of CommonMark 0.31.2 (2.2, 4.6, 4.7, 5.1), and what the options change.
#[test]
fn documents_have_html() {
    let safe = &Options::commonmark();
    for (document, html) in [
        (
            "- foo\n\n\t\tbar\n",
            "<ul>\n<li>\n<p>foo</p>\n<pre><code>  bar\n</code></pre>\n</li>\n</ul>\n",
        ),
        (
            "[foo]: /url \"title\"\n\n[foo]\n",
            "<p><a href=\"/url\" title=\"title\">foo</a></p>\n",
        ),
        (
            "> # Foo\n> bar\n> baz\n",
            "<blockquote>\n<h1>Foo</h1>\n<p>bar\nbaz</p>\n</blockquote>\n",
        ),
        ("", ""),
    ] {
        assert_eq!(to_html(document, safe).unwrap(), html);
        assert_eq!(to_html(document.as_bytes(), safe).unwrap(), html);
    }
    let div = "<div id=\"foo\"\n  class=\"bar\">\n</div>\n";
    for (document, raw, any_link, html) in [
        (div, Html::Raw, false, div),
        (
            "<b>\n\n[a](b:c)\n",
            Html::Escape,
            false,
            "&lt;b&gt;\n<p><a href=\"\">a</a></p>\n",
        ),
        (
            "<b>\n\n[a](b:c)\n",
            Html::Raw,
            true,
            "<b>\n<p><a href=\"b:c\">a</a></p>\n",
        ),
    ] {
        let options = Options::commonmark().html(raw).any_link(any_link);
        assert_eq!(to_html(document, &options).unwrap(), html);
    }
    let refusal = to_html(b"a\n\xe2\x82", safe).unwrap_err();
    assert_eq!((refusal.error, refusal.at), (Error::NotUtf8, Some(2)));
}

/// Examples of GFM 0.29 (5.3, 6.5, 6.9), each read with one construct of GitHub's and without, and what CommonMark 0.31.2 makes of all.
#[test]
fn constructs_of_documents_are_added_one_by_one() {
    let safe = Options::commonmark();
    let (strikethrough, bare_urls) = (
        safe.clone().strikethrough(true),
        safe.clone().bare_urls(true),
    );
    let (tasks, math) = (safe.clone().tasks(true), safe.clone().math(true));
    for (options, document, with, without) in [
        (
            &strikethrough,
            "~~Hi~~ Hello, ~there~ world!\n",
            "<p><del>Hi</del> Hello, <del>there</del> world!</p>\n",
            "<p>~~Hi~~ Hello, ~there~ world!</p>\n",
        ),
        (
            &bare_urls,
            "www.commonmark.org\n\n> foo@bar.baz\n",
            "<p><a href=\"http://www.commonmark.org\">www.commonmark.org</a></p>\n<blockquote>\n<p><a href=\"mailto:foo@bar.baz\">foo@bar.baz</a></p>\n</blockquote>\n",
            "<p>www.commonmark.org</p>\n<blockquote>\n<p>foo@bar.baz</p>\n</blockquote>\n",
        ),
        (
            &tasks,
            "- [ ] foo\n- [x] bar\n",
            "<ul>\n<li><input type=\"checkbox\" disabled=\"\" /> foo</li>\n<li><input type=\"checkbox\" disabled=\"\" checked=\"\" /> bar</li>\n</ul>\n",
            "<ul>\n<li>[ ] foo</li>\n<li>[x] bar</li>\n</ul>\n",
        ),
        (
            &math,
            "$a$ $$b$$\n",
            "<p><code class=\"language-math math-inline\">a</code> <code class=\"language-math math-inline\">b</code></p>\n",
            "<p>$a$ $$b$$</p>\n",
        ),
    ] {
        assert_eq!(to_html(document, options).unwrap(), with);
        for other in [&safe, &strikethrough, &bare_urls, &tasks, &math] {
            if other != options {
                assert_eq!(to_html(document, other).unwrap(), without);
            }
        }
    }
}

#[test]
fn line_endings_are_written_as_asked() {
    let document = "a\r\nb\rc\n\n    d\r\n";
    for (line_ends, wanted) in [
        (
            LineEnds::Kept,
            "<p>a\r\nb\rc</p>\n<pre><code>d\r\n</code></pre>\n",
        ),
        (
            LineEnds::Lf,
            "<p>a\nb\nc</p>\n<pre><code>d\n</code></pre>\n",
        ),
        (
            LineEnds::CrLf,
            "<p>a\r\nb\r\nc</p>\r\n<pre><code>d\r\n</code></pre>\r\n",
        ),
    ] {
        let options = Options::commonmark().line_ends(line_ends);
        assert_eq!(to_html(document, &options).unwrap(), wanted);
        let inline = Input::new("a\rb").html(HtmlOptions::default().line_ends(line_ends));
        let ending = match line_ends {
            LineEnds::Lf => "\n",
            LineEnds::CrLf => "\r\n",
            _ => "\r",
        };
        assert_eq!(inline.unwrap(), format!("a{ending}b"));
    }
}

#[test]
fn threads_do_not_meet() {
    let wanted: Vec<String> = text("a *b* [c](d)")
        .unwrap()
        .iter()
        .map(|it| it.to_string())
        .collect();
    thread::scope(|scope| {
        for _ in 0..8 {
            scope.spawn(|| {
                for _ in 0..500 {
                    let found = text("a *b* [c](d)").unwrap();
                    assert!(found
                        .iter()
                        .map(|it| it.to_string())
                        .eq(wanted.iter().cloned()));
                }
            });
        }
    });
}

#[test]
fn what_is_read_before_a_refusal_is_answered() {
    // The third content ends behind the document. Dense ones do not have room at once.
    for (first, second) in [("a", "b"), (&*"*a*".repeat(3000), &*"&amp;".repeat(900))] {
        let document = format!("{first}\n{second}\n");
        let end = first.len() + 1;
        let pieces = [
            Piece::from(0..first.len()),
            Piece::from(end..document.len() - 1),
            Piece::from(0..document.len() + 1),
        ];
        let contents = [0..1, 1..2, 2..3, 0..1].map(TextContent::from);
        let input = Input::new(&document).pieces(&pieces);
        let (mut texts, mut shorts, mut htmls) = (Texts::new(), ShortTexts::new(), Htmls::new());
        let refusals = [
            input.texts_into(&contents, &mut texts),
            input.short_texts_into(&contents, &mut shorts),
            input.htmls_into(&contents, HtmlOptions::default(), &mut htmls),
        ];
        for refusal in refusals {
            let refusal = refusal.unwrap_err();
            assert_eq!((refusal.error, refusal.at), (Error::NoContent, Some(2)));
        }
        assert_eq!(texts, input.texts(&contents[..2]).unwrap());
        assert_eq!(shorts, input.short_texts(&contents[..2]).unwrap());
        let wanted = input.htmls(&contents[..2], HtmlOptions::default());
        assert_eq!(htmls, wanted.unwrap());
        // Of another refusal nothing stays.
        let unknown = input.clone().options(Constructs::from_bits(1 << 31));
        assert!(unknown.texts_into(&contents, &mut texts).is_err());
        assert!(unknown
            .htmls_into(&contents, HtmlOptions::default(), &mut htmls)
            .is_err());
        assert!(texts.is_empty() && htmls.is_empty() && htmls.as_str().is_empty());
    }
}

#[test]
fn definitions_bring_as_much_as_a_long_document_has() {
    let (destination, links) = ("/".repeat(1000), "[a] ".repeat(150));
    let html = |padding: usize| {
        let document = format!("{links}{}", "b".repeat(padding));
        let input = Input::new(&document).definition_to("a", &destination, None);
        input.html(HtmlOptions::default()).map(drop)
    };
    assert_eq!(html(0), Err(Error::References));
    assert_eq!(html(200_000), Ok(()));
}

#[test]
fn links_are_found_with_where_they_lead() {
    let document =
        "> [a\n> ![b](c)](/d \"e &amp;\n> f\") [x][Y]\n> www.g.h <i@j.k> <ll:m> [y] [www.a.b](n)";
    let mut start = 0;
    let pieces: Vec<_> = document
        .split_inclusive('\n')
        .map(|line| {
            start += line.len();
            Piece::from(start - line.len() + 2..start)
        })
        .collect();
    let input = Input::new(document)
        .pieces(&pieces)
        .options(Constructs::COMMONMARK | Constructs::GFM)
        .definition("z")
        .definition_to("y", "/o", Some("p"));
    let links = input.links(&[TextContent::from(0..4)]).unwrap();
    let found: Vec<_> = links
        .iter()
        .map(|it| {
            let place = (it.start.line, it.start.column, it.end.line, it.end.column);
            let leads = (it.destination.as_str(), it.title.as_deref());
            (it.name.as_str(), place, leads, it.definition)
        })
        .collect();
    let wanted = [
        ("Link", (1, 3, 3, 6), ("/d", Some("e &\nf")), None),
        ("Image", (2, 3, 2, 10), ("c", None), None),
        ("Link", (3, 7, 3, 13), ("/o", Some("p")), Some(1)),
        (
            "GfmAutolinkLiteralWww",
            (4, 3, 4, 10),
            ("http://www.g.h", None),
            None,
        ),
        ("Autolink", (4, 11, 4, 18), ("mailto:i@j.k", None), None),
        ("Autolink", (4, 19, 4, 25), ("ll:m", None), None),
        ("Link", (4, 26, 4, 29), ("/o", Some("p")), Some(1)),
        ("Link", (4, 30, 4, 42), ("n", None), None),
    ];
    assert_eq!(found, wanted);
    // Three references bring five bytes each, and a resource none.
    let limited = |limit| {
        let input = Input::new("[a] [b](cdefgh) ![a]\n[a]").definition_to("a", "/bc", Some("de"));
        let contents = [0..0, 0..1].map(TextContent::from);
        input.reference_limit(limit).links(&contents)
    };
    for limit in [0, 15, NO_LIMIT] {
        assert_eq!(limited(limit).unwrap().len(), 4);
    }
    let refusal = limited(14).unwrap_err();
    assert_eq!((refusal.error, refusal.at), (Error::References, Some(1)));
    let (many, long) = ("[a] ".repeat(101) + "b", "x".repeat(1000));
    let of = |limit| {
        let input = Input::new(&many).definition_to("a", &long, None);
        let found = input.reference_limit(limit);
        found.links(&[TextContent::from(0..1)]).map(|it| it.len())
    };
    assert_eq!(of(0).map_err(Error::from), Err(Error::References));
    assert_eq!(of(NO_LIMIT), Ok(101));
    let bad = Input::new("[a]").definition_to("a", b"\xff", None);
    let refusal = bad.links(&[TextContent::from(0..1)]).unwrap_err();
    assert_eq!((refusal.error, refusal.at), (Error::Definition, Some(0)));
}
