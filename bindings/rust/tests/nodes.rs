//! The nodes of documents, and where they are.

use markdown_inline::{parse, LinkType, Node, NodeKind, Nodes, Options};
use std::fs;

fn options() -> Options {
    let options = Options::commonmark().strikethrough(true).bare_urls(true);
    options.tasks(true).math(true).front_matter(true)
}

/// Nodes with their bytes, those that they hold in brackets, and the text of those that hold none.
fn shown(nodes: Nodes) -> String {
    let each = nodes.map(|node| {
        let (range, inside) = (node.range(), shown(node.children()));
        let inside = match (node.children().next(), node.text()) {
            (Some(_), _) => format!("[{inside}]"),
            (None, text) if text.is_empty() => String::new(),
            (None, text) => format!(" {text:?}"),
        };
        format!("{:?} {}-{}{inside}", node.kind(), range.start, range.end)
    });
    each.collect::<Vec<_>>().join(", ")
}

#[test]
fn nodes_are_those_of_the_document() {
    let link = |name: &str, link_type: &str, url: &str, title: &str, label: &str| {
        format!("{name} {{ link_type: {link_type}, url: {url:?}, title: {title}, label: {label} }}")
    };
    for (document, wanted) in [
        ("a", "Paragraph 0-1[Text 0-1 \"a\"]"),
        ("# a #", "Heading { level: 1 } 0-5[Text 2-3 \"a\"]"),
        (
            "[r]: /u\na\n===\n",
            "Definition { label: \"r\", url: \"/u\", title: None } 0-7, Heading { level: 1 } 8-13[Text 8-9 \"a\"]",
        ),
        (
            "[a]: b 'c\nd' \n [e\\]]:\n<f g>\n(\n",
            "Definition { label: \"a\", url: \"b\", title: Some(\"c\\nd\") } 0-12, \
             Definition { label: \"e\\\\]\", url: \"f g\", title: None } 15-27, Paragraph 28-29[Text 28-29 \"(\"]",
        ),
        (
            "> [a]: /b \"c\n> [d]: /e\n>\t\n> [f\ng]: (h)",
            "BlockQuote 0-38[Paragraph 2-22[Text 2-22 \"[a]: /b \\\"c\\n[d]: /e\"], \
             Definition { label: \"f\\ng\", url: \"(h)\", title: None } 28-38]",
        ),
        (
            "\u{feff}# a",
            "Heading { level: 1 } 3-6[Text 5-6 \"a\"]",
        ),
        (
            "> a\n>\n",
            "BlockQuote 0-5[Paragraph 2-3[Text 2-3 \"a\"]]",
        ),
        (
            "`a\r`",
            "Paragraph 0-4[InlineCode 0-4 \"a \"]",
        ),
        (
            "> [a]:\n\t>",
            "BlockQuote 0-9[Definition { label: \"a\", url: \">\", title: None } 2-9]",
        ),
        (
            "> [a]:\n\t>  ",
            "BlockQuote 0-11[Definition { label: \"a\", url: \">\", title: None } 2-9]",
        ),
        (
            "> > [a]:\n>    > /b",
            "BlockQuote 0-18[BlockQuote 2-18[Definition { label: \"a\", url: \"/b\", title: None } 4-18]]",
        ),
        (
            "-\n  > [a]:\n     > /b",
            "List { start_number: None, is_tight: true } 0-20[ListItem { checked: None } 0-20[BlockQuote 4-20[Definition { label: \"a\", url: \"/b\", title: None } 6-20]]]",
        ),
        (
            "1234567. > [a]:\n    >",
            "List { start_number: Some(1234567), is_tight: true } 0-21[ListItem { checked: None } 0-21[BlockQuote 9-21[Definition { label: \"a\", url: \">\", title: None } 11-21]]]",
        ),
        (
            "\u{feff}-\t> [a]:\n    >",
            "List { start_number: None, is_tight: true } 3-17[ListItem { checked: None } 3-17[BlockQuote 5-17[Definition { label: \"a\", url: \">\", title: None } 7-17]]]",
        ),
        (
            ">\t\ta",
            "BlockQuote 0-4[Code { info: None, lang: None } 1-4 \"  a\\n\"]",
        ),
        (
            "[a]: b\n(c)",
            "Definition { label: \"a\", url: \"b\", title: Some(\"c\") } 0-10",
        ),
        (
            "- [a]:\n\t/b\n  'c'\n",
            "List { start_number: None, is_tight: true } 0-16[ListItem { checked: None } 0-16[\
             Definition { label: \"a\", url: \"/b\", title: Some(\"c\") } 2-16]]",
        ),
        ("#", "Heading { level: 1 } 0-1"),
        (" ***\n", "ThematicBreak 1-4"),
        (
            "> a\nb",
            "BlockQuote 0-5[Paragraph 2-5[Text 2-5 \"a\\nb\"]]",
        ),
        ("> a\n> b", "BlockQuote 0-7[Paragraph 2-7[Text 2-7 \"a\\nb\"]]"),
        (
            "3) a\n4) b",
            "List { start_number: Some(3), is_tight: true } 0-9[ListItem { checked: None } 0-4[Paragraph 3-4[Text 3-4 \"a\"]], \
             ListItem { checked: None } 5-9[Paragraph 8-9[Text 8-9 \"b\"]]]",
        ),
        (
            "* a\n\n  b\n\nc",
            "List { start_number: None, is_tight: false } 0-8[ListItem { checked: None } 0-8[Paragraph 2-3[Text 2-3 \"a\"], \
             Paragraph 7-8[Text 7-8 \"b\"]]], Paragraph 10-11[Text 10-11 \"c\"]",
        ),
        (
            "*\n",
            "List { start_number: None, is_tight: true } 0-1[ListItem { checked: None } 0-1]",
        ),
        (
            "* [x] a\n* [ ] *b*",
            "List { start_number: None, is_tight: true } 0-17[ListItem { checked: Some(true) } 0-7[Paragraph 2-7[Text 5-7 \" a\"]], \
             ListItem { checked: Some(false) } 8-17[Paragraph 10-17[Text 13-14 \" \", Emphasis 14-17[Text 15-16 \"b\"]]]]",
        ),
        (
            "```js x\na\n```\n",
            "Code { info: Some(\"js x\"), lang: Some(\"js\") } 0-13 \"a\\n\"",
        ),
        ("~~~\n", "Code { info: Some(\"\"), lang: None } 0-3"),
        (
            "    a\r\n\n    b\n\n\n",
            "Code { info: None, lang: None } 0-13 \"a\\n\\nb\\n\"",
        ),
        (
            "$$ x&amp; y\na\r\nb\n$$\n",
            "Math { info: \"x& y\" } 0-19 \"a\\nb\\n\"",
        ),
        (
            "> $$\n> a\nb",
            "BlockQuote 0-8[Math { info: \"\" } 2-8 \"a\\n\"], Paragraph 9-10[Text 9-10 \"b\"]",
        ),
        ("$$\n$$", "Math { info: \"\" } 0-5"),
        (
            "---\na: b\r\n\n---  \n# c\n",
            "FrontMatter { lang: \"yaml\" } 0-16 \"a: b\\n\\n\", Heading { level: 1 } 17-20[Text 19-20 \"c\"]",
        ),
        (
            "\u{feff}+++\na\0\n+++",
            "FrontMatter { lang: \"toml\" } 3-13 \"a\u{fffd}\\n\"",
        ),
        ("+++\n+++\n", "FrontMatter { lang: \"toml\" } 0-7"),
        (" <b>\na\n", "Html 0-6 \" <b>\\na\\n\""),
        (
            "*a* __b__~~c~~",
            "Paragraph 0-14[Emphasis 0-3[Text 1-2 \"a\"], Text 3-4 \" \", Strong 4-9[Text 6-7 \"b\"], Delete 9-14[Text 11-12 \"c\"]]",
        ),
        (
            "`` a` `` $b$",
            "Paragraph 0-12[InlineCode 0-8 \"a`\", Text 8-9 \" \", InlineMath 9-12 \"b\"]",
        ),
        (
            "a  \nb\\\nc",
            "Paragraph 0-8[Text 0-1 \"a\", Break 1-4 \"\\n\", Text 4-5 \"b\", Break 5-7 \"\\n\", Text 7-8 \"c\"]",
        ),
        (
            "a<i>b",
            "Paragraph 0-5[Text 0-1 \"a\", Html 1-4 \"<i>\", Text 4-5 \"b\"]",
        ),
        (
            "a\\*&amp;&ngE;b\0",
            "Paragraph 0-15[Text 0-15 \"a*&\u{2267}\\u{338}b\u{fffd}\"]",
        ),
        (
            "[a\0]: b\0 \"c\r\nd\0\"",
            "Definition { label: \"a\u{fffd}\", url: \"b\u{fffd}\", title: Some(\"c\\nd\u{fffd}\") } 0-16",
        ),
        (
            "~~~ a\0 b\r\nc\0\r\n~~~",
            "Code { info: Some(\"a\u{fffd} b\"), lang: Some(\"a\u{fffd}\") } 0-17 \"c\u{fffd}\\n\"",
        ),
        (
            "a\r\nb\rc",
            "Paragraph 0-6[Text 0-6 \"a\\nb\\nc\"]",
        ),
        (
            "> `a\n>  b` <i\n> j>",
            "BlockQuote 0-18[Paragraph 2-18[InlineCode 2-10 \"a b\", Text 10-11 \" \", Html 11-18 \"<i\\nj>\"]]",
        ),
        (
            "\u{feff}\u{e9} *a*",
            "Paragraph 3-9[Text 3-6 \"\u{e9} \", Emphasis 6-9[Text 7-8 \"a\"]]",
        ),
    ] {
        let document_nodes = parse(document, &options()).unwrap();
        assert_eq!(shown(document_nodes.children()), wanted, "{document:?}");
    }
    for (document, name, link_type, url, title, label, wanted) in [
        (
            "[a](b \"c\")",
            "Link",
            "Inline",
            "b",
            "Some(\"c\")",
            "None",
            "0-10[Text 1-2 \"a\"]",
        ),
        (
            "[a](<> '')",
            "Link",
            "Inline",
            "",
            "Some(\"\")",
            "None",
            "0-10[Text 1-2 \"a\"]",
        ),
        (
            "![a *b*](&amp;)",
            "Image",
            "Inline",
            "&",
            "None",
            "None",
            "0-15[Text 2-4 \"a \", Emphasis 4-7[Text 5-6 \"b\"]]",
        ),
        (
            "[a][B\nc]\n\n[b c]: d 'e'",
            "Link",
            "Reference",
            "d",
            "Some(\"e\")",
            "Some(\"B\\nc\")",
            "0-8[Text 1-2 \"a\"]",
        ),
        (
            "[A][]\n\n[a]: d",
            "Link",
            "Collapsed",
            "d",
            "None",
            "Some(\"A\")",
            "0-5[Text 1-2 \"A\"]",
        ),
        (
            "![a]\n\n[a]: d",
            "Image",
            "Shortcut",
            "d",
            "None",
            "Some(\"a\")",
            "0-4[Text 2-3 \"a\"]",
        ),
        (
            "<aa:b>",
            "Link",
            "Autolink",
            "aa:b",
            "None",
            "None",
            "0-6[Text 1-5 \"aa:b\"]",
        ),
        (
            "<a@b.c>",
            "Link",
            "Email",
            "mailto:a@b.c",
            "None",
            "None",
            "0-7[Text 1-6 \"a@b.c\"]",
        ),
        (
            "[a\0]\n\n[a\0]: b\0 'c\r\n\0'",
            "Link",
            "Shortcut",
            "b\u{fffd}",
            "Some(\"c\\n\u{fffd}\")",
            "Some(\"a\u{fffd}\")",
            "0-4[Text 1-3 \"a\u{fffd}\"]",
        ),
        (
            "www.b.c",
            "Link",
            "Autolink",
            "http://www.b.c",
            "None",
            "None",
            "0-7[Text 0-7 \"www.b.c\"]",
        ),
        (
            "a@b.c",
            "Link",
            "Email",
            "mailto:a@b.c",
            "None",
            "None",
            "0-5[Text 0-5 \"a@b.c\"]",
        ),
    ] {
        let parsed = parse(document, &options()).unwrap();
        let wanted = format!("{} {wanted}", link(name, link_type, url, title, label));
        let paragraph = parsed.children().next().unwrap();
        assert_eq!(shown(paragraph.children()), wanted, "{document:?}");
    }
}

/// Whether what a node cuts out of the document looks like it.
fn is_right(document: &str, node: &Node) -> bool {
    let cut = &document[node.range()];
    let is_between = |start: &str, end: &str| cut.starts_with(start) && cut.ends_with(end);
    let begins_with = |signs: &[char]| cut.starts_with(signs);
    match node.kind() {
        NodeKind::ThematicBreak => cut
            .trim_end_matches([' ', '\t'])
            .chars()
            .all(|it| "*-_ \t".contains(it)),
        NodeKind::Definition { label, .. } => is_right_definition(cut, label),
        NodeKind::BlockQuote => begins_with(&['>']),
        NodeKind::List { .. } | NodeKind::ListItem { .. } => {
            begins_with(&['-', '+', '*'])
                || cut
                    .trim_start_matches(|it: char| it.is_ascii_digit())
                    .starts_with(['.', ')'])
        }
        NodeKind::Code { info: Some(_), .. } => begins_with(&['`', '~']),
        NodeKind::Math { .. } => begins_with(&['$']),
        NodeKind::Html => cut.trim_start().starts_with('<'),
        NodeKind::Emphasis => is_between("*", "*") || is_between("_", "_"),
        NodeKind::Strong => is_between("**", "**") || is_between("__", "__"),
        NodeKind::Delete => is_between("~", "~"),
        NodeKind::InlineCode => is_between("`", "`"),
        NodeKind::InlineMath => is_between("$", "$"),
        NodeKind::Image { .. } => is_between("![", "]") || is_between("![", ")"),
        NodeKind::Link {
            link_type: LinkType::Inline,
            ..
        } => is_between("[", ")"),
        NodeKind::Link {
            link_type: LinkType::Autolink | LinkType::Email,
            ..
        } => !cut.starts_with('<') || cut.ends_with('>'),
        NodeKind::Link { .. } => is_between("[", "]"),
        NodeKind::Break => cut.ends_with(['\n', '\r']),
        NodeKind::Text => cut.contains(['\\', '&', '\n', '\r', '\0']) || cut == node.text(),
        _ => !cut.is_empty(),
    }
}

/// Whether a definition begins with its label, and its label has no lines, or begins with the first of them.
fn is_right_definition(cut: &str, label: &str) -> bool {
    let line = label.split('\n').next().unwrap();
    let is_ended = !cut.ends_with([' ', '\t', '\r', '\n']);
    cut.starts_with(&format!("[{line}")) && is_ended
}

/// Whether nodes are right, and one after another in what holds them.
fn are_right(document: &str, mut at: usize, end: usize, nodes: Nodes) {
    for node in nodes {
        let range = node.range();
        assert!(is_right(document, &node), "{node:?} of {document:?}");
        assert!(
            at <= range.start && range.end <= end,
            "{node:?} of {document:?}"
        );
        at = range.end;
        are_right(document, range.start, range.end, node.children());
    }
}

#[test]
fn a_node_is_what_its_bytes_are() {
    let root = concat!(env!("CARGO_MANIFEST_DIR"), "/../..");
    let mut pages = vec![include_str!("../README.md").to_string()];
    for folder in [root.to_string(), format!("{root}/docs")] {
        let files = fs::read_dir(folder).into_iter().flatten();
        let files = files.map(|it| it.unwrap().path());
        let files = files.filter(|path| path.extension().map_or(false, |it| it == "md"));
        pages.extend(files.map(|path| fs::read_to_string(path).unwrap()));
    }
    for page in pages {
        let document = parse(&page, &options()).unwrap();
        are_right(&page, 0, page.len(), document.children());
        for node in document.nodes() {
            let before = &page[..node.range().start];
            let lines: Vec<_> = before.split('\n').collect();
            let column = lines[lines.len() - 1].len() + 1;
            assert_eq!((node.line(), node.column()), (lines.len(), column));
        }
    }
}

#[test]
fn lines_and_columns_count_bytes_and_a_tab_is_one() {
    let document = parse("> \u{e9}\t[a](/b\r\n> 'c') `d\r\ne`", &options()).unwrap();
    let places: Vec<_> = document
        .nodes()
        .filter(|it| it.children().next().is_some() || it.kind() == NodeKind::InlineCode)
        .map(|it| (it.line(), it.column(), it.end_line(), it.end_column()))
        .collect();
    assert_eq!(
        places,
        [(1, 1, 3, 3), (1, 3, 3, 3), (1, 6, 2, 7), (2, 8, 3, 3)]
    );
    let inside = document.children().flat_map(|it| it.nodes());
    let ranges = document.nodes().skip(1).map(|it| it.range());
    assert!(inside.map(|it| it.range()).eq(ranges));
}

#[test]
fn the_text_of_a_node_has_its_blocks_apart() {
    let document =
        "> a *b*  \n> c ![d `e`](f) <i>\n>\n> - g\n>   ~~~\n>   h\n>   ~~~\n> - i\n\n<b>\n";
    let document = parse(document, &options()).unwrap();
    let texts: Vec<_> = document.children().map(|it| it.text()).collect();
    assert_eq!(texts, ["a b\nc d e \n\ng\n\nh\n\ni", "<b>\n"]);
    let quote = parse("> a\n>\n>     b\n", &options()).unwrap();
    let texts = quote.nodes().map(|it| it.text());
    assert!(texts.eq(["a\n\nb", "a", "a", "b\n"]));
    assert_eq!(
        document
            .nodes()
            .filter(|it| it.kind() == NodeKind::Html)
            .count(),
        2
    );
}

#[test]
fn math_is_apart_from_the_blocks_beside_it() {
    let document = parse("> a\n> $$\n> b\n> $$\n> c\n", &options()).unwrap();
    assert_eq!(document.children().next().unwrap().text(), "a\n\nb\n\nc");
}

#[test]
fn front_matter_is_read_if_it_is_asked_for() {
    let text = "+++\na = 1\n+++\n";
    let options = Options::commonmark().front_matter(true);
    let document = parse(text, &options).unwrap();
    let wanted = ("toml", "a = 1\n".to_string());
    assert_eq!(document.front_matter(), Some(wanted));
    let document = parse(text, &Options::commonmark()).unwrap();
    assert_eq!(document.front_matter(), None);
    for other in ["", "a\n", "\n+++\n+++\n", "+++\na = 1\n---\n"] {
        let document = parse(other, &options).unwrap();
        assert_eq!(document.front_matter(), None, "{other:?}");
    }
}

#[test]
fn a_link_is_told_once() {
    let text = "[a www.b.c ![d](e) <ff:g>](/h) www.i.j";
    let document = parse(text, &options()).unwrap();
    let links: Vec<_> = document
        .links()
        .map(|it| (it.is_image, it.link_type, it.url))
        .collect();
    let wanted = [
        (false, LinkType::Inline, "/h"),
        (true, LinkType::Inline, "e"),
        (false, LinkType::Autolink, "ff:g"),
        (false, LinkType::Autolink, "http://www.i.j"),
    ];
    assert_eq!(links, wanted);
}
