//! Events of documents, and HTML of events that a caller makes.

use markdown_inline::{
    html, parse, CodeBlockKind, Document, Event, Html, LinkType, MetadataBlockKind, Options, Tag,
    TagEnd,
};

fn rendered<'a>(events: impl IntoIterator<Item = Event<'a>>) -> String {
    let mut page = String::from("<!DOCTYPE html>\n");
    html::push_html(&mut page, events);
    page.split_off("<!DOCTYPE html>\n".len())
}

fn parsed(text: &str) -> Document<'_> {
    let options = Options::commonmark()
        .tasks(true)
        .math(true)
        .front_matter(true)
        .strikethrough(true);
    parse(text, &options).unwrap()
}

fn raw(text: &str) -> Document<'_> {
    parse(text, &Options::commonmark().html(Html::Raw).any_link(true)).unwrap()
}

#[test]
fn events_have_the_bytes_of_what_they_are_about() {
    let text = "# a\n\n> - [x] *b*\\\n>   `c`\n\n***\n";
    let document = parsed(text);
    let found: Vec<_> = document
        .offset_iter()
        .map(|(event, range)| (event, &text[range]))
        .collect();
    let heading = Tag::Heading { level: 1, id: None };
    let list = "- [x] *b*\\\n>   `c`";
    let quote = "> - [x] *b*\\\n>   `c`";
    let wanted = [
        (Event::Start(heading), "# a"),
        (Event::Text("a".into()), "a"),
        (Event::End(TagEnd::Heading(1)), "# a"),
        (Event::Start(Tag::BlockQuote), quote),
        (Event::Start(Tag::List(None)), list),
        (Event::Start(Tag::Item), list),
        (Event::TaskListMarker(true), "[x]"),
        (Event::Text(" ".into()), " "),
        (Event::Start(Tag::Emphasis), "*b*"),
        (Event::Text("b".into()), "b"),
        (Event::End(TagEnd::Emphasis), "*b*"),
        (Event::HardBreak, "\\\n"),
        (Event::Code("c".into()), "`c`"),
        (Event::End(TagEnd::Item), list),
        (Event::End(TagEnd::List(false)), list),
        (Event::End(TagEnd::BlockQuote), quote),
        (Event::Rule, "***"),
    ];
    assert_eq!(found, wanted);
    let events: Vec<_> = document.events().collect();
    assert!(events.iter().eq(found.iter().map(|(event, _)| event)));
}

#[test]
fn code_has_its_lines_and_its_info_string() {
    let document = parsed("~~~ a&amp;b c\nd\r\n\te\n~~~\n\n\tf");
    let fenced = Tag::CodeBlock(CodeBlockKind::Fenced("a&b c".into()));
    let indented = Tag::CodeBlock(CodeBlockKind::Indented);
    let wanted = [
        Event::Start(fenced),
        Event::Text("d\n".into()),
        Event::Text("\te\n".into()),
        Event::End(TagEnd::CodeBlock),
        Event::Start(indented),
        Event::Text("f\n".into()),
        Event::End(TagEnd::CodeBlock),
    ];
    assert!(document.events().eq(wanted));
}

#[test]
fn math_is_one_event_and_front_matter_has_its_lines() {
    let text = "---\na\n\n---\n> $$ b\n> c<\n> d\n> $$\n";
    let document = parsed(text);
    let found: Vec<_> = document
        .offset_iter()
        .map(|(event, range)| (event, &text[range]))
        .collect();
    let kind = MetadataBlockKind::YamlStyle;
    let matter = "---\na\n\n---";
    let math = "$$ b\n> c<\n> d\n> $$";
    let quote = "> $$ b\n> c<\n> d\n> $$";
    let wanted = [
        (Event::Start(Tag::MetadataBlock(kind)), matter),
        (Event::Text("a\n".into()), "a\n"),
        (Event::Text("\n".into()), "\n"),
        (Event::End(TagEnd::MetadataBlock(kind)), matter),
        (Event::Start(Tag::BlockQuote), quote),
        (Event::DisplayMath("c<\nd\n".into()), math),
        (Event::End(TagEnd::BlockQuote), quote),
    ];
    assert_eq!(found, wanted);
    let start = Tag::MetadataBlock(MetadataBlockKind::PlusesStyle);
    let end = start.to_end();
    let events = vec![
        Event::Text("a".into()),
        Event::DisplayMath("b\0".into()),
        Event::Start(start),
        Event::Text("c".into()),
        Event::Rule,
        Event::End(end),
        Event::Text("d".into()),
    ];
    let wanted = "a\n<pre><code class=\"language-math math-display\">b\u{fffd}</code></pre>\nd";
    assert_eq!(rendered(events), wanted);
}

#[test]
fn paragraphs_of_a_tight_list_have_no_tags() {
    let starts = |text: &str| -> Vec<Option<usize>> {
        let document = parsed(text);
        let lists = document.events().filter_map(|event| match event {
            Event::Start(Tag::List(start)) => Some(start),
            _ => None,
        });
        lists.collect()
    };
    let paragraphs = |text: &str| {
        let document = parsed(text);
        let is_paragraph = |event: &Event| *event == Event::Start(Tag::Paragraph);
        document.events().filter(is_paragraph).count()
    };
    assert_eq!(starts("3. a\n4. b\n\n- c\n"), [Some(3), None]);
    assert_eq!(paragraphs("- a\n- b\n"), 0);
    assert_eq!(paragraphs("- a\n\n- b\n"), 2);
    assert_eq!(paragraphs("- > a\n"), 1);
    assert!(parsed("3. a\n")
        .events()
        .any(|event| event == Event::End(TagEnd::List(true))));
}

#[test]
fn html_is_text_unless_it_is_raw() {
    let text = "<b>\nc\n\nd <e>\n";
    let of = |events: Vec<Event>| -> Vec<String> {
        let parts = events.into_iter().filter_map(|event| match event {
            Event::Text(text) => Some(format!("text {text}")),
            Event::Html(text) => Some(format!("html {text}")),
            Event::InlineHtml(text) => Some(format!("inline {text}")),
            _ => None,
        });
        parts.collect()
    };
    let found = of(parsed(text).events().collect());
    assert_eq!(found, ["text <b>\n", "text c\n", "text d ", "text <e>"]);
    let found = of(raw(text).events().collect());
    assert_eq!(found, ["html <b>\n", "html c\n", "text d ", "inline <e>"]);
}

#[test]
fn a_destination_is_empty_where_its_scheme_is_not_listed() {
    let text = "[a](javascript:b) [c](TEL:1) ![d](irc:e) [f](IRC:g) [h](/i:j)";
    let urls = |document: &Document| -> Vec<String> {
        let urls = document.events().filter_map(|event| match event {
            Event::Start(Tag::Link { dest_url, .. } | Tag::Image { dest_url, .. }) => {
                Some(dest_url.into_owned())
            }
            _ => None,
        });
        urls.collect()
    };
    let all = ["javascript:b", "TEL:1", "irc:e", "IRC:g", "/i:j"];
    assert_eq!(urls(&parsed(text)), ["", "", "", "IRC:g", "/i:j"]);
    assert_eq!(urls(&raw(text)), all);
    assert!(parsed(text).links().map(|link| link.url).eq(all));
}

#[test]
fn events_of_a_caller_are_rendered() {
    let document = parsed("- a\n\n~~~ b\nc\n~~~\n\n![d](/e 'f')");
    let mut is_code = false;
    let events = document.events().map(|event| match event {
        Event::Start(Tag::CodeBlock(_)) => {
            is_code = true;
            Event::Html("<pre class=\"own\">".into())
        }
        Event::End(TagEnd::CodeBlock) => {
            is_code = false;
            Event::Html("</pre>\n".into())
        }
        Event::Text(text) if is_code => Event::Html(text.to_uppercase().into()),
        Event::Start(Tag::Image {
            link_type,
            title,
            id,
            ..
        }) => Event::Start(Tag::Image {
            link_type,
            dest_url: "java\"script:<g>%41%".into(),
            title,
            id,
        }),
        event => event,
    });
    let wanted = "<ul>\n<li>a</li>\n</ul>\n<pre class=\"own\">C\n</pre>\n<p><img src=\"java%22script:%3Cg%3E%41%25\" alt=\"d\" title=\"f\" /></p>\n";
    assert_eq!(rendered(events), wanted);
    let heading = Tag::Heading {
        level: 2,
        id: Some("h&\"i".into()),
    };
    let link = Tag::Link {
        link_type: LinkType::Inline,
        dest_url: "javascript:j\0".into(),
        title: Some("\0".into()),
        id: "".into(),
    };
    let end = heading.to_end();
    let events = vec![
        Event::Html("<div>".into()),
        Event::Start(heading),
        Event::Start(link),
        Event::Text("<k>\0".into()),
        Event::InlineMath("l".into()),
        Event::TaskListMarker(false),
        Event::End(TagEnd::Link),
        Event::End(end),
    ];
    let wanted = "<div>\n<h2 id=\"h&amp;&quot;i\"><a href=\"javascript:j%EF%BF%BD\" title=\"\u{fffd}\">&lt;k&gt;\u{fffd}<code class=\"language-math math-inline\">l</code>\
                  <input type=\"checkbox\" disabled=\"\" /></a></h2>\n";
    assert_eq!(rendered(events), wanted);
}
