//! Constructs, names, events and lists of them, by themselves.

use markdown_inline::inline::{
    text, Constructs, Content, HtmlOptions, Input, Joined, Kind, Name, Piece,
};
use markdown_inline::Error;

const HEADER: &str = include_str!(env!("MARKDOWN_INLINE_HEADER"));

/// The rows of a list of the header: the words in the parentheses, below a line with the doc.
fn rows(list: &str) -> Vec<Vec<&'static str>> {
    let from = HEADER.find(list).unwrap() + list.len();
    let lines: Vec<_> = HEADER[from..].lines().skip(1).map(str::trim).collect();
    lines
        .chunks(2)
        .map_while(|pair| {
            let row = pair[1].trim_end_matches(" \\");
            let words = row.strip_prefix("X(")?.strip_suffix(')')?;
            Some(words.split(", ").collect())
        })
        .collect()
}

#[test]
fn names_are_those_of_the_header() {
    let rows = rows("MARKDOWN_INLINE_EACH_NAME(X)");
    assert_eq!(rows.len(), Name::ALL.len());
    assert!(rows.len() > 60);
    for (words, name) in rows.iter().zip(Name::ALL) {
        assert_eq!(words[1].trim_matches('"'), name.to_string());
    }
}

#[test]
fn options_are_those_of_the_header() {
    let rows = rows("MARKDOWN_INLINE_EACH_OPTION(X)");
    assert_eq!(rows.len(), Constructs::ALL.len());
    for (words, (name, option)) in rows.iter().zip(Constructs::ALL) {
        assert_eq!(words[1].trim_matches('"'), *name);
        assert_eq!(words[2], format!("{:#x}", option.bits()));
    }
    for (name, set) in [
        ("COMMONMARK", Constructs::COMMONMARK),
        ("CRATE", Constructs::CRATE),
        ("GFM", Constructs::GFM),
        ("MATH", Constructs::MATH),
    ] {
        let line = format!("    MARKDOWN_INLINE_{name} = {:#x}", set.bits());
        assert!(
            HEADER.lines().any(|it| it.trim_end_matches(',') == line),
            "{line}"
        );
    }
}

#[test]
fn sets_of_options_are_joined_and_taken_out_of_one_another() {
    let (few, many) = (Constructs::from_bits(0b0011), Constructs::from_bits(0b0110));
    assert_eq!((few | many).bits(), 0b0111);
    assert_eq!((few - many).bits(), 0b0001);
    assert_eq!((many - few).bits(), 0b0100);
    assert_eq!(few - few, Constructs::from_bits(0));
    assert_eq!(Constructs::default(), Constructs::COMMONMARK);
    assert_eq!(
        Constructs::CRATE | Constructs::STANDARD_RULES,
        Constructs::COMMONMARK
    );
    assert_eq!(
        HtmlOptions::default().raw_html,
        HtmlOptions::default().any_link
    );
}

#[test]
fn events_are_walked_from_both_ends_and_counted() {
    let events = text("a *b* `c`").unwrap();
    let forth: Vec<_> = events.iter().collect();
    let mut back: Vec<_> = events.iter().rev().collect();
    back.reverse();
    assert_eq!(forth, back);
    assert!(forth.len() > 12 && forth.first() != forth.last());
    let mut left = events.iter();
    for count in (0..events.len()).rev() {
        left.next();
        assert_eq!(left.len(), count);
        assert_eq!(left.size_hint(), (count, Some(count)));
    }
    assert_eq!((left.next(), left.next_back()), (None, None));
    for (number, event) in forth.iter().enumerate() {
        assert_eq!(events.get(number), Some(*event));
    }
    assert_eq!(events.get(events.len()), None);
}

#[test]
fn leaves_are_walked_from_both_ends_and_counted() {
    let leaves = Input::new("a *b* `c`").leaves().unwrap();
    let forth: Vec<_> = leaves.iter().collect();
    let mut back: Vec<_> = leaves.iter().rev().collect();
    back.reverse();
    assert_eq!(forth, back);
    assert!(forth.len() > 4 && forth.first() != forth.last());
    assert_eq!(leaves.iter().size_hint(), (forth.len(), Some(forth.len())));
    assert_eq!(leaves.iter().len(), leaves.len());
}

#[test]
fn an_event_is_shown_as_the_program_prints_it() {
    let events = text("[a](b \"c\nd\")").unwrap();
    let line = |number: usize| events.get(number).unwrap().to_string();
    assert_eq!(line(0), "Enter Link 1 1 0 0");
    assert_eq!(line(21), "Enter Data 1 5 4 0 link String - -");
    assert_eq!(line(32), "Enter Data 1 8 7 0 link String - 34");
    assert_eq!(line(34), "Enter LineEnding 1 9 8 0 link String 32 36");
    assert_eq!(line(36), "Enter Data 2 1 9 0 link String 34 -");
    assert_eq!(line(events.len() - 1), "Exit Link 2 4 12 0");
    let link = events.get(32).unwrap().link.unwrap();
    assert_eq!(
        (link.content, link.previous, link.next),
        (Content::String, None, Some(34))
    );
    assert_eq!(events.get(0).map(|it| it.kind), Some(Kind::Enter));
}

#[test]
fn a_content_need_not_be_a_text() {
    for document in ["a\n\nb", "a\n", "\n"] {
        let input = Input::new(document);
        assert_eq!(input.is_content(), Ok(()));
        assert_eq!(input.is_text(), Err(Error::BlankLine));
        assert!(input.string().is_ok());
    }
    assert_eq!(Input::new("a").is_text(), Ok(()));
}

#[test]
fn a_definition_leads_to_an_empty_address_without_a_title() {
    let html = |input: Input| input.html(HtmlOptions::default()).unwrap();
    assert_eq!(
        html(Input::new("[a]").definition("A")),
        "<a href=\"\">a</a>"
    );
    assert_eq!(
        html(Input::new("[a]").definition_to("A", "/b", None)),
        "<a href=\"/b\">a</a>"
    );
    assert_eq!(
        html(Input::new("[a]").definition_to("A", "/b", Some(""))),
        "<a href=\"/b\" title=\"\">a</a>"
    );
}

#[test]
fn names_are_words_and_options_hold_others() {
    for name in Name::ALL {
        assert_eq!(name.as_str().parse(), Ok(*name));
    }
    assert!("Datum".parse::<Name>().is_err());
    assert_eq!(format!("{:>5}", Name::Data), " Data");
    assert!(Constructs::COMMONMARK.contains(Constructs::ATTENTION | Constructs::STANDARD_RULES));
    assert!(!Constructs::CRATE.contains(Constructs::COMMONMARK));
    let mut options = Constructs::CRATE;
    options |= Constructs::STANDARD_RULES;
    assert_eq!(options, Constructs::COMMONMARK);
    options -= Constructs::STANDARD_RULES;
    assert_eq!(options, Constructs::CRATE);
    assert_eq!(Piece::from(2..7).end, 7);
}

#[test]
fn lists_of_many_are_walked_from_both_ends() {
    let joined: Joined = ["a", "*b*", "`c`\nd"].into_iter().collect();
    let (input, contents) = (joined.input(), joined.contents());
    let (texts, shorts) = (
        input.texts(contents).unwrap(),
        input.short_texts(contents).unwrap(),
    );
    let htmls = input.htmls(contents, HtmlOptions::default()).unwrap();
    assert_eq!(
        (texts.iter().len(), shorts.iter().len(), htmls.iter().len()),
        (3, 3, 3)
    );
    let wanted = ["a", "<em>b</em>", "<code>c</code>\nd"];
    assert!(htmls.iter().eq(wanted));
    assert!(htmls
        .iter()
        .rev()
        .eq([wanted[2], wanted[1], wanted[0]].into_iter()));
    let (mut count, mut last) = (0, None);
    for (events, mut short) in (&texts).into_iter().zip(&shorts) {
        assert!(events
            .iter()
            .map(|it| it.name)
            .eq(short.clone().map(|it| it.name)));
        last = short.next_back();
        count += 1;
    }
    assert_eq!((count, last.map(|it| it.index)), (3, Some(11)));
    assert_eq!(joined.start(2), Some(6));
    assert_eq!(texts, input.texts(contents).unwrap());
    assert_ne!(texts, joined.input().texts(&contents[..2]).unwrap());
}

#[test]
fn a_chain_goes_on_to_its_end() {
    let title = vec!["a"; 60].join("\n");
    let events = text(&format!("[b](c \"{title}\")")).unwrap();
    let start = events
        .iter()
        .position(|it| it.name == Name::ResourceTitleString)
        .unwrap();
    assert_eq!(events.chain(start + 1).count(), 119);
}
