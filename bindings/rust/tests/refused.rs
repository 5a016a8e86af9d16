//! Memory that is refused to the library. The program has a `malloc` of its own, which the library is linked with.
#![cfg(all(target_os = "linux", target_env = "gnu"))]

use markdown_inline::inline::{
    identifier, reference, strings, Events, HtmlOptions, Htmls, Input, Piece, TextContent, Texts,
};
use markdown_inline::{parse, to_html, Error, Options};
use std::cell::Cell;
use std::ffi::c_void;
use std::ptr;

extern "C" {
    fn __libc_malloc(size: usize) -> *mut c_void;
    fn __libc_realloc(old: *mut c_void, size: usize) -> *mut c_void;
}

thread_local! {
    static REFUSES: Cell<bool> = const { Cell::new(false) };
    static ASKED: Cell<usize> = const { Cell::new(0) };
}

/// # Safety
/// As of the C library's.
#[no_mangle]
pub unsafe extern "C" fn malloc(size: usize) -> *mut c_void {
    ASKED.with(|asked| asked.set(asked.get() + 1));
    match REFUSES.with(Cell::get) {
        true => ptr::null_mut(),
        false => __libc_malloc(size),
    }
}

/// # Safety
/// As of the C library's.
#[no_mangle]
pub unsafe extern "C" fn realloc(old: *mut c_void, size: usize) -> *mut c_void {
    match REFUSES.with(Cell::get) {
        true => ptr::null_mut(),
        false => __libc_realloc(old, size),
    }
}

/// What a call answers that gets no memory.
fn refused<T>(call: impl FnOnce() -> T) -> T {
    REFUSES.with(|refuses| refuses.set(true));
    let answer = call();
    REFUSES.with(|refuses| refuses.set(false));
    answer
}

/// How often a call asks for memory.
fn asked<T>(call: impl FnOnce() -> T) -> usize {
    let before = ASKED.with(Cell::get);
    call();
    ASKED.with(Cell::get) - before
}

#[test]
fn refused_memory_is_an_error() {
    let input = Input::new("a *b*").definition("c");
    let mut events = Events::new();
    input.text_into(&mut events).unwrap();
    let contents = [TextContent {
        pieces: 0..1,
        first_of_item: false,
    }];
    let (mut html, mut texts) = (input.html(HtmlOptions::default()).unwrap(), Texts::new());
    let (options, mut htmls) = (HtmlOptions::default(), Htmls::new());
    input.htmls_into(&contents, options, &mut htmls).unwrap();
    let found = [
        refused(|| input.text().map(drop)),
        refused(|| input.text_into(&mut events)),
        refused(|| input.string_into(&mut events)),
        refused(|| input.leaves().map(drop)),
        refused(|| input.html(HtmlOptions::default()).map(drop)),
        refused(|| input.html_into(HtmlOptions::default(), &mut html)),
        refused(|| input.texts(&contents).map(drop)).map_err(Error::from),
        refused(|| input.texts_into(&contents, &mut texts)).map_err(Error::from),
        refused(|| input.short_texts(&contents).map(drop)).map_err(Error::from),
        refused(|| input.htmls(&contents, options).map(drop)).map_err(Error::from),
        refused(|| input.htmls_into(&contents, options, &mut htmls)).map_err(Error::from),
        refused(|| strings("a", &[0..1, 0..1], &[0..2, 0..1]).map(drop)).map_err(Error::from),
        refused(|| Piece::of_lines("a", &[0]).map(drop)).map_err(Error::from),
        refused(|| to_html("a", &Options::commonmark()).map(drop)).map_err(Error::from),
        refused(|| parse("a", &Options::commonmark()).map(drop)).map_err(Error::from),
        refused(|| identifier("A").map(drop)),
        refused(|| reference("&amp;").map(drop)),
    ];
    assert_eq!(found, [Err(Error::NoMemory); 17]);
    assert!(events.is_empty() && html.is_empty() && texts.is_empty() && htmls.is_empty());
    assert!(input.htmls_into(&contents, options, &mut htmls).is_ok() && htmls.len() == 1);
    assert!(input.texts(&contents).is_ok());
    assert!(input.text_into(&mut events).is_ok());
}

/// A call that reads its input twice asks for memory twice as often as one that is lent room enough.
#[test]
fn an_input_is_read_once() {
    let document =
        "Some *words* with `code`, [a link](to/it \"and a title\") and more. ".repeat(20);
    let input = Input::new(&document);
    let contents = [TextContent {
        pieces: 0..1,
        first_of_item: false,
    }];
    let (mut events, mut texts) = (input.text().unwrap(), input.texts(&contents).unwrap());
    let (mut leaves, mut html) = (input.leaves().unwrap(), String::with_capacity(1 << 16));
    let options = HtmlOptions::default();
    let again = [
        asked(|| input.text_into(&mut events)),
        asked(|| input.leaves_into(&mut leaves)),
        asked(|| input.html_into(options, &mut html)),
        asked(|| input.texts_into(&contents, &mut texts)),
    ];
    let first = [
        asked(|| input.text()),
        asked(|| input.leaves()),
        asked(|| input.html(options)),
        asked(|| input.texts(&contents)),
    ];
    let is_once = |(first, again): (&usize, &usize)| *again > 4 && *first <= again + 4;
    assert!(first.iter().zip(&again).all(is_once), "{first:?} {again:?}");
}
