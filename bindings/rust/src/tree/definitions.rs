//! Link reference definitions. The library returns which lines they are on, and here these are read again for where each one ends.

/// Where the first definition of a text ends, and where the next one begins. The text has nothing but definitions (CommonMark 4.7).
pub(super) fn first_end(text: &str) -> (usize, usize) {
    let url = past(text, 1, ']').map_or(text.len(), |colon| past_gap(text, colon + 1));
    let rest = text.get(url..).unwrap_or("");
    let url_end = match rest.starts_with('<') {
        true => past(text, url + 1, '>').unwrap_or(text.len()),
        false => url + rest.find([' ', '\t', '\n']).unwrap_or(rest.len()),
    };
    let title = past_gap(text, url_end);
    let close = match text.as_bytes().get(title) {
        Some(sign @ (b'"' | b'\'')) if title > url_end => Some(char::from(*sign)),
        Some(b'(') if title > url_end => Some(')'),
        _ => None,
    };
    let title_end = close.and_then(|close| past(text, title + 1, close));
    let end = title_end.unwrap_or(url_end);
    let rest = text.get(end..).unwrap_or("");
    let next = rest.find('\n').map_or(text.len(), |at| end + at + 1);
    (end, next)
}

/// The place after the first of these characters that no backslash escapes.
fn past(text: &str, from: usize, close: char) -> Option<usize> {
    let mut is_escaped = false;
    let mut signs = text.get(from..)?.char_indices();
    let found = signs.find(|(_, sign)| {
        let is_close = *sign == close && !is_escaped;
        is_escaped = *sign == '\\' && !is_escaped;
        is_close
    });
    found.map(|(at, _)| from + at + 1)
}

/// The place after spaces, tabs and at most one line ending.
fn past_gap(text: &str, from: usize) -> usize {
    let rest = text
        .get(from..)
        .unwrap_or("")
        .trim_start_matches([' ', '\t']);
    let rest = rest.strip_prefix('\n').unwrap_or(rest);
    text.len() - rest.trim_start_matches([' ', '\t']).len()
}
