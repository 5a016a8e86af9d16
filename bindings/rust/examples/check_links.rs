//! Prints each link of Markdown files that leads to a file or to a heading that is not there.
//!
//! usage: check_links FILE..

use markdown_inline::{parse, Document, Options};
use std::collections::{HashMap, HashSet};
use std::path::Path;
use std::{env, error, fs};

/// The ids of headings, as GitHub makes them.
fn anchors(document: &Document) -> HashSet<String> {
    let mut times = HashMap::new();
    let ids = document.headings().map(|heading| {
        let text = heading.node.text().to_lowercase().replace(' ', "-");
        let slug: String = text
            .chars()
            .filter(|it| it.is_alphanumeric() || "-_".contains(*it))
            .collect();
        let count = times.entry(slug.clone()).or_insert(0);
        *count += 1;
        if *count == 1 {
            slug
        } else {
            format!("{slug}-{}", *count - 1)
        }
    });
    ids.collect()
}

/// What is wrong with a destination in a file.
fn fault(file: &str, url: &str) -> Option<&'static str> {
    if url.contains(':') {
        return None;
    }
    let (path, anchor) = url.split_once('#').unwrap_or((url, ""));
    let target = if path.is_empty() {
        file.into()
    } else {
        Path::new(file).with_file_name(path)
    };
    if !target.exists() {
        return Some("no file");
    }
    if anchor.is_empty() || target.extension()? != "md" {
        return None;
    }
    let text = fs::read_to_string(target).ok()?;
    let document = parse(&text, &Options::commonmark()).ok()?;
    (!anchors(&document).contains(anchor)).then_some("no heading")
}

fn main() -> Result<(), Box<dyn error::Error>> {
    for file in env::args().skip(1) {
        let text = fs::read_to_string(&file)?;
        for link in parse(&text, &Options::commonmark())?.links() {
            if let Some(fault) = fault(&file, link.url) {
                println!(
                    "{file}:{}:{}: {fault}: {}",
                    link.node.line(),
                    link.node.column(),
                    link.url
                );
            }
        }
    }
    Ok(())
}
