//! Links the static library, if its header `markdown_inline.h` describes the version of the interface that this crate calls. The library stands where
//! `MARKDOWN_INLINE_LIB_DIR` says, with the header in the folder `include` beside it; else in the folder `native` of the crate, as a release packs it; else where pkg-config finds both; else where
//! `bindings/build` leaves them.

use std::env;
use std::fs;
use std::path::{Path, PathBuf};
use std::process::{exit, Command};

include!("src/version.rs");

/// Where the library and its header stand.
struct Place {
    lib: PathBuf,
    include: PathBuf,
}

impl Place {
    /// Beside a folder of libraries stands that of headers.
    fn of(lib: PathBuf) -> Place {
        let include = lib.join("../include");
        Place { lib, include }
    }

    fn archive(&self) -> PathBuf {
        self.lib.join("libmarkdown_inline.a")
    }

    fn header(&self) -> PathBuf {
        self.include.join("markdown_inline.h")
    }
}

/// A folder of the library by its name in the file that pkg-config reads; none where pkg-config is not there, or does not know the library.
fn folder_of(name: &str) -> Option<PathBuf> {
    let command = env::var_os("PKG_CONFIG").unwrap_or_else(|| "pkg-config".into());
    let told = Command::new(command)
        .args([&format!("--variable={name}"), "markdown_inline"])
        .output()
        .ok()
        .filter(|told| told.status.success())?;
    let text = String::from_utf8(told.stdout).ok()?;
    // It writes a backslash before a sign that a shell would read.
    let mut folder = String::new();
    let mut signs = text.trim_end_matches('\n').chars();
    while let Some(sign) = signs.next() {
        folder.push(if sign == '\\' { signs.next()? } else { sign });
    }
    (!folder.is_empty()).then(|| PathBuf::from(folder))
}

/// Where pkg-config finds the library. It knows libraries of this machine alone.
fn installed() -> Option<Place> {
    if env::var_os("TARGET") != env::var_os("HOST") {
        return None;
    }
    let (lib, include) = (folder_of("libdir")?, folder_of("includedir")?);
    Some(Place { lib, include }).filter(|place| place.archive().exists())
}

/// The targets of Rust that a release may pack a library for, and in which folder it stands.
const PACKED: [(&str, &str); 9] = [
    ("x86_64-unknown-linux-gnu", "native"),
    ("x86_64-unknown-linux-musl", "native/x86_64-linux-musl"),
    ("x86_64-pc-windows-gnu", "native/x86_64-windows"),
    ("aarch64-unknown-linux-gnu", "native/aarch64-linux"),
    ("aarch64-unknown-linux-musl", "native/aarch64-linux"),
    ("riscv64gc-unknown-linux-gnu", "native/riscv64-linux"),
    ("riscv64gc-unknown-linux-musl", "native/riscv64-linux"),
    ("aarch64-apple-darwin", "native/aarch64-macos"),
    ("x86_64-apple-darwin", "native/x86_64-macos"),
];

/// The library for the target that a release packs into the crate.
fn packed(here: &Path) -> Option<Place> {
    let target = env::var("TARGET").ok()?;
    let (_, folder) = PACKED.iter().find(|(name, _)| *name == target)?;
    Some(Place::of(here.join(folder).join("lib"))).filter(|place| place.archive().exists())
}

fn place() -> Place {
    if let Some(folder) = env::var_os("MARKDOWN_INLINE_LIB_DIR") {
        return Place::of(folder.into());
    }
    let here = PathBuf::from(env::var_os("CARGO_MANIFEST_DIR").unwrap_or_default());
    packed(&here)
        .or_else(installed)
        .unwrap_or_else(|| Place::of(here.join("../out/lib")))
}

/// The version of the interface that a header describes.
fn version_of(header: &str) -> Option<u32> {
    let (_, rest) = header.split_once("#define MARKDOWN_INLINE_VERSION ")?;
    rest.lines().next()?.trim().parse().ok()
}

fn end(why: &str) -> ! {
    eprintln!("{why}");
    exit(1)
}

fn main() {
    for name in ["MARKDOWN_INLINE_LIB_DIR", "PKG_CONFIG", "PKG_CONFIG_PATH"] {
        println!("cargo:rerun-if-env-changed={name}");
    }
    let place = place();
    let (archive, header) = (place.archive(), place.header());
    let text = fs::read_to_string(&header).unwrap_or_default();
    if text.is_empty() || !archive.exists() {
        end(&format!(
            "{} or {} is not there: set MARKDOWN_INLINE_LIB_DIR to the folder of libmarkdown_inline.a, or PKG_CONFIG_PATH to that of markdown_inline.pc; \
             bindings/build of the repository makes the library",
            archive.display(),
            header.display()
        ));
    }
    if version_of(&text) != Some(VERSION) {
        end(&format!(
            "{} describes another version of the interface than {VERSION}, which this crate calls: take the library of the same release",
            header.display()
        ));
    }
    println!("cargo:rustc-link-search=native={}", place.lib.display());
    println!("cargo:rustc-link-lib=static=markdown_inline");
    println!("cargo:rerun-if-changed={}", archive.display());
    println!("cargo:rerun-if-changed={}", header.display());
    println!(
        "cargo:rustc-env=MARKDOWN_INLINE_HEADER={}",
        header.display()
    );
}
