//! Takes the size of a page from where ksmbook has it.

use std::path::{Path, PathBuf};
use std::{env, fs};

const SOURCE: &str = "crates/ksm_base/src/page.rt";
const CONSTANT: &str = "pub const PAGE_WORDS: usize = ";

fn folder(variable: &str) -> PathBuf {
    PathBuf::from(env::var_os(variable).expect("a variable of Cargo"))
}

fn main() {
    let package = folder("CARGO_MANIFEST_DIR");
    let mut above = package.ancestors().map(|top| top.join(SOURCE));
    let source = above.find(|path| path.exists()).expect("the file with the size of a page");
    println!("cargo:rerun-if-changed={}", source.display());
    let text = fs::read_to_string(&source).expect("the text of that file");
    let line = text.lines().find(|line| line.starts_with(CONSTANT)).expect("the size of a page");
    fs::write(
        Path::new(&folder("OUT_DIR")).join("page_words.rs"),
        format!("/// The words of a page, as in `ksm_base`.\n{line}\n"),
    )
    .expect("room for a line");
}
