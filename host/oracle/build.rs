//! Builds `root.rs` in OUT_DIR: the module tree over the Rust sources where they
//! stand. The folder that holds `src/util/split.rs` is `$ORACLE_SRC`, counted from
//! the project's root, else `../shared/docs/src` from there. Without it the cfg
//! `sources` stays off. README.md lists every edit.
use std::{
    env, fs,
    path::{Path, PathBuf},
};

const DEFAULT: &str = "../shared/docs/src";

fn main() {
    println!("cargo:rerun-if-env-changed=ORACLE_SRC");
    println!("cargo:rerun-if-changed=build.rs");
    println!("cargo:rustc-check-cfg=cfg(sources)");
    let src = source_folder();
    println!("cargo:rerun-if-changed={}", src.display());
    if !src.join("util/split.rs").is_file() {
        println!("cargo:warning=no Rust sources (ORACLE_SRC): built without them");
        return;
    }
    let out = PathBuf::from(env::var_os("OUT_DIR").unwrap());
    let walk = out.join("split_obj_sections.rs");
    let split = read(&src, "util/split.rs");
    fs::write(&walk, section_loop(&split)).unwrap();
    fs::write(out.join("root.rs"), root(&src, &walk)).unwrap();
    println!("cargo:rustc-env=CTORS_LINE={}", ctors_line(&split));
    println!("cargo:rustc-cfg=sources");
}

fn source_folder() -> PathBuf {
    let here = PathBuf::from(env::var_os("CARGO_MANIFEST_DIR").unwrap());
    let named = env::var_os("ORACLE_SRC").filter(|s| !s.is_empty());
    let base = here.join("../..").join(named.unwrap_or(DEFAULT.into()));
    base.canonicalize().unwrap_or(base).join("src")
}

fn read(src: &Path, name: &str) -> String {
    fs::read_to_string(src.join(name)).unwrap_or_else(|e| panic!("{name}: {e}"))
}

/// The text from the only place of `from` up to the next place of `to`.
fn cut<'a>(text: &'a str, from: &str, to: &str) -> &'a str {
    assert_eq!(text.matches(from).count(), 1, "{from:?} must occur once");
    let start = text.find(from).unwrap();
    let len = text[start..].find(to).unwrap_or_else(|| panic!("{to:?} not found"));
    &text[start..start + len]
}

fn replace_once(text: &str, from: &str, to: &str) -> String {
    assert_eq!(text.matches(from).count(), 1, "{from:?} must occur once");
    text.replace(from, to)
}

/// Where the last four bytes of `.ctors` and `.dtors` are taken: a panic there is 10.
fn ctors_line(split: &str) -> usize {
    let lines: Vec<usize> = (1..)
        .zip(split.lines())
        .filter(|(_, line)| line.contains("data.len() - 4"))
        .map(|(number, _)| number)
        .collect();
    assert_eq!(lines.len(), 1, "one line must take the last four bytes");
    lines[0]
}

/// `split_obj`, ended after its section loop. The original stays in the module too.
fn section_loop(split: &str) -> String {
    let walk = cut(split, "pub fn split_obj(", "    // Update relocations\n");
    let walk = replace_once(walk, "pub fn split_obj(", "pub fn split_obj_sections(");
    let walk = replace_once(
        &walk,
        ") -> Result<Vec<ObjInfo>> {",
        ") -> Result<(Vec<ObjInfo>, Vec<Vec<Option<SymbolIndex>>>)> {",
    );
    format!("{walk}    Ok((objects, object_symbols))\n}}\n")
}

/// `SectionAddress` with its impls, word for word; the rest of cfa.rs is left out.
fn section_address(cfa: &str) -> &str {
    cut(
        cfa,
        "#[derive(Clone, Copy, PartialEq, Eq, PartialOrd, Ord, Hash)]\npub struct SectionAddress {",
        "#[derive(Default, Debug, Clone)]\npub struct FunctionInfo",
    )
}

/// All of util/mod.rs but its list of modules.
fn util_items(util: &str) -> String {
    let kept = util.lines().filter(|l| !l.starts_with("pub mod "));
    kept.map(|l| format!("{l}\n")).collect()
}

fn root(src: &Path, walk: &Path) -> String {
    let quoted = |path: &Path| format!("{:?}", path.to_str().unwrap());
    let path = |name: &str| quoted(&src.join(name));
    format!(
        "#[path = {obj}]\npub mod obj;\n\
         pub mod analysis {{\n\
         pub use crate::shims::analysis::*;\n\
         pub mod cfa {{\n\
         use std::{{fmt::{{Debug, Display, Formatter, UpperHex}}, ops::{{Add, AddAssign, BitAnd, Sub}}}};\n\
         use crate::obj::SectionIndex;\n\
         {cfa}}}\n}}\n\
         pub mod util {{\n{util}\
         pub use crate::shims::{{config, reader, rel}};\n\
         #[path = {comment}]\npub mod comment;\n\
         #[path = {nested}]\npub mod nested;\n\
         #[path = {toposort}]\npub mod toposort;\n\
         pub mod split {{\ninclude!({split});\n\
         /// Sees the private items of split.rs.\n\
         pub mod probe {{\ninclude!(concat!(env!(\"CARGO_MANIFEST_DIR\"), \"/src/probe.rs\"));\n\
         include!({walk});\n}}\n}}\n}}\n",
        obj = path("obj/mod.rs"),
        cfa = section_address(&read(src, "analysis/cfa.rs")),
        util = util_items(&read(src, "util/mod.rs")),
        comment = path("util/comment.rs"),
        nested = path("util/nested.rs"),
        toposort = path("util/toposort.rs"),
        split = path("util/split.rs"),
        walk = quoted(walk),
    )
}
