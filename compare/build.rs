// Takes the Rust library from ../shared/docs/src beside the repository, edits it and writes it to OUT_DIR as two modules:
// `ordered` (its hash tables replaced by ordered ones, its march counted) and `hashed` (its own hash tables, for the benchmark).
// Every edit must apply exactly as often as it says, or the build stops: a changed source is never compared half edited.
// None of that text is kept in this repository. Without the folder the crate is built with `cfg(rust)` unset.
//
// The C face: AKF_FACE names the static library of the proved crate `akfelzun` for this processor. Calls that it does not
// define yet get a stand-in, so that everything links; `LANDED` lists those that it defines.
use std::path::{Path, PathBuf};
use std::{env, fs};

const FILES: [&str; 7] = ["lattice.rs", "ids.rs", "neighbors.rs", "layers/bcc_utils.rs", "layers/tsdf.rs", "layers/esdf.rs", "layers/mesh.rs"];

fn main() {
    println!("cargo:rerun-if-changed=build.rs");
    println!("cargo:rerun-if-changed=src/supplied.rs");
    println!("cargo:rustc-check-cfg=cfg(rust)");
    println!("cargo:rustc-check-cfg=cfg(face)");
    let out = PathBuf::from(env::var("OUT_DIR").unwrap());
    let folder = PathBuf::from(env::var("CARGO_MANIFEST_DIR").unwrap()).join("../../shared/docs/src");
    println!("cargo:rerun-if-changed={}", folder.display());
    if FILES.iter().all(|f| folder.join(f).is_file()) {
        println!("cargo:rustc-cfg=rust");
        for f in FILES {
            println!("cargo:rerun-if-changed={}", folder.join(f).display());
        }
        fs::write(out.join("ordered.rs"), library(&folder, "ordered", true)).unwrap();
        fs::write(out.join("hashed.rs"), library(&folder, "hashed", false)).unwrap();
    }
    face(&out);
    misread(&out);
}

// Misreadings: the plain reading once more for each edit of misread/, with that edit made (only when AKF_MISREAD asks).

fn misread(out: &Path) {
    println!("cargo:rerun-if-env-changed=AKF_MISREAD");
    println!("cargo:rustc-check-cfg=cfg(misread)");
    if env::var_os("AKF_MISREAD").is_none() {
        return;
    }
    println!("cargo:rustc-cfg=misread");
    println!("cargo:rerun-if-changed=misread");
    println!("cargo:rerun-if-changed=src/plain");
    let mut edits: Vec<PathBuf> = fs::read_dir("misread").unwrap().map(|e| e.unwrap().path()).collect();
    edits.sort();
    let (mut text, mut list) = (String::new(), String::from("pub const MISREAD: &[(&str, &str, crate::calls::Side)] = &[\n"));
    for path in edits {
        let edit = fs::read_to_string(&path).unwrap();
        let part = |begins: &str| edit.lines().find_map(|l| l.strip_prefix(begins)).unwrap_or_else(|| panic!("{} lacks {begins}", path.display()));
        let (why, file, old, new) = (part("# "), part("file: "), part("old: "), part("new: "));
        let name = path.file_stem().unwrap().to_str().unwrap();
        text += &format!("#[allow(warnings)]\npub mod {name} {{\n");
        let plain = fs::read_to_string("src/plain/mod.rs").unwrap();
        let (mods, rest): (Vec<&str>, Vec<&str>) = plain.lines().partition(|l| l.starts_with("pub mod "));
        let mut edited = 0;
        let mut taken = |file_name: &str, source: &str| {
            if file_name == file {
                assert!(source.matches(old).count() == 1, "{}: its old text must stand once in {file}", path.display());
                edited += 1;
                source.replace(old, new)
            } else {
                source.to_string()
            }
        };
        text += &taken("mod.rs", &rest.join("\n"));
        for m in mods {
            let module = m.trim_start_matches("pub mod ").trim_end_matches(';');
            let file_name = format!("{module}.rs");
            let source = fs::read_to_string(format!("src/plain/{file_name}")).unwrap();
            text += &format!("\npub mod {module} {{\n{}\n}}\n", taken(&file_name, &source));
        }
        assert!(edited == 1, "{}: no file {file}", path.display());
        text += "}\n";
        text += &format!("crate::reading!({}, {name});\n", name.to_uppercase());
        list += &format!("    (\"{name}\", {why:?}, {}),\n", name.to_uppercase());
    }
    fs::write(out.join("misread.rs"), text + &list + "];\n").unwrap();
}

// The C face

// The names in an archive's own list of symbols (the GNU form: a count, the places, the names, big-endian).
fn symbols(archive: &[u8]) -> Vec<String> {
    assert!(archive.starts_with(b"!<arch>\n"), "AKF_FACE is no archive");
    let head = &archive[8..68];
    assert!(head.starts_with(b"/ "), "AKF_FACE has no list of symbols");
    let size: usize = std::str::from_utf8(&head[48..58]).unwrap().trim().parse().unwrap();
    let list = &archive[68..68 + size];
    let count = u32::from_be_bytes(list[..4].try_into().unwrap()) as usize;
    let names = &list[4 + 4 * count..];
    names.split(|&b| b == 0).take(count).map(|n| String::from_utf8(n.to_vec()).unwrap()).collect()
}

fn face(out: &Path) {
    println!("cargo:rerun-if-env-changed=AKF_FACE");
    let mut landed = Vec::new();
    if let Some(path) = env::var_os("AKF_FACE").filter(|p| !p.is_empty()) {
        let path = fs::canonicalize(&path).expect("AKF_FACE names no file");
        println!("cargo:rerun-if-changed={}", path.display());
        println!("cargo:rustc-link-arg={}", path.display());
        println!("cargo:rustc-cfg=face");
        landed = symbols(&fs::read(&path).unwrap());
    }
    let declared = fs::read_to_string("src/face.rs").unwrap();
    println!("cargo:rerun-if-changed=src/face.rs");
    let mut text = String::from("pub const LANDED: &[&str] = &[\n");
    let mut stand_ins = String::new();
    for line in declared.lines() {
        let Some(rest) = line.trim().strip_prefix("fn akf_") else { continue };
        let name = format!("akf_{}", rest.split(['(', ';']).next().unwrap());
        if landed.contains(&name) {
            text += &format!("    \"{name}\",\n");
        } else {
            stand_ins += &format!("#[no_mangle]\nextern \"C\" fn {name}() -> u32 {{\n    panic!(\"{name} is not in the C face yet\")\n}}\n");
        }
    }
    text += "];\nmod stand_ins {\n";
    text += &stand_ins;
    text += "}\n";
    fs::write(out.join("landed.rs"), text).unwrap();
}

// The Rust

// A source file without its comments, as its items: each with its attributes, in order.
struct Source {
    file: &'static str,
    items: Vec<String>,
}

// The first line that is no attribute.
fn header(item: &str) -> &str {
    item.lines().find(|l| !l.starts_with("#[")).unwrap_or("")
}

impl Source {
    // The layout of rustfmt is relied on: an item ends with a line that begins with a closing bracket or ends with a semicolon.
    fn read(folder: &Path, file: &'static str) -> Source {
        let text = fs::read_to_string(folder.join(file)).unwrap();
        let (mut items, mut item) = (Vec::new(), String::new());
        for line in text.lines().filter(|l| !l.trim_start().starts_with("//") && !l.trim().is_empty()) {
            item += line;
            item.push('\n');
            if line.starts_with('}') || line.starts_with(']') || (!line.starts_with(' ') && line.ends_with(';')) {
                items.push(std::mem::take(&mut item));
            }
        }
        assert!(item.is_empty(), "{file}: an item does not end");
        Source { file, items }
    }

    // Keeps the items whose header begins so, each of which must be there once.
    fn keep(mut self, headers: &[&str]) -> Source {
        for h in headers {
            let found = self.items.iter().filter(|i| header(i).starts_with(h)).count();
            assert!(found == 1, "{}: expected one item `{h}`, found {found}", self.file);
        }
        self.items.retain(|i| headers.iter().any(|h| header(i).starts_with(h)));
        self
    }

    // Drops the items whose header begins so, of which there must be this many.
    fn drop(mut self, times: usize, begins: &str) -> Source {
        let before = self.items.len();
        self.items.retain(|i| !header(i).starts_with(begins));
        assert!(before - self.items.len() == times, "{}: expected {times} of `{begins}`, found {}", self.file, before - self.items.len());
        self
    }

    // Drops a method.
    fn drop_method(mut self, name: &str) -> Source {
        let start = format!("    pub fn {name}(");
        let found = self.items.iter().filter(|i| i.contains(&start)).count();
        assert!(found == 1, "{}: expected one method {name}, found {found}", self.file);
        let item = self.items.iter_mut().find(|i| i.contains(&start)).unwrap();
        let a = item.find(&start).unwrap();
        let b = a + item[a..].find("\n    }\n").unwrap() + "\n    }\n".len();
        item.replace_range(a..b, "");
        self
    }

    // Drops attribute lines that begin so, of which there must be this many.
    fn drop_attribute(mut self, times: usize, begins: &str) -> Source {
        let mut found = 0;
        for item in &mut self.items {
            let kept: Vec<&str> = item.lines().filter(|l| !l.starts_with(begins)).collect();
            found += item.lines().count() - kept.len();
            *item = kept.join("\n") + "\n";
        }
        assert!(found == times, "{}: expected {times} of `{begins}`, found {found}", self.file);
        self
    }

    // Makes everything public: structs and their fields, functions and methods.
    fn open(mut self) -> Source {
        for item in &mut self.items {
            let head = header(item).to_string();
            let fields = head.starts_with("struct ") || head.starts_with("pub struct ");
            let methods = head.starts_with("impl ") && !head.contains(" for ");
            let opened: Vec<String> = item
                .lines()
                .map(|l| {
                    let private = l.starts_with("struct ") || l.starts_with("fn ");
                    let field = fields && l.starts_with("    ") && l.ends_with(',') && !l.trim_start().starts_with("pub ");
                    let method = methods && l.starts_with("    fn ");
                    match (private, field || method) {
                        (true, _) => format!("pub {l}"),
                        (_, true) => format!("    pub {}", l.trim_start()),
                        _ => l.to_string(),
                    }
                })
                .collect();
            *item = opened.join("\n") + "\n";
        }
        self
    }

    // Hash tables to ordered ones, wherever they are named: this many maps and sets.
    fn tables(mut self, ordered: bool, maps: usize, sets: usize) -> Source {
        for (old, new, times) in [("HashMap", "BTreeMap", maps), ("HashSet", "BTreeSet", sets)] {
            let found: usize = self.items.iter().map(|i| i.matches(old).count()).sum();
            assert!(found == times, "{}: expected {times} of {old}, found {found}", self.file);
            if ordered {
                self.items.iter_mut().for_each(|i| *i = i.replace(old, new));
            }
        }
        self
    }

    // Puts a statement after each statement that begins so, of which there must be this many.
    fn after(mut self, times: usize, begins: &str, put: &str) -> Source {
        let mut found = 0;
        for item in &mut self.items {
            let mut at = 0;
            while let Some(a) = item[at..].find(begins) {
                let end = at + a + item[at + a..].find(";\n").unwrap() + 2;
                item.insert_str(end, put);
                at = end + put.len();
                found += 1;
            }
        }
        assert!(found == times, "{}: expected {times} of `{begins}`, found {found}", self.file);
        self
    }

    fn module(self, name: &str, uses: &str) -> String {
        format!("pub mod {name} {{\n{uses}\n{}\n}}\n", self.items.concat())
    }
}

fn library(folder: &Path, name: &str, ordered: bool) -> String {
    let lattice = Source::read(folder, "lattice.rs");
    // Index64 alone, without its text form and serde
    let ids = Source::read(folder, "ids.rs")
        .keep(&["pub struct Index64 {", "impl Index64 {", "impl fmt::Display for Index64 {", "pub type FrameId"])
        .drop_method("to_bech32m")
        .drop_method("from_bech32m")
        .drop_attribute(1, "#[cfg_attr(feature = \"serde\"")
        .open();
    let neighbors = Source::read(folder, "neighbors.rs").keep(&["pub fn neighbors_index64("]);
    let bcc_utils = Source::read(folder, "layers/bcc_utils.rs").open();
    // without the trait `Layer`
    let tsdf = Source::read(folder, "layers/tsdf.rs").drop(1, "impl Layer for ").drop(1, "mod neighbors_ext").drop(1, "use super::").drop(1, "use crate::error").tables(ordered, 4, 0).open();
    let mut esdf = Source::read(folder, "layers/esdf.rs").drop(1, "impl Layer for ").drop(1, "use super::").drop(1, "use ordered_float::").tables(ordered, 3, 3).open();
    if ordered {
        // a march tells its takings, and how many rows and waiting cells it has after each store and each push
        esdf = esdf
            .after(1, "pending.remove(", "crate::counted::taking();\n")
            .after(2, "self.voxels.insert(", "crate::counted::stored(self.voxels.len());\n")
            .after(2, "open.push(", "crate::counted::waiting(open.len());\n");
    }
    let mesh = Source::read(folder, "layers/mesh.rs").tables(ordered, 7, 3).open();

    let mut text = fs::read_to_string("src/supplied.rs").unwrap();
    text += &lattice.module("lattice", "");
    text += &ids.module("ids", "use crate::error::{Error, Result};\nuse crate::morton;\nuse std::fmt;");
    text += &neighbors.module("neighbors", "use crate::ids::Index64;\nuse crate::lattice::BCC_NEIGHBORS_14;");
    text += "pub mod layers {\n";
    text += &bcc_utils.module("bcc_utils", "");
    text += &tsdf.module("tsdf", "use crate::error::Result;");
    text += &esdf.module("esdf", "use crate::ordered_float::OrderedFloat;");
    text += &mesh.module("mesh", "");
    text += "pub use esdf::ESDFLayer;\npub use tsdf::TSDFLayer;\n}\npub use ids::Index64;\n";
    // the library's root is a module here
    text.replace("crate::", &format!("crate::{name}::"))
}
