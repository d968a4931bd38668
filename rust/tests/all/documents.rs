//! The documents name nothing that is not there: files and folders, wrong programs, theorems and
//! definitions with their files, the headings that links lead to. And the pictures have every crate.

use std::collections::BTreeSet;
use std::fs;
use std::path::{Path, PathBuf};

const PROMISES: &str = "docs/PROMISES.md";
const DOCUMENTS: [&str; 5] =
    ["README.md", PROMISES, "docs/READING.md", "docs/DECISIONS.md", "samples/README.md"];

/// A file or folder of the repository.
fn at(path: &str) -> PathBuf {
    Path::new(concat!(env!("CARGO_MANIFEST_DIR"), "/..")).join(path)
}

/// A file's text; some that a program reads are bytes.
fn read(path: &Path) -> String {
    let bytes = fs::read(path).unwrap_or_else(|error| panic!("{}: {error}", path.display()));
    String::from_utf8_lossy(&bytes).into_owned()
}

/// Whether a line is one of a command or of output, and not of sentences.
fn is_code(line: &str) -> bool {
    line.starts_with("    ")
}

/// What stands between backticks, each with the words from there to the next.
fn quoted(document: &str) -> Vec<(String, String)> {
    let text = read(&at(document));
    let lines: Vec<&str> = text.lines().filter(|line| !is_code(line)).collect();
    let text = lines.join(" ");
    let pieces: Vec<&str> = text.split('`').skip(1).collect();
    assert!(pieces.len().is_multiple_of(2), "{document}: a backtick is not closed");
    pieces.chunks(2).map(|pair| (pair[0].to_string(), pair[1].trim().to_string())).collect()
}

/// What a path in a sentence means. It goes from the root, or from crates/, where definitions and
/// proofs are named without their ending, or it is CRATE/NAME, an edit that must fail.
fn meant(path: &str) -> Option<PathBuf> {
    let (first, rest) = path.split_once('/')?;
    let edit = format!("crates/{first}/must-fail/{rest}.edit");
    let ways = [path.to_string(), format!("crates/{path}"), format!("crates/{path}.antt"), edit];
    ways.iter().map(|way| at(way)).find(|way| way.exists())
}

/// Whether a path stands for many, or for what is built.
fn is_open(path: &str) -> bool {
    let any = ["*", "CRATE", "NAME", "FUNCTION", "FILE"];
    path.starts_with("target/") || any.iter().any(|part| path.contains(part))
}

/// Fails with everything that is wrong, so that one run shows all of it.
fn expect_none(wrong: Vec<String>) {
    assert!(wrong.is_empty(), "{wrong:#?}");
}

#[test]
fn paths_in_sentences() {
    let mut wrong = Vec::new();
    for document in DOCUMENTS {
        for (path, _) in quoted(document) {
            let is_path = path.contains('/') && !path.contains(' ') && !is_open(&path);
            if is_path && meant(&path).is_none() {
                wrong.push(format!("{document}: {path}"));
            }
        }
    }
    expect_none(wrong);
}

/// What `bash` is given, and every word that goes on from a folder at the root.
#[test]
fn paths_in_commands() {
    let mut wrong = Vec::new();
    for document in DOCUMENTS {
        for line in read(&at(document)).lines().filter(|line| is_code(line)) {
            let words: Vec<&str> = line.split_whitespace().collect();
            for (number, word) in words.iter().enumerate() {
                let (folder, _) = word.split_once('/').unwrap_or((".", ""));
                let is_path = folder != "." && at(folder).is_dir()
                    || number > 0 && words[number - 1] == "bash";
                if is_path && !is_open(word) && !at(word).exists() {
                    wrong.push(format!("{document}: {word}"));
                }
            }
        }
    }
    expect_none(wrong);
}

/// The anchors of a document's headings.
fn anchors(document: &Path) -> BTreeSet<String> {
    let text = read(document);
    let headings = text.lines().filter(|line| line.starts_with('#'));
    let kept = |letter: &char| letter.is_alphanumeric() || " -_".contains(*letter);
    headings
        .map(|line| line.trim_start_matches('#').trim().to_lowercase())
        .map(|words| words.chars().filter(kept).collect::<String>().replace(' ', "-"))
        .collect()
}

#[test]
fn links() {
    let mut wrong = Vec::new();
    for document in DOCUMENTS {
        for behind in read(&at(document)).split("](").skip(1) {
            let link = behind.split(')').next().expect("a link ends");
            let (path, anchor) = link.split_once('#').unwrap_or((link, ""));
            let target = match path {
                "" => at(document),
                _ => at(document).with_file_name(path),
            };
            let leads = |target: &Path| anchor.is_empty() || anchors(target).contains(anchor);
            if !target.exists() || !leads(&target) {
                wrong.push(format!("{document}: {link}"));
            }
        }
    }
    expect_none(wrong);
}

/// All files below a folder, but for what a check keeps in a crate's out/.
fn files(folder: &Path) -> Vec<PathBuf> {
    let entries = fs::read_dir(folder).unwrap_or_else(|error| panic!("{folder:?}: {error}"));
    let paths = entries.map(|entry| entry.expect("an entry").path());
    let paths = paths.filter(|path| !path.ends_with("out"));
    paths.flat_map(|path| if path.is_dir() { files(&path) } else { vec![path] }).collect()
}

/// The name that a line of definitions or proofs gives: `name :`, `pub name :`, `pub record Name ..`.
fn given(line: &str) -> Option<&str> {
    let mut words = line.split_whitespace().peekable();
    let opening = ["abbrev", "unfoldable", "pub", "record", "data"];
    let mut opened = false;
    while words.next_if(|word| opening.contains(word)).is_some() {
        opened = true;
    }
    let name = words.next()?;
    (opened || words.next() == Some(":")).then_some(name)
}

/// The name of a function that a line of code begins: `fn name(`, `pub fn name<`.
fn begun(line: &str) -> Option<&str> {
    let line = line.trim_start();
    let behind = line.strip_prefix("pub ").unwrap_or(line).strip_prefix("fn ")?;
    behind.split(['(', '<']).next()
}

/// Whether a name stands in a file of definitions or proofs, or in some file of a folder.
fn stands(name: &str, place: &Path) -> bool {
    let files = if place.is_dir() { files(place) } else { vec![place.to_path_buf()] };
    files.iter().any(|file| read(file).lines().any(|line| given(line) == Some(name)))
}

/// The definitions or proofs that a word names: a path, or a file's name in the folder named last.
fn place_meant(word: &str, folder: &Path) -> Option<PathBuf> {
    let place =
        if word.contains('/') { meant(word)? } else { folder.join(word).with_extension("antt") };
    let last = place.file_name().expect("a name").to_string_lossy().into_owned();
    let is_place = last.ends_with(".antt") || last == "specs" || last == "proofs";
    (is_place && place.exists()).then_some(place)
}

/// `FILE`: `name`, `name`, and `name` of `FILE`.
#[test]
fn names_stand_in_their_files() {
    let (mut folder, mut place, mut wrong) = (at("crates"), None, Vec::new());
    let mut before = (String::new(), String::new());
    for (word, behind) in quoted(PROMISES) {
        let found = place_meant(&word, &folder);
        let named_of = before.1 == "of" && word.starts_with(char::is_uppercase);
        let names_follow = behind == ":" && word.starts_with(char::is_uppercase);
        if (named_of || names_follow) && found.is_none() {
            wrong.push(format!("{word} is not in {}", folder.display()));
        }
        if let Some(found) = found {
            if named_of && !stands(&before.0, &found) {
                wrong.push(format!("{} is not in {}", before.0, found.display()));
            }
            folder = if found.is_dir() { found.clone() } else { found.with_file_name("") };
            place = Some(found).filter(|_| behind == ":");
        } else if let Some(file) = place.take() {
            if !stands(&word, &file) {
                wrong.push(format!("{word} is not in {}", file.display()));
            }
            place = Some(file).filter(|_| behind == ",");
        }
        before = (word, behind);
    }
    expect_none(wrong);
}

/// The names of crates, files and folders, of what is stated or proved, and of the functions of the
/// crates.
fn known_names() -> BTreeSet<String> {
    let mut known = BTreeSet::new();
    for file in ["crates", "rust/compare/src"].iter().flat_map(|folder| files(&at(folder))) {
        known.extend(file.iter().map(|part| part.to_string_lossy().into_owned()));
        known.insert(file.file_stem().expect("a name").to_string_lossy().into_owned());
        let name =
            if file.extension().is_some_and(|ending| ending == "rt") { begun } else { given };
        known.extend(read(&file).lines().filter_map(name).map(str::to_string));
    }
    known
}

/// A call that no proof is kept of is known by its code, and a call that is not there is not known.
#[test]
fn names_that_are_known() {
    let known = known_names();
    assert!(known.contains("make_list") && known.contains("nephinor_run_list"));
    assert!(!known.contains("make_block") && !known.contains("nephinor_list"));
}

/// Every other word is such a name.
#[test]
fn names_are_of_something() {
    let known = known_names();
    let words = quoted(PROMISES).into_iter().map(|(word, _)| word);
    expect_none(words.filter(|word| !word.contains([' ', '/']) && !known.contains(word)).collect());
}

#[test]
fn pictures_have_every_crate() {
    let mut wrong = Vec::new();
    for picture in ["docs/phases.svg", "docs/crates.svg"] {
        let drawn = read(&at(picture));
        let crates = read(&at("crates.txt"));
        let heads = crates.lines().filter_map(|line| line.split_once(':')).map(|(head, _)| head);
        // Behind the name may stand what kind of crate it is.
        let names = heads.filter_map(|head| head.split_whitespace().next());
        let missing = names.filter(|name| !drawn.contains(&format!(">{name}<")));
        wrong.extend(missing.map(|name| format!("{picture}: {name}")));
    }
    expect_none(wrong);
}
