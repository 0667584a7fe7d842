//! The documents hold together: what points to a section of docs/SPECIFICATION.md names a heading that is there, each step is
//! defined somewhere, docs/REFUSALS.md has the wrappers' table, and every path that a page names exists.
use std::collections::BTreeSet;
use std::fs;
use std::path::{Path, PathBuf};

const SPECIFICATION: &str = "docs/SPECIFICATION.md";

/// The sections whose parts are each defined by a file of crates/*/specs.
const DEFINED: [&str; 3] = ["Steps", "Formats", "Beside the matcher"];

fn root() -> PathBuf {
    Path::new(env!("CARGO_MANIFEST_DIR")).join("../..")
}

fn text_of(page: &str) -> String {
    fs::read_to_string(root().join(page)).unwrap_or_else(|error| panic!("{page}: {error}"))
}

fn entries(folder: &Path) -> Vec<PathBuf> {
    let read = fs::read_dir(folder).unwrap_or_else(|error| panic!("{}: {error}", folder.display()));
    let mut paths: Vec<PathBuf> = read.map(|entry| entry.expect("an entry of a folder").path()).collect();
    paths.sort();
    paths
}

fn with_extension(folder: &Path, extension: &str) -> Vec<PathBuf> {
    entries(folder).into_iter().filter(|path| path.extension().is_some_and(|found| found == extension)).collect()
}

/// A path as the documents write it, from the root on.
fn named(path: &Path) -> String {
    path.strip_prefix(root()).expect("a path below the root").to_string_lossy().into_owned()
}

/// All files crates/*/specs/*.antt.
fn definitions() -> Vec<String> {
    let folders = entries(&root().join("crates")).into_iter().map(|one| one.join("specs")).filter(|specs| specs.is_dir());
    folders.flat_map(|specs| with_extension(&specs, "antt")).map(|path| named(&path)).collect()
}

/// The pages whose paths are looked up.
fn pages() -> Vec<String> {
    let docs = with_extension(&root().join("docs"), "md").into_iter().map(|path| named(&path));
    docs.chain(["README.md", "host/README.md"].map(String::from)).collect()
}

/// A page without its fenced blocks, which are programs and what they print.
fn prose(page: &str) -> String {
    let text = text_of(page);
    text.split("```").step_by(2).collect()
}

/// The headings of a page, each with its depth: 1 for `#`, 2 for `##`.
fn headings(page: &str) -> Vec<(usize, String)> {
    let prose = prose(page);
    let lines = prose.lines().filter_map(|line| line.trim_start_matches('#').strip_prefix(' ').map(|name| (line, name)));
    lines.filter(|(line, _)| line.starts_with('#')).map(|(line, name)| (line.len() - name.len() - 1, name.to_string())).collect()
}

/// A text on one line with single spaces, the marks of comments left out, so that a pointer may go on in the next line.
fn on_one_line(text: &str) -> String {
    let words = text.lines().flat_map(|line| line.trim_start_matches("--").split_whitespace());
    words.collect::<Vec<_>>().join(" ")
}

/// The names that stand in quotes, with commas between, at the front of a text.
fn quoted(text: &str) -> Vec<String> {
    let mut names = Vec::new();
    let mut rest = text;
    while let Some((name, after)) = rest.strip_prefix(", \"").and_then(|inside| inside.split_once('"')) {
        names.push(name.to_string());
        rest = after;
    }
    names
}

/// The sections that a text points to, as in `docs/SPECIFICATION.md, "Raw cost"`.
fn pointers(text: &str) -> Vec<String> {
    on_one_line(text).split(SPECIFICATION).skip(1).flat_map(quoted).collect()
}

/// The anchors of the sections that a page links to, as in `SPECIFICATION.md#raw-cost`.
fn anchors(text: &str) -> Vec<String> {
    let links = text.split("(SPECIFICATION.md#").skip(1);
    links.map(|link| link.split(')').next().unwrap_or_default().to_string()).collect()
}

/// The anchor that a heading has: its letters and digits in lower case, a hyphen for each space.
fn anchor_of(heading: &str) -> String {
    let kept = heading.chars().filter(|c| c.is_alphanumeric() || *c == ' ' || *c == '-');
    kept.map(|c| if c == ' ' { '-' } else { c.to_ascii_lowercase() }).collect()
}

fn section_names() -> BTreeSet<String> {
    headings(SPECIFICATION).into_iter().map(|(_, name)| name).collect()
}

/// The headings one deeper below those that are given.
fn parts_of(sections: &[&str]) -> Vec<String> {
    let mut within = false;
    let mut parts = Vec::new();
    for (depth, name) in headings(SPECIFICATION) {
        if depth <= 2 {
            within = sections.contains(&name.as_str());
        } else if within {
            parts.push(name);
        }
    }
    parts
}

/// Each pointer of the definitions and the pages, with the page that it stands in.
fn all_pointers() -> Vec<(String, String)> {
    let others = definitions().into_iter().chain(pages()).filter(|page| page != SPECIFICATION);
    others.flat_map(|page| pointers(&text_of(&page)).into_iter().map(move |name| (page.clone(), name))).collect()
}

#[test]
fn every_pointer_names_a_section() {
    let sections = section_names();
    let found = all_pointers();
    assert!(found.len() > definitions().len() / 2, "only {} pointers to {SPECIFICATION} were found", found.len());
    let wrong: Vec<_> = found.iter().filter(|(_, name)| !sections.contains(name)).collect();
    assert!(wrong.is_empty(), "{SPECIFICATION} has no such sections: {wrong:?}");
}

#[test]
fn every_link_names_a_section() {
    let known: BTreeSet<String> = section_names().iter().map(|name| anchor_of(name)).collect();
    let links = pages().into_iter().flat_map(|page| anchors(&text_of(&page)).into_iter().map(move |anchor| (page.clone(), anchor)));
    let wrong: Vec<_> = links.filter(|(_, anchor)| !known.contains(anchor)).collect();
    assert!(wrong.is_empty(), "{SPECIFICATION} has no such sections: {wrong:?}");
}

#[test]
fn every_step_is_defined_and_stated() {
    let defined: BTreeSet<String> = definitions().iter().flat_map(|page| pointers(&text_of(page))).collect();
    let stated: BTreeSet<String> = anchors(&text_of("docs/STATEMENTS.md")).into_iter().collect();
    let parts = parts_of(&DEFINED);
    assert!(parts.len() > DEFINED.len(), "{SPECIFICATION} has no parts below {DEFINED:?}");
    for part in parts {
        assert!(defined.contains(&part), "no file of crates/*/specs points to {SPECIFICATION}, \"{part}\"");
        assert!(stated.contains(&anchor_of(&part)), "docs/STATEMENTS.md does not link to {SPECIFICATION}, \"{part}\"");
    }
}

/// A section names only sections that are there: `"Requests"` has them in its last column.
#[test]
fn every_request_names_its_sections() {
    let sections = section_names();
    let text = text_of(SPECIFICATION);
    let table = text.split_once("\n## Requests\n").expect("a section on requests").1;
    let rows: Vec<&str> = table.lines().filter(|line| line.starts_with("| W-")).collect();
    assert!(!rows.is_empty(), "no request is listed");
    for row in rows {
        let number = row.trim_start_matches("| ").split(' ').next().expect("a request's number");
        let names: Vec<&str> = row.split('"').skip(1).step_by(2).collect();
        assert!(!names.is_empty() && names.iter().all(|name| sections.contains(*name)), "{number}: {names:?}");
        assert!(root().join(format!("docs/landings/{number}.md")).is_file(), "{number} has no note in docs/landings");
    }
}

/// The first number of each row of the first table of a page that begins with `| No. |`.
fn table_numbers(page: &str) -> Vec<u32> {
    let text = text_of(page);
    let table = text.split_once("\n| No. |").unwrap_or_else(|| panic!("{page} has no table of numbers")).1;
    let rows = table.lines().skip(2).take_while(|line| line.starts_with('|'));
    rows.map(|row| row.split('|').nth(1).and_then(|cell| cell.trim().parse().ok()).unwrap_or_else(|| panic!("{page}: {row}"))).collect()
}

/// The numbers of the wrappers' table, `Name = number: ..`, in its order.
fn wrapper_numbers() -> Vec<u32> {
    let text = text_of("host/plombrisa/src/refusal.rs");
    let table = text.split_once("\nrefusals! {").expect("the wrappers' table").1.split("\n}").next().expect("its end");
    let entries = table.lines().filter_map(|line| line.split_once(" = ").and_then(|(_, rest)| rest.split_once(':')));
    entries.filter_map(|(number, _)| number.parse().ok()).collect()
}

#[test]
fn the_refusals_are_the_wrappers() {
    let wrappers = wrapper_numbers();
    assert!(wrappers.starts_with(&[1, 2, 3]), "the wrappers' table was not read: {wrappers:?}");
    assert_eq!(table_numbers("docs/REFUSALS.md"), wrappers, "docs/REFUSALS.md and host/plombrisa/src/refusal.rs have other numbers");
}

/// What a page names as a path below docs/, host/ or crates/; one with a star, an ellipsis or braces stands for many.
fn paths_in(text: &str) -> Vec<String> {
    let words = text.split(|c: char| c.is_whitespace() || "`()[]\"'|,;<>".contains(c));
    let plain = words.filter(|word| ["docs/", "host/", "crates/"].iter().any(|folder| word.starts_with(folder)));
    let single = plain.filter(|word| !word.contains(['*', '…', '{', '}', '$']) && !word.contains(".."));
    single.map(|word| word.split('#').next().unwrap_or(word).trim_end_matches(['.', ':', '!', '?']).to_string()).collect()
}

/// The targets of a page's links that are no address and no anchor of its own.
fn link_targets(text: &str) -> Vec<String> {
    let targets = text.split("](").skip(1).filter_map(|link| link.split(')').next());
    let relative = targets.filter(|target| !target.contains("://") && !target.starts_with('#') && !target.starts_with("mailto:"));
    relative.map(|target| target.split('#').next().unwrap_or(target).to_string()).collect()
}

/// What a page names and is not there. Fenced blocks are left out, whose words are no paths of ours; commands are indented, and stay.
fn missing_in(page: &str) -> Vec<String> {
    let text = prose(page);
    let beside = root().join(page).parent().expect("a page's folder").to_path_buf();
    let paths = paths_in(&text).into_iter().filter(|path| !root().join(path).exists());
    let links = link_targets(&text).into_iter().filter(|target| !beside.join(target).exists());
    paths.chain(links).map(|path| format!("{page}: {path}")).collect()
}

#[test]
fn every_path_that_a_page_names_exists() {
    let missing: Vec<String> = pages().iter().flat_map(|page| missing_in(page)).collect();
    assert!(missing.is_empty(), "not there:\n{}", missing.join("\n"));
}

/// The names in the first column of the table of packages in host/README.md.
fn listed_packages() -> BTreeSet<String> {
    let text = text_of("host/README.md");
    let table = text.split_once("\n| Package |").expect("a table of packages").1;
    let rows = table.lines().skip(2).take_while(|line| line.starts_with('|'));
    rows.filter_map(|row| row.split('`').nth(1)).map(String::from).collect()
}

/// The members of the workspace, by the names of their folders.
fn workspace_members() -> BTreeSet<String> {
    let text = text_of("host/Cargo.toml");
    let list = text.split_once("\nmembers = [").expect("the workspace's members").1.split(']').next().expect("their end");
    list.split('"').skip(1).step_by(2).map(String::from).collect()
}

#[test]
fn the_hosts_page_lists_its_packages() {
    assert_eq!(listed_packages(), workspace_members(), "host/README.md and host/Cargo.toml have other packages");
}

#[test]
fn paths_and_pointers_are_found_in_a_text() {
    let text = "-- see `docs/USE.md`, host/runs/, crates/*/specs (docs/SPECIFICATION.md,\n-- \"PGM\", \"PFM\"). [a](b.md#c) [d](#e)";
    assert_eq!(paths_in(text), ["docs/USE.md", "host/runs/", "docs/SPECIFICATION.md"]);
    assert_eq!(pointers(text), ["PGM", "PFM"]);
    assert_eq!(link_targets(text), ["b.md"]);
    assert_eq!(anchor_of("Vendor's map"), "vendors-map");
}
