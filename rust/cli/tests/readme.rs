//! README.md and docs/ are held against the tree: the picture of the crates, the theorems' places, and every link.
use std::collections::BTreeMap;
use std::fs;
use std::path::{Path, PathBuf};

fn root() -> PathBuf {
    Path::new(env!("CARGO_MANIFEST_DIR")).join("../..")
}

fn text(path: &str) -> String {
    fs::read_to_string(root().join(path)).unwrap_or_else(|e| panic!("{path}: {e}"))
}

/// Each crate of crates.txt, with the crates that it depends on.
fn crates() -> BTreeMap<String, Vec<String>> {
    let line = |l: &str| {
        let (head, rest) = l.split('#').next()?.split_once(':')?;
        let name = head.split_whitespace().next()?;
        Some((name.to_string(), rest.split_whitespace().map(str::to_string).collect()))
    };
    text("crates.txt").lines().filter_map(line).collect()
}

/// The picture's crates, with how far each is to the right.
fn picture() -> Vec<(usize, String)> {
    let readme = text("README.md");
    let (_, section) = readme.split_once("## The crates, bottom up\n").expect("the picture");
    let mut found = Vec::new();
    for line in section.lines().filter_map(|l| l.strip_prefix("    ")) {
        let at = line.find(|c: char| c.is_alphabetic()).unwrap_or(0);
        let names = line[at..].split("  ").next().unwrap_or_default();
        let names = names.split(", ").map(|n| n.split(' ').next().unwrap_or_default());
        found.extend(
            names
                .filter(|n| !n.is_empty() && !n.contains('/') && *n != "|")
                .map(|n| (at, n.to_string())),
        );
    }
    found
}

/// Every crate stands in the picture once, and one that stands under another depends on it.
#[test]
fn the_picture_is_right() {
    let (crates, picture) = (crates(), picture());
    let mut names: Vec<&str> = picture.iter().map(|(_, name)| name.as_str()).collect();
    names.sort();
    assert_eq!(names, crates.keys().collect::<Vec<_>>());
    let mut above: Vec<&(usize, String)> = Vec::new();
    for row in &picture {
        above.retain(|other| other.0 < row.0);
        if let Some((_, parent)) = above.last() {
            assert!(crates[&row.1].contains(parent), "{} does not depend on {parent}", row.1);
        }
        above.push(row);
    }
}

/// Where README says that a theorem or a law stands, it stands.
#[test]
fn theorems_are_where_readme_says() {
    let readme = text("README.md");
    let mut found = 0;
    for part in readme.split("` in `crates/").collect::<Vec<_>>().windows(2) {
        let (name, path) = (part[0].rsplit('`').next().unwrap(), part[1].split('`').next().unwrap());
        let file = text(&format!("crates/{path}"));
        let stated = file
            .lines()
            .any(|l| l.trim_start_matches("pub ").starts_with(&format!("{name} :")));
        assert!(stated, "{name} is not stated in crates/{path}");
        found += 1;
    }
    assert!(found >= 5, "{found}");
}

/// Every link, and every path in backquotes that begins at a folder of the root, leads to something.
#[test]
fn links_lead_somewhere() {
    let docs = [
        "README.md",
        "docs/MANUAL.md",
        "docs/REQUESTS.md",
        "docs/PROMISES.md",
        "docs/DECISIONS.md",
        "docs/BENCHMARKS.md",
    ];
    let folders = ["crates/", "rust/", "docs/", "include/", "examples/", "tools/"];
    let mut found = 0;
    for doc in docs {
        let text = text(doc);
        let folder = root().join(doc).parent().unwrap().to_path_buf();
        let linked = text
            .split("](")
            .skip(1)
            .filter_map(|t| t.split([')', '#']).next())
            .filter(|t| !t.is_empty());
        let quoted = text
            .split('`')
            .skip(1)
            .step_by(2)
            .filter(|t| folders.iter().any(|f| t.starts_with(f)));
        let quoted = quoted.filter(|t| !t.contains(['*', ' ', '<']));
        for path in linked.map(|t| folder.join(t)).chain(quoted.map(|t| root().join(t))) {
            assert!(path.exists(), "{doc}: {}", path.display());
            found += 1;
        }
    }
    assert!(found > 40, "{found}");
}
