//! Holds include/zolvortug.h and src/sys.rs against the Rattle source: both are printed from it, and what is printed
//! must be what stands there, spaces apart. Nothing else checks a declaration.
use std::collections::BTreeMap;
use std::fs;
use std::path::{Path, PathBuf};

fn root() -> PathBuf {
    Path::new(env!("CARGO_MANIFEST_DIR")).join("../..")
}

fn text(path: impl AsRef<Path>) -> String {
    let path = root().join(path);
    fs::read_to_string(&path).unwrap_or_else(|e| panic!("{}: {e}", path.display()))
}

/// All Rattle files under a folder, one after the other, but for what rt keeps in out/.
fn source(dir: &Path, out: &mut String) {
    let mut names: Vec<_> = fs::read_dir(dir)
        .expect("a folder")
        .map(|e| e.expect("an entry").path())
        .collect();
    names.sort();
    for path in names {
        if path.ends_with("out") {
            continue;
        }
        if path.is_dir() {
            source(&path, out);
        } else if path.extension().is_some_and(|e| e == "rt") {
            out.push_str(&text(path));
        }
    }
}

/// Comments gone, and each run of spaces one space, with none beside a bracket.
fn plain(text: &str) -> String {
    let mut rest = text.to_string();
    while let Some(at) = rest.find("/*") {
        let end = rest[at..].find("*/").expect("a comment that ends") + at + 2;
        rest.replace_range(at..end, " ");
    }
    let lines: Vec<&str> = rest.lines().map(|l| l.split("//").next().unwrap_or("")).collect();
    let words: Vec<&str> = lines.iter().flat_map(|l| l.split_whitespace()).collect();
    words
        .join(" ")
        .replace("( ", "(")
        .replace(" )", ")")
        .replace(",)", ")")
        .replace(", }", " }")
}

type Fields = Vec<(String, String)>;

/// The `#[repr(C)]` structs: name to fields. A tuple struct of one number has the field "0".
fn structs(text: &str) -> BTreeMap<String, Fields> {
    let mut found = BTreeMap::new();
    for item in text.split("#[repr(C)]\n#[derive(").skip(1) {
        let (_, item) = item.split_once(")]\npub struct ").expect("a struct");
        let open = item.find(['{', '(']).expect("fields");
        let close = if item[open..].starts_with('{') { '}' } else { ')' };
        let body = &item[open + 1..item.find(close).expect("an end")];
        let fields = body
            .split(',')
            .map(|f| f.trim().trim_start_matches("pub "))
            .filter(|f| !f.is_empty());
        let pair = |f: &str| match f.split_once(": ") {
            Some((name, kind)) => (name.to_string(), kind.to_string()),
            None => ("0".to_string(), f.to_string()),
        };
        found.insert(item[..open].trim().to_string(), fields.map(pair).collect());
    }
    found
}

struct Types(BTreeMap<String, Fields>);

impl Types {
    /// A tuple struct of one number is that number to C.
    fn flat<'a>(&'a self, kind: &'a str) -> &'a str {
        match self.0.get(kind).map(|f| &f[..]) {
            Some([(name, inner)]) if name == "0" => inner,
            _ => kind,
        }
    }

    fn in_c(&self, kind: &str) -> String {
        match self.flat(kind) {
            "u8" => "uint8_t".into(),
            "u16" => "uint16_t".into(),
            "u32" => "uint32_t".into(),
            "u64" => "uint64_t".into(),
            "i64" => "int64_t".into(),
            "usize" => "size_t".into(),
            "f64" => "double".into(),
            "bool" => "bool".into(),
            name => format!("zolvortug_{}", name.to_lowercase()),
        }
    }

    /// A function's inputs in C and in Rust: a slice is a pointer and then a length.
    fn inputs(&self, list: &str) -> (String, String) {
        let (mut c, mut rust) = (vec![], vec![]);
        for input in list.split(',').map(str::trim).filter(|i| !i.is_empty()) {
            let (name, kind) = input.split_once(": ").expect("a type");
            match kind {
                "&mut [u8]" => {
                    c.push(format!("uint8_t *{name}, size_t {name}_len"));
                    rust.push(format!("{name}: *mut u8, {name}_len: usize"));
                }
                "&mut [u32]" => {
                    c.push(format!("uint32_t *{name}, size_t {name}_len"));
                    rust.push(format!("{name}: *mut u32, {name}_len: usize"));
                }
                "&[u8]" => {
                    c.push(format!("const uint8_t *{name}, size_t {name}_len"));
                    rust.push(format!("{name}: *const u8, {name}_len: usize"));
                }
                _ => {
                    c.push(format!("{} {name}", self.in_c(kind)));
                    rust.push(format!("{name}: {}", self.flat(kind)));
                }
            }
        }
        (c.join(", "), rust.join(", "))
    }
}

/// Name, inputs and result of each exported function.
fn exports(own: &str) -> Vec<(String, String, String)> {
    let items = own.split("#[unsafe(no_mangle)]\npub extern \"C\" fn ").skip(1);
    items
        .map(|item| {
            let (name, rest) = item.split_once('(').expect("inputs");
            let (list, rest) = rest.split_once(')').expect("an end");
            let result = rest.split_once("-> ").expect("a result").1;
            (
                name.into(),
                plain(list),
                result.split_whitespace().next().expect("a type").into(),
            )
        })
        .collect()
}

#[test]
fn declarations_are_the_source_s() {
    let (mut all, mut own) = (String::new(), String::new());
    source(&root().join("crates"), &mut all);
    source(&root().join("crates/zolvortug/src"), &mut own);
    let types = Types(structs(&all));
    let exports = exports(&own);
    let (header, sys) = (
        plain(&text("include/zolvortug.h")),
        plain(&text("rust/zolvortug/src/sys.rs")),
    );
    let rust = sys.clone() + &plain(&text("rust/zolvortug/src/lib.rs"));
    assert_eq!(exports.len(), 17, "exported functions");
    for (name, list, result) in &exports {
        let (c, r) = types.inputs(list);
        let c = format!("{} {name}({c});", types.in_c(result));
        let r = format!("pub fn {name}({r}) -> {};", types.flat(result));
        assert!(header.contains(&c), "not in the header: {c}");
        assert!(sys.contains(&r), "not in sys.rs: {r}");
    }
    assert_eq!(
        sys.matches("pub fn zolvortug_").count(),
        exports.len(),
        "functions of sys.rs"
    );
    let passed: Vec<&String> = types
        .0
        .iter()
        .filter(|(name, _)| types.flat(name) == *name)
        .map(|(name, _)| name)
        .collect();
    for name in &passed {
        let fields = &types.0[*name];
        let c: Vec<String> = fields.iter().map(|(f, k)| format!("{} {f};", types.in_c(k))).collect();
        let r: Vec<String> = fields
            .iter()
            .map(|(f, k)| format!("pub {f}: {}", types.flat(k)))
            .collect();
        let c = format!("typedef struct {0} {{ {1} }} {0};", types.in_c(name), c.join(" "));
        let r = format!("pub struct {name} {{ {} }}", r.join(", "));
        assert!(header.contains(&c), "not in the header: {c}");
        assert!(rust.contains(&r), "not in Rust: {r}");
    }
    assert_eq!(
        header.matches("typedef struct").count(),
        passed.len(),
        "structs of the header"
    );
}

/// The report's names and numbers, in the header and in Rust, are those that `kinds` gives.
#[test]
fn reports_are_the_source_s() {
    let kinds = text("crates/kinds/src/lib.rt");
    let (header, rust) = (plain(&text("include/zolvortug.h")), text("rust/zolvortug/src/lib.rs"));
    let mut seen = 0;
    for line in kinds.lines().filter_map(|l| l.trim().strip_prefix("Report::")) {
        let (name, number) = line.trim_end_matches(',').split_once(" => ").expect("a number");
        let upper: String = name.chars().fold(String::new(), |s, c| {
            if c.is_uppercase() {
                s + "_" + &c.to_string()
            } else {
                s + &c.to_uppercase().to_string()
            }
        });
        let c = format!("ZOLVORTUG{upper} = {number}");
        assert!(header.contains(&c), "not in the header: {c}");
        if number != "0" {
            let at = rust.find("const ALL").expect("the list");
            let listed: Vec<&str> = rust[at..]
                .lines()
                .filter_map(|l| l.trim().strip_prefix("Report::"))
                .collect();
            let place: usize = number.parse().expect("a number");
            assert_eq!(listed[place - 1].trim_end_matches(','), name, "report {number}");
        }
        seen += 1;
    }
    assert_eq!(seen, 16, "reports");
}

/// The numbers that the header and Rust both name, and what a reader's step answers.
#[test]
fn constants_are_alike() {
    let header = plain(&text("include/zolvortug.h"));
    for (name, value) in [
        ("BLOCK", format!("{}u", zolvortug::BLOCK)),
        ("MOST", format!("{}u", zolvortug::MOST)),
        ("SAMPLES", format!("{}u", zolvortug::SAMPLES)),
        ("SEQUENCES", format!("{}u", zolvortug::SEQUENCES)),
        ("LARGEST", zolvortug::LARGEST.to_string()),
        ("NOT_TAKEN", "INT32_MIN".into()),
    ] {
        let line = format!("#define ZOLVORTUG_{name} {value} ");
        assert!(header.contains(&line), "not in the header: {line}");
    }
    assert_eq!(zolvortug::NOT_TAKEN, i32::MIN);
    let answers = "enum zolvortug_answer { ZOLVORTUG_ENDED = 0, ZOLVORTUG_PHASE = 1, ZOLVORTUG_GAP = 2 };";
    assert!(header.contains(answers));
}
