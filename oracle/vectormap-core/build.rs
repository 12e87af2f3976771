//! Lays out the supplied Rust in OUT_DIR, with the stand-in for `hypot`, our
//! stubs for the files that were not supplied, a few accessors, and, with the
//! feature `ends`, a second answer of the cross-section: what its ends are.
//!
//! The supplied text is read at build time and is no part of this repository.

use std::path::{Path, PathBuf};
use std::{env, fs};

/// Every supplied file, and how often it calls `hypot`.
const SUPPLIED: [(&str, usize); 12] = [
    ("attributes.rs", 0),
    ("diagnostics.rs", 0),
    ("edit/features.rs", 0),
    ("edit/mod.rs", 0),
    ("edit/regulatory.rs", 0),
    ("edit/split.rs", 0),
    ("entities.rs", 0),
    ("geometry/mod.rs", 2),
    ("geometry/polygon.rs", 0),
    ("geometry/polyline.rs", 0),
    ("id.rs", 0),
    ("map.rs", 0),
];

/// Our own text for the modules that were not supplied.
const STUBS: [(&str, &str); 5] = [
    ("topology.rs", "topology.rs"),
    ("ops.rs", "ops.rs"),
    ("edit/lane.rs", "lane.rs"),
    ("edit/merge.rs", "merge.rs"),
    ("edit/road.rs", "road.rs"),
];

/// Ways in to what is private; none changes behaviour.
const ACCESSORS: [(&str, &str); 3] = [
    (
        "geometry/polyline.rs",
        "impl Polyline3 {
            pub fn oracle_locate(&self, station: f64) -> Option<(usize, f64)> {
                self.locate(station)
            }
        }",
    ),
    (
        "map.rs",
        "impl Map {
            pub fn oracle_next_id(&self) -> u64 {
                self.next_id
            }
            pub fn oracle_set_next_id(&mut self, next: u64) {
                self.next_id = next;
            }
        }",
    ),
    (
        "edit/mod.rs",
        "impl ChangeSet {
            pub fn oracle_normalize(&mut self) {
                self.normalize();
            }
        }",
    ),
];

/// Words of ours in the midst of a supplied function. Where they go is told by
/// as few of its words as name one place.
struct Insertion {
    file: &'static str,
    function: &'static str,
    behind: &'static str,
    before: &'static str,
    words: &'static str,
}

/// The walk of a section carries lane and side of the point that it keeps for
/// each end, and tells them beside its answer; a stop line that is placed by it
/// takes them over (src/ends.rs). No value of the supplied text is touched.
const INSERTIONS: [Insertion; 5] = [
    Insertion {
        file: "edit/features.rs",
        function: "cross_section",
        behind: "",
        before: "let mut left:",
        words: "let mut ends = crate::ends::NONE; ",
    },
    Insertion {
        file: "edit/features.rs",
        function: "cross_section",
        behind: "",
        before: "left = Some((",
        words: "ends[0] = (l, side); ",
    },
    Insertion {
        file: "edit/features.rs",
        function: "cross_section",
        behind: "",
        before: "right = Some((",
        words: "ends[1] = (l, side); ",
    },
    Insertion {
        file: "edit/features.rs",
        function: "cross_section",
        behind: "",
        before: "match (left, right)",
        words: "crate::ends::walked(ends); ",
    },
    Insertion {
        file: "edit/features.rs",
        function: "place_stop_line",
        behind: "clamped, lanes)",
        before: "",
        words: ".inspect(|_| crate::ends::place())",
    },
];

fn main() {
    let home = PathBuf::from(env::var_os("CARGO_MANIFEST_DIR").unwrap());
    let out = PathBuf::from(env::var_os("OUT_DIR").unwrap()).join("vectormap");
    println!("cargo:rerun-if-env-changed=VECTORMAP_SRC");
    println!("cargo:rerun-if-changed=build.rs");
    println!("cargo:rerun-if-changed=stubs");
    let supplied = match env::var_os("VECTORMAP_SRC") {
        Some(dir) => PathBuf::from(dir),
        None => home.join("../../../shared/docs/src"),
    }
    .join("crates/vectormap-core/src");

    for dir in ["", "edit", "geometry"] {
        fs::create_dir_all(out.join(dir)).unwrap();
    }
    for (name, calls) in SUPPLIED {
        let path = supplied.join(name);
        println!("cargo:rerun-if-changed={}", path.display());
        let text = read(&path);
        let (mut text, found) = replace_hypot(&text, name);
        assert_eq!(found, calls, "calls of hypot in {name}");
        if env::var_os("CARGO_FEATURE_ENDS").is_some() {
            for i in INSERTIONS.iter().filter(|i| i.file == name) {
                text = insert(&text, i);
            }
        }
        for (file, more) in ACCESSORS {
            if file == name {
                text.push('\n');
                text.push_str(more);
                text.push('\n');
            }
        }
        fs::write(out.join(name), text).unwrap();
    }
    for (name, stub) in STUBS {
        fs::write(out.join(name), read(&home.join("stubs").join(stub))).unwrap();
    }

    // `include!` takes no `mod` with a relative file, so the paths are written out.
    let mut modules = String::new();
    for (name, file) in [
        ("attributes", "attributes.rs"),
        ("diagnostics", "diagnostics.rs"),
        ("edit", "edit/mod.rs"),
        ("entities", "entities.rs"),
        ("geometry", "geometry/mod.rs"),
        ("id", "id.rs"),
        ("map", "map.rs"),
        ("ops", "ops.rs"),
        ("topology", "topology.rs"),
    ] {
        modules.push_str(&format!(
            "#[path = {:?}]\npub mod {name};\n",
            out.join(file)
        ));
    }
    fs::write(out.join("modules.rs"), modules).unwrap();
}

fn read(path: &Path) -> String {
    fs::read_to_string(path).unwrap_or_else(|e| {
        panic!(
            "{}: {e} (set VECTORMAP_SRC to the directory that holds crates/vectormap-core)",
            path.display()
        )
    })
}

/// Turns each `A.hypot(B)` into a call of the stand-in, and counts them.
fn replace_hypot(text: &str, name: &str) -> (String, usize) {
    let mut parts = text.split(".hypot(");
    let mut out = parts.next().unwrap().to_string();
    let mut found = 0;
    for part in parts {
        let start = out
            .rfind(|c: char| !(c.is_ascii_alphanumeric() || c == '_' || c == '.'))
            .map_or(0, |i| i + 1);
        let left = out.split_off(start);
        let (right, rest) = part.split_once(')').expect("a closing bracket");
        let plain = |s: &str| {
            !s.is_empty()
                && s.chars()
                    .all(|c| c.is_ascii_alphanumeric() || c == '_' || c == '.')
        };
        assert!(plain(&left) && plain(right), "a call of hypot in {name}");
        out.push_str(&format!("crate::root_of_squares({left}, {right}){rest}"));
        found += 1;
    }
    assert!(!out.contains("hypot"), "hypot is left in {name}");
    (out, found)
}

/// Puts the words in, or fails where their place is not there exactly once or
/// not in its function.
fn insert(text: &str, i: &Insertion) -> String {
    let anchor = format!("{}{}", i.behind, i.before);
    let found: Vec<usize> = text.match_indices(&anchor).map(|(at, _)| at).collect();
    let [at] = found[..] else {
        panic!("`{anchor}` stands {} times in {}", found.len(), i.file);
    };
    let (head, tail) = text.split_at(at + i.behind.len());
    let last = head.rsplit("fn ").next().unwrap_or_default();
    let within = last.starts_with(&format!("{}(", i.function));
    assert!(within, "`{anchor}` is not within {}", i.function);
    format!("{head}{}{tail}", i.words)
}
