//! Takes the original files from where they stand, adds the marked lines that let the oracle see
//! inside, and makes sure that without those lines each file is the original, byte for byte.
//!
//! The files come from the folder that `REGORUS_DIR` names (a checkout of regorus), or else from
//! `shared/docs/src` beside the repository. Where neither is there, the crate is built without
//! the original and says so.

use std::fs;
use std::path::{Path, PathBuf};

/// Ends each added line.
const MARK: &str = "// added by the oracle's build";

/// The original files, each with the module path under which it is compiled.
const FILES: [&str; 6] = [
    "ast.rs",
    "lexer.rs",
    "lookup.rs",
    "query/traversal.rs",
    "scheduler.rs",
    "utils.rs",
];

/// A line to add: in which file, after which line (or lines: the last one counts), and what.
struct Addition {
    file: &'static str,
    after: &'static str,
    line: &'static str,
}

const ADDITIONS: [Addition; 4] = [
    // One entry of `traverse`.
    Addition {
        file: "query/traversal.rs",
        after: "pub fn traverse(expr: &ExprRef, f: &mut dyn FnMut(&ExprRef) -> Result<bool>) -> Result<()> {\n",
        line: "    crate::probe::enter_traverse()?;",
    },
    // What `schedule` gets for a query.
    Addition {
        file: "scheduler.rs",
        after: "            infos.push(StmtInfo { definitions });\n        }\n\n",
        line: "        crate::probe::record_definitions(query.qidx, &infos);",
    },
    // What `schedule` placed, whether or not that was everything.
    Addition {
        file: "scheduler.rs",
        after: "            if reprocess_var {\n                vars_to_process.push(var);\n            }\n        }\n    }\n\n",
        line: "    crate::probe::record_placed(&order);",
    },
    // What one analysis of a query answered.
    Addition {
        file: "scheduler.rs",
        after: "        let query_schedule = QuerySchedule {\n            scope: scope.clone(),\n            order,\n        };\n",
        line: "        crate::probe::record_analysis(query.qidx, &query_schedule);",
    },
];

fn main() {
    println!("cargo:rerun-if-env-changed=REGORUS_DIR");
    println!("cargo:rerun-if-changed=build.rs");
    println!("cargo:rerun-if-changed=stand-ins");
    println!("cargo:rustc-check-cfg=cfg(original)");
    let Some(source) = source_folder() else {
        println!("cargo:warning=the original files are not at hand: every comparison with the original is skipped");
        return;
    };
    let out = PathBuf::from(std::env::var_os("OUT_DIR").expect("cargo sets OUT_DIR"));
    let stand_ins = manifest_folder().join("stand-ins");
    for file in FILES {
        let original = source.join(file);
        println!("cargo:rerun-if-changed={}", original.display());
        let text = read(&original);
        let mut marked = with_additions(file, &text);
        if file == "ast.rs" && !text.contains("pub struct Query ") {
            marked.push_str(&format!(
                "include!({:?}); {MARK}\n",
                stand_ins.join("ast_rest.rs")
            ));
        }
        assert_eq!(without_marked_lines(&marked), text, "{file} was changed");
        write(&out.join(file), &marked);
    }
    for file in ["depth.rs", "limits.rs"] {
        write(&out.join(file), &read(&stand_ins.join(file)));
    }
    write(&out.join("original.rs"), &modules(&out));
    println!("cargo:rustc-cfg=original");
}

fn manifest_folder() -> PathBuf {
    PathBuf::from(std::env::var_os("CARGO_MANIFEST_DIR").expect("cargo sets it"))
}

/// The folder that holds `scheduler.rs`, if there is one. A folder that was named must have it.
fn source_folder() -> Option<PathBuf> {
    let has = |folder: &Path| folder.join("scheduler.rs").is_file();
    if let Some(named) = std::env::var_os("REGORUS_DIR").filter(|dir| !dir.is_empty()) {
        let folder = PathBuf::from(&named).join("src");
        assert!(
            has(&folder),
            "REGORUS_DIR names {named:?}, which has no src/scheduler.rs"
        );
        return Some(folder);
    }
    let beside = manifest_folder().join("../../../shared/docs/src/src");
    println!("cargo:rerun-if-changed={}", beside.display());
    has(&beside).then_some(beside)
}

fn with_additions(file: &str, text: &str) -> String {
    let mut text = text.to_string();
    for addition in ADDITIONS.iter().filter(|a| a.file == file) {
        assert_eq!(
            text.matches(addition.after).count(),
            1,
            "{file} has not the one place for `{}`",
            addition.line.trim()
        );
        let at = text.find(addition.after).unwrap_or(0) + addition.after.len();
        text.insert_str(at, &format!("{} {MARK}\n", addition.line));
    }
    text
}

fn without_marked_lines(text: &str) -> String {
    text.split_inclusive('\n')
        .filter(|line| !line.trim_end().ends_with(MARK))
        .collect()
}

/// The module items that the crate's root includes: the originals name each other from there.
fn modules(out: &Path) -> String {
    let item = |name: &str, file: &str| {
        format!(
            "#[allow(warnings)]\n#[path = {:?}]\npub mod {name};\n",
            out.join(file)
        )
    };
    let mut text = String::new();
    for name in ["ast", "lexer", "lookup", "scheduler", "utils"] {
        text.push_str(&item(name, &format!("{name}.rs")));
    }
    text.push_str("pub mod query {\n");
    text.push_str(&item("traversal", "query/traversal.rs"));
    text.push_str("}\n");
    text
}

fn read(path: &Path) -> String {
    fs::read_to_string(path).unwrap_or_else(|e| panic!("{}: {e}", path.display()))
}

fn write(path: &Path, text: &str) {
    if let Some(folder) = path.parent() {
        fs::create_dir_all(folder).unwrap_or_else(|e| panic!("{}: {e}", folder.display()));
    }
    fs::write(path, text).unwrap_or_else(|e| panic!("{}: {e}", path.display()));
}
