//! `docs/ORIGINAL.md` says of every function of the files that the analysis is built of where it
//! went, or that it is not reached. Without the original files there is nothing to ask.

#[cfg(original)]
mod with_the_original {
    const PAGE: &str = include_str!("../../../docs/ORIGINAL.md");

    /// The original files as they are compiled.
    const FILES: [&str; 4] = [
        include_str!(concat!(env!("OUT_DIR"), "/scheduler.rs")),
        include_str!(concat!(env!("OUT_DIR"), "/query/traversal.rs")),
        include_str!(concat!(env!("OUT_DIR"), "/utils.rs")),
        include_str!(concat!(env!("OUT_DIR"), "/lookup.rs")),
    ];

    /// The section on where the original's functions went.
    fn section() -> &'static str {
        let heading = "## Its functions, and where each went";
        let (_, after) = PAGE.split_once(heading).expect("the section");
        after.split("\n## ").next().unwrap_or(after)
    }

    /// The name of the function that a line begins to define.
    fn function(line: &str) -> Option<&str> {
        let mut rest = line.trim_start();
        for word in ["pub(crate)", "pub", "const"] {
            rest = rest.strip_prefix(word).unwrap_or(rest).trim_start();
        }
        let name = rest.strip_prefix("fn ")?;
        let length = name.find(|c: char| !c.is_ascii_alphanumeric() && c != '_')?;
        Some(&name[..length])
    }

    #[test]
    fn every_function_of_the_original_is_named() {
        let section = section();
        for (file, least) in FILES.into_iter().zip([20, 7, 15, 10]) {
            let functions: Vec<&str> = file.lines().filter_map(function).collect();
            assert!(functions.len() >= least, "{functions:?}");
            for function in functions {
                let named = section.contains(&format!("`{function}`"));
                let method = section.contains(&format!("::{function}`"));
                assert!(named || method, "{function}");
            }
        }
    }
}

#[test]
fn the_section_is_asked_where_the_original_is_at_hand() {
    if !oracle::AT_HAND {
        println!("skipped: {}", oracle::NotAtHand);
    }
}
